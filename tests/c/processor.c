/*
 * Which code of the library an x86-64 processor gets: each feature of x86-64-v3 counts, and nothing else does. Prints
 * what it is here, 1 for x86-64-v3 and else 0, as threads find it that ask at once.
 */
#include "../../c/processor.h"
#include <pthread.h>
#include <stdio.h>

enum { THREADS = 8 };

/* What x86-64-v3 adds to x86-64-v2 by the System V ABI, and the registers that the system has to keep: in the order of
 * the words that has_v3 takes, the bits of leaf 1 (ecx), leaf 7 (ebx), leaf 0x80000001 (ecx) and XCR0. */
static const struct feature {
    const char *name;
    int word, bit;
} FEATURES[] = {
    {"FMA", 0, 12}, {"MOVBE", 0, 22}, {"OSXSAVE", 0, 27}, {"AVX", 0, 28}, {"F16C", 0, 29}, {"BMI1", 1, 3},
    {"AVX2", 1, 5}, {"BMI2", 1, 8},   {"LZCNT", 2, 5},    {"XMM", 3, 1},  {"YMM", 3, 2},
};

static const struct feature *feature_at(int word, int bit) {
    for (size_t i = 0; i < sizeof FEATURES / sizeof *FEATURES; i++)
        if (FEATURES[i].word == word && FEATURES[i].bit == bit)
            return &FEATURES[i];
    return NULL;
}

/* How many bits count otherwise than they should: each is missed in turn where all others are there. */
static int wrong_bits(void) {
    int wrong = 0;
    for (int word = 0; word < 4; word++)
        for (int bit = 0; bit < 32; bit++) {
            uint32_t words[4] = {UINT32_MAX, UINT32_MAX, UINT32_MAX, UINT32_MAX};
            const struct feature *feature = feature_at(word, bit);
            words[word] &= ~(UINT32_C(1) << bit);
            if (has_v3(words) == (feature == NULL))
                continue;
            fprintf(stderr, "bit %d of word %d, %s\n", bit, word, feature ? feature->name : "no feature");
            wrong++;
        }
    return wrong;
}

static void *ask(void *answer) {
    *(int *)answer = is_v3();
    return NULL;
}

int main(void) {
    pthread_t threads[THREADS];
    int answers[THREADS];
    uint32_t words[4] = {0, 0, 0, 0};
    if (wrong_bits() != 0)
        return 1;
    for (size_t i = 0; i < sizeof FEATURES / sizeof *FEATURES; i++) {
        if (has_v3(words))
            return 2;
        words[FEATURES[i].word] |= UINT32_C(1) << FEATURES[i].bit;
    }
    if (!has_v3(words))
        return 3;
    for (int i = 0; i < THREADS; i++)
        if (pthread_create(&threads[i], NULL, ask, &answers[i]) != 0)
            return 4;
    for (int i = 0; i < THREADS; i++)
        if (pthread_join(threads[i], NULL) != 0 || answers[i] != is_v3())
            return 5;
    printf("%d\n", is_v3());
    return 0;
}
