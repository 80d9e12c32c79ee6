/*
 * A block is wiped before it is freed: each byte of it is zero by then, whatever the library wrote there.
 *
 * It is linked with --wrap for malloc, realloc and free.
 */
#include "check.h"

void *__real_malloc(size_t size);
void __real_free(void *at);

/* The blocks that are taken, with their sizes, and how many were freed wiped and not. */
static struct {
    uint8_t *at;
    size_t size;
} blocks[4096];
static size_t wiped, unwiped;

/* Before it is handed out, a block is filled: so one that is never written isn't zero by chance. */
void *__wrap_malloc(size_t size) {
    size_t i = 0;
    while (i < 4096 && blocks[i].at != NULL)
        i++;
    CHECK(i < 4096);
    blocks[i].at = __real_malloc(size);
    blocks[i].size = size;
    CHECK(blocks[i].at != NULL);
    return memset(blocks[i].at, 0x5A, size);
}

/* The library moves blocks by itself: what it would leave behind could not be wiped. */
void *__wrap_realloc(void *at, size_t size) {
    (void)at, (void)size;
    CHECK(!"realloc is called");
    return NULL;
}

void __wrap_free(void *at) {
    size_t i = 0, used = 0;
    if (at == NULL)
        return;
    while (i < 4096 && blocks[i].at != at)
        i++;
    CHECK(i < 4096);
    for (size_t k = 0; k < blocks[i].size; k++)
        used |= blocks[i].at[k];
    *(used ? &unwiped : &wiped) += 1;
    blocks[i].at = NULL;
    __real_free(at);
}

/* That a block which isn't wiped is found. */
static void check_planted(void) {
    free(malloc(40));
    CHECK(unwiped == 1 && wiped == 0);
    unwiped = 0;
}

static void work(const char *path) {
    const uint8_t seed[32] = {9};
    static uint8_t file[1 << 20], labels[1 << 16], bits[512], outputs[512];
    size_t size, sizes[2], at = 0, length = 0;
    halfgates_circuit *circuit = NULL;
    halfgates_garbling *garbling = NULL;
    halfgates_job *job = NULL;
    halfgates_garbler *garblers[2] = {NULL, NULL};
    halfgates_evaluator *evaluator = NULL;
    halfgates_numbers numbers;
    static char text[1 << 21];
    FILE *source = fopen(path, "rb");
    CHECK(source != NULL);
    setvbuf(source, NULL, _IONBF, 0);
    length = fread(text, 1, sizeof text, source);
    CHECK(length < sizeof text && fclose(source) == 0);

    CHECK_CODE(HALFGATES_OK, halfgates_circuit_read((const uint8_t *)text, length, &circuit));
    CHECK_CODE(HALFGATES_OK, halfgates_circuit_numbers(circuit, &numbers));
    CHECK_CODE(HALFGATES_OK, halfgates_garble(circuit, seed, &garbling));
    CHECK_CODE(HALFGATES_OK, halfgates_garbling_write(garbling, 2, file, sizeof file, &size));
    for (uint32_t i = 0; i < 2; i++) {
        CHECK_CODE(HALFGATES_OK,
                   halfgates_deal(circuit, seed, i, bits, 128, labels + at, sizeof labels - at, &sizes[i]));
        at += sizes[i];
    }
    CHECK_CODE(HALFGATES_OK, halfgates_job_bind(circuit, file, size, labels, at, sizes, 2, &job));
    CHECK_CODE(HALFGATES_OK, halfgates_evaluate(job, outputs, numbers.output_wires));
    CHECK_CODE(HALFGATES_OK, halfgates_plain(circuit, bits, numbers.input_wires, outputs, numbers.output_wires));
    /* A garbler and an evaluator that are freed before their end, and a garbler that comes to its end. */
    for (int i = 0; i < 2; i++) {
        CHECK_CODE(HALFGATES_OK, halfgates_garbler_begin(circuit, seed, &garblers[i]));
        CHECK_CODE(HALFGATES_OK, halfgates_garbler_next(garblers[i], file, i ? sizeof file : 3200, &size));
    }
    CHECK_CODE(HALFGATES_OK,
               halfgates_evaluator_begin(circuit, 0, labels, 16 * (size_t)numbers.input_wires, &evaluator));
    CHECK_CODE(HALFGATES_OK, halfgates_evaluator_feed(evaluator, file, 3200, &size));
    halfgates_garbler_free(garblers[0]);
    halfgates_garbler_free(garblers[1]);
    halfgates_evaluator_free(evaluator);
    halfgates_garbling_free(garbling);
    halfgates_job_free(job);
    halfgates_circuit_free(circuit);
}

int main(int count, char **words) {
    CHECK(count == 2);
    check_planted();
    work(words[1]);
    CHECK(unwiped == 0);
    for (size_t i = 0; i < 4096; i++)
        CHECK(blocks[i].at == NULL);
    printf("%zu blocks wiped\n", wiped);
    return 0;
}
