/*
 * Times the library from C, for library.py: prints the nanoseconds of the fastest of some garblings of a circuit
 * (`garble`), and of garbling it under some seeds and writing each garbled file to memory (`files`), read once
 * (`read`).
 *
 *   library CIRCUIT REPEATS SEEDS
 */
#include <halfgates.h>
#include <stdio.h>
#include <stdlib.h>
#include <time.h>

static int64_t now(void) {
    struct timespec it;
    clock_gettime(CLOCK_MONOTONIC, &it);
    return it.tv_sec * INT64_C(1000000000) + it.tv_nsec;
}

static void check(int32_t code) {
    if (code != HALFGATES_OK) {
        fprintf(stderr, "fault %d %s\n", (int)code, halfgates_fault_name(code).text);
        exit(1);
    }
}

static uint8_t *read_file(const char *name, size_t *size) {
    FILE *file = fopen(name, "rb");
    if (file == NULL || fseek(file, 0, SEEK_END) != 0)
        exit(1);
    *size = (size_t)ftell(file);
    uint8_t *data = malloc(*size + 1);
    rewind(file);
    if (data == NULL || fread(data, 1, *size, file) != *size)
        exit(1);
    fclose(file);
    return data;
}

int main(int count, char **words) {
    if (count != 4)
        return 2;
    const int repeats = atoi(words[2]), seeds = atoi(words[3]);
    size_t size, written;
    uint8_t *text = read_file(words[1], &size), seed[32] = {0};
    halfgates_circuit *circuit = NULL;
    halfgates_garbling *garbling = NULL;
    int64_t start = now(), fastest = INT64_MAX;
    check(halfgates_circuit_read(text, size, &circuit));
    printf("read %lld\n", (long long)(now() - start));
    for (int i = 0; i < repeats; i++) {
        start = now();
        check(halfgates_garble(circuit, seed, &garbling));
        halfgates_garbling_free(garbling);
        const int64_t took = now() - start;
        fastest = took < fastest ? took : fastest;
    }
    printf("garble %lld\n", (long long)fastest);

    size = halfgates_garbled_size(circuit, 2);
    uint8_t *file = malloc(size);
    if (file == NULL)
        exit(1);
    start = now();
    for (int i = 0; i < seeds; i++) {
        seed[0] = (uint8_t)i;
        seed[1] = (uint8_t)(i >> 8);
        check(halfgates_garble(circuit, seed, &garbling));
        check(halfgates_garbling_write(garbling, 2, file, size, &written));
        halfgates_garbling_free(garbling);
    }
    printf("files %lld\n", (long long)(now() - start));
    halfgates_circuit_free(circuit);
    free(file);
    free(text);
    return 0;
}
