/*
 * Worked circuits, byte for byte, with buffers that are just large enough, one byte too small or too large, and not
 * aligned.
 *
 *   worked FOLDER..
 *
 * A FOLDER has the files circuit, seed, digest, garbled1, garbled2, bits, labels and outputs.
 */
#include "check.h"

/* Bytes at an odd address, with nothing behind them. */
struct bytes {
    uint8_t *room, *at;
    size_t size;
};

static struct bytes take(size_t size) {
    struct bytes it = {malloc(size + 1), NULL, size};
    CHECK(it.room != NULL);
    it.at = it.room + 1;
    memset(it.room, 0xA5, size + 1);
    return it;
}

static struct bytes read_file(const char *folder, const char *name) {
    char path[4096];
    struct bytes it;
    FILE *file;
    snprintf(path, sizeof path, "%s/%s", folder, name);
    file = fopen(path, "rb");
    CHECK(file != NULL && fseek(file, 0, SEEK_END) == 0);
    it = take((size_t)ftell(file));
    rewind(file);
    CHECK(fread(it.at, 1, it.size, file) == it.size);
    fclose(file);
    return it;
}

static int is_untouched(struct bytes it) {
    for (size_t i = 0; i < it.size; i++)
        if (it.at[i] != 0xA5)
            return 0;
    return 1;
}

static int is_same(struct bytes it, const uint8_t *expected, size_t size) {
    return size == 0 || memcmp(it.at, expected, size) == 0;
}

static void check_garbled(halfgates_circuit *circuit, halfgates_garbling *garbling, uint32_t version,
                          struct bytes expected) {
    size_t written = 0;
    CHECK(halfgates_garbled_size(circuit, version) == expected.size);
    for (size_t size = expected.size - 1; size <= expected.size + 1; size++) {
        struct bytes file = take(size);
        if (size < expected.size) {
            CHECK_CODE(HALFGATES_SMALL_BUFFER, halfgates_garbling_write(garbling, version, file.at, size, &written));
            CHECK(is_untouched(file));
        } else {
            CHECK_CODE(HALFGATES_OK, halfgates_garbling_write(garbling, version, file.at, size, &written));
            CHECK(is_same(file, expected.at, expected.size));
            CHECK(size == expected.size || file.at[expected.size] == 0xA5);
        }
        CHECK(written == expected.size);
        free(file.room);
    }
}

/* Deals the label files one after another, and writes the number of bytes of each. */
static void check_labels(halfgates_circuit *circuit, const uint8_t *seed, const uint32_t *widths, size_t count,
                         struct bytes bits, struct bytes expected, size_t *sizes) {
    size_t bit = 0, at = 0, written = 0;
    for (uint32_t i = 0; i < count; i++) {
        const size_t size = 16 + 16 * (size_t)widths[i];
        struct bytes file = take(size), small = take(size - 1);
        const uint8_t *value = bits.at + bit;
        CHECK_CODE(HALFGATES_SMALL_BUFFER,
                   halfgates_deal(circuit, seed, i, value, widths[i], small.at, small.size, &written));
        CHECK(written == size && is_untouched(small));
        if (widths[i] > 0)
            CHECK_CODE(HALFGATES_WRONG_LENGTH,
                       halfgates_deal(circuit, seed, i, value, widths[i] - 1, file.at, size, &written));
        CHECK(is_untouched(file));
        CHECK_CODE(HALFGATES_OK, halfgates_deal(circuit, seed, i, value, widths[i], file.at, size, &written));
        CHECK(written == size && at + size <= expected.size && is_same(file, expected.at + at, size));
        free(file.room);
        free(small.room);
        sizes[i] = size;
        bit += widths[i];
        at += size;
    }
    CHECK(at == expected.size && bit == bits.size);
}

/* What is expected was written and nothing behind it, or, where the code says so, nothing at all. */
static void check_written(struct bytes it, struct bytes expected, int32_t code) {
    if (code != HALFGATES_OK)
        CHECK(is_untouched(it));
    else
        CHECK(is_same(it, expected.at, expected.size) && (it.size == expected.size || it.at[expected.size] == 0xA5));
}

static void check_outputs(halfgates_circuit *circuit, halfgates_job *job, struct bytes bits, struct bytes expected) {
    for (size_t size = expected.size ? expected.size - 1 : 0; size <= expected.size + 1; size++) {
        struct bytes outputs = take(size);
        const int32_t code = size < expected.size ? HALFGATES_SMALL_BUFFER : HALFGATES_OK;
        CHECK_CODE(code, halfgates_evaluate(job, outputs.at, size));
        check_written(outputs, expected, code);
        memset(outputs.at, 0xA5, size);
        CHECK_CODE(code, halfgates_plain(circuit, bits.at, bits.size, outputs.at, size));
        check_written(outputs, expected, code);
        free(outputs.room);
    }
}

static void check_jobs(halfgates_circuit *circuit, struct bytes garbled, struct bytes labels, const size_t *sizes,
                       size_t count, struct bytes bits, struct bytes outputs) {
    halfgates_job *job = NULL;
    CHECK_CODE(HALFGATES_FILE_TRUNCATED, halfgates_job_bind(circuit, garbled.at, garbled.size - 1, labels.at,
                                                            labels.size, sizes, count, &job));
    CHECK(job == NULL);
    CHECK_CODE(HALFGATES_OK,
               halfgates_job_bind(circuit, garbled.at, garbled.size, labels.at, labels.size, sizes, count, &job));
    check_outputs(circuit, job, bits, outputs);
    halfgates_job_free(job);
}

/* Three garblings under one seed, of which two may be made side by side, have the file of that seed. */
static void check_many(halfgates_circuit *circuit, const uint8_t *seed, struct bytes expected) {
    uint8_t seeds[96];
    size_t written;
    halfgates_garbling *garblings[3] = {NULL};
    struct bytes file = take(expected.size);
    for (size_t i = 0; i < 3; i++)
        memcpy(seeds + 32 * i, seed, 32);
    CHECK_CODE(HALFGATES_OK, halfgates_garble_many(circuit, seeds, 3, garblings));
    for (size_t i = 0; i < 3; i++) {
        memset(file.at, 0xA5, file.size);
        CHECK_CODE(HALFGATES_OK, halfgates_garbling_write(garblings[i], 2, file.at, file.size, &written));
        CHECK(is_same(file, expected.at, expected.size));
        halfgates_garbling_free(garblings[i]);
    }
    free(file.room);
}

static void check_folder(const char *folder) {
    struct bytes text = read_file(folder, "circuit"), seed = read_file(folder, "seed");
    struct bytes digest = read_file(folder, "digest"), taken = take(32);
    struct bytes garbled[2] = {read_file(folder, "garbled1"), read_file(folder, "garbled2")};
    struct bytes bits = read_file(folder, "bits"), labels = read_file(folder, "labels");
    struct bytes outputs = read_file(folder, "outputs");
    halfgates_circuit *circuit = NULL;
    halfgates_garbling *garbling = NULL;
    halfgates_numbers numbers;
    uint32_t widths[256];
    size_t sizes[256];

    CHECK_CODE(HALFGATES_OK, halfgates_circuit_read(text.at, text.size, &circuit));
    CHECK_CODE(HALFGATES_OK, halfgates_circuit_digest(circuit, taken.at));
    CHECK(digest.size == 32 && is_same(taken, digest.at, 32));
    CHECK_CODE(HALFGATES_OK, halfgates_circuit_numbers(circuit, &numbers));
    CHECK(numbers.input_wires == bits.size && numbers.output_wires == outputs.size);
    CHECK_CODE(HALFGATES_OK, halfgates_circuit_input_widths(circuit, widths, numbers.input_values));
    CHECK_CODE(HALFGATES_OK, halfgates_garble(circuit, seed.at, &garbling));
    for (uint32_t version = 1; version <= 2; version++)
        check_garbled(circuit, garbling, version, garbled[version - 1]);
    check_many(circuit, seed.at, garbled[1]);
    check_labels(circuit, seed.at, widths, numbers.input_values, bits, labels, sizes);
    for (int i = 0; i < 2; i++)
        check_jobs(circuit, garbled[i], labels, sizes, numbers.input_values, bits, outputs);

    halfgates_circuit_free(circuit);
    halfgates_garbling_free(garbling);
    free(text.room), free(seed.room), free(digest.room), free(taken.room), free(garbled[0].room);
    free(garbled[1].room), free(bits.room), free(labels.room), free(outputs.room);
}

int main(int count, char **folders) {
    for (int i = 1; i < count; i++)
        check_folder(folders[i]);
    return 0;
}
