/*
 * Circuits in order of AND depth: their texts byte for byte, with buffers that are just large enough, one byte too
 * small or too large, and what they compute.
 *
 *   ordered FOLDER..
 *
 * A FOLDER has the files circuit, canonical, ordered, bits and outputs: a circuit's text, its canonical text, that of
 * the circuit in order, the bits of its input wires, and those of its output wires for them.
 */
#include "check.h"

static const uint8_t SEED[32] = {3};

struct bytes {
    uint8_t *at;
    size_t size;
};

static struct bytes take(size_t size) {
    struct bytes it = {malloc(size + 1), size};
    CHECK(it.at != NULL);
    memset(it.at, 0xA5, size + 1);
    return it;
}

static struct bytes read_file(const char *folder, const char *name) {
    char path[4096];
    struct bytes it;
    FILE *file;
    snprintf(path, sizeof path, "%s/%s", folder, name);
    file = fopen(path, "rb");
    CHECK(file != NULL && fseek(file, 0, SEEK_END) == 0);
    it = take((size_t)ftell(file));
    rewind(file);
    CHECK(fread(it.at, 1, it.size, file) == it.size);
    fclose(file);
    return it;
}

static halfgates_circuit *read_bytes(struct bytes text) {
    halfgates_circuit *circuit = NULL;
    CHECK_CODE(HALFGATES_OK, halfgates_circuit_read(text.at, text.size, &circuit));
    return circuit;
}

/* The circuit has this canonical text. A buffer that is too small stays as it is, and so does what a larger one has
 * behind the text. */
static void check_text(const halfgates_circuit *circuit, struct bytes expected) {
    size_t written = 7;
    CHECK_CODE(HALFGATES_SMALL_BUFFER, halfgates_circuit_text(circuit, NULL, 0, &written));
    CHECK(written == expected.size);
    for (size_t size = expected.size - 1; size <= expected.size + 1; size++) {
        struct bytes text = take(size);
        written = 7;
        if (size < expected.size) {
            CHECK_CODE(HALFGATES_SMALL_BUFFER, halfgates_circuit_text(circuit, text.at, size, &written));
            for (size_t i = 0; i < size; i++)
                CHECK(text.at[i] == 0xA5);
        } else {
            CHECK_CODE(HALFGATES_OK, halfgates_circuit_text(circuit, text.at, size, &written));
            CHECK(memcmp(text.at, expected.at, expected.size) == 0 && text.at[expected.size] == 0xA5);
        }
        CHECK(written == expected.size);
        free(text.at);
    }
}

/* Both are handles of one circuit: they have the same numbers and the same digest. */
static void check_same(const halfgates_circuit *one, const halfgates_circuit *other) {
    halfgates_numbers numbers[2];
    uint8_t digests[2][32];
    CHECK_CODE(HALFGATES_OK, halfgates_circuit_numbers(one, &numbers[0]));
    CHECK_CODE(HALFGATES_OK, halfgates_circuit_numbers(other, &numbers[1]));
    CHECK(memcmp(&numbers[0], &numbers[1], sizeof numbers[0]) == 0);
    CHECK_CODE(HALFGATES_OK, halfgates_circuit_digest(one, digests[0]));
    CHECK_CODE(HALFGATES_OK, halfgates_circuit_digest(other, digests[1]));
    CHECK(memcmp(digests[0], digests[1], 32) == 0);
}

/* In order of AND depth a circuit stays as it is. */
static void check_again(const halfgates_circuit *ordered, struct bytes text) {
    halfgates_circuit *again = NULL;
    CHECK_CODE(HALFGATES_OK, halfgates_circuit_order(ordered, &again));
    check_text(again, text);
    check_same(again, ordered);
    halfgates_circuit_free(again);
}

/* The label files of the bits, one after another, and their sizes. */
static struct bytes deal(const halfgates_garbling *garbling, const uint32_t *widths, size_t count, const uint8_t *bits,
                         size_t *sizes) {
    struct bytes files = take(0);
    for (uint32_t i = 0; i < count; i++) {
        size_t written;
        sizes[i] = 16 + 16 * (size_t)widths[i];
        files.at = realloc(files.at, files.size + sizes[i]);
        CHECK(files.at != NULL);
        CHECK_CODE(HALFGATES_OK, halfgates_garbling_deal(garbling, i, bits, widths[i], files.at + files.size, sizes[i],
                                                         &written));
        bits += widths[i], files.size += sizes[i];
    }
    return files;
}

/* The circuit has these outputs, in the clear and garbled. */
static void check_outputs(const halfgates_circuit *circuit, struct bytes bits, struct bytes expected) {
    struct bytes outputs = take(expected.size), file = take(halfgates_garbled_size(circuit, 2)), labels;
    halfgates_garbling *garbling = NULL;
    halfgates_job *job = NULL;
    halfgates_numbers numbers;
    uint32_t widths[256];
    size_t sizes[256], written;
    CHECK_CODE(HALFGATES_OK, halfgates_plain(circuit, bits.at, bits.size, outputs.at, outputs.size));
    CHECK(memcmp(outputs.at, expected.at, expected.size) == 0);
    CHECK_CODE(HALFGATES_OK, halfgates_circuit_numbers(circuit, &numbers));
    CHECK_CODE(HALFGATES_OK, halfgates_circuit_input_widths(circuit, widths, numbers.input_values));
    CHECK_CODE(HALFGATES_OK, halfgates_garble(circuit, SEED, &garbling));
    CHECK_CODE(HALFGATES_OK, halfgates_garbling_write(garbling, 2, file.at, file.size, &written));
    labels = deal(garbling, widths, numbers.input_values, bits.at, sizes);
    CHECK_CODE(HALFGATES_OK, halfgates_job_bind(circuit, file.at, file.size, labels.at, labels.size, sizes,
                                                numbers.input_values, &job));
    memset(outputs.at, 0xA5, outputs.size);
    CHECK_CODE(HALFGATES_OK, halfgates_evaluate(job, outputs.at, outputs.size));
    CHECK(memcmp(outputs.at, expected.at, expected.size) == 0);
    halfgates_job_free(job);
    halfgates_garbling_free(garbling);
    free(outputs.at), free(file.at), free(labels.at);
}

static void check_folder(const char *folder) {
    struct bytes text = read_file(folder, "circuit"), canonical = read_file(folder, "canonical");
    struct bytes in_order = read_file(folder, "ordered");
    struct bytes bits = read_file(folder, "bits"), outputs = read_file(folder, "outputs");
    halfgates_circuit *circuit = read_bytes(text), *read = read_bytes(in_order), *ordered = NULL;
    CHECK_CODE(HALFGATES_OK, halfgates_circuit_order(circuit, &ordered));
    CHECK(ordered != NULL && ordered != circuit);
    check_text(circuit, canonical);
    halfgates_circuit_free(circuit);
    check_text(ordered, in_order);
    check_same(ordered, read);
    check_again(ordered, in_order);
    check_outputs(ordered, bits, outputs);
    halfgates_circuit_free(ordered);
    halfgates_circuit_free(read);
    free(text.at), free(canonical.at), free(in_order.at), free(bits.at), free(outputs.at);
}

int main(int count, char **folders) {
    for (int i = 1; i < count; i++)
        check_folder(folders[i]);
    return 0;
}
