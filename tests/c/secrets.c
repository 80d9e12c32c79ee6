/*
 * No branch and no address depends on a secret: seeds, offsets, labels, and bits of values.
 *
 *   valgrind --tool=memcheck secrets CIRCUIT
 *
 * Secrets are marked as undefined, and memcheck reports each branch and each address that depends on undefined bytes.
 * Where a call's result depends on them, as whether each byte of a value is 0 or 1, it may decide that once: CALL says
 * so, and all other calls decide nothing. CIRCUIT is the text of a circuit.
 */
#include "check.h"

#include <valgrind/memcheck.h>

static void hide(const void *at, size_t size) {
    (void)VALGRIND_MAKE_MEM_UNDEFINED(at, size);
}

static void show(const void *at, size_t size) {
    (void)VALGRIND_MAKE_MEM_DEFINED(at, size);
}

/* Makes a call that succeeds, in which at most this many decisions depend on secrets. */
#define CALL(decisions, call) \
    do { \
        const unsigned before = VALGRIND_COUNT_ERRORS; \
        int32_t code = (call); \
        const unsigned found = VALGRIND_COUNT_ERRORS - before; \
        show(&code, sizeof code); \
        if (found > (decisions)) { \
            fprintf(stderr, "%s:%d: %s: %u branches or addresses depend on secrets\n", __FILE__, __LINE__, #call, \
                    found); \
            exit(1); \
        } \
        CHECK_CODE(HALFGATES_OK, code); \
    } while (0)

/* What is planted: bits as the library once read them, and a table that is looked up by a secret. */
static int32_t planted_branches(const uint8_t *bytes, size_t count, uint8_t *bits) {
    for (size_t i = 0; i < count; i++) {
        if (bytes[i] > 1)
            return HALFGATES_BAD_DIGIT;
        bits[i] = bytes[i];
    }
    return HALFGATES_OK;
}

static int32_t planted_address(const uint8_t *bytes, uint8_t *byte) {
    static const uint8_t table[256] = {7};
    *byte = table[bytes[0]];
    return HALFGATES_OK;
}

static void check_that_memcheck_reports(void) {
    uint8_t bytes[8] = {1, 0, 1}, bits[8], byte;
    unsigned before = VALGRIND_COUNT_ERRORS;
    hide(bytes, sizeof bytes);
    CHECK(planted_branches(bytes, sizeof bytes, bits) == HALFGATES_OK);
    CHECK(VALGRIND_COUNT_ERRORS - before == sizeof bytes);
    before = VALGRIND_COUNT_ERRORS;
    hide(bytes, sizeof bytes);
    CHECK(planted_address(bytes, &byte) == HALFGATES_OK);
    CHECK(VALGRIND_COUNT_ERRORS - before == 1);
}

static uint8_t *take(size_t size) {
    uint8_t *at = malloc(size + 1);
    CHECK(at != NULL);
    return at;
}

static char *read_file(const char *path, size_t *size) {
    FILE *file = fopen(path, "rb");
    char *text;
    CHECK(file != NULL && fseek(file, 0, SEEK_END) == 0);
    *size = (size_t)ftell(file);
    rewind(file);
    text = (char *)take(*size);
    CHECK(fread(text, 1, *size, file) == *size);
    fclose(file);
    return text;
}

/* The values of a circuit, and its result. */
struct values {
    halfgates_numbers numbers;
    uint32_t widths[256], output_width;
    uint8_t *bits, *outputs;
};

static struct values make_values(halfgates_circuit *circuit) {
    struct values it;
    CALL(0, halfgates_circuit_numbers(circuit, &it.numbers));
    CALL(0, halfgates_circuit_output_widths(circuit, it.widths, it.numbers.output_values));
    it.output_width = it.widths[0];
    CALL(0, halfgates_circuit_input_widths(circuit, it.widths, it.numbers.input_values));
    it.bits = take(it.numbers.input_wires);
    it.outputs = take(it.numbers.output_wires);
    for (uint32_t i = 0; i < it.numbers.input_wires; i++)
        it.bits[i] = i % 3 == 1;
    hide(it.bits, it.numbers.input_wires);
    CALL(1, halfgates_plain(circuit, it.bits, it.numbers.input_wires, it.outputs, it.numbers.output_wires));
    return it;
}

/* Deals a label file for each value, one after another, and writes their sizes. Their labels are secret. */
static uint8_t *deal(halfgates_circuit *circuit, const uint8_t *seed, const struct values *values, size_t *sizes,
                     size_t *size) {
    size_t bit = 0, written;
    uint8_t *files = take(16 * (size_t)(values->numbers.input_values + values->numbers.input_wires));
    *size = 0;
    for (uint32_t i = 0; i < values->numbers.input_values; i++) {
        const size_t width = values->widths[i];
        sizes[i] = 16 + 16 * width;
        CALL(1, halfgates_deal(circuit, seed, i, values->bits + bit, width, files + *size, sizes[i], &written));
        bit += width;
        *size += sizes[i];
    }
    return files;
}

/* Five jobs: four side by side, and one alone. Of each it is decided once whether its output labels are recognised. */
static void evaluate_many(uint32_t version, halfgates_job *job, const struct values *values) {
    enum { COUNT = 5 };
    const size_t count = values->numbers.output_wires;
    halfgates_job *const jobs[COUNT] = {job, job, job, job, job};
    uint8_t *outputs = take(COUNT * count);
    int32_t codes[COUNT];
    CALL(version == 2 ? COUNT : 0, halfgates_evaluate_many(jobs, COUNT, outputs, COUNT * count));
    show(outputs, COUNT * count);
    for (size_t i = 0; i < COUNT; i++)
        CHECK(memcmp(outputs + i * count, values->outputs, count) == 0);
    CALL(version == 2 ? COUNT : 0, halfgates_evaluate_each(jobs, COUNT, outputs, COUNT * count, codes));
    show(outputs, COUNT * count), show(codes, sizeof codes);
    for (size_t i = 0; i < COUNT; i++)
        CHECK(codes[i] == HALFGATES_OK && memcmp(outputs + i * count, values->outputs, count) == 0);
    free(outputs);
}

/* The evaluator's calls. What is sent to it is public, but for the labels. */
static void evaluate(halfgates_circuit *circuit, uint32_t version, const uint8_t *file, size_t file_size,
                     const uint8_t *labels, size_t labels_size, const size_t *sizes, const struct values *values) {
    const size_t count = values->numbers.output_wires, files = values->numbers.input_values;
    uint8_t *outputs = take(count), *output_labels = take(16 * count);
    halfgates_job *job = NULL;
    CALL(0, halfgates_job_bind(circuit, file, file_size, labels, labels_size, sizes, files, &job));
    CALL(version == 2, halfgates_evaluate(job, outputs, count));
    show(outputs, count);
    CHECK(memcmp(outputs, values->outputs, count) == 0);
    CALL(0, halfgates_job_output_labels(job, output_labels, 16 * count));
    evaluate_many(version, job, values);
    halfgates_job_free(job);
    free(outputs), free(output_labels);
}

static void check_version(halfgates_circuit *circuit, halfgates_garbling *garbling, uint32_t version,
                          const uint8_t *labels, size_t labels_size, const size_t *sizes,
                          const struct values *values) {
    const size_t size = halfgates_garbled_size(circuit, version);
    size_t written;
    uint8_t *file = take(size);
    CALL(0, halfgates_garbling_write(garbling, version, file, size, &written));
    show(file, size);
    evaluate(circuit, version, file, size, labels, labels_size, sizes, values);
    free(file);
}

/* The garbler's calls that send nothing. */
static void look(halfgates_garbling *garbling, const struct values *values) {
    const size_t wires = values->numbers.wires;
    halfgates_wire_labels *labels = malloc(wires * sizeof *labels);
    uint8_t label[16], bit;
    CHECK(labels != NULL);
    CALL(0, halfgates_zero_label(garbling, 0, label));
    CALL(0, halfgates_decode_bit(garbling, 0, &bit));
    CALL(1, halfgates_labels(garbling, values->bits, values->numbers.input_wires, 0, labels, wires));
    free(labels);
}

/* The active labels of wires with these zero labels and bits. */
static uint8_t *choose(const uint8_t *zero, const uint8_t *offset, const uint8_t *bits, size_t wires) {
    uint8_t *active = take(16 * wires);
    for (size_t i = 0; i < 16 * wires; i++)
        active[i] = (uint8_t)(zero[i] ^ (offset[i % 16] & -bits[i / 16]));
    return active;
}

/* Output labels that come back are opened: that each is one of its wire's two is decided once. */
static void open_labels(halfgates_garbling *garbling, const uint8_t *outputs, const struct values *values) {
    uint8_t *bits = take(values->numbers.output_wires);
    CALL(1, halfgates_open(garbling, 0, outputs, 16 * (size_t)values->output_width, bits,
                           values->numbers.output_wires));
    show(bits, values->output_width);
    CHECK(memcmp(bits, values->outputs, values->output_width) == 0);
    free(bits);
}

/* The evaluator's calls with labels of its own. Rows and decode bits are public. */
static void evaluate_labels(halfgates_circuit *circuit, halfgates_garbling *garbling, uint64_t first,
                            const uint8_t *active, const struct values *values) {
    const size_t count = values->numbers.output_wires, inputs = 16 * (size_t)values->numbers.input_wires;
    const size_t rows_size = 32 * (size_t)values->numbers.and_gates;
    uint8_t *rows = take(rows_size), *decode_bits = take(count), *outputs = take(16 * count), *bits = take(count);
    CALL(0, halfgates_rows(garbling, rows, rows_size));
    CALL(0, halfgates_rows_range(garbling, 1, values->numbers.and_gates - 1, rows + 32, rows_size - 32));
    CALL(0, halfgates_decode_bits(garbling, decode_bits, count));
    show(rows, rows_size), show(decode_bits, count);
    CALL(0, halfgates_evaluate_labels(circuit, rows, rows_size, first, active, inputs, outputs, 16 * count));
    CALL(0, halfgates_decode(outputs, 16 * count, decode_bits, count, bits, count));
    show(bits, count);
    CHECK(memcmp(bits, values->outputs, count) == 0);
    open_labels(garbling, outputs, values);
    free(rows), free(decode_bits), free(outputs), free(bits);
}

/* The same as evaluate_labels in pieces of seven row pairs. All is secret but row pairs and decode bits. */
static void stream(halfgates_circuit *circuit, halfgates_garbler *garbler, uint64_t first, const uint8_t *active,
                   const struct values *values) {
    const size_t count = values->numbers.output_wires, inputs = 16 * (size_t)values->numbers.input_wires;
    const size_t room = 16 * (size_t)values->numbers.wires;
    uint8_t *outputs = take(16 * count), *decode_bits = take(count), *bits = take(count), *zero = take(room);
    uint8_t *one = take(room), rows[7 * 32], offset[16];
    size_t written, taken;
    halfgates_evaluator *evaluator = NULL;
    CALL(0, halfgates_garbler_offset(garbler, offset));
    CALL(0, halfgates_garbler_input_labels(garbler, 0, zero, one, room));
    CALL(0, halfgates_evaluator_begin(circuit, first, active, inputs, &evaluator));
    for (written = 1; written > 0;) {
        CALL(0, halfgates_garbler_next(garbler, rows, sizeof rows, &written));
        show(&written, sizeof written), show(rows, sizeof rows);
        CALL(0, halfgates_evaluator_feed(evaluator, rows, written, &taken));
    }
    CALL(0, halfgates_garbler_output_labels(garbler, 0, zero, one, room));
    CALL(0, halfgates_garbler_decode_bits(garbler, decode_bits, count));
    CALL(0, halfgates_evaluator_output_labels(evaluator, outputs, 16 * count));
    show(decode_bits, count);
    CALL(0, halfgates_decode(outputs, 16 * count, decode_bits, count, bits, count));
    show(bits, count);
    CHECK(memcmp(bits, values->outputs, count) == 0);
    halfgates_garbler_free(garbler);
    halfgates_evaluator_free(evaluator);
    free(outputs), free(decode_bits), free(bits), free(zero), free(one);
}

/* Both labels of each wire of the first input value and the first output value, and a label file for the first. */
static void give_labels(halfgates_circuit *circuit, halfgates_garbling *garbling, const uint8_t *active,
                        const struct values *values) {
    const size_t room = 16 * (size_t)values->numbers.wires, width = values->widths[0], size = 16 + 16 * width;
    uint8_t *zero = take(room), *one = take(room), *file = take(size), offset[16];
    size_t written;
    CALL(0, halfgates_offset(garbling, offset));
    CALL(0, halfgates_input_labels(garbling, 0, zero, one, room));
    CALL(0, halfgates_output_labels(garbling, 0, zero, one, room));
    CALL(1, halfgates_garbling_deal(garbling, 0, values->bits, width, file, size, &written));
    CALL(0, halfgates_label_file(circuit, 0, active, 16 * width, file, size, &written));
    free(zero), free(one), free(file);
}

/* Garbles from labels of one's own. That the offset's colour is 1 is decided once. */
static void garble_from_labels(halfgates_circuit *circuit, const struct values *values) {
    const size_t wires = values->numbers.input_wires;
    const uint64_t first = 5;
    uint8_t *zero = take(16 * wires), offset[16], *active;
    halfgates_garbling *garbling = NULL;
    halfgates_garbler *garbler = NULL;
    for (size_t i = 0; i < 16 * wires; i++)
        zero[i] = (uint8_t)(11 * i + i / 16);
    for (size_t i = 0; i < 16; i++)
        offset[i] = (uint8_t)(6 * i + 1);
    hide(zero, 16 * wires), hide(offset, sizeof offset);
    CALL(1, halfgates_garble_from(circuit, offset, zero, 16 * wires, first, &garbling));
    active = choose(zero, offset, values->bits, wires);
    evaluate_labels(circuit, garbling, first, active, values);
    give_labels(circuit, garbling, active, values);
    CALL(1, halfgates_garbler_begin_from(circuit, offset, zero, 16 * wires, first, &garbler));
    stream(circuit, garbler, first, active, values);
    halfgates_garbling_free(garbling);
    free(zero), free(active);
}

/* A garbler under a seed, which is freed after a piece. */
static void begin_under_a_seed(halfgates_circuit *circuit, const uint8_t *seed) {
    uint8_t rows[64];
    size_t written;
    halfgates_garbler *garbler = NULL;
    CALL(0, halfgates_garbler_begin(circuit, seed, &garbler));
    CALL(0, halfgates_garbler_next(garbler, rows, sizeof rows, &written));
    halfgates_garbler_free(garbler);
}

/* Three garblings: two side by side, and one alone. Their files are digested side by side. */
static void garble_many(halfgates_circuit *circuit) {
    uint8_t seeds[96];
    halfgates_garbling *garblings[3] = {NULL};
    for (size_t i = 0; i < sizeof seeds; i++)
        seeds[i] = (uint8_t)(5 * i + i / 32);
    hide(seeds, sizeof seeds);
    CALL(0, halfgates_garble_many(circuit, seeds, 3, garblings));
    for (uint32_t version = 1; version <= 2; version++) {
        const size_t size = 3 * halfgates_garbled_size(circuit, version);
        uint8_t *files = take(size);
        CALL(0, halfgates_write_many(garblings, 3, version, files, size));
        free(files);
    }
    for (size_t i = 0; i < 3; i++)
        halfgates_garbling_free(garblings[i]);
}

int main(int count, char **words) {
    uint8_t seed[32];
    size_t size, sizes[256], labels_size;
    CHECK(count == 2 && RUNNING_ON_VALGRIND);
    check_that_memcheck_reports();

    char *text = read_file(words[1], &size);
    halfgates_circuit *circuit = NULL;
    halfgates_garbling *garbling = NULL;
    CALL(0, halfgates_circuit_read((const uint8_t *)text, size, &circuit));
    struct values values = make_values(circuit);
    show(values.outputs, values.numbers.output_wires);

    for (size_t i = 0; i < sizeof seed; i++)
        seed[i] = (uint8_t)(7 * i + 1);
    hide(seed, sizeof seed);
    CALL(0, halfgates_garble(circuit, seed, &garbling));
    look(garbling, &values);
    uint8_t *labels = deal(circuit, seed, &values, sizes, &labels_size);
    for (uint32_t version = 1; version <= 2; version++)
        check_version(circuit, garbling, version, labels, labels_size, sizes, &values);
    garble_from_labels(circuit, &values);
    begin_under_a_seed(circuit, seed);
    garble_many(circuit);

    halfgates_garbling_free(garbling);
    halfgates_circuit_free(circuit);
    free(values.bits), free(values.outputs), free(labels), free(text);
    return 0;
}
