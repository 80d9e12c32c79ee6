/*
 * Memory is refused at the first growth, the second, and so on, until a whole round needs no more. Each refusal is a
 * Memory code, after which the same call succeeds, and at the end nothing is left.
 *
 * It is linked with --wrap for malloc, realloc and free.
 */
#include "check.h"

void *__real_malloc(size_t size);
void *__real_realloc(void *at, size_t size);
void __real_free(void *at);

static const char AND_GATE[] = "1 3\n2 1 1\n1 1\n\n2 1 0 1 2 AND\n";

static long until_refusal, refusals, growths, live;

/* Whether this growth is the one to refuse. */
static int is_refused(void) {
    growths++;
    if (until_refusal == 0 || --until_refusal > 0)
        return 0;
    refusals++;
    return 1;
}

void *__wrap_malloc(size_t size) {
    void *at = is_refused() ? NULL : __real_malloc(size);
    live += at != NULL;
    return at;
}

void *__wrap_realloc(void *at, size_t size) {
    void *moved = is_refused() ? NULL : __real_realloc(at, size);
    live += at == NULL && moved != NULL;
    return moved;
}

void __wrap_free(void *at) {
    live -= at != NULL;
    __real_free(at);
}

/* Makes a call that may be refused memory. Where that makes it fail, the code is a Memory code, nothing is left, and it
 * succeeds when it is made again. */
#define CALL_THAT_MAY_GO_ON(call) \
    do { \
        const long before = live, refused = refusals; \
        int32_t code = (call); \
        if (code != HALFGATES_OK) { \
            CHECK(refusals > refused && strcmp(halfgates_fault_name(code).text, "Memory") == 0); \
            CHECK(live == before); \
            CHECK_CODE(HALFGATES_OK, call); \
        } \
    } while (0)

/* The same of a call that each refusal makes fail. */
#define CALL(call) \
    do { \
        const long made = refusals; \
        int failed = 0; \
        CALL_THAT_MAY_GO_ON(failed_if(call, &failed)); \
        CHECK(failed == (refusals > made)); \
    } while (0)

static int32_t failed_if(int32_t code, int *failed) {
    *failed |= code != HALFGATES_OK;
    return code;
}

/* Who asks for the size of a garbled file waits for no file. */
static void check_sizes(halfgates_garbling *garbling) {
    const long before = growths;
    uint8_t room[176];
    size_t written;
    for (size_t size = 0; size <= sizeof room; size += sizeof room) {
        CHECK_CODE(HALFGATES_SMALL_BUFFER, halfgates_garbling_write(garbling, 2, room, size, &written));
        CHECK(written == 177 && growths == before);
    }
}

/* The calls from labels to labels, on the full adder: its outputs for three ones are ones. */
static void work_on_labels(halfgates_circuit *circuit, halfgates_garbling *garbling, halfgates_job *job) {
    const uint8_t bit = 1;
    uint8_t offset[16], zeros[48], ones[48], rows[32], decode_bits[2], outputs[32], file[32], bits[2];
    size_t written;
    halfgates_circuit *other = NULL;
    halfgates_garbling *own = NULL;
    CALL(halfgates_circuit_share(circuit, &other));
    CALL(halfgates_offset(garbling, offset));
    for (uint32_t i = 0; i < 3; i++)
        CALL(halfgates_input_labels(garbling, i, zeros + 16 * i, ones + 16 * i, 16));
    CALL(halfgates_garble_from(other, offset, zeros, sizeof zeros, 5, &own));
    CALL(halfgates_garbling_deal(own, 0, &bit, 1, file, sizeof file, &written));
    CALL(halfgates_label_file(other, 0, ones, 16, file, sizeof file, &written));
    CALL(halfgates_rows(own, rows, sizeof rows));
    CALL(halfgates_decode_bits(own, decode_bits, sizeof decode_bits));
    CALL(halfgates_evaluate_labels(other, rows, sizeof rows, 5, ones, sizeof ones, outputs, sizeof outputs));
    CALL(halfgates_decode(outputs, sizeof outputs, decode_bits, 2, bits, sizeof bits));
    CHECK(bits[0] == 1 && bits[1] == 1);
    CALL(halfgates_output_labels(own, 0, zeros, ones, 32));
    CHECK(memcmp(outputs, ones, 32) == 0);
    CALL(halfgates_job_output_labels(job, outputs, sizeof outputs));
    halfgates_garbling_free(own);
    halfgates_circuit_free(other);
}

/* Garbles and evaluates in pieces. Each growth is one of the calls that begin: none of the others allocates. */
static void stream(halfgates_circuit *circuit) {
    const uint8_t seed[32] = {8}, bits[3] = {1, 1, 0};
    uint8_t offset[16], zeros[2][48], ones[2][48], active[48], rows[32], decode_bits[2], outputs[32], found[2];
    size_t written, taken;
    halfgates_garbler *garblers[2] = {NULL, NULL};
    halfgates_evaluator *evaluator = NULL;
    CALL(halfgates_garbler_begin(circuit, seed, &garblers[0]));
    CALL(halfgates_garbler_offset(garblers[0], offset));
    for (uint32_t i = 0; i < 3; i++)
        CALL(halfgates_garbler_input_labels(garblers[0], i, zeros[0] + 16 * i, ones[0] + 16 * i, 16));
    CALL(halfgates_garbler_begin_from(circuit, offset, zeros[0], sizeof zeros[0], 0, &garblers[1]));
    for (size_t i = 0; i < 48; i++)
        active[i] = (bits[i / 16] ? ones : zeros)[0][i];
    CALL(halfgates_evaluator_begin(circuit, 0, active, sizeof active, &evaluator));
    const long before = growths;
    for (int i = 0; i < 2; i++) {
        CHECK_CODE(HALFGATES_UNFINISHED, halfgates_garbler_decode_bits(garblers[i], decode_bits, 2));
        CHECK_CODE(HALFGATES_OK, halfgates_garbler_next(garblers[i], rows, sizeof rows, &written));
        CHECK_CODE(HALFGATES_OK, halfgates_garbler_output_labels(garblers[i], 0, zeros[i], ones[i], 32));
        CHECK_CODE(HALFGATES_OK, halfgates_garbler_decode_bits(garblers[i], decode_bits, 2));
        CHECK_CODE(HALFGATES_OK, halfgates_garbler_next(garblers[i], rows, sizeof rows, &taken));
        CHECK(written == 32 && taken == 0);
    }
    CHECK_CODE(HALFGATES_OK, halfgates_evaluator_feed(evaluator, rows, sizeof rows, &taken));
    CHECK_CODE(HALFGATES_OK, halfgates_evaluator_output_labels(evaluator, outputs, sizeof outputs));
    CHECK(taken == 32 && growths == before);
    CALL(halfgates_decode(outputs, sizeof outputs, decode_bits, 2, found, sizeof found));
    CHECK(found[0] == 0 && found[1] == 1);
    halfgates_garbler_free(garblers[0]);
    halfgates_garbler_free(garblers[1]);
    halfgates_evaluator_free(evaluator);
}

/* A range of row pairs, and labels that are opened. */
static void give(halfgates_garbling *garbling) {
    uint8_t zero[32], one[32], rows[32], bits[2];
    CALL(halfgates_output_labels(garbling, 0, zero, one, 32));
    CALL(halfgates_rows_range(garbling, 0, 1, rows, sizeof rows));
    CALL(halfgates_open(garbling, 0, one, sizeof one, bits, sizeof bits));
    CHECK(bits[0] == 1 && bits[1] == 1);
}

/* Five garblings, which are those under each seed alone: two pairs and one more. After a refusal none is left. */
static void garble_many(halfgates_circuit *circuit) {
    enum { COUNT = 5 };
    uint8_t seeds[32 * COUNT], garbled[177], expected[177];
    size_t written;
    halfgates_garbling *garblings[COUNT] = {NULL}, *alone = NULL;
    for (size_t i = 0; i < sizeof seeds; i++)
        seeds[i] = (uint8_t)(3 * i + i / 32);
    CALL(halfgates_garble_many(circuit, seeds, COUNT, garblings));
    for (size_t i = 0; i < COUNT; i++) {
        CALL(halfgates_garble(circuit, seeds + 32 * i, &alone));
        CALL(halfgates_garbling_write(alone, 2, expected, sizeof expected, &written));
        CALL(halfgates_garbling_write(garblings[i], 2, garbled, sizeof garbled, &written));
        CHECK(memcmp(garbled, expected, sizeof garbled) == 0);
        halfgates_garbling_free(alone);
        halfgates_garbling_free(garblings[i]);
    }
}

/* Nine files, of the full adder but for one in the middle: each is the one that is written alone. */
static void write_many(halfgates_circuit *circuit) {
    enum { COUNT = 9, ONE = 4 };
    uint8_t seed[32] = {0}, files[COUNT * 177], expected[177];
    size_t written, at = 0;
    halfgates_circuit *and_gate = NULL;
    halfgates_garbling *garblings[COUNT] = {NULL};
    CALL(halfgates_circuit_read((const uint8_t *)AND_GATE, strlen(AND_GATE), &and_gate));
    for (uint8_t i = 0; i < COUNT; i++) {
        seed[0] = i;
        CALL(halfgates_garble(i == ONE ? and_gate : circuit, seed, &garblings[i]));
    }
    halfgates_circuit_free(and_gate);
    CALL(halfgates_write_many(garblings, COUNT, 2, files, sizeof files));
    for (size_t i = 0; i < COUNT; i++) {
        CALL(halfgates_garbling_write(garblings[i], 2, expected, sizeof expected, &written));
        CHECK(memcmp(files + at, expected, written) == 0);
        at += written;
        halfgates_garbling_free(garblings[i]);
    }
}

/* Nine jobs, of the full adder but for one in the middle. */
enum { JOBS = 9, ONE = 4 };

/* Evaluates jobs that have these bits, each with a code of its own. Where one is refused memory, the others have their
 * bits. */
static void evaluate_each(halfgates_job *const *jobs, const uint8_t *expected) {
    const long before = live, refused = refusals;
    uint8_t bits[2 * JOBS - 1];
    int32_t codes[JOBS];
    memset(bits, 2, sizeof bits);
    const int32_t code = halfgates_evaluate_each(jobs, JOBS, bits, sizeof bits, codes);
    CHECK(live == before);
    if (code != HALFGATES_OK) {
        CHECK_CODE(HALFGATES_MEMORY, code);
        CHECK(refusals > refused);
        return;
    }
    for (size_t i = 0, at = 0; i < JOBS; i++) {
        const size_t wires = i == ONE ? 1 : 2;
        CHECK(codes[i] == HALFGATES_OK || (codes[i] == HALFGATES_JOB_MEMORY && refusals > refused));
        for (size_t k = at; k < at + wires; k++)
            CHECK(bits[k] == (codes[i] == HALFGATES_OK ? expected[k] : 2));
        at += wires;
    }
}

/* Each job has the bits that it has alone. Jobs that are refused memory side by side are evaluated alone. */
static void evaluate_many(halfgates_circuit *circuit) {
    const uint8_t seed[32] = {6};
    const size_t sizes[3] = {32, 32, 32};
    uint8_t garbled[177], labels[96], outputs[2 * JOBS - 1], alone[2];
    size_t written;
    halfgates_circuit *and_gate = NULL;
    halfgates_job *jobs[JOBS] = {NULL};
    CALL(halfgates_circuit_read((const uint8_t *)AND_GATE, strlen(AND_GATE), &and_gate));
    for (uint8_t i = 0; i < JOBS; i++) {
        halfgates_circuit *of = i == ONE ? and_gate : circuit;
        const size_t values = i == ONE ? 2 : 3, size = halfgates_garbled_size(of, 2);
        halfgates_garbling *garbling = NULL;
        CALL(halfgates_garble(of, seed, &garbling));
        CALL(halfgates_garbling_write(garbling, 2, garbled, sizeof garbled, &written));
        for (uint32_t k = 0; k < values; k++) {
            const uint8_t bit = i >> k & 1;
            CALL(halfgates_garbling_deal(garbling, k, &bit, 1, labels + 32 * k, 32, &written));
        }
        CALL(halfgates_job_bind(of, garbled, size, labels, 32 * values, sizes, values, &jobs[i]));
        halfgates_garbling_free(garbling);
    }
    halfgates_circuit_free(and_gate);
    CALL_THAT_MAY_GO_ON(halfgates_evaluate_many(jobs, JOBS, outputs, sizeof outputs));
    for (size_t i = 0, at = 0; i < JOBS; i++) {
        const size_t count = i == ONE ? 1 : 2;
        CALL(halfgates_evaluate(jobs[i], alone, count));
        CHECK(memcmp(outputs + at, alone, count) == 0);
        at += count;
    }
    evaluate_each(jobs, outputs);
    for (size_t i = 0; i < JOBS; i++)
        halfgates_job_free(jobs[i]);
}

/* The XOR gate that reads input wires alone comes before the AND gate. */
static void order(const halfgates_circuit *circuit) {
    const char expected[] = "5 8\n3 1 1 1\n1 2\n\n2 1 0 2 3 XOR\n2 1 1 2 4 XOR\n2 1 3 1 6 XOR\n2 1 3 4 5 AND\n"
                            "2 1 5 2 7 XOR\n";
    halfgates_circuit *ordered = NULL;
    uint8_t text[100];
    size_t written;
    CALL(halfgates_circuit_order(circuit, &ordered));
    CALL(halfgates_circuit_text(ordered, text, sizeof text, &written));
    CHECK(written == strlen(expected) && memcmp(text, expected, written) == 0);
    halfgates_circuit_free(ordered);
}

/* A circuit of a text, and one of a gate, without their digests. Taking the digest allocates nothing. */
static void leave_digest(const uint8_t *text, size_t length) {
    const halfgates_gate constant = {HALFGATES_EQ, 1, 0, 0};
    const uint32_t width = 1;
    halfgates_circuit *circuits[2] = {NULL, NULL};
    CALL(halfgates_circuit_read_without_digest(text, length, &circuits[0]));
    CALL(halfgates_circuit_from_gates_without_digest(&constant, 1, 1, NULL, 0, &width, 1, &circuits[1], NULL));
    const long before = growths;
    for (int i = 0; i < 2; i++) {
        CHECK_CODE(HALFGATES_OK, halfgates_circuit_take_digest(circuits[i]));
        halfgates_circuit_free(circuits[i]);
    }
    CHECK(growths == before);
}

/* All calls that allocate. */
static void work(void) {
    const uint8_t *text = (const uint8_t *)FULL_ADDER, seed[32] = {5}, bits[3] = {1, 0, 1};
    uint8_t garbled[177], labels[96], outputs[2], found_bits[1];
    const size_t sizes[3] = {32, 32, 32};
    size_t written;
    const halfgates_gate constant = {HALFGATES_EQ, 1, 0, 0};
    const uint32_t width = 1;
    halfgates_circuit *circuit = NULL, *taken = NULL;
    halfgates_garbling *garbling = NULL;
    halfgates_job *job = NULL;
    halfgates_place place;
    halfgates_sentence sentence;
    halfgates_wire_labels found[8];
    halfgates_audit_report report;
    halfgates_rows_report rows_report;
    halfgates_labels_report labels_report;

    leave_digest(text, strlen(FULL_ADDER));
    CALL(halfgates_locate(text, strlen(FULL_ADDER), &place));
    CALL(halfgates_explain(text, strlen(FULL_ADDER) - 9, &sentence));
    CHECK(strcmp(sentence.text, "gate 4: the text ends before the circuit does") == 0);
    CALL(halfgates_circuit_read(text, strlen(FULL_ADDER), &circuit));
    CALL(halfgates_circuit_from_gates(&constant, 1, 1, NULL, 0, &width, 1, &taken, NULL));
    halfgates_circuit_free(taken);
    order(circuit);
    CALL(halfgates_plain(circuit, bits, 3, outputs, 2));
    CHECK(outputs[0] == 0 && outputs[1] == 1);
    CALL(halfgates_garble(circuit, seed, &garbling));
    garble_many(circuit);
    write_many(circuit);
    evaluate_many(circuit);
    stream(circuit);
    give(garbling);
    check_sizes(garbling);
    CALL(halfgates_garbling_write(garbling, 1, garbled, sizeof garbled, &written));
    CALL(halfgates_garbling_write(garbling, 2, garbled, sizeof garbled, &written));
    for (uint32_t i = 0; i < 3; i++)
        CALL(halfgates_deal(circuit, seed, i, bits + i, 1, labels + 32 * i, 32, &written));
    CALL(halfgates_labels(garbling, bits, 3, 0, found, 8));
    CALL(halfgates_audit(garbling, garbled, sizeof garbled, &report));
    CHECK(report.honest);
    CALL(halfgates_decode_bits(garbling, outputs, sizeof outputs));
    CALL(halfgates_audit_rows(garbling, garbled + 48, 32, outputs, sizeof outputs, &rows_report));
    CHECK(rows_report.honest);
    CALL(halfgates_audit_labels(garbling, labels, 32, found_bits, 1, &labels_report));
    CHECK(labels_report.verdict == HALFGATES_OK && found_bits[0] == 1);
    CALL(halfgates_job_bind(circuit, garbled, sizeof garbled, labels, sizeof labels, sizes, 3, &job));
    work_on_labels(circuit, garbling, job);
    halfgates_circuit_free(circuit);
    outputs[0] = outputs[1] = 2;
    CALL(halfgates_evaluate(job, outputs, 2));
    CHECK(outputs[0] == 0 && outputs[1] == 1);
    halfgates_garbling_free(garbling);
    halfgates_job_free(job);
}

int main(void) {
    long round = 0, before;
    do {
        before = refusals;
        until_refusal = ++round;
        work();
        until_refusal = 0;
        CHECK(live == 0);
    } while (refusals > before);
    /* Reading, garbling and binding allocate at the least. */
    CHECK(refusals > 5);
    printf("%ld growths refused\n", refusals);
    return 0;
}
