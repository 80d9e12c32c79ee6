/*
 * The stack that each call uses, measured on a stack of its own with a guard page: it prints a line for each call, with
 * the number of bytes from the call down to the lowest byte that was written.
 *
 *   stack CIRCUIT
 *
 * CIRCUIT has two input values of 64 wires and an output value of 64.
 */
#define _GNU_SOURCE
#include "check.h"
#include <sys/mman.h>
#include <ucontext.h>
#include <unistd.h>

enum { SIZE = 1 << 20, UNTOUCHED = 0xa5, MANY = 9, WIRES = 64, FILE_SIZE = 16 + 16 * WIRES, LARGEST = 1 << 16 };

static uint8_t *stack, text[1 << 20], garbled[2][LARGEST], files[MANY * LARGEST], labels[2 * FILE_SIZE];
static uint8_t seeds[MANY][32], bits[MANY * 2 * WIRES], zero[2 * WIRES * 16], one[2 * WIRES * 16];
static uint8_t rows[LARGEST], offset[16], output_zeros[16 * WIRES], decode_bits[WIRES];
static size_t length, sizes[2], written, label_sizes[2] = {FILE_SIZE, FILE_SIZE};
static halfgates_circuit *circuit, *undigested;
static halfgates_garbling *garbling, *garblings[MANY];
static halfgates_job *jobs[MANY];
static halfgates_garbler *garbler, *ended_garbler;
static halfgates_evaluator *evaluator, *ended_evaluator;
static halfgates_numbers numbers;

/* The calls, each with what it is measured with. What a call makes is freed outside. */
static void *made[MANY];
static uint8_t room[LARGEST];
static halfgates_place place;
static halfgates_sentence sentence;
static halfgates_wire_labels wires[2 * WIRES];
static halfgates_audit_report report;
static halfgates_rows_report rows_report;
static halfgates_labels_report labels_report;
static uint32_t widths[2];
static int32_t codes[MANY];

/* A circuit of one gate, which is a constant. */
static const halfgates_gate ONE = {HALFGATES_EQ, 1, 0, 0};
static const uint32_t WIDTH = 1;

#define MADE(type) ((halfgates_##type **)made)

#define CALLS(X) \
    X(fault_name, (halfgates_fault_name(48), 0)) \
    X(version, (halfgates_version(), 0)) \
    X(is_memory, halfgates_is_memory(62) - 1) \
    X(circuit_read, halfgates_circuit_read(text, length, MADE(circuit))) \
    X(circuit_read_without_digest, halfgates_circuit_read_without_digest(text, length, MADE(circuit))) \
    X(circuit_take_digest, halfgates_circuit_take_digest(undigested)) \
    X(circuit_from_gates, halfgates_circuit_from_gates(&ONE, 1, 1, NULL, 0, &WIDTH, 1, MADE(circuit), &place)) \
    X(circuit_from_gates_without_digest, \
      halfgates_circuit_from_gates_without_digest(&ONE, 1, 1, NULL, 0, &WIDTH, 1, MADE(circuit), &place)) \
    X(circuit_share, halfgates_circuit_share(circuit, MADE(circuit))) \
    X(circuit_order, halfgates_circuit_order(circuit, MADE(circuit))) \
    X(circuit_text, halfgates_circuit_text(circuit, room, sizeof room, &written)) \
    X(circuit_numbers, halfgates_circuit_numbers(circuit, &numbers)) \
    X(circuit_input_widths, halfgates_circuit_input_widths(circuit, widths, 2)) \
    X(circuit_output_widths, halfgates_circuit_output_widths(circuit, widths, 1)) \
    X(circuit_digest, halfgates_circuit_digest(circuit, room)) \
    X(locate, halfgates_locate(text, length - 9, &place)) \
    X(explain, halfgates_explain(text, length - 9, &sentence)) \
    X(plain, halfgates_plain(circuit, bits, 2 * WIRES, room, WIRES)) \
    X(garble, halfgates_garble(circuit, seeds[0], MADE(garbling))) \
    X(garble_many, halfgates_garble_many(circuit, seeds[0], MANY, MADE(garbling))) \
    X(garble_from, halfgates_garble_from(circuit, offset, zero, sizeof zero, 0, MADE(garbling))) \
    X(garbled_size, !halfgates_garbled_size(circuit, 2)) \
    X(garbling_write, halfgates_garbling_write(garbling, 2, room, sizeof room, &written)) \
    X(write_many, halfgates_write_many(garblings, MANY, 2, files, sizeof files)) \
    X(deal, halfgates_deal(circuit, seeds[0], 0, bits, WIRES, room, sizeof room, &written)) \
    X(garbling_deal, halfgates_garbling_deal(garbling, 0, bits, WIRES, room, sizeof room, &written)) \
    X(label_file, halfgates_label_file(circuit, 0, zero, 16 * WIRES, room, sizeof room, &written)) \
    X(offset, halfgates_offset(garbling, room)) \
    X(input_labels, halfgates_input_labels(garbling, 0, zero, one, 16 * WIRES)) \
    X(output_labels, halfgates_output_labels(garbling, 0, room, one, 16 * WIRES)) \
    X(rows, halfgates_rows(garbling, rows, sizeof rows)) \
    X(rows_range, halfgates_rows_range(garbling, 1, 9, room, sizeof room)) \
    X(open, halfgates_open(garbling, 0, output_zeros, sizeof output_zeros, room, sizeof room)) \
    X(decode_bits, halfgates_decode_bits(garbling, room, sizeof room)) \
    X(zero_label, halfgates_zero_label(garbling, 3, room)) \
    X(decode_bit, halfgates_decode_bit(garbling, 3, room)) \
    X(labels, halfgates_labels(garbling, bits, 2 * WIRES, 0, wires, 2 * WIRES)) \
    X(job_bind, halfgates_job_bind(circuit, garbled[1], sizes[1], labels, sizeof labels, label_sizes, 2, MADE(job))) \
    X(evaluate, halfgates_evaluate(jobs[0], room, sizeof room)) \
    X(evaluate_many, halfgates_evaluate_many(jobs, MANY, room, sizeof room)) \
    X(evaluate_each, halfgates_evaluate_each(jobs, MANY, room, sizeof room, codes)) \
    X(job_output_labels, halfgates_job_output_labels(jobs[0], room, sizeof room)) \
    X(evaluate_labels, halfgates_evaluate_labels(circuit, rows, 32 * numbers.and_gates, 0, zero, sizeof zero, room, \
                                                 sizeof room)) \
    X(decode, halfgates_decode(zero, 16 * WIRES, bits, WIRES, room, sizeof room)) \
    X(garbler_begin, halfgates_garbler_begin(circuit, seeds[0], MADE(garbler))) \
    X(garbler_begin_from, halfgates_garbler_begin_from(circuit, offset, zero, sizeof zero, 0, MADE(garbler))) \
    X(garbler_offset, halfgates_garbler_offset(garbler, room)) \
    X(garbler_input_labels, halfgates_garbler_input_labels(garbler, 0, room, one, 16 * WIRES)) \
    X(garbler_next, halfgates_garbler_next(garbler, room, 320, &written)) \
    X(garbler_output_labels, halfgates_garbler_output_labels(ended_garbler, 0, room, one, 16 * WIRES)) \
    X(garbler_decode_bits, halfgates_garbler_decode_bits(ended_garbler, room, sizeof room)) \
    X(evaluator_begin, halfgates_evaluator_begin(circuit, 0, zero, sizeof zero, MADE(evaluator))) \
    X(evaluator_feed, halfgates_evaluator_feed(evaluator, rows, 320, &written)) \
    X(evaluator_output_labels, halfgates_evaluator_output_labels(ended_evaluator, room, sizeof room)) \
    X(audit, halfgates_audit(garbling, garbled[1], sizes[1], &report)) \
    X(audit_rows, halfgates_audit_rows(garbling, rows, 32 * numbers.and_gates, decode_bits, WIRES, &rows_report)) \
    X(audit_labels, halfgates_audit_labels(garbling, labels, FILE_SIZE, room, sizeof room, &labels_report)) \
    X(circuit_free, (halfgates_circuit_free(made[0]), 0)) \
    X(garbling_free, (halfgates_garbling_free(made[0]), 0)) \
    X(job_free, (halfgates_job_free(made[0]), 0)) \
    X(garbler_free, (halfgates_garbler_free(made[0]), 0)) \
    X(evaluator_free, (halfgates_evaluator_free(made[0]), 0))

#define FUNCTION(name, call) \
    static int32_t call_##name(void) { return (int32_t)(call); }
CALLS(FUNCTION)

#define ENTRY(name, call) {#name, call_##name},
static const struct entry {
    const char *name;
    int32_t (*call)(void);
} entries[] = {CALLS(ENTRY)};

static ucontext_t here, there;
static const struct entry *current;
static uint8_t *from;

static void enter(void) {
    from = __builtin_frame_address(0);
    CHECK_CODE(HALFGATES_OK, current->call());
}

/* Frees what the call has made, or makes what it is to free. */
static void settle(const struct entry *it, int is_before) {
    if (is_before && strcmp(it->name, "circuit_free") == 0)
        CHECK_CODE(0, halfgates_circuit_read(text, length, MADE(circuit)));
    if (is_before && strcmp(it->name, "circuit_take_digest") == 0)
        CHECK_CODE(0, halfgates_circuit_read_without_digest(text, length, &undigested));
    if (!is_before && strcmp(it->name, "circuit_take_digest") == 0)
        halfgates_circuit_free(undigested);
    if (is_before && strcmp(it->name, "garbling_free") == 0)
        CHECK_CODE(0, halfgates_garble(circuit, seeds[0], MADE(garbling)));
    if (is_before && strcmp(it->name, "job_free") == 0)
        CHECK_CODE(0, call_job_bind());
    if (is_before && strcmp(it->name, "garbler_free") == 0)
        CHECK_CODE(0, call_garbler_begin());
    if (is_before && strcmp(it->name, "evaluator_free") == 0)
        CHECK_CODE(0, call_evaluator_begin());
    if (!is_before && strncmp(it->name, "circuit_", 8) == 0 && strcmp(it->name, "circuit_free") != 0)
        halfgates_circuit_free(made[0]);
    if (!is_before && (strcmp(it->name, "garble") == 0 || strncmp(it->name, "garble_", 7) == 0))
        for (int i = 0; i < MANY; i++)
            halfgates_garbling_free(made[i]);
    if (!is_before && strcmp(it->name, "job_bind") == 0)
        halfgates_job_free(made[0]);
    if (!is_before && strncmp(it->name, "garbler_begin", 13) == 0)
        halfgates_garbler_free(made[0]);
    if (!is_before && strcmp(it->name, "evaluator_begin") == 0)
        halfgates_evaluator_free(made[0]);
    if (!is_before)
        memset(made, 0, sizeof made);
}

static size_t untouched(void) {
    size_t count = 0;
    while (stack[count] == UNTOUCHED)
        count++;
    return count;
}

static size_t measure(const struct entry *it) {
    memset(stack, UNTOUCHED, SIZE);
    CHECK(getcontext(&there) == 0);
    there.uc_stack.ss_sp = stack;
    there.uc_stack.ss_size = SIZE;
    there.uc_link = &here;
    current = it;
    makecontext(&there, enter, 0);
    settle(it, 1);
    CHECK(swapcontext(&here, &there) == 0);
    settle(it, 0);
    return (size_t)(from - stack) - untouched();
}

static void make_all(const char *name) {
    FILE *file = fopen(name, "rb");
    CHECK(file != NULL);
    length = fread(text, 1, sizeof text, file);
    fclose(file);
    CHECK_CODE(0, halfgates_circuit_read(text, length, &circuit));
    CHECK_CODE(0, halfgates_circuit_numbers(circuit, &numbers));
    CHECK(numbers.input_wires == 2 * WIRES && numbers.output_wires == WIRES);
    for (int i = 0; i < MANY; i++) {
        seeds[i][0] = (uint8_t)i;
        CHECK_CODE(0, halfgates_garble(circuit, seeds[i], &garblings[i]));
    }
    garbling = garblings[0];
    for (uint32_t version = 1; version <= 2; version++)
        CHECK_CODE(0, halfgates_garbling_write(garbling, version, garbled[version - 1], LARGEST, &sizes[version - 1]));
    for (uint32_t index = 0; index < 2; index++)
        CHECK_CODE(0, halfgates_garbling_deal(garbling, index, bits, WIRES, labels + index * FILE_SIZE, FILE_SIZE,
                                              &written));
    for (int i = 0; i < MANY; i++)
        CHECK_CODE(0, halfgates_job_bind(circuit, garbled[i % 2], sizes[i % 2], labels, sizeof labels, label_sizes, 2,
                                         &jobs[i]));
    CHECK_CODE(0, halfgates_offset(garbling, offset));
    CHECK_CODE(0, halfgates_decode_bits(garbling, decode_bits, sizeof decode_bits));
    CHECK_CODE(0, halfgates_output_labels(garbling, 0, output_zeros, one, sizeof output_zeros));
    CHECK_CODE(0, call_garbler_begin());
    ended_garbler = made[0];
    CHECK_CODE(0, halfgates_garbler_next(ended_garbler, rows, sizeof rows, &written));
    CHECK_CODE(0, call_evaluator_begin());
    ended_evaluator = made[0];
    CHECK_CODE(0, halfgates_evaluator_feed(ended_evaluator, rows, written, &written));
    CHECK_CODE(0, call_garbler_begin());
    garbler = made[0];
    CHECK_CODE(0, call_evaluator_begin());
    evaluator = made[0];
    made[0] = NULL;
}

int main(int count, char **words) {
    const long page = sysconf(_SC_PAGESIZE);
    uint8_t *mapped = mmap(NULL, SIZE + (size_t)page, PROT_READ | PROT_WRITE, MAP_PRIVATE | MAP_ANONYMOUS, -1, 0);
    CHECK(count == 2 && mapped != MAP_FAILED && mprotect(mapped, (size_t)page, PROT_NONE) == 0);
    stack = mapped + page;
    make_all(words[1]);
    for (size_t i = 0; i < sizeof entries / sizeof *entries; i++) {
        measure(&entries[i]); /* the loader may look for names in the first call */
        printf("%s %zu\n", entries[i].name, measure(&entries[i]));
    }
    return 0;
}
