/* Each call with each bad argument: it is refused by its code, and writes nothing. null.c has NULLs with a size. */
#include "check.h"

enum { BAD = HALFGATES_BAD_ARGUMENT, ABSENT = HALFGATES_NULL_POINTER, OTHER = HALFGATES_WRONG_HANDLE };

static const uint8_t SEED[32];
static const uint8_t BITS[3] = {1, 0, 1};
static uint8_t garbled[177], labels[3 * 32], room[512];
static const size_t SIZES[3] = {32, 32, 32};
static size_t written;

/* Nothing was written since the last look. */
static void check_untouched(void) {
    for (size_t i = 0; i < sizeof room; i++)
        CHECK(room[i] == 0xA5);
    CHECK(written == 7);
}

static void circuits(halfgates_circuit *circuit) {
    const uint8_t *text = (const uint8_t *)FULL_ADDER;
    const size_t length = strlen(FULL_ADDER);
    halfgates_circuit *made = NULL;
    halfgates_numbers numbers;
    halfgates_place place;
    uint32_t widths[4];
    CHECK_CODE(ABSENT, halfgates_circuit_read(text, length, NULL));
    CHECK_CODE(HALFGATES_CIRCUIT_TRUNCATED, halfgates_circuit_read(NULL, 0, &made));
    CHECK_CODE(HALFGATES_CIRCUIT_TRUNCATED, halfgates_circuit_read(text, 0, &made));
    CHECK_CODE(HALFGATES_BAD_NUMBER, halfgates_circuit_read((const uint8_t *)"1\0002", 3, &made));
    CHECK_CODE(ABSENT, halfgates_circuit_read_without_digest(text, length, NULL));
    CHECK_CODE(HALFGATES_CIRCUIT_TRUNCATED, halfgates_circuit_read_without_digest(text, 0, &made));
    CHECK_CODE(HALFGATES_BAD_NUMBER, halfgates_circuit_read_without_digest((const uint8_t *)"1\0002", 3, &made));
    CHECK_CODE(ABSENT, halfgates_circuit_take_digest(NULL));
    CHECK_CODE(ABSENT, halfgates_circuit_order(NULL, &made));
    CHECK_CODE(ABSENT, halfgates_circuit_order(circuit, NULL));
    CHECK_CODE(ABSENT, halfgates_circuit_from_gates(NULL, 0, 0, NULL, 0, NULL, 0, NULL, &place));
    CHECK_CODE(ABSENT, halfgates_circuit_from_gates_without_digest(NULL, 0, 0, NULL, 0, NULL, 0, NULL, &place));
    CHECK(made == NULL);
    CHECK_CODE(ABSENT, halfgates_circuit_text(NULL, room, sizeof room, &written));
    CHECK_CODE(ABSENT, halfgates_circuit_text(circuit, room, sizeof room, NULL));
    CHECK_CODE(ABSENT, halfgates_locate(text, length, NULL));
    CHECK_CODE(ABSENT, halfgates_explain(text, length, NULL));
    CHECK_CODE(ABSENT, halfgates_explain(NULL, 1, (halfgates_sentence *)room));
    CHECK_CODE(HALFGATES_OK, halfgates_locate(NULL, 0, &place));
    CHECK(place.fault == HALFGATES_CIRCUIT_TRUNCATED && place.line == 1 && place.column == 1);
    CHECK(place.gate == HALFGATES_NONE && place.wire == HALFGATES_NONE);

    CHECK_CODE(ABSENT, halfgates_circuit_numbers(NULL, &numbers));
    CHECK_CODE(ABSENT, halfgates_circuit_numbers(circuit, NULL));
    CHECK_CODE(ABSENT, halfgates_circuit_digest(NULL, room));
    CHECK_CODE(ABSENT, halfgates_circuit_digest(circuit, NULL));
    CHECK_CODE(ABSENT, halfgates_circuit_input_widths(NULL, widths, 3));
    memset(widths, 0xA5, sizeof widths);
    CHECK_CODE(HALFGATES_SMALL_BUFFER, halfgates_circuit_input_widths(circuit, widths, 2));
    CHECK_CODE(HALFGATES_SMALL_BUFFER, halfgates_circuit_input_widths(circuit, NULL, 0));
    CHECK_CODE(ABSENT, halfgates_circuit_output_widths(NULL, widths, 1));
    CHECK_CODE(HALFGATES_SMALL_BUFFER, halfgates_circuit_output_widths(circuit, widths, 0));
    CHECK(widths[0] == 0xA5A5A5A5);
    CHECK_CODE(HALFGATES_OK, halfgates_circuit_input_widths(circuit, widths, 4));
    CHECK(widths[0] == 1 && widths[2] == 1 && widths[3] == 0xA5A5A5A5);
    CHECK_CODE(HALFGATES_OK, halfgates_circuit_output_widths(circuit, widths, 2));
    CHECK(widths[0] == 2 && widths[1] == 1);
    CHECK(halfgates_garbled_size(NULL, 2) == 0);
    CHECK(halfgates_garbled_size(circuit, 0) == 0);
    CHECK(halfgates_garbled_size(circuit, 3) == 0);
    CHECK(halfgates_garbled_size(circuit, UINT32_MAX) == 0);
    check_untouched();
    CHECK_CODE(HALFGATES_SMALL_BUFFER, halfgates_circuit_text(circuit, room, length - 1, &written));
    CHECK(written == length);
    written = 7;
    check_untouched();
}

static void plain(halfgates_circuit *circuit) {
    const uint8_t digits[3] = {1, 2, 1};
    CHECK_CODE(ABSENT, halfgates_plain(NULL, BITS, 3, room, 2));
    CHECK_CODE(HALFGATES_SMALL_BUFFER, halfgates_plain(circuit, BITS, 3, room, 1));
    CHECK_CODE(HALFGATES_SMALL_BUFFER, halfgates_plain(circuit, BITS, 3, NULL, 0));
    CHECK_CODE(HALFGATES_SMALL_BUFFER, halfgates_plain(circuit, digits, 2, room, 1));
    CHECK_CODE(HALFGATES_WRONG_LENGTH, halfgates_plain(circuit, BITS, 2, room, 2));
    CHECK_CODE(HALFGATES_WRONG_LENGTH, halfgates_plain(circuit, NULL, 0, room, 2));
    CHECK_CODE(HALFGATES_BAD_DIGIT, halfgates_plain(circuit, digits, 3, room, 2));
    check_untouched();
}

static void garble(halfgates_circuit *circuit, halfgates_garbling *garbling) {
    halfgates_garbling *const absent[3] = {garbling, NULL, garbling}, *const alike[2] = {garbling, garbling};
    halfgates_garbling *made = NULL;
    CHECK_CODE(ABSENT, halfgates_garble(NULL, SEED, &made));
    CHECK_CODE(ABSENT, halfgates_garble(circuit, NULL, &made));
    CHECK_CODE(ABSENT, halfgates_garble(circuit, SEED, NULL));
    CHECK_CODE(ABSENT, halfgates_garble_many(NULL, SEED, 1, &made));
    CHECK_CODE(OTHER, halfgates_garble_many((halfgates_circuit *)garbling, SEED, 1, &made));
    CHECK_CODE(ABSENT, halfgates_garble_many(circuit, NULL, 1, &made));
    CHECK_CODE(ABSENT, halfgates_garble_many(circuit, SEED, 1, NULL));
    CHECK_CODE(HALFGATES_OK, halfgates_garble_many(circuit, SEED, 0, &made));
    CHECK(made == NULL);
    CHECK_CODE(ABSENT, halfgates_garbling_write(NULL, 2, room, sizeof room, &written));
    CHECK_CODE(BAD, halfgates_garbling_write(garbling, 0, room, sizeof room, &written));
    CHECK_CODE(BAD, halfgates_garbling_write(garbling, 3, room, sizeof room, &written));
    CHECK_CODE(ABSENT, halfgates_garbling_write(garbling, 2, room, sizeof room, NULL));
    CHECK_CODE(ABSENT, halfgates_write_many(NULL, 1, 2, room, 177));
    CHECK_CODE(ABSENT, halfgates_write_many(absent, 3, 1, room, 3 * 113));
    CHECK_CODE(ABSENT, halfgates_write_many(absent, 3, 3, room, 176));
    CHECK_CODE(ABSENT, halfgates_write_many(alike, 2, 2, NULL, 2 * 177));
    CHECK_CODE(BAD, halfgates_write_many(alike, 2, 0, room, 2 * 177));
    CHECK_CODE(BAD, halfgates_write_many(alike, 2, 3, NULL, 0));
    CHECK_CODE(BAD, halfgates_write_many(NULL, 0, 3, room, sizeof room));
    CHECK_CODE(HALFGATES_SMALL_BUFFER, halfgates_write_many(alike, 2, 2, room, 2 * 177 - 1));
    CHECK_CODE(HALFGATES_SMALL_BUFFER, halfgates_write_many(alike, 2, 1, room, 2 * 113 - 1));
    CHECK_CODE(HALFGATES_SMALL_BUFFER, halfgates_write_many(alike, 2, 2, NULL, 0));
    CHECK_CODE(HALFGATES_MEMORY, halfgates_write_many(alike, SIZE_MAX, 2, room, 2 * 177));
    check_untouched();
    CHECK_CODE(HALFGATES_SMALL_BUFFER, halfgates_garbling_write(garbling, 2, NULL, 0, &written));
    CHECK(written == 177);
    written = 7;

    CHECK_CODE(ABSENT, halfgates_zero_label(NULL, 0, room));
    CHECK_CODE(BAD, halfgates_zero_label(garbling, 8, room));
    CHECK_CODE(BAD, halfgates_zero_label(garbling, UINT32_MAX, room));
    CHECK_CODE(ABSENT, halfgates_zero_label(garbling, 0, NULL));
    CHECK_CODE(ABSENT, halfgates_decode_bit(NULL, 0, room));
    CHECK_CODE(BAD, halfgates_decode_bit(garbling, 2, room));
    CHECK_CODE(BAD, halfgates_decode_bit(garbling, UINT32_MAX, room));
    CHECK_CODE(ABSENT, halfgates_decode_bit(garbling, 0, NULL));
    CHECK_CODE(ABSENT, halfgates_rows_range(NULL, 0, 1, room, 32));
    CHECK_CODE(BAD, halfgates_rows_range(garbling, 0, 2, room, sizeof room));
    CHECK_CODE(BAD, halfgates_rows_range(garbling, 1, 1, room, sizeof room));
    CHECK_CODE(BAD, halfgates_rows_range(garbling, 2, 0, NULL, 0));
    CHECK_CODE(BAD, halfgates_rows_range(garbling, UINT32_MAX, UINT32_MAX, NULL, 0));
    CHECK_CODE(BAD, halfgates_rows_range(garbling, 1, UINT32_MAX, room, sizeof room));
    CHECK_CODE(HALFGATES_SMALL_BUFFER, halfgates_rows_range(garbling, 0, 1, room, 31));
    CHECK_CODE(HALFGATES_SMALL_BUFFER, halfgates_rows_range(garbling, 0, 1, NULL, 0));
    CHECK_CODE(HALFGATES_OK, halfgates_rows_range(garbling, 0, 0, NULL, 0));
    CHECK_CODE(HALFGATES_OK, halfgates_rows_range(garbling, 1, 0, room, sizeof room));
    check_untouched();
}

/* Labels that an evaluator returned: some of no wire, or of the other wire, are refused, and no bit is written. */
static void open_labels(halfgates_garbling *garbling) {
    uint8_t zero[32], one[32], given[33] = {0};
    CHECK_CODE(HALFGATES_OK, halfgates_output_labels(garbling, 0, zero, one, 32));
    memcpy(given, zero, 16);
    memcpy(given + 16, one + 16, 16);
    CHECK_CODE(ABSENT, halfgates_open(NULL, 0, given, 32, room, 2));
    CHECK_CODE(HALFGATES_NO_SUCH_VALUE, halfgates_open(garbling, 1, given, 31, room, 1));
    CHECK_CODE(HALFGATES_NO_SUCH_VALUE, halfgates_open(garbling, UINT32_MAX, given, 32, room, 2));
    CHECK_CODE(HALFGATES_WRONG_SIZE, halfgates_open(garbling, 0, given, 31, room, 1));
    CHECK_CODE(HALFGATES_WRONG_SIZE, halfgates_open(garbling, 0, given, 33, room, 2));
    CHECK_CODE(HALFGATES_WRONG_SIZE, halfgates_open(garbling, 0, NULL, 0, room, 2));
    CHECK_CODE(HALFGATES_SMALL_BUFFER, halfgates_open(garbling, 0, one + 16, 32, room, 1));
    CHECK_CODE(HALFGATES_SMALL_BUFFER, halfgates_open(garbling, 0, given, 32, NULL, 0));
    for (size_t i = 0; i < 32; i++) {
        given[i] ^= (uint8_t)(1 << i % 8);
        CHECK_CODE(HALFGATES_WRONG_LABEL, halfgates_open(garbling, 0, given, 32, room, 2));
        given[i] ^= (uint8_t)(1 << i % 8);
    }
    memcpy(given, one + 16, 16);
    CHECK_CODE(HALFGATES_WRONG_LABEL, halfgates_open(garbling, 0, given, 32, room, 2));
    check_untouched();
    for (unsigned bits = 0; bits < 4; bits++) {
        memcpy(given, bits & 1 ? one : zero, 16);
        memcpy(given + 16, (bits & 2 ? one : zero) + 16, 16);
        CHECK_CODE(HALFGATES_OK, halfgates_open(garbling, 0, given, 32, room, 3));
        CHECK(room[0] == (bits & 1) && room[1] == bits >> 1 && room[2] == 0xA5);
    }
    memset(room, 0xA5, 2);
}

static void deal(halfgates_circuit *circuit) {
    const uint8_t digit = 2;
    CHECK_CODE(ABSENT, halfgates_deal(NULL, SEED, 0, BITS, 1, room, sizeof room, &written));
    CHECK_CODE(ABSENT, halfgates_deal(circuit, NULL, 0, BITS, 1, room, sizeof room, &written));
    CHECK_CODE(ABSENT, halfgates_deal(circuit, SEED, 0, BITS, 1, room, sizeof room, NULL));
    CHECK_CODE(HALFGATES_NO_SUCH_VALUE, halfgates_deal(circuit, SEED, 3, BITS, 1, room, sizeof room, &written));
    CHECK_CODE(HALFGATES_NO_SUCH_VALUE,
               halfgates_deal(circuit, SEED, UINT32_MAX, BITS, 1, room, sizeof room, &written));
    CHECK_CODE(HALFGATES_WRONG_LENGTH, halfgates_deal(circuit, SEED, 0, BITS, 2, room, sizeof room, &written));
    CHECK_CODE(HALFGATES_WRONG_LENGTH, halfgates_deal(circuit, SEED, 0, NULL, 0, room, sizeof room, &written));
    CHECK_CODE(HALFGATES_BAD_DIGIT, halfgates_deal(circuit, SEED, 0, &digit, 1, room, sizeof room, &written));
    check_untouched();
    CHECK_CODE(HALFGATES_SMALL_BUFFER, halfgates_deal(circuit, SEED, 0, BITS, 1, NULL, 0, &written));
    CHECK(written == 32);
    written = 7;
}

static void wire_labels(halfgates_garbling *garbling) {
    const uint8_t digits[3] = {1, 1, 255};
    halfgates_wire_labels found[9];
    memset(found, 0xA5, sizeof found);
    CHECK_CODE(ABSENT, halfgates_labels(NULL, BITS, 3, 0, found, 8));
    CHECK_CODE(BAD, halfgates_labels(garbling, BITS, 3, 0, found, 9));
    CHECK_CODE(BAD, halfgates_labels(garbling, BITS, 3, 8, found, 1));
    CHECK_CODE(BAD, halfgates_labels(garbling, BITS, 3, UINT32_MAX, found, 1));
    CHECK_CODE(BAD, halfgates_labels(garbling, BITS, 3, 9, NULL, 0));
    CHECK_CODE(HALFGATES_WRONG_LENGTH, halfgates_labels(garbling, BITS, 2, 0, found, 8));
    CHECK_CODE(HALFGATES_WRONG_LENGTH, halfgates_labels(garbling, NULL, 0, 0, found, 8));
    CHECK_CODE(HALFGATES_BAD_DIGIT, halfgates_labels(garbling, digits, 3, 0, found, 8));
    CHECK(found[0].bit == 0xA5 && found[7].bit == 0xA5);
    CHECK_CODE(HALFGATES_OK, halfgates_labels(garbling, BITS, 3, 8, NULL, 0));
}

static void jobs(halfgates_circuit *circuit, halfgates_job *job) {
    const size_t more[3] = {32, 32, 33}, wrapping[3] = {32, SIZE_MAX, 65}, late[2] = {1, 100};
    halfgates_job *const absent[3] = {job, NULL, job}, *const alike[2] = {job, job};
    int32_t codes[3] = {-7, -7, -7};
    halfgates_job *made = NULL;
    CHECK_CODE(ABSENT, halfgates_job_bind(NULL, garbled, 177, labels, 96, SIZES, 3, &made));
    CHECK_CODE(ABSENT, halfgates_job_bind(circuit, garbled, 177, labels, 96, SIZES, 3, NULL));
    CHECK_CODE(HALFGATES_WRONG_SIZE, halfgates_job_bind(circuit, garbled, 177, labels, 96, more, 3, &made));
    CHECK_CODE(HALFGATES_WRONG_SIZE, halfgates_job_bind(circuit, garbled, 177, labels, 96, wrapping, 3, &made));
    CHECK_CODE(HALFGATES_WRONG_SIZE, halfgates_job_bind(circuit, garbled, 177, labels, 96, SIZES, 2, &made));
    CHECK_CODE(HALFGATES_WRONG_SIZE, halfgates_job_bind(circuit, garbled, 177, labels, 96, NULL, 0, &made));
    CHECK_CODE(HALFGATES_WRONG_SIZE, halfgates_job_bind(circuit, garbled, 177, labels, 32, late, 2, &made));
    CHECK_CODE(HALFGATES_FILE_TRUNCATED, halfgates_job_bind(circuit, NULL, 0, labels, 96, SIZES, 3, &made));
    CHECK_CODE(HALFGATES_FILE_TRUNCATED, halfgates_job_bind(circuit, garbled, 176, labels, 96, SIZES, 3, &made));
    CHECK_CODE(HALFGATES_MISSING_VALUE, halfgates_job_bind(circuit, garbled, 177, labels, 64, SIZES, 2, &made));
    CHECK_CODE(HALFGATES_MISSING_VALUE, halfgates_job_bind(circuit, garbled, 177, NULL, 0, NULL, 0, &made));
    CHECK(made == NULL);
    CHECK_CODE(ABSENT, halfgates_evaluate(NULL, room, 2));
    CHECK_CODE(HALFGATES_SMALL_BUFFER, halfgates_evaluate(job, room, 1));
    CHECK_CODE(HALFGATES_SMALL_BUFFER, halfgates_evaluate(job, NULL, 0));
    CHECK_CODE(ABSENT, halfgates_evaluate_many(NULL, 1, room, 2));
    CHECK_CODE(ABSENT, halfgates_evaluate_many(absent, 3, room, 6));
    CHECK_CODE(ABSENT, halfgates_evaluate_many(absent, 3, room, 5));
    CHECK_CODE(ABSENT, halfgates_evaluate_many(alike, 2, NULL, 4));
    CHECK_CODE(HALFGATES_SMALL_BUFFER, halfgates_evaluate_many(alike, 2, room, 3));
    CHECK_CODE(HALFGATES_SMALL_BUFFER, halfgates_evaluate_many(alike, 2, NULL, 0));
    CHECK_CODE(HALFGATES_MEMORY, halfgates_evaluate_many(alike, SIZE_MAX, room, 4));
    CHECK_CODE(ABSENT, halfgates_evaluate_each(NULL, 1, room, 2, codes));
    CHECK_CODE(ABSENT, halfgates_evaluate_each(absent, 3, room, 6, codes));
    CHECK_CODE(ABSENT, halfgates_evaluate_each(absent, 3, room, 5, codes));
    CHECK_CODE(ABSENT, halfgates_evaluate_each(alike, 2, NULL, 4, codes));
    CHECK_CODE(ABSENT, halfgates_evaluate_each(alike, 2, room, 4, NULL));
    CHECK_CODE(HALFGATES_SMALL_BUFFER, halfgates_evaluate_each(alike, 2, room, 3, codes));
    CHECK_CODE(HALFGATES_SMALL_BUFFER, halfgates_evaluate_each(alike, 2, NULL, 0, codes));
    CHECK_CODE(HALFGATES_MEMORY, halfgates_evaluate_each(alike, SIZE_MAX, room, 4, codes));
    CHECK(codes[0] == -7 && codes[1] == -7 && codes[2] == -7);
    check_untouched();
}

static void audits(halfgates_garbling *garbling) {
    const uint8_t digits[3] = {0, 2, 0}, *const rows = garbled + 48;
    halfgates_audit_report report;
    halfgates_rows_report rows_report, untouched;
    halfgates_labels_report labels_report;
    memset(&rows_report, 0xA5, sizeof rows_report);
    memset(&untouched, 0xA5, sizeof untouched);
    CHECK_CODE(ABSENT, halfgates_audit_rows(NULL, rows, 32, BITS, 2, &rows_report));
    CHECK_CODE(ABSENT, halfgates_audit_rows(garbling, rows, 32, BITS, 2, NULL));
    CHECK_CODE(HALFGATES_WRONG_SIZE, halfgates_audit_rows(garbling, rows, 31, BITS, 3, &rows_report));
    CHECK_CODE(HALFGATES_WRONG_SIZE, halfgates_audit_rows(garbling, rows, 33, digits, 2, &rows_report));
    CHECK_CODE(HALFGATES_WRONG_SIZE, halfgates_audit_rows(garbling, rows, 64, BITS, 2, &rows_report));
    CHECK_CODE(HALFGATES_WRONG_SIZE, halfgates_audit_rows(garbling, NULL, 0, BITS, 2, &rows_report));
    CHECK_CODE(HALFGATES_WRONG_LENGTH, halfgates_audit_rows(garbling, rows, 32, digits, 3, &rows_report));
    CHECK_CODE(HALFGATES_WRONG_LENGTH, halfgates_audit_rows(garbling, rows, 32, BITS, 1, &rows_report));
    CHECK_CODE(HALFGATES_WRONG_LENGTH, halfgates_audit_rows(garbling, rows, 32, NULL, 0, &rows_report));
    CHECK_CODE(HALFGATES_BAD_DIGIT, halfgates_audit_rows(garbling, rows, 32, digits, 2, &rows_report));
    CHECK_CODE(HALFGATES_BAD_DIGIT, halfgates_audit_rows(garbling, labels, 32, digits, 2, &rows_report));
    CHECK(memcmp(&rows_report, &untouched, sizeof untouched) == 0);
    CHECK_CODE(ABSENT, halfgates_audit(NULL, garbled, 177, &report));
    CHECK_CODE(ABSENT, halfgates_audit(garbling, garbled, 177, NULL));
    CHECK_CODE(HALFGATES_FILE_TRUNCATED, halfgates_audit(garbling, NULL, 0, &report));
    CHECK_CODE(ABSENT, halfgates_audit_labels(NULL, labels, 32, room, 1, &labels_report));
    CHECK_CODE(ABSENT, halfgates_audit_labels(garbling, labels, 32, room, 1, NULL));
    CHECK_CODE(HALFGATES_FILE_TRUNCATED, halfgates_audit_labels(garbling, NULL, 0, room, 1, &labels_report));
    CHECK_CODE(HALFGATES_SMALL_BUFFER, halfgates_audit_labels(garbling, labels, 32, NULL, 0, &labels_report));
    CHECK(labels_report.count == 1);
    check_untouched();
}

/* A garbler and an evaluator of one AND gate: streaming.c has them with right arguments. */
static void streaming(halfgates_circuit *circuit, halfgates_garbler *garbler, halfgates_evaluator *evaluator) {
    const uint8_t offset[16] = {1}, even[16] = {2};
    const uint64_t limit = UINT64_C(1) << 62;
    halfgates_garbler *made = NULL;
    halfgates_evaluator *made_evaluator = NULL;
    CHECK_CODE(ABSENT, halfgates_garbler_begin(NULL, SEED, &made));
    CHECK_CODE(ABSENT, halfgates_garbler_begin(circuit, NULL, &made));
    CHECK_CODE(ABSENT, halfgates_garbler_begin(circuit, SEED, NULL));
    CHECK_CODE(ABSENT, halfgates_garbler_begin_from(NULL, offset, labels, 48, 0, &made));
    CHECK_CODE(ABSENT, halfgates_garbler_begin_from(circuit, NULL, labels, 48, 0, &made));
    CHECK_CODE(ABSENT, halfgates_garbler_begin_from(circuit, offset, labels, 48, 0, NULL));
    CHECK_CODE(HALFGATES_WRONG_SIZE, halfgates_garbler_begin_from(circuit, even, labels, 47, limit, &made));
    CHECK_CODE(HALFGATES_WRONG_SIZE, halfgates_garbler_begin_from(circuit, offset, labels, 49, 0, &made));
    CHECK_CODE(HALFGATES_WRONG_SIZE, halfgates_garbler_begin_from(circuit, offset, NULL, 0, 0, &made));
    CHECK_CODE(BAD, halfgates_garbler_begin_from(circuit, even, labels, 48, 0, &made));
    CHECK_CODE(BAD, halfgates_garbler_begin_from(circuit, offset, labels, 48, limit, &made));
    CHECK_CODE(BAD, halfgates_garbler_begin_from(circuit, offset, labels, 48, UINT64_MAX, &made));
    CHECK_CODE(ABSENT, halfgates_evaluator_begin(NULL, 0, labels, 48, &made_evaluator));
    CHECK_CODE(ABSENT, halfgates_evaluator_begin(circuit, 0, labels, 48, NULL));
    CHECK_CODE(HALFGATES_WRONG_SIZE, halfgates_evaluator_begin(circuit, limit, labels, 47, &made_evaluator));
    CHECK_CODE(HALFGATES_WRONG_SIZE, halfgates_evaluator_begin(circuit, 0, labels, 49, &made_evaluator));
    CHECK_CODE(HALFGATES_WRONG_SIZE, halfgates_evaluator_begin(circuit, 0, NULL, 0, &made_evaluator));
    CHECK_CODE(BAD, halfgates_evaluator_begin(circuit, limit, labels, 48, &made_evaluator));
    CHECK_CODE(BAD, halfgates_evaluator_begin(circuit, UINT64_MAX, labels, 48, &made_evaluator));
    CHECK(made == NULL && made_evaluator == NULL);

    CHECK_CODE(ABSENT, halfgates_garbler_offset(NULL, room));
    CHECK_CODE(ABSENT, halfgates_garbler_offset(garbler, NULL));
    CHECK_CODE(ABSENT, halfgates_garbler_input_labels(NULL, 0, room, room + 16, 16));
    CHECK_CODE(HALFGATES_NO_SUCH_VALUE, halfgates_garbler_input_labels(garbler, 3, room, room + 16, 15));
    CHECK_CODE(HALFGATES_NO_SUCH_VALUE, halfgates_garbler_input_labels(garbler, UINT32_MAX, room, room + 16, 16));
    CHECK_CODE(HALFGATES_SMALL_BUFFER, halfgates_garbler_input_labels(garbler, 0, room, room + 16, 15));
    CHECK_CODE(HALFGATES_SMALL_BUFFER, halfgates_garbler_input_labels(garbler, 0, NULL, NULL, 0));
    CHECK_CODE(ABSENT, halfgates_garbler_next(NULL, room, sizeof room, &written));
    CHECK_CODE(ABSENT, halfgates_garbler_next(garbler, room, sizeof room, NULL));
    CHECK_CODE(HALFGATES_SMALL_BUFFER, halfgates_garbler_next(garbler, room, 31, &written));
    CHECK_CODE(HALFGATES_SMALL_BUFFER, halfgates_garbler_next(garbler, NULL, 0, &written));
    CHECK_CODE(ABSENT, halfgates_garbler_output_labels(NULL, 0, room, room + 32, 32));
    CHECK_CODE(HALFGATES_UNFINISHED, halfgates_garbler_output_labels(garbler, 0, room, room + 32, 32));
    CHECK_CODE(HALFGATES_UNFINISHED, halfgates_garbler_output_labels(garbler, 1, room, room + 32, 0));
    CHECK_CODE(ABSENT, halfgates_garbler_decode_bits(NULL, room, 2));
    CHECK_CODE(HALFGATES_UNFINISHED, halfgates_garbler_decode_bits(garbler, room, 2));
    CHECK_CODE(HALFGATES_UNFINISHED, halfgates_garbler_decode_bits(garbler, NULL, 0));
    CHECK_CODE(ABSENT, halfgates_evaluator_feed(NULL, labels, 32, &written));
    CHECK_CODE(ABSENT, halfgates_evaluator_feed(evaluator, labels, 32, NULL));
    CHECK_CODE(HALFGATES_WRONG_SIZE, halfgates_evaluator_feed(evaluator, labels, 64, &written));
    CHECK_CODE(HALFGATES_WRONG_SIZE, halfgates_evaluator_feed(evaluator, labels, 95, &written));
    CHECK_CODE(ABSENT, halfgates_evaluator_output_labels(NULL, room, 32));
    CHECK_CODE(HALFGATES_UNFINISHED, halfgates_evaluator_output_labels(evaluator, room, 32));
    CHECK_CODE(HALFGATES_UNFINISHED, halfgates_evaluator_output_labels(evaluator, NULL, 0));
    check_untouched();
}

/* The same once the row pair is made and taken. */
static void after_streaming(halfgates_garbler *garbler, halfgates_evaluator *evaluator) {
    uint8_t rows[33];
    CHECK_CODE(HALFGATES_OK, halfgates_garbler_next(garbler, rows, sizeof rows, &written));
    CHECK(written == 32);
    CHECK_CODE(HALFGATES_OK, halfgates_evaluator_feed(evaluator, rows, 33, &written));
    CHECK(written == 32);
    written = 7;
    CHECK_CODE(ABSENT, halfgates_garbler_next(garbler, NULL, 0, NULL));
    CHECK_CODE(HALFGATES_NO_SUCH_VALUE, halfgates_garbler_output_labels(garbler, 1, room, room + 32, 31));
    CHECK_CODE(HALFGATES_SMALL_BUFFER, halfgates_garbler_output_labels(garbler, 0, room, room + 32, 31));
    CHECK_CODE(HALFGATES_SMALL_BUFFER, halfgates_garbler_output_labels(garbler, 0, NULL, NULL, 0));
    CHECK_CODE(HALFGATES_SMALL_BUFFER, halfgates_garbler_decode_bits(garbler, room, 1));
    CHECK_CODE(HALFGATES_SMALL_BUFFER, halfgates_garbler_decode_bits(garbler, NULL, 0));
    CHECK_CODE(HALFGATES_WRONG_SIZE, halfgates_evaluator_feed(evaluator, rows, 32, &written));
    CHECK_CODE(HALFGATES_SMALL_BUFFER, halfgates_evaluator_output_labels(evaluator, room, 31));
    CHECK_CODE(HALFGATES_SMALL_BUFFER, halfgates_evaluator_output_labels(evaluator, NULL, 0));
    check_untouched();
}

/* What stood in the place of a new handle is overwritten, and never read: here it is no address. */
static void places_of_handles(void) {
    halfgates_circuit *circuit = (halfgates_circuit *)1;
    halfgates_garbling *garbling = (halfgates_garbling *)1;
    halfgates_job *job = (halfgates_job *)1;
    halfgates_garbler *garbler = (halfgates_garbler *)1;
    halfgates_evaluator *evaluator = (halfgates_evaluator *)1;
    CHECK_CODE(HALFGATES_CIRCUIT_TRUNCATED, halfgates_circuit_read(NULL, 0, &circuit));
    CHECK(circuit == (halfgates_circuit *)1);
    CHECK_CODE(HALFGATES_OK, halfgates_circuit_read((const uint8_t *)FULL_ADDER, strlen(FULL_ADDER), &circuit));
    CHECK_CODE(ABSENT, halfgates_garble(circuit, NULL, &garbling));
    CHECK(garbling == (halfgates_garbling *)1);
    CHECK_CODE(HALFGATES_OK, halfgates_garble(circuit, SEED, &garbling));
    CHECK_CODE(HALFGATES_FILE_TRUNCATED, halfgates_job_bind(circuit, garbled, 176, labels, 96, SIZES, 3, &job));
    CHECK(job == (halfgates_job *)1);
    CHECK_CODE(HALFGATES_OK, halfgates_job_bind(circuit, garbled, 177, labels, 96, SIZES, 3, &job));
    CHECK_CODE(ABSENT, halfgates_garbler_begin(circuit, NULL, &garbler));
    CHECK(garbler == (halfgates_garbler *)1);
    CHECK_CODE(HALFGATES_OK, halfgates_garbler_begin(circuit, SEED, &garbler));
    CHECK_CODE(HALFGATES_WRONG_SIZE, halfgates_evaluator_begin(circuit, 0, labels, 47, &evaluator));
    CHECK(evaluator == (halfgates_evaluator *)1);
    CHECK_CODE(HALFGATES_OK, halfgates_evaluator_begin(circuit, 0, labels, 48, &evaluator));
    halfgates_garbler_free(garbler);
    halfgates_evaluator_free(evaluator);
    halfgates_job_free(job);
    halfgates_garbling_free(garbling);
    halfgates_circuit_free(circuit);
}

/* A handle in the place of one of another type, which C lets pass with a cast. */
static void other_types(void *circuit, void *garbling, void *job, void *garbler, void *evaluator) {
    halfgates_circuit *made = NULL;
    halfgates_garbling *made_garbling = NULL;
    halfgates_job *made_job = NULL;
    halfgates_garbler *made_garbler = NULL;
    halfgates_evaluator *made_evaluator = NULL;
    halfgates_numbers numbers;
    halfgates_audit_report report;
    halfgates_rows_report rows_report;
    halfgates_labels_report labels_report;
    halfgates_wire_labels found[1];
    uint32_t widths[3];
    int32_t codes[3] = {-7, -7, -7};
    void *const no_circuits[4] = {garbling, job, garbler, evaluator};
    void *const no_garblings[4] = {circuit, job, garbler, evaluator};
    void *const no_jobs[4] = {circuit, garbling, garbler, evaluator};
    void *const no_garblers[4] = {circuit, garbling, job, evaluator};
    void *const no_evaluators[4] = {circuit, garbling, job, garbler};
    for (int i = 0; i < 4; i++) {
        CHECK_CODE(OTHER, halfgates_circuit_share(no_circuits[i], &made));
        CHECK_CODE(OTHER, halfgates_circuit_take_digest(no_circuits[i]));
        CHECK_CODE(OTHER, halfgates_circuit_order(no_circuits[i], &made));
        CHECK_CODE(OTHER, halfgates_circuit_text(no_circuits[i], room, sizeof room, &written));
        CHECK_CODE(OTHER, halfgates_circuit_numbers(no_circuits[i], &numbers));
        CHECK_CODE(OTHER, halfgates_circuit_input_widths(no_circuits[i], widths, 3));
        CHECK_CODE(OTHER, halfgates_circuit_output_widths(no_circuits[i], widths, 1));
        CHECK_CODE(OTHER, halfgates_circuit_digest(no_circuits[i], room));
        CHECK_CODE(OTHER, halfgates_plain(no_circuits[i], BITS, 3, room, 2));
        CHECK_CODE(OTHER, halfgates_garble(no_circuits[i], SEED, &made_garbling));
        CHECK_CODE(OTHER, halfgates_garble_from(no_circuits[i], SEED, labels, 48, 0, &made_garbling));
        CHECK(halfgates_garbled_size(no_circuits[i], 2) == 0);
        CHECK_CODE(OTHER, halfgates_deal(no_circuits[i], SEED, 0, BITS, 1, room, 32, &written));
        CHECK_CODE(OTHER, halfgates_label_file(no_circuits[i], 0, labels, 16, room, 32, &written));
        CHECK_CODE(OTHER, halfgates_job_bind(no_circuits[i], garbled, 177, labels, 96, SIZES, 3, &made_job));
        CHECK_CODE(OTHER, halfgates_evaluate_labels(no_circuits[i], labels, 32, 0, labels, 48, room, 32));
        CHECK_CODE(OTHER, halfgates_garbler_begin(no_circuits[i], SEED, &made_garbler));
        CHECK_CODE(OTHER, halfgates_garbler_begin_from(no_circuits[i], SEED, labels, 48, 0, &made_garbler));
        CHECK_CODE(OTHER, halfgates_evaluator_begin(no_circuits[i], 0, labels, 48, &made_evaluator));

        CHECK_CODE(OTHER, halfgates_garbling_write(no_garblings[i], 2, room, 177, &written));
        CHECK_CODE(OTHER, halfgates_garbling_write(no_garblings[i], 3, NULL, 0, &written));
        halfgates_garbling *const wrong_first[3] = {garbling, no_garblings[i], NULL};
        halfgates_garbling *const absent_first[3] = {garbling, NULL, no_garblings[i]};
        CHECK_CODE(OTHER, halfgates_write_many(wrong_first, 3, 1, room, 3 * 113));
        CHECK_CODE(ABSENT, halfgates_write_many(absent_first, 3, 1, room, 3 * 113));
        CHECK_CODE(OTHER, halfgates_garbling_deal(no_garblings[i], 0, BITS, 1, room, 32, &written));
        CHECK_CODE(OTHER, halfgates_offset(no_garblings[i], room));
        CHECK_CODE(OTHER, halfgates_input_labels(no_garblings[i], 0, room, room + 16, 16));
        CHECK_CODE(OTHER, halfgates_output_labels(no_garblings[i], 0, room, room + 32, 32));
        CHECK_CODE(OTHER, halfgates_rows(no_garblings[i], room, 32));
        CHECK_CODE(OTHER, halfgates_rows_range(no_garblings[i], 0, 1, room, 32));
        CHECK_CODE(OTHER, halfgates_open(no_garblings[i], 0, labels, 32, room, 2));
        CHECK_CODE(OTHER, halfgates_decode_bits(no_garblings[i], room, 2));
        CHECK_CODE(OTHER, halfgates_zero_label(no_garblings[i], 0, room));
        CHECK_CODE(OTHER, halfgates_decode_bit(no_garblings[i], 0, room));
        CHECK_CODE(OTHER, halfgates_labels(no_garblings[i], BITS, 3, 0, found, 1));
        CHECK_CODE(OTHER, halfgates_audit(no_garblings[i], garbled, 177, &report));
        CHECK_CODE(OTHER, halfgates_audit_rows(no_garblings[i], garbled, 31, BITS, 2, &rows_report));
        CHECK_CODE(OTHER, halfgates_audit_labels(no_garblings[i], labels, 32, room, 1, &labels_report));

        CHECK_CODE(OTHER, halfgates_evaluate(no_jobs[i], room, 2));
        CHECK_CODE(OTHER, halfgates_job_output_labels(no_jobs[i], room, 32));
        halfgates_job *const other_first[3] = {job, no_jobs[i], NULL}, *const null_first[3] = {job, NULL, no_jobs[i]};
        CHECK_CODE(OTHER, halfgates_evaluate_many(other_first, 3, room, 6));
        CHECK_CODE(ABSENT, halfgates_evaluate_many(null_first, 3, room, 6));
        CHECK_CODE(OTHER, halfgates_evaluate_each(other_first, 3, room, 6, codes));
        CHECK_CODE(ABSENT, halfgates_evaluate_each(null_first, 3, room, 6, codes));

        CHECK_CODE(OTHER, halfgates_garbler_offset(no_garblers[i], room));
        CHECK_CODE(OTHER, halfgates_garbler_input_labels(no_garblers[i], 0, room, room + 16, 16));
        CHECK_CODE(OTHER, halfgates_garbler_next(no_garblers[i], room, 32, &written));
        CHECK_CODE(OTHER, halfgates_garbler_output_labels(no_garblers[i], 0, room, room + 32, 32));
        CHECK_CODE(OTHER, halfgates_garbler_decode_bits(no_garblers[i], room, 2));
        CHECK_CODE(OTHER, halfgates_evaluator_feed(no_evaluators[i], labels, 32, &written));
        CHECK_CODE(OTHER, halfgates_evaluator_output_labels(no_evaluators[i], room, 32));
    }
    CHECK(made == NULL && made_garbling == NULL && made_job == NULL && made_garbler == NULL && made_evaluator == NULL);
    CHECK(codes[0] == -7 && codes[1] == -7 && codes[2] == -7);
    check_untouched();
}

static void names(void) {
    CHECK(strcmp(halfgates_fault_name(HALFGATES_OK).text, "Ok") == 0);
    CHECK(strcmp(halfgates_fault_name(HALFGATES_BAD_ARGUMENT).text, "BadArgument") == 0);
    CHECK(strcmp(halfgates_fault_name(HALFGATES_SMALL_BUFFER).text, "SmallBuffer") == 0);
    CHECK(strcmp(halfgates_fault_name(HALFGATES_NULL_POINTER).text, "NullPointer") == 0);
    CHECK(strcmp(halfgates_fault_name(HALFGATES_WRONG_HANDLE).text, "WrongHandle") == 0);
    CHECK(strcmp(halfgates_fault_name(HALFGATES_WRONG_SIZE).text, "WrongSize") == 0);
    CHECK(strcmp(halfgates_fault_name(HALFGATES_UNFINISHED).text, "Unfinished") == 0);
    CHECK(strcmp(halfgates_fault_name(HALFGATES_NO_DIGEST).text, "NoDigest") == 0);
    CHECK(strcmp(halfgates_fault_name(HALFGATES_NO_DIGEST + 1).text, "Unknown") == 0);
    CHECK(strcmp(halfgates_fault_name(-1).text, "Unknown") == 0);
    CHECK(strcmp(halfgates_fault_name(INT32_MIN).text, "Unknown") == 0);
    CHECK(strcmp(halfgates_fault_name(INT32_MAX).text, "Unknown") == 0);
}

int main(void) {
    halfgates_circuit *circuit = read_text(FULL_ADDER);
    halfgates_garbling *garbling = NULL;
    halfgates_job *job = NULL;
    halfgates_garbler *garbler = NULL;
    halfgates_evaluator *evaluator = NULL;
    halfgates_circuit_free(NULL);
    halfgates_garbling_free(NULL);
    halfgates_job_free(NULL);
    halfgates_garbler_free(NULL);
    halfgates_evaluator_free(NULL);
    CHECK_CODE(HALFGATES_OK, halfgates_garble(circuit, SEED, &garbling));
    CHECK_CODE(HALFGATES_OK, halfgates_garbling_write(garbling, 2, garbled, sizeof garbled, &written));
    for (uint32_t i = 0; i < 3; i++)
        CHECK_CODE(HALFGATES_OK, halfgates_deal(circuit, SEED, i, BITS + i, 1, labels + 32 * i, 32, &written));
    CHECK_CODE(HALFGATES_OK, halfgates_job_bind(circuit, garbled, 177, labels, 96, SIZES, 3, &job));
    CHECK_CODE(HALFGATES_OK, halfgates_garbler_begin(circuit, SEED, &garbler));
    CHECK_CODE(HALFGATES_OK, halfgates_evaluator_begin(circuit, 0, labels, 48, &evaluator));
    memset(room, 0xA5, sizeof room);
    written = 7;

    circuits(circuit);
    plain(circuit);
    garble(circuit, garbling);
    open_labels(garbling);
    deal(circuit);
    wire_labels(garbling);
    jobs(circuit, job);
    audits(garbling);
    streaming(circuit, garbler, evaluator);
    other_types(circuit, garbling, job, garbler, evaluator);
    after_streaming(garbler, evaluator);
    places_of_handles();
    names();

    /* After all of these, the handles still work. */
    CHECK_CODE(HALFGATES_OK, halfgates_evaluate(job, room, 2));
    CHECK(room[0] == 0 && room[1] == 1);
    halfgates_circuit_free(circuit);
    halfgates_garbling_free(garbling);
    halfgates_job_free(job);
    halfgates_garbler_free(garbler);
    halfgates_evaluator_free(evaluator);
    return 0;
}
