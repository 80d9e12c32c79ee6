/*
 * The calls from labels to labels: two full adders that are joined by a carry, with buffers that are just large enough,
 * one byte too small or too large; and each bad argument, which is refused by its code and writes nothing.
 */
#include "check.h"

enum { BAD = HALFGATES_BAD_ARGUMENT, SMALL = HALFGATES_SMALL_BUFFER, ABSENT = HALFGATES_NULL_POINTER, LABEL = 16 };
enum { SIZE = HALFGATES_WRONG_SIZE };

static const uint64_t LIMIT = UINT64_C(1) << 62;
static const uint8_t SEED[32] = {9}, OFFSET[LABEL] = {0x11, 1, 2, 3}, EVEN[LABEL] = {0x10, 1, 2, 3};
static uint8_t room[256];
static size_t written;

static void fill(void) {
    memset(room, 0xA5, sizeof room);
    written = 7;
}

/* From this byte on nothing was written since the last filling. */
static void check_behind(size_t from) {
    for (size_t i = from; i < sizeof room; i++)
        CHECK(room[i] == 0xA5);
}

/* A call refuses a room that is one byte too small, and writes `size` bytes to one that is larger. */
#define CHECK_ROOM(size, name, ...) \
    do { \
        fill(); \
        CHECK_CODE(SMALL, name(__VA_ARGS__, room, (size) - 1)); \
        CHECK_CODE(SMALL, name(__VA_ARGS__, NULL, 0)); \
        check_behind(0); \
        CHECK_CODE(HALFGATES_OK, name(__VA_ARGS__, room, (size) + 1)); \
        check_behind(size); \
    } while (0)

static void choose(const uint8_t *zeros, unsigned bits, size_t count, uint8_t *labels) {
    for (size_t i = 0; i < count * LABEL; i++)
        labels[i] = zeros[i] ^ (bits >> i / LABEL & 1 ? OFFSET[i % LABEL] : 0);
}

/* Adds two numbers of two bits and a carry, under AND numbers up to the last one. */
static void joined(halfgates_circuit *circuit) {
    uint8_t zeros[2][48], ones[32], rows[2][32], decode_bits[2], active[48], outputs[32], bits[2];
    halfgates_garbling *garblings[2] = {NULL, NULL};
    for (size_t i = 0; i < sizeof zeros; i++)
        zeros[i / 48][i % 48] = (uint8_t)(7 * i + 1);
    for (int i = 0; i < 2; i++) {
        if (i == 1) {
            CHECK_CODE(HALFGATES_OK, halfgates_output_labels(garblings[0], 0, room, ones, 32));
            memcpy(zeros[1] + 32, room + LABEL, LABEL);
        }
        CHECK_CODE(HALFGATES_OK, halfgates_garble_from(circuit, OFFSET, zeros[i], 48, LIMIT - 2 + i, &garblings[i]));
        CHECK_CODE(HALFGATES_OK, halfgates_rows(garblings[i], rows[i], 32));
    }
    CHECK_CODE(HALFGATES_OK, halfgates_decode_bits(garblings[1], decode_bits, 2));
    for (unsigned bits_in = 0; bits_in < 32; bits_in++) {
        const unsigned sum = (bits_in & 1) + (bits_in >> 1 & 1) + (bits_in >> 2 & 1);
        const unsigned expected = (bits_in >> 3 & 1) + (bits_in >> 4 & 1) + (sum >> 1);
        choose(zeros[0], bits_in, 3, active);
        CHECK_CODE(HALFGATES_OK,
                   halfgates_evaluate_labels(circuit, rows[0], 32, LIMIT - 2, active, 48, outputs, 32));
        choose(zeros[1], bits_in >> 3, 2, active);
        memcpy(active + 32, outputs + LABEL, LABEL);
        CHECK_CODE(HALFGATES_OK,
                   halfgates_evaluate_labels(circuit, rows[1], 32, LIMIT - 1, active, 48, outputs, 32));
        CHECK_CODE(HALFGATES_OK, halfgates_decode(outputs, 32, decode_bits, 2, bits, 2));
        CHECK((unsigned)bits[0] + 2 * bits[1] == expected);
    }
    halfgates_garbling_free(garblings[0]);
    halfgates_garbling_free(garblings[1]);
}

static void garble_from(halfgates_circuit *circuit) {
    const uint8_t zeros[49] = {5};
    halfgates_garbling *made = NULL;
    CHECK_CODE(ABSENT, halfgates_garble_from(NULL, OFFSET, zeros, 48, 0, &made));
    CHECK_CODE(ABSENT, halfgates_garble_from(circuit, NULL, zeros, 48, 0, &made));
    CHECK_CODE(ABSENT, halfgates_garble_from(circuit, OFFSET, zeros, 48, 0, NULL));
    CHECK_CODE(SIZE, halfgates_garble_from(circuit, OFFSET, NULL, 0, 0, &made));
    CHECK_CODE(SIZE, halfgates_garble_from(circuit, OFFSET, zeros, 47, 0, &made));
    CHECK_CODE(SIZE, halfgates_garble_from(circuit, OFFSET, zeros, 49, 0, &made));
    CHECK_CODE(SIZE, halfgates_garble_from(circuit, EVEN, zeros, 47, LIMIT, &made));
    CHECK_CODE(BAD, halfgates_garble_from(circuit, EVEN, zeros, 48, 0, &made));
    CHECK_CODE(BAD, halfgates_garble_from(circuit, OFFSET, zeros, 48, LIMIT, &made));
    CHECK_CODE(BAD, halfgates_garble_from(circuit, OFFSET, zeros, 48, UINT64_MAX, &made));
    CHECK(made == NULL);
}

/* Only a first number of 0 has garbled files. */
static void files(halfgates_circuit *circuit, halfgates_garbling *garbling) {
    const uint8_t zeros[48] = {5};
    uint8_t garbled[177], labels[32];
    halfgates_garbling *later = NULL;
    halfgates_audit_report report;
    halfgates_labels_report labels_report;
    const uint8_t one = 1;
    CHECK_CODE(HALFGATES_OK, halfgates_garbling_write(garbling, 2, garbled, sizeof garbled, &written));
    CHECK_CODE(HALFGATES_OK, halfgates_garbling_deal(garbling, 0, &one, 1, labels, sizeof labels, &written));
    CHECK_CODE(HALFGATES_OK, halfgates_garble_from(circuit, OFFSET, zeros, 48, 1, &later));
    fill();
    CHECK_CODE(BAD, halfgates_garbling_write(later, 2, room, sizeof room, &written));
    for (int place = 0; place < 9; place++) {
        halfgates_garbling *list[9];
        for (int i = 0; i < 9; i++)
            list[i] = i == place ? later : garbling;
        CHECK_CODE(BAD, halfgates_write_many(list, 9, 2, room, sizeof room));
        CHECK_CODE(BAD, halfgates_write_many(list, 9, 2, NULL, 0));
    }
    CHECK_CODE(BAD, halfgates_audit(later, garbled, sizeof garbled, &report));
    CHECK_CODE(HALFGATES_OK, halfgates_audit_labels(later, labels, sizeof labels, room, 1, &labels_report));
    CHECK(labels_report.verdict == HALFGATES_WRONG_LABEL && labels_report.wire == 0);
    check_behind(0);
    CHECK(written == 7);
    halfgates_garbling_free(later);
}

static void labels_of_values(halfgates_circuit *circuit, halfgates_garbling *garbling) {
    uint8_t zero[LABEL], one[LABEL], offset[LABEL], expected[32];
    const uint8_t bit = 1, digit = 2;
    fill();
    CHECK_CODE(ABSENT, halfgates_offset(NULL, room));
    CHECK_CODE(ABSENT, halfgates_offset(garbling, NULL));
    CHECK_CODE(ABSENT, halfgates_input_labels(NULL, 0, room, room + 64, 16));
    CHECK_CODE(ABSENT, halfgates_output_labels(NULL, 0, room, room + 64, 32));
    CHECK_CODE(HALFGATES_NO_SUCH_VALUE, halfgates_input_labels(garbling, 3, room, room + 64, 16));
    CHECK_CODE(HALFGATES_NO_SUCH_VALUE, halfgates_input_labels(garbling, UINT32_MAX, room, room + 64, 16));
    CHECK_CODE(HALFGATES_NO_SUCH_VALUE, halfgates_output_labels(garbling, 1, room, room + 64, 32));
    CHECK_CODE(SMALL, halfgates_input_labels(garbling, 0, room, room + 64, 15));
    CHECK_CODE(SMALL, halfgates_input_labels(garbling, 0, NULL, NULL, 0));
    CHECK_CODE(SMALL, halfgates_output_labels(garbling, 0, room, room + 64, 31));
    CHECK_CODE(ABSENT, halfgates_garbling_deal(NULL, 0, &bit, 1, room, 32, &written));
    CHECK_CODE(ABSENT, halfgates_garbling_deal(garbling, 0, &bit, 1, room, 32, NULL));
    CHECK_CODE(HALFGATES_NO_SUCH_VALUE, halfgates_garbling_deal(garbling, 3, &bit, 1, room, 32, &written));
    CHECK_CODE(HALFGATES_WRONG_LENGTH, halfgates_garbling_deal(garbling, 0, &bit, 0, room, 32, &written));
    CHECK_CODE(HALFGATES_BAD_DIGIT, halfgates_garbling_deal(garbling, 0, &digit, 1, room, 32, &written));
    CHECK_CODE(ABSENT, halfgates_label_file(NULL, 0, SEED, 16, room, 32, &written));
    CHECK_CODE(ABSENT, halfgates_label_file(circuit, 0, SEED, 16, room, 32, NULL));
    CHECK_CODE(SIZE, halfgates_label_file(circuit, 0, SEED, 15, room, 32, &written));
    CHECK_CODE(SIZE, halfgates_label_file(circuit, 0, SEED, 17, room, 32, &written));
    CHECK_CODE(HALFGATES_NO_SUCH_VALUE, halfgates_label_file(circuit, 3, SEED, 16, room, 32, &written));
    check_behind(0);
    CHECK(written == 7);
    CHECK_CODE(SMALL, halfgates_label_file(circuit, 0, SEED, 16, room, 31, &written));
    CHECK(written == 32);
    written = 7;
    CHECK_CODE(SMALL, halfgates_garbling_deal(garbling, 0, &bit, 1, room, 31, &written));
    CHECK(written == 32);
    check_behind(0);

    CHECK_CODE(HALFGATES_OK, halfgates_offset(garbling, offset));
    CHECK_CODE(HALFGATES_OK, halfgates_input_labels(garbling, 2, room, room + 64, 64));
    memcpy(zero, room, LABEL);
    memcpy(one, room + 64, LABEL);
    for (int i = 0; i < LABEL; i++)
        CHECK(one[i] == (zero[i] ^ offset[i]) && room[LABEL + i] == 0xA5 && room[64 + LABEL + i] == 0xA5);
    CHECK_CODE(HALFGATES_OK, halfgates_zero_label(garbling, 2, room));
    CHECK(memcmp(room, zero, LABEL) == 0);
    CHECK_CODE(HALFGATES_OK, halfgates_deal(circuit, SEED, 2, &bit, 1, expected, sizeof expected, &written));
    CHECK_CODE(HALFGATES_OK, halfgates_garbling_deal(garbling, 2, &bit, 1, room, 32, &written));
    CHECK(written == 32 && memcmp(room, expected, 32) == 0);
    CHECK_CODE(HALFGATES_OK, halfgates_label_file(circuit, 2, one, LABEL, room, 33, &written));
    CHECK(written == 32 && memcmp(room, expected, 32) == 0);
}

static void evaluation(halfgates_circuit *circuit, halfgates_garbling *garbling) {
    const uint8_t labels[49] = {3}, digits[2] = {1, 2}, bits[2] = {1, 0};
    uint8_t rows[33] = {0};
    CHECK_CODE(ABSENT, halfgates_rows(NULL, room, 32));
    CHECK_CODE(ABSENT, halfgates_decode_bits(NULL, room, 2));
    CHECK_CODE(ABSENT, halfgates_evaluate_labels(NULL, rows, 32, 0, labels, 48, room, 32));
    CHECK_CODE(SIZE, halfgates_evaluate_labels(circuit, rows, 31, 0, labels, 48, room, 32));
    CHECK_CODE(SIZE, halfgates_evaluate_labels(circuit, rows, 33, 0, labels, 48, room, 32));
    CHECK_CODE(SIZE, halfgates_evaluate_labels(circuit, rows, 32, 0, labels, 47, room, 32));
    CHECK_CODE(SIZE, halfgates_evaluate_labels(circuit, rows, 32, 0, labels, 49, room, 32));
    CHECK_CODE(SIZE, halfgates_evaluate_labels(circuit, rows, 31, LIMIT, labels, 48, room, 31));
    CHECK_CODE(BAD, halfgates_evaluate_labels(circuit, rows, 32, LIMIT, labels, 48, room, 31));
    CHECK_CODE(BAD, halfgates_evaluate_labels(circuit, rows, 32, LIMIT, labels, 48, room, 32));
    CHECK_CODE(BAD, halfgates_evaluate_labels(circuit, rows, 32, UINT64_MAX, labels, 48, room, 32));
    CHECK_CODE(SIZE, halfgates_decode(labels, 31, bits, 2, room, 2));
    CHECK_CODE(SIZE, halfgates_decode(labels, 33, bits, 2, room, 2));
    CHECK_CODE(ABSENT, halfgates_job_output_labels(NULL, room, 32));
    fill();
    CHECK_CODE(HALFGATES_BAD_DIGIT, halfgates_decode(labels, 32, digits, 2, room, 2));
    check_behind(0);
    CHECK_ROOM(32, halfgates_rows, garbling);
    CHECK_ROOM(2, halfgates_decode_bits, garbling);
    CHECK_ROOM(32, halfgates_evaluate_labels, circuit, rows, 32, 0, labels, 48);
    CHECK_ROOM(2, halfgates_decode, labels, 32, bits, 2);
    CHECK(room[0] == 0 && room[1] == 0);
}

static void job_labels(halfgates_circuit *circuit, halfgates_garbling *garbling) {
    uint8_t garbled[177], labels[96], zero[32], one[32], outputs[2];
    const uint8_t bits[3] = {1, 0, 1};
    const size_t sizes[3] = {32, 32, 32};
    halfgates_job *job = NULL;
    CHECK_CODE(HALFGATES_OK, halfgates_garbling_write(garbling, 2, garbled, sizeof garbled, &written));
    for (uint32_t i = 0; i < 3; i++)
        CHECK_CODE(HALFGATES_OK, halfgates_garbling_deal(garbling, i, bits + i, 1, labels + 32 * i, 32, &written));
    CHECK_CODE(HALFGATES_OK, halfgates_job_bind(circuit, garbled, 177, labels, 96, sizes, 3, &job));
    CHECK_ROOM(32, halfgates_job_output_labels, job);
    CHECK_CODE(HALFGATES_OK, halfgates_output_labels(garbling, 0, zero, one, 32));
    CHECK_CODE(HALFGATES_OK, halfgates_evaluate(job, outputs, 2));
    for (int i = 0; i < 2; i++)
        CHECK(memcmp(room + LABEL * i, (outputs[i] ? one : zero) + LABEL * i, LABEL) == 0);
    halfgates_job_free(job);
}

static void sharing(halfgates_circuit *circuit) {
    halfgates_circuit *other = NULL;
    uint8_t digests[2][32];
    CHECK_CODE(ABSENT, halfgates_circuit_share(NULL, &other));
    CHECK_CODE(ABSENT, halfgates_circuit_share(circuit, NULL));
    CHECK(other == NULL);
    CHECK_CODE(HALFGATES_OK, halfgates_circuit_share(circuit, &other));
    CHECK_CODE(HALFGATES_OK, halfgates_circuit_digest(circuit, digests[0]));
    halfgates_circuit_free(circuit);
    CHECK_CODE(HALFGATES_OK, halfgates_circuit_digest(other, digests[1]));
    CHECK(memcmp(digests[0], digests[1], 32) == 0);
    joined(other);
    halfgates_circuit_free(other);
}

int main(void) {
    halfgates_circuit *circuit = read_text(FULL_ADDER);
    halfgates_garbling *garbling = NULL;
    CHECK_CODE(HALFGATES_OK, halfgates_garble(circuit, SEED, &garbling));
    joined(circuit);
    garble_from(circuit);
    files(circuit, garbling);
    labels_of_values(circuit, garbling);
    evaluation(circuit, garbling);
    job_labels(circuit, garbling);
    sharing(circuit);
    for (int32_t code = -1; code < 100; code++)
        CHECK(halfgates_is_memory(code) == (strcmp(halfgates_fault_name(code).text, "Memory") == 0));
    halfgates_garbling_free(garbling);
    return 0;
}
