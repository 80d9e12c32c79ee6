/*
 * Circuits that follow one another under one offset: an adder of 64 bits, full adder after full adder, each carry a
 * label that comes out of one and goes into the next. And what comes from labels is what comes from a seed.
 */
#include "check.h"

enum { ADDERS = 64 };

static uint64_t state = 12;

static void fill(uint8_t *bytes, size_t size) {
    for (size_t i = 0; i < size; i++) {
        state = state * UINT64_C(6364136223846793005) + UINT64_C(1442695040888963407);
        bytes[i] = (uint8_t)(state >> 56);
    }
}

static void label_of(const uint8_t *zero, const uint8_t *offset, int bit, uint8_t *label) {
    for (int i = 0; i < 16; i++)
        label[i] = (uint8_t)(zero[i] ^ (bit ? offset[i] : 0));
}

/* The sum of two numbers, and the carry. The garbler's part and the evaluator's are side by side here. */
static uint64_t add(halfgates_circuit *circuit, uint64_t a, uint64_t b, uint64_t first, uint8_t *carry) {
    uint8_t offset[16], zeros[48], active[48], rows[32], decode_bits[2], outputs[32], bits[2], sums[64];
    uint64_t sum = 0;
    fill(offset, sizeof offset);
    offset[0] |= 1;
    fill(zeros + 32, 16);
    label_of(zeros + 32, offset, 0, active + 32);
    for (int i = 0; i < ADDERS; i++) {
        halfgates_garbling *garbling = NULL;
        fill(zeros, 32);
        CHECK_CODE(HALFGATES_OK, halfgates_garble_from(circuit, offset, zeros, sizeof zeros, first + i, &garbling));
        CHECK_CODE(HALFGATES_OK, halfgates_rows(garbling, rows, sizeof rows));
        CHECK_CODE(HALFGATES_OK, halfgates_decode_bits(garbling, decode_bits, sizeof decode_bits));
        label_of(zeros, offset, a >> i & 1, active);
        label_of(zeros + 16, offset, b >> i & 1, active + 16);
        CHECK_CODE(HALFGATES_OK, halfgates_evaluate_labels(circuit, rows, sizeof rows, first + i, active,
                                                           sizeof active, outputs, sizeof outputs));
        CHECK_CODE(HALFGATES_OK, halfgates_decode(outputs, sizeof outputs, decode_bits, 2, bits, sizeof bits));
        sum |= (uint64_t)bits[0] << i;
        *carry = bits[1];
        /* The carry's labels are those of the next adder's third input. */
        CHECK_CODE(HALFGATES_OK, halfgates_output_labels(garbling, 0, sums, sums + 32, 32));
        CHECK(memcmp(outputs + 16, sums + 16 + (bits[1] ? 32 : 0), 16) == 0);
        memcpy(zeros + 32, sums + 16, 16);
        memcpy(active + 32, outputs + 16, 16);
        halfgates_garbling_free(garbling);
    }
    return sum;
}

static void adders(halfgates_circuit *circuit) {
    const uint64_t firsts[3] = {0, UINT64_C(1) << 40, (UINT64_C(1) << 62) - ADDERS};
    for (int i = 0; i < 3; i++) {
        uint8_t carry;
        CHECK(add(circuit, 5, 7, firsts[i], &carry) == 12 && carry == 0);
        CHECK(add(circuit, UINT64_MAX, 2, firsts[i], &carry) == 1 && carry == 1);
    }
}

/* A garbling from a seed's offset and labels is the seed's: its labels, rows, decode bits and files are the same. */
static void as_under_a_seed(halfgates_circuit *circuit) {
    const uint8_t seed[32] = {9}, bits[3] = {1, 0, 1};
    uint8_t offset[16], again[16], zero[48], one[48], rows[2][33], decode_bits[2][3], files[2][177], label_files[3][32];
    size_t written;
    halfgates_garbling *seeded = NULL, *from = NULL;
    halfgates_audit_report report;
    halfgates_labels_report labels_report;
    CHECK_CODE(HALFGATES_OK, halfgates_garble(circuit, seed, &seeded));
    CHECK_CODE(HALFGATES_OK, halfgates_offset(seeded, offset));
    CHECK((offset[0] & 1) == 1);
    for (uint32_t i = 0; i < 3; i++) {
        uint8_t label[16];
        CHECK_CODE(HALFGATES_OK, halfgates_input_labels(seeded, i, zero + 16 * i, one + 16 * i, 16));
        CHECK_CODE(HALFGATES_OK, halfgates_zero_label(seeded, i, label));
        CHECK(memcmp(label, zero + 16 * i, 16) == 0);
        label_of(zero + 16 * i, offset, 1, label);
        CHECK(memcmp(label, one + 16 * i, 16) == 0);
    }
    CHECK_CODE(HALFGATES_OK, halfgates_garble_from(circuit, offset, zero, sizeof zero, 0, &from));
    CHECK_CODE(HALFGATES_OK, halfgates_offset(from, again));
    CHECK(memcmp(offset, again, 16) == 0);
    memset(rows, 0xA5, sizeof rows);
    memset(decode_bits, 0xA5, sizeof decode_bits);
    for (int i = 0; i < 2; i++) {
        halfgates_garbling *garbling = i ? from : seeded;
        CHECK_CODE(HALFGATES_OK, halfgates_rows(garbling, rows[i], sizeof rows[i]));
        CHECK_CODE(HALFGATES_OK, halfgates_decode_bits(garbling, decode_bits[i], sizeof decode_bits[i]));
        CHECK(rows[i][32] == 0xA5 && decode_bits[i][2] == 0xA5);
    }
    CHECK(memcmp(rows[0], rows[1], 33) == 0 && memcmp(decode_bits[0], decode_bits[1], 3) == 0);
    for (uint32_t version = 1; version <= 2; version++) {
        size_t sizes[2];
        CHECK_CODE(HALFGATES_OK, halfgates_garbling_write(seeded, version, files[0], 177, &sizes[0]));
        CHECK_CODE(HALFGATES_OK, halfgates_garbling_write(from, version, files[1], 177, &sizes[1]));
        CHECK(sizes[0] == sizes[1] && memcmp(files[0], files[1], sizes[0]) == 0);
        CHECK_CODE(HALFGATES_OK, halfgates_audit(from, files[0], sizes[0], &report));
        CHECK(report.honest == 1);
    }
    for (uint32_t i = 0; i < 3; i++) {
        uint8_t found;
        CHECK_CODE(HALFGATES_OK, halfgates_deal(circuit, seed, i, bits + i, 1, label_files[0], 32, &written));
        CHECK_CODE(HALFGATES_OK, halfgates_garbling_deal(from, i, bits + i, 1, label_files[1], 32, &written));
        CHECK_CODE(HALFGATES_OK, halfgates_label_file(circuit, i, (bits[i] ? one : zero) + 16 * i, 16,
                                                      label_files[2], 32, &written));
        CHECK(written == 32 && memcmp(label_files[0], label_files[1], 32) == 0);
        CHECK(memcmp(label_files[0], label_files[2], 32) == 0);
        CHECK_CODE(HALFGATES_OK, halfgates_audit_labels(from, label_files[0], 32, &found, 1, &labels_report));
        CHECK(labels_report.verdict == HALFGATES_OK && found == bits[i]);
    }
    halfgates_garbling_free(seeded);
    halfgates_garbling_free(from);
}

/* A job's output labels are those that its rows and labels evaluate to, and decode to its bits. */
static void output_labels(halfgates_circuit *circuit) {
    const uint8_t seed[32] = {9}, bits[3] = {1, 1, 1};
    const size_t sizes[3] = {32, 32, 32};
    uint8_t garbled[177], files[96], active[48], rows[32], decode_bits[2], labels[33], others[32], decoded[2], found[2];
    uint8_t zero[32], one[32];
    size_t written;
    halfgates_garbling *garbling = NULL;
    halfgates_job *job = NULL;
    halfgates_circuit *other = NULL;
    CHECK_CODE(HALFGATES_OK, halfgates_circuit_share(circuit, &other));
    CHECK(other != circuit);
    CHECK_CODE(HALFGATES_OK, halfgates_garble(other, seed, &garbling));
    CHECK_CODE(HALFGATES_OK, halfgates_garbling_write(garbling, 2, garbled, sizeof garbled, &written));
    for (uint32_t i = 0; i < 3; i++) {
        CHECK_CODE(HALFGATES_OK, halfgates_deal(other, seed, i, bits + i, 1, files + 32 * i, 32, &written));
        memcpy(active + 16 * i, files + 32 * i + 16, 16);
    }
    CHECK_CODE(HALFGATES_OK, halfgates_job_bind(other, garbled, sizeof garbled, files, sizeof files, sizes, 3, &job));
    halfgates_circuit_free(other);
    labels[32] = 0xA5;
    CHECK_CODE(HALFGATES_OK, halfgates_job_output_labels(job, labels, sizeof labels));
    CHECK(labels[32] == 0xA5);
    CHECK_CODE(HALFGATES_OK, halfgates_rows(garbling, rows, sizeof rows));
    CHECK_CODE(HALFGATES_OK, halfgates_evaluate_labels(circuit, rows, sizeof rows, 0, active, sizeof active, others,
                                                       sizeof others));
    CHECK(memcmp(labels, others, 32) == 0);
    CHECK_CODE(HALFGATES_OK, halfgates_output_labels(garbling, 0, zero, one, 32));
    CHECK(memcmp(labels, one, 32) == 0);
    CHECK_CODE(HALFGATES_OK, halfgates_decode_bits(garbling, decode_bits, sizeof decode_bits));
    CHECK_CODE(HALFGATES_OK, halfgates_decode(labels, 32, decode_bits, 2, decoded, sizeof decoded));
    CHECK_CODE(HALFGATES_OK, halfgates_evaluate(job, found, sizeof found));
    CHECK(memcmp(decoded, found, 2) == 0 && found[0] == 1 && found[1] == 1);
    halfgates_garbling_free(garbling);
    halfgates_job_free(job);
}

int main(void) {
    halfgates_circuit *circuit = read_text(FULL_ADDER);
    adders(circuit);
    as_under_a_seed(circuit);
    output_labels(circuit);
    halfgates_circuit_free(circuit);
    return 0;
}
