/*
 * Audits of row pairs and decode bits, and of label files, with garblings of any first AND number: each byte of the row
 * pairs and each decode bit is found where it differs.
 */
#include "check.h"

enum { ANDS = 3, OUTPUTS = 2, WIRES = 3 };

/* AND gates 0, 1 and 2 are the gates 1, 2 and 4, and set the wires 4, 5 and 7. */
static const char TEXT[] = "5 8\n2 1 2\n1 2\n\n2 1 0 1 3 XOR\n2 1 3 2 4 AND\n2 1 4 0 5 AND\n1 1 5 6 INV\n"
                           "2 1 6 1 7 AND\n";
static const uint32_t GATES[ANDS] = {1, 2, 4}, SET[ANDS] = {4, 5, 7};

static const uint8_t OFFSET[16] = {3};
static uint8_t rows[32 * ANDS], bits[OUTPUTS];

static halfgates_rows_report audit(const halfgates_garbling *garbling) {
    halfgates_rows_report report;
    memset(&report, 0xA5, sizeof report);
    CHECK_CODE(HALFGATES_OK, halfgates_audit_rows(garbling, rows, sizeof rows, bits, sizeof bits, &report));
    return report;
}

/* The report names this AND gate, or none, with the half gates that differ, and this decode bit. */
static void check_report(const halfgates_garbling *garbling, uint32_t row, int generator, int evaluator, uint32_t bit) {
    const halfgates_rows_report it = audit(garbling);
    const int differs = row != HALFGATES_NONE;
    CHECK(it.honest == (!differs && bit == HALFGATES_NONE));
    CHECK(it.row == row && it.decode_bit == bit && it.generator == generator && it.evaluator == evaluator);
    CHECK(it.gate == (differs ? GATES[row] : HALFGATES_NONE) && it.wire == (differs ? SET[row] : HALFGATES_NONE));
}

static void check_rows(const halfgates_garbling *garbling) {
    CHECK_CODE(HALFGATES_OK, halfgates_rows(garbling, rows, sizeof rows));
    CHECK_CODE(HALFGATES_OK, halfgates_decode_bits(garbling, bits, sizeof bits));
    check_report(garbling, HALFGATES_NONE, 0, 0, HALFGATES_NONE);
    for (uint32_t i = 0; i < sizeof rows; i++) {
        rows[i] ^= (uint8_t)(1 << i % 8);
        check_report(garbling, i / 32, i % 32 < 16, i % 32 >= 16, HALFGATES_NONE);
        /* The first of several is named, with both half gates where both differ. */
        rows[sizeof rows - 1] ^= 0x80;
        const int is_last = i / 32 == ANDS - 1;
        if (i < sizeof rows - 1)
            check_report(garbling, i / 32, i % 32 < 16, is_last || i % 32 >= 16, HALFGATES_NONE);
        rows[sizeof rows - 1] ^= 0x80;
        bits[1] ^= 1;
        check_report(garbling, i / 32, i % 32 < 16, i % 32 >= 16, 1);
        bits[1] ^= 1;
        rows[i] ^= (uint8_t)(1 << i % 8);
    }
    for (uint32_t i = 0; i < OUTPUTS; i++) {
        bits[i] ^= 1;
        check_report(garbling, HALFGATES_NONE, 0, 0, i);
        bits[i] ^= 1;
    }
    bits[0] ^= 1, bits[1] ^= 1;
    check_report(garbling, HALFGATES_NONE, 0, 0, 0);
    bits[0] ^= 1, bits[1] ^= 1;
}

/* Input value 1 has two wires: its label file, and one with a label of no wire. */
static void check_labels(const halfgates_garbling *garbling) {
    const uint8_t given[2] = {1, 0};
    uint8_t file[48], room[3] = {7, 7, 7};
    size_t written;
    halfgates_labels_report report;
    CHECK_CODE(HALFGATES_OK, halfgates_garbling_deal(garbling, 1, given, 2, file, sizeof file, &written));
    CHECK_CODE(HALFGATES_OK, halfgates_audit_labels(garbling, file, sizeof file, room, sizeof room, &report));
    CHECK(report.verdict == HALFGATES_OK && report.index == 1 && report.count == 2 && report.wire == HALFGATES_NONE);
    CHECK(room[0] == 1 && room[1] == 0 && room[2] == 7);
    file[40] ^= 1;
    CHECK_CODE(HALFGATES_OK, halfgates_audit_labels(garbling, file, sizeof file, room, sizeof room, &report));
    CHECK(report.verdict == HALFGATES_WRONG_LABEL && report.index == 1 && report.count == 0 && report.wire == 2);
    file[8] = 2;
    CHECK_CODE(HALFGATES_OK, halfgates_audit_labels(garbling, file, sizeof file, room, sizeof room, &report));
    CHECK(report.verdict == HALFGATES_NO_SUCH_VALUE && report.index == 2 && report.count == 0);
    CHECK_CODE(HALFGATES_FILE_TRUNCATED, halfgates_audit_labels(garbling, file, 47, room, sizeof room, &report));
}

int main(void) {
    const uint64_t firsts[] = {0, 1, 5, (UINT64_C(1) << 62) - ANDS};
    uint8_t zeros[16 * WIRES], file[256];
    size_t written;
    halfgates_circuit *circuit = read_text(TEXT);
    for (size_t i = 0; i < sizeof zeros; i++)
        zeros[i] = (uint8_t)(7 * i + i / 16);
    for (size_t i = 0; i < sizeof firsts / sizeof *firsts; i++) {
        halfgates_garbling *garbling = NULL, *other = NULL;
        halfgates_audit_report report;
        CHECK_CODE(HALFGATES_OK, halfgates_garble_from(circuit, OFFSET, zeros, sizeof zeros, firsts[i], &garbling));
        check_rows(garbling);
        check_labels(garbling);
        /* Those of another first number, or of other labels, aren't honest. */
        CHECK_CODE(HALFGATES_OK, halfgates_garble_from(circuit, OFFSET, zeros, sizeof zeros, 2, &other));
        CHECK(audit(other).honest == 0 && audit(other).row == 0);
        halfgates_garbling_free(other);
        /* Files are of the first number 0. */
        CHECK_CODE(firsts[i] == 0 ? HALFGATES_OK : HALFGATES_BAD_ARGUMENT,
                   halfgates_garbling_write(garbling, 2, file, sizeof file, &written));
        if (firsts[i] == 0) {
            CHECK_CODE(HALFGATES_OK, halfgates_audit(garbling, file, written, &report));
            CHECK(report.honest == 1 && memcmp(file + 48, rows, sizeof rows) == 0);
        }
        halfgates_garbling_free(garbling);
    }
    halfgates_circuit_free(circuit);
    return 0;
}
