/*
 * Circuits without a digest: what needs one refuses them and their garblings, all else works, and once the digest is
 * taken all works.
 */
#include "check.h"

enum { NONE = HALFGATES_NO_DIGEST, BAD = HALFGATES_BAD_ARGUMENT, ABSENT = HALFGATES_NULL_POINTER };

static const uint8_t SEED[32] = {9}, OFFSET[16] = {1}, ZEROS[48] = {2};
static const size_t SIZES[3] = {32, 32, 32};

/* What a circuit with its digest gives. */
static uint8_t digest[32], garbled[177], labels[96];

static halfgates_circuit *read_without(void) {
    halfgates_circuit *circuit = NULL;
    CHECK_CODE(HALFGATES_OK,
               halfgates_circuit_read_without_digest((const uint8_t *)FULL_ADDER, strlen(FULL_ADDER), &circuit));
    return circuit;
}

static void check_digest(const halfgates_circuit *circuit) {
    uint8_t found[32];
    CHECK_CODE(HALFGATES_OK, halfgates_circuit_digest(circuit, found));
    CHECK(memcmp(found, digest, sizeof found) == 0);
}

static void check_no_digest(const halfgates_circuit *circuit) {
    uint8_t room[32];
    halfgates_job *job = NULL;
    memset(room, 0xA5, sizeof room);
    CHECK_CODE(ABSENT, halfgates_circuit_digest(circuit, NULL));
    CHECK_CODE(NONE, halfgates_circuit_digest(circuit, room));
    for (size_t i = 0; i < sizeof room; i++)
        CHECK(room[i] == 0xA5);
    CHECK_CODE(ABSENT, halfgates_job_bind(circuit, garbled, 177, labels, 96, SIZES, 3, NULL));
    CHECK_CODE(ABSENT, halfgates_job_bind(circuit, NULL, 177, labels, 96, SIZES, 3, &job));
    CHECK_CODE(NONE, halfgates_job_bind(circuit, garbled, 177, labels, 96, SIZES, 3, &job));
    CHECK_CODE(NONE, halfgates_job_bind(circuit, garbled, 176, labels, 95, SIZES, 3, &job));
    CHECK_CODE(NONE, halfgates_job_bind(circuit, NULL, 0, NULL, 0, NULL, 0, &job));
    CHECK(job == NULL);
}

/* What a garbling without a digest refuses comes after 60 and before all else, and it writes nothing. */
static void check_no_files(halfgates_garbling *garbling, halfgates_garbling *with, halfgates_garbling *later) {
    halfgates_garbling *const mixed[3] = {with, garbling, with}, *const other[3] = {garbling, with, later};
    uint8_t room[3 * 177];
    size_t written = 7;
    halfgates_audit_report report;
    memset(room, 0xA5, sizeof room);
    memset(&report, 0xA5, sizeof report);
    CHECK_CODE(ABSENT, halfgates_garbling_write(garbling, 2, room, sizeof room, NULL));
    CHECK_CODE(BAD, halfgates_garbling_write(garbling, 3, room, sizeof room, &written));
    CHECK_CODE(BAD, halfgates_garbling_write(later, 2, room, sizeof room, &written));
    for (uint32_t version = 1; version <= 2; version++) {
        CHECK_CODE(NONE, halfgates_garbling_write(garbling, version, room, sizeof room, &written));
        CHECK_CODE(NONE, halfgates_garbling_write(garbling, version, NULL, 0, &written));
        CHECK_CODE(NONE, halfgates_write_many(mixed, 3, version, room, sizeof room));
        CHECK_CODE(NONE, halfgates_write_many(mixed, 2, version, NULL, 0));
        CHECK_CODE(NONE, halfgates_write_many(&garbling, 1, version, room, sizeof room));
        CHECK_CODE(BAD, halfgates_write_many(other, 3, version, room, sizeof room));
    }
    CHECK_CODE(BAD, halfgates_write_many(mixed, 3, 3, room, sizeof room));
    CHECK_CODE(ABSENT, halfgates_audit(garbling, garbled, 177, NULL));
    CHECK_CODE(BAD, halfgates_audit(later, garbled, 177, &report));
    CHECK_CODE(NONE, halfgates_audit(garbling, garbled, 177, &report));
    CHECK_CODE(NONE, halfgates_audit(garbling, garbled, 176, &report));
    CHECK_CODE(NONE, halfgates_audit(garbling, NULL, 0, &report));
    CHECK(written == 7 && report.honest == 0xA5);
    for (size_t i = 0; i < sizeof room; i++)
        CHECK(room[i] == 0xA5);
}

/* Rows, decode bits, label files and the garbler's row pairs need no digest. */
static void check_the_rest(const halfgates_circuit *circuit, halfgates_garbling *garbling) {
    uint8_t rows[32], bits[2], file[32], outputs[32];
    const uint8_t one = 1;
    size_t written;
    halfgates_garbler *garbler = NULL;
    CHECK(halfgates_garbled_size(circuit, 2) == 177);
    CHECK_CODE(HALFGATES_OK, halfgates_rows(garbling, rows, sizeof rows));
    CHECK(memcmp(rows, garbled + 48, sizeof rows) == 0);
    CHECK_CODE(HALFGATES_OK, halfgates_decode_bits(garbling, bits, sizeof bits));
    CHECK((bits[0] | bits[1] << 1) == garbled[80]);
    CHECK_CODE(HALFGATES_OK, halfgates_garbling_deal(garbling, 0, &one, 1, file, sizeof file, &written));
    CHECK(memcmp(file, labels, sizeof file) == 0);
    CHECK_CODE(HALFGATES_OK, halfgates_deal(circuit, SEED, 0, &one, 1, file, sizeof file, &written));
    CHECK(memcmp(file, labels, sizeof file) == 0);
    CHECK_CODE(HALFGATES_OK, halfgates_garbler_begin(circuit, SEED, &garbler));
    CHECK_CODE(HALFGATES_OK, halfgates_garbler_next(garbler, rows, sizeof rows, &written));
    CHECK(written == 32 && memcmp(rows, garbled + 48, sizeof rows) == 0);
    CHECK_CODE(HALFGATES_OK, halfgates_evaluate_labels(circuit, rows, sizeof rows, 0, ZEROS, sizeof ZEROS, outputs,
                                                       sizeof outputs));
    halfgates_garbler_free(garbler);
}

/* The new handle has a digest where the given one has: that of the ordered circuit is its own. */
static void check_order(const halfgates_circuit *circuit, int has_digest) {
    halfgates_circuit *ordered = NULL, *again = NULL;
    uint8_t text[100], found[32], expected[32];
    size_t written;
    CHECK_CODE(HALFGATES_OK, halfgates_circuit_order(circuit, &ordered));
    CHECK_CODE(has_digest ? HALFGATES_OK : NONE, halfgates_circuit_digest(ordered, found));
    CHECK_CODE(HALFGATES_OK, halfgates_circuit_take_digest(ordered));
    CHECK_CODE(HALFGATES_OK, halfgates_circuit_digest(ordered, found));
    CHECK_CODE(HALFGATES_OK, halfgates_circuit_text(ordered, text, sizeof text, &written));
    CHECK_CODE(HALFGATES_OK, halfgates_circuit_read(text, written, &again));
    CHECK_CODE(HALFGATES_OK, halfgates_circuit_digest(again, expected));
    CHECK(memcmp(found, expected, sizeof found) == 0 && memcmp(found, digest, sizeof found) != 0);
    halfgates_circuit_free(ordered);
    halfgates_circuit_free(again);
}

int main(void) {
    const uint8_t bits[3] = {1, 0, 1};
    size_t written;
    halfgates_circuit *circuit = read_text(FULL_ADDER), *bare = read_without(), *shared = NULL;
    halfgates_garbling *with = NULL, *without = NULL, *many[2] = {NULL, NULL}, *own = NULL, *later = NULL;
    halfgates_job *job = NULL;
    halfgates_audit_report report;
    uint8_t found[177];

    CHECK_CODE(HALFGATES_OK, halfgates_circuit_digest(circuit, digest));
    CHECK_CODE(HALFGATES_OK, halfgates_garble(circuit, SEED, &with));
    CHECK_CODE(HALFGATES_OK, halfgates_garbling_write(with, 2, garbled, sizeof garbled, &written));
    for (uint32_t i = 0; i < 3; i++)
        CHECK_CODE(HALFGATES_OK, halfgates_deal(circuit, SEED, i, bits + i, 1, labels + 32 * i, 32, &written));

    CHECK_CODE(HALFGATES_OK, halfgates_garble(bare, SEED, &without));
    CHECK_CODE(HALFGATES_OK, halfgates_garble_many(bare, SEED, 1, many));
    CHECK_CODE(HALFGATES_OK, halfgates_garble_from(bare, OFFSET, ZEROS, sizeof ZEROS, 0, &own));
    CHECK_CODE(HALFGATES_OK, halfgates_garble_from(bare, OFFSET, ZEROS, sizeof ZEROS, 1, &later));
    CHECK_CODE(HALFGATES_OK, halfgates_circuit_share(bare, &shared));
    check_no_digest(bare);
    check_no_digest(shared);
    check_no_files(without, with, later);
    check_no_files(many[0], with, later);
    check_no_files(own, with, later);
    check_the_rest(bare, without);
    check_order(bare, 0);

    /* Taken once or twice, it is the digest, of this handle alone. */
    CHECK_CODE(HALFGATES_OK, halfgates_circuit_take_digest(bare));
    check_digest(bare);
    CHECK_CODE(HALFGATES_OK, halfgates_circuit_take_digest(bare));
    check_digest(bare);
    check_no_digest(shared);
    check_no_files(without, with, later);
    check_order(bare, 1);
    CHECK_CODE(HALFGATES_OK, halfgates_circuit_take_digest(circuit));
    check_digest(circuit);
    CHECK_CODE(HALFGATES_OK, halfgates_garble(bare, SEED, &many[1]));
    CHECK_CODE(HALFGATES_OK, halfgates_garbling_write(many[1], 2, found, sizeof found, &written));
    CHECK(memcmp(found, garbled, sizeof found) == 0);
    CHECK_CODE(HALFGATES_OK, halfgates_audit(many[1], garbled, sizeof garbled, &report));
    CHECK(report.honest == 1);
    CHECK_CODE(HALFGATES_OK, halfgates_job_bind(bare, garbled, 177, labels, 96, SIZES, 3, &job));
    CHECK_CODE(HALFGATES_OK, halfgates_evaluate(job, found, 2));
    CHECK(found[0] == 0 && found[1] == 1);
    halfgates_circuit_free(bare);
    halfgates_circuit_free(shared);
    halfgates_circuit_free(circuit);
    halfgates_garbling_free(with);
    halfgates_garbling_free(without);
    halfgates_garbling_free(many[0]);
    halfgates_garbling_free(many[1]);
    halfgates_garbling_free(own);
    halfgates_garbling_free(later);
    halfgates_job_free(job);
    return 0;
}
