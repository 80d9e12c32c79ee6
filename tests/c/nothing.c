/* A NULL of size 0 is a buffer without bytes. A circuit without wires, or with values of width 0, needs no others. */
#include "check.h"

static const uint8_t SEED[32] = {1}, OFFSET[16] = {1};

/* The same in pieces, of which there are none. */
static void check_streaming(const halfgates_circuit *circuit, size_t values) {
    halfgates_garbler *garblers[2] = {NULL, NULL};
    halfgates_evaluator *evaluator = NULL;
    CHECK_CODE(HALFGATES_OK, halfgates_garbler_begin(circuit, SEED, &garblers[0]));
    CHECK_CODE(HALFGATES_OK, halfgates_garbler_begin_from(circuit, OFFSET, NULL, 0, 0, &garblers[1]));
    for (int i = 0; i < 2; i++) {
        size_t written = 7;
        for (uint32_t index = 0; index < values; index++)
            CHECK_CODE(HALFGATES_OK, halfgates_garbler_input_labels(garblers[i], index, NULL, NULL, 0));
        CHECK_CODE(HALFGATES_OK, halfgates_garbler_decode_bits(garblers[i], NULL, 0));
        CHECK_CODE(HALFGATES_OK, halfgates_garbler_next(garblers[i], NULL, 0, &written));
        CHECK(written == 0);
        CHECK_CODE(HALFGATES_OK, halfgates_garbler_decode_bits(garblers[i], NULL, 0));
        halfgates_garbler_free(garblers[i]);
    }
    size_t taken = 7;
    CHECK_CODE(HALFGATES_OK, halfgates_evaluator_begin(circuit, 0, NULL, 0, &evaluator));
    CHECK_CODE(HALFGATES_OK, halfgates_evaluator_output_labels(evaluator, NULL, 0));
    CHECK_CODE(HALFGATES_OK, halfgates_evaluator_feed(evaluator, NULL, 0, &taken));
    CHECK(taken == 0);
    CHECK_CODE(HALFGATES_OK, halfgates_evaluator_output_labels(evaluator, NULL, 0));
    halfgates_evaluator_free(evaluator);
}

/* Garbling and evaluating without a buffer, but those of the files. */
static void check_circuit(const char *text, size_t values) {
    halfgates_circuit *circuit = read_text(text), *ordered = NULL;
    halfgates_garbling *garbling = NULL, *own = NULL;
    halfgates_job *job = NULL;
    halfgates_audit_report report;
    halfgates_rows_report rows_report;
    uint8_t garbled[128], again[128], labels[64];
    uint32_t widths[2] = {1, 1};
    size_t size, written, lengths[2] = {16, 16};
    int32_t code = -7;

    CHECK_CODE(HALFGATES_OK, halfgates_circuit_input_widths(circuit, values ? widths : NULL, values));
    CHECK_CODE(HALFGATES_OK, halfgates_circuit_output_widths(circuit, NULL, 0));
    CHECK(values == 0 || widths[0] == 0);
    CHECK_CODE(HALFGATES_SMALL_BUFFER, halfgates_circuit_text(circuit, NULL, 0, &size));
    CHECK(size == 9 + 2 * values);
    CHECK_CODE(HALFGATES_OK, halfgates_circuit_order(circuit, &ordered));
    CHECK_CODE(HALFGATES_OK, halfgates_plain(ordered, NULL, 0, NULL, 0));
    CHECK_CODE(HALFGATES_OK, halfgates_plain(circuit, NULL, 0, NULL, 0));
    CHECK_CODE(HALFGATES_OK, halfgates_garble(circuit, SEED, &garbling));
    CHECK_CODE(HALFGATES_OK, halfgates_garble_many(circuit, NULL, 0, NULL));
    CHECK_CODE(HALFGATES_OK, halfgates_garble_from(circuit, OFFSET, NULL, 0, 0, &own));
    CHECK_CODE(HALFGATES_OK, halfgates_labels(garbling, NULL, 0, 0, NULL, 0));
    CHECK_CODE(HALFGATES_OK, halfgates_rows(garbling, NULL, 0));
    CHECK_CODE(HALFGATES_OK, halfgates_decode_bits(garbling, NULL, 0));
    CHECK_CODE(HALFGATES_OK, halfgates_audit_rows(garbling, NULL, 0, NULL, 0, &rows_report));
    CHECK(rows_report.honest == 1);
    CHECK_CODE(HALFGATES_OK, halfgates_evaluate_labels(circuit, NULL, 0, 0, NULL, 0, NULL, 0));
    CHECK_CODE(HALFGATES_OK, halfgates_rows_range(garbling, 0, 0, NULL, 0));
    check_streaming(circuit, values);

    CHECK_CODE(HALFGATES_SMALL_BUFFER, halfgates_garbling_write(garbling, 2, NULL, 0, &size));
    CHECK(size == 80);
    CHECK_CODE(HALFGATES_OK, halfgates_garbling_write(garbling, 2, garbled, sizeof garbled, &size));
    CHECK_CODE(HALFGATES_OK, halfgates_write_many(&garbling, 1, 2, again, size));
    CHECK(memcmp(again, garbled, size) == 0);
    CHECK_CODE(HALFGATES_OK, halfgates_write_many(NULL, 0, 2, NULL, 0));
    CHECK_CODE(HALFGATES_OK, halfgates_audit(garbling, garbled, size, &report));
    CHECK(report.honest == 1);
    for (uint32_t i = 0; i < values; i++) {
        CHECK_CODE(HALFGATES_SMALL_BUFFER, halfgates_deal(circuit, SEED, i, NULL, 0, NULL, 0, &written));
        CHECK_CODE(HALFGATES_OK, halfgates_deal(circuit, SEED, i, NULL, 0, labels + 16 * i, 16, &written));
        CHECK_CODE(HALFGATES_OK, halfgates_garbling_deal(garbling, i, NULL, 0, labels + 16 * i, 16, &written));
        CHECK_CODE(HALFGATES_OK, halfgates_label_file(circuit, i, NULL, 0, labels + 16 * i, 16, &written));
        CHECK_CODE(HALFGATES_OK, halfgates_input_labels(garbling, i, NULL, NULL, 0));
    }
    CHECK_CODE(HALFGATES_OK, halfgates_job_bind(circuit, garbled, size, values ? labels : NULL, 16 * values,
                                                values ? lengths : NULL, values, &job));
    CHECK_CODE(HALFGATES_OK, halfgates_evaluate(job, NULL, 0));
    CHECK_CODE(HALFGATES_OK, halfgates_evaluate_many(&job, 1, NULL, 0));
    CHECK_CODE(HALFGATES_OK, halfgates_evaluate_many(NULL, 0, NULL, 0));
    CHECK_CODE(HALFGATES_OK, halfgates_evaluate_each(&job, 1, NULL, 0, &code));
    CHECK(code == HALFGATES_OK);
    CHECK_CODE(HALFGATES_OK, halfgates_evaluate_each(NULL, 0, NULL, 0, NULL));
    CHECK_CODE(HALFGATES_OK, halfgates_job_output_labels(job, NULL, 0));
    halfgates_circuit_free(circuit);
    halfgates_circuit_free(ordered);
    halfgates_garbling_free(garbling);
    halfgates_garbling_free(own);
    halfgates_job_free(job);
}

/* An output value without wires has no labels to open, nor to write. */
static void check_no_labels(void) {
    halfgates_circuit *circuit = read_text("1 2\n1 1\n2 0 1\n\n1 1 0 1 INV\n");
    halfgates_garbling *garbling = NULL;
    halfgates_garbler *garbler = NULL;
    CHECK_CODE(HALFGATES_OK, halfgates_garble(circuit, SEED, &garbling));
    CHECK_CODE(HALFGATES_OK, halfgates_garbler_begin(circuit, SEED, &garbler));
    CHECK_CODE(HALFGATES_OK, halfgates_output_labels(garbling, 0, NULL, NULL, 0));
    CHECK_CODE(HALFGATES_OK, halfgates_garbler_output_labels(garbler, 0, NULL, NULL, 0));
    CHECK_CODE(HALFGATES_OK, halfgates_open(garbling, 0, NULL, 0, NULL, 0));
    CHECK_CODE(HALFGATES_WRONG_SIZE, halfgates_open(garbling, 1, NULL, 0, NULL, 0));
    halfgates_circuit_free(circuit);
    halfgates_garbling_free(garbling);
    halfgates_garbler_free(garbler);
}

/* Nothing to read is a text or a file that ends too early. */
static void check_files(void) {
    halfgates_circuit *circuit = NULL;
    halfgates_garbling *garbling = NULL;
    halfgates_job *job = NULL;
    halfgates_place place;
    halfgates_sentence sentence;
    halfgates_audit_report report;
    halfgates_rows_report rows_report;
    halfgates_labels_report labels_report;
    CHECK_CODE(HALFGATES_CIRCUIT_TRUNCATED, halfgates_circuit_read(NULL, 0, &circuit));
    CHECK_CODE(HALFGATES_CIRCUIT_TRUNCATED, halfgates_circuit_read_without_digest(NULL, 0, &circuit));
    CHECK(circuit == NULL);
    CHECK_CODE(HALFGATES_OK, halfgates_locate(NULL, 0, &place));
    CHECK(place.fault == HALFGATES_CIRCUIT_TRUNCATED && place.line == 1 && place.column == 1);
    CHECK_CODE(HALFGATES_OK, halfgates_explain(NULL, 0, &sentence));
    CHECK(strcmp(sentence.text, "the text ends before the circuit does") == 0);
    CHECK_CODE(HALFGATES_OK, halfgates_circuit_from_gates(NULL, 0, 0, NULL, 0, NULL, 0, &circuit, NULL));
    halfgates_circuit_free(circuit);
    CHECK_CODE(HALFGATES_OK, halfgates_circuit_from_gates_without_digest(NULL, 0, 0, NULL, 0, NULL, 0, &circuit, NULL));
    halfgates_circuit_free(circuit);
    circuit = read_text(FULL_ADDER);
    CHECK_CODE(HALFGATES_OK, halfgates_garble(circuit, SEED, &garbling));
    CHECK_CODE(HALFGATES_FILE_TRUNCATED, halfgates_job_bind(circuit, NULL, 0, NULL, 0, NULL, 0, &job));
    CHECK_CODE(HALFGATES_FILE_TRUNCATED, halfgates_audit(garbling, NULL, 0, &report));
    CHECK_CODE(HALFGATES_WRONG_SIZE, halfgates_audit_rows(garbling, NULL, 0, NULL, 0, &rows_report));
    CHECK_CODE(HALFGATES_FILE_TRUNCATED, halfgates_audit_labels(garbling, NULL, 0, NULL, 0, &labels_report));
    CHECK(job == NULL);
    CHECK_CODE(HALFGATES_WRONG_LENGTH, halfgates_labels(garbling, NULL, 0, 0, NULL, 0));
    CHECK_CODE(HALFGATES_OK, halfgates_decode(NULL, 0, NULL, 0, NULL, 0));
    halfgates_circuit_free(circuit);
    halfgates_garbling_free(garbling);
}

int main(void) {
    check_circuit("0 0\n0\n0\n", 0);
    check_circuit("0 0\n1 0\n0\n", 1);
    check_circuit("0 0\n2 0 0\n0\n", 2);
    check_no_labels();
    check_files();
    return 0;
}
