/*
 * A NULL whose size isn't 0 is refused. Each call is made by a process of its own, and its end is looked at.
 *
 *   null [LIBRARY]
 *
 * The functions are those of the archive, or of a shared library, which are found by their bare names.
 */
#include "check.h"
#include <dlfcn.h>
#include <sys/wait.h>
#include <unistd.h>

typedef void function(void);

static void *library;
static int failures;

static function *find(const char *name) {
    function *found;
    *(void **)&found = dlsym(library, name);
    CHECK(found != NULL);
    return found;
}

#define CALLED(name) (library == NULL ? &name : (__typeof__(&name))find(#name))

static void check_end(const char *what) {
    int status;
    wait(&status);
    if (status != 0) {
        fprintf(stderr, "%s: %s %d\n", what, WIFSIGNALED(status) ? "signal" : "status",
                WIFSIGNALED(status) ? WTERMSIG(status) : WEXITSTATUS(status));
        failures++;
    }
}

#define CHECK_REFUSED(name, ...) \
    do { \
        fflush(stderr); \
        if (fork() == 0) \
            _exit(CALLED(name)(__VA_ARGS__) != HALFGATES_NULL_POINTER); \
        check_end(#name "(" #__VA_ARGS__ ")"); \
    } while (0)

#define CHECK_DONE(name, ...) CHECK_CODE(HALFGATES_OK, CALLED(name)(__VA_ARGS__))

int main(int count, char **words) {
    const uint8_t seed[32] = {0}, offset[16] = {1}, bits[3] = {1, 0, 1};
    const size_t sizes[3] = {32, 32, 32};
    uint8_t garbled[177], labels[96], room[512];
    size_t written;
    halfgates_circuit *circuit = NULL, *made = NULL;
    halfgates_garbling *garbling = NULL, *made_garbling = NULL;
    halfgates_job *job = NULL, *bound = NULL;
    halfgates_garbler *garbler = NULL, *made_garbler = NULL;
    halfgates_evaluator *evaluator = NULL, *made_evaluator = NULL;
    int32_t codes[1];
    halfgates_place place;
    halfgates_sentence sentence;
    halfgates_wire_labels found[8];
    halfgates_audit_report report;
    halfgates_rows_report rows_report;
    halfgates_labels_report labels_report;
    if (count > 1) {
        library = dlopen(words[1], RTLD_NOW | RTLD_LOCAL);
        CHECK(library != NULL);
    }
    CHECK_DONE(halfgates_circuit_read, (const uint8_t *)FULL_ADDER, strlen(FULL_ADDER), &circuit);
    CHECK_DONE(halfgates_garble, circuit, seed, &garbling);
    CHECK_DONE(halfgates_garbling_write, garbling, 2, garbled, sizeof garbled, &written);
    for (uint32_t i = 0; i < 3; i++)
        CHECK_DONE(halfgates_deal, circuit, seed, i, bits + i, 1, labels + 32 * i, 32, &written);
    CHECK_DONE(halfgates_job_bind, circuit, garbled, 177, labels, 96, sizes, 3, &job);
    CHECK_DONE(halfgates_garbler_begin, circuit, seed, &garbler);
    CHECK_DONE(halfgates_evaluator_begin, circuit, 0, labels, 48, &evaluator);

    CHECK_REFUSED(halfgates_circuit_read, NULL, 1, &made);
    CHECK_REFUSED(halfgates_circuit_read_without_digest, NULL, 1, &made);
    CHECK_REFUSED(halfgates_locate, NULL, 1, &place);
    CHECK_REFUSED(halfgates_explain, NULL, 1, &sentence);
    CHECK_REFUSED(halfgates_circuit_from_gates, NULL, 1, 1, NULL, 0, NULL, 0, &made, &place);
    CHECK_REFUSED(halfgates_circuit_from_gates, NULL, 0, 0, NULL, 1, NULL, 0, &made, &place);
    CHECK_REFUSED(halfgates_circuit_from_gates, NULL, 0, 0, NULL, 0, NULL, 1, &made, &place);
    CHECK_REFUSED(halfgates_circuit_from_gates_without_digest, NULL, 1, 1, NULL, 0, NULL, 0, &made, &place);
    CHECK_REFUSED(halfgates_circuit_from_gates_without_digest, NULL, 0, 0, NULL, 1, NULL, 0, &made, &place);
    CHECK_REFUSED(halfgates_circuit_from_gates_without_digest, NULL, 0, 0, NULL, 0, NULL, 1, &made, &place);
    CHECK_REFUSED(halfgates_circuit_input_widths, circuit, NULL, 1);
    CHECK_REFUSED(halfgates_circuit_input_widths, circuit, NULL, 3);
    CHECK_REFUSED(halfgates_circuit_output_widths, circuit, NULL, 1);
    CHECK_REFUSED(halfgates_circuit_text, circuit, NULL, 1, &written);
    CHECK_REFUSED(halfgates_circuit_text, circuit, NULL, 512, &written);
    CHECK_REFUSED(halfgates_plain, circuit, NULL, 1, room, 2);
    CHECK_REFUSED(halfgates_plain, circuit, NULL, 3, room, 2);
    CHECK_REFUSED(halfgates_plain, circuit, bits, 3, NULL, 1);
    CHECK_REFUSED(halfgates_plain, circuit, bits, 3, NULL, 2);
    CHECK_REFUSED(halfgates_garbling_write, garbling, 2, NULL, 1, &written);
    CHECK_REFUSED(halfgates_garbling_write, garbling, 2, NULL, 177, &written);
    CHECK_REFUSED(halfgates_write_many, NULL, 1, 2, room, sizeof room);
    CHECK_REFUSED(halfgates_write_many, &garbling, 1, 2, NULL, 1);
    CHECK_REFUSED(halfgates_write_many, &garbling, 1, 2, NULL, 177);
    CHECK_REFUSED(halfgates_write_many, &made_garbling, 1, 2, room, sizeof room);
    CHECK_REFUSED(halfgates_deal, circuit, seed, 0, NULL, 1, room, sizeof room, &written);
    CHECK_REFUSED(halfgates_deal, circuit, seed, 0, bits, 1, NULL, 1, &written);
    CHECK_REFUSED(halfgates_deal, circuit, seed, 0, bits, 1, NULL, 32, &written);
    CHECK_REFUSED(halfgates_labels, garbling, NULL, 1, 0, found, 8);
    CHECK_REFUSED(halfgates_labels, garbling, NULL, 3, 0, found, 8);
    CHECK_REFUSED(halfgates_labels, garbling, bits, 3, 0, NULL, 1);
    CHECK_REFUSED(halfgates_labels, garbling, bits, 3, 0, NULL, 8);
    CHECK_REFUSED(halfgates_job_bind, circuit, NULL, 1, labels, 96, sizes, 3, &bound);
    CHECK_REFUSED(halfgates_job_bind, circuit, NULL, 177, labels, 96, sizes, 3, &bound);
    CHECK_REFUSED(halfgates_job_bind, circuit, garbled, 177, NULL, 1, sizes, 3, &bound);
    CHECK_REFUSED(halfgates_job_bind, circuit, garbled, 177, NULL, 96, sizes, 3, &bound);
    CHECK_REFUSED(halfgates_job_bind, circuit, garbled, 177, labels, 96, NULL, 1, &bound);
    CHECK_REFUSED(halfgates_job_bind, circuit, garbled, 177, labels, 96, NULL, 3, &bound);
    CHECK_REFUSED(halfgates_evaluate, job, NULL, 1);
    CHECK_REFUSED(halfgates_evaluate, job, NULL, 2);
    CHECK_REFUSED(halfgates_evaluate_many, NULL, 1, room, 2);
    CHECK_REFUSED(halfgates_evaluate_many, &job, 1, NULL, 1);
    CHECK_REFUSED(halfgates_evaluate_many, &job, 1, NULL, 2);
    CHECK_REFUSED(halfgates_evaluate_many, &bound, 1, room, 2);
    CHECK_REFUSED(halfgates_evaluate_each, NULL, 1, room, 2, codes);
    CHECK_REFUSED(halfgates_evaluate_each, &job, 1, NULL, 1, codes);
    CHECK_REFUSED(halfgates_evaluate_each, &job, 1, NULL, 2, codes);
    CHECK_REFUSED(halfgates_evaluate_each, &job, 1, room, 2, NULL);
    CHECK_REFUSED(halfgates_evaluate_each, &bound, 1, room, 2, codes);
    CHECK_REFUSED(halfgates_job_output_labels, job, NULL, 1);
    CHECK_REFUSED(halfgates_job_output_labels, job, NULL, 32);
    CHECK_REFUSED(halfgates_garble_many, circuit, NULL, 1, &made_garbling);
    CHECK_REFUSED(halfgates_garble_many, circuit, seed, 1, NULL);
    CHECK_REFUSED(halfgates_garble_from, circuit, offset, NULL, 1, 0, &made_garbling);
    CHECK_REFUSED(halfgates_garble_from, circuit, offset, NULL, 48, 0, &made_garbling);
    CHECK_REFUSED(halfgates_garbling_deal, garbling, 0, NULL, 1, room, sizeof room, &written);
    CHECK_REFUSED(halfgates_garbling_deal, garbling, 0, bits, 1, NULL, 1, &written);
    CHECK_REFUSED(halfgates_garbling_deal, garbling, 0, bits, 1, NULL, 32, &written);
    CHECK_REFUSED(halfgates_label_file, circuit, 0, NULL, 1, room, sizeof room, &written);
    CHECK_REFUSED(halfgates_label_file, circuit, 0, NULL, 16, room, sizeof room, &written);
    CHECK_REFUSED(halfgates_label_file, circuit, 0, labels, 16, NULL, 32, &written);
    CHECK_REFUSED(halfgates_input_labels, garbling, 0, NULL, room, 1);
    CHECK_REFUSED(halfgates_input_labels, garbling, 0, NULL, room, 16);
    CHECK_REFUSED(halfgates_input_labels, garbling, 0, room, NULL, 16);
    CHECK_REFUSED(halfgates_output_labels, garbling, 0, NULL, room, 32);
    CHECK_REFUSED(halfgates_output_labels, garbling, 0, room, NULL, 32);
    CHECK_REFUSED(halfgates_rows, garbling, NULL, 1);
    CHECK_REFUSED(halfgates_rows, garbling, NULL, 32);
    CHECK_REFUSED(halfgates_rows_range, garbling, 0, 1, NULL, 1);
    CHECK_REFUSED(halfgates_rows_range, garbling, 0, 1, NULL, 32);
    CHECK_REFUSED(halfgates_open, garbling, 0, NULL, 32, room, 2);
    CHECK_REFUSED(halfgates_open, garbling, 0, labels, 32, NULL, 2);
    CHECK_REFUSED(halfgates_decode_bits, garbling, NULL, 1);
    CHECK_REFUSED(halfgates_decode_bits, garbling, NULL, 2);
    CHECK_REFUSED(halfgates_evaluate_labels, circuit, NULL, 32, 0, labels, 48, room, 32);
    CHECK_REFUSED(halfgates_evaluate_labels, circuit, labels, 32, 0, NULL, 48, room, 32);
    CHECK_REFUSED(halfgates_evaluate_labels, circuit, labels, 32, 0, labels, 48, NULL, 32);
    CHECK_REFUSED(halfgates_garbler_begin_from, circuit, offset, NULL, 1, 0, &made_garbler);
    CHECK_REFUSED(halfgates_garbler_begin_from, circuit, offset, NULL, 48, 0, &made_garbler);
    CHECK_REFUSED(halfgates_garbler_input_labels, garbler, 0, NULL, room, 16);
    CHECK_REFUSED(halfgates_garbler_input_labels, garbler, 0, room, NULL, 16);
    CHECK_REFUSED(halfgates_garbler_next, garbler, NULL, 1, &written);
    CHECK_REFUSED(halfgates_garbler_next, garbler, NULL, 32, &written);
    CHECK_REFUSED(halfgates_garbler_output_labels, garbler, 0, NULL, room, 32);
    CHECK_REFUSED(halfgates_garbler_output_labels, garbler, 0, room, NULL, 32);
    CHECK_REFUSED(halfgates_garbler_decode_bits, garbler, NULL, 2);
    CHECK_REFUSED(halfgates_evaluator_begin, circuit, 0, NULL, 1, &made_evaluator);
    CHECK_REFUSED(halfgates_evaluator_begin, circuit, 0, NULL, 48, &made_evaluator);
    CHECK_REFUSED(halfgates_evaluator_feed, evaluator, NULL, 1, &written);
    CHECK_REFUSED(halfgates_evaluator_feed, evaluator, NULL, 32, &written);
    CHECK_REFUSED(halfgates_evaluator_output_labels, evaluator, NULL, 32);
    CHECK_REFUSED(halfgates_decode, NULL, 32, bits, 2, room, 2);
    CHECK_REFUSED(halfgates_decode, labels, 32, NULL, 2, room, 2);
    CHECK_REFUSED(halfgates_decode, labels, 32, bits, 2, NULL, 2);
    CHECK_REFUSED(halfgates_audit, garbling, NULL, 1, &report);
    CHECK_REFUSED(halfgates_audit, garbling, NULL, 177, &report);
    CHECK_REFUSED(halfgates_audit_rows, garbling, NULL, 1, bits, 2, &rows_report);
    CHECK_REFUSED(halfgates_audit_rows, garbling, NULL, 32, bits, 2, &rows_report);
    CHECK_REFUSED(halfgates_audit_rows, garbling, garbled + 48, 32, NULL, 1, &rows_report);
    CHECK_REFUSED(halfgates_audit_rows, garbling, garbled + 48, 32, NULL, 2, &rows_report);
    CHECK_REFUSED(halfgates_audit_labels, garbling, NULL, 1, room, 1, &labels_report);
    CHECK_REFUSED(halfgates_audit_labels, garbling, NULL, 32, room, 1, &labels_report);
    CHECK_REFUSED(halfgates_audit_labels, garbling, labels, 32, NULL, 1, &labels_report);
    CALLED(halfgates_circuit_free)(circuit);
    CALLED(halfgates_garbling_free)(garbling);
    CALLED(halfgates_job_free)(job);
    CALLED(halfgates_garbler_free)(garbler);
    CALLED(halfgates_evaluator_free)(evaluator);
    return failures > 0;
}
