/*
 * The functions of halfgates.h. Each calls the proved export of its name.
 *
 * A handle: the proved export takes the address of a pointer that is private to this call, by which it reads what the
 * handle holds, or changes it where the handle isn't const. So several calls may read one handle at once. A list of
 * handles is copied for the same reason.
 *
 * A buffer: a slice of Rattle is never NULL. Where C passes a NULL, the proved export sees another address, and can't
 * look. So each function here refuses a NULL that has a size.
 */
#include <halfgates.h>

void *malloc(size_t size);
void free(void *block);

/* CALL(name, ..) calls the proved export of a name, and CALL_AS one that has another type than the public function. The
 * build renames them. On x86-64 each is there twice, compiled for x86-64-v2 and for x86-64-v3. */
#ifdef __x86_64__
#include "processor.h"
#define CALL_AS(type, name, ...) \
    ({ extern type v2_##name, v3_##name; is_v3() ? v3_##name(__VA_ARGS__) : v2_##name(__VA_ARGS__); })
#else
#define is_v3() 0
#define CALL_AS(type, name, ...) ({ extern type proved_##name; proved_##name(__VA_ARGS__); })
#endif
#define CALL(name, ...) CALL_AS(__typeof__(name), name, __VA_ARGS__)

/* These take the size of each of their buffers, and proved_garble_many whether two garblings are made side by side. */
typedef int32_t proved_labels(const halfgates_garbling *garbling, uint32_t index, uint8_t *zero, size_t zero_size,
                              uint8_t *one, size_t one_size);
typedef int32_t proved_garbler_labels(const halfgates_garbler *garbler, uint32_t index, uint8_t *zero, size_t zero_size,
                                      uint8_t *one, size_t one_size);
typedef int32_t proved_garble_many(const halfgates_circuit *circuit, const uint8_t *seeds, size_t count,
                                   int32_t side_by_side, halfgates_garbling **garblings, size_t garblings_count);

/* These write to the list of handles, and put it back. */
typedef int32_t proved_evaluate_many(halfgates_job **jobs, size_t count, uint8_t *bits, size_t size);
typedef int32_t proved_evaluate_each(halfgates_job **jobs, size_t count, uint8_t *bits, size_t size, int32_t *codes,
                                     size_t codes_count);
typedef int32_t proved_write_many(halfgates_garbling **garblings, size_t count, uint32_t version, uint8_t *files,
                                  size_t size);

/* What the proved export takes in place of a handle. */
#define LENT(handle) ((void *)&(handle))

/* Whether there is a buffer of this size, or none is asked for. */
static int is_there(const void *buffer, size_t size) {
    return buffer != NULL || size == 0;
}

halfgates_name halfgates_fault_name(int32_t code) {
    return CALL(halfgates_fault_name, code);
}

int32_t halfgates_is_memory(int32_t code) {
    return CALL(halfgates_is_memory, code);
}

halfgates_name halfgates_version(void) {
    return CALL(halfgates_version);
}

void halfgates_circuit_free(halfgates_circuit *circuit) {
    CALL(halfgates_circuit_free, circuit);
}

void halfgates_garbling_free(halfgates_garbling *garbling) {
    CALL(halfgates_garbling_free, garbling);
}

void halfgates_job_free(halfgates_job *job) {
    CALL(halfgates_job_free, job);
}

void halfgates_garbler_free(halfgates_garbler *garbler) {
    CALL(halfgates_garbler_free, garbler);
}

void halfgates_evaluator_free(halfgates_evaluator *evaluator) {
    CALL(halfgates_evaluator_free, evaluator);
}

int32_t halfgates_circuit_read(const uint8_t *text, size_t length, halfgates_circuit **circuit) {
    if (!is_there(text, length))
        return HALFGATES_NULL_POINTER;
    return CALL(halfgates_circuit_read, text, length, circuit);
}

int32_t halfgates_circuit_read_without_digest(const uint8_t *text, size_t length, halfgates_circuit **circuit) {
    if (!is_there(text, length))
        return HALFGATES_NULL_POINTER;
    return CALL(halfgates_circuit_read_without_digest, text, length, circuit);
}

int32_t halfgates_circuit_take_digest(halfgates_circuit *circuit) {
    return CALL(halfgates_circuit_take_digest, LENT(circuit));
}

int32_t halfgates_circuit_share(const halfgates_circuit *circuit, halfgates_circuit **other) {
    return CALL(halfgates_circuit_share, LENT(circuit), other);
}

int32_t halfgates_circuit_order(const halfgates_circuit *circuit, halfgates_circuit **ordered) {
    return CALL(halfgates_circuit_order, LENT(circuit), ordered);
}

int32_t halfgates_circuit_text(const halfgates_circuit *circuit, uint8_t *buffer, size_t size, size_t *written) {
    if (!is_there(buffer, size))
        return HALFGATES_NULL_POINTER;
    return CALL(halfgates_circuit_text, LENT(circuit), buffer, size, written);
}

int32_t halfgates_circuit_numbers(const halfgates_circuit *circuit, halfgates_numbers *numbers) {
    return CALL(halfgates_circuit_numbers, LENT(circuit), numbers);
}

int32_t halfgates_circuit_digest(const halfgates_circuit *circuit, uint8_t digest[32]) {
    return CALL(halfgates_circuit_digest, LENT(circuit), digest);
}

int32_t halfgates_garble(const halfgates_circuit *circuit, const uint8_t seed[32], halfgates_garbling **garbling) {
    return CALL(halfgates_garble, LENT(circuit), seed, garbling);
}

uint64_t halfgates_garbled_size(const halfgates_circuit *circuit, uint32_t version) {
    return CALL(halfgates_garbled_size, LENT(circuit), version);
}

int32_t halfgates_offset(const halfgates_garbling *garbling, uint8_t offset[16]) {
    return CALL(halfgates_offset, LENT(garbling), offset);
}

int32_t halfgates_zero_label(const halfgates_garbling *garbling, uint32_t wire, uint8_t label[16]) {
    return CALL(halfgates_zero_label, LENT(garbling), wire, label);
}

int32_t halfgates_decode_bit(const halfgates_garbling *garbling, uint32_t output, uint8_t *bit) {
    return CALL(halfgates_decode_bit, LENT(garbling), output, bit);
}

int32_t halfgates_circuit_input_widths(const halfgates_circuit *circuit, uint32_t *widths, size_t count) {
    if (!is_there(widths, count))
        return HALFGATES_NULL_POINTER;
    return CALL(halfgates_circuit_input_widths, LENT(circuit), widths, count);
}

int32_t halfgates_circuit_output_widths(const halfgates_circuit *circuit, uint32_t *widths, size_t count) {
    if (!is_there(widths, count))
        return HALFGATES_NULL_POINTER;
    return CALL(halfgates_circuit_output_widths, LENT(circuit), widths, count);
}

int32_t halfgates_locate(const uint8_t *text, size_t length, halfgates_place *place) {
    if (!is_there(text, length))
        return HALFGATES_NULL_POINTER;
    return CALL(halfgates_locate, text, length, place);
}

int32_t halfgates_explain(const uint8_t *text, size_t length, halfgates_sentence *sentence) {
    if (!is_there(text, length))
        return HALFGATES_NULL_POINTER;
    return CALL(halfgates_explain, text, length, sentence);
}

int32_t halfgates_circuit_from_gates(const halfgates_gate *gates, size_t count, uint32_t wires,
                                     const uint32_t *input_widths, size_t input_values,
                                     const uint32_t *output_widths, size_t output_values,
                                     halfgates_circuit **circuit, halfgates_place *place) {
    halfgates_place unwanted;
    if (!is_there(gates, count) || !is_there(input_widths, input_values) || !is_there(output_widths, output_values))
        return HALFGATES_NULL_POINTER;
    return CALL(halfgates_circuit_from_gates, gates, count, wires, input_widths, input_values, output_widths,
                output_values, circuit, place == NULL ? &unwanted : place);
}

int32_t halfgates_circuit_from_gates_without_digest(const halfgates_gate *gates, size_t count, uint32_t wires,
                                                    const uint32_t *input_widths, size_t input_values,
                                                    const uint32_t *output_widths, size_t output_values,
                                                    halfgates_circuit **circuit, halfgates_place *place) {
    halfgates_place unwanted;
    if (!is_there(gates, count) || !is_there(input_widths, input_values) || !is_there(output_widths, output_values))
        return HALFGATES_NULL_POINTER;
    return CALL(halfgates_circuit_from_gates_without_digest, gates, count, wires, input_widths, input_values,
                output_widths, output_values, circuit, place == NULL ? &unwanted : place);
}

int32_t halfgates_plain(const halfgates_circuit *circuit, const uint8_t *bits, size_t size, uint8_t *outputs,
                        size_t outputs_size) {
    if (!is_there(bits, size) || !is_there(outputs, outputs_size))
        return HALFGATES_NULL_POINTER;
    return CALL(halfgates_plain, LENT(circuit), bits, size, outputs, outputs_size);
}

int32_t halfgates_garbling_write(const halfgates_garbling *garbling, uint32_t version, uint8_t *buffer, size_t size,
                                 size_t *written) {
    if (!is_there(buffer, size))
        return HALFGATES_NULL_POINTER;
    return CALL(halfgates_garbling_write, LENT(garbling), version, buffer, size, written);
}

int32_t halfgates_deal(const halfgates_circuit *circuit, const uint8_t seed[32], uint32_t index, const uint8_t *bits,
                       size_t count, uint8_t *buffer, size_t size, size_t *written) {
    if (!is_there(bits, count) || !is_there(buffer, size))
        return HALFGATES_NULL_POINTER;
    return CALL(halfgates_deal, LENT(circuit), seed, index, bits, count, buffer, size, written);
}

int32_t halfgates_labels(const halfgates_garbling *garbling, const uint8_t *bits, size_t size, uint32_t from,
                         halfgates_wire_labels *labels, size_t count) {
    if (!is_there(bits, size) || !is_there(labels, count))
        return HALFGATES_NULL_POINTER;
    return CALL(halfgates_labels, LENT(garbling), bits, size, from, labels, count);
}

int32_t halfgates_job_bind(const halfgates_circuit *circuit, const uint8_t *garbled, size_t length,
                           const uint8_t *labels, size_t labels_size, const size_t *lengths, size_t count,
                           halfgates_job **job) {
    if (!is_there(garbled, length) || !is_there(labels, labels_size) || !is_there(lengths, count))
        return HALFGATES_NULL_POINTER;
    return CALL(halfgates_job_bind, LENT(circuit), garbled, length, labels, labels_size, lengths, count, job);
}

int32_t halfgates_evaluate(const halfgates_job *job, uint8_t *bits, size_t size) {
    if (!is_there(bits, size))
        return HALFGATES_NULL_POINTER;
    return CALL(halfgates_evaluate, LENT(job), bits, size);
}

/* Copies a list of handles: the proved export takes pointers that this call alone has. Without memory it returns 0. */
static int copy_handles(const void *handles, size_t count, void **lent) {
    *lent = NULL;
    if (count == 0)
        return 1;
    if (count > SIZE_MAX / sizeof *lent)
        return 0;
    *lent = malloc(count * sizeof *lent);
    if (*lent == NULL)
        return 0;
    __builtin_memcpy(*lent, handles, count * sizeof *lent);
    return 1;
}

int32_t halfgates_evaluate_many(halfgates_job *const *jobs, size_t count, uint8_t *bits, size_t size) {
    void *lent;
    if (!is_there(jobs, count) || !is_there(bits, size))
        return HALFGATES_NULL_POINTER;
    if (!copy_handles(jobs, count, &lent))
        return HALFGATES_MEMORY;
    const int32_t code = CALL_AS(proved_evaluate_many, halfgates_evaluate_many, lent, count, bits, size);
    free(lent);
    return code;
}

int32_t halfgates_evaluate_each(halfgates_job *const *jobs, size_t count, uint8_t *bits, size_t size, int32_t *codes) {
    void *lent;
    if (!is_there(jobs, count) || !is_there(bits, size) || !is_there(codes, count))
        return HALFGATES_NULL_POINTER;
    if (!copy_handles(jobs, count, &lent))
        return HALFGATES_MEMORY;
    const int32_t code = CALL_AS(proved_evaluate_each, halfgates_evaluate_each, lent, count, bits, size, codes, count);
    free(lent);
    return code;
}

int32_t halfgates_write_many(halfgates_garbling *const *garblings, size_t count, uint32_t version, uint8_t *files,
                             size_t size) {
    void *lent;
    if (!is_there(garblings, count) || !is_there(files, size))
        return HALFGATES_NULL_POINTER;
    if (!copy_handles(garblings, count, &lent))
        return HALFGATES_MEMORY;
    const int32_t code = CALL_AS(proved_write_many, halfgates_write_many, lent, count, version, files, size);
    free(lent);
    return code;
}

int32_t halfgates_audit(const halfgates_garbling *garbling, const uint8_t *garbled, size_t length,
                        halfgates_audit_report *report) {
    if (!is_there(garbled, length))
        return HALFGATES_NULL_POINTER;
    return CALL(halfgates_audit, LENT(garbling), garbled, length, report);
}

int32_t halfgates_audit_rows(const halfgates_garbling *garbling, const uint8_t *rows, size_t rows_size,
                             const uint8_t *decode_bits, size_t count, halfgates_rows_report *report) {
    if (!is_there(rows, rows_size) || !is_there(decode_bits, count))
        return HALFGATES_NULL_POINTER;
    return CALL(halfgates_audit_rows, LENT(garbling), rows, rows_size, decode_bits, count, report);
}

int32_t halfgates_audit_labels(const halfgates_garbling *garbling, const uint8_t *labels, size_t length, uint8_t *bits,
                               size_t size, halfgates_labels_report *report) {
    if (!is_there(labels, length) || !is_there(bits, size))
        return HALFGATES_NULL_POINTER;
    return CALL(halfgates_audit_labels, LENT(garbling), labels, length, bits, size, report);
}

int32_t halfgates_garble_many(const halfgates_circuit *circuit, const uint8_t *seeds, size_t count,
                              halfgates_garbling **garblings) {
    if (!is_there(seeds, count) || !is_there(garblings, count))
        return HALFGATES_NULL_POINTER;
    return CALL_AS(proved_garble_many, halfgates_garble_many, LENT(circuit), seeds, count, is_v3(), garblings, count);
}

int32_t halfgates_garble_from(const halfgates_circuit *circuit, const uint8_t offset[16], const uint8_t *zero_labels,
                              size_t size, uint64_t first, halfgates_garbling **garbling) {
    if (!is_there(zero_labels, size))
        return HALFGATES_NULL_POINTER;
    return CALL(halfgates_garble_from, LENT(circuit), offset, zero_labels, size, first, garbling);
}

int32_t halfgates_input_labels(const halfgates_garbling *garbling, uint32_t index, uint8_t *zero, uint8_t *one,
                               size_t size) {
    if (!is_there(zero, size) || !is_there(one, size))
        return HALFGATES_NULL_POINTER;
    return CALL_AS(proved_labels, halfgates_input_labels, LENT(garbling), index, zero, size, one, size);
}

int32_t halfgates_output_labels(const halfgates_garbling *garbling, uint32_t index, uint8_t *zero, uint8_t *one,
                                size_t size) {
    if (!is_there(zero, size) || !is_there(one, size))
        return HALFGATES_NULL_POINTER;
    return CALL_AS(proved_labels, halfgates_output_labels, LENT(garbling), index, zero, size, one, size);
}

int32_t halfgates_rows(const halfgates_garbling *garbling, uint8_t *rows, size_t size) {
    if (!is_there(rows, size))
        return HALFGATES_NULL_POINTER;
    return CALL(halfgates_rows, LENT(garbling), rows, size);
}

int32_t halfgates_rows_range(const halfgates_garbling *garbling, uint32_t from, uint32_t count, uint8_t *rows,
                             size_t size) {
    if (!is_there(rows, size))
        return HALFGATES_NULL_POINTER;
    return CALL(halfgates_rows_range, LENT(garbling), from, count, rows, size);
}

int32_t halfgates_open(const halfgates_garbling *garbling, uint32_t index, const uint8_t *labels, size_t labels_size,
                       uint8_t *bits, size_t size) {
    if (!is_there(labels, labels_size) || !is_there(bits, size))
        return HALFGATES_NULL_POINTER;
    return CALL(halfgates_open, LENT(garbling), index, labels, labels_size, bits, size);
}

int32_t halfgates_decode_bits(const halfgates_garbling *garbling, uint8_t *bits, size_t size) {
    if (!is_there(bits, size))
        return HALFGATES_NULL_POINTER;
    return CALL(halfgates_decode_bits, LENT(garbling), bits, size);
}

int32_t halfgates_garbling_deal(const halfgates_garbling *garbling, uint32_t index, const uint8_t *bits, size_t count,
                                uint8_t *buffer, size_t size, size_t *written) {
    if (!is_there(bits, count) || !is_there(buffer, size))
        return HALFGATES_NULL_POINTER;
    return CALL(halfgates_garbling_deal, LENT(garbling), index, bits, count, buffer, size, written);
}

int32_t halfgates_label_file(const halfgates_circuit *circuit, uint32_t index, const uint8_t *labels,
                             size_t labels_size, uint8_t *buffer, size_t size, size_t *written) {
    if (!is_there(labels, labels_size) || !is_there(buffer, size))
        return HALFGATES_NULL_POINTER;
    return CALL(halfgates_label_file, LENT(circuit), index, labels, labels_size, buffer, size, written);
}

int32_t halfgates_evaluate_labels(const halfgates_circuit *circuit, const uint8_t *rows, size_t rows_size,
                                  uint64_t first, const uint8_t *labels, size_t labels_size, uint8_t *outputs,
                                  size_t outputs_size) {
    if (!is_there(rows, rows_size) || !is_there(labels, labels_size) || !is_there(outputs, outputs_size))
        return HALFGATES_NULL_POINTER;
    return CALL(halfgates_evaluate_labels, LENT(circuit), rows, rows_size, first, labels, labels_size, outputs,
                                            outputs_size);
}

int32_t halfgates_job_output_labels(const halfgates_job *job, uint8_t *outputs, size_t size) {
    if (!is_there(outputs, size))
        return HALFGATES_NULL_POINTER;
    return CALL(halfgates_job_output_labels, LENT(job), outputs, size);
}

int32_t halfgates_decode(const uint8_t *labels, size_t labels_size, const uint8_t *decode_bits, size_t count,
                         uint8_t *bits, size_t size) {
    if (!is_there(labels, labels_size) || !is_there(decode_bits, count) || !is_there(bits, size))
        return HALFGATES_NULL_POINTER;
    return CALL(halfgates_decode, labels, labels_size, decode_bits, count, bits, size);
}

int32_t halfgates_garbler_begin(const halfgates_circuit *circuit, const uint8_t seed[32], halfgates_garbler **garbler) {
    return CALL(halfgates_garbler_begin, LENT(circuit), seed, garbler);
}

int32_t halfgates_garbler_begin_from(const halfgates_circuit *circuit, const uint8_t offset[16],
                                     const uint8_t *zero_labels, size_t size, uint64_t first,
                                     halfgates_garbler **garbler) {
    if (!is_there(zero_labels, size))
        return HALFGATES_NULL_POINTER;
    return CALL(halfgates_garbler_begin_from, LENT(circuit), offset, zero_labels, size, first, garbler);
}

int32_t halfgates_garbler_offset(const halfgates_garbler *garbler, uint8_t offset[16]) {
    return CALL(halfgates_garbler_offset, LENT(garbler), offset);
}

int32_t halfgates_garbler_input_labels(const halfgates_garbler *garbler, uint32_t index, uint8_t *zero, uint8_t *one,
                                       size_t size) {
    if (!is_there(zero, size) || !is_there(one, size))
        return HALFGATES_NULL_POINTER;
    return CALL_AS(proved_garbler_labels, halfgates_garbler_input_labels, LENT(garbler), index, zero, size, one, size);
}

int32_t halfgates_garbler_next(halfgates_garbler *garbler, uint8_t *rows, size_t size, size_t *written) {
    if (!is_there(rows, size))
        return HALFGATES_NULL_POINTER;
    return CALL(halfgates_garbler_next, LENT(garbler), rows, size, written);
}

int32_t halfgates_garbler_output_labels(const halfgates_garbler *garbler, uint32_t index, uint8_t *zero, uint8_t *one,
                                        size_t size) {
    if (!is_there(zero, size) || !is_there(one, size))
        return HALFGATES_NULL_POINTER;
    return CALL_AS(proved_garbler_labels, halfgates_garbler_output_labels, LENT(garbler), index, zero, size, one, size);
}

int32_t halfgates_garbler_decode_bits(const halfgates_garbler *garbler, uint8_t *bits, size_t size) {
    if (!is_there(bits, size))
        return HALFGATES_NULL_POINTER;
    return CALL(halfgates_garbler_decode_bits, LENT(garbler), bits, size);
}

int32_t halfgates_evaluator_begin(const halfgates_circuit *circuit, uint64_t first, const uint8_t *labels, size_t size,
                                  halfgates_evaluator **evaluator) {
    if (!is_there(labels, size))
        return HALFGATES_NULL_POINTER;
    return CALL(halfgates_evaluator_begin, LENT(circuit), first, labels, size, evaluator);
}

int32_t halfgates_evaluator_feed(halfgates_evaluator *evaluator, const uint8_t *rows, size_t size, size_t *taken) {
    if (!is_there(rows, size))
        return HALFGATES_NULL_POINTER;
    return CALL(halfgates_evaluator_feed, LENT(evaluator), rows, size, taken);
}

int32_t halfgates_evaluator_output_labels(const halfgates_evaluator *evaluator, uint8_t *labels, size_t size) {
    if (!is_there(labels, size))
        return HALFGATES_NULL_POINTER;
    return CALL(halfgates_evaluator_output_labels, LENT(evaluator), labels, size);
}
