/*
 * Garbling and evaluating in pieces: however a circuit is cut, the pieces are together the row pairs of its garbling,
 * and the evaluator has the output labels that all row pairs give at once. Garblers are freed after each piece, and
 * before the last piece neither has results.
 */
#include "check.h"

enum { LABEL = 16, PAIR = 32, INPUTS = 8, GATES = 3000, OUTPUTS = 16, UNFINISHED = HALFGATES_UNFINISHED };

static const uint64_t LIMIT = UINT64_C(1) << 62;
static const uint8_t OFFSET[LABEL] = {0x11, 1, 2, 3};

/* A circuit, its garbling at once, and an evaluation of it at once. */
static struct whole {
    halfgates_circuit *circuit;
    halfgates_numbers numbers;
    halfgates_garbling *garbling;
    uint64_t first;
    size_t rows_size, outputs_size;
    uint8_t offset[LABEL], *zeros, *active, *rows, *outputs, *decode_bits;
} whole;

static uint32_t below(uint32_t bound) {
    static uint32_t state = 1;
    state ^= state << 13;
    state ^= state >> 17;
    state ^= state << 5;
    return state % bound;
}

static uint8_t *take(size_t size) {
    uint8_t *at = malloc(size + 1);
    CHECK(at != NULL);
    memset(at, 0xA5, size + 1);
    return at;
}

/* Random gates, of which these many in a hundred are AND gates. The wires that they read are among the last ones. */
static halfgates_circuit *make_circuit(uint32_t count, uint32_t ands) {
    static halfgates_gate gates[GATES];
    const uint32_t inputs[2] = {INPUTS / 2, INPUTS / 2}, outputs[2] = {OUTPUTS - 3, 3};
    halfgates_circuit *circuit = NULL;
    for (uint32_t i = 0; i < count; i++) {
        const uint32_t wires = INPUTS + i, window = wires < 40 ? wires : 40;
        const uint32_t others[4] = {HALFGATES_XOR, HALFGATES_INV, HALFGATES_EQ, HALFGATES_EQW};
        halfgates_gate *it = &gates[i];
        it->operation = below(100) < ands ? HALFGATES_AND : others[below(8) < 5 ? 0 : below(4)];
        it->first = it->operation == HALFGATES_EQ ? below(2) : wires - 1 - below(window);
        it->second = wires - 1 - below(window);
        it->set = wires;
    }
    CHECK_CODE(HALFGATES_OK,
               halfgates_circuit_from_gates(gates, count, INPUTS + count, inputs, 2, outputs, 2, &circuit, NULL));
    return circuit;
}

/* Garbles at once, from labels of its own or under a seed, and evaluates at once. */
static void begin_whole(halfgates_circuit *circuit, uint64_t first, const uint8_t *seed) {
    const size_t size = LABEL * INPUTS;
    uint8_t ones[LABEL * INPUTS];
    whole.circuit = circuit;
    CHECK_CODE(HALFGATES_OK, halfgates_circuit_numbers(circuit, &whole.numbers));
    whole.first = first;
    whole.rows_size = PAIR * (size_t)whole.numbers.and_gates;
    whole.outputs_size = LABEL * (size_t)whole.numbers.output_wires;
    whole.zeros = take(size), whole.active = take(size), whole.rows = take(whole.rows_size);
    whole.outputs = take(whole.outputs_size), whole.decode_bits = take(whole.numbers.output_wires);
    for (size_t i = 0; i < size; i++)
        whole.zeros[i] = (uint8_t)(7 * i + i / 16);
    whole.garbling = NULL;
    if (seed != NULL)
        CHECK_CODE(HALFGATES_OK, halfgates_garble(circuit, seed, &whole.garbling));
    else
        CHECK_CODE(HALFGATES_OK, halfgates_garble_from(circuit, OFFSET, whole.zeros, size, first, &whole.garbling));
    CHECK_CODE(HALFGATES_OK, halfgates_offset(whole.garbling, whole.offset));
    for (uint32_t i = 0; i < 2; i++)
        CHECK_CODE(HALFGATES_OK, halfgates_input_labels(whole.garbling, i, whole.zeros + size / 2 * i,
                                                        ones + size / 2 * i, size / 2));
    for (size_t i = 0; i < size; i++)
        whole.active[i] = i / LABEL % 3 ? ones[i] : whole.zeros[i];
    CHECK_CODE(HALFGATES_OK, halfgates_rows(whole.garbling, whole.rows, whole.rows_size));
    CHECK_CODE(HALFGATES_OK, halfgates_decode_bits(whole.garbling, whole.decode_bits, whole.numbers.output_wires));
    CHECK_CODE(HALFGATES_OK, halfgates_evaluate_labels(circuit, whole.rows, whole.rows_size, first, whole.active, size,
                                                       whole.outputs, whole.outputs_size));
}

static void end_whole(void) {
    halfgates_garbling_free(whole.garbling);
    halfgates_circuit_free(whole.circuit);
    free(whole.zeros), free(whole.active), free(whole.rows), free(whole.outputs), free(whole.decode_bits);
}

static halfgates_garbler *begin_garbler(const uint8_t *seed) {
    halfgates_garbler *garbler = NULL;
    if (seed != NULL)
        CHECK_CODE(HALFGATES_OK, halfgates_garbler_begin(whole.circuit, seed, &garbler));
    else
        CHECK_CODE(HALFGATES_OK, halfgates_garbler_begin_from(whole.circuit, OFFSET, whole.zeros, LABEL * INPUTS,
                                                              whole.first, &garbler));
    return garbler;
}

/* The labels of inputs and the offset are there at any time. */
static void check_inputs(const halfgates_garbler *garbler) {
    const size_t size = LABEL * INPUTS / 2;
    uint8_t zero[LABEL * INPUTS / 2 + 1], one[LABEL * INPUTS / 2 + 1], offset[LABEL];
    CHECK_CODE(HALFGATES_OK, halfgates_garbler_offset(garbler, offset));
    CHECK(memcmp(offset, whole.offset, LABEL) == 0);
    for (uint32_t i = 0; i < 2; i++) {
        zero[size] = one[size] = 0xA5;
        CHECK_CODE(HALFGATES_OK, halfgates_garbler_input_labels(garbler, i, zero, one, sizeof zero));
        CHECK(memcmp(zero, whole.zeros + size * i, size) == 0 && zero[size] == 0xA5 && one[size] == 0xA5);
        for (size_t k = 0; k < size; k++)
            CHECK(one[k] == (zero[k] ^ offset[k % LABEL]));
    }
}

/* What a garbler has at its end is what the garbling has; before, nothing is written. */
static void check_results(const halfgates_garbler *garbler, int is_finished) {
    uint8_t zeros[2][LABEL * OUTPUTS], ones[2][LABEL * OUTPUTS], bits[OUTPUTS + 1];
    memset(zeros, 0xA5, sizeof zeros), memset(ones, 0xA5, sizeof ones), memset(bits, 0xA5, sizeof bits);
    for (uint32_t i = 0; i < 2; i++) {
        CHECK_CODE(is_finished ? HALFGATES_OK : UNFINISHED,
                   halfgates_garbler_output_labels(garbler, i, zeros[0], ones[0], sizeof zeros[0]));
        if (is_finished)
            CHECK_CODE(HALFGATES_OK,
                       halfgates_output_labels(whole.garbling, i, zeros[1], ones[1], sizeof zeros[1]));
        CHECK(memcmp(zeros[0], zeros[1], sizeof zeros[0]) == 0 && memcmp(ones[0], ones[1], sizeof ones[0]) == 0);
    }
    CHECK_CODE(is_finished ? HALFGATES_OK : UNFINISHED,
               halfgates_garbler_decode_bits(garbler, bits, whole.numbers.output_wires));
    for (size_t i = 0; i < sizeof bits; i++)
        CHECK(bits[i] == (is_finished && i < whole.numbers.output_wires ? whole.decode_bits[i] : 0xA5));
}

/* Garbles in pieces of a number of bytes, up to a number of pieces, after which the garbler is freed. Returns how
 * many pieces there were. */
static size_t garble(const uint8_t *seed, size_t size, size_t pieces) {
    halfgates_garbler *garbler = begin_garbler(seed);
    uint8_t *rows = take(size);
    size_t at = 0, count = 0, written = 7;
    check_inputs(garbler);
    check_results(garbler, whole.rows_size == 0);
    while (count < pieces && at < whole.rows_size) {
        const size_t left = whole.rows_size - at, expected = size / PAIR * PAIR < left ? size / PAIR * PAIR : left;
        CHECK_CODE(HALFGATES_SMALL_BUFFER, halfgates_garbler_next(garbler, rows, PAIR - 1, &written));
        memset(rows, 0xA5, size);
        CHECK_CODE(HALFGATES_OK, halfgates_garbler_next(garbler, rows, size, &written));
        CHECK(written == expected && memcmp(rows, whole.rows + at, written) == 0);
        for (size_t i = written; i < size; i++)
            CHECK(rows[i] == 0xA5);
        at += written;
        count++;
        if (count < 4 || at == whole.rows_size)
            check_results(garbler, at == whole.rows_size);
    }
    if (at == whole.rows_size) {
        for (int i = 0; i < 2; i++) {
            written = 7;
            CHECK_CODE(HALFGATES_OK, halfgates_garbler_next(garbler, i ? rows : NULL, i ? size : 0, &written));
            CHECK(written == 0);
        }
        check_results(garbler, 1);
    }
    check_inputs(garbler);
    halfgates_garbler_free(garbler);
    free(rows);
    return count;
}

/* An evaluator has its output labels at its end, and before nothing is written. */
static void check_outputs(const halfgates_evaluator *evaluator, int is_finished) {
    uint8_t *outputs = take(whole.outputs_size);
    CHECK_CODE(is_finished ? HALFGATES_OK : UNFINISHED,
               halfgates_evaluator_output_labels(evaluator, outputs, whole.outputs_size + 1));
    for (size_t i = 0; i <= whole.outputs_size; i++)
        CHECK(outputs[i] == (is_finished && i < whole.outputs_size ? whole.outputs[i] : 0xA5));
    if (is_finished)
        CHECK_CODE(HALFGATES_SMALL_BUFFER,
                   halfgates_evaluator_output_labels(evaluator, outputs, whole.outputs_size - 1));
    free(outputs);
}

/* Evaluates in pieces of a number of bytes, of which some may end within a row pair. What isn't taken comes again. Each
 * piece lies in a block of its own, where nothing follows it. */
static void evaluate(size_t size) {
    const uint8_t more[PAIR] = {0};
    halfgates_evaluator *evaluator = NULL;
    size_t at = 0, taken = 7;
    CHECK_CODE(HALFGATES_OK, halfgates_evaluator_begin(whole.circuit, whole.first, whole.active, LABEL * INPUTS,
                                                       &evaluator));
    check_outputs(evaluator, whole.rows_size == 0);
    while (at < whole.rows_size) {
        const size_t left = whole.rows_size - at, now = size < left ? size : left;
        uint8_t *piece = malloc(left + PAIR);
        CHECK(piece != NULL);
        memset(piece, 0x5A, left + PAIR);
        CHECK_CODE(HALFGATES_WRONG_SIZE, halfgates_evaluator_feed(evaluator, piece, left + PAIR, &taken));
        free(piece);
        CHECK_CODE(HALFGATES_OK, halfgates_evaluator_feed(evaluator, more, PAIR - 1, &taken));
        CHECK(taken == 0);
        piece = malloc(now);
        CHECK(piece != NULL);
        memcpy(piece, whole.rows + at, now);
        CHECK_CODE(HALFGATES_OK, halfgates_evaluator_feed(evaluator, piece, now, &taken));
        free(piece);
        CHECK(taken == now / PAIR * PAIR);
        at += taken;
        if (at < 4 * size || at == whole.rows_size)
            check_outputs(evaluator, at == whole.rows_size);
    }
    taken = 7;
    CHECK_CODE(HALFGATES_WRONG_SIZE, halfgates_evaluator_feed(evaluator, more, PAIR, &taken));
    CHECK(taken == 7);
    CHECK_CODE(HALFGATES_OK, halfgates_evaluator_feed(evaluator, more, PAIR - 1, &taken));
    CHECK(taken == 0);
    check_outputs(evaluator, 1);
    halfgates_evaluator_free(evaluator);
}

/* Row pairs of the garbling in ranges are those of all, and nothing is written behind them. */
static void ranges(void) {
    const uint32_t all = whole.numbers.and_gates;
    uint8_t *rows = take(whole.rows_size);
    for (uint32_t count = 0; count <= all; count = count < 3 ? count + 1 : count + all / 3 + 1) {
        const uint32_t from = below(all - count + 1);
        memset(rows, 0xA5, whole.rows_size + 1);
        CHECK_CODE(HALFGATES_OK, halfgates_rows_range(whole.garbling, from, count, rows, whole.rows_size + 1));
        CHECK(memcmp(rows, whole.rows + PAIR * (size_t)from, PAIR * (size_t)count) == 0);
        for (size_t i = PAIR * (size_t)count; i <= whole.rows_size; i++)
            CHECK(rows[i] == 0xA5);
        CHECK_CODE(HALFGATES_BAD_ARGUMENT,
                   halfgates_rows_range(whole.garbling, all - count + 1, count, rows, whole.rows_size + 1));
    }
    free(rows);
}

static void stream(halfgates_circuit *circuit, uint64_t first, const uint8_t *seed) {
    const size_t sizes[] = {PAIR, PAIR + 1, 2 * PAIR, 3 * PAIR - 1, 3 * PAIR, 1000 * PAIR, 1000 * PAIR + 17};
    begin_whole(circuit, first, seed);
    for (size_t i = 0; i < sizeof sizes / sizeof *sizes; i++) {
        const size_t step = sizes[i] / PAIR * PAIR;
        CHECK(garble(seed, sizes[i], SIZE_MAX) == (whole.rows_size + step - 1) / step);
        evaluate(sizes[i]);
    }
    CHECK(garble(seed, whole.rows_size + PAIR, SIZE_MAX) == (whole.rows_size > 0));
    evaluate(whole.rows_size + PAIR);
    ranges();
    end_whole();
}

/* Garblers and evaluators are freed after each piece. */
static void abandon(halfgates_circuit *circuit) {
    begin_whole(circuit, 9, NULL);
    const size_t pieces = garble(NULL, 3 * PAIR, SIZE_MAX);
    CHECK(pieces > 10);
    for (size_t i = 0; i <= pieces; i++)
        CHECK(garble(NULL, 3 * PAIR, i) == i);
    for (size_t i = 0; i <= whole.rows_size; i += 5 * PAIR) {
        halfgates_evaluator *evaluator = NULL;
        size_t taken;
        CHECK_CODE(HALFGATES_OK, halfgates_evaluator_begin(whole.circuit, whole.first, whole.active, LABEL * INPUTS,
                                                           &evaluator));
        CHECK_CODE(HALFGATES_OK, halfgates_evaluator_feed(evaluator, whole.rows, i, &taken));
        CHECK(taken == i);
        halfgates_evaluator_free(evaluator);
    }
    end_whole();
}

/* Garblers and evaluators outlive their circuit and take turns: neither disturbs another of the same circuit. */
static void side_by_side(halfgates_circuit *circuit) {
    halfgates_garbler *garblers[2];
    halfgates_evaluator *evaluators[2] = {NULL, NULL};
    uint8_t rows[2 * PAIR];
    begin_whole(circuit, 5, NULL);
    for (int i = 0; i < 2; i++) {
        garblers[i] = begin_garbler(NULL);
        CHECK_CODE(HALFGATES_OK, halfgates_evaluator_begin(whole.circuit, whole.first, whole.active, LABEL * INPUTS,
                                                           &evaluators[i]));
    }
    halfgates_circuit_free(whole.circuit);
    whole.circuit = NULL;
    for (size_t at = 0; at < whole.rows_size;)
        for (int i = 0; i < 2; i++) {
            size_t written, taken;
            CHECK_CODE(HALFGATES_OK, halfgates_garbler_next(garblers[i], rows, sizeof rows, &written));
            CHECK(memcmp(rows, whole.rows + at, written) == 0);
            CHECK_CODE(HALFGATES_OK, halfgates_evaluator_feed(evaluators[i], rows, written, &taken));
            CHECK(taken == written);
            at += i ? written : 0;
        }
    for (int i = 0; i < 2; i++) {
        check_results(garblers[i], 1);
        check_outputs(evaluators[i], 1);
        halfgates_garbler_free(garblers[i]);
        halfgates_evaluator_free(evaluators[i]);
    }
    end_whole();
}

int main(void) {
    const uint8_t seed[32] = {3};
    for (uint32_t ands = 0; ands <= 100; ands += 25) {
        halfgates_circuit *circuit = make_circuit(GATES, ands), *other = NULL;
        halfgates_numbers numbers;
        CHECK_CODE(HALFGATES_OK, halfgates_circuit_share(circuit, &other));
        CHECK_CODE(HALFGATES_OK, halfgates_circuit_numbers(circuit, &numbers));
        CHECK((numbers.and_gates == 0) == (ands == 0));
        stream(circuit, 0, seed);
        stream(other, LIMIT - numbers.and_gates, NULL);
    }
    stream(make_circuit(OUTPUTS, 0), 7, NULL);
    stream(make_circuit(OUTPUTS, 50), 7, NULL);
    abandon(make_circuit(150, 40));
    side_by_side(make_circuit(300, 40));
    return 0;
}
