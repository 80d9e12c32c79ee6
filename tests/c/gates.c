/*
 * Circuits from arrays of gates, with their digests and without: what reading their text gives, the fault with its gate
 * and its wire among it.
 */
#include "check.h"

enum { MOST = 6, ROUNDS = 200000 };

static const char *const NAMES[] = {"XOR", "AND", "INV", "EQ", "EQW"};

/* A circuit in arrays. */
static struct {
    halfgates_gate gates[MOST];
    size_t count, input_values, output_values;
    uint32_t wires, input_widths[MOST], output_widths[MOST];
} arrays;

static uint32_t state = 1;

/* The next number below a bound (xorshift32). */
static uint32_t below(uint32_t bound) {
    state ^= state << 13;
    state ^= state >> 17;
    state ^= state << 5;
    return state % bound;
}

/* The text of the arrays. An operation that there isn't has its number as its name. */
static size_t spell(char *text) {
    char *end = text;
    end += sprintf(end, "%zu %" PRIu32 "\n%zu", arrays.count, arrays.wires, arrays.input_values);
    for (size_t i = 0; i < arrays.input_values; i++)
        end += sprintf(end, " %" PRIu32, arrays.input_widths[i]);
    end += sprintf(end, "\n%zu", arrays.output_values);
    for (size_t i = 0; i < arrays.output_values; i++)
        end += sprintf(end, " %" PRIu32, arrays.output_widths[i]);
    end += sprintf(end, "\n\n");
    for (size_t i = 0; i < arrays.count; i++) {
        const halfgates_gate *g = &arrays.gates[i];
        if (g->operation >= 2 && g->operation <= 4)
            end += sprintf(end, "1 1 %" PRIu32 " %" PRIu32 " %s\n", g->first, g->set, NAMES[g->operation]);
        else if (g->operation < 2)
            end += sprintf(end, "2 1 %" PRIu32 " %" PRIu32 " %" PRIu32 " %s\n", g->first, g->second, g->set,
                           NAMES[g->operation]);
        else
            end += sprintf(end, "2 1 %" PRIu32 " %" PRIu32 " %" PRIu32 " %" PRIu32 "\n", g->first, g->second, g->set,
                           g->operation);
    }
    return (size_t)(end - text);
}

static int32_t take_by(__typeof__(halfgates_circuit_from_gates) *call, halfgates_circuit **circuit,
                       halfgates_place *place) {
    return call(arrays.gates, arrays.count, arrays.wires, arrays.input_widths, arrays.input_values,
                arrays.output_widths, arrays.output_values, circuit, place);
}

static int32_t take(halfgates_circuit **circuit, halfgates_place *place) {
    return take_by(halfgates_circuit_from_gates, circuit, place);
}

/* Without a digest the arrays give the same code, place and text, and the digest is taken later. */
static void compare_without_digest(int32_t code, const halfgates_place *wanted, const uint8_t digest[32]) {
    uint8_t taken[32];
    halfgates_circuit *circuit = NULL;
    halfgates_place found = {.fault = 77, .gate = 77, .wire = 77, .line = 77, .column = 77};
    CHECK_CODE(code, take_by(halfgates_circuit_from_gates_without_digest, &circuit, &found));
    CHECK(found.fault == wanted->fault && found.gate == wanted->gate && found.wire == wanted->wire);
    CHECK(found.line == wanted->line && found.column == wanted->column);
    CHECK((circuit == NULL) == (code != HALFGATES_OK));
    if (circuit == NULL)
        return;
    CHECK_CODE(HALFGATES_NO_DIGEST, halfgates_circuit_digest(circuit, taken));
    CHECK_CODE(HALFGATES_OK, halfgates_circuit_take_digest(circuit));
    CHECK_CODE(HALFGATES_OK, halfgates_circuit_digest(circuit, taken));
    CHECK(memcmp(taken, digest, 32) == 0);
    halfgates_circuit_free(circuit);
}

/* The arrays give what their text gives. Returns the code. */
static int32_t compare(void) {
    char text[1024];
    uint8_t digest[32], other[32];
    const size_t length = spell(text);
    halfgates_circuit *read = NULL, *taken = NULL;
    halfgates_place wanted, found = {.fault = 77, .gate = 77, .wire = 77, .line = 77, .column = 77};
    const int32_t code = halfgates_circuit_read((const uint8_t *)text, length, &read);
    CHECK_CODE(code, take(&taken, &found));
    if (code == HALFGATES_OK) {
        CHECK(found.fault == 77 && found.gate == 77 && found.wire == 77 && found.line == 77 && found.column == 77);
        CHECK_CODE(HALFGATES_OK, halfgates_circuit_digest(read, digest));
        CHECK_CODE(HALFGATES_OK, halfgates_circuit_digest(taken, other));
        CHECK(memcmp(digest, other, 32) == 0);
    } else {
        CHECK(taken == NULL);
        CHECK_CODE(HALFGATES_OK, halfgates_locate((const uint8_t *)text, length, &wanted));
        CHECK(found.fault == wanted.fault && found.gate == wanted.gate && found.wire == wanted.wire);
        CHECK(found.line == 0 && found.column == 0);
        CHECK_CODE(code, take(&taken, NULL));
    }
    compare_without_digest(code, &found, digest);
    halfgates_circuit_free(read);
    halfgates_circuit_free(taken);
    return code;
}

/* Arrays that are mostly circuits: now and then a number is any. */
static void draw(void) {
    memset(&arrays, 0, sizeof arrays);
    arrays.input_values = below(3);
    uint32_t set = 0;
    for (size_t i = 0; i < arrays.input_values; i++)
        set += arrays.input_widths[i] = below(3);
    arrays.count = below(MOST + 1);
    arrays.wires = set + (uint32_t)arrays.count + (below(9) == 0);
    arrays.output_values = below(3);
    for (size_t i = 0; i < arrays.output_values; i++)
        arrays.output_widths[i] = below(3);
    for (size_t i = 0; i < arrays.count; i++) {
        halfgates_gate *g = &arrays.gates[i];
        const uint32_t known = set + (below(20) == 0);
        g->operation = known == 0 ? HALFGATES_EQ : below(30) == 0 ? 5 + below(3) : below(5);
        g->first = g->operation == HALFGATES_EQ ? below(2) + (below(30) == 0) : known ? below(known) : 0;
        g->second = known ? below(known) : below(9);
        g->set = below(30) == 0 ? below(20) : set;
        set++;
    }
}

/* Numbers that no text of a few bytes has. */
static void check_limits(void) {
    halfgates_circuit *circuit = NULL;
    halfgates_place place;
    const uint32_t widths[257] = {0};
    memset(&arrays, 0, sizeof arrays);
    CHECK_CODE(HALFGATES_TOO_LARGE,
               halfgates_circuit_from_gates(NULL, 0, 33554433, NULL, 0, NULL, 0, &circuit, &place));
    CHECK(place.fault == HALFGATES_TOO_LARGE && place.gate == HALFGATES_NONE && place.wire == HALFGATES_NONE);
    CHECK_CODE(HALFGATES_TOO_LARGE, halfgates_circuit_from_gates(NULL, 0, 0, widths, 257, NULL, 0, &circuit, &place));
    CHECK_CODE(HALFGATES_TOO_LARGE, halfgates_circuit_from_gates(NULL, 0, 0, NULL, 0, widths, 257, &circuit, &place));
    CHECK_CODE(HALFGATES_OK, halfgates_circuit_from_gates(NULL, 0, 0, widths, 256, widths, 256, &circuit, &place));
    halfgates_circuit_free(circuit);
    arrays.gates[0].operation = UINT32_MAX;
    arrays.count = arrays.wires = 1;
    CHECK(compare() == HALFGATES_UNKNOWN_OPERATION);
    arrays.gates[0].operation = HALFGATES_EQ;
    arrays.gates[0].first = UINT32_MAX;
    CHECK(compare() == HALFGATES_BAD_CONSTANT);
    arrays.gates[0].operation = HALFGATES_INV;
    CHECK(compare() == HALFGATES_NO_SUCH_WIRE);
}

int main(void) {
    long seen[14] = {0};
    for (long i = 0; i < ROUNDS; i++) {
        draw();
        const int32_t code = compare();
        CHECK(code >= 0 && code < 14);
        seen[code]++;
    }
    check_limits();
    for (int32_t code = HALFGATES_UNKNOWN_OPERATION; code <= HALFGATES_OUTPUT_UNSET; code++)
        CHECK(seen[code] > 100);
    CHECK(seen[HALFGATES_OK] > ROUNDS / 10 && seen[HALFGATES_WIDTHS_EXCEED_WIRES] > 100);
    return 0;
}
