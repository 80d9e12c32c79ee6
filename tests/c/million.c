/* A circuit of a million gates, from its text to its outputs. */
#include "check.h"

enum { INPUTS = 128, GATES = 1000000, OUTPUTS = 64, WINDOW = 1000 };

/* A number below a limit, the same in each run. */
static uint32_t below(uint32_t limit) {
    static uint64_t state = 1;
    state = state * 6364136223846793005u + 1442695040888963407u;
    return (uint32_t)((state >> 33) % limit);
}

static char *write_text(size_t *length) {
    char *text = malloc(64 * (size_t)GATES);
    CHECK(text != NULL);
    char *at = text + sprintf(text, "%d %d\n2 64 64\n1 %d\n\n", GATES, INPUTS + GATES, OUTPUTS);
    for (uint32_t wire = INPUTS; wire < INPUTS + GATES; wire++) {
        const uint32_t window = wire < WINDOW ? wire : WINDOW;
        const uint32_t a = wire - 1 - below(window), b = wire - 1 - below(window);
        at += sprintf(at, "2 1 %u %u %u %s\n", a, b, wire, below(2) ? "AND" : "XOR");
    }
    *length = (size_t)(at - text);
    return text;
}

int main(void) {
    size_t length, size, written;
    char *text = write_text(&length);
    const uint8_t seed[32] = {9};
    uint8_t bits[INPUTS], labels[2 * (16 + 16 * 64)], outputs[OUTPUTS], expected[OUTPUTS];
    const size_t sizes[2] = {16 + 16 * 64, 16 + 16 * 64};
    halfgates_circuit *circuit = NULL;
    halfgates_garbling *garbling = NULL;
    halfgates_job *job = NULL;
    halfgates_numbers numbers;
    halfgates_audit_report report;

    CHECK_CODE(HALFGATES_OK, halfgates_circuit_read((const uint8_t *)text, length, &circuit));
    free(text);
    CHECK_CODE(HALFGATES_OK, halfgates_circuit_numbers(circuit, &numbers));
    CHECK(numbers.gates == GATES && numbers.wires == INPUTS + GATES);
    CHECK_CODE(HALFGATES_OK, halfgates_garble(circuit, seed, &garbling));
    size = halfgates_garbled_size(circuit, 2);
    CHECK(size == 48 + 32 * (size_t)numbers.and_gates + OUTPUTS / 8 + 32 * OUTPUTS + 32);
    uint8_t *garbled = malloc(size);
    CHECK(garbled != NULL);
    CHECK_CODE(HALFGATES_OK, halfgates_garbling_write(garbling, 2, garbled, size, &written));
    CHECK_CODE(HALFGATES_OK, halfgates_audit(garbling, garbled, size, &report));
    CHECK(report.honest);
    halfgates_garbling_free(garbling);

    for (int i = 0; i < INPUTS; i++)
        bits[i] = (uint8_t)below(2);
    for (uint32_t i = 0; i < 2; i++)
        CHECK_CODE(HALFGATES_OK, halfgates_deal(circuit, seed, i, bits + 64 * i, 64, labels + sizes[0] * i, sizes[i],
                                                &written));
    CHECK_CODE(HALFGATES_OK, halfgates_job_bind(circuit, garbled, size, labels, sizeof labels, sizes, 2, &job));
    free(garbled);
    CHECK_CODE(HALFGATES_OK, halfgates_evaluate(job, outputs, OUTPUTS));
    CHECK_CODE(HALFGATES_OK, halfgates_plain(circuit, bits, INPUTS, expected, OUTPUTS));
    CHECK(memcmp(outputs, expected, OUTPUTS) == 0);
    halfgates_job_free(job);
    halfgates_circuit_free(circuit);
    return 0;
}
