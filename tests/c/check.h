/* What the tests in C share. A check that fails ends the test with its place. */
#ifndef CHECK_H
#define CHECK_H

#include <halfgates.h>
#include <inttypes.h>
#include <stdio.h>
#include <stdlib.h>
#include <string.h>

#define CHECK(condition) \
    do { \
        if (!(condition)) { \
            fprintf(stderr, "%s:%d: %s\n", __FILE__, __LINE__, #condition); \
            exit(1); \
        } \
    } while (0)

/* The code that a call returns is this one. */
#define CHECK_CODE(code, call) \
    do { \
        int32_t returned = (call); \
        if (returned != (code)) { \
            fprintf(stderr, "%s:%d: %s: %" PRId32 " %s\n", __FILE__, __LINE__, #call, returned, \
                    halfgates_fault_name(returned).text); \
            exit(1); \
        } \
    } while (0)

static const char FULL_ADDER[] = "5 8\n3 1 1 1\n1 2\n\n2 1 0 2 3 XOR\n2 1 1 2 4 XOR\n2 1 3 4 5 AND\n2 1 3 1 6 XOR\n"
                                 "2 1 5 2 7 XOR\n";

static inline halfgates_circuit *read_text(const char *text) {
    halfgates_circuit *circuit = NULL;
    CHECK_CODE(HALFGATES_OK, halfgates_circuit_read((const uint8_t *)text, strlen(text), &circuit));
    CHECK(circuit != NULL);
    return circuit;
}

#endif
