/*
 * Two parties compare their numbers by a garbled circuit. Both are in this one program; what goes from one to the other
 * is the garbled file and the label files, in memory.
 *
 *   two_parties CIRCUIT FIRST SECOND
 *
 * CIRCUIT is a file in Bristol Fashion with two input values, such as examples/less8.txt. FIRST is the garbler's
 * number and SECOND the evaluator's, each of up to 64 bits, the lowest bit on the first wire. So is the number that is
 * printed.
 */
#include <errno.h>
#include <halfgates.h>
#include <inttypes.h>
#include <stdio.h>
#include <stdlib.h>
#include <string.h>

enum { PARTIES = 2, MAX_WIDTH = 64 };

/* What the garbler sends. */
struct message {
    uint8_t *garbled;
    size_t garbled_size;
    uint8_t labels[PARTIES * (16 + 16 * MAX_WIDTH)]; /* the label files, one after another */
    size_t label_sizes[PARTIES];
};

static void stop(const char *what) {
    fprintf(stderr, "two_parties: %s\n", what);
    exit(1);
}

static void check(int32_t code) {
    if (code != HALFGATES_OK) {
        fprintf(stderr, "two_parties: fault %" PRId32 " %s\n", code, halfgates_fault_name(code).text);
        exit(1);
    }
}

/* The bytes of a file, which the caller frees. */
static uint8_t *read_file(const char *name, size_t *size) {
    FILE *file = fopen(name, "rb");
    uint8_t *data = NULL;
    size_t room = 0, got = 1;
    if (file == NULL)
        stop(strerror(errno));
    for (*size = 0; got > 0; *size += got) {
        if (*size == room) {
            room = 2 * room + 4096;
            data = realloc(data, room);
            if (data == NULL)
                stop("no memory");
        }
        got = fread(data + *size, 1, room - *size, file);
    }
    if (ferror(file))
        stop(strerror(errno));
    fclose(file);
    return data;
}

/* Both parties read the circuit by themselves. */
static halfgates_circuit *read_circuit(const char *name, uint32_t widths[PARTIES], size_t *outputs) {
    halfgates_circuit *circuit = NULL;
    halfgates_numbers numbers;
    size_t size;
    uint8_t *text = read_file(name, &size);
    check(halfgates_circuit_read(text, size, &circuit));
    free(text);
    check(halfgates_circuit_numbers(circuit, &numbers));
    if (numbers.input_values != PARTIES)
        stop("the circuit hasn't two input values");
    check(halfgates_circuit_input_widths(circuit, widths, PARTIES));
    if (widths[0] > MAX_WIDTH || widths[1] > MAX_WIDTH || numbers.output_wires > MAX_WIDTH)
        stop("a value has more than 64 wires");
    *outputs = numbers.output_wires;
    return circuit;
}

/* Deals the label file of a number. Where the garbler mustn't learn the evaluator's number, those labels come by
 * oblivious transfer; this example tells the garbler the number. */
static size_t deal(halfgates_circuit *circuit, const uint8_t seed[32], uint32_t index, uint64_t number, uint32_t width,
                   uint8_t *file) {
    uint8_t bits[MAX_WIDTH];
    size_t written;
    if (width < MAX_WIDTH && number >> width != 0)
        stop("a number has more bits than its value has wires");
    for (uint32_t i = 0; i < width; i++)
        bits[i] = number >> i & 1;
    check(halfgates_deal(circuit, seed, index, bits, width, file, 16 + 16 * (size_t)width, &written));
    return written;
}

/* The garbler: takes a seed that nobody knows, garbles, and deals. */
static void garble(const char *name, const uint64_t numbers[PARTIES], struct message *message) {
    uint32_t widths[PARTIES];
    size_t outputs, at = 0;
    uint8_t seed[32];
    halfgates_circuit *circuit = read_circuit(name, widths, &outputs);
    halfgates_garbling *garbling = NULL;
    FILE *random = fopen("/dev/urandom", "rb");
    if (random == NULL || fread(seed, 1, sizeof seed, random) != sizeof seed)
        stop("no random bytes");
    fclose(random);

    check(halfgates_garble(circuit, seed, &garbling));
    message->garbled_size = halfgates_garbled_size(circuit, 2);
    message->garbled = malloc(message->garbled_size);
    if (message->garbled == NULL)
        stop("no memory");
    check(halfgates_garbling_write(garbling, 2, message->garbled, message->garbled_size, &message->garbled_size));
    for (uint32_t i = 0; i < PARTIES; i++) {
        message->label_sizes[i] = deal(circuit, seed, i, numbers[i], widths[i], message->labels + at);
        at += message->label_sizes[i];
    }
    halfgates_garbling_free(garbling);
    halfgates_circuit_free(circuit);
}

/* The evaluator: has the circuit and the message alone. */
static uint64_t evaluate(const char *name, const struct message *message) {
    uint32_t widths[PARTIES];
    uint8_t bits[MAX_WIDTH];
    size_t outputs, labels_size = message->label_sizes[0] + message->label_sizes[1];
    uint64_t answer = 0;
    halfgates_circuit *circuit = read_circuit(name, widths, &outputs);
    halfgates_job *job = NULL;
    check(halfgates_job_bind(circuit, message->garbled, message->garbled_size, message->labels, labels_size,
                             message->label_sizes, PARTIES, &job));
    check(halfgates_evaluate(job, bits, outputs));
    for (size_t i = 0; i < outputs; i++)
        answer |= (uint64_t)bits[i] << i;
    halfgates_job_free(job);
    halfgates_circuit_free(circuit);
    return answer;
}

/* A number of decimal digits below 2^64. */
static uint64_t number_of(const char *word) {
    char *end = NULL;
    uint64_t number;
    errno = 0;
    number = strtoull(word, &end, 10);
    if (*word < '0' || *word > '9' || *end != 0 || errno != 0)
        stop("a number is decimal, and below 2^64");
    return number;
}

int main(int count, char **words) {
    struct message message;
    uint64_t numbers[PARTIES];
    if (count != 4) {
        fputs("usage: two_parties CIRCUIT FIRST SECOND\n", stderr);
        return 2;
    }
    for (int i = 0; i < PARTIES; i++)
        numbers[i] = number_of(words[2 + i]);
    garble(words[1], numbers, &message);
    printf("%" PRIu64 "\n", evaluate(words[1], &message));
    free(message.garbled);
    return 0;
}
