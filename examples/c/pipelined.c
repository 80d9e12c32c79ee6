/*
 * Two parties compare their numbers in two processes: the garbler sends row pairs while it garbles, and the evaluator
 * evaluates them as they come. Neither holds more than a piece of them, however large the circuit is.
 *
 *   pipelined CIRCUIT FIRST SECOND
 *
 * CIRCUIT is a file in Bristol Fashion with two input values, such as examples/less8.txt. FIRST is the garbler's
 * number and SECOND the evaluator's, each of up to 64 bits, the lowest bit on the first wire. So is the number that the
 * evaluator prints.
 *
 * The garbler sends both labels of each of the evaluator's wires, in place of an oblivious transfer: so here the
 * garbler's number isn't kept from the evaluator.
 */
#include <errno.h>
#include <halfgates.h>
#include <inttypes.h>
#include <stdio.h>
#include <stdlib.h>
#include <string.h>
#include <sys/socket.h>
#include <sys/wait.h>
#include <unistd.h>

enum { LABEL = 16, ROW_PAIR = 32, PIECE = 4096 * ROW_PAIR, MAX_WIDTH = 64, GARBLER = 0, EVALUATOR = 1 };

static void stop(const char *what) {
    fprintf(stderr, "pipelined: %s\n", what);
    exit(1);
}

static void check(int32_t code) {
    if (code != HALFGATES_OK) {
        fprintf(stderr, "pipelined: fault %" PRId32 " %s\n", code, halfgates_fault_name(code).text);
        exit(1);
    }
}

/* The bytes of a file, which the caller frees. */
static uint8_t *read_file(const char *name, size_t *size) {
    FILE *file = fopen(name, "rb");
    uint8_t *data = NULL;
    size_t room = 0, got = 1;
    if (file == NULL)
        stop(strerror(errno));
    for (*size = 0; got > 0; *size += got) {
        if (*size == room) {
            room = 2 * room + 4096;
            data = realloc(data, room);
            if (data == NULL)
                stop("no memory");
        }
        got = fread(data + *size, 1, room - *size, file);
    }
    if (ferror(file))
        stop(strerror(errno));
    fclose(file);
    return data;
}

static halfgates_circuit *read_circuit(const char *name, uint32_t widths[2]) {
    halfgates_circuit *circuit = NULL;
    halfgates_numbers numbers;
    size_t size;
    uint8_t *text = read_file(name, &size);
    check(halfgates_circuit_read_without_digest(text, size, &circuit));
    free(text);
    check(halfgates_circuit_numbers(circuit, &numbers));
    if (numbers.input_values != 2 || numbers.output_wires > MAX_WIDTH)
        stop("the circuit has other values");
    check(halfgates_circuit_input_widths(circuit, widths, 2));
    if (widths[GARBLER] > MAX_WIDTH || widths[EVALUATOR] > MAX_WIDTH)
        stop("the circuit has other values");
    return circuit;
}

/* Writes all bytes to a socket. */
static void send_all(int connection, const void *data, size_t size) {
    for (size_t at = 0; at < size;) {
        const ssize_t sent = send(connection, (const uint8_t *)data + at, size - at, MSG_NOSIGNAL);
        if (sent < 0)
            stop(strerror(errno));
        at += (size_t)sent;
    }
}

/* Reads at least one byte from a socket, and at most `size`. */
static size_t receive(int connection, void *data, size_t size) {
    const ssize_t got = recv(connection, data, size, 0);
    if (got < 0)
        stop(strerror(errno));
    if (got == 0)
        stop("the other party has left");
    return (size_t)got;
}

static void receive_all(int connection, void *data, size_t size) {
    for (size_t at = 0; at < size;)
        at += receive(connection, (uint8_t *)data + at, size - at);
}

static void fill_with_random(uint8_t *bytes, size_t size) {
    FILE *random = fopen("/dev/urandom", "rb");
    if (random == NULL || fread(bytes, 1, size, random) != size)
        stop("no random bytes");
    fclose(random);
}

/* The labels of wires that stand for the bits of a number. */
static void choose(const uint8_t *zero, const uint8_t *one, uint64_t number, uint32_t width, uint8_t *labels) {
    for (uint32_t i = 0; i < width; i++)
        memcpy(labels + LABEL * i, (number >> i & 1 ? one : zero) + LABEL * i, LABEL);
}

/* Sends the labels of inputs, then row pairs as it makes them, and at the end the decode bits. */
static void garble(int connection, const halfgates_circuit *circuit, const uint32_t widths[2], uint64_t number) {
    static uint8_t rows[PIECE];
    uint8_t seed[32], zero[MAX_WIDTH * LABEL], one[MAX_WIDTH * LABEL], labels[MAX_WIDTH * LABEL];
    halfgates_garbler *garbler = NULL;
    halfgates_numbers numbers;
    size_t written;
    fill_with_random(seed, sizeof seed);
    check(halfgates_circuit_numbers(circuit, &numbers));
    check(halfgates_garbler_begin(circuit, seed, &garbler));

    check(halfgates_garbler_input_labels(garbler, GARBLER, zero, one, sizeof zero));
    choose(zero, one, number, widths[GARBLER], labels);
    send_all(connection, labels, LABEL * (size_t)widths[GARBLER]);
    check(halfgates_garbler_input_labels(garbler, EVALUATOR, zero, one, sizeof zero));
    send_all(connection, zero, LABEL * (size_t)widths[EVALUATOR]);
    send_all(connection, one, LABEL * (size_t)widths[EVALUATOR]);

    do {
        check(halfgates_garbler_next(garbler, rows, sizeof rows, &written));
        send_all(connection, rows, written);
    } while (written > 0);

    check(halfgates_garbler_decode_bits(garbler, rows, sizeof rows));
    send_all(connection, rows, numbers.output_wires);
    halfgates_garbler_free(garbler);
}

/* Evaluates row pairs as they come, up to the last one. */
static void evaluate_rows(int connection, halfgates_evaluator *evaluator, size_t left) {
    static uint8_t rows[PIECE];
    size_t have = 0, taken;
    while (left > 0) {
        const size_t room = sizeof rows - have;
        have += receive(connection, rows + have, left - have < room ? left - have : room);
        check(halfgates_evaluator_feed(evaluator, rows, have, &taken));
        have -= taken;
        left -= taken;
        memmove(rows, rows + taken, have);
    }
}

/* Receives labels, row pairs and decode bits, and returns the number of the outputs. */
static uint64_t evaluate(int connection, const halfgates_circuit *circuit, const uint32_t widths[2], uint64_t number) {
    uint8_t zero[MAX_WIDTH * LABEL], one[MAX_WIDTH * LABEL], labels[2 * MAX_WIDTH * LABEL], bits[2][MAX_WIDTH];
    const size_t first = LABEL * (size_t)widths[GARBLER], second = LABEL * (size_t)widths[EVALUATOR];
    halfgates_evaluator *evaluator = NULL;
    halfgates_numbers numbers;
    uint64_t result = 0;
    check(halfgates_circuit_numbers(circuit, &numbers));
    receive_all(connection, labels, first);
    receive_all(connection, zero, second);
    receive_all(connection, one, second);
    choose(zero, one, number, widths[EVALUATOR], labels + first);

    check(halfgates_evaluator_begin(circuit, 0, labels, first + second, &evaluator));
    evaluate_rows(connection, evaluator, ROW_PAIR * (size_t)numbers.and_gates);
    check(halfgates_evaluator_output_labels(evaluator, labels, sizeof labels));
    halfgates_evaluator_free(evaluator);

    receive_all(connection, bits[0], numbers.output_wires);
    check(halfgates_decode(labels, LABEL * (size_t)numbers.output_wires, bits[0], numbers.output_wires, bits[1],
                           sizeof bits[1]));
    for (uint32_t i = 0; i < numbers.output_wires; i++)
        result |= (uint64_t)bits[1][i] << i;
    return result;
}

int main(int count, char **words) {
    int ends[2], status;
    uint32_t widths[2];
    halfgates_circuit *circuit;
    pid_t child;
    if (count != 4) {
        fputs("usage: pipelined CIRCUIT FIRST SECOND\n", stderr);
        return 2;
    }
    circuit = read_circuit(words[1], widths);
    if (socketpair(AF_UNIX, SOCK_STREAM, 0, ends) != 0)
        stop(strerror(errno));
    child = fork();
    if (child < 0)
        stop(strerror(errno));
    close(ends[child == 0 ? 0 : 1]);
    if (child == 0)
        garble(ends[1], circuit, widths, strtoull(words[2], NULL, 10));
    else
        printf("%" PRIu64 "\n", evaluate(ends[0], circuit, widths, strtoull(words[3], NULL, 10)));
    close(ends[child == 0 ? 1 : 0]);
    halfgates_circuit_free(circuit);
    if (child == 0)
        return 0;
    return waitpid(child, &status, 0) == child && status == 0 ? 0 : 1;
}
