/*
 * Times garbling and evaluating in pieces, beside the whole at once, for streaming.py: prints the nanoseconds of each
 * part, the fastest of some runs in turns.
 *
 *   streaming CIRCUIT REPEATS
 *
 * `garble` is halfgates_garble and halfgates_rows, `garble256` and `garble4096` are a garbler with pieces of this
 * many AND gates; `evaluate`, `evaluate256` and `evaluate4096` the same of an evaluation. `apart` and `pipelined` are
 * two processes over a socket, from the labels of the inputs to those of the outputs: one after another, with all row
 * pairs at once, and with pieces of 4,096. `first_apart` and `first_pipelined` are when the evaluator has its first row
 * pairs.
 */
#include <halfgates.h>
#include <stdio.h>
#include <stdlib.h>
#include <string.h>
#include <sys/socket.h>
#include <sys/wait.h>
#include <time.h>
#include <unistd.h>

enum { LABEL = 16, ROW_PAIR = 32, PARTS = 10 };

static const char *const NAMES[PARTS] = {"garble",       "garble256", "garble4096", "evaluate",    "evaluate256",
                                         "evaluate4096", "apart",     "pipelined",  "first_apart", "first_pipelined"};

static const uint8_t SEED[32] = {1};
static halfgates_circuit *circuit;
static uint8_t *rows, *labels, *ones, *outputs;
static size_t rows_size, labels_size, outputs_size;
static int64_t fastest[PARTS];

static int64_t now(void) {
    struct timespec it;
    clock_gettime(CLOCK_MONOTONIC, &it);
    return it.tv_sec * INT64_C(1000000000) + it.tv_nsec;
}

static void demand(int condition, const char *what) {
    if (!condition) {
        fprintf(stderr, "streaming: %s\n", what);
        exit(1);
    }
}

static void check(int32_t code) {
    demand(code == HALFGATES_OK, halfgates_fault_name(code).text);
}

static uint8_t *take(size_t size) {
    uint8_t *room = malloc(size + 1);
    demand(room != NULL, "no memory");
    memset(room, 0, size + 1);
    return room;
}

static void keep(int part, int64_t took) {
    if (fastest[part] == 0 || took < fastest[part])
        fastest[part] = took;
}

static uint8_t *read_file(const char *name, size_t *size) {
    FILE *file = fopen(name, "rb");
    demand(file != NULL && fseek(file, 0, SEEK_END) == 0, name);
    *size = (size_t)ftell(file);
    uint8_t *data = take(*size);
    rewind(file);
    demand(fread(data, 1, *size, file) == *size, name);
    fclose(file);
    return data;
}

/* Reads the circuit, and takes the zero labels of all input wires for active ones. */
static void prepare(const char *name) {
    size_t size;
    uint8_t *text = read_file(name, &size);
    uint32_t widths[256];
    halfgates_garbling *garbling = NULL;
    halfgates_numbers numbers;
    check(halfgates_circuit_read(text, size, &circuit));
    free(text);
    check(halfgates_circuit_numbers(circuit, &numbers));
    check(halfgates_circuit_input_widths(circuit, widths, 256));
    rows_size = ROW_PAIR * (size_t)numbers.and_gates;
    labels_size = LABEL * (size_t)numbers.input_wires;
    outputs_size = LABEL * (size_t)numbers.output_wires;
    rows = take(rows_size), labels = take(labels_size), ones = take(labels_size), outputs = take(outputs_size);
    check(halfgates_garble(circuit, SEED, &garbling));
    for (size_t i = 0, at = 0; i < numbers.input_values; at += LABEL * (size_t)widths[i++])
        check(halfgates_input_labels(garbling, (uint32_t)i, labels + at, ones + at, labels_size - at));
    halfgates_garbling_free(garbling);
}

static void garble(void) {
    halfgates_garbling *garbling = NULL;
    check(halfgates_garble(circuit, SEED, &garbling));
    check(halfgates_rows(garbling, rows, rows_size));
    halfgates_garbling_free(garbling);
}

/* Garbles in pieces of this many bytes, each in the same place, as a program does that sends them. */
static void garble_in_pieces(size_t size) {
    halfgates_garbler *garbler = NULL;
    size_t written = 0;
    check(halfgates_garbler_begin(circuit, SEED, &garbler));
    do
        check(halfgates_garbler_next(garbler, rows, size, &written));
    while (written > 0);
    halfgates_garbler_free(garbler);
}

static void evaluate(void) {
    check(halfgates_evaluate_labels(circuit, rows, rows_size, 0, labels, labels_size, outputs, outputs_size));
}

static void evaluate_in_pieces(size_t size) {
    halfgates_evaluator *evaluator = NULL;
    size_t taken;
    check(halfgates_evaluator_begin(circuit, 0, labels, labels_size, &evaluator));
    for (size_t at = 0; at < rows_size; at += taken)
        check(halfgates_evaluator_feed(evaluator, rows + at, size < rows_size - at ? size : rows_size - at, &taken));
    check(halfgates_evaluator_output_labels(evaluator, outputs, outputs_size));
    halfgates_evaluator_free(evaluator);
}

static void send_all(int connection, const uint8_t *data, size_t size) {
    for (size_t at = 0; at < size;) {
        const ssize_t sent = send(connection, data + at, size - at, MSG_NOSIGNAL);
        demand(sent > 0, "the socket");
        at += (size_t)sent;
    }
}

/* The garbler's process. */
static void send_rows(int connection, size_t piece) {
    halfgates_garbler *garbler = NULL;
    size_t written = 0;
    if (piece == 0) {
        garble();
        send_all(connection, rows, rows_size);
        return;
    }
    check(halfgates_garbler_begin(circuit, SEED, &garbler));
    do {
        check(halfgates_garbler_next(garbler, rows, piece, &written));
        send_all(connection, rows, written);
    } while (written > 0);
    halfgates_garbler_free(garbler);
}

/* The evaluator's process. Returns when it had its first row pair. */
static int64_t receive_rows(int connection, size_t piece) {
    halfgates_evaluator *evaluator = NULL;
    size_t have = 0, taken = 0, left = rows_size;
    int64_t first = 0;
    if (piece > 0)
        check(halfgates_evaluator_begin(circuit, 0, labels, labels_size, &evaluator));
    while (left > 0) {
        const size_t room = (piece ? 2 * piece : rows_size) - have;
        const ssize_t got = recv(connection, rows + have, left - have < room ? left - have : room, 0);
        demand(got > 0, "the socket");
        have += (size_t)got;
        if (first == 0 && have >= ROW_PAIR)
            first = now();
        if (piece == 0) {
            if (have == rows_size)
                break;
            continue;
        }
        check(halfgates_evaluator_feed(evaluator, rows, have, &taken));
        memmove(rows, rows + taken, have -= taken);
        left -= taken;
    }
    if (piece == 0)
        evaluate();
    else
        check(halfgates_evaluator_output_labels(evaluator, outputs, outputs_size));
    halfgates_evaluator_free(evaluator);
    return first;
}

/* Both parties, in two processes. With pieces of 0 bytes all row pairs are sent at once. */
static void run_parties(size_t piece, int whole, int first) {
    int ends[2], status;
    demand(socketpair(AF_UNIX, SOCK_STREAM, 0, ends) == 0, "a socket");
    const int64_t start = now();
    const pid_t child = fork();
    demand(child >= 0, "a process");
    if (child == 0) {
        send_rows(ends[1], piece);
        _exit(0);
    }
    const int64_t at = receive_rows(ends[0], piece);
    keep(whole, now() - start);
    keep(first, at - start);
    close(ends[0]), close(ends[1]);
    demand(waitpid(child, &status, 0) == child && status == 0, "the garbler");
}

static void turn(int part, void (*call)(void)) {
    const int64_t start = now();
    call();
    keep(part, now() - start);
}

static void garble256(void) { garble_in_pieces(256 * ROW_PAIR); }
static void garble4096(void) { garble_in_pieces(4096 * ROW_PAIR); }
static void evaluate256(void) { evaluate_in_pieces(256 * ROW_PAIR); }
static void evaluate4096(void) { evaluate_in_pieces(4096 * ROW_PAIR); }

int main(int count, char **words) {
    void (*const calls[])(void) = {garble, garble256, garble4096, evaluate, evaluate256, evaluate4096};
    if (count != 3)
        return 2;
    prepare(words[1]);
    demand(rows_size >= 8192 * ROW_PAIR, "a circuit of at least 8,192 AND gates is needed");
    for (int repeats = atoi(words[2]); repeats > 0; repeats--) {
        for (int part = 0; part < 6; part++)
            turn(part, calls[part]);
        run_parties(0, 6, 8);
        run_parties(4096 * ROW_PAIR, 7, 9);
    }
    for (int part = 0; part < PARTS; part++)
        printf("%s %lld\n", NAMES[part], (long long)fastest[part]);
    halfgates_circuit_free(circuit);
    free(rows), free(labels), free(ones), free(outputs);
    return 0;
}
