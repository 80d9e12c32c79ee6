/*
 * Eight threads, each with a handle of its own on one circuit, or with a circuit of its own; eight that use one
 * circuit, one garbling and one job at once, each with a garbler and an evaluator of its own, and with a handle of its
 * own that takes the digest; and a garbling and a garbler that a thread hands to another.
 */
#include "check.h"
#include <pthread.h>

enum { THREADS = 8, ROUNDS = 50 };

struct task {
    uint8_t number;
    halfgates_circuit *circuit;
    uint8_t garbled[177];
};

static void garble_once(const halfgates_circuit *circuit, uint8_t number, uint8_t garbled[177]) {
    uint8_t seed[32];
    size_t written;
    halfgates_garbling *garbling = NULL;
    memset(seed, number, sizeof seed);
    CHECK_CODE(HALFGATES_OK, halfgates_garble(circuit, seed, &garbling));
    CHECK_CODE(HALFGATES_OK, halfgates_garbling_write(garbling, 2, garbled, 177, &written));
    halfgates_garbling_free(garbling);
}

static void *work(void *at) {
    struct task *task = at;
    uint8_t bits[3], seed[32], labels[96], outputs[2], first[177];
    const size_t sizes[3] = {32, 32, 32};
    size_t written;
    halfgates_circuit *circuit = task->circuit;
    memset(seed, task->number, sizeof seed);
    for (int round = 0; round < ROUNDS; round++) {
        halfgates_job *job = NULL;
        garble_once(circuit, task->number, task->garbled);
        if (round == 0)
            memcpy(first, task->garbled, sizeof first);
        CHECK(memcmp(first, task->garbled, sizeof first) == 0);
        for (uint32_t i = 0; i < 3; i++) {
            bits[i] = (round + task->number) >> i & 1;
            CHECK_CODE(HALFGATES_OK, halfgates_deal(circuit, seed, i, bits + i, 1, labels + 32 * i, 32, &written));
        }
        CHECK_CODE(HALFGATES_OK, halfgates_job_bind(circuit, task->garbled, 177, labels, 96, sizes, 3, &job));
        CHECK_CODE(HALFGATES_OK, halfgates_evaluate(job, outputs, 2));
        CHECK(outputs[0] + 2 * outputs[1] == bits[0] + bits[1] + bits[2]);
        halfgates_job_free(job);
    }
    halfgates_circuit_free(circuit);
    return NULL;
}

/* What several threads read at once, and what they are to find. */
struct shared {
    const halfgates_circuit *circuit, *undigested;
    const halfgates_garbling *garbling;
    const halfgates_job *job;
    halfgates_garbling *garblings[3]; /* the same garbling three times */
    halfgates_job *jobs[3];           /* and the same job */
    uint8_t garbled[177], zero[16], outputs[2];
};

/* Garbles and evaluates in pieces, on a circuit that other threads use. */
static void stream(const struct shared *shared, const uint8_t seed[32]) {
    uint8_t zeros[48], ones[48], rows[32], outputs[32], labels[2][32];
    size_t written, taken;
    halfgates_garbler *garbler = NULL;
    halfgates_evaluator *evaluator = NULL;
    CHECK_CODE(HALFGATES_OK, halfgates_garbler_begin(shared->circuit, seed, &garbler));
    for (uint32_t i = 0; i < 3; i++)
        CHECK_CODE(HALFGATES_OK, halfgates_garbler_input_labels(garbler, i, zeros + 16 * i, ones + 16 * i, 16));
    CHECK_CODE(HALFGATES_OK, halfgates_evaluator_begin(shared->circuit, 0, ones, sizeof ones, &evaluator));
    CHECK_CODE(HALFGATES_OK, halfgates_garbler_next(garbler, rows, sizeof rows, &written));
    CHECK(written == 32 && memcmp(rows, shared->garbled + 48, 32) == 0);
    CHECK_CODE(HALFGATES_OK, halfgates_evaluator_feed(evaluator, rows, sizeof rows, &taken));
    CHECK_CODE(HALFGATES_OK, halfgates_garbler_output_labels(garbler, 0, labels[0], labels[1], 32));
    CHECK_CODE(HALFGATES_OK, halfgates_evaluator_output_labels(evaluator, outputs, sizeof outputs));
    CHECK(taken == 32 && memcmp(outputs, labels[1], 32) == 0);
    halfgates_garbler_free(garbler);
    halfgates_evaluator_free(evaluator);
}

static void order_once(const halfgates_circuit *circuit) {
    halfgates_circuit *ordered = NULL;
    uint8_t text[100];
    size_t written;
    CHECK_CODE(HALFGATES_OK, halfgates_circuit_order(circuit, &ordered));
    CHECK_CODE(HALFGATES_OK, halfgates_circuit_text(circuit, text, sizeof text, &written));
    CHECK(written == strlen(FULL_ADDER) && memcmp(text, FULL_ADDER, written) == 0);
    CHECK_CODE(HALFGATES_OK, halfgates_circuit_text(ordered, text, sizeof text, &written));
    CHECK(written == strlen(FULL_ADDER) && memcmp(text, FULL_ADDER, written) != 0);
    halfgates_circuit_free(ordered);
}

/* Takes the digest of a handle of its own. The one that other threads use stays without. */
static void take_digest(const halfgates_circuit *undigested, const uint8_t digest[32]) {
    uint8_t taken[32];
    halfgates_circuit *own = NULL;
    CHECK_CODE(HALFGATES_OK, halfgates_circuit_share(undigested, &own));
    CHECK_CODE(HALFGATES_NO_DIGEST, halfgates_circuit_digest(own, taken));
    CHECK_CODE(HALFGATES_OK, halfgates_circuit_take_digest(own));
    CHECK_CODE(HALFGATES_OK, halfgates_circuit_digest(own, taken));
    CHECK(memcmp(taken, digest, sizeof taken) == 0);
    CHECK_CODE(HALFGATES_NO_DIGEST, halfgates_circuit_digest(undigested, taken));
    halfgates_circuit_free(own);
}

static void *read_all(void *at) {
    const struct shared *shared = at;
    const uint8_t bits[3] = {1, 0, 1}, seed[32] = {0};
    uint8_t garbled[177], files[3 * 177], zero[16], outputs[2], many[6];
    halfgates_numbers numbers;
    size_t written;
    for (int round = 0; round < ROUNDS; round++) {
        CHECK_CODE(HALFGATES_OK, halfgates_circuit_numbers(shared->circuit, &numbers));
        CHECK(numbers.gates == 5 && numbers.wires == 8);
        order_once(shared->circuit);
        take_digest(shared->undigested, shared->garbled + 8);
        stream(shared, seed);
        garble_once(shared->circuit, 0, garbled);
        CHECK(memcmp(garbled, shared->garbled, sizeof garbled) == 0);
        CHECK_CODE(HALFGATES_OK, halfgates_garbling_write(shared->garbling, 2, garbled, sizeof garbled, &written));
        CHECK(memcmp(garbled, shared->garbled, sizeof garbled) == 0);
        CHECK_CODE(HALFGATES_OK, halfgates_write_many(shared->garblings, 3, 2, files, sizeof files));
        for (int i = 0; i < 3; i++)
            CHECK(memcmp(files + 177 * i, shared->garbled, 177) == 0);
        CHECK_CODE(HALFGATES_OK, halfgates_zero_label(shared->garbling, 7, zero));
        CHECK(memcmp(zero, shared->zero, sizeof zero) == 0);
        CHECK_CODE(HALFGATES_OK, halfgates_evaluate(shared->job, outputs, sizeof outputs));
        CHECK(memcmp(outputs, shared->outputs, sizeof outputs) == 0);
        CHECK_CODE(HALFGATES_OK, halfgates_evaluate_many(shared->jobs, 3, many, sizeof many));
        for (int i = 0; i < 3; i++)
            CHECK(memcmp(many + 2 * i, shared->outputs, 2) == 0);
        CHECK_CODE(HALFGATES_OK, halfgates_plain(shared->circuit, bits, 3, outputs, sizeof outputs));
        CHECK(memcmp(outputs, shared->outputs, sizeof outputs) == 0);
    }
    return NULL;
}

/* Several threads use the same three handles at once. */
static void share_handles(const halfgates_circuit *circuit) {
    const uint8_t seed[32] = {0}, bits[3] = {1, 0, 1};
    const size_t sizes[3] = {32, 32, 32};
    uint8_t labels[96];
    size_t written;
    pthread_t threads[THREADS];
    halfgates_circuit *undigested = NULL;
    halfgates_garbling *garbling = NULL;
    halfgates_job *job = NULL;
    struct shared shared;
    CHECK_CODE(HALFGATES_OK,
               halfgates_circuit_read_without_digest((const uint8_t *)FULL_ADDER, strlen(FULL_ADDER), &undigested));
    CHECK_CODE(HALFGATES_OK, halfgates_garble(circuit, seed, &garbling));
    CHECK_CODE(HALFGATES_OK, halfgates_garbling_write(garbling, 2, shared.garbled, 177, &written));
    CHECK_CODE(HALFGATES_OK, halfgates_zero_label(garbling, 7, shared.zero));
    for (uint32_t i = 0; i < 3; i++)
        CHECK_CODE(HALFGATES_OK, halfgates_deal(circuit, seed, i, bits + i, 1, labels + 32 * i, 32, &written));
    CHECK_CODE(HALFGATES_OK, halfgates_job_bind(circuit, shared.garbled, 177, labels, 96, sizes, 3, &job));
    CHECK_CODE(HALFGATES_OK, halfgates_evaluate(job, shared.outputs, 2));
    shared.circuit = circuit;
    shared.undigested = undigested;
    shared.garbling = shared.garblings[0] = shared.garblings[1] = shared.garblings[2] = garbling;
    shared.job = shared.jobs[0] = shared.jobs[1] = shared.jobs[2] = job;
    for (int i = 0; i < THREADS; i++)
        CHECK(pthread_create(&threads[i], NULL, read_all, &shared) == 0);
    for (int i = 0; i < THREADS; i++)
        CHECK(pthread_join(threads[i], NULL) == 0);
    halfgates_circuit_free(undigested);
    halfgates_garbling_free(garbling);
    halfgates_job_free(job);
}

/* Frees what another thread made. */
static void *free_garbling(void *garbling) {
    halfgates_garbling_free(garbling);
    return NULL;
}

/* Goes on with what another thread began, and frees it. */
static void *end_garbler(void *garbler) {
    uint8_t rows[32], bits[2];
    size_t written;
    CHECK_CODE(HALFGATES_OK, halfgates_garbler_next(garbler, rows, sizeof rows, &written));
    CHECK_CODE(HALFGATES_OK, halfgates_garbler_decode_bits(garbler, bits, sizeof bits));
    CHECK(written == 32);
    halfgates_garbler_free(garbler);
    return NULL;
}

int main(void) {
    pthread_t threads[THREADS], other;
    struct task tasks[THREADS];
    const uint8_t seed[32] = {0};
    halfgates_circuit *circuit = read_text(FULL_ADDER);
    halfgates_garbling *garbling = NULL;
    halfgates_garbler *garbler = NULL;
    for (uint8_t i = 0; i < THREADS; i++) {
        tasks[i].number = i;
        tasks[i].circuit = NULL;
        if (i < THREADS / 2)
            tasks[i].circuit = read_text(FULL_ADDER);
        else
            CHECK_CODE(HALFGATES_OK, halfgates_circuit_share(circuit, &tasks[i].circuit));
        CHECK(pthread_create(&threads[i], NULL, work, &tasks[i]) == 0);
    }
    for (int i = 0; i < THREADS; i++)
        CHECK(pthread_join(threads[i], NULL) == 0);
    for (uint8_t i = 0; i < THREADS; i++) {
        uint8_t garbled[177];
        garble_once(circuit, i, garbled);
        CHECK(memcmp(garbled, tasks[i].garbled, sizeof garbled) == 0);
    }
    share_handles(circuit);
    CHECK_CODE(HALFGATES_OK, halfgates_garble(circuit, seed, &garbling));
    CHECK(pthread_create(&other, NULL, free_garbling, garbling) == 0);
    CHECK(pthread_join(other, NULL) == 0);
    CHECK_CODE(HALFGATES_OK, halfgates_garbler_begin(circuit, seed, &garbler));
    CHECK(pthread_create(&other, NULL, end_garbler, garbler) == 0);
    CHECK(pthread_join(other, NULL) == 0);
    halfgates_circuit_free(circuit);
    return 0;
}
