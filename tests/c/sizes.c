/*
 * The memory of each handle, and of an evaluation of a job: prints for each how many bytes it takes for a gate, a wire,
 * an AND gate more and an input wire, and how many more of each there are at a time while it is made.
 *
 * The figures come from circuits that differ in one of these numbers alone. It is linked with --wrap for malloc,
 * realloc and free.
 */
#include "check.h"

enum { LABEL = 16, COUNT = 100000, KINDS = 5, HANDLES = 6, LINE = 40 };

void *__real_malloc(size_t size);
void __real_free(void *at);

/* The bytes that are taken, and the most at a time. */
static size_t live, most;

/* Before each block is its size. */
struct head {
    _Alignas(16) size_t size;
};

void *__wrap_malloc(size_t size) {
    struct head *it = __real_malloc(sizeof *it + size);
    CHECK(it != NULL);
    it->size = size;
    live += size;
    most = live > most ? live : most;
    return it + 1;
}

void *__wrap_realloc(void *at, size_t size) {
    (void)at, (void)size;
    CHECK(!"realloc is called");
    return NULL;
}

void __wrap_free(void *at) {
    if (at != NULL) {
        live -= ((struct head *)at - 1)->size;
        __real_free((struct head *)at - 1);
    }
}

/* How many gates of a kind a circuit has, wires that nothing sets, and input wires. */
struct shape {
    uint32_t xor_gates, and_gates, spare, inputs;
};

/* The text of such a circuit, without output values. */
static char *write_text(struct shape of, size_t *length) {
    const uint32_t gates = of.xor_gates + of.and_gates;
    char *text = __real_malloc(LINE * ((size_t)gates + 4)), *at = text;
    CHECK(text != NULL);
    at += sprintf(at, "%u %u\n1 %u\n0\n\n", gates, of.inputs + gates + of.spare, of.inputs);
    for (uint32_t i = 0; i < gates; i++)
        at += sprintf(at, "2 1 0 1 %u %s\n", of.inputs + i, i < of.and_gates ? "AND" : "XOR");
    *length = (size_t)(at - text);
    return text;
}

/* The bytes that a handle takes, and those at a time while it is made. */
struct cost {
    size_t kept, peak;
};

static size_t before;

static void begin(void) {
    before = most = live;
}

static struct cost end(void) {
    return (struct cost){live - before, most - before};
}

static void measure_job(const halfgates_circuit *circuit, const halfgates_garbling *garbling, struct shape of,
                        struct cost *cost) {
    const size_t size = halfgates_garbled_size(circuit, 2), labels_size = 16 + LABEL * (size_t)of.inputs;
    uint8_t *garbled = malloc(size), *bits = malloc(of.inputs), *labels = malloc(labels_size);
    halfgates_job *job = NULL;
    size_t written;
    memset(bits, 0, of.inputs);
    CHECK_CODE(HALFGATES_OK, halfgates_garbling_write(garbling, 2, garbled, size, &written));
    CHECK_CODE(HALFGATES_OK, halfgates_garbling_deal(garbling, 0, bits, of.inputs, labels, labels_size, &written));
    begin();
    CHECK_CODE(HALFGATES_OK, halfgates_job_bind(circuit, garbled, size, labels, labels_size, &labels_size, 1, &job));
    cost[0] = end();
    begin();
    CHECK_CODE(HALFGATES_OK, halfgates_evaluate(job, NULL, 0));
    cost[1] = (struct cost){end().peak, end().peak};
    halfgates_job_free(job);
    free(garbled), free(bits), free(labels);
}

/* The handles of a circuit of this shape: the circuit itself, a garbling, a job and its evaluation, a garbler and an
 * evaluator. */
static void measure(struct shape of, struct cost costs[HANDLES]) {
    const uint8_t seed[32] = {1};
    size_t length;
    char *text = write_text(of, &length);
    uint8_t *labels = malloc(LABEL * (size_t)of.inputs);
    halfgates_circuit *circuit = NULL;
    halfgates_garbling *garbling = NULL;
    halfgates_garbler *garbler = NULL;
    halfgates_evaluator *evaluator = NULL;
    memset(labels, 1, LABEL * (size_t)of.inputs);
    begin();
    CHECK_CODE(HALFGATES_OK, halfgates_circuit_read((const uint8_t *)text, length, &circuit));
    costs[0] = end();
    __real_free(text);
    begin();
    CHECK_CODE(HALFGATES_OK, halfgates_garble(circuit, seed, &garbling));
    costs[1] = end();
    measure_job(circuit, garbling, of, &costs[2]);
    begin();
    CHECK_CODE(HALFGATES_OK, halfgates_garbler_begin(circuit, seed, &garbler));
    costs[4] = end();
    begin();
    CHECK_CODE(HALFGATES_OK, halfgates_evaluator_begin(circuit, 0, labels, LABEL * (size_t)of.inputs, &evaluator));
    costs[5] = end();
    halfgates_circuit_free(circuit);
    halfgates_garbling_free(garbling);
    halfgates_garbler_free(garbler);
    halfgates_evaluator_free(evaluator);
    free(labels);
    CHECK(live == 0);
}

/* The bytes for each of COUNT more of something, rounded. */
static long each(size_t more, size_t less) {
    return ((long)more - (long)less + (more > less ? COUNT / 2 : -COUNT / 2)) / COUNT;
}

int main(void) {
    static const char *const handles[HANDLES] = {"circuit", "garbling", "job", "evaluation", "garbler", "evaluator"};
    static const char *const kinds[KINDS - 1] = {"gate", "wire", "and", "input"};
    /* A gate sets a wire, so its own bytes are those beyond a wire's; an AND gate's are those beyond an XOR gate's. */
    const struct shape shapes[KINDS] = {{COUNT, 0, 0, COUNT},
                                        {2 * COUNT, 0, 0, COUNT},
                                        {COUNT, 0, COUNT, COUNT},
                                        {0, COUNT, 0, COUNT},
                                        {COUNT, 0, 0, 2 * COUNT}};
    struct cost costs[KINDS][HANDLES];
    for (int i = 0; i < KINDS; i++)
        measure(shapes[i], costs[i]);
    for (int h = 0; h < HANDLES; h++) {
        long kept[KINDS - 1], peak[KINDS - 1];
        for (int k = 0; k < KINDS - 1; k++) {
            kept[k] = each(costs[k + 1][h].kept, costs[0][h].kept);
            peak[k] = each(costs[k + 1][h].peak, costs[0][h].peak);
        }
        kept[0] -= kept[1], peak[0] -= peak[1];
        kept[3] -= kept[1], peak[3] -= peak[1];
        printf("%s", handles[h]);
        for (int k = 0; k < KINDS - 1; k++)
            printf(" %s %ld %ld", kinds[k], kept[k], peak[k]);
        printf("\n");
    }
    return 0;
}
