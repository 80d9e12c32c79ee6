/*
 * SHA-256 of a message of any length, by the circuit of its compression: a garbled circuit for each block, all under
 * one offset. The labels of the state that one block gives are the labels that the next block takes.
 *
 *   sha256_chain CIRCUIT MESSAGE
 *
 * CIRCUIT is the file that `examples/make_circuits.py sha256 CIRCUIT` writes. The digest of MESSAGE is printed. Both
 * parties are in this one program.
 */
#include <errno.h>
#include <halfgates.h>
#include <inttypes.h>
#include <stdio.h>
#include <stdlib.h>
#include <string.h>

enum { LABEL = 16, ROW_PAIR = 32, BLOCK_BYTES = 64, BLOCK = 512, STATE = 256 };

/* The initial hash value of FIPS 180-4, section 5.3.3. */
static const uint8_t INITIAL[STATE / 8] = {
    0x6a, 0x09, 0xe6, 0x67, 0xbb, 0x67, 0xae, 0x85, 0x3c, 0x6e, 0xf3, 0x72, 0xa5, 0x4f, 0xf5, 0x3a,
    0x51, 0x0e, 0x52, 0x7f, 0x9b, 0x05, 0x68, 0x8c, 0x1f, 0x83, 0xd9, 0xab, 0x5b, 0xe0, 0xcd, 0x19};

/* What the garbler sends for a block. */
struct message {
    uint8_t *rows;
    size_t rows_size;
    uint8_t labels[(BLOCK + STATE) * LABEL]; /* those of the state are sent before the first block alone */
    uint8_t decode_bits[STATE];              /* these with the last block alone */
};

struct garbler {
    halfgates_circuit *circuit;
    uint64_t first; /* the number of the next AND gate */
    uint8_t offset[LABEL];
    uint8_t zeros[(BLOCK + STATE) * LABEL]; /* the zero labels of a block, then those of the state */
};

struct evaluator {
    halfgates_circuit *circuit;
    uint64_t first;
    uint8_t state[STATE * LABEL]; /* the active labels of the state */
};

static void stop(const char *what) {
    fprintf(stderr, "sha256_chain: %s\n", what);
    exit(1);
}

static void check(int32_t code) {
    if (code != HALFGATES_OK) {
        fprintf(stderr, "sha256_chain: fault %" PRId32 " %s\n", code, halfgates_fault_name(code).text);
        exit(1);
    }
}

static void *take(size_t size) {
    void *room = malloc(size + 1);
    if (room == NULL)
        stop("no memory");
    return room;
}

static void fill_with_random(uint8_t *bytes, size_t size) {
    FILE *random = fopen("/dev/urandom", "rb");
    if (random == NULL || fread(bytes, 1, size, random) != size)
        stop("no random bytes");
    fclose(random);
}

/* The bits of bytes: byte i is the wires 8i to 8i + 7, the lowest bit first. */
static void write_bits(const uint8_t *bytes, size_t count, uint8_t *bits) {
    for (size_t i = 0; i < 8 * count; i++)
        bits[i] = bytes[i / 8] >> i % 8 & 1;
}

/* The bytes of a file, which the caller frees. */
static uint8_t *read_file(const char *name, size_t *size) {
    FILE *file = fopen(name, "rb");
    uint8_t *data = NULL;
    size_t room = 0, got = 1;
    if (file == NULL)
        stop(strerror(errno));
    for (*size = 0; got > 0; *size += got) {
        if (*size == room) {
            room = 2 * room + 4096;
            data = realloc(data, room);
            if (data == NULL)
                stop("no memory");
        }
        got = fread(data + *size, 1, room - *size, file);
    }
    if (ferror(file))
        stop(strerror(errno));
    fclose(file);
    return data;
}

static halfgates_circuit *read_circuit(const char *name) {
    halfgates_circuit *circuit = NULL;
    halfgates_numbers numbers;
    size_t size;
    uint8_t *text = read_file(name, &size);
    check(halfgates_circuit_read_without_digest(text, size, &circuit));
    free(text);
    check(halfgates_circuit_numbers(circuit, &numbers));
    if (numbers.input_values != 2 || numbers.input_wires != BLOCK + STATE || numbers.output_wires != STATE)
        stop("the circuit isn't the compression of SHA-256");
    return circuit;
}

static uint32_t and_gates(halfgates_circuit *circuit) {
    halfgates_numbers numbers;
    check(halfgates_circuit_numbers(circuit, &numbers));
    return numbers.and_gates;
}

/* The label that stands for a bit. */
static void encode(const uint8_t *zero, const uint8_t *offset, uint8_t bit, uint8_t *label) {
    for (int i = 0; i < LABEL; i++)
        label[i] = zero[i] ^ (bit ? offset[i] : 0);
}

/* Garbles a block. The zero labels of its outputs are those of the next block's state. */
static void garble(struct garbler *it, const uint8_t *block, struct message *message) {
    uint8_t bits[BLOCK + STATE], ones[STATE * LABEL];
    halfgates_garbling *garbling = NULL;
    write_bits(block, BLOCK_BYTES, bits);
    write_bits(INITIAL, sizeof INITIAL, bits + BLOCK);
    fill_with_random(it->zeros, BLOCK * LABEL);
    for (size_t i = 0; i < BLOCK + STATE; i++)
        encode(it->zeros + LABEL * i, it->offset, bits[i], message->labels + LABEL * i);
    check(halfgates_garble_from(it->circuit, it->offset, it->zeros, sizeof it->zeros, it->first, &garbling));
    it->first += and_gates(it->circuit); /* under one offset no AND number is used twice */
    check(halfgates_output_labels(garbling, 0, it->zeros + BLOCK * LABEL, ones, sizeof ones));
    check(halfgates_rows(garbling, message->rows, message->rows_size));
    check(halfgates_decode_bits(garbling, message->decode_bits, sizeof message->decode_bits));
    halfgates_garbling_free(garbling);
}

/* Evaluates a block: from the labels of the state before it those of the state after it. */
static void evaluate(struct evaluator *it, const struct message *message) {
    uint8_t labels[(BLOCK + STATE) * LABEL];
    memcpy(labels, message->labels, BLOCK * LABEL);
    memcpy(labels + BLOCK * LABEL, it->first == 0 ? message->labels + BLOCK * LABEL : it->state, STATE * LABEL);
    check(halfgates_evaluate_labels(it->circuit, message->rows, message->rows_size, it->first, labels, sizeof labels,
                                    it->state, sizeof it->state));
    it->first += and_gates(it->circuit);
}

/* The message as whole blocks (FIPS 180-4, section 5.1.1), which the caller frees. */
static uint8_t *pad(const char *message, size_t *size) {
    const size_t length = strlen(message);
    uint8_t *blocks;
    *size = (length + 9 + BLOCK_BYTES - 1) / BLOCK_BYTES * BLOCK_BYTES;
    blocks = take(*size);
    memset(blocks, 0, *size);
    memcpy(blocks, message, length);
    blocks[length] = 0x80;
    for (int i = 0; i < 8; i++)
        blocks[*size - 1 - i] = (uint8_t)((uint64_t)length * 8 >> 8 * i);
    return blocks;
}

int main(int count, char **words) {
    static struct garbler garbler;
    static struct evaluator evaluator;
    static struct message message;
    uint8_t *blocks, bits[STATE];
    size_t size;
    if (count != 3) {
        fputs("usage: sha256_chain CIRCUIT MESSAGE\n", stderr);
        return 2;
    }
    garbler.circuit = read_circuit(words[1]);
    check(halfgates_circuit_share(garbler.circuit, &evaluator.circuit));
    fill_with_random(garbler.offset, LABEL);
    garbler.offset[0] |= 1;
    fill_with_random(garbler.zeros, sizeof garbler.zeros);
    message.rows_size = ROW_PAIR * (size_t)and_gates(garbler.circuit);
    message.rows = take(message.rows_size);

    blocks = pad(words[2], &size);
    for (size_t at = 0; at < size; at += BLOCK_BYTES) {
        garble(&garbler, blocks + at, &message);
        evaluate(&evaluator, &message);
    }
    check(halfgates_decode(evaluator.state, sizeof evaluator.state, message.decode_bits, STATE, bits, sizeof bits));
    for (size_t i = 0; i < STATE; i += 8) {
        int byte = 0;
        for (int j = 0; j < 8; j++)
            byte |= bits[i + j] << j;
        printf("%02x", byte);
    }
    printf("\n");
    free(blocks);
    free(message.rows);
    halfgates_circuit_free(garbler.circuit);
    halfgates_circuit_free(evaluator.circuit);
    return 0;
}
