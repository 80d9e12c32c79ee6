/* SPDX-License-Identifier: MIT OR Apache-2.0 */
/*
 * halfgates: garbling Boolean circuits, and evaluating garbled circuits, from C.
 *
 * A circuit is read once, from a text in Bristol Fashion. It is garbled under a seed of 32 random bytes, once for each
 * seed. The garbled file goes to the evaluator, with a label file for each input value; the evaluator binds these to a
 * job, and evaluates it:
 *
 *     halfgates_circuit *circuit = NULL;
 *     halfgates_garbling *garbling = NULL;
 *     int32_t code = halfgates_circuit_read(text, length, &circuit);
 *     if (code == HALFGATES_OK)
 *         code = halfgates_garble(circuit, seed, &garbling);
 *     if (code != HALFGATES_OK)
 *         fprintf(stderr, "fault %d %s\n", code, halfgates_fault_name(code).text);
 *     halfgates_garbling_free(garbling);
 *     halfgates_circuit_free(circuit);
 *
 * Circuits that follow one another are garbled under one offset: halfgates_garble_from takes the offset, the zero
 * labels of the input wires, and the number of the first AND gate, and halfgates_evaluate_labels turns active labels
 * of the input wires into active labels of the output wires. See LABELS. A garbler and an evaluator do the same in
 * pieces, so that row pairs are sent while the next ones are made: see STREAMING.
 *
 * CODES. A function that can fail returns a code: 0 is success, and any other is the number of the fault that the
 * program `halfgates` prints, or a code of this library alone. A call that fails changes no handle, and writes
 * nothing but what its description says. A description lists the codes in the order in which they are found: of two
 * faults the code is that of the first. Wrong pointers and handles come before all others, and memory can run out at
 * any point: a code that is named "Memory" says nothing about the faults after it.
 *
 * HANDLES. A handle is a pointer that a function of this library has written. Set it to NULL before: a call that fails
 * leaves it so. A function that writes a handle doesn't free the old one. Each handle is freed once, by the function of
 * its type; freeing NULL does nothing. Garblings, jobs, garblers and evaluators keep what they need of their circuit,
 * so handles are freed in any order.
 *
 * THREADS. No function starts a thread, takes a lock or waits. A call with a const handle only reads it, so any number
 * of them may use one handle at once, on any threads, and none fails because another is running. The others need their
 * handle alone: halfgates_garbler_next, halfgates_evaluator_feed and halfgates_circuit_take_digest change a garbler, an
 * evaluator or a handle of a circuit, so make them when no other call uses it; the circuit itself is only read, and
 * stays shared. Free a handle when no call uses it, and no call comes after. What a call writes, such as a new handle,
 * may be used by another thread once that thread knows that the call has returned.
 *
 * STACK. As measured on x86-64, halfgates_job_bind uses 53 kilobytes of stack, halfgates_garbling_write 41,
 * halfgates_audit 41, halfgates_write_many 37, halfgates_circuit_read 22, halfgates_circuit_order 22,
 * halfgates_circuit_from_gates 22, halfgates_circuit_take_digest 22, halfgates_evaluator_feed 12,
 * halfgates_evaluate_labels 12, halfgates_garbler_next 11, halfgates_circuit_text 9, and every other call less than 5.
 *
 * BUFFERS. The library reads and writes buffers within a call and keeps no pointer to them. Buffers of bytes need no
 * alignment. A buffer that is written overlaps no other argument, and has at least the room that is needed, else the
 * code is HALFGATES_SMALL_BUFFER and nothing is written to it; what it has behind that stays. A buffer that is read has
 * exactly the size that the description names, else the code is HALFGATES_WRONG_SIZE. Where a size or a count is 0, the
 * pointers that it is for may be NULL. A NULL elsewhere is HALFGATES_NULL_POINTER.
 *
 * BITS are bytes 0 and 1, one for each wire, in wire order: those of input value 0, then those of value 1, and so on.
 * Another byte is HALFGATES_BAD_DIGIT, and a wrong number of them HALFGATES_WRONG_LENGTH.
 *
 * MEMORY comes from malloc and free. If it runs out, the code is one of those that are named "Memory":
 * nothing is leaked, and the call may be made again. Call no function from a signal handler, nor in a child forked from
 * a process with several threads.
 *
 * LABELS are 16 bytes. Each wire of a garbling has two: the zero label, which stands for the bit 0, and the zero label
 * xor the offset, which stands for 1. The colour of a label is bit 0 of its first byte, and the offset's colour is 1,
 * so a wire's labels have different colours. AND gates are numbered in file order, from a number `first` on: 0 under a
 * seed. Under one offset use no AND number twice: the next circuit's `first` is at least this one's `first` plus its
 * number of AND gates. Two AND gates of one number that read the same wire first reveal the offset: their generator
 * rows differ by it or by nothing. If a garbler is freed before its end, all its numbers count as used, from `first` to
 * `first` plus its number of AND gates. Garbled files are those of `first` 0. In version 2 their entries use the
 * numbers behind the AND gates, so leave (output wires + 1) / 2 more numbers free where such a file is sent. The
 * library can't check any of this.
 *
 * STREAMING. halfgates_garbler_begin or halfgates_garbler_begin_from makes a garbler, and halfgates_garbler_next
 * produces its row pairs in file order, in pieces of any size; halfgates_evaluator_feed takes them as they come.
 * Together the pieces are the row pairs of halfgates_garble or halfgates_garble_from, and the evaluator's output labels
 * are those of halfgates_evaluate_labels. Neither keeps row pairs, and both allocate only when they begin. Send the
 * labels of input wires, such as by an oblivious transfer, before the row pairs or beside them, and decode bits last:
 *
 *     garbler: begin, offset and input labels, next .. next, output labels, decode bits, free
 *     evaluator: begin with active labels, feed .. feed, output labels, free
 *
 * DIGESTS. Only the garbled files name their circuit, by its digest. A circuit that is read or made without its digest
 * does all the rest, and reading takes less time. What needs a digest returns HALFGATES_NO_DIGEST for a circuit, or a
 * garbling of a circuit, that has none: halfgates_circuit_digest, halfgates_garbling_write, halfgates_write_many,
 * halfgates_job_bind and halfgates_audit. halfgates_circuit_take_digest computes it later. A garbling has the digest
 * that its circuit had when it was garbled.
 *
 * SECRETS. Whoever has a seed, an offset, a garbling or a garbler knows all labels. No branch and no address depends on
 * seeds, offsets, labels or bits, beyond what codes and outputs say, and memory is wiped before it is freed. This is
 * tested, for x86-64, and not proved; the audits are left out. The stack and your buffers aren't wiped. SECURITY.md
 * says more.
 */
#ifndef HALFGATES_H
#define HALFGATES_H

#include <stddef.h>
#include <stdint.h>

/* The version of this header. That of the library is halfgates_version(). */
#define HALFGATES_VERSION_MAJOR 0
#define HALFGATES_VERSION_MINOR 9
#define HALFGATES_VERSION_PATCH 9

#ifdef __cplusplus
extern "C" {
#endif

/* ------------------------------------------------------------------------------------------------------- codes -- */

enum {
    HALFGATES_OK = 0,

    /* Reading a circuit. The text is read from left to right, and its first fault is returned. */
    HALFGATES_CIRCUIT_TRUNCATED = 1,    /* the text ends before the circuit does */
    HALFGATES_BAD_NUMBER = 2,           /* a token that should be a number isn't, or is above 4,294,967,295 */
    HALFGATES_TOO_LARGE = 3,            /* more than 16,777,216 gates, 33,554,432 wires or 256 input or output values */
    HALFGATES_BAD_SHAPE = 4,            /* a gate's counts are not those of its operation */
    HALFGATES_UNKNOWN_OPERATION = 5,    /* an operation other than XOR, AND, INV, EQ and EQW */
    HALFGATES_BAD_CONSTANT = 6,         /* the constant of EQ is neither 0 nor 1 */
    HALFGATES_NO_SUCH_WIRE = 7,         /* a wire's number is not below the number of wires */
    HALFGATES_UNSET = 8,                /* a gate reads a wire that is no input and that no earlier gate sets */
    HALFGATES_SET_TWICE = 9,            /* a gate sets an input wire, or one that an earlier gate sets */
    HALFGATES_OUTPUT_UNSET = 10,        /* an output wire is no input, and no gate sets it */
    HALFGATES_TRAILING_TOKENS = 11,     /* tokens follow the last gate */
    HALFGATES_WIDTHS_EXCEED_WIRES = 12, /* the widths of a side add up to more than the wires */
    HALFGATES_CIRCUIT_MEMORY = 13,      /* memory ran out for a circuit, for bits, or evaluating in the clear */

    /* Bits. */
    HALFGATES_BAD_DIGIT = 15,    /* a byte of bits is neither 0 nor 1 */
    HALFGATES_WRONG_LENGTH = 16, /* the number of bits isn't the number of wires */

    HALFGATES_GARBLING_MEMORY = 23, /* memory ran out while garbling */

    /* Reading a garbled file or a label file. */
    HALFGATES_BAD_MAGIC = 30,       /* the file doesn't begin with the magic of its kind */
    HALFGATES_FILE_TRUNCATED = 31,  /* the file ends too early */
    HALFGATES_TRAILING = 32,        /* bytes follow the end */
    HALFGATES_COUNT_TOO_LARGE = 33, /* a count is above its limit */
    HALFGATES_SPARE_BITS = 34,      /* a bit of the last decode byte that stands for no output is set */
    HALFGATES_BAD_TRAILER = 35,     /* the trailer isn't the SHA-256 of the bytes before it */
    HALFGATES_FILE_MEMORY = 36,     /* memory ran out while reading a file */

    /* Binding files to a job, and evaluating it. */
    HALFGATES_OTHER_CIRCUIT = 40, /* the garbled file has another circuit's digest */
    HALFGATES_OTHER_COUNTS = 41,  /* it doesn't have one row pair for each AND gate, or one decode bit per output */
    HALFGATES_NO_SUCH_VALUE = 42, /* the circuit has no input value of this index */
    HALFGATES_WRONG_WIDTH = 43,   /* a label file has another number of labels than the value has wires */
    HALFGATES_DOUBLE_VALUE = 44,  /* two label files are for one value */
    HALFGATES_MISSING_VALUE = 45, /* a value has no label file */
    HALFGATES_JOB_MEMORY = 46,    /* memory ran out while binding or evaluating */
    HALFGATES_UNKNOWN_OUTPUT_LABEL = 48, /* an output's label isn't one that the garbled file recognises (version 2) */

    /* Codes of this library only. */
    HALFGATES_BAD_ARGUMENT = 60, /* no such version, wire, output or AND gate, an offset of colour 0, an AND number that
                                    is too large, a file of a garbling whose `first` isn't 0 */
    HALFGATES_SMALL_BUFFER = 61, /* a buffer has too little room */
    HALFGATES_MEMORY = 62,       /* memory ran out for a handle, a file or a list */
    HALFGATES_WRONG_LABEL = 63,  /* a label is neither of the two labels of its wire: a code of halfgates_open, and a
                                    verdict of halfgates_audit_labels */
    HALFGATES_NULL_POINTER = 64, /* a NULL for a handle, a buffer with a size or a place to write to */
    HALFGATES_WRONG_HANDLE = 65, /* a handle of another type, such as a garbling in place of a circuit */
    HALFGATES_WRONG_SIZE = 66,   /* a buffer that is read has a wrong size */
    HALFGATES_UNFINISHED = 67,   /* row pairs are left: a garbler hasn't made all of them, or an evaluator hasn't taken
                                    all of them */
    HALFGATES_NO_DIGEST = 68     /* the circuit has no digest, which this call needs */
};

/* A name or a version, ended by a zero byte. */
typedef struct halfgates_name {
    char text[32];
} halfgates_name;

/*
 * The name of a code, as the program prints it, such as "BadTrailer"; "Ok" for 0, and "Unknown" for a number that is
 * none of the codes above. Use it as halfgates_fault_name(code).text, and before C11 through a variable.
 */
halfgates_name halfgates_fault_name(int32_t code);

/* Whether a code says that memory ran out: 1 for 13, 23, 36, 46 and 62, and else 0. */
int32_t halfgates_is_memory(int32_t code);

/* The version of the library, such as "0.9.9". */
halfgates_name halfgates_version(void);

/* ---------------------------------------------------------------------------------------------------- circuits -- */

/* A circuit, with its digest or without. */
typedef struct halfgates_circuit halfgates_circuit;

/*
 * Reads a circuit from its Bristol Fashion text, `length` bytes, and computes its digest. A zero byte doesn't end the
 * text. Codes: 1 to 13, the first fault of the text; HALFGATES_MEMORY.
 */
int32_t halfgates_circuit_read(const uint8_t *text, size_t length, halfgates_circuit **circuit);

/*
 * Reads a circuit as halfgates_circuit_read does, without computing its digest, which takes longer than reading. The
 * codes are the same. See DIGESTS.
 */
int32_t halfgates_circuit_read_without_digest(const uint8_t *text, size_t length, halfgates_circuit **circuit);

/*
 * Computes the digest of a circuit, where it has none. It allocates nothing. This call needs the handle alone: other
 * handles of the circuit, and the garblings made before, stay without.
 */
int32_t halfgates_circuit_take_digest(halfgates_circuit *circuit);

/*
 * Writes one more handle of the same circuit, without a copy: for a thread that frees its own. It has a digest exactly
 * where the given one has. Each handle is freed by halfgates_circuit_free; the circuit is freed with the last. Code:
 * HALFGATES_MEMORY.
 */
int32_t halfgates_circuit_share(const halfgates_circuit *circuit, halfgates_circuit **other);

/*
 * Writes a handle of the circuit with its gates in order of AND depth: the gates that set wires of one AND depth follow
 * one another, its AND gates first, each kind in file order. It has the same gates and computes the same. One
 * evaluation of it can take half the time, and one garbling 0.7 to 0.8 of the time; halfgates_garble_many and
 * halfgates_evaluate_many gain nothing. Its digest and the numbers of its AND gates are others, so both parties need
 * it: the evaluator orders too, or reads the text that halfgates_circuit_text writes. It has a digest exactly where the
 * given circuit has. Code: HALFGATES_MEMORY.
 */
int32_t halfgates_circuit_order(const halfgates_circuit *circuit, halfgates_circuit **ordered);

/* Frees a circuit. Its garblings, its jobs and its other handles stay as they are. */
void halfgates_circuit_free(halfgates_circuit *circuit);

/* The numbers of a circuit. */
typedef struct halfgates_numbers {
    uint32_t gates;         /* how many gates */
    uint32_t and_gates;     /* how many of them are AND gates, so how many row pairs a garbling has */
    uint32_t wires;         /* how many wires: they are numbered from 0 */
    uint32_t input_wires;   /* how many input wires, which are the first ones */
    uint32_t output_wires;  /* how many output wires, which are the last ones */
    uint32_t input_values;  /* how many input values, at most 256 */
    uint32_t output_values; /* how many output values, at most 256 */
} halfgates_numbers;

/* Writes the numbers of a circuit. */
int32_t halfgates_circuit_numbers(const halfgates_circuit *circuit, halfgates_numbers *numbers);

/*
 * Writes the number of wires of each input value, or of each output value, in order. `count`, the room in `widths`, is
 * at least `input_values` or `output_values`. Code: HALFGATES_SMALL_BUFFER.
 */
int32_t halfgates_circuit_input_widths(const halfgates_circuit *circuit, uint32_t *widths, size_t count);
int32_t halfgates_circuit_output_widths(const halfgates_circuit *circuit, uint32_t *widths, size_t count);

/*
 * Writes the digest of a circuit, the SHA-256 of its canonical text, 32 bytes. It was computed when the text was read,
 * or by halfgates_circuit_take_digest. Code: HALFGATES_NO_DIGEST.
 */
int32_t halfgates_circuit_digest(const halfgates_circuit *circuit, uint8_t digest[32]);

/*
 * Writes the canonical text of a circuit to `buffer`, and the number of its bytes to `written`. No zero byte follows
 * it. Codes: HALFGATES_MEMORY; HALFGATES_SMALL_BUFFER, where `written` is the size that is needed. The text is made in
 * memory first, so a call with size 0 takes as long.
 */
int32_t halfgates_circuit_text(const halfgates_circuit *circuit, uint8_t *buffer, size_t size, size_t *written);

/* No gate, no wire or no output. */
#define HALFGATES_NONE UINT32_MAX

/* Where the first fault of a text is. */
typedef struct halfgates_place {
    int32_t fault;   /* the fault, 1 to 12, or 0 where the text is a circuit; then the rest is 0 or HALFGATES_NONE */
    uint32_t gate;   /* the gate, counted from 0, or HALFGATES_NONE where no gate is being read */
    uint32_t wire;   /* the wire of the faults 7 to 10, else HALFGATES_NONE. For 7, HALFGATES_NO_SUCH_WIRE, it is the
                        number as it is in the text, which can be 4,294,967,295, as HALFGATES_NONE is */
    uint64_t line;   /* the line, counted from 1: byte 10 ends a line */
    uint64_t column; /* the column, counted from 1 in bytes */
} halfgates_place;

/*
 * Where the first fault of a text is, which halfgates_circuit_read gives: the token at fault, or the end of the text.
 * Code: HALFGATES_CIRCUIT_MEMORY. For a text with a fault too the code is HALFGATES_OK.
 */
int32_t halfgates_locate(const uint8_t *text, size_t length, halfgates_place *place);

/* A sentence, ended by a zero byte. The bytes after it are zeros too. */
typedef struct halfgates_sentence {
    char text[256];
} halfgates_sentence;

/*
 * Explains the first fault of a text, which halfgates_circuit_read gives: the sentence that the program prints after
 * the place with --explain, such as "gate 3, wire 9: the gate reads a wire that is no input and that no earlier gate
 * sets". It names the gate and the wire that halfgates_locate gives. Where the text looks like another format, it ends
 * with a hint. For a text that is a circuit it is "". Code: HALFGATES_CIRCUIT_MEMORY. For a text with a fault too the
 * code is HALFGATES_OK.
 */
int32_t halfgates_explain(const uint8_t *text, size_t length, halfgates_sentence *sentence);

/* The operations of halfgates_gate. */
enum {
    HALFGATES_XOR = 0, /* the exclusive or of two wires */
    HALFGATES_AND = 1, /* the conjunction of two wires */
    HALFGATES_INV = 2, /* the negation of a wire */
    HALFGATES_EQ = 3,  /* a constant */
    HALFGATES_EQW = 4  /* a copy of a wire */
};

/* A gate. */
typedef struct halfgates_gate {
    uint32_t operation; /* one of the operations above */
    uint32_t first;     /* the wire that it reads first, and for HALFGATES_EQ the constant, 0 or 1 */
    uint32_t second;    /* the wire that HALFGATES_XOR and HALFGATES_AND read second; the others ignore it */
    uint32_t set;       /* the wire that it sets */
} halfgates_gate;

/*
 * Makes a circuit of `count` gates in this order, of `wires` wires, and of values of these widths: what
 * halfgates_circuit_read makes of the canonical text of these. Where each wire is an input wire or set by a gate,
 * `wires` is the sum of the input widths plus `count`. Codes: those of reading that text, 2, 3, 5 to 10, 12 and 13, of
 * which 2 is for a count above 4,294,967,295; HALFGATES_MEMORY. `place` may be NULL. For a code from 2 to 12 it gets
 * the fault, the gate and the wire, with line and column 0.
 */
int32_t halfgates_circuit_from_gates(const halfgates_gate *gates, size_t count, uint32_t wires,
                                     const uint32_t *input_widths, size_t input_values,
                                     const uint32_t *output_widths, size_t output_values,
                                     halfgates_circuit **circuit, halfgates_place *place);

/* Makes a circuit as halfgates_circuit_from_gates does, without computing its digest. The codes are the same. */
int32_t halfgates_circuit_from_gates_without_digest(const halfgates_gate *gates, size_t count, uint32_t wires,
                                                    const uint32_t *input_widths, size_t input_values,
                                                    const uint32_t *output_widths, size_t output_values,
                                                    halfgates_circuit **circuit, halfgates_place *place);

/*
 * Evaluates a circuit in the clear. `bits` are those of all input wires, `size` bytes; `outputs` takes the bits of all
 * output wires. Codes: HALFGATES_SMALL_BUFFER, HALFGATES_WRONG_LENGTH, HALFGATES_BAD_DIGIT, HALFGATES_CIRCUIT_MEMORY.
 */
int32_t halfgates_plain(const halfgates_circuit *circuit, const uint8_t *bits, size_t size, uint8_t *outputs,
                        size_t outputs_size);

/* --------------------------------------------------------------------------------------------------- garblings -- */

/* A garbling of a circuit: an offset, a zero label for each wire, and a row pair for each AND gate. */
typedef struct halfgates_garbling halfgates_garbling;

/*
 * Garbles a circuit under a seed of 32 bytes, on the calling thread. Take 32 random bytes for each garbling that is
 * sent to somebody. Codes: HALFGATES_GARBLING_MEMORY, HALFGATES_MEMORY.
 */
int32_t halfgates_garble(const halfgates_circuit *circuit, const uint8_t seed[32], halfgates_garbling **garbling);

/*
 * Garbles a circuit under `count` seeds, 32 bytes each and one after another, on the calling thread, and writes `count`
 * garblings to `garblings`. Each is the garbling that halfgates_garble makes under its seed. On a processor with
 * x86-64-v3 two at a time are made side by side, which takes less time. The codes are the same. A call that fails makes
 * no garbling.
 */
int32_t halfgates_garble_many(const halfgates_circuit *circuit, const uint8_t *seeds, size_t count,
                              halfgates_garbling **garblings);

/*
 * Garbles a circuit from an offset of colour 1, 16 bytes, the zero labels of all input wires, one after another, `size`
 * bytes, which is 16 * input_wires, and the number `first` of its first AND gate; `first` plus the number of AND gates
 * is at most 2^62. Codes: HALFGATES_WRONG_SIZE, HALFGATES_BAD_ARGUMENT where the offset or `first` isn't so,
 * HALFGATES_GARBLING_MEMORY, HALFGATES_MEMORY. Take 16 random bytes for an offset and set bit 0 of the first; zero
 * labels are random too, or the zero labels of output wires of circuits garbled under this offset. See LABELS on
 * `first`.
 */
int32_t halfgates_garble_from(const halfgates_circuit *circuit, const uint8_t offset[16], const uint8_t *zero_labels,
                              size_t size, uint64_t first, halfgates_garbling **garbling);

/* Frees a garbling. */
void halfgates_garbling_free(halfgates_garbling *garbling);

/*
 * How many bytes the garbled file of a version has, 1 or 2, whatever the seed; 0 for a bad argument. In version 2 the
 * evaluator recognises the labels of the outputs, and refuses others.
 */
uint64_t halfgates_garbled_size(const halfgates_circuit *circuit, uint32_t version);

/*
 * Writes the garbled file of a garbling in a version, 1 or 2, to `buffer`, and the number of its bytes to `written`.
 * Codes: HALFGATES_BAD_ARGUMENT for another version, or for a garbling whose `first` isn't 0; HALFGATES_NO_DIGEST;
 * HALFGATES_SMALL_BUFFER, where `written` is the size that is needed, so that a call with size 0 is a quick way to ask
 * for it; HALFGATES_MEMORY.
 */
int32_t halfgates_garbling_write(const halfgates_garbling *garbling, uint32_t version, uint8_t *buffer, size_t size,
                                 size_t *written);

/*
 * Writes the garbled files of `count` garblings in a version, 1 or 2, to `files`, one after another in the order of the
 * list: those that halfgates_garbling_write writes for each, of the sizes that halfgates_garbled_size returns for their
 * circuits. The garblings may be of any circuits. Up to eight files that follow one another are digested side by side,
 * which takes less time. `size` is at least the sum of their sizes. The files are made in memory first. Codes:
 * HALFGATES_BAD_ARGUMENT for another version, or where the `first` of a garbling isn't 0; HALFGATES_NO_DIGEST where a
 * garbling has none; HALFGATES_SMALL_BUFFER; HALFGATES_MEMORY. Garblings are only read, as in the calls that take a
 * const garbling: the list has no const before them so that a `halfgates_garbling **` is one.
 */
int32_t halfgates_write_many(halfgates_garbling *const *garblings, size_t count, uint32_t version, uint8_t *files,
                             size_t size);

/*
 * Writes the label file of the input value `index`, counted from 0, which stands for `count` bits under a seed of 32
 * bytes, to `buffer`, and the number of its bytes, 16 + 16 * count, to `written`. It needs no garbling. Codes:
 * HALFGATES_NO_SUCH_VALUE, HALFGATES_WRONG_LENGTH, HALFGATES_BAD_DIGIT, HALFGATES_SMALL_BUFFER as above,
 * HALFGATES_CIRCUIT_MEMORY, HALFGATES_MEMORY. Deal each value once for a seed: two label files of one value for
 * different bits give away the offset, and so both labels of every wire of which one is known.
 */
int32_t halfgates_deal(const halfgates_circuit *circuit, const uint8_t seed[32], uint32_t index, const uint8_t *bits,
                       size_t count, uint8_t *buffer, size_t size, size_t *written);

/*
 * Writes the label file of an input value, as halfgates_deal does, from a garbling: so its labels are those of the
 * rows, whatever the garbling was made from. The codes are the same.
 */
int32_t halfgates_garbling_deal(const halfgates_garbling *garbling, uint32_t index, const uint8_t *bits, size_t count,
                                uint8_t *buffer, size_t size, size_t *written);

/*
 * Writes the label file of the input value `index` with labels that were received, such as by an oblivious transfer:
 * `labels_size` bytes, 16 for each wire of the value. Codes: HALFGATES_NO_SUCH_VALUE, HALFGATES_WRONG_SIZE,
 * HALFGATES_SMALL_BUFFER with the size that is needed in `written`, HALFGATES_MEMORY.
 */
int32_t halfgates_label_file(const halfgates_circuit *circuit, uint32_t index, const uint8_t *labels,
                             size_t labels_size, uint8_t *buffer, size_t size, size_t *written);

/* Writes the offset of a garbling, 16 bytes. Whoever has it knows both labels of every wire of which one is known. */
int32_t halfgates_offset(const halfgates_garbling *garbling, uint8_t offset[16]);

/*
 * Writes both labels of each wire of the input value `index`, or of the output value, 16 bytes for each wire: the zero
 * labels to `zero`, and the labels that stand for 1 to `one`. `size` is the room in each of the two. Codes:
 * HALFGATES_NO_SUCH_VALUE, HALFGATES_SMALL_BUFFER. An oblivious transfer offers these pairs; the zero labels of an
 * output value can be zero labels of input wires of the next circuit.
 */
int32_t halfgates_input_labels(const halfgates_garbling *garbling, uint32_t index, uint8_t *zero, uint8_t *one,
                               size_t size);
int32_t halfgates_output_labels(const halfgates_garbling *garbling, uint32_t index, uint8_t *zero, uint8_t *one,
                                size_t size);

/*
 * Writes the row pairs of a garbling, 32 bytes for each AND gate in file order: the generator's row, and then the
 * evaluator's. Code: HALFGATES_SMALL_BUFFER.
 */
int32_t halfgates_rows(const halfgates_garbling *garbling, uint8_t *rows, size_t size);

/*
 * Writes the row pairs of `count` AND gates from AND gate `from` on, counted from 0 in file order, 32 bytes each.
 * Codes: HALFGATES_BAD_ARGUMENT where `from` + `count` is more than the number of AND gates, HALFGATES_SMALL_BUFFER.
 */
int32_t halfgates_rows_range(const halfgates_garbling *garbling, uint32_t from, uint32_t count, uint8_t *rows,
                             size_t size);

/* Writes the decode bits of a garbling, a byte 0 or 1 for each output wire in order. Code: HALFGATES_SMALL_BUFFER. */
int32_t halfgates_decode_bits(const halfgates_garbling *garbling, uint8_t *bits, size_t size);

/*
 * Opens labels of the output value `index` that an evaluator returned, `labels_size` bytes, 16 for each wire: writes
 * the bit that each stands for, 0 or 1. Unlike halfgates_decode it takes only labels of this garbling. Codes:
 * HALFGATES_NO_SUCH_VALUE, HALFGATES_WRONG_SIZE, HALFGATES_SMALL_BUFFER, HALFGATES_WRONG_LABEL where a label is neither
 * of the two labels of its wire; then no bit is written.
 */
int32_t halfgates_open(const halfgates_garbling *garbling, uint32_t index, const uint8_t *labels, size_t labels_size,
                       uint8_t *bits, size_t size);

/*
 * Writes the zero label of a wire, 16 bytes: 16 zero bytes for a wire that no gate sets and that is no input wire.
 * Code: HALFGATES_BAD_ARGUMENT where there is no such wire.
 */
int32_t halfgates_zero_label(const halfgates_garbling *garbling, uint32_t wire, uint8_t label[16]);

/*
 * Writes the decode bit of an output wire, counted from 0 among the output wires: 0 or 1. Code: HALFGATES_BAD_ARGUMENT
 * where there is no such output wire.
 */
int32_t halfgates_decode_bit(const halfgates_garbling *garbling, uint32_t output, uint8_t *bit);

/* The labels of a wire. */
typedef struct halfgates_wire_labels {
    uint8_t zero[16];   /* the zero label */
    uint8_t active[16]; /* the active label for the given bits: the zero label, plus the offset where the bit is 1 */
    uint8_t bit;        /* the bit, 0 or 1 */
} halfgates_wire_labels;

/*
 * Writes the labels of the wires from `from` on, `count` of them, for the bits of all input wires, `size` bytes. Codes:
 * HALFGATES_BAD_ARGUMENT where there is no such wire, HALFGATES_WRONG_LENGTH, HALFGATES_BAD_DIGIT,
 * HALFGATES_CIRCUIT_MEMORY. A wire that no gate sets and that is no input wire has the bit 0 and 16 zero bytes for both
 * labels. Where a bit is 1 both labels of the wire are here, and so the offset: never give them to an evaluator.
 */
int32_t halfgates_labels(const halfgates_garbling *garbling, const uint8_t *bits, size_t size, uint32_t from,
                         halfgates_wire_labels *labels, size_t count);

/* -------------------------------------------------------------------------------------------------------- jobs -- */

/* What an evaluator has: a circuit, a garbled file of it, and a label for each input wire. */
typedef struct halfgates_job halfgates_job;

/*
 * Binds a garbled file, `length` bytes, and label files to a job. `labels` are `count` label files, in any order and
 * one after another, `labels_size` bytes in all, and `lengths` the number of bytes of each. Nothing of the files is
 * trusted. Codes: HALFGATES_NO_DIGEST; 30 to 36, the first fault of the garbled file; HALFGATES_WRONG_SIZE where the
 * lengths don't add up to `labels_size`; 30 to 36, the first fault of each label file in turn; 40 to 46, the first
 * fault of the binding; HALFGATES_MEMORY.
 */
int32_t halfgates_job_bind(const halfgates_circuit *circuit, const uint8_t *garbled, size_t length,
                           const uint8_t *labels, size_t labels_size, const size_t *lengths, size_t count,
                           halfgates_job **job);

/* Frees a job. */
void halfgates_job_free(halfgates_job *job);

/*
 * Evaluates a job on the calling thread, and writes the bits of all output wires. A job may be evaluated again. Codes:
 * HALFGATES_SMALL_BUFFER, HALFGATES_JOB_MEMORY, HALFGATES_UNKNOWN_OUTPUT_LABEL.
 */
int32_t halfgates_evaluate(const halfgates_job *job, uint8_t *bits, size_t size);

/*
 * Evaluates `count` jobs on the calling thread, and writes the bits of all output wires, one job's after another's in
 * the order of the list: those that halfgates_evaluate writes for each. The jobs may be of any circuits. Where several
 * that follow one another have equal circuits, up to four are evaluated side by side, which takes less time. `size` is
 * at least the sum of their numbers of output wires. Codes: HALFGATES_SMALL_BUFFER; HALFGATES_JOB_MEMORY and
 * HALFGATES_UNKNOWN_OUTPUT_LABEL, the first fault of each job in turn; HALFGATES_MEMORY. Jobs are only read, as in the
 * calls that take a const job: the list has no const before them so that a `halfgates_job **` is one.
 */
int32_t halfgates_evaluate_many(halfgates_job *const *jobs, size_t count, uint8_t *bits, size_t size);

/*
 * Evaluates `count` jobs as halfgates_evaluate_many does, where a job that fails leaves the others as they are: `codes`
 * takes `count` codes, each the one that halfgates_evaluate returns for its job, HALFGATES_OK, HALFGATES_JOB_MEMORY or
 * HALFGATES_UNKNOWN_OUTPUT_LABEL, and the bits of a job are written where its code is HALFGATES_OK. The call itself
 * returns HALFGATES_SMALL_BUFFER, HALFGATES_MEMORY, or the code of a wrong handle; then nothing is written.
 */
int32_t halfgates_evaluate_each(halfgates_job *const *jobs, size_t count, uint8_t *bits, size_t size, int32_t *codes);

/*
 * Evaluates a job on the calling thread, and writes the active labels of all output wires, 16 bytes each. They are not
 * decoded: in version 2 too, labels that the garbled file doesn't recognise are written. Codes: HALFGATES_SMALL_BUFFER,
 * HALFGATES_JOB_MEMORY.
 */
int32_t halfgates_job_output_labels(const halfgates_job *job, uint8_t *outputs, size_t size);

/* ----------------------------------------------------------------------------------------- from labels to labels -- */

/*
 * Evaluates a garbled circuit on the calling thread: from its rows, 32 bytes for each AND gate, the number `first` of
 * its first AND gate, and the active labels of all input wires, 16 bytes each, to the active labels of all output
 * wires, 16 bytes each. Nothing of the rows and the labels is trusted: any of them give some labels. Codes:
 * HALFGATES_WRONG_SIZE, HALFGATES_BAD_ARGUMENT where `first` is too large, HALFGATES_SMALL_BUFFER,
 * HALFGATES_JOB_MEMORY.
 */
int32_t halfgates_evaluate_labels(const halfgates_circuit *circuit, const uint8_t *rows, size_t rows_size,
                                  uint64_t first, const uint8_t *labels, size_t labels_size, uint8_t *outputs,
                                  size_t outputs_size);

/*
 * Writes the bits that `count` active labels of output wires stand for: each is the decode bit of its wire, 0 or 1, xor
 * the colour of the label. `labels_size` is 16 * `count`. Any label decodes: that it is one of its wire's two isn't
 * checked. Codes: HALFGATES_WRONG_SIZE, HALFGATES_SMALL_BUFFER, HALFGATES_BAD_DIGIT, HALFGATES_CIRCUIT_MEMORY,
 * HALFGATES_JOB_MEMORY.
 */
int32_t halfgates_decode(const uint8_t *labels, size_t labels_size, const uint8_t *decode_bits, size_t count,
                         uint8_t *bits, size_t size);

/* --------------------------------------------------------------------------------------------------- streaming -- */

/* A garbling in progress. It produces its row pairs in pieces, in file order, and keeps none of them. */
typedef struct halfgates_garbler halfgates_garbler;

/*
 * Begins to garble a circuit under a seed of 32 bytes, as halfgates_garble does. It allocates all that later calls
 * need. Codes: HALFGATES_GARBLING_MEMORY, HALFGATES_MEMORY.
 */
int32_t halfgates_garbler_begin(const halfgates_circuit *circuit, const uint8_t seed[32], halfgates_garbler **garbler);

/*
 * Begins to garble a circuit from an offset, zero labels and a first AND number, as halfgates_garble_from does. Codes:
 * HALFGATES_WRONG_SIZE, HALFGATES_BAD_ARGUMENT, HALFGATES_GARBLING_MEMORY, HALFGATES_MEMORY. See LABELS on `first`.
 */
int32_t halfgates_garbler_begin_from(const halfgates_circuit *circuit, const uint8_t offset[16],
                                     const uint8_t *zero_labels, size_t size, uint64_t first,
                                     halfgates_garbler **garbler);

/* Frees a garbler, at any time: before its end this abandons the garbling. */
void halfgates_garbler_free(halfgates_garbler *garbler);

/* Writes the offset of a garbler, 16 bytes, from the beginning on. */
int32_t halfgates_garbler_offset(const halfgates_garbler *garbler, uint8_t offset[16]);

/*
 * Writes both labels of each wire of the input value `index`, from the beginning on: as halfgates_input_labels does, so
 * that a transfer runs before the row pairs or beside them. Codes: HALFGATES_NO_SUCH_VALUE, HALFGATES_SMALL_BUFFER.
 */
int32_t halfgates_garbler_input_labels(const halfgates_garbler *garbler, uint32_t index, uint8_t *zero, uint8_t *one,
                                       size_t size);

/*
 * Garbles the next AND gates in file order: writes as many whole row pairs, 32 bytes each, as `size` bytes have room
 * for, and the number of bytes to `written`. It writes 0 there once all row pairs are written. What `rows` has behind
 * them stays. It allocates nothing. Code: HALFGATES_SMALL_BUFFER where `size` is less than 32 and row pairs are left;
 * then nothing changes. This call needs the garbler alone.
 */
int32_t halfgates_garbler_next(halfgates_garbler *garbler, uint8_t *rows, size_t size, size_t *written);

/*
 * Writes both labels of each wire of the output value `index`, once all row pairs are written: as
 * halfgates_output_labels does. A garbler of a circuit without AND gates has them from the beginning on. Codes:
 * HALFGATES_UNFINISHED where row pairs are left, HALFGATES_NO_SUCH_VALUE, HALFGATES_SMALL_BUFFER.
 */
int32_t halfgates_garbler_output_labels(const halfgates_garbler *garbler, uint32_t index, uint8_t *zero, uint8_t *one,
                                        size_t size);

/*
 * Writes the decode bits, a byte 0 or 1 for each output wire in order, once all row pairs are written. They are apart
 * from the labels, so that they can be held back. Codes: HALFGATES_UNFINISHED as above, HALFGATES_SMALL_BUFFER.
 */
int32_t halfgates_garbler_decode_bits(const halfgates_garbler *garbler, uint8_t *bits, size_t size);

/* An evaluation in progress. It takes row pairs in pieces, and keeps none of them. */
typedef struct halfgates_evaluator halfgates_evaluator;

/*
 * Begins to evaluate a circuit with the active labels of all input wires, `size` bytes, which is 16 * input_wires, and
 * the number `first` of its first AND gate. It allocates all that later calls need. Nothing of the labels is
 * trusted. Codes: HALFGATES_WRONG_SIZE, HALFGATES_BAD_ARGUMENT where `first` is too large, HALFGATES_JOB_MEMORY,
 * HALFGATES_MEMORY.
 */
int32_t halfgates_evaluator_begin(const halfgates_circuit *circuit, uint64_t first, const uint8_t *labels, size_t size,
                                  halfgates_evaluator **evaluator);

/* Frees an evaluator, at any time. */
void halfgates_evaluator_free(halfgates_evaluator *evaluator);

/*
 * Evaluates the next AND gates in file order with the whole row pairs that `size` bytes have, 32 bytes each, and writes
 * the number of their bytes to `taken`: a part of a row pair at the end is left for the next call. Nothing of the row
 * pairs is trusted. It allocates nothing. Code: HALFGATES_WRONG_SIZE where there are more whole row pairs than are
 * left; then nothing changes. This call needs the evaluator alone.
 */
int32_t halfgates_evaluator_feed(halfgates_evaluator *evaluator, const uint8_t *rows, size_t size, size_t *taken);

/*
 * Writes the active labels of all output wires, 16 bytes each, once all row pairs are taken: from the beginning on for
 * a circuit without AND gates. Codes: HALFGATES_UNFINISHED where row pairs are left, HALFGATES_SMALL_BUFFER.
 */
int32_t halfgates_evaluator_output_labels(const halfgates_evaluator *evaluator, uint8_t *labels, size_t size);

/* ------------------------------------------------------------------------------------------------------- audit -- */

/* What an audit finds in a garbled file: of each part the first difference from the garbling. */
typedef struct halfgates_audit_report {
    uint8_t honest;  /* 1 where nothing differs: it is the file of its version that halfgates_garbling_write writes */
    uint8_t version; /* the version of the file, 1 or 2 */
    uint8_t digest;  /* 1 where the digest is the circuit's */
    uint8_t counts;  /* 1 where it has a row pair for each AND gate and a decode bit for each output wire; else each
                        field below is HALFGATES_NONE, or 0 where it has 8 bits */
    uint8_t generator;    /* 1 where the generator's row of that pair differs */
    uint8_t evaluator;    /* 1 where the evaluator's row of that pair differs */
    uint8_t entry_colour; /* the colour, 0 or 1, of the first entry that differs */
    uint32_t row;         /* the number, among AND gates, of the first whose row pair differs, or HALFGATES_NONE */
    uint32_t gate;        /* the number of that gate among all gates, or HALFGATES_NONE */
    uint32_t wire;        /* the wire that it sets, or HALFGATES_NONE */
    uint32_t decode_bit;  /* the first output whose decode bit differs, or HALFGATES_NONE. Outputs count from 0 */
    uint32_t entry;       /* the first output whose entries differ, or HALFGATES_NONE; version 1 has no entries */
} halfgates_audit_report;

/*
 * Compares a garbled file, `length` bytes, with a garbling. Codes: HALFGATES_BAD_ARGUMENT for a garbling whose `first`
 * isn't 0; HALFGATES_NO_DIGEST; 30 to 36, the first fault of the file. A file that differs is success.
 */
int32_t halfgates_audit(const halfgates_garbling *garbling, const uint8_t *garbled, size_t length,
                        halfgates_audit_report *report);

/* What an audit finds in row pairs and decode bits: of each the first difference from the garbling. */
typedef struct halfgates_rows_report {
    uint8_t honest;      /* 1 where nothing differs */
    uint8_t generator;   /* 1 where the generator's row of that pair differs */
    uint8_t evaluator;   /* 1 where the evaluator's row of that pair differs */
    uint32_t row;        /* the number, among AND gates, of the first whose row pair differs, or HALFGATES_NONE */
    uint32_t gate;       /* the number of that gate among all gates, or HALFGATES_NONE */
    uint32_t wire;       /* the wire that it sets, or HALFGATES_NONE */
    uint32_t decode_bit; /* the first output whose decode bit differs, or HALFGATES_NONE. Outputs count from 0 */
} halfgates_rows_report;

/*
 * Compares row pairs, `rows_size` bytes, 32 for each AND gate, and decode bits, `count` bytes 0 or 1, one for each
 * output wire, with a garbling of any `first`. Codes: HALFGATES_WRONG_SIZE, HALFGATES_WRONG_LENGTH,
 * HALFGATES_BAD_DIGIT, HALFGATES_CIRCUIT_MEMORY. Rows or bits that differ are success.
 */
int32_t halfgates_audit_rows(const halfgates_garbling *garbling, const uint8_t *rows, size_t rows_size,
                             const uint8_t *decode_bits, size_t count, halfgates_rows_report *report);

/* What an audit finds of a label file. */
typedef struct halfgates_labels_report {
    int32_t verdict; /* HALFGATES_OK where the file is the one that halfgates_deal writes for the bits,
                        HALFGATES_NO_SUCH_VALUE, HALFGATES_WRONG_WIDTH, or HALFGATES_WRONG_LABEL */
    uint32_t index;  /* the index of the input value that the file names */
    uint32_t count;  /* how many bits the labels stand for; 0 where the verdict isn't HALFGATES_OK */
    uint32_t wire;   /* the first wire whose label is neither of its two, or HALFGATES_NONE */
} halfgates_labels_report;

/*
 * Compares a label file, `length` bytes, with a garbling of any `first`, and writes the bits that its labels stand for:
 * they are fewer than `length` / 16. Codes: 30 to 36, the first fault of the file: HALFGATES_BAD_MAGIC,
 * HALFGATES_FILE_TRUNCATED, HALFGATES_TRAILING, HALFGATES_COUNT_TOO_LARGE or HALFGATES_FILE_MEMORY;
 * HALFGATES_JOB_MEMORY; HALFGATES_SMALL_BUFFER where `size` is less than the number of these bits, which the report
 * then has. A file that differs is success.
 */
int32_t halfgates_audit_labels(const halfgates_garbling *garbling, const uint8_t *labels, size_t length, uint8_t *bits,
                               size_t size, halfgates_labels_report *report);

#ifdef __cplusplus
}
#endif

#endif
