#!/usr/bin/env python3
"""Two parties evaluate a circuit on a number of each, in two processes on this machine.

  two_processes.py garbler SOCKET CIRCUIT NUMBER [--times]
  two_processes.py evaluator SOCKET CIRCUIT NUMBER [--times]

SOCKET is a new name for the socket between them, which the garbler makes. CIRCUIT is a file in Bristol Fashion with two
input values, the garbler's and the evaluator's, and one or two output values, the lowest bit on the first wire. The
garbler learns the first output value and the evaluator the last one; each prints it.

The evaluator's labels come by the oblivious transfer of oblivious_transfer.py, and the garbler's output goes back as
labels. Nobody proved that: see examples/README.md.

Row pairs leave in pieces while the next ones are made, and the evaluator evaluates them as they come, so neither holds
more than a piece. With --times each party also says on standard error how long that took, in milliseconds.
"""

import secrets
import sys
import time
from argparse import ArgumentParser
from multiprocessing.connection import Client, Listener
from pathlib import Path

from halfgates import Circuit, Fault, decode, from_bits, to_bits
from oblivious_transfer import Receiver, Sender

LABEL, ROW_PAIR = 16, 32
PIECE = 4096  # the AND gates of a piece
GARBLERS, EVALUATORS = 0, 1  # the input values
SECONDS = 30  # that the evaluator waits for the garbler's socket


def bits_of_labels(pairs, labels):
    """The bits that labels stand for. One that is neither of its wire's two isn't taken for any."""
    zeros, ones = ([it[at : at + LABEL] for at in range(0, len(it), LABEL)] for it in pairs)
    given = [labels[at : at + LABEL] for at in range(0, len(labels), LABEL)]
    if len(given) != len(zeros) or any(it not in both for it, both in zip(given, zip(zeros, ones))):
        raise ValueError("the evaluator sent labels that it can't have computed")
    return [int(it == one) for it, one in zip(given, ones)]


def active_labels(pairs, bits):
    """The labels of wires that stand for these bits, from both labels of each."""
    return b"".join(pairs[bit][LABEL * wire : LABEL * (wire + 1)] for wire, bit in enumerate(bits))


def garbler(connection, circuit, number):
    """Sends labels, garbles and sends the row pairs, sends the evaluator's decode bits, and returns its own output
    value."""
    connection.send_bytes(circuit.digest)
    with circuit.garbler(secrets.token_bytes(32)) as garbling:
        bits = to_bits(number, circuit.input_widths[GARBLERS])
        connection.send_bytes(active_labels(garbling.input_labels(GARBLERS), bits))

        sender = Sender()
        connection.send_bytes(sender.message)
        connection.send_bytes(sender.hide(connection.recv_bytes(), garbling.input_labels(EVALUATORS)))

        for rows in garbling.pieces(PIECE):
            connection.send_bytes(rows)

        width = circuit.output_widths[-1]
        connection.send_bytes(garbling.decode_bits()[-width:] if width else b"")
        return from_bits(bits_of_labels(garbling.output_labels(0), connection.recv_bytes()))


def evaluator(connection, circuit, number):
    """Receives its labels, evaluates, sends the labels of the garbler's outputs, and returns its own output value."""
    if connection.recv_bytes() != circuit.digest:
        raise ValueError("the garbler has another circuit")
    labels = connection.recv_bytes()

    receiver = Receiver(connection.recv_bytes(), to_bits(number, circuit.input_widths[EVALUATORS]))
    connection.send_bytes(receiver.replies)
    labels += receiver.open(connection.recv_bytes())

    outputs = evaluate(connection, circuit, labels)
    decode_bits = connection.recv_bytes()
    connection.send_bytes(outputs[: LABEL * circuit.output_widths[0]])
    return from_bits(decode(outputs[len(outputs) - LABEL * len(decode_bits) :], decode_bits))


def evaluate(connection, circuit, labels):
    """The active labels of the outputs, from row pairs as they come."""
    left = ROW_PAIR * circuit.and_gates
    with circuit.evaluator(0, labels) as evaluation:
        while left:
            rows = connection.recv_bytes()
            if not rows or evaluation.feed(rows) != len(rows):
                raise ValueError("the garbler sent no whole row pairs")
            left -= len(rows)
        return evaluation.output_labels()


def connect(name):
    """The connection to the garbler, once it listens."""
    end = time.monotonic() + SECONDS
    while True:
        try:
            return Client(name, "AF_UNIX")
        except (FileNotFoundError, ConnectionRefusedError):
            if time.monotonic() > end:
                raise TimeoutError(f"no garbler listens at {name}") from None
            time.sleep(0.05)


def main():
    parser = ArgumentParser(description=__doc__.partition("\n\n")[0])
    parser.add_argument("party", choices=("garbler", "evaluator"))
    parser.add_argument("socket", metavar="SOCKET")
    parser.add_argument("circuit", type=Path, metavar="CIRCUIT")
    parser.add_argument("number", type=int, metavar="NUMBER")
    parser.add_argument("--times", action="store_true", help="say how long the computation took")
    words = parser.parse_args()
    with Circuit.open(words.circuit) as circuit:
        if len(circuit.input_widths) != 2 or len(circuit.output_widths) not in (1, 2):
            parser.error("the circuit has two input values, and one or two output values")
        if words.party == "garbler":
            with Listener(words.socket, "AF_UNIX") as listener, listener.accept() as connection:
                take_part(garbler, connection, circuit, words)
        else:
            with connect(words.socket) as connection:
                take_part(evaluator, connection, circuit, words)


def take_part(party, connection, circuit, words):
    begun = time.monotonic()
    print(party(connection, circuit, words.number))
    if words.times:
        print(f"{words.party}: {1000 * (time.monotonic() - begun):.0f} ms", file=sys.stderr)


if __name__ == "__main__":
    try:
        main()
    except (EOFError, OSError, OverflowError, ValueError, Fault) as error:
        sys.exit(str(error) or "the other party has left")
