#!/usr/bin/env python3
"""Cut and choose: a garbler that may cheat garbles one circuit under a hundred seeds, and the evaluator has half of
them opened and audited. It evaluates the others, and takes the result of most of them.

  cut_and_choose.py CIRCUIT NUMBER.. [--forge N]

CIRCUIT is a file in Bristol Fashion with one output value. NUMBERs are its input values, the lowest bit on the first
wire. With --forge the garbler forges this many garbled files.
"""

import secrets
import sys
from argparse import ArgumentParser
from collections import Counter
from hashlib import sha256
from pathlib import Path

from halfgates import Circuit, Fault, evaluate_many, write_many

COPIES = 100
AT_ONCE = 8  # how many garblings or jobs are in memory


def batches(copies):
    for first in range(0, len(copies), AT_ONCE):
        yield copies[first : first + AT_ONCE]


def garblings_of(circuit, copies, seeds):
    """Each copy with its garbling, which is freed before the next batch is made."""
    for batch in batches(copies):
        yield from zip(batch, circuit.garble_many(seeds[it] for it in batch))


def bits_of(number, width):
    if not 0 <= number < 1 << width:
        sys.exit(f"{number} isn't a number of {width} bits")
    return [number >> i & 1 for i in range(width)]


class Garbler:
    """Has the seeds, and the numbers that it deals labels for."""

    def __init__(self, circuit, numbers, forged):
        self.circuit = circuit
        self.values = [bits_of(*it) for it in zip(numbers, circuit.input_widths)]
        self.seeds = [secrets.token_bytes(32) for _ in range(COPIES)]
        self.forged = set(secrets.SystemRandom().sample(range(COPIES), forged))

    def garbled_files(self):
        files = []
        for batch in batches(range(COPIES)):
            files += write_many(self.circuit.garble_many(self.seeds[it] for it in batch))
        for copy in self.forged:
            forge(files[copy])
        return files

    def deal(self, copy):
        """The label files of a copy that isn't opened. Of the evaluator's own values the labels come by oblivious
        transfer; this example hands them over."""
        return [self.circuit.deal(self.seeds[copy], *it) for it in enumerate(self.values)]


def forge(file):
    file[48] ^= 1
    file[-32:] = sha256(memoryview(file)[:-32]).digest()


class Evaluator:
    """Has the garbled files, and chooses which are opened."""

    def __init__(self, circuit, files):
        self.circuit, self.files = circuit, files
        self.opened = set(secrets.SystemRandom().sample(range(COPIES), COPIES // 2))

    def audit(self, seeds):
        """The opened copies that aren't the garbling of the circuit under the seed that the garbler says."""
        wrong = []
        for copy, garbling in garblings_of(self.circuit, sorted(self.opened), seeds):
            with garbling:
                if not garbling.audit(self.files[copy]).honest:
                    wrong.append(copy)
        return wrong

    def answers(self, copies, deal):
        """The output bits of each copy, or the name of what is wrong with it."""
        for batch in batches(copies):
            jobs = []
            for copy in batch:
                try:
                    jobs.append(self.circuit.bind(self.files[copy], deal(copy)))
                except Fault as fault:
                    yield fault.name
            try:
                yield from map(bytes, evaluate_many(jobs))
            except Fault:
                yield from map(answer_of, jobs)


def answer_of(job):
    try:
        return bytes(job.evaluate())
    except Fault as fault:
        return fault.name


def main():
    parser = ArgumentParser(description=__doc__.partition("\n\n")[0])
    parser.add_argument("circuit", type=Path, metavar="CIRCUIT")
    parser.add_argument("numbers", type=int, nargs="*", metavar="NUMBER")
    parser.add_argument("--forge", type=int, default=0, metavar="N")
    words = parser.parse_args()
    if not 0 <= words.forge <= COPIES:
        parser.error(f"--forge takes a number from 0 to {COPIES}")
    with Circuit.read(words.circuit.read_bytes()) as circuit:
        if len(words.numbers) != len(circuit.input_widths):
            parser.error(f"the circuit has {len(circuit.input_widths)} input values")
        garbler = Garbler(circuit, words.numbers, words.forge)
        evaluator = Evaluator(circuit, garbler.garbled_files())

        wrong = evaluator.audit({it: garbler.seeds[it] for it in evaluator.opened})
        print(f"opened {len(evaluator.opened)}, forged {len(wrong)}")
        if wrong:
            sys.exit("the garbler cheats")
        answers = Counter(evaluator.answers([*{*range(COPIES)} - evaluator.opened], garbler.deal))
        [(bits, count)] = answers.most_common(1)
        print(f"evaluated {COPIES - len(evaluator.opened)}, alike {count}")
        print(sum(bit << i for i, bit in enumerate(bits)))


if __name__ == "__main__":
    try:
        main()
    except (OSError, Fault) as error:
        sys.exit(str(error))
