"""Each number of workers makes the garbled file and the outputs that the reference of vectors/ makes."""
import random
import unittest

from inputs import many_ands, text_of
from program import SEED, ProgramTest, ending_of_eval, prints, sealed, text_of_lines

import bristol
import reference

WORKERS = 1, 2, 3, 4, 7, 64


def and_chains(chains, length):
    """Chains of AND gates, one after another in the file."""
    gates = []
    for chain in range(chains):
        read = chain
        for _ in range(length):
            wire = chains + len(gates)
            gates.append(f"2 1 {read} {chain} {wire} AND")
            read = wire
    return text_of([chains], [len(gates)], gates)


# Operations to draw from. Most are AND: threads share no circuit of which fewer than half are.
OPERATIONS = 6 * ["AND"] + ["XOR", "INV", "EQ", "EQW"]


def gate(name, a, b, wire):
    """The line of a gate. INV and EQW read the first wire; its parity is the constant of EQ."""
    if name in ("XOR", "AND"):
        return f"2 1 {a} {b} {wire} {name}"
    return f"1 1 {a % 2 if name == 'EQ' else a} {wire} {name}"


def layered(draw, groups):
    """Groups of layers of these widths, one after another in the file. Each gate reads the layer
    before its own, or input wires, and each wire that a gate sets is an output."""
    gates = []
    for widths in groups:
        layer = range(64)
        for width in widths:
            first = 64 + len(gates)
            read, layer = layer, range(first, first + width)
            for wire in layer:
                a, b = draw.choice(read), draw.choice(read)
                gates.append(gate(draw.choice(OPERATIONS), a, b, wire))
    return text_of([64], [len(gates)], gates)


# Shapes of circuits: in the first three a worker's share of the gates reads wires of the others' shares,
# so any number of workers leaves them to one thread. A few workers share the others, in which the
# groups are independent, through a store or at a board.
LAYERED = [
    [20 * [100]],
    [[1, 2, 3, 16, 17, 63, 64, 65, 1023, 1024, 1025]],
    [3 * [1500]],
    64 * [4 * [8]],
    30 * [10 * [10]],
    16 * [50 * [4]],
    8 * [400 * [1]],
]


def small_circuit(draw):
    """Up to 16 gates of all operations, which read any wire before their own."""
    gates = []
    for wire in range(3, 4 + draw.randrange(16)):
        a, b = draw.randrange(wire), draw.randrange(wire)
        gates.append(gate(draw.choice(OPERATIONS), a, b, wire))
    return text_of([3], [min(2, len(gates))], gates)


def circuits(draw):
    """One layer of few and of many gates, chains, layers whose gates read each other, and circuits of
    a few gates."""
    yield from map(many_ands, [1, 2, 16, 17, 64, 65, 1023, 1024, 1025, 6000])
    for chains, length in (1, 3000), (40, 50), (64, 4), (100, 50):
        yield and_chains(chains, length)
    for groups in LAYERED:
        yield layered(draw, groups)
    for _ in range(60):
        yield small_circuit(draw)


def forged_file(draw, data, rows):
    """A garbled file with random rows, and a trailer to match."""
    body = data[:48] + draw.randbytes(32 * rows) + data[48 + 32 * rows : -32]
    return sealed(body)


class Job:
    """The files of a job, the garbled file first, and the ending of evaluating them."""

    def __init__(self, draw, circuit, garbling, is_honest):
        version = draw.choice([1, 2])
        values = [[draw.randrange(2) for _ in range(width)] for width in circuit.input_widths]
        garbled = reference.garbled_file(circuit, garbling, version)
        labels = reference.deal(circuit, garbling, values)
        if not is_honest:
            garbled = forged_file(draw, garbled, len(garbling.rows))
            labels = [file[:16] + draw.randbytes(len(file) - 16) for file in labels]
        self.files = [garbled, *labels]
        self.ending = ending_of_eval(circuit, garbled, labels)


def ending_of_list(jobs):
    """The ending of `jobs` over these: the first fault, or the lines of each and an empty line."""
    endings = [job.ending for job in jobs]
    faults = [ending for ending in endings if ending[0]]
    return faults[0] if faults else prints(text_of_lines(text for _, text, _ in endings))


class Workers(ProgramTest):
    def setUp(self):
        super().setUp()
        self.draw = random.Random(15)

    def put_jobs(self, jobs):
        """Writes the files of each job, and returns their names."""
        return [self.put_all(f"job{i}_", job.files) for i, job in enumerate(jobs)]

    def test_garbled_files_and_outputs(self):
        for text in circuits(self.draw):
            self.put("c.txt", text)
            circuit = bristol.read_circuit(text.encode())
            garbling = reference.garble(circuit, bytes(32))
            file = reference.garbled_file(circuit, garbling, 2)
            jobs = [Job(self.draw, circuit, garbling, is_honest) for is_honest in (True, False)]
            names = self.put_jobs(jobs)
            for workers in WORKERS:
                option = "--workers", workers
                self.assert_writes(file, "g", "garble", "c.txt", SEED, "g", *option)
                for job, files in zip(jobs, names):
                    self.assert_ends(job.ending, "eval", "c.txt", *files, *option)

    def test_lists_of_jobs(self):
        faults = 0
        wide = [layered(self.draw, groups) for groups in (64 * [4 * [8]], [20 * [100]])]
        for text in [*wide, *(small_circuit(self.draw) for _ in range(60))]:
            self.put("c.txt", text)
            circuit = bristol.read_circuit(text.encode())
            garbling = reference.garble(circuit, bytes(32))
            honest = [self.draw.randrange(3) > 0 for _ in range(1 + self.draw.randrange(6))]
            jobs = [Job(self.draw, circuit, garbling, is_honest) for is_honest in honest]
            self.put("list", text_of_lines(map(" ".join, self.put_jobs(jobs))))
            ending = ending_of_list(jobs)
            faults += ending[0]
            for workers in 1, 2, 3, 5, 8:
                self.assert_ends(ending, "jobs", "c.txt", "list", "--workers", workers)
        self.assertTrue(10 < faults < 50, faults)


if __name__ == "__main__":
    unittest.main()
