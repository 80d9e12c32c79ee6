"""The programs of examples/python/ and examples/c/ that stand on labels, and the oblivious transfer."""
import subprocess
import sys
import unittest
from hashlib import sha256

from inputs import chain_of_ands
from library import build, environment_of_python, import_package
from program import EXAMPLES
from test_c_library import LibraryTest

halfgates = import_package()
sys.path.append(str(EXAMPLES / "python"))
import oblivious_transfer
import sha256_chain
import two_processes
from oblivious_transfer import LABEL, SIZE, Receiver, Sender

PYTHON = EXAMPLES / "python"

# Lengths about those at which one block more is needed.
MESSAGES = ["", "abc", "x" * 55, "x" * 56, "x" * 64, "more than two blocks " * 8]

# An AND for the garbler, and an XOR and the evaluator's own bit for the evaluator.
TWO_OUTPUTS = "3 5\n2 1 1\n2 1 2\n\n2 1 0 1 2 AND\n2 1 0 1 3 XOR\n1 1 1 4 EQW\n"


# Says of the second block whether it has labels of the first one.
WATCH = """
#include <halfgates.h>
#include <stdio.h>
#include <string.h>
int32_t __real_halfgates_garble_from(const halfgates_circuit *, const uint8_t *, const uint8_t *, size_t, uint64_t,
                                     halfgates_garbling **);
int32_t __wrap_halfgates_garble_from(const halfgates_circuit *circuit, const uint8_t *offset, const uint8_t *zeros,
                                     size_t size, uint64_t first, halfgates_garbling **garbling);
int32_t __wrap_halfgates_garble_from(const halfgates_circuit *circuit, const uint8_t *offset, const uint8_t *zeros,
                                     size_t size, uint64_t first, halfgates_garbling **garbling) {
    static uint8_t before[512 * 16];
    int same = 0;
    for (size_t at = 0; at < sizeof before; at += 16) {
        uint8_t difference[16];
        for (size_t i = 0; i < 16; i++)
            difference[i] = before[at + i] ^ zeros[at + i];
        same += memcmp(difference, offset, 16) == 0 || memcmp(before + at, zeros + at, 16) == 0;
    }
    if (first > 0)
        fputs(same ? "labels again\\n" : "fresh labels\\n", stderr);
    memcpy(before, zeros, sizeof before);
    return __real_halfgates_garble_from(circuit, offset, zeros, size, first, garbling);
}
"""


def pieces(data):
    """The labels that follow one another."""
    return [bytes(data[at : at + LABEL]) for at in range(0, len(data), LABEL)]


def halves(data):
    return data[: len(data) // 2], data[len(data) // 2 :]


class ExampleTest(LibraryTest):
    def start(self, script, *words):
        how = {"env": environment_of_python(), "stdout": subprocess.PIPE, "stderr": subprocess.PIPE, "text": True}
        return subprocess.Popen([sys.executable, PYTHON / script, *words], **how)

    def ending(self, process):
        printed, error = process.communicate(timeout=120)
        return process.returncode, printed, error


class Chains(ExampleTest):
    def setUp(self):
        super().setUp()
        self.circuit = self.folder / "sha256"
        subprocess.run([sys.executable, EXAMPLES / "make_circuits.py", "sha256", self.circuit], check=True)

    def digests(self):
        return [(message, sha256(message.encode()).hexdigest()) for message in MESSAGES]

    def test_in_python(self):
        for message, digest in self.digests():
            ending = self.ending(self.start("sha256_chain.py", self.circuit, message))
            self.assertEqual(ending, (0, f"{digest}\n", ""), message)

    def test_in_c(self):
        for message, digest in self.digests()[1:4]:
            printed = self.run_built(EXAMPLES / "c/sha256_chain.c", self.circuit, message)
            self.assertEqual(printed, f"{digest}\n", message)

    def test_labels_of_the_next_block(self):
        """No label of a block, nor its partner under the offset, is a label of the block before."""
        garbler = sha256_chain.Garbler(halfgates.Circuit.open(self.circuit))
        first, second = ((*pieces, labels)[-1] for pieces, labels, _ in garbler.messages(64 * b"x"))
        for one, other in zip(pieces(first), pieces(second)):
            difference = bytes(a ^ b for a, b in zip(one, other))
            self.assertNotIn(difference, (bytes(LABEL), garbler.offset))

    def test_labels_of_the_next_block_in_c(self):
        """The circuit comes by a pipe."""
        watch, program = self.folder / "watch.c", self.folder / "chain"
        watch.write_text(WATCH)
        build(EXAMPLES / "c/sha256_chain.c", program, "-Wl,--wrap=halfgates_garble_from", watch)
        how = {"input": self.circuit.read_text(), "capture_output": True, "text": True, "check": False}
        done = subprocess.run([program, "/dev/stdin", 64 * "x"], **how)
        self.assertEqual((done.returncode, done.stderr), (0, "fresh labels\n"))

    def test_another_circuit(self):
        ending = self.ending(self.start("sha256_chain.py", EXAMPLES / "less8.txt", "abc"))
        said = "the circuit isn't the compression of SHA-256: examples/make_circuits.py sha256 writes it\n"
        self.assertEqual(ending, (1, "", said))


class TwoProcesses(ExampleTest):
    def run_parties(self, circuits, numbers, *words):
        socket = str(self.folder / "socket")
        parties = [self.start("two_processes.py", party, socket, circuit, str(number), *words)
                   for party, circuit, number in zip(("garbler", "evaluator"), circuits, numbers)]
        return [self.ending(party) for party in parties]

    def test_one_output_value(self):
        less8 = EXAMPLES / "less8.txt"
        for first, second, answer in ((7, 9, "1\n"), (9, 7, "0\n"), (255, 255, "0\n")):
            self.assertEqual(self.run_parties([less8, less8], [first, second]), [(0, answer, "")] * 2)

    def test_an_output_value_each(self):
        circuit = self.folder / "circuit"
        circuit.write_text(TWO_OUTPUTS)
        for first in (0, 1):
            for second in (0, 1):
                garbler, evaluator = self.run_parties([circuit, circuit], [first, second])
                self.assertEqual(garbler, (0, f"{first & second}\n", ""))
                self.assertEqual(evaluator, (0, f"{(first ^ second) + 2 * second}\n", ""))

    def test_several_pieces(self):
        circuit = self.folder / "circuit"
        circuit.write_text(chain_of_ands(3 * two_processes.PIECE + 8))
        for first, second in ((255, 255), (255, 170), (15, 60)):
            answer = f"{first & second}\n"
            self.assertEqual(self.run_parties([circuit, circuit], [first, second]), [(0, answer, "")] * 2)

    def test_times(self):
        less8 = EXAMPLES / "less8.txt"
        parties = self.run_parties([less8, less8], [7, 9], "--times")
        for name, (status, printed, error) in zip(("garbler", "evaluator"), parties):
            self.assertEqual((status, printed), (0, "1\n"))
            self.assertRegex(error, rf"^{name}: \d+ ms\n$")

    def test_numbers_that_have_too_many_bits(self):
        less8 = EXAMPLES / "less8.txt"
        garbler, evaluator = self.run_parties([less8, less8], [7, 256])
        self.assertEqual(evaluator, (1, "", "the number is negative or has more than 8 bits\n"))
        self.assertEqual(garbler[:2], (1, ""))

    def test_different_circuits(self):
        garbler, evaluator = self.run_parties([EXAMPLES / "adder64.txt", EXAMPLES / "less8.txt"], [7, 9])
        self.assertEqual(evaluator, (1, "", "the garbler has another circuit\n"))
        self.assertEqual(garbler[:2], (1, ""))


class Transfers(unittest.TestCase):
    def setUp(self):
        self.pairs = [bytes(range(first, first + 4 * LABEL)) for first in (0, 100)]

    def test_the_chosen_labels_and_no_others(self):
        sender, bits = Sender(), [1, 0, 0, 1]
        receiver = Receiver(sender.message, bits)
        hidden = sender.hide(receiver.replies, self.pairs)
        labels = receiver.open(hidden)
        for index, bit in enumerate(bits):
            place = slice(LABEL * index, LABEL * (index + 1))
            self.assertEqual(labels[place], self.pairs[bit][place])
        receiver.bits = [1 - bit for bit in bits]
        for index, label in enumerate(pieces(receiver.open(hidden))):
            self.assertNotIn(label, [it[LABEL * index : LABEL * (index + 1)] for it in self.pairs])

    def test_replies_that_are_equal(self):
        """What hides a pair depends on its place too."""
        sender = Sender()
        reply = Receiver(sender.message, [1]).replies
        first, second = halves(sender.hide(2 * reply, [bytes(2 * LABEL)] * 2))
        self.assertNotEqual(first, second)

    def test_the_exponents(self):
        """RFC 3526, section 8, asks for 220 to 320 bits in this group."""
        self.assertGreaterEqual(oblivious_transfer.EXPONENT, 220)

    def test_labels_that_are_none(self):
        pairs = [bytes(range(32)), bytes(range(100, 132))]
        (zero, _), (_, one) = map(halves, pairs)
        self.assertEqual(two_processes.bits_of_labels(pairs, zero + one), [0, 1])
        for labels in (b"", zero, pairs[0] + one, zero + bytes(LABEL), zero + one[:-1], one + zero):
            self.assertRaises(ValueError, two_processes.bits_of_labels, pairs, labels)

    def test_no_labels(self):
        sender = Sender()
        receiver = Receiver(sender.message, [])
        self.assertEqual(receiver.open(sender.hide(receiver.replies, [b"", b""])), b"")

    def test_the_group(self):
        """Both the modulus and half of it are prime, and 2 generates the squares."""
        prime = oblivious_transfer.PRIME
        for number in (prime, prime // 2):
            for base in (2, 3, 5, 7):
                self.assertEqual(pow(base, number - 1, number), 1)
        self.assertEqual(pow(2, prime // 2, prime), 1)

    def test_what_is_refused(self):
        sender = Sender()
        prime = oblivious_transfer.PRIME
        for number in (0, 1, prime - 1, prime, 2 ** (8 * SIZE) - 1):
            self.assertRaises(ValueError, Receiver, number.to_bytes(SIZE, "big"), [1])
            self.assertRaises(ValueError, sender.hide, number.to_bytes(SIZE, "big"), [bytes(LABEL)] * 2)
        self.assertRaises(ValueError, Receiver, sender.message[:-1], [1])
        receiver = Receiver(sender.message, [1, 0])
        for replies in (b"", receiver.replies[:SIZE], receiver.replies[:-1], receiver.replies * 2):
            self.assertRaises(ValueError, sender.hide, replies, [bytes(2 * LABEL)] * 2)
        for hidden in (b"", bytes(2 * LABEL), bytes(4 * LABEL + 1)):
            self.assertRaises(ValueError, receiver.open, hidden)


if __name__ == "__main__":
    unittest.main()
