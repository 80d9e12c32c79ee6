"""Handles of the package `halfgates` for Python: one owner each, several threads at once, interrupted calls, and calls
that reach a handle while its own thread uses it.
"""
import copy
import gc
import os
import pickle
import signal
import subprocess
import sys
import textwrap
import threading
import unittest
import weakref
from array import array
from contextlib import ExitStack
from unittest import mock

from inputs import many_ands
from library import environment_of_python, import_package
from program import FULL_ADDER

halfgates = import_package()
Circuit, Garbling, Job, Fault = halfgates.Circuit, halfgates.Garbling, halfgates.Job, halfgates.Fault
library = halfgates._library.library

SEED = bytes(range(32))

# Each handle of this circuit has a hundred kilobytes or more, and a call takes milliseconds.
WIDTH = 10_000
LARGE = many_ands(WIDTH).encode()
MEGABYTE = 2**20


def resident():
    """The bytes of memory that this process has."""
    with open("/proc/self/statm") as file:
        return int(file.read().split()[1]) * os.sysconf("SC_PAGE_SIZE")


def full_adder():
    return Circuit.read(FULL_ADDER.encode())


def patched(name, function):
    """The function of the library, replaced by one that takes the real one first."""
    real = getattr(library, f"halfgates_{name}")
    return mock.patch.object(library, f"halfgates_{name}", lambda *words: function(real, *words))


class Owners(unittest.TestCase):
    def setUp(self):
        self.circuit = Circuit.read(LARGE)
        self.addCleanup(self.circuit.close)
        with self.circuit.garble(SEED) as garbling:
            self.garbled = garbling.write()
        self.files = [self.circuit.deal(SEED, index, bytes(WIDTH)) for index in range(2)]
        self.labels = bytes(2 * WIDTH * 16)
        gates = ((halfgates.Operation.INV, it, 0, 2 * WIDTH + it) for it in range(WIDTH))
        self.gates = array("I", [number for gate in gates for number in gate])
        self.makers = {
            "circuit": lambda: Circuit.read(LARGE),
            "circuit without its digest": lambda: Circuit.read(LARGE, digest=False),
            "garbling": lambda: self.circuit.garble(SEED),
            "garbling of many": lambda: self.circuit.garble_many([SEED])[0],
            "job": lambda: self.circuit.bind(self.garbled, self.files),
            "circuit of gates": lambda: Circuit.from_gates(self.gates, 3 * WIDTH, [2 * WIDTH], [WIDTH]),
            "garbler": lambda: self.circuit.garbler(SEED),
            "evaluator": lambda: self.circuit.evaluator(0, self.labels),
        }

    def assert_keeps_no_memory(self, use):
        """Many uses of handles of each type take no more memory than a few."""
        for name, make in self.makers.items():
            with self.subTest(name):
                for _ in range(3):
                    use(make)
                gc.collect()
                before = resident()
                for _ in range(60):
                    use(make)
                gc.collect()
                self.assertLess(resident() - before, 5 * MEGABYTE)

    def test_close_frees(self):
        self.kept = []

        def use(make):
            handle = make()
            handle.close()
            handle.close()
            self.kept.append(handle)

        self.assert_keeps_no_memory(use)

    def test_the_end_of_a_block_frees(self):
        self.kept = []

        def use(make):
            with make() as handle:
                self.kept.append(handle)

        self.assert_keeps_no_memory(use)

    def test_the_end_of_an_object_frees(self):
        self.assert_keeps_no_memory(lambda make: make())

    def test_the_end_of_a_cycle_frees(self):
        def use(make):
            handle = make()
            handle.itself = handle
            del handle
            gc.collect()

        self.assert_keeps_no_memory(use)

    def test_a_call_that_is_interrupted_as_it_returns_frees(self):
        def interrupted(real, *words):
            real(*words)
            raise KeyboardInterrupt

        def use(make):
            with self.assertRaises(KeyboardInterrupt):
                make()

        with ExitStack() as stack:
            made = "circuit_read", "circuit_from_gates", "garble", "garble_many", "job_bind", "garbler_begin"
            for name in (*made, "evaluator_begin", "circuit_read_without_digest"):
                stack.enter_context(patched(name, interrupted))
            self.assert_keeps_no_memory(use)

    def test_copies(self):
        with full_adder() as circuit, circuit.garble(SEED) as garbling:
            for handle in (circuit, garbling):
                for make in (copy.copy, copy.deepcopy, pickle.dumps):
                    with self.assertRaisesRegex(TypeError, "can't be copied or pickled$"):
                        make(handle)

    def test_an_object_that_was_never_a_handle(self):
        for make, *words in ((Circuit,), (Circuit, FULL_ADDER.encode()), (Garbling, 5, 3), (Job, 5)):
            with self.assertRaisesRegex(TypeError, "^a Circuit comes from Circuit.read, "):
                make(*words)

    def test_representations(self):
        size = "5 gates, 1 AND gates, 3 input wires, 2 output wires"
        with full_adder() as circuit, circuit.garble(SEED) as garbling:
            files = [circuit.deal(SEED, index, [1]) for index in range(3)]
            with circuit.bind(garbling.write(), files) as job:
                for handle in (circuit, garbling, job):
                    name = type(handle).__name__
                    self.assertEqual(repr(handle), f"<{name}: {size}>")
                    handle.close()
                    self.assertEqual(repr(handle), f"<closed {name}: {size}>")


class Interrupts(unittest.TestCase):
    """Signal handlers that raise, at any time."""

    def setUp(self):
        def handler(*_):
            raise KeyboardInterrupt

        self.addCleanup(signal.signal, signal.SIGALRM, signal.signal(signal.SIGALRM, handler))

    def interrupt(self, call, step, count):
        """Makes a call again and again, each time interrupted a step later, and returns how often it was."""
        interrupts = 0
        for number in range(1, count + 1):
            try:
                signal.setitimer(signal.ITIMER_REAL, number * step)
                try:
                    call()
                finally:
                    signal.setitimer(signal.ITIMER_REAL, 0)
            except KeyboardInterrupt:
                interrupts += 1
        return interrupts

    def test_no_memory_is_lost(self):
        with Circuit.read(LARGE) as circuit:
            circuit.garble(SEED).close()
            before = resident()
            interrupts = self.interrupt(lambda: circuit.garble(SEED), 1e-4, 100)
            gc.collect()
            self.assertGreater(interrupts, 10)
            self.assertLess(resident() - before, 5 * MEGABYTE)
            self.assertEqual(circuit.garble(SEED).write(1), circuit.garble(SEED).write(1))

    def test_nothing_stays_lent_and_handles_stay_usable(self):
        with full_adder() as circuit:
            bit, bits, room = bytearray([1]), bytearray([1, 0, 1]), bytearray(200)
            garbling = circuit.garble(SEED)
            calls = {
                "plain": lambda: circuit.plain(bits),
                "labels": lambda: garbling.labels(bits),
                "deal": lambda: circuit.deal(SEED, 0, bit),
                "write_into": lambda: garbling.write_into(room),
            }
            for name, call in calls.items():
                with self.subTest(name):
                    expected = call()
                    self.interrupt(call, 1e-6, 300)
                    for data in (bit, bits, room):
                        data.append(1)  # a BufferError where somebody has the bytes
                        data.pop()
                    self.assertEqual(call(), expected)


class Threads(unittest.TestCase):
    def test_one_circuit_on_several_threads(self):
        found = {}
        with Circuit.read(LARGE) as circuit:

            def work(first):
                for number in range(first, 24, 4):
                    with circuit.garble(bytes([number]) * 32) as garbling:
                        found[number] = garbling.zero_label(2 * WIDTH)

            threads = [threading.Thread(target=work, args=[it]) for it in range(4)]
            for thread in threads:
                thread.start()
            for thread in threads:
                thread.join()
            expected = {it: circuit.garble(bytes([it]) * 32).zero_label(2 * WIDTH) for it in range(24)}
        self.assertEqual(found, expected)

    def test_calls_are_at_work_at_once(self):
        """No call on a handle waits for another: each waits in the middle until all of them are there."""
        everybody = threading.Barrier(6)

        def together(real, *words):
            everybody.wait(10)
            return real(*words)

        found = []
        with full_adder() as circuit:
            expected = circuit.garble(SEED).write()
            with patched("garble", together), patched("plain", together):
                calls = [lambda: circuit.garble(SEED).write(), lambda: circuit.plain([1, 0, 1])] * 3
                threads = [threading.Thread(target=lambda call=call: found.append(call())) for call in calls]
                for thread in threads:
                    thread.start()
                for thread in threads:
                    thread.join()
        self.assertEqual(sorted(found), sorted([expected, bytearray([0, 1])] * 3))

    def test_one_job_on_several_threads(self):
        found = []
        with Circuit.read(LARGE) as circuit, circuit.garble(SEED) as garbling:
            files = [garbling.deal(index, bytes([1]) * WIDTH) for index in range(2)]
            with circuit.bind(garbling.write(), files) as job:
                threads = [threading.Thread(target=lambda: found.append(job.evaluate())) for _ in range(4)]
                for thread in threads:
                    thread.start()
                for thread in threads:
                    thread.join()
        self.assertEqual(found, [bytearray([1]) * WIDTH] * 4)

    def test_one_garbling_on_several_threads(self):
        found = []
        with Circuit.read(LARGE) as circuit, circuit.garble(SEED) as garbling:
            threads = [threading.Thread(target=lambda: found.append(garbling.write())) for _ in range(4)]
            for thread in threads:
                thread.start()
            for thread in threads:
                thread.join()
            self.assertEqual(found, [garbling.write()] * 4)

    def test_closing_in_the_middle_of_a_call(self):
        """The call ends as ever, and the handle is freed after it."""
        begun, closed = threading.Event(), threading.Event()

        def slow(real, *words):
            begun.set()
            closed.wait(10)
            return real(*words)

        circuit, found = full_adder(), []
        owner = weakref.ref(circuit._at)
        with patched("garble", slow):
            thread = threading.Thread(target=lambda: found.append(circuit.garble(SEED).write()))
            thread.start()
            begun.wait(10)
            circuit.close()
            self.assertIsNotNone(owner())
            closed.set()
            thread.join()
        self.assertIsNone(owner())
        with full_adder() as other:
            self.assertEqual(found, [other.garble(SEED).write()])
        with self.assertRaisesRegex(ValueError, "is closed$"):
            circuit.garble(SEED)

    def test_closing_the_jobs_of_a_list_in_the_middle_of_a_call(self):
        with full_adder() as circuit, circuit.garble(SEED) as garbling:
            files = [circuit.deal(SEED, index, [1]) for index in range(3)]
            jobs = [circuit.bind(garbling.write(), files) for _ in range(2)]
        owners = [weakref.ref(job._at) for job in jobs]

        def close_first(real, *words):
            for job in jobs:
                job.close()
            self.assertNotIn(None, [owner() for owner in owners])
            return real(*words)

        with patched("evaluate_many", close_first):
            self.assertEqual(halfgates.evaluate_many(jobs), [bytearray([1, 1])] * 2)
        self.assertEqual([owner() for owner in owners], [None, None])

    def test_closing_the_garblings_of_a_list_in_the_middle_of_a_call(self):
        with full_adder() as circuit:
            garblings = circuit.garble_many([SEED, SEED])
        files = [it.write() for it in garblings]
        owners = [weakref.ref(it._at) for it in garblings]

        def close_first(real, *words):
            for it in garblings:
                it.close()
            self.assertNotIn(None, [owner() for owner in owners])
            return real(*words)

        with patched("write_many", close_first):
            self.assertEqual(halfgates.write_many(garblings), files)
        self.assertEqual([owner() for owner in owners], [None, None])


class OwnThread(unittest.TestCase):
    """What reaches a handle while its own thread uses it. Each script would wait for ever if a call waited at all."""

    def run_script(self, script):
        words = [sys.executable, "-c", BEGINNING + textwrap.dedent(script)]
        how = {"env": environment_of_python(), "capture_output": True, "text": True, "timeout": 60}
        done = subprocess.run(words, input=FULL_ADDER, check=False, **how)
        self.assertEqual((done.returncode, done.stderr), (0, ""))
        return done.stdout

    def test_a_call_in_the_middle_of_a_call(self):
        printed = self.run_script("""
            def middle(real, *words):
                print(list(circuit.plain([1, 0, 1])))
                return real(*words)
            patch("garble", middle)
            print(len(circuit.garble(seed).write()))
            print(list(circuit.plain([1, 0, 1])))
        """)
        self.assertEqual(printed, "[0, 1]\n177\n[0, 1]\n")

    def test_closing_in_the_middle_of_a_call(self):
        printed = self.run_script("""
            def middle(real, *words):
                circuit.close()
                return real(*words)
            patch("garble", middle)
            print(len(circuit.garble(seed).write()))
            try:
                circuit.plain([1, 0, 1])
            except ValueError as error:
                print(error)
        """)
        self.assertEqual(printed, "177\nthis Circuit is closed\n")

    def test_a_signal_handler_that_uses_the_handle(self):
        printed = self.run_script("""
            import signal
            found = []
            def handler(*_):
                found.append(list(circuit.plain([1, 0, 1])))
            signal.signal(signal.SIGALRM, handler)
            signal.setitimer(signal.ITIMER_REAL, 1e-4, 1e-4)
            while len(found) < 100:
                circuit.garble(seed).close()
            signal.setitimer(signal.ITIMER_REAL, 0)
            print(found.count([0, 1]) == len(found), list(circuit.plain([1, 0, 1])))
        """)
        self.assertEqual(printed, "True [0, 1]\n")

    def test_a_finalizer_that_closes_the_handle(self):
        """Which the collector of cycles runs, wherever it is at work."""
        printed = self.run_script("""
            import gc, weakref
            class Owner:
                pass
            gc.set_threshold(1)
            for _ in range(2000):
                circuit = Circuit.read(text)
                owner = Owner()
                owner.itself = owner
                weakref.finalize(owner, circuit.close)
                del owner
                try:
                    [circuit.plain([1, 0, 1]) for _ in range(3)]
                except ValueError:
                    pass
            print("done")
        """)
        self.assertEqual(printed, "done\n")

    def test_numbers_that_use_the_handle(self):
        """Each number is asked for once, before the call."""
        printed = self.run_script("""
            class Number:
                def __init__(self, use):
                    self.use, self.asked = use, 0
                def __index__(self):
                    self.use()
                    self.asked += 1
                    return 1 if self.asked == 1 else 2**40
            garbling = circuit.garble(seed)
            use = lambda: (circuit.plain([1, 0, 1]), garbling.decode_bit(0))
            for call in (
                circuit.garbled_size, garbling.write, garbling.zero_label, garbling.decode_bit,
                lambda it: garbling.write_into(bytearray(200), it), lambda it: circuit.deal(seed, it, [1]),
                lambda it: circuit.plain([it, 0, 1]), lambda it: garbling.labels([1, 0, 1], it, 1),
                lambda it: garbling.labels([1, 0, 1], 0, it),
            ):
                number = Number(use)
                call(number)
                print(number.asked, end=" ")
        """)
        self.assertEqual(printed, "1 " * 9)


BEGINNING = """
import sys
from halfgates import Circuit, _library

text, seed = sys.stdin.read().encode(), bytes(32)
circuit = Circuit.read(text)

def patch(name, function):
    real = getattr(_library.library, f"halfgates_{name}")
    setattr(_library.library, f"halfgates_{name}", lambda *words: function(real, *words))

"""


if __name__ == "__main__":
    unittest.main()
