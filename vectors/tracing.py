"""What the commands that trace print: `locate`, `stats`, `labels` and `audit`, in plain Python.

It follows docs/COMMANDS.md. bristol.py has the places of faults and the statistics, reference.py
has the scheme. Each command's function here gives its lines, or raises its first fault.
"""
from bristol import (
    Fault, and_count, digest, output_wires, place_of, plain_bits, read_circuit,
    read_seed, read_values, statistics)
from reference import (
    decode_bits, decode_entries, encode, garble, read_garbled, read_label_file)



def lines_of(numbers):
    """A line for each name and its number."""
    return [f"{name} {number}" for name, number in numbers.items()]


def locate(text):
    """Where the first fault of a circuit's text is."""
    try:
        read_circuit(text)
    except Fault as fault:
        return [f"fault {fault.number} {fault.name}", *lines_of(place_of(text, fault))]
    return ["no fault"]


def stats(text):
    """The statistics of a circuit."""
    return lines_of(statistics(read_circuit(text)))


def labels(text, seed, values, first=0, count=2**32 - 1):
    """The labels and the bits of set wires, from the first one on, and no more than the count."""
    circuit, seed = read_circuit(text), read_seed(seed)
    bits = plain_bits(circuit, read_values(values, circuit.input_widths))
    garbling = garble(circuit, seed)
    wires = [wire for wire in sorted(bits) if wire >= first][:count]
    return [" ".join([str(wire), encode(garbling, wire, 0).hex(),
                      encode(garbling, wire, bits[wire]).hex(), str(bits[wire])]) for wire in wires]


def audit(text, seed, garbled_data, label_data):
    """Whether a garbled file and label files are those of the circuit and the seed."""
    circuit, seed = read_circuit(text), read_seed(seed)
    garbled = read_garbled(garbled_data)
    label_files = [read_label_file(data) for data in label_data]
    garbling = garble(circuit, seed)
    counts = len(garbled.rows), len(garbled.decode_bits)
    is_sized = counts == (and_count(circuit), len(output_wires(circuit)))
    verdicts = [("digest", "right" if garbled.digest == digest(circuit) else "wrong"),
                ("counts", "right" if is_sized else "wrong")]
    if is_sized:
        verdicts += [("rows", judged_rows(circuit, garbling, garbled)),
                     ("bits", judged_bits(circuit, garbling, garbled))]
    if is_sized and garbled.decode_entries is not None:
        verdicts.append(("entries", judged_entries(circuit, garbling, garbled)))
    lines = [f"{part} {verdict}" for part, verdict in verdicts]
    is_honest = all(verdict == "right" for _, verdict in verdicts)
    for index, given in label_files:
        verdict, is_right = judged_labels(circuit, garbling, index, given)
        lines.append(f"labels {index} {verdict}".rstrip())
        is_honest = is_honest and is_right
    return [*lines, "honest" if is_honest else "dishonest"]


def differences(given, right):
    """The places where two lists of one length differ."""
    return [place for place, (a, b) in enumerate(zip(given, right)) if a != b]


def judged_rows(circuit, garbling, garbled):
    """The first AND gate whose rows are wrong: its number, its place, its wire and the rows."""
    wrong = differences(map(tuple, garbled.rows), map(tuple, garbling.rows))
    if not wrong:
        return "right"
    number = wrong[0]
    place = [i for i, gate in enumerate(circuit.gates) if gate.operation == "AND"][number]
    halves = differences(garbled.rows[number], garbling.rows[number])
    names = " ".join(("TG", "TE")[half] for half in halves)
    return f"wrong {number} gate {place} wire {circuit.gates[place].target} {names}"


def judged_bits(circuit, garbling, garbled):
    """The first output whose decode bit is wrong."""
    wrong = differences(garbled.decode_bits, decode_bits(circuit, garbling))
    return f"wrong {wrong[0]}" if wrong else "right"


def judged_entries(circuit, garbling, garbled):
    """The first output with a wrong decode entry, and the colour of that entry."""
    right = decode_entries(circuit, garbling)
    for output, pair in enumerate(right):
        wrong = differences(garbled.decode_entries[output], pair)
        if wrong:
            return f"wrong {output} {wrong[0]}"
    return "right"


def judged_labels(circuit, garbling, index, given):
    """The bits that a label file stands for, or what is wrong with it, and whether it is right."""
    if index >= len(circuit.input_widths):
        return "no value", False
    if len(given) != circuit.input_widths[index]:
        return "width", False
    bits = ""
    for wire, label in enumerate(given, sum(circuit.input_widths[:index])):
        both = [encode(garbling, wire, bit) for bit in (0, 1)]
        if label not in both:
            return f"wrong {wire}", False
        bits += str(both.index(label))
    return bits, True
