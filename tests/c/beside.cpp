/*
 * The C++ view beside the C calls: each method returns what its call writes, for each wire, value and output.
 *
 *   beside CIRCUIT FORGED..
 *
 * CIRCUIT has input values of 1 and 2 wires, output values of 2 and 1, and three AND gates. FORGED are garbled files of
 * it under a seed of bytes 3, each with a part that is wrong.
 */
#include "check.h"
#include <fstream>
#include <halfgates.hpp>
#include <iterator>
#include <string>

namespace {

using halfgates::bytes;
using halfgates::label;

enum { WIRES = 9, INPUTS = 3, OUTPUTS = 3, ANDS = 3 };

const bytes SEED(32, 3), OTHER_SEED(32, 4);

halfgates::seed seed_of(const bytes &it) {
    return halfgates::seed::from_bytes(it);
}

/* The bits of a number, the lowest first. */
std::array<std::uint8_t, INPUTS> bits_of(std::uint8_t number) {
    return {{std::uint8_t(number & 1), std::uint8_t(number >> 1 & 1), std::uint8_t(number >> 2 & 1)}};
}

bool are_same(const void *one, const void *other, std::size_t size) {
    return memcmp(one, other, size) == 0;
}

std::string read_file(const char *name) {
    std::ifstream file(name, std::ios::binary);
    CHECK(file);
    return {std::istreambuf_iterator<char>(file), std::istreambuf_iterator<char>()};
}

template <class Call>
void throws(std::int32_t code, Call call) {
    try {
        call();
    } catch (const halfgates::fault &fault) {
        CHECK(fault.code() == code);
        return;
    }
    CHECK(!"it throws");
}

void check_circuit(const halfgates::circuit &circuit) {
    halfgates_numbers numbers;
    std::uint32_t widths[2];
    std::uint8_t digest[32];
    CHECK_CODE(0, halfgates_circuit_numbers(circuit.get(), &numbers));
    CHECK(are_same(&numbers, &circuit.numbers(), sizeof numbers) && numbers.wires == WIRES);
    CHECK_CODE(0, halfgates_circuit_input_widths(circuit.get(), widths, 2));
    CHECK(circuit.input_widths() == std::vector<std::uint32_t>(widths, widths + 2) && widths[1] == 2);
    CHECK_CODE(0, halfgates_circuit_output_widths(circuit.get(), widths, 2));
    CHECK(circuit.output_widths() == std::vector<std::uint32_t>(widths, widths + 2) && widths[0] == 2);
    CHECK_CODE(0, halfgates_circuit_digest(circuit.get(), digest));
    CHECK(are_same(digest, circuit.digest().data(), sizeof digest));
    for (std::uint32_t version = 1; version <= 2; version++)
        CHECK(circuit.garbled_size(version) == halfgates_garbled_size(circuit.get(), version));
    CHECK(circuit.garbled_size() == circuit.garbled_size(2));
}

void check_wires(const halfgates::garbling &garbling) {
    label expected;
    for (std::uint32_t wire = 0; wire < WIRES; wire++) {
        CHECK_CODE(0, halfgates_zero_label(garbling.get(), wire, expected.data()));
        CHECK(garbling.zero_label(wire) == expected);
    }
    CHECK_CODE(0, halfgates_offset(garbling.get(), expected.data()));
    CHECK(garbling.offset() == expected && (expected[0] & 1) == 1);
    const bytes bits = garbling.decode_bits();
    CHECK(bits.size() == OUTPUTS);
    for (std::uint32_t output = 0; output < OUTPUTS; output++) {
        std::uint8_t bit;
        CHECK_CODE(0, halfgates_decode_bit(garbling.get(), output, &bit));
        CHECK(garbling.decode_bit(output) == (bit != 0) && bits[output] == bit);
    }
}

void check_labels(const halfgates::garbling &garbling) {
    const bytes bits = {1, 0, 1};
    halfgates_wire_labels expected[WIRES];
    CHECK_CODE(0, halfgates_labels(garbling.get(), bits.data(), bits.size(), 0, expected, WIRES));
    for (std::uint32_t from = 0; from <= WIRES; from++)
        for (std::size_t count = 0; count <= WIRES - from; count++) {
            const std::vector<halfgates_wire_labels> found = garbling.labels(bits, from, count);
            CHECK(found.size() == count);
            for (std::size_t i = 0; i < count; i++)
                CHECK(are_same(&found[i], &expected[from + i], sizeof found[i]));
        }
}

void check_pairs(const halfgates::garbling &garbling) {
    std::uint32_t input = 0, output = WIRES - OUTPUTS;
    for (std::uint32_t index = 0; index < 2; index++) {
        const halfgates::label_pairs in = garbling.input_labels(index), out = garbling.output_labels(index);
        CHECK(in.zero.size() == 1 + index && in.one.size() == in.zero.size());
        CHECK(out.zero.size() == 2 - index && out.one.size() == out.zero.size());
        const label offset = garbling.offset();
        for (std::size_t i = 0; i < in.zero.size(); i++) {
            CHECK(in.zero[i] == garbling.zero_label(input++));
            for (int byte = 0; byte < 16; byte++)
                CHECK(in.one[i][byte] == (in.zero[i][byte] ^ offset[byte]));
        }
        for (std::size_t i = 0; i < out.zero.size(); i++) {
            CHECK(out.zero[i] == garbling.zero_label(output++));
            for (int byte = 0; byte < 16; byte++)
                CHECK(out.one[i][byte] == (out.zero[i][byte] ^ offset[byte]));
        }
    }
    throws(42, [&] { (void)garbling.input_labels(2); });
    throws(42, [&] { (void)garbling.output_labels(2); });
}

void check_files(const halfgates::circuit &circuit, const halfgates::garbling &garbling) {
    for (std::uint32_t version = 1; version <= 2; version++) {
        bytes expected(circuit.garbled_size(version)), room(expected.size() + 1, 0xA5);
        std::size_t written;
        CHECK_CODE(0, halfgates_garbling_write(garbling.get(), version, expected.data(), expected.size(), &written));
        CHECK(garbling.write(version) == expected && garbling.garbled_size(version) == expected.size());
        CHECK(garbling.write_into(room.data(), room.size(), version) == expected.size());
        CHECK(are_same(room.data(), expected.data(), expected.size()) && room.back() == 0xA5);
    }
    bytes rows(32 * ANDS);
    CHECK_CODE(0, halfgates_rows(garbling.get(), rows.data(), rows.size()));
    CHECK(garbling.rows() == rows);
    const bytes file = garbling.write(1);
    CHECK(are_same(file.data() + 48, rows.data(), rows.size()));
    for (std::uint32_t from = 0; from <= ANDS; from++)
        for (std::uint32_t count = 0; count <= ANDS - from; count++)
            CHECK(garbling.rows_range(from, count) ==
                  bytes(rows.begin() + 32 * from, rows.begin() + 32 * (from + count)));
    std::uint8_t room[33];
    room[32] = 0xA5;
    garbling.rows_range_into(1, 1, room, sizeof room);
    CHECK(are_same(room, rows.data() + 32, 32) && room[32] == 0xA5);
    throws(60, [&] { (void)garbling.rows_range(1, ANDS); });
    throws(60, [&] { (void)garbling.rows_range(UINT32_MAX, UINT32_MAX); });
    throws(61, [&] { garbling.rows_range_into(0, 2, room, sizeof room); });
}

/* Each field of a report is what the C call finds. */
halfgates_audit_report check_audit(const halfgates::garbling &garbling, halfgates::view file) {
    halfgates_audit_report expected;
    CHECK_CODE(0, halfgates_audit(garbling.get(), file.data(), file.size(), &expected));
    const halfgates_audit_report found = garbling.audit(file);
    CHECK(are_same(&found, &expected, sizeof found));
    return found;
}

/* The same of row pairs and decode bits, with a byte or a bit that is wrong. */
void check_rows(const halfgates::garbling &garbling) {
    bytes rows = garbling.rows(), bits = garbling.decode_bits();
    const auto check = [&](bool honest) {
        halfgates_rows_report expected;
        CHECK_CODE(0, halfgates_audit_rows(garbling.get(), rows.data(), rows.size(), bits.data(), bits.size(),
                                           &expected));
        const halfgates_rows_report found = garbling.audit_rows(rows, bits);
        CHECK(found.honest == honest && found.honest == expected.honest && found.decode_bit == expected.decode_bit);
        CHECK(found.generator == expected.generator && found.evaluator == expected.evaluator);
        CHECK(found.row == expected.row && found.gate == expected.gate && found.wire == expected.wire);
        const std::vector<bool> truths(bits.begin(), bits.end());
        CHECK(garbling.audit_rows(rows, truths).decode_bit == expected.decode_bit);
    };
    check(true);
    for (std::uint8_t &it : rows) {
        it ^= 4;
        check(false);
        it ^= 4;
    }
    for (std::uint8_t &it : bits) {
        it ^= 1;
        check(false);
        it ^= 1;
    }
    throws(66, [&] { (void)garbling.audit_rows(bytes(32 * ANDS - 1), {}); });
    throws(16, [&] { (void)garbling.audit_rows(rows, {0, 1}); });
    throws(15, [&] { (void)garbling.audit_rows(rows, {0, 1, 2}); });
}

/* A circuit without its digest is the same circuit. */
void check_digests(const std::string &text, const halfgates::circuit &circuit) {
    halfgates::circuit bare = halfgates::circuit::read_without_digest(text);
    halfgates::circuit shared = bare.share();
    const halfgates::garbling garbling = bare.garble(seed_of(SEED));
    CHECK(bare.text() == circuit.text() && bare.input_widths() == circuit.input_widths());
    CHECK(garbling.rows() == circuit.garble(seed_of(SEED)).rows());
    throws(68, [&] { (void)bare.digest(); });
    throws(68, [&] { (void)bare.order().digest(); });
    throws(68, [&] { (void)bare.bind({}, {}); });
    throws(68, [&] { (void)garbling.write(); });
    throws(68, [&] { (void)garbling.garbled_size(); });
    throws(68, [&] { (void)garbling.audit({}); });
    std::vector<halfgates::garbling> list;
    list.push_back(bare.garble(seed_of(SEED)));
    throws(68, [&] { (void)halfgates::write_many(list); });
    bare.take_digest();
    CHECK(bare.digest() == circuit.digest() && bare.share().digest() == circuit.digest());
    CHECK(bare.garble(seed_of(SEED)).write() == circuit.garble(seed_of(SEED)).write());
    throws(68, [&] { (void)shared.digest(); });
    throws(68, [&] { (void)garbling.write(); });
    shared = std::move(bare);
    CHECK(shared.digest() == circuit.digest());
    throws(64, [&] { bare.take_digest(); });
}

void check_audits(const halfgates::circuit &circuit, const halfgates::garbling &garbling, int count, char **forged) {
    halfgates::circuit other(std::string("1 3\n2 1 1\n1 1\n\n2 1 0 1 2 AND\n"));
    const bytes first = garbling.write(1), second = garbling.write(2), another = other.garble(seed_of(SEED)).write();
    CHECK(check_audit(garbling, first).honest && check_audit(garbling, second).honest);
    CHECK(!check_audit(garbling, another).counts);
    CHECK(count > 0);
    for (int i = 0; i < count; i++) {
        const std::string file = read_file(forged[i]);
        CHECK(!check_audit(garbling, file).honest);
    }
    for (std::uint32_t index = 0; index < 2; index++) {
        const bytes bits(index + 1, 1), file = circuit.deal(seed_of(SEED), index, bits);
        CHECK(garbling.audit_labels(file).bits == bits && garbling.audit_labels(file).report.verdict == 0);
        CHECK(garbling.deal(index, bits) == file);
        const bytes wrong = circuit.deal(seed_of(OTHER_SEED), index, bits);
        std::uint8_t room[4];
        halfgates_labels_report expected;
        CHECK_CODE(0, halfgates_audit_labels(garbling.get(), wrong.data(), wrong.size(), room, 4, &expected));
        const halfgates::labels_audit found = garbling.audit_labels(wrong);
        CHECK(are_same(&found.report, &expected, sizeof expected) && found.bits.empty());
        CHECK(found.report.verdict == HALFGATES_WRONG_LABEL && found.report.index == index);
    }
}

/* Label files of different sizes, in both orders; those of another seed are refused. */
void check_jobs(const halfgates::circuit &circuit, const halfgates::garbling &garbling) {
    for (std::uint8_t number = 0; number < 8; number++) {
        const std::array<std::uint8_t, INPUTS> bits = bits_of(number);
        const bytes first = garbling.deal(0, {bits[0]}), second = garbling.deal(1, {bits[1], bits[2]});
        bytes expected(OUTPUTS), joined = second;
        CHECK_CODE(0, halfgates_plain(circuit.get(), bits.data(), INPUTS, expected.data(), OUTPUTS));
        CHECK(circuit.plain(bits) == expected);
        joined.insert(joined.end(), first.begin(), first.end());
        for (std::uint32_t version = 1; version <= 2; version++) {
            const bytes garbled = garbling.write(version);
            CHECK(circuit.bind(garbled, {first, second}).evaluate() == expected);
            CHECK(circuit.bind(garbled, {second, first}).evaluate() == expected);
            halfgates::job job = circuit.bind(garbled, joined, {second.size(), first.size()});
            CHECK(job.evaluate() == expected);
            CHECK(halfgates::decode(job.output_labels(), garbling.decode_bits()) == expected);
        }
    }
    const bytes other[] = {circuit.deal(seed_of(OTHER_SEED), 0, {1}), circuit.deal(seed_of(OTHER_SEED), 1, {1, 1})};
    halfgates::job job = circuit.bind(garbling.write(2), {other[0], other[1]});
    throws(48, [&] { (void)job.evaluate(); });
}

/* Lists of 0 to 9 jobs have the bits that each job has alone. One that isn't honest is a fault, wherever it is. */
void check_lists_of_jobs(const halfgates::circuit &circuit, const halfgates::garbling &garbling) {
    const bytes garbled = garbling.write();
    std::vector<halfgates::job> jobs;
    std::vector<bytes> expected;
    for (std::uint8_t number = 0; number < 10; number++) {
        CHECK(halfgates::evaluate_many(jobs) == expected);
        const std::array<std::uint8_t, INPUTS> bits = bits_of(number % 8);
        jobs.push_back(circuit.bind(garbled, {garbling.deal(0, {bits[0]}), garbling.deal(1, {bits[1], bits[2]})}));
        expected.push_back(jobs.back().evaluate());
        CHECK(expected.back() == circuit.plain(bits) && jobs.back().outputs() == OUTPUTS);
    }
    const halfgates::seed other = seed_of(OTHER_SEED);
    const std::vector<halfgates::outcome> all = halfgates::evaluate_each(jobs);
    CHECK(all.size() == jobs.size() && halfgates::evaluate_each({}).empty());
    for (std::size_t i = 0; i < jobs.size(); i++)
        CHECK(all[i].code == HALFGATES_OK && all[i].bits == expected[i]);
    jobs[6] = circuit.bind(garbled, {circuit.deal(other, 0, {1}), circuit.deal(other, 1, {1, 1})});
    throws(48, [&] { (void)halfgates::evaluate_many(jobs); });
    expected[6].clear();
    std::size_t number = 0;
    for (const halfgates::outcome &it : halfgates::evaluate_each(jobs)) {
        CHECK(it.code == (number == 6 ? HALFGATES_UNKNOWN_OUTPUT_LABEL : HALFGATES_OK));
        CHECK(it.bits == expected[number++]);
    }
}

/* From labels of one's own, under a first AND number of one's own. */
void check_own_labels(const halfgates::circuit &circuit) {
    const std::uint64_t first = (1ULL << 62) - ANDS;
    const label offset = {{0x35, 1, 2}};
    halfgates::labels zeros(INPUTS), active(INPUTS);
    for (std::uint8_t wire = 0; wire < INPUTS; wire++)
        zeros[wire].fill(wire + 1);
    halfgates::garbling garbling = circuit.garble_from(offset, zeros, first);
    CHECK(garbling.offset() == offset);
    check_rows(garbling);
    CHECK(garbling.audit_labels(garbling.deal(1, {1, 0})).bits == bytes({1, 0}));
    for (std::uint8_t number = 0; number < 8; number++) {
        const std::array<std::uint8_t, INPUTS> bits = bits_of(number);
        halfgates::label_pairs pairs[] = {garbling.input_labels(0), garbling.input_labels(1)};
        active[0] = bits[0] ? pairs[0].one[0] : pairs[0].zero[0];
        active[1] = bits[1] ? pairs[1].one[0] : pairs[1].zero[0];
        active[2] = bits[2] ? pairs[1].one[1] : pairs[1].zero[1];
        const halfgates::labels outputs = circuit.evaluate_labels(garbling.rows(), active, first);
        CHECK(halfgates::decode(outputs, garbling.decode_bits()) == circuit.plain(bits));
        const halfgates::labels two(outputs.begin(), outputs.begin() + 2);
        const bytes opened = garbling.open(0, two), plain = circuit.plain(bits);
        CHECK(opened == bytes(plain.begin(), plain.begin() + 2));
        CHECK(garbling.open(1, outputs[2]) == bytes{plain[2]});
        throws(63, [&] { (void)garbling.open(1, outputs[1]); });
        throws(66, [&] { (void)garbling.open(1, two); });
        throws(42, [&] { (void)garbling.open(2, two); });
        const halfgates::label_pairs last = garbling.output_labels(1);
        CHECK(outputs[2] == (circuit.plain(bits)[2] ? last.one[0] : last.zero[0]));
    }
    CHECK(circuit.garble_from(offset, zeros, 0).rows() != garbling.rows());
    CHECK(circuit.label_file(1, halfgates::labels{zeros[1], zeros[2]}) == garbling.deal(1, {0, 0}));
    throws(60, [&] { (void)circuit.garble_from(offset, zeros, first + 1); });
    throws(60, [&] { (void)circuit.garble_from(label(), zeros, first); });
    throws(66, [&] { (void)circuit.garble_from(offset, bytes(47), first); });
    throws(60, [&] { (void)garbling.write(); });
    throws(60, [&] { (void)circuit.evaluate_labels(garbling.rows(), zeros, first + 1); });
    throws(66, [&] { (void)halfgates::decode(zeros, {1}); });
    throws(15, [&] { (void)halfgates::decode(zeros, {1, 0, 2}); });
    throws(42, [&] { (void)circuit.label_file(2, zeros); });
}

/* What a garbler and an evaluator have in pieces is what the garbling and evaluate_labels have at once. */
void check_pieces(const halfgates::circuit &circuit, halfgates::garbler garbler, const halfgates::garbling &garbling,
                  std::uint64_t first, std::size_t and_gates) {
    halfgates::labels active;
    for (std::uint32_t index = 0; index < 2; index++) {
        const halfgates::label_pairs expected = garbling.input_labels(index), found = garbler.input_labels(index);
        CHECK(found.zero == expected.zero && found.one == expected.one);
        active.insert(active.end(), found.one.begin(), found.one.end());
    }
    CHECK(garbler.offset() == garbling.offset() && garbler.left() == ANDS);
    throws(42, [&] { (void)garbler.input_labels(2); });
    throws(67, [&] { (void)garbler.output_labels(0); });
    throws(67, [&] { (void)garbler.decode_bits(); });
    throws(61, [&] { (void)garbler.next(0); });

    halfgates::evaluator evaluator = circuit.evaluator(first, active);
    bytes joined;
    throws(67, [&] { (void)evaluator.output_labels(); });
    throws(66, [&] { (void)evaluator.feed(bytes(32 * (ANDS + 1))); });
    for (bytes rows = garbler.next(and_gates); !rows.empty(); rows = garbler.next(and_gates)) {
        bytes more = rows;
        more.resize(rows.size() + 31);
        CHECK(evaluator.feed(more) == rows.size() && evaluator.feed(bytes(31)) == 0);
        joined.insert(joined.end(), rows.begin(), rows.end());
        CHECK(garbler.left() == ANDS - joined.size() / 32 && evaluator.left() == garbler.left());
    }
    CHECK(joined == garbling.rows() && garbler.next(0).empty());
    for (std::uint32_t index = 0; index < 2; index++) {
        const halfgates::label_pairs expected = garbling.output_labels(index), found = garbler.output_labels(index);
        CHECK(found.zero == expected.zero && found.one == expected.one);
    }
    throws(42, [&] { (void)garbler.output_labels(2); });
    CHECK(garbler.decode_bits() == garbling.decode_bits());
    CHECK(evaluator.output_labels() == circuit.evaluate_labels(joined, active, first));
}

void check_streaming(const halfgates::circuit &circuit) {
    const std::uint64_t first = (1ULL << 62) - ANDS;
    const label offset = {{0x35, 1, 2}};
    const halfgates::labels zeros(INPUTS, label{{7}});
    for (std::size_t and_gates = 1; and_gates <= ANDS + 1; and_gates++) {
        check_pieces(circuit, circuit.garbler(seed_of(SEED)), circuit.garble(seed_of(SEED)), 0, and_gates);
        check_pieces(circuit, circuit.garbler_from(offset, zeros, first), circuit.garble_from(offset, zeros, first),
                     first, and_gates);
    }
    throws(66, [&] { (void)circuit.garbler_from(offset, bytes(47), first); });
    throws(60, [&] { (void)circuit.garbler_from(offset, zeros, first + 1); });
    throws(66, [&] { (void)circuit.evaluator(first + 1, bytes(47)); });
    throws(60, [&] { (void)circuit.evaluator(first + 1, zeros); });
    bytes room(32 * ANDS + 7, 0xA5);
    halfgates::garbler garbler = circuit.garbler(seed_of(SEED));
    CHECK(garbler.rows_into(room.data(), 63) == 32 && garbler.rows_into(room.data() + 32, room.size() - 32) == 64);
    CHECK(garbler.rows_into(nullptr, 0) == 0 && room.back() == 0xA5);
    room.resize(32 * ANDS);
    CHECK(room == circuit.garble(seed_of(SEED)).rows());
}

/* The gates of the circuit make it, and a gate that is wrong is named. */
void check_gates(const halfgates::circuit &circuit) {
    const std::uint32_t XOR = HALFGATES_XOR, AND = HALFGATES_AND, INV = HALFGATES_INV;
    std::vector<halfgates_gate> gates = {{AND, 0, 1, 3}, {XOR, 0, 2, 4}, {AND, 4, 2, 5},
                                         {INV, 3, 0, 6}, {AND, 5, 1, 7}, {XOR, 4, 5, 8}};
    CHECK(halfgates::circuit::from_gates(gates, WIRES, {1, 2}, {2, 1}).digest() == circuit.digest());
    halfgates::circuit bare = halfgates::circuit::from_gates_without_digest(gates, WIRES, {1, 2}, {2, 1});
    throws(68, [&] { (void)bare.digest(); });
    bare.take_digest();
    CHECK(bare.digest() == circuit.digest());
    gates[4].second = 8;
    try {
        (void)halfgates::circuit::from_gates(gates, WIRES, {1, 2}, {2, 1});
        CHECK(!"it throws");
    } catch (const halfgates::gate_fault &fault) {
        CHECK(fault.code() == HALFGATES_UNSET && fault.gate() == 4 && fault.wire() == 8);
    }
    throws(8, [&] { (void)halfgates::circuit::from_gates_without_digest(gates, WIRES, {1, 2}, {2, 1}); });
    try {
        (void)halfgates::circuit::from_gates({}, 1, {1, 2}, {});
        CHECK(!"it throws");
    } catch (const halfgates::gate_fault &fault) {
        CHECK(fault.code() == HALFGATES_WIDTHS_EXCEED_WIRES && fault.gate() == HALFGATES_NONE);
    }
    CHECK(halfgates::circuit::from_gates({}, 0, {}, {}).numbers().wires == 0);
}

/* Garblings under several seeds are those under each of them. */
void check_many(halfgates::circuit &circuit) {
    const std::vector<halfgates::seed> keys{seed_of(SEED), halfgates::seed::random(), halfgates::seed::random()};
    std::vector<halfgates::garbling> garblings = circuit.garble_many(keys);
    CHECK(garblings.size() == keys.size() && circuit.garble_many({}).empty());
    for (std::size_t i = 0; i < keys.size(); i++)
        CHECK(garblings[i].write() == circuit.garble(keys[i]).write());
}

/* Lists of 0 to 9 garblings have the files that each garbling has alone. What is behind them stays. */
void check_lists_of_garblings(const halfgates::circuit &circuit) {
    const halfgates::circuit other(std::string("1 3\n2 1 1\n1 1\n\n2 1 0 1 2 AND\n"));
    for (std::uint32_t version = 1; version <= 2; version++) {
        std::vector<halfgates::garbling> garblings;
        std::vector<halfgates_garbling *> handles;
        std::vector<bytes> expected;
        bytes joined;
        for (int number = 0; number < 10; number++) {
            CHECK(halfgates::write_many(garblings, version) == expected);
            bytes room(joined.size() + 1, 0xA5);
            CHECK_CODE(0, halfgates_write_many(handles.data(), handles.size(), version, room.data(), room.size()));
            CHECK(std::equal(joined.begin(), joined.end(), room.begin()) && room.back() == 0xA5);
            garblings.push_back((number % 4 == 2 ? other : circuit).garble(halfgates::seed::random()));
            handles.push_back(garblings.back().get());
            expected.push_back(garblings.back().write(version));
            joined.insert(joined.end(), expected.back().begin(), expected.back().end());
        }
        throws(60, [&] { (void)halfgates::write_many(garblings, 3); });
    }
    throws(60, [&] { (void)halfgates::write_many({}, 0); });
}

} // namespace

int main(int count, char **words) {
    CHECK(count > 1);
    const std::string text = read_file(words[1]);
    halfgates::circuit circuit(text);
    halfgates::garbling garbling = circuit.garble(seed_of(SEED));
    check_circuit(circuit);
    check_wires(garbling);
    check_labels(garbling);
    check_pairs(garbling);
    check_files(circuit, garbling);
    check_audits(circuit, garbling, count - 2, words + 2);
    check_rows(garbling);
    check_digests(text, circuit);
    check_jobs(circuit, garbling);
    check_lists_of_jobs(circuit, garbling);
    check_own_labels(circuit);
    check_many(circuit);
    check_streaming(circuit);
    check_gates(circuit);
    check_lists_of_garblings(circuit);
    CHECK(halfgates::locate(text).fault == HALFGATES_OK);
    CHECK(halfgates::locate(std::string("1 5 x")).column == 5);
    CHECK(halfgates::explain(text).empty());
    CHECK(halfgates::explain(std::string("1 5 x")) == "expected a number from 0 to 4294967295");
    return 0;
}
