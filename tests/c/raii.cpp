/* The C++ view: handles move and free themselves, what its calls throw, and what its types refuse. */
#include "check.h"
#include <algorithm>
#include <halfgates.hpp>
#include <memory>
#include <string>
#include <type_traits>

namespace {

using halfgates::bytes;

const std::string TEXT = FULL_ADDER;

halfgates::seed seed_of(std::uint8_t byte) {
    return halfgates::seed::from_bytes(bytes(32, byte));
}

template <class Call>
void throws(std::int32_t code, const char *what, Call call) {
    try {
        call();
    } catch (const halfgates::fault &fault) {
        CHECK(fault.code() == code);
        CHECK(std::string(fault.what()) == what);
        CHECK(std::string(what).find(fault.name()) != std::string::npos);
        CHECK(!fault.is_memory());
        return;
    }
    CHECK(!"it throws");
}

/* Whether a variable of a type can be made of a list of two bytes, and of nothing. */
template <class T>
auto takes_list(int) -> decltype(T{1, 1}, std::true_type());
template <class T>
std::false_type takes_list(...);
template <class T>
auto takes_nothing(int) -> decltype(T{}, std::true_type());
template <class T>
std::false_type takes_nothing(...);

struct not_bytes {
    int data() const { return 0; }
    int size() const { return 0; }
};

void check_types() {
    using halfgates::circuit;
    using halfgates::view;
    static_assert(!decltype(takes_list<view>(0))::value, "the list is gone before the view is");
    static_assert(!std::is_constructible<view, bytes>::value, "a temporary is gone before the view is");
    static_assert(!std::is_convertible<bytes, view>::value, "a temporary is gone before the view is");
    static_assert(std::is_convertible<bytes &, view>::value, "a vector has bytes");
    static_assert(std::is_convertible<const std::string &, view>::value, "a string has bytes");
    static_assert(std::is_convertible<halfgates::labels &, view>::value, "labels have bytes");
    static_assert(!std::is_convertible<int, view>::value, "a number has no bytes");
    static_assert(!std::is_convertible<std::vector<int> &, view>::value, "items of several bytes aren't bytes");
    static_assert(!std::is_convertible<not_bytes &, view>::value, "data() isn't a pointer");
    static_assert(!std::is_constructible<circuit, int>::value, "a number is no text");
    static_assert(!std::is_constructible<circuit, not_bytes>::value, "data() isn't a pointer");
    static_assert(!std::is_constructible<circuit, std::vector<bool>>::value, "bits are no text");
    static_assert(!std::is_convertible<const char *, circuit>::value, "a text isn't read by accident");
    static_assert(!std::is_convertible<circuit, bool>::value, "a handle isn't compared by accident");
    static_assert(!decltype(takes_nothing<halfgates::seed>(0))::value, "no seed is made by accident");
    static_assert(!std::is_constructible<halfgates::seed, std::array<std::uint8_t, 32>>::value, "by name alone");
    static_assert(!std::is_copy_constructible<circuit>::value, "handles aren't copied");
    static_assert(std::is_nothrow_move_constructible<circuit>::value, "handles are moved");
    static_assert(std::is_nothrow_move_constructible<halfgates::garbling>::value, "handles are moved");
    static_assert(std::is_nothrow_move_constructible<halfgates::job>::value, "handles are moved");
    static_assert(std::is_nothrow_move_constructible<halfgates::garbler>::value, "handles are moved");
    static_assert(std::is_nothrow_move_constructible<halfgates::evaluator>::value, "handles are moved");
    static_assert(!std::is_copy_constructible<halfgates::garbler>::value, "handles aren't copied");
    static_assert(!std::is_copy_constructible<halfgates::evaluator>::value, "handles aren't copied");
}

void check_seeds() {
    const halfgates::seed first = halfgates::seed::random();
    std::array<std::uint8_t, 32> differences{};
    for (int i = 0; i < 16; i++) {
        const halfgates::seed other = halfgates::seed::random();
        for (std::size_t byte = 0; byte < differences.size(); byte++)
            differences[byte] |= std::uint8_t(first.data()[byte] ^ other.data()[byte]);
    }
    CHECK(std::count(differences.begin(), differences.end(), 0) == 0);
    const bytes given(32, 7);
    CHECK(memcmp(halfgates::seed::from_bytes(given).data(), given.data(), 32) == 0);
    throws(66, "fault 66 WrongSize: given has 0 bytes, and 32 are expected",
           [] { (void)halfgates::seed::from_bytes({}); });
    throws(66, "fault 66 WrongSize: given has 31 bytes, and 32 are expected",
           [] { (void)halfgates::seed::from_bytes(bytes(31)); });
    throws(66, "fault 66 WrongSize: given has 33 bytes, and 32 are expected",
           [] { (void)halfgates::seed::from_bytes(bytes(33)); });
}

/* What a call returns is as long as the circuit says: it has 3 inputs, 1 AND gate and 2 outputs. Garblings and jobs
 * outlive it. */
void check_sizes() {
    std::unique_ptr<halfgates::circuit> circuit(new halfgates::circuit(TEXT));
    const halfgates::garbling garbling = circuit->garble(seed_of(1));
    halfgates::labels active;
    std::vector<bytes> files;
    for (std::uint32_t index = 0; index < 3; index++) {
        active.push_back(garbling.input_labels(index).one[0]);
        files.push_back(garbling.deal(index, {1}));
    }
    const halfgates::view view(active);
    CHECK(circuit->evaluate_labels(garbling.rows(), view, 0).size() == 2);
    const halfgates::job job = circuit->bind(garbling.write(), files);
    circuit.reset();
    CHECK(garbling.rows().size() == 32 && garbling.decode_bits().size() == 2);
    CHECK(garbling.input_labels(2).one[0] == active[2] && garbling.output_labels(0).zero.size() == 2);
    CHECK(job.output_labels().size() == 2 && job.evaluate() == bytes({1, 1}));
    CHECK(garbling.garbled_size() == 177 && garbling.garbled_size(1) == 113);
    std::vector<halfgates::garbling> one;
    one.push_back(halfgates::circuit(TEXT).garble(seed_of(1)));
    CHECK(halfgates::write_many(one)[0] == garbling.write(2));

    const halfgates::circuit empty(std::string("0 1\n1 1\n1 0\n"));
    CHECK(empty.evaluate_labels({}, halfgates::labels(1), 0).empty());
    CHECK(empty.garble(seed_of(1)).output_labels(0).zero.empty());
}

/* What a call reads may be a list, a temporary, a view, or a pointer and a size. */
void check_inputs() {
    const halfgates::circuit circuit(TEXT);
    const bytes bits = {0, 1, 1}, expected = {0, 1};
    const std::array<std::uint8_t, 3> array = {{0, 1, 1}};
    const halfgates::view view(bits);
    CHECK(circuit.plain(bits) == expected);
    CHECK(circuit.plain(array) == expected);
    CHECK(circuit.plain(view) == expected);
    CHECK(circuit.plain(bytes{0, 1, 1}) == expected);
    CHECK(circuit.plain({0, 1, 1}) == expected);
    CHECK(circuit.plain({bits.data(), bits.size()}) == expected);
    CHECK(circuit.plain(std::string("\0\1\1", 3)) == expected);
}

/* A text may end with a zero byte. */
void check_texts() {
    char and_gate[] = "1 3\n2 1 1\n1 1\n2 1 0 1 2 AND";
    CHECK(halfgates::circuit(FULL_ADDER).digest() == halfgates::circuit(TEXT).digest());
    CHECK(halfgates::circuit("1 3\n2 1 1\n1 1\n2 1 0 1 2 AND").numbers().and_gates == 1);
    CHECK(halfgates::circuit(and_gate).numbers().and_gates == 1);
    CHECK(halfgates::locate(FULL_ADDER).fault == 0 && halfgates::locate("1 5 x").column == 5);
    CHECK(halfgates::explain(FULL_ADDER).empty() && halfgates::explain(TEXT).empty());
    CHECK(halfgates::explain("1 5 x") == "expected a number from 0 to 4294967295");
    throws(2, "fault 2 BadNumber: line 2, column 1: expected a number from 0 to 4294967295",
           [] { halfgates::circuit it("1\nx"); });
    throws(9,
           "fault 9 SetTwice: line 4, column 9: gate 0, wire 1: the gate sets an input wire, or a wire that an earlier "
           "gate sets",
           [] { halfgates::circuit it("1 3\n2 1 1\n1 1\n2 1 0 1 1 XOR"); });
    const char *none = nullptr;
    throws(64, "fault 64 NullPointer", [&] { halfgates::circuit it(none); });
    throws(64, "fault 64 NullPointer", [&] { (void)halfgates::locate(none); });
    throws(64, "fault 64 NullPointer", [&] { (void)halfgates::explain(none); });
}

/* Bits may be of a vector<bool>, wherever bits are read. */
void check_bits() {
    const halfgates::circuit circuit(TEXT);
    const halfgates::garbling garbling = circuit.garble(seed_of(1));
    const std::vector<bool> bits = {false, true, true}, one = {true};
    CHECK(circuit.plain(bits) == bytes({0, 1}));
    CHECK(circuit.deal(seed_of(1), 0, one) == garbling.deal(0, {1}) && garbling.deal(0, one) == garbling.deal(0, {1}));
    CHECK(garbling.labels(bits, 1, 1)[0].bit == 1 && garbling.labels(bits, 0, 1)[0].bit == 0);
    const halfgates::labels zeros = {garbling.output_labels(0).zero[0], garbling.output_labels(0).zero[1]};
    const bytes decoding = garbling.decode_bits();
    CHECK(halfgates::decode(zeros, std::vector<bool>(decoding.begin(), decoding.end())) == bytes({0, 0}));
    throws(16, "fault 16 WrongLength", [&] { (void)circuit.plain(std::vector<bool>()); });
}

void check_faults() {
    const halfgates::circuit circuit(TEXT);
    const halfgates::garbling garbling = circuit.garble(seed_of(0));
    throws(1, "fault 1 Truncated: line 1, column 1: the text ends before the circuit does",
           [] { halfgates::circuit it(bytes{}); });
    throws(16, "fault 16 WrongLength", [&] { (void)circuit.plain({1}); });
    throws(42, "fault 42 NoSuchValue", [&] { (void)circuit.deal(seed_of(0), 3, {1}); });
    throws(45, "fault 45 MissingValue", [&] { (void)circuit.bind(garbling.write(), {}); });
    throws(60, "fault 60 BadArgument", [&] { (void)garbling.write(3); });
    throws(60, "fault 60 BadArgument", [&] { (void)circuit.garbled_size(3); });
    throws(60, "fault 60 BadArgument", [&] { (void)garbling.garbled_size(3); });
    throws(64, "fault 64 NullPointer", [] { (void)halfgates::locate({nullptr, 1}); });
    throws(60, "fault 60 BadArgument", [&] { (void)garbling.decode_bit(2); });
    throws(60, "fault 60 BadArgument", [&] { (void)garbling.zero_label(8); });
    throws(31, "fault 31 Truncated", [&] { (void)garbling.audit(bytes{}); });
    throws(31, "fault 31 Truncated", [&] { (void)garbling.audit_labels(bytes{}); });
    for (std::size_t count : {SIZE_MAX, SIZE_MAX / 33, SIZE_MAX / 2, std::size_t(9)}) {
        throws(60, "fault 60 BadArgument", [&] { (void)garbling.labels({1, 0, 1}, 0, count); });
        throws(60, "fault 60 BadArgument", [&] { (void)garbling.labels({1, 0, 1}, UINT32_MAX, count); });
    }
    throws(60, "fault 60 BadArgument", [&] { (void)garbling.labels({1, 0, 1}, 9, 0); });
    CHECK(garbling.labels({1, 0, 1}, 8, 0).empty());
    throws(60, "fault 60 BadArgument", [&] { (void)garbling.labels({1, 0, 1}, 5, SIZE_MAX); });
    for (std::int32_t code = 0; code < 100; code++)
        CHECK(halfgates::fault(code).is_memory() == (halfgates_is_memory(code) != 0));
}

/* A fault 66 or 61 names the parameter, and says how many bytes it has and how many are expected. */
void check_sizes_of_faults() {
    const halfgates::circuit circuit(TEXT);
    const halfgates::garbling garbling = circuit.garble(seed_of(0));
    const halfgates::label offset = {{1}};
    halfgates::garbler garbler = circuit.garbler(seed_of(0));
    halfgates::evaluator evaluator = circuit.evaluator(0, bytes(48));
    std::uint8_t small[176];
    throws(66, "fault 66 WrongSize: zero_labels has 47 bytes, and 48 are expected",
           [&] { (void)circuit.garble_from(offset, bytes(47), 0); });
    throws(66, "fault 66 WrongSize: zero_labels has 49 bytes, and 48 are expected",
           [&] { (void)circuit.garbler_from(offset, bytes(49), 0); });
    throws(66, "fault 66 WrongSize: active has 0 bytes, and 48 are expected", [&] { (void)circuit.evaluator(0, {}); });
    throws(66, "fault 66 WrongSize: rows has 33 bytes, and 32 are expected",
           [&] { (void)circuit.evaluate_labels(bytes(33), bytes(47), 0); });
    throws(66, "fault 66 WrongSize: active has 47 bytes, and 48 are expected",
           [&] { (void)circuit.evaluate_labels(bytes(32), bytes(47), 0); });
    throws(66, "fault 66 WrongSize: received has 32 bytes, and 16 are expected",
           [&] { (void)circuit.label_file(2, bytes(32)); });
    throws(66, "fault 66 WrongSize: files has 96 bytes, and 97 are expected",
           [&] { (void)circuit.bind(garbling.write(), bytes(96), {32, 32, 33}); });
    throws(66, "fault 66 WrongSize: returned has 16 bytes, and 32 are expected",
           [&] { (void)garbling.open(0, bytes(16)); });
    throws(66, "fault 66 WrongSize: rows has 31 bytes, and 32 are expected",
           [&] { (void)garbling.audit_rows(bytes(31), {0, 1}); });
    throws(66, "fault 66 WrongSize: rows has 64 bytes, and 32 are expected",
           [&] { (void)evaluator.feed(bytes(64)); });
    throws(66, "fault 66 WrongSize: active has 17 bytes, and 16 are expected",
           [] { (void)halfgates::decode(bytes(17), {1}); });
    throws(61, "fault 61 SmallBuffer: buffer has 176 bytes, and at least 177 are expected",
           [&] { garbling.write_into(small, sizeof small); });
    throws(61, "fault 61 SmallBuffer: buffer has 31 bytes, and at least 32 are expected",
           [&] { garbling.rows_into(small, 31); });
    throws(61, "fault 61 SmallBuffer: buffer has 0 bytes, and at least 32 are expected",
           [&] { garbling.rows_range_into(0, 1, nullptr, 0); });
    throws(61, "fault 61 SmallBuffer: buffer has 31 bytes, and at least 32 are expected",
           [&] { garbler.rows_into(small, 31); });
    throws(42, "fault 42 NoSuchValue", [&] { (void)circuit.label_file(3, {}); });
    throws(68, "fault 68 NoDigest", [] { (void)halfgates::circuit::read_without_digest(FULL_ADDER).digest(); });
    throws(2, "fault 2 BadNumber: line 1, column 3: expected a number from 0 to 4294967295",
           [] { (void)halfgates::circuit::read_without_digest("1 x"); });
}

void check_moves() {
    halfgates::circuit first(TEXT);
    halfgates::circuit second = std::move(first);
    CHECK(first.get() == nullptr);
    throws(64, "fault 64 NullPointer", [&] { (void)first.garble(seed_of(0)); });
    halfgates::garbling garbling = second.garble(seed_of(0));
    garbling = second.garble(seed_of(1));
    CHECK(garbling.write().size() == 177);
    halfgates::garbling moved = std::move(garbling);
    throws(64, "fault 64 NullPointer", [&] { (void)garbling.input_labels(0); });
    throws(64, "fault 64 NullPointer", [&] { (void)garbling.rows(); });
    CHECK(moved.write().size() == 177);
    first = second.share();
    halfgates::circuit third = first.share();
    second = std::move(third);
    CHECK(first.digest() == second.digest() && first.garble(seed_of(1)).write() == moved.write());
}

/* In order of AND depth the AND gate comes after three gates of depth 0. */
void check_order() {
    const halfgates::circuit circuit(TEXT);
    const halfgates::circuit ordered = circuit.order();
    CHECK(ordered.text() != circuit.text() && ordered.digest() != circuit.digest());
    CHECK(halfgates::circuit(ordered.text()).digest() == ordered.digest());
    CHECK(ordered.order().text() == ordered.text());
    CHECK(ordered.numbers().and_gates == 1 && ordered.input_widths() == circuit.input_widths());
    CHECK(ordered.plain({1, 0, 1}) == circuit.plain({1, 0, 1}));
    throws(64, "fault 64 NullPointer", [&] { (void)halfgates::circuit().order(); });
    throws(64, "fault 64 NullPointer", [&] { (void)halfgates::circuit().text(); });
}

/* Handles of nothing can be assigned to, and are refused by calls until then. */
void check_handles_of_nothing() {
    halfgates::circuit circuit;
    halfgates::garbling garbling;
    halfgates::job job;
    halfgates::garbler garbler;
    halfgates::evaluator evaluator;
    CHECK(!circuit && !garbling && !job && !garbler && !evaluator);
    CHECK(garbler.left() == 0 && evaluator.left() == 0);
    CHECK(circuit.numbers().wires == 0 && circuit.input_widths().empty() && circuit.digest()[0] == 0);
    throws(64, "fault 64 NullPointer", [&] { circuit.take_digest(); });
    throws(64, "fault 64 NullPointer", [&] { (void)garbling.audit_rows({}, {}); });
    throws(64, "fault 64 NullPointer", [&] { (void)circuit.plain({}); });
    throws(64, "fault 64 NullPointer", [&] { (void)circuit.share(); });
    throws(64, "fault 64 NullPointer", [&] { (void)garbling.write(); });
    throws(64, "fault 64 NullPointer", [&] { (void)garbling.rows(); });
    throws(64, "fault 64 NullPointer", [&] { (void)job.evaluate(); });
    throws(64, "fault 64 NullPointer", [&] { (void)garbling.rows_range(0, 0); });
    throws(64, "fault 64 NullPointer", [&] { (void)garbling.open(0, {}); });
    throws(64, "fault 64 NullPointer", [&] { (void)garbler.next(1); });
    throws(64, "fault 64 NullPointer", [&] { (void)garbler.input_labels(0); });
    throws(64, "fault 64 NullPointer", [&] { (void)garbler.decode_bits(); });
    throws(64, "fault 64 NullPointer", [&] { (void)evaluator.feed({}); });
    throws(64, "fault 64 NullPointer", [&] { (void)evaluator.output_labels(); });
    throws(64, "fault 64 NullPointer", [] { (void)halfgates::evaluate_each(std::vector<halfgates::job>(1)); });
    throws(64, "fault 64 NullPointer", [] { (void)halfgates::write_many(std::vector<halfgates::garbling>(1)); });
    throws(64, "fault 64 NullPointer", [] { (void)halfgates::evaluate_many(std::vector<halfgates::job>(1)); });
    circuit = halfgates::circuit(TEXT);
    garbler = circuit.garbler(seed_of(1));
    evaluator = circuit.evaluator(0, halfgates::labels(3));
    halfgates::garbler moved_garbler = std::move(garbler);
    halfgates::evaluator moved_evaluator = std::move(evaluator);
    throws(64, "fault 64 NullPointer", [&] { (void)garbler.offset(); });
    CHECK(garbler.left() == 0 && evaluator.left() == 0 && moved_garbler.left() == 1);
    throws(64, "fault 64 NullPointer", [&] { (void)evaluator.feed({}); });
    CHECK(moved_evaluator.feed(moved_garbler.next(9)) == 32 && moved_evaluator.output_labels().size() == 2);
    garbling = circuit.garble(seed_of(1));
    job = circuit.bind(garbling.write(), {garbling.deal(0, {1}), garbling.deal(1, {0}), garbling.deal(2, {1})});
    CHECK(circuit && garbling && job && job.evaluate() == bytes({0, 1}));
    const halfgates::job moved = std::move(job);
    CHECK(moved && !job);
}

} // namespace

int main() {
    check_types();
    check_seeds();
    check_sizes();
    check_inputs();
    check_texts();
    check_bits();
    check_faults();
    check_sizes_of_faults();
    check_moves();
    check_order();
    check_handles_of_nothing();
    return 0;
}
