/* SPDX-License-Identifier: MIT OR Apache-2.0 */
/*
 * halfgates: the C++ view of halfgates.h, from C++11 on. That header says what each call does.
 *
 *     halfgates::circuit circuit(text);
 *     halfgates::garbling garbling = circuit.garble(halfgates::seed::random());
 *     halfgates::bytes garbled = garbling.write();
 *
 * Handles are moved and not copied, and are freed when their scope ends. A call that fails throws a `fault`, and where
 * memory for a result runs out std::bad_alloc. Calls on a handle are const, so that threads may use one object at once,
 * but for circuit::take_digest, garbler::rows_into, garbler::next and evaluator::feed, which need theirs alone. The
 * numbers, widths and digest of a circuit are read once.
 *
 * What a call reads is a container of bytes or labels, such as a vector, a string, an array or a span, a `view`, or a
 * list such as {0, 1}. It is read where it is. The text of a circuit can also be a string literal, or another string
 * that ends with a zero byte, and bits a vector<bool>, which is copied.
 *
 * A handle that was made of nothing, or that was moved from, converts to false: it can be assigned to, and its calls
 * throw HALFGATES_NULL_POINTER.
 */
#ifndef HALFGATES_HPP
#define HALFGATES_HPP

#include "halfgates.h"

#include <algorithm>
#include <array>
#include <cerrno>
#include <cstddef>
#include <cstdint>
#include <cstdio>
#include <cstring>
#include <exception>
#include <initializer_list>
#include <memory>
#include <numeric>
#include <string>
#include <system_error>
#include <type_traits>
#include <utility>
#include <vector>

#include <sys/random.h>

/* [[nodiscard]] is of C++17. GCC has it earlier; unlike Clang's, its own attribute isn't silenced by (void) there. */
#if __cplusplus >= 201703L || (defined(__GNUC__) && __GNUC__ >= 7 && !defined(__clang__))
#define HALFGATES_NODISCARD [[nodiscard]]
#elif defined(__clang__)
#define HALFGATES_NODISCARD __attribute__((warn_unused_result))
#else
#define HALFGATES_NODISCARD
#endif

namespace halfgates {

using bytes = std::vector<std::uint8_t>;
using label = std::array<std::uint8_t, 16>;
using labels = std::vector<label>;

/* A buffer that a call takes: its name, how many bytes it has, and how many are expected. */
struct sized {
    const char *name;
    std::size_t given, expected;
};

/* A call failed: the code, and its name as the program prints it. */
class fault : public std::exception {
public:
    explicit fault(std::int32_t code) noexcept : code_(code), name_(halfgates_fault_name(code)) {
        std::snprintf(what_, sizeof what_, "fault %d %s", static_cast<int>(code), name_.text);
    }

    /* The first fault of a text, whose place and sentence what() says. */
    fault(const halfgates_place &place, const halfgates_sentence &sentence) noexcept
        : code_(place.fault), name_(halfgates_fault_name(place.fault)) {
        std::snprintf(what_, sizeof what_, "fault %d %s: line %llu, column %llu: %s", static_cast<int>(code_),
                      name_.text, static_cast<unsigned long long>(place.line),
                      static_cast<unsigned long long>(place.column), sentence.text);
    }

    /* One of these buffers has a wrong size or too little room: what() says which, if the code is for that. */
    fault(std::int32_t code, std::initializer_list<sized> buffers) noexcept : fault(code) {
        const bool is_read = code == HALFGATES_WRONG_SIZE, is_written = code == HALFGATES_SMALL_BUFFER;
        for (const sized &it : buffers)
            if ((is_read && it.given != it.expected) || (is_written && it.given < it.expected)) {
                std::snprintf(what_, sizeof what_, "fault %d %s: %s has %zu bytes, and %s%zu are expected",
                              static_cast<int>(code), name_.text, it.name, it.given, is_read ? "" : "at least ",
                              it.expected);
                return;
            }
    }

    std::int32_t code() const noexcept { return code_; }
    const char *name() const noexcept { return name_.text; }
    const char *what() const noexcept override { return what_; }

    /* Whether memory ran out. */
    bool is_memory() const noexcept { return halfgates_is_memory(code_) != 0; }

private:
    std::int32_t code_;
    halfgates_name name_;
    char what_[384];
};

inline void check(std::int32_t code) {
    if (code != HALFGATES_OK)
        throw fault(code);
}

inline void check(std::int32_t code, std::initializer_list<sized> buffers) {
    if (code != HALFGATES_OK)
        throw fault(code, buffers);
}

/* Gates aren't those of a circuit: the fault, and where it is. */
class gate_fault : public fault {
public:
    explicit gate_fault(const halfgates_place &place) noexcept
        : fault(place.fault), gate_(place.gate), wire_(place.wire) {}

    /* The gate and the wire at fault, or HALFGATES_NONE. */
    std::uint32_t gate() const noexcept { return gate_; }
    std::uint32_t wire() const noexcept { return wire_; }

private:
    std::uint32_t gate_, wire_;
};

namespace detail {

template <class T>
struct is_item
    : std::integral_constant<bool, sizeof(T) == 1 && (std::is_integral<T>::value || std::is_enum<T>::value)> {};

template <>
struct is_item<label> : std::true_type {};

/* The items of a container, where they are bytes or labels. */
template <class Container, class Data = decltype(std::declval<const Container &>().data()),
          class Item = typename std::remove_cv<typename std::remove_pointer<Data>::type>::type>
using item = typename std::enable_if<
    std::is_pointer<Data>::value && is_item<Item>::value &&
        std::is_convertible<decltype(std::declval<const Container &>().size()), std::size_t>::value,
    Item>::type;

} // namespace detail

/* The bytes of a container that has a name and outlives the view, or of a pointer. */
class view {
public:
    view(const void *data, std::size_t size) noexcept : data_(static_cast<const std::uint8_t *>(data)), size_(size) {}

    template <class Container, class Item = detail::item<Container>>
    view(const Container &container) noexcept : view(container.data(), container.size() * sizeof(Item)) {}

    /* A temporary is gone at the end of the statement. */
    template <class Container, class Item = detail::item<Container>,
              class = typename std::enable_if<!std::is_same<Container, view>::value>::type>
    view(const Container &&container) = delete;
    view(std::initializer_list<std::uint8_t>) = delete;

    view(const view &) = default;
    view &operator=(const view &) = default;

    const std::uint8_t *data() const noexcept { return data_; }
    std::size_t size() const noexcept { return size_; }

private:
    const std::uint8_t *data_;
    std::size_t size_;
};

namespace detail {

/* What a call reads. It is the parameter of a call and no variable, so it may be of a list or of a temporary. */
class input {
public:
    input(const void *data, std::size_t size) noexcept : input_(data, size) {}
    input(std::initializer_list<std::uint8_t> list) noexcept : input_(list.begin(), list.size()) {}

    template <class Container, class Item = item<Container>>
    input(const Container &container) noexcept : input_(container.data(), container.size() * sizeof(Item)) {}

    input(const input &) = delete;
    input &operator=(const input &) = delete;

    const std::uint8_t *data() const noexcept { return input_.data(); }
    std::size_t size() const noexcept { return input_.size(); }

private:
    view input_;
};

/* The text of a circuit that ends with a zero byte. A NULL is refused by the call. */
inline view text_of(const char *text) noexcept {
    return view(text, text == nullptr ? 1 : std::strlen(text));
}

/* Throws the fault of reading a text, unless the code is that of success. Finding its place and its sentence reads the
 * text twice more. */
inline void check_text(std::int32_t code, const input &text) {
    halfgates_place place = halfgates_place();
    halfgates_sentence sentence;
    if (code >= HALFGATES_CIRCUIT_TRUNCATED && code <= HALFGATES_WIDTHS_EXCEED_WIRES &&
        halfgates_locate(text.data(), text.size(), &place) == HALFGATES_OK && place.fault == code &&
        halfgates_explain(text.data(), text.size(), &sentence) == HALFGATES_OK)
        throw fault(place, sentence);
    check(code);
}

struct copied {
    bytes copy_;
};

/* The bits that a call reads. Those of a vector<bool>, which has no bytes, are copied. */
class bits : private copied, public input {
public:
    using input::input;
    bits(const std::vector<bool> &given) : copied{bytes(given.begin(), given.end())}, input(copy_) {}
};

template <class T, void (*Free)(T *)>
struct freeing {
    void operator()(T *at) const noexcept { Free(at); }
};

template <class T, void (*Free)(T *)>
using handle = std::unique_ptr<T, freeing<T, Free>>;

/* The bytes of labels that a call writes. */
inline std::uint8_t *room(labels &found) noexcept {
    return found.empty() ? nullptr : found.front().data();
}

/* Fills the pieces, which have their sizes, with bytes that follow one another. */
inline void cut(const bytes &joined, std::vector<bytes> &pieces) {
    auto next = joined.cbegin();
    for (bytes &it : pieces) {
        std::copy_n(next, it.size(), it.begin());
        next += static_cast<std::ptrdiff_t>(it.size());
    }
}

} // namespace detail

/* The 32 bytes that all labels of a garbling come from. Take new random ones for each garbling. */
class seed {
public:
    /* Random bytes of the system. Where it has none, it throws std::system_error. */
    HALFGATES_NODISCARD static seed random() {
        seed made;
        if (getentropy(made.bytes_.data(), made.bytes_.size()) != 0)
            throw std::system_error(errno, std::generic_category(), "getentropy");
        return made;
    }

    /* These bytes. If they aren't 32, it throws HALFGATES_WRONG_SIZE. */
    HALFGATES_NODISCARD static seed from_bytes(const detail::input &given) {
        seed made;
        check(given.size() == made.bytes_.size() ? HALFGATES_OK : HALFGATES_WRONG_SIZE,
              {{"given", given.size(), made.bytes_.size()}});
        std::memcpy(made.bytes_.data(), given.data(), given.size());
        return made;
    }

    const std::uint8_t *data() const noexcept { return bytes_.data(); }
    std::size_t size() const noexcept { return bytes_.size(); }

private:
    seed() noexcept {}

    std::array<std::uint8_t, 32> bytes_;
};

/* Both labels of each wire of a value. */
struct label_pairs {
    labels zero;
    labels one;
};

namespace detail {

/* Both labels of each wire of a value, which a call writes for a handle. */
template <class Call, class Handle>
label_pairs pairs(Call call, const Handle *handle, const std::vector<std::uint32_t> &widths, std::uint32_t index) {
    const std::size_t width = index < widths.size() ? widths[index] : 0;
    label_pairs found{labels(width), labels(width)};
    check(call(handle, index, room(found.zero), room(found.one), 16 * width));
    return found;
}

} // namespace detail

/* What an audit finds of a label file, and the bits that its labels stand for. */
struct labels_audit {
    halfgates_labels_report report;
    bytes bits;
};

/* The numbers of a circuit, and how many wires each of its values has. */
struct shape {
    halfgates_numbers numbers;
    std::vector<std::uint32_t> input_widths;
    std::vector<std::uint32_t> output_widths;
};

class garbling {
public:
    garbling() noexcept : shape_() {}

    /* Takes over a garbling of a circuit of this shape. */
    garbling(halfgates_garbling *at, const shape &of) : handle_(at), shape_(of) {}

    HALFGATES_NODISCARD bytes write(std::uint32_t version = 2) const {
        bytes file(garbled_size(version));
        write_into(file.data(), file.size(), version);
        return file;
    }

    /* How many bytes the garbled file has. */
    HALFGATES_NODISCARD std::size_t garbled_size(std::uint32_t version = 2) const {
        std::size_t size = 0;
        const std::int32_t code = halfgates_garbling_write(get(), version, nullptr, 0, &size);
        if (code != HALFGATES_SMALL_BUFFER)
            check(code);
        return size;
    }

    /* Writes the garbled file to a buffer with this much room, and returns the number of its bytes. */
    std::size_t write_into(std::uint8_t *buffer, std::size_t size, std::uint32_t version = 2) const {
        std::size_t written = 0;
        const std::int32_t code = halfgates_garbling_write(get(), version, buffer, size, &written);
        check(code, {{"buffer", size, written}});
        return written;
    }

    HALFGATES_NODISCARD label offset() const {
        label found;
        check(halfgates_offset(get(), found.data()));
        return found;
    }

    HALFGATES_NODISCARD label zero_label(std::uint32_t wire) const {
        label found;
        check(halfgates_zero_label(get(), wire, found.data()));
        return found;
    }

    HALFGATES_NODISCARD bool decode_bit(std::uint32_t output) const {
        std::uint8_t bit = 0;
        check(halfgates_decode_bit(get(), output, &bit));
        return bit != 0;
    }

    /* The decode bits of all output wires. */
    HALFGATES_NODISCARD bytes decode_bits() const {
        bytes bits(shape_.numbers.output_wires);
        check(halfgates_decode_bits(get(), bits.data(), bits.size()));
        return bits;
    }

    /* The row pairs, 32 bytes an AND gate. */
    HALFGATES_NODISCARD bytes rows() const {
        bytes found(rows_size());
        rows_into(found.data(), found.size());
        return found;
    }

    /* Writes the row pairs to a buffer with this much room. */
    void rows_into(std::uint8_t *buffer, std::size_t size) const {
        check(halfgates_rows(get(), buffer, size), {{"buffer", size, rows_size()}});
    }

    /* The row pairs of `count` AND gates from AND gate `from` on. */
    HALFGATES_NODISCARD bytes rows_range(std::uint32_t from, std::uint32_t count) const {
        const std::uint32_t all = shape_.numbers.and_gates;
        check(from <= all && count <= all - from ? HALFGATES_OK : HALFGATES_BAD_ARGUMENT);
        bytes found(32 * static_cast<std::size_t>(count));
        rows_range_into(from, count, found.data(), found.size());
        return found;
    }

    /* Writes them to a buffer with this much room. */
    void rows_range_into(std::uint32_t from, std::uint32_t count, std::uint8_t *buffer, std::size_t size) const {
        check(halfgates_rows_range(get(), from, count, buffer, size),
              {{"buffer", size, 32 * static_cast<std::size_t>(count)}});
    }

    /* The bits of labels of an output value that an evaluator returned. A label that is neither of its wire's two
     * throws HALFGATES_WRONG_LABEL. */
    HALFGATES_NODISCARD bytes open(std::uint32_t index, const detail::input &returned) const {
        bytes bits(index < shape_.output_widths.size() ? shape_.output_widths[index] : 0);
        check(halfgates_open(get(), index, returned.data(), returned.size(), bits.data(), bits.size()),
              {{"returned", returned.size(), 16 * bits.size()}});
        return bits;
    }

    HALFGATES_NODISCARD label_pairs input_labels(std::uint32_t index) const {
        return pairs(halfgates_input_labels, shape_.input_widths, index);
    }

    HALFGATES_NODISCARD label_pairs output_labels(std::uint32_t index) const {
        return pairs(halfgates_output_labels, shape_.output_widths, index);
    }

    HALFGATES_NODISCARD std::vector<halfgates_wire_labels> labels(const detail::bits &bits, std::uint32_t from,
                                                                  std::size_t count) const {
        const std::uint32_t wires = shape_.numbers.wires;
        check(from <= wires && count <= wires - from ? HALFGATES_OK : HALFGATES_BAD_ARGUMENT);
        std::vector<halfgates_wire_labels> found(count);
        check(halfgates_labels(get(), bits.data(), bits.size(), from, found.data(), count));
        return found;
    }

    /* The label file of an input value. */
    HALFGATES_NODISCARD bytes deal(std::uint32_t index, const detail::bits &bits) const {
        bytes file(16 + 16 * bits.size());
        std::size_t written = 0;
        check(halfgates_garbling_deal(get(), index, bits.data(), bits.size(), file.data(), file.size(), &written));
        return file;
    }

    HALFGATES_NODISCARD halfgates_audit_report audit(const detail::input &garbled) const {
        halfgates_audit_report report;
        check(halfgates_audit(get(), garbled.data(), garbled.size(), &report));
        return report;
    }

    HALFGATES_NODISCARD labels_audit audit_labels(const detail::input &file) const {
        labels_audit found{{}, bytes(file.size() / 16)};
        check(halfgates_audit_labels(get(), file.data(), file.size(), found.bits.data(), found.bits.size(),
                                     &found.report));
        found.bits.resize(found.report.count);
        return found;
    }

    /* Compares row pairs and decode bits with the garbling, whatever its first AND number. */
    HALFGATES_NODISCARD halfgates_rows_report audit_rows(const detail::input &rows,
                                                         const detail::bits &decode_bits) const {
        halfgates_rows_report report;
        check(halfgates_audit_rows(get(), rows.data(), rows.size(), decode_bits.data(), decode_bits.size(), &report),
              {{"rows", rows.size(), rows_size()}});
        return report;
    }

    halfgates_garbling *get() const noexcept { return handle_.get(); }
    explicit operator bool() const noexcept { return get() != nullptr; }

private:
    template <class Call>
    label_pairs pairs(Call call, const std::vector<std::uint32_t> &widths, std::uint32_t index) const {
        return detail::pairs(call, get(), widths, index);
    }

    std::size_t rows_size() const noexcept { return 32 * static_cast<std::size_t>(shape_.numbers.and_gates); }

    detail::handle<halfgates_garbling, halfgates_garbling_free> handle_;
    shape shape_;
};

/* A garbling in progress, which produces its row pairs in pieces:
 *
 *     for (halfgates::bytes rows = garbler.next(4096); !rows.empty(); rows = garbler.next(4096))
 *         send(rows);
 */
class garbler {
public:
    garbler() noexcept : shape_(), left_(0) {}

    /* Takes over a garbler, just begun, of a circuit of this shape. */
    garbler(halfgates_garbler *at, const shape &of) : handle_(at), shape_(of), left_(of.numbers.and_gates) {}

    HALFGATES_NODISCARD label offset() const {
        label found;
        check(halfgates_garbler_offset(get(), found.data()));
        return found;
    }

    HALFGATES_NODISCARD label_pairs input_labels(std::uint32_t index) const {
        return detail::pairs(halfgates_garbler_input_labels, get(), shape_.input_widths, index);
    }

    /* Garbles the next AND gates: writes as many row pairs as this much room takes, and returns the number of their
     * bytes, or 0 once all are written. */
    std::size_t rows_into(std::uint8_t *buffer, std::size_t size) {
        std::size_t written = 0;
        check(halfgates_garbler_next(get(), buffer, size, &written), {{"buffer", size, 32}});
        left_ -= written / 32;
        return written;
    }

    /* Garbles the next AND gates, at most this many, and returns their row pairs, or nothing once all were returned. */
    HALFGATES_NODISCARD bytes next(std::size_t and_gates) {
        bytes rows(32 * std::min(and_gates, left_));
        rows_into(rows.data(), rows.size());
        return rows;
    }

    /* How many row pairs are left. */
    std::size_t left() const noexcept { return *this ? left_ : 0; }

    /* Once no row pairs are left: both labels of each wire of an output value. */
    HALFGATES_NODISCARD label_pairs output_labels(std::uint32_t index) const {
        return detail::pairs(halfgates_garbler_output_labels, get(), shape_.output_widths, index);
    }

    /* Once no row pairs are left: the decode bits of all output wires. */
    HALFGATES_NODISCARD bytes decode_bits() const {
        bytes bits(shape_.numbers.output_wires);
        check(halfgates_garbler_decode_bits(get(), bits.data(), bits.size()));
        return bits;
    }

    halfgates_garbler *get() const noexcept { return handle_.get(); }
    explicit operator bool() const noexcept { return get() != nullptr; }

private:
    detail::handle<halfgates_garbler, halfgates_garbler_free> handle_;
    shape shape_;
    std::size_t left_;
};

/* An evaluation in progress, which takes row pairs as they come. */
class evaluator {
public:
    evaluator() noexcept : outputs_(0), left_(0) {}

    /* Takes over an evaluator, just begun, of a circuit of this shape. */
    evaluator(halfgates_evaluator *at, const shape &of) noexcept
        : handle_(at), outputs_(of.numbers.output_wires), left_(of.numbers.and_gates) {}

    /* Evaluates the next AND gates with these row pairs, and returns how many bytes it took: a part of a row pair at
     * the end is left. */
    HALFGATES_NODISCARD std::size_t feed(const detail::input &rows) {
        std::size_t taken = 0;
        check(halfgates_evaluator_feed(get(), rows.data(), rows.size(), &taken), {{"rows", rows.size(), 32 * left_}});
        left_ -= taken / 32;
        return taken;
    }

    /* How many row pairs are left. */
    std::size_t left() const noexcept { return *this ? left_ : 0; }

    /* Once no row pairs are left: the active labels of all output wires. */
    HALFGATES_NODISCARD labels output_labels() const {
        labels found(outputs_);
        check(halfgates_evaluator_output_labels(get(), detail::room(found), 16 * found.size()));
        return found;
    }

    halfgates_evaluator *get() const noexcept { return handle_.get(); }
    explicit operator bool() const noexcept { return get() != nullptr; }

private:
    detail::handle<halfgates_evaluator, halfgates_evaluator_free> handle_;
    std::size_t outputs_, left_;
};

class job {
public:
    job() noexcept : outputs_(0) {}

    /* Takes over a job of a circuit of this shape. */
    job(halfgates_job *at, const shape &of) noexcept : handle_(at), outputs_(of.numbers.output_wires) {}

    /* The bits of all output wires. */
    HALFGATES_NODISCARD bytes evaluate() const {
        bytes bits(outputs_);
        check(halfgates_evaluate(get(), bits.data(), bits.size()));
        return bits;
    }

    /* The active labels of all output wires. */
    HALFGATES_NODISCARD labels output_labels() const {
        labels found(outputs_);
        check(halfgates_job_output_labels(get(), detail::room(found), 16 * found.size()));
        return found;
    }

    /* The number of output wires. */
    std::size_t outputs() const noexcept { return outputs_; }

    halfgates_job *get() const noexcept { return handle_.get(); }
    explicit operator bool() const noexcept { return get() != nullptr; }

private:
    detail::handle<halfgates_job, halfgates_job_free> handle_;
    std::size_t outputs_;
};

class circuit {
public:
    circuit() noexcept : shape_(), digest_(), digest_code_(HALFGATES_OK) {}

    explicit circuit(const char *text) : circuit(detail::text_of(text)) {}

    /* Where the text is that of no circuit, what() of the fault says the line, the column and the sentence. */
    explicit circuit(const detail::input &text) : circuit(halfgates_circuit_read, text) {}

    /* The circuit of a text without its digest, which takes longer than reading. Garbled files and jobs need it. */
    HALFGATES_NODISCARD static circuit read_without_digest(const detail::input &text) {
        return circuit(halfgates_circuit_read_without_digest, text);
    }

    HALFGATES_NODISCARD static circuit read_without_digest(const char *text) {
        return read_without_digest(detail::text_of(text));
    }

    /* The circuit of these gates in this order, of this many wires, and of values of these widths. Where they are none,
     * it throws gate_fault. */
    HALFGATES_NODISCARD static circuit from_gates(const std::vector<halfgates_gate> &gates, std::uint32_t wires,
                                                  const std::vector<std::uint32_t> &input_widths,
                                                  const std::vector<std::uint32_t> &output_widths) {
        return make(halfgates_circuit_from_gates, gates, wires, input_widths, output_widths);
    }

    HALFGATES_NODISCARD static circuit from_gates_without_digest(const std::vector<halfgates_gate> &gates,
                                                                 std::uint32_t wires,
                                                                 const std::vector<std::uint32_t> &input_widths,
                                                                 const std::vector<std::uint32_t> &output_widths) {
        return make(halfgates_circuit_from_gates_without_digest, gates, wires, input_widths, output_widths);
    }

    /* Takes the digest, where the circuit has none. Its other handles and its garblings stay without. */
    void take_digest() {
        check(halfgates_circuit_take_digest(get()));
        read_digest();
    }

    /* One more handle of the same circuit, without a copy. */
    HALFGATES_NODISCARD circuit share() const {
        halfgates_circuit *at = nullptr;
        check(halfgates_circuit_share(get(), &at));
        circuit other;
        other.take(at);
        return other;
    }

    /* The circuit with its gates in order of AND depth. It computes the same, and has another digest. */
    HALFGATES_NODISCARD circuit order() const {
        halfgates_circuit *at = nullptr;
        check(halfgates_circuit_order(get(), &at));
        circuit ordered;
        ordered.take(at);
        return ordered;
    }

    /* The canonical text. */
    HALFGATES_NODISCARD bytes text() const {
        std::size_t size = 0;
        const std::int32_t code = halfgates_circuit_text(get(), nullptr, 0, &size);
        if (code != HALFGATES_SMALL_BUFFER)
            check(code);
        bytes text(size);
        check(halfgates_circuit_text(get(), text.data(), text.size(), &size));
        return text;
    }

    const halfgates_numbers &numbers() const noexcept { return shape_.numbers; }
    const std::vector<std::uint32_t> &input_widths() const noexcept { return shape_.input_widths; }
    const std::vector<std::uint32_t> &output_widths() const noexcept { return shape_.output_widths; }

    /* A circuit that has no digest throws HALFGATES_NO_DIGEST. */
    const std::array<std::uint8_t, 32> &digest() const {
        check(digest_code_);
        return digest_;
    }

    HALFGATES_NODISCARD std::uint64_t garbled_size(std::uint32_t version = 2) const {
        const std::uint64_t size = halfgates_garbled_size(get(), version);
        check(size != 0 ? HALFGATES_OK : HALFGATES_BAD_ARGUMENT);
        return size;
    }

    HALFGATES_NODISCARD halfgates::garbling garble(const seed &key) const {
        halfgates_garbling *at = nullptr;
        check(halfgates_garble(get(), key.data(), &at));
        return halfgates::garbling(at, shape_);
    }

    /* Garbles under each of these seeds: with AVX2 two at a time, side by side. */
    HALFGATES_NODISCARD std::vector<halfgates::garbling> garble_many(const std::vector<seed> &keys) const {
        static_assert(sizeof(seed) == 32, "seeds are one after another");
        std::vector<halfgates::garbling> made;
        std::vector<detail::handle<halfgates_garbling, halfgates_garbling_free>> handles(keys.size());
        std::vector<halfgates_garbling *> at(keys.size());
        made.reserve(keys.size());
        check(halfgates_garble_many(get(), keys.empty() ? nullptr : keys.front().data(), keys.size(), at.data()));
        for (std::size_t i = 0; i < at.size(); i++)
            handles[i].reset(at[i]);
        for (auto &it : handles)
            made.emplace_back(it.release(), shape_);
        return made;
    }

    /* Garbles from an offset, zero labels of the input wires, and the first AND number. Under one offset use no AND
     * number twice. */
    HALFGATES_NODISCARD halfgates::garbling garble_from(const label &offset, const detail::input &zero_labels,
                                                        std::uint64_t first) const {
        halfgates_garbling *at = nullptr;
        check(halfgates_garble_from(get(), offset.data(), zero_labels.data(), zero_labels.size(), first, &at),
              {{"zero_labels", zero_labels.size(), inputs_size()}});
        return halfgates::garbling(at, shape_);
    }

    /* Begins to garble in pieces, as `garble` does. */
    HALFGATES_NODISCARD halfgates::garbler garbler(const seed &key) const {
        halfgates_garbler *at = nullptr;
        check(halfgates_garbler_begin(get(), key.data(), &at));
        return halfgates::garbler(at, shape_);
    }

    /* Begins to garble in pieces, as `garble_from` does. A garbler that is dropped before its end has used all its AND
     * numbers. */
    HALFGATES_NODISCARD halfgates::garbler garbler_from(const label &offset, const detail::input &zero_labels,
                                                        std::uint64_t first) const {
        halfgates_garbler *at = nullptr;
        check(halfgates_garbler_begin_from(get(), offset.data(), zero_labels.data(), zero_labels.size(), first, &at),
              {{"zero_labels", zero_labels.size(), inputs_size()}});
        return halfgates::garbler(at, shape_);
    }

    /* Begins to evaluate in pieces, from the active labels of all input wires. */
    HALFGATES_NODISCARD halfgates::evaluator evaluator(std::uint64_t first, const detail::input &active) const {
        halfgates_evaluator *at = nullptr;
        check(halfgates_evaluator_begin(get(), first, active.data(), active.size(), &at),
              {{"active", active.size(), inputs_size()}});
        return halfgates::evaluator(at, shape_);
    }

    /* The label file of an input value. */
    HALFGATES_NODISCARD bytes deal(const seed &key, std::uint32_t index, const detail::bits &bits) const {
        bytes file(16 + 16 * bits.size());
        std::size_t written = 0;
        check(halfgates_deal(get(), key.data(), index, bits.data(), bits.size(), file.data(), file.size(), &written));
        return file;
    }

    /* The label file of an input value, from labels that were received. */
    HALFGATES_NODISCARD bytes label_file(std::uint32_t index, const detail::input &received) const {
        bytes file(16 + received.size());
        std::size_t written = 0;
        const std::size_t width = index < input_widths().size() ? input_widths()[index] : 0;
        check(halfgates_label_file(get(), index, received.data(), received.size(), file.data(), file.size(), &written),
              {{"received", received.size(), 16 * width}});
        return file;
    }

    /* The job of a garbled file and of label files, which are joined first. */
    HALFGATES_NODISCARD halfgates::job bind(const detail::input &garbled, const std::vector<bytes> &files) const {
        bytes joined;
        std::vector<std::size_t> sizes;
        for (const bytes &file : files) {
            joined.insert(joined.end(), file.begin(), file.end());
            sizes.push_back(file.size());
        }
        return bind(garbled, joined, sizes);
    }

    /* The job of a garbled file and of label files that are one after another, with the number of bytes of each. */
    HALFGATES_NODISCARD halfgates::job bind(const detail::input &garbled, const detail::input &files,
                                            const std::vector<std::size_t> &sizes) const {
        halfgates_job *at = nullptr;
        check(halfgates_job_bind(get(), garbled.data(), garbled.size(), files.data(), files.size(), sizes.data(),
                                 sizes.size(), &at),
              {{"files", files.size(), std::accumulate(sizes.begin(), sizes.end(), std::size_t(0))}});
        return halfgates::job(at, shape_);
    }

    /* The active labels of all output wires, from row pairs and the active labels of all input wires. */
    HALFGATES_NODISCARD labels evaluate_labels(const detail::input &rows, const detail::input &active,
                                               std::uint64_t first) const {
        labels outputs(numbers().output_wires);
        check(halfgates_evaluate_labels(get(), rows.data(), rows.size(), first, active.data(), active.size(),
                                        detail::room(outputs), 16 * outputs.size()),
              {{"rows", rows.size(), 32 * static_cast<std::size_t>(numbers().and_gates)},
               {"active", active.size(), inputs_size()}});
        return outputs;
    }

    /* The bits of all output wires for those of all input wires, without garbling. */
    HALFGATES_NODISCARD bytes plain(const detail::bits &bits) const {
        bytes outputs(numbers().output_wires);
        check(halfgates_plain(get(), bits.data(), bits.size(), outputs.data(), outputs.size()));
        return outputs;
    }

    halfgates_circuit *get() const noexcept { return handle_.get(); }
    explicit operator bool() const noexcept { return get() != nullptr; }

private:
    template <class Read>
    circuit(Read read, const detail::input &text) {
        halfgates_circuit *at = nullptr;
        detail::check_text(read(text.data(), text.size(), &at), text);
        take(at);
    }

    template <class Make>
    static circuit make(Make call, const std::vector<halfgates_gate> &gates, std::uint32_t wires,
                        const std::vector<std::uint32_t> &input_widths,
                        const std::vector<std::uint32_t> &output_widths) {
        halfgates_circuit *at = nullptr;
        halfgates_place place = halfgates_place();
        const std::int32_t code = call(gates.data(), gates.size(), wires, input_widths.data(), input_widths.size(),
                                       output_widths.data(), output_widths.size(), &at, &place);
        if (place.fault != HALFGATES_OK && place.fault == code)
            throw gate_fault(place);
        check(code);
        circuit made;
        made.take(at);
        return made;
    }

    /* How many bytes the labels of all input wires have. */
    std::size_t inputs_size() const noexcept { return 16 * static_cast<std::size_t>(numbers().input_wires); }

    void read_digest() {
        digest_code_ = halfgates_circuit_digest(get(), digest_.data());
        check(digest_code_ == HALFGATES_NO_DIGEST ? HALFGATES_OK : digest_code_);
    }

    void take(halfgates_circuit *at) {
        handle_.reset(at);
        halfgates_numbers &it = shape_.numbers;
        check(halfgates_circuit_numbers(at, &it));
        shape_.input_widths.resize(it.input_values);
        shape_.output_widths.resize(it.output_values);
        check(halfgates_circuit_input_widths(at, shape_.input_widths.data(), it.input_values));
        check(halfgates_circuit_output_widths(at, shape_.output_widths.data(), it.output_values));
        read_digest();
    }

    detail::handle<halfgates_circuit, halfgates_circuit_free> handle_;
    shape shape_;
    std::array<std::uint8_t, 32> digest_;
    std::int32_t digest_code_; /* what reading the digest returned: HALFGATES_OK or HALFGATES_NO_DIGEST */
};

/* The garbled file of each garbling. Up to eight files in a row are digested side by side. */
HALFGATES_NODISCARD inline std::vector<bytes> write_many(const std::vector<garbling> &garblings,
                                                         std::uint32_t version = 2) {
    std::vector<bytes> files;
    std::vector<halfgates_garbling *> handles;
    std::size_t size = 0;
    files.reserve(garblings.size());
    handles.reserve(garblings.size());
    for (const garbling &it : garblings) {
        files.emplace_back(it.garbled_size(version));
        handles.push_back(it.get());
        size += files.back().size();
    }
    bytes joined(size);
    check(halfgates_write_many(handles.data(), handles.size(), version, joined.data(), joined.size()));
    detail::cut(joined, files);
    return files;
}

namespace detail {

/* A list of jobs as a call takes it, with room for their bits, joined and for each. */
struct job_list {
    std::vector<halfgates_job *> handles;
    std::vector<bytes> outputs;
    bytes bits;

    explicit job_list(const std::vector<job> &jobs) {
        std::size_t size = 0;
        handles.reserve(jobs.size());
        outputs.reserve(jobs.size());
        for (const job &it : jobs) {
            handles.push_back(it.get());
            outputs.emplace_back(it.outputs());
            size += it.outputs();
        }
        bits.resize(size);
    }
};

} // namespace detail

/* The bits of all output wires of each job. Up to four jobs in a row on equal circuits are evaluated side by side. */
HALFGATES_NODISCARD inline std::vector<bytes> evaluate_many(const std::vector<job> &jobs) {
    detail::job_list list(jobs);
    bytes &bits = list.bits;
    check(halfgates_evaluate_many(list.handles.data(), jobs.size(), bits.data(), bits.size()));
    detail::cut(bits, list.outputs);
    return std::move(list.outputs);
}

/* What came of a job: a code as halfgates_evaluate returns it, and where it is HALFGATES_OK the bits of all output
 * wires. */
struct outcome {
    std::int32_t code;
    bytes bits;
};

/* What comes of each job, side by side as by evaluate_many. A job that fails leaves the others as they are. */
HALFGATES_NODISCARD inline std::vector<outcome> evaluate_each(const std::vector<job> &jobs) {
    detail::job_list list(jobs);
    bytes &bits = list.bits;
    std::vector<std::int32_t> codes(jobs.size());
    std::vector<outcome> found;
    found.reserve(jobs.size());
    check(halfgates_evaluate_each(list.handles.data(), jobs.size(), bits.data(), bits.size(), codes.data()));
    detail::cut(bits, list.outputs);
    for (std::size_t i = 0; i < jobs.size(); i++)
        found.push_back({codes[i], codes[i] == HALFGATES_OK ? std::move(list.outputs[i]) : bytes()});
    return found;
}

/* The bits of active output labels, by the decode bits of their wires. */
HALFGATES_NODISCARD inline bytes decode(const detail::input &active, const detail::bits &decode_bits) {
    bytes bits(decode_bits.size());
    check(halfgates_decode(active.data(), active.size(), decode_bits.data(), decode_bits.size(), bits.data(),
                           bits.size()),
          {{"active", active.size(), 16 * bits.size()}});
    return bits;
}

/* Where the first fault of a text is. */
HALFGATES_NODISCARD inline halfgates_place locate(const detail::input &text) {
    halfgates_place place;
    check(halfgates_locate(text.data(), text.size(), &place));
    return place;
}

HALFGATES_NODISCARD inline halfgates_place locate(const char *text) {
    return locate(detail::text_of(text));
}

/* The sentence on the first fault of a text, and an empty one for a circuit. */
HALFGATES_NODISCARD inline std::string explain(const detail::input &text) {
    halfgates_sentence sentence;
    check(halfgates_explain(text.data(), text.size(), &sentence));
    return sentence.text;
}

HALFGATES_NODISCARD inline std::string explain(const char *text) {
    return explain(detail::text_of(text));
}

} // namespace halfgates

#endif
