"""The compression of SHA-256, by the names of FIPS 180-4. A word is 32 wires, lowest bit first."""

from circuits.arithmetic import add, add_constant
from circuits.builder import ZERO

# The constants K of the rounds.
K = [
    0x428A2F98, 0x71374491, 0xB5C0FBCF, 0xE9B5DBA5, 0x3956C25B, 0x59F111F1, 0x923F82A4, 0xAB1C5ED5,
    0xD807AA98, 0x12835B01, 0x243185BE, 0x550C7DC3, 0x72BE5D74, 0x80DEB1FE, 0x9BDC06A7, 0xC19BF174,
    0xE49B69C1, 0xEFBE4786, 0x0FC19DC6, 0x240CA1CC, 0x2DE92C6F, 0x4A7484AA, 0x5CB0A9DC, 0x76F988DA,
    0x983E5152, 0xA831C66D, 0xB00327C8, 0xBF597FC7, 0xC6E00BF3, 0xD5A79147, 0x06CA6351, 0x14292967,
    0x27B70A85, 0x2E1B2138, 0x4D2C6DFC, 0x53380D13, 0x650A7354, 0x766A0ABB, 0x81C2C92E, 0x92722C85,
    0xA2BFE8A1, 0xA81A664B, 0xC24B8B70, 0xC76C51A3, 0xD192E819, 0xD6990624, 0xF40E3585, 0x106AA070,
    0x19A4C116, 0x1E376C08, 0x2748774C, 0x34B0BCB5, 0x391C0CB3, 0x4ED8AA4A, 0x5B9CCA4F, 0x682E6FF3,
    0x748F82EE, 0x78A5636F, 0x84C87814, 0x8CC70208, 0x90BEFFFA, 0xA4506CEB, 0xBEF9A3F7, 0xC67178F2,
]


def compress(circuit, block, chaining):
    """The chaining value after a block (section 6.2.2)."""
    before = words_of(chaining)
    a, b, c, d, e, f, g, h = before
    for constant, word in zip(K, message_schedule(circuit, words_of(block))):
        t1 = add(circuit, h, Σ1(circuit, e))
        t1 = add(circuit, t1, ch(circuit, e, f, g))
        t1 = add_constant(circuit, t1, constant)
        t1 = add(circuit, t1, word)
        t2 = add(circuit, Σ0(circuit, a), maj(circuit, a, b, c))
        a, b, c, d, e, f, g, h = add(circuit, t1, t2), a, b, c, add(circuit, d, t1), e, f, g
    after = a, b, c, d, e, f, g, h
    return value_of([add(circuit, x, y) for x, y in zip(after, before)])


def message_schedule(circuit, words):
    """The words W of the rounds."""
    words = list(words)
    for t in range(16, 64):
        word = add(circuit, σ1(circuit, words[t - 2]), words[t - 7])
        word = add(circuit, word, σ0(circuit, words[t - 15]))
        words.append(add(circuit, word, words[t - 16]))
    return words


def words_of(value):
    """The words of a value. Each word has its highest byte first."""
    return [swapped(value[i : i + 32]) for i in range(0, len(value), 32)]


def value_of(words):
    """The value of words."""
    return [bit for word in words for bit in swapped(word)]


def swapped(word):
    """The bytes of a word in reverse order."""
    return word[24:] + word[16:24] + word[8:16] + word[:8]


def ch(circuit, x, y, z):
    """Ch: y where x is 1, and else z."""
    return circuit.xor_bits(circuit.and_bits(x, circuit.xor_bits(y, z)), z)


def maj(circuit, x, y, z):
    """Maj: what at least two are."""
    return circuit.xor_bits(circuit.and_bits(circuit.xor_bits(x, z), circuit.xor_bits(y, z)), z)


def Σ0(circuit, x):
    return xor_three(circuit, rotr(x, 2), rotr(x, 13), rotr(x, 22))


def Σ1(circuit, x):
    return xor_three(circuit, rotr(x, 6), rotr(x, 11), rotr(x, 25))


def σ0(circuit, x):
    return xor_three(circuit, rotr(x, 7), rotr(x, 18), shr(x, 3))


def σ1(circuit, x):
    return xor_three(circuit, rotr(x, 17), rotr(x, 19), shr(x, 10))


def rotr(x, n):
    """ROTR: to the right, that is towards the lowest bit, which comes first."""
    return x[n:] + x[:n]


def shr(x, n):
    """SHR."""
    return x[n:] + [ZERO] * n


def xor_three(circuit, x, y, z):
    return circuit.xor_bits(circuit.xor_bits(x, y), z)
