"""AES-128, by the names of FIPS 197. A byte is eight wires, lowest bit first."""

import re

# The S-box by Boyar and Peralta, in Calik's form of 113 gates: 32 AND, 77 XOR and 4 XNOR. x0 to x7
# is the byte that goes in and s0 to s7 the one that comes out, highest bit first.
S_BOX = """
y14 = x3 ^ x5      y13 = x0 ^ x6      y9 = x0 ^ x3       y8 = x0 ^ x5       t0 = x1 ^ x2
y1 = t0 ^ x7       y4 = y1 ^ x3       y12 = y13 ^ y14    y2 = y1 ^ x0       y5 = y1 ^ x6
y3 = y5 ^ y8       t1 = x4 ^ y12      y15 = t1 ^ x5      y20 = t1 ^ x1      y6 = y15 ^ x7
y10 = y15 ^ t0     y11 = y20 ^ y9     y7 = x7 ^ y11      y17 = y10 ^ y11    y19 = y10 ^ y8
y16 = t0 ^ y11     y21 = y13 ^ y16    y18 = x0 ^ y16
t2 = y12 & y15     t3 = y3 & y6       t4 = t3 ^ t2       t5 = y4 & x7       t6 = t5 ^ t2
t7 = y13 & y16     t8 = y5 & y1       t9 = t8 ^ t7       t10 = y2 & y7      t11 = t10 ^ t7
t12 = y9 & y11     t13 = y14 & y17    t14 = t13 ^ t12    t15 = y8 & y10     t16 = t15 ^ t12
t17 = t4 ^ t14     t18 = t6 ^ t16     t19 = t9 ^ t14     t20 = t11 ^ t16    t21 = t17 ^ y20
t22 = t18 ^ y19    t23 = t19 ^ y21    t24 = t20 ^ y18    t25 = t21 ^ t22    t26 = t21 & t23
t27 = t24 ^ t26    t28 = t25 & t27    t29 = t28 ^ t22    t30 = t23 ^ t24    t31 = t22 ^ t26
t32 = t31 & t30    t33 = t32 ^ t24    t34 = t23 ^ t33    t35 = t27 ^ t33    t36 = t24 & t35
t37 = t36 ^ t34    t38 = t27 ^ t36    t39 = t29 & t38    t40 = t25 ^ t39    t41 = t40 ^ t37
t42 = t29 ^ t33    t43 = t29 ^ t40    t44 = t33 ^ t37    t45 = t42 ^ t41
z0 = t44 & y15     z1 = t37 & y6      z2 = t33 & x7      z3 = t43 & y16     z4 = t40 & y1
z5 = t29 & y7      z6 = t42 & y11     z7 = t45 & y17     z8 = t41 & y10     z9 = t44 & y12
z10 = t37 & y3     z11 = t33 & y4     z12 = t43 & y13    z13 = t40 & y5     z14 = t29 & y2
z15 = t42 & y9     z16 = t45 & y14    z17 = t41 & y8
u1 = z15 ^ z16     u2 = z10 ^ u1      u3 = z9 ^ u2       u4 = z0 ^ z2       u5 = z1 ^ z0
u6 = z3 ^ z4       u7 = z12 ^ u4      u8 = z7 ^ u6       u9 = z8 ^ u7       u10 = u8 ^ u9
u11 = u6 ^ u5      u12 = z3 ^ z5      u13 = z13 ^ u1     u14 = u4 ^ u12     s3 = u3 ^ u11
u16 = z6 ^ u8      u17 = z14 ^ u10    u18 = u13 ^ u14    s7 = z12 ~^ u18    u20 = z15 ^ u16
u21 = u2 ^ z11     s0 = u3 ^ u16      s6 = u10 ~^ u18    s4 = u14 ^ s3      s1 = s3 ~^ u16
u26 = u17 ^ u20    s2 = u26 ~^ z17    s5 = u21 ^ u17
"""
S_BOX_STEPS = re.findall(r"(\w+) = (\w+) (\S+) (\w+)", S_BOX)

# The round constants, the powers of 2 in GF(2^8).
RCON = [0x01, 0x02, 0x04, 0x08, 0x10, 0x20, 0x40, 0x80, 0x1B, 0x36]


def cipher(circuit, key, block):
    """Cipher(): the encryption of a block."""
    first, *others, last = key_expansion(circuit, bytes_of(key))
    state = add_round_key(circuit, bytes_of(block), first)
    for round_key in others:
        state = mix_columns(circuit, shift_rows(sub_bytes(circuit, state)))
        state = add_round_key(circuit, state, round_key)
    state = add_round_key(circuit, shift_rows(sub_bytes(circuit, state)), last)
    return [bit for byte in state for bit in byte]


def bytes_of(value):
    """The bytes of a value."""
    return [value[i : i + 8] for i in range(0, len(value), 8)]


def key_expansion(circuit, key):
    """KeyExpansion(): the eleven round keys."""
    words = [key[i : i + 4] for i in range(0, 16, 4)]
    for rcon in RCON:
        temp = sub_bytes(circuit, rot_word(words[-1]))
        temp[0] = circuit.xor_constant(temp[0], rcon)
        for _ in range(4):
            temp = xor_bytes(circuit, words[-4], temp)
            words.append(temp)
    return [sum(words[i : i + 4], []) for i in range(0, 44, 4)]


def rot_word(word):
    """RotWord()."""
    return word[1:] + word[:1]


def sub_bytes(circuit, state):
    """SubBytes(), and SubWord() where there are four bytes."""
    return [s_box(circuit, byte) for byte in state]


def s_box(circuit, byte):
    """SBox()."""
    wires = {f"x{i}": wire for i, wire in enumerate(reversed(byte))}
    for name, a, operation, b in S_BOX_STEPS:
        gate = circuit.and_ if operation == "&" else circuit.xor
        wires[name] = gate(wires[a], wires[b])
        if operation == "~^":
            wires[name] = circuit.inv(wires[name])
    return [wires[f"s{i}"] for i in reversed(range(8))]


def shift_rows(state):
    """ShiftRows(). The state lies column by column: row r moves left by r columns of four bytes."""
    return [state[(i + 4 * (i % 4)) % 16] for i in range(16)]


def mix_columns(circuit, state):
    """MixColumns()."""
    return [byte for i in range(0, 16, 4) for byte in mix_column(circuit, state[i : i + 4])]


def mix_column(circuit, column):
    """A column times the matrix of MixColumns.

    Byte i becomes 2 a[i] + 3 a[i+1] + a[i+2] + a[i+3], that is 2 (a[i] + a[i+1]) + a[i+1] +
    (a[i+2] + a[i+3]), in GF(2^8). The sums in parentheses are computed once.
    """
    turned = column[1:] + column[:1]
    pairs = xor_bytes(circuit, column, turned)
    doubled = [xtime(circuit, pair) for pair in pairs]
    others = xor_bytes(circuit, turned, pairs[2:] + pairs[:2])
    return xor_bytes(circuit, doubled, others)


def xtime(circuit, byte):
    """XTIMES(): twice a byte in GF(2^8), modulo x^8 + x^4 + x^3 + x + 1."""
    *low, high = byte
    return [high] + [circuit.xor(x, high) if i in (1, 3, 4) else x for i, x in enumerate(low, 1)]


def add_round_key(circuit, state, round_key):
    """AddRoundKey()."""
    return xor_bytes(circuit, state, round_key)


def xor_bytes(circuit, a, b):
    """XOR of bytes, each with one."""
    return [circuit.xor_bits(x, y) for x, y in zip(a, b)]
