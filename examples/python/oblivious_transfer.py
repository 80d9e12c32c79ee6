"""An oblivious transfer of labels by Diffie-Hellman: of each pair the receiver gets the label that it chooses and
learns nothing of the other, and the sender doesn't learn which one that was.

It is the protocol of Chou and Orlandi ("The Simplest Protocol for Oblivious Transfer", 2015) for parties that keep to
it, in the group of 2048 bits of RFC 3526. Nothing here is proved, and the time that Python's arithmetic takes depends
on the secret numbers.
"""

import secrets
from hashlib import sha256

# The group of RFC 3526, section 3, in which 2 generates the squares, and the bits of an exponent, by its section 8.
EXPONENT = 320
PRIME = int(
    "FFFFFFFFFFFFFFFFC90FDAA22168C234C4C6628B80DC1CD129024E088A67CC74020BBEA63B139B22514A08798E3404DD"
    "EF9519B3CD3A431B302B0A6DF25F14374FE1356D6D51C245E485B576625E7EC6F44C42E9A637ED6B0BFF5CB6F406B7ED"
    "EE386BFB5A899FA5AE9F24117C4B1FE649286651ECE45B3DC2007CB8A163BF0598DA48361C55D39A69163FA8FD24CF5F"
    "83655D23DCA3AD961C62F356208552BB9ED529077096966D670C354E4ABC9804F1746C08CA18217C32905E462E36CE3B"
    "E39E772C180E86039B2783A2EC07A28FB5C55DF06F4C52C9DE2BCBF6955817183995497CEA956AE515D2261898FA0510"
    "15728E5A8AACAA68FFFFFFFFFFFFFFFF",
    16,
)
SIZE = PRIME.bit_length() // 8  # the bytes of an element
LABEL = 16


def power_of_two():
    """A secret exponent, and 2 to its power."""
    exponent = secrets.randbits(EXPONENT)
    return exponent, pow(2, exponent, PRIME)


def element(data):
    """The element of the group that these bytes are."""
    number = int.from_bytes(data, "big")
    if len(data) != SIZE or not 1 < number < PRIME - 1:
        raise ValueError("what was received is no element of the group")
    return number


def pad(index, public, reply, shared):
    """What hides a label: only who knows the shared element knows it."""
    words = [index.to_bytes(8, "big"), *(it.to_bytes(SIZE, "big") for it in (public, reply, shared))]
    return sha256(b"".join(words)).digest()[:LABEL]


def xor(one, other):
    return bytes(a ^ b for a, b in zip(one, other))


class Sender:
    """Sends `message` to the receiver, and for its replies both labels of each pair, hidden."""

    def __init__(self):
        self.secret, self.public = power_of_two()
        self.message = self.public.to_bytes(SIZE, "big")

    def hide(self, replies, pairs):
        """`replies` are one element a pair; `pairs` are the zero labels and the one labels, 16 bytes each."""
        hidden, inverse = [], pow(self.public, -self.secret, PRIME)
        if len(replies) * LABEL != len(pairs[0]) * SIZE:
            raise ValueError("the receiver replies to another number of pairs")
        for index in range(len(replies) // SIZE):
            reply = element(replies[SIZE * index : SIZE * (index + 1)])
            zero = pow(reply, self.secret, PRIME)
            for shared, labels in zip((zero, zero * inverse % PRIME), pairs):
                label = labels[LABEL * index : LABEL * (index + 1)]
                hidden.append(xor(label, pad(index, self.public, reply, shared)))
        return b"".join(hidden)


class Receiver:
    """Sends `replies` to the sender for the bits that it chooses by, and opens one label of each pair."""

    def __init__(self, message, bits):
        self.public, self.bits = element(message), bits
        self.secrets, powers = zip(*(power_of_two() for _ in bits)) if bits else ((), ())
        self.elements = [power * pow(self.public, bit, PRIME) % PRIME for power, bit in zip(powers, bits)]
        self.replies = b"".join(it.to_bytes(SIZE, "big") for it in self.elements)

    def open(self, hidden):
        """The chosen labels, 16 bytes each."""
        if len(hidden) != 2 * LABEL * len(self.bits):
            raise ValueError("the sender sends another number of pairs")
        labels = []
        for index, (secret, reply, bit) in enumerate(zip(self.secrets, self.elements, self.bits)):
            at = LABEL * (2 * index + bit)
            shared = pow(self.public, secret, PRIME)
            labels.append(xor(hidden[at : at + LABEL], pad(index, self.public, reply, shared)))
        return b"".join(labels)
