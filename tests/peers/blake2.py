"""BLAKE2b and BLAKE2s from their definition, for what hashlib cannot do: any parameter block, with a key block or without.

It shares nothing with the crates. `nodes.py` compares it with hashlib before it relies on it.
"""

from dataclasses import dataclass
from math import isqrt

PRIMES = (2, 3, 5, 7, 11, 13, 17, 19)
SIGMA = (
    (0, 1, 2, 3, 4, 5, 6, 7, 8, 9, 10, 11, 12, 13, 14, 15),
    (14, 10, 4, 8, 9, 15, 13, 6, 1, 12, 0, 2, 11, 7, 5, 3),
    (11, 8, 12, 0, 5, 2, 15, 13, 10, 14, 3, 6, 7, 1, 9, 4),
    (7, 9, 3, 1, 13, 12, 11, 14, 2, 6, 5, 10, 4, 0, 15, 8),
    (9, 0, 5, 7, 2, 4, 10, 15, 14, 1, 11, 12, 6, 8, 3, 13),
    (2, 12, 6, 10, 0, 11, 8, 3, 4, 13, 7, 5, 15, 14, 1, 9),
    (12, 5, 1, 15, 14, 13, 4, 10, 0, 7, 6, 3, 9, 2, 8, 11),
    (13, 11, 7, 14, 12, 1, 3, 9, 5, 0, 15, 4, 8, 6, 2, 10),
    (6, 15, 14, 9, 11, 3, 0, 8, 12, 2, 13, 7, 1, 4, 10, 5),
    (10, 2, 8, 4, 7, 6, 1, 5, 15, 11, 9, 14, 3, 12, 13, 0),
)
GROUPS = ((0, 4, 8, 12), (1, 5, 9, 13), (2, 6, 10, 14), (3, 7, 11, 15), (0, 5, 10, 15), (1, 6, 11, 12), (2, 7, 8, 13), (3, 4, 9, 14))


@dataclass
class Width:
    size: int  # bytes in a word
    rounds: int
    turns: tuple  # the four rotations

    def initial(self):
        """The fractions of the square roots of the first primes, as words."""
        return [isqrt(prime << (16 * self.size)) % (1 << (8 * self.size)) for prime in PRIMES]

    def words(self, data):
        return [int.from_bytes(data[i : i + self.size], "little") for i in range(0, len(data), self.size)]


WIDTHS = {"b": Width(8, 12, (32, 24, 16, 63)), "s": Width(4, 10, (16, 12, 8, 7))}


def compress(width, chain, block, counter, final, last_node):
    bits = 8 * width.size
    mask = (1 << bits) - 1
    v = chain + width.initial()
    v[12] ^= counter & mask
    v[13] ^= counter >> bits
    v[14] ^= mask if final else 0
    v[15] ^= mask if final and last_node else 0
    m = width.words(block)
    one, two, three, four = width.turns

    def turned(word, by):
        return (word >> by | word << (bits - by)) & mask

    for number in range(width.rounds):
        row = SIGMA[number % 10]
        for i, (a, b, c, d) in enumerate(GROUPS):
            v[a] = (v[a] + v[b] + m[row[2 * i]]) & mask
            v[d] = turned(v[d] ^ v[a], one)
            v[c] = (v[c] + v[d]) & mask
            v[b] = turned(v[b] ^ v[c], two)
            v[a] = (v[a] + v[b] + m[row[2 * i + 1]]) & mask
            v[d] = turned(v[d] ^ v[a], three)
            v[c] = (v[c] + v[d]) & mask
            v[b] = turned(v[b] ^ v[c], four)
    return [h ^ v[i] ^ v[i + 8] for i, h in enumerate(chain)]


def blake2(variant, parameters, key, data, last_node=False):
    """The digest under a parameter block, whose first byte is the digest's length, after a key block where there is a key."""
    width = WIDTHS[variant]
    size = 16 * width.size
    if key:
        data = key.ljust(size, b"\0") + data
    chain = [a ^ b for a, b in zip(width.initial(), width.words(parameters))]
    at = 0
    while len(data) - at > size:
        at += size
        chain = compress(width, chain, data[at - size : at], at, False, False)
    chain = compress(width, chain, data[at:].ljust(size, b"\0"), len(data), True, last_node)
    return b"".join(word.to_bytes(width.size, "little") for word in chain)[: parameters[0]]
