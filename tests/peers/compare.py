"""Compares digests through the C interface with those of hashlib and, if it is there, of libb2. Tries every refusal.

Arguments: the seed, the number of random cases, the driver over Puligastru and, optionally, the one over libb2.
The one-buffer call gets each input whole, the peers get it in random pieces.
"""

import hashlib
import random
import resource
import struct
import subprocess
import sys
from dataclasses import dataclass

MARGIN = bytes([0xA5]) * 16  # as in driver.c
MOST = {"b": 64, "s": 32}  # the longest digest and the longest key
LONGEST_INPUT = 20_000
SHOWN = 10  # cases that are printed if they differ


@dataclass
class Case:
    """One call, with the pieces for the peers or with the refusal that is due."""

    variant: int
    digest_bytes: int
    key: bytes
    data: bytes
    out_len: int
    refusal: int = 0
    shift: int = 0
    pieces: tuple = ()
    mapped: int = 0  # if not 0, the length of an input that is not sent: see driver.c

    def input_len(self):
        return self.mapped or len(self.data)

    def sent(self):
        numbers = [self.variant, self.digest_bytes, len(self.key), self.input_len(), self.out_len]
        numbers += [self.shift, self.mapped != 0, len(self.pieces), *self.pieces]
        return struct.pack(f"<{len(numbers)}Q", *numbers) + self.key + self.data

    def wanted(self):
        """What the driver has to write: the result, and the output buffer between its margins."""
        if self.refusal:
            return struct.pack("<I", self.refusal) + MARGIN + MARGIN[:1] * self.out_len + MARGIN
        new = hashlib.blake2b if self.variant == 0 else hashlib.blake2s
        hasher = new(digest_size=self.digest_bytes, key=self.key)
        at = 0
        for piece in self.pieces:
            hasher.update(self.data[at : at + piece])
            at += piece
        return struct.pack("<I", 0) + MARGIN + hasher.digest() + MARGIN

    def __str__(self):
        lengths = f"digest {self.digest_bytes}, key {len(self.key)}, input {self.input_len()}, output {self.out_len}"
        return f"variant {self.variant}, bytes of {lengths}"


def cut(rng, length):
    """Random pieces that join to the length, empty ones among them."""
    cuts = sorted(rng.randint(0, length) for _ in range(rng.choice((0, 1, 2, 3, 8))))
    return tuple(end - start for start, end in zip([0, *cuts], [*cuts, length]))


def some_length(rng, longest):
    """A length of an input, every other one at a multiple of 64 or 128, or one off."""
    if rng.random() < 0.5:
        return rng.randint(0, longest)
    block = rng.choice((64, 128))
    return min(longest, max(0, block * rng.randint(0, longest // block) + rng.choice((-1, 0, 1))))


def digest_case(rng, kind, digest_bytes, key_len, input_len):
    variant = 0 if kind == "b" else rng.choice((1, 1, 1, 2, 255, 256, 2**16, 2**31, 2**32 - 1))
    key, data = rng.randbytes(key_len), rng.randbytes(input_len)
    return Case(variant, digest_bytes, key, data, digest_bytes, shift=rng.randint(0, 7), pieces=cut(rng, input_len))


def digest_cases(rng, count):
    """Every pair of a digest length and a key length, every input of up to three blocks, every longer one that ends at
    a block or one off, then random cases."""
    for kind, most in MOST.items():
        for digest_bytes in range(1, most + 1):
            for key_len in range(most + 1):
                yield digest_case(rng, kind, digest_bytes, key_len, some_length(rng, 400))
        ends = [end + off for end in range(3 * 128, LONGEST_INPUT, 64) for off in (-1, 0, 1)]
        for input_len in [*range(3 * 128 - 1), *ends]:
            yield digest_case(rng, kind, most, rng.choice((0, most)), input_len)
    for _ in range(count):
        kind = rng.choice("bs")
        key_len = rng.choice((0, MOST[kind], rng.randint(0, MOST[kind])))
        yield digest_case(rng, kind, rng.randint(1, MOST[kind]), key_len, some_length(rng, LONGEST_INPUT))


def refused_cases(rng, variant, most):
    """11, 12 and 14 at their edges, and each before those that are tested after it."""
    data = rng.randbytes(300)
    key, long_key = rng.randbytes(most), rng.randbytes(most + 1)
    for digest_bytes in (0, most + 1, 255, 256, 257, 2**16 + 1, 2**32, 2**32 + 1, 2**63, 2**64 - 1):
        for some_key in (b"", key, long_key):
            for out_len in sorted({0, 1, most, min(digest_bytes, 1000)}):
                yield Case(variant, digest_bytes, some_key, data, out_len, refusal=11)
    for some_key in (long_key, *(rng.randbytes(n) for n in (2 * most, 255, 256, 257, 2**16))):
        for digest_bytes in (1, most):
            for out_len in (digest_bytes - 1, digest_bytes, digest_bytes + 1):
                yield Case(variant, digest_bytes, some_key, data, out_len, refusal=12)
    for digest_bytes in range(1, most + 1):
        for out_len in sorted({0, digest_bytes - 1, digest_bytes + 1, digest_bytes + 256}):
            yield Case(variant, digest_bytes, key[: rng.randint(0, most)], data, out_len, refusal=14)


def long_cases(rng, variant, most):
    """13 before 14, after 11 and 12, on inputs that take address space and no memory."""
    long_key = rng.randbytes(most + 1)
    for mapped in (2**40 + 1, 2**41):
        for out_len in (most - 1, most, most + 1):
            yield Case(variant, most, b"", b"", out_len, refusal=13, mapped=mapped)
        yield Case(variant, most, long_key, b"", most, refusal=12, mapped=mapped)
        yield Case(variant, most + 1, b"", b"", most, refusal=11, mapped=mapped)


def answers(driver, cases):
    """The driver's answer to each case; short or empty from the case on that it died of."""
    run = subprocess.run([driver], input=b"".join(case.sent() for case in cases), stdout=subprocess.PIPE)
    if run.returncode != 0:
        print(f"tests/peers: {driver} ended with status {run.returncode}")
    at = 0
    for case in cases:
        length = 4 + 2 * len(MARGIN) + case.out_len
        yield run.stdout[at : at + length] if run.returncode == 0 or at + length <= len(run.stdout) else b""
        at += length


def shown(answer):
    """An answer as a reader wants it: the result, then the buffer's margin, output and margin."""
    if not answer:
        return "gives no answer"
    start, end = 4 + len(MARGIN), len(answer) - len(MARGIN)
    parts = (answer[4:start], answer[start:end], answer[end:])
    return f"{int.from_bytes(answer[:4], 'little')}, buffer {' '.join(part.hex() for part in parts)}"


def main():
    seed, count, ours, *libb2 = sys.argv[1:]
    rng = random.Random(seed)
    digests = list(digest_cases(rng, int(count)))
    refused = []
    kinds = (refused_cases, long_cases)
    if resource.getrlimit(resource.RLIMIT_AS)[0] != resource.RLIM_INFINITY:
        print("tests/peers: refusal 13 is not tried: address space is limited here (ulimit -v)")
        kinds = (refused_cases,)
    for variant, most in ((0, 64), (1, 32), (2**32 - 1, 32)):
        for kind in kinds:
            refused += kind(rng, variant, most)
    cases = digests + refused
    wanted = [case.wanted() for case in cases]

    bad = {}
    for name, driver, asked in [("Puligastru", ours, cases), *(("libb2", peer, digests) for peer in libb2)]:
        for i, answer in enumerate(answers(driver, asked)):
            if answer != wanted[i]:
                bad.setdefault(i, []).append(f"{name} {shown(answer)}")
    for i in sorted(bad)[:SHOWN]:
        print(f"tests/peers: differs: {cases[i]}", f"wanted {shown(wanted[i])}", *bad[i], sep="\n  ")
    if len(bad) > SHOWN:
        print(f"tests/peers: and {len(bad) - SHOWN} more")

    peers = "hashlib and libb2" if libb2 else "hashlib"
    print(f"tests/peers: {len(digests)} digests against {peers}, {len(refused)} refusals")
    print(f"tests/peers: {len(cases) - len(bad)} cases agree, {len(bad)} differ")
    sys.exit(1 if bad else 0)


main()
