"""Compares digests of nodes with those of hashlib and, where hashlib cannot make them, of blake2.py.

Arguments: the seed, and the program node_vectors. Above the leaves a keyed node has the key's length in its parameter block and
no key block, which hashlib does not do: blake2.py does, and is compared with hashlib first.
"""

import hashlib
import random
import subprocess
import sys
from dataclasses import dataclass

from blake2 import blake2

MOST = {"b": 64, "s": 32}  # the longest digest and the longest key
SALT = {"b": 16, "s": 8}  # the salt, and the longest layout name
BLOCK = {"b": 128, "s": 64}
NEW = {"b": hashlib.blake2b, "s": hashlib.blake2s}
LETTERS = b"ABCDEFGHIJKLMNOPQRSTUVWXYZ0123456789-"
SHOWN = 10  # cases that are printed if they differ


@dataclass
class Node:
    variant: str
    digest: int
    key: bytes
    fanout: int
    limit: int
    page: int
    salt: bytes
    layout: bytes
    depth: int
    offset: int
    last: bool
    data: bytes

    def line(self):
        """The node as the program reads it."""
        key, salt, data = (some.hex() or "-" for some in (self.key, self.salt, self.data))
        label = [self.variant, self.digest, key, self.fanout, self.limit, self.page, salt, self.layout.decode()]
        return " ".join(map(str, [*label, self.depth, self.offset, int(self.last), data]))

    def by_hashlib(self):
        tree = dict(fanout=self.fanout, depth=self.limit, leaf_size=self.page, node_offset=self.offset, node_depth=self.depth)
        own = dict(key=self.key, salt=self.salt, person=self.layout, inner_size=self.digest, last_node=self.last)
        return NEW[self.variant](self.data, digest_size=self.digest, **tree, **own).digest()

    def parameters(self):
        """The parameter block, from the places of its fields."""
        wide = self.variant == "b"
        block = bytearray(MOST[self.variant])
        block[0:4] = bytes([self.digest, len(self.key), self.fanout, self.limit])
        block[4:8] = self.page.to_bytes(4, "little")
        block[8:12] = self.offset.to_bytes(4, "little")
        depth, salt, layout = (16, 32, 48) if wide else (14, 16, 24)
        block[depth : depth + 2] = bytes([self.depth, self.digest])
        block[salt : salt + len(self.salt)] = self.salt
        block[layout : layout + len(self.layout)] = self.layout
        return bytes(block)

    def by_definition(self, key):
        return blake2(self.variant, self.parameters(), key, self.data, self.last)

    def blocks(self):
        length = len(self.data) + (BLOCK[self.variant] if self.key and self.depth == 0 else 0)
        return max(1, -(-length // BLOCK[self.variant]))

    def wanted(self):
        inner = self.key and self.depth > 0
        digest = self.by_definition(b"") if inner else self.by_hashlib()
        return f"{digest.hex()} {self.blocks()}"


def some_length(rng, longest, block):
    """A length of an input, every other one at a multiple of a block, or one off."""
    if rng.random() < 0.5:
        return rng.randint(0, longest)
    return min(longest, max(0, block * rng.randint(0, longest // block) + rng.choice((-1, 0, 1))))


def some_node(rng, keyed, depth, longest=4096):
    variant = rng.choice("bs")
    most = MOST[variant]
    data = rng.randbytes(some_length(rng, longest, BLOCK[variant]))
    layout = bytes(rng.choice(LETTERS) for _ in range(rng.randint(1, SALT[variant])))
    key = rng.randbytes(rng.choice((1, most, rng.randint(1, most)))) if keyed else b""
    return Node(
        variant,
        digest=rng.randint(1, most),
        key=key,
        fanout=rng.randint(2, 16),
        limit=rng.randint(2, 13),
        page=rng.randint(64, 4096),
        salt=rng.randbytes(SALT[variant]),
        layout=layout,
        depth=depth,
        offset=rng.choice((0, 1, 255, 256, 65_536, 2**32 - 1, rng.randrange(2**32))),
        last=rng.random() < 0.5,
        data=data,
    )


def definition_differs(rng, count):
    """How many digests of blake2.py are not hashlib's, of leaves with and without a key and of inner nodes without one."""
    wrong = 0
    for i in range(count):
        depth = 0 if i % 2 else rng.randint(0, 255)
        node = some_node(rng, keyed=depth == 0 and i % 4 == 1, depth=depth, longest=600)
        wrong += node.by_definition(node.key) != node.by_hashlib()
    return wrong


def main():
    seed, program = sys.argv[1:]
    rng = random.Random(seed)
    tried = 300
    wrong = definition_differs(rng, tried)
    print(f"tests/peers: blake2.py: {tried - wrong} digests are hashlib's, {wrong} are not")

    plain = [some_node(rng, False, rng.choice((0, 1, rng.randint(0, 255)))) for _ in range(2000)]
    leaves = [some_node(rng, True, 0) for _ in range(1500)]
    inner = [some_node(rng, True, rng.choice((1, rng.randint(1, 255))), longest=1024) for _ in range(300)]
    nodes = plain + leaves + inner
    lines = "".join(node.line() + "\n" for node in nodes)
    run = subprocess.run([program], input=lines.encode(), stdout=subprocess.PIPE)
    answers = run.stdout.decode().splitlines()
    bad = [(node, answer) for node, answer in zip(nodes, answers) if answer != node.wanted()]
    for node, answer in bad[:SHOWN]:
        print(f"tests/peers: differs: {node.line()}", f"wanted {node.wanted()}", f"answer {answer}", sep="\n  ")

    print(f"tests/peers: {len(plain)} nodes without a key and {len(leaves)} keyed leaves against hashlib, {len(inner)} keyed nodes above against blake2.py")
    print(f"tests/peers: {len(answers) - len(bad)} nodes agree, {len(bad)} differ, {len(nodes) - len(answers)} have no answer")
    sys.exit(1 if wrong or bad or len(answers) != len(nodes) or run.returncode else 0)


main()
