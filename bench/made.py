#!/usr/bin/env python3
"""Writes the made graphs to target/bench (or the folder given): families of one structure at several sizes, to show how the cost grows.

A family is an endless list of ANDs over a few shared inputs; a graph is its first ANDs, and its outputs are those that no other AND uses.
So every size has the same structure, and the largest stays within M of 4,095 and a text of 65,536 bytes. Each family stays within 18 cuts
an AND. Nothing is left to chance: the same files come out every time, the ones numbered at random too, whose seed is their size."""
import itertools
import pathlib
import random
import sys

SIZES = (50, 100, 250, 500, 1000, 2000, 4000)
INPUTS = 64


class Ands:
    """ANDs in the order they are made, as triples of literals; the inputs are variables 1 to INPUTS."""

    def __init__(self):
        self.lines = []

    def both(self, a, b):
        left = 2 * (INPUTS + len(self.lines) + 1)
        self.lines.append((left, max(a, b), min(a, b)))
        return left

    def either(self, a, b):
        return self.both(a ^ 1, b ^ 1) ^ 1

    def differ(self, a, b):
        return self.both(self.both(a, b) ^ 1, self.both(a ^ 1, b ^ 1) ^ 1)

    def choose(self, s, a, b):
        """a where s holds, else b"""
        return self.either(self.both(s, a), self.both(s ^ 1, b))


def source(k):
    """Input k, counted around."""
    return 2 * (k % INPUTS + 1)


def hold(ands):
    """Side by side: a sample of 4 bits against the peak held, and the larger of the two. Depth stays as it is.
    The larger's top bit is the OR of both: chosen as the others are, it would have more than 18 cuts."""
    for k in itertools.count():
        sample = [source(8 * k + k // 8 + j) for j in range(4)]
        peak = [source(8 * k + k // 8 + j + 4) for j in range(4)]
        higher = ands.both(sample[0], peak[0] ^ 1)
        for a, b in zip(sample[1:], peak[1:]):
            higher = ands.either(ands.both(a, b ^ 1), ands.both(ands.both(a ^ 1, b) ^ 1, higher))
        for a, b in zip(sample[:-1], peak[:-1]):
            ands.choose(higher, a, b)
        ands.either(sample[-1], peak[-1])
        yield


def carry(ands):
    """One long ripple adder. Depth grows with the size. The carry meets b first and a last: were it a and b first, a sum
    would have more than 18 cuts."""
    c = source(0)
    for k in itertools.count():
        a, b = source(2 * k + 1), source(2 * k + 2)
        g, n = ands.both(b, c), ands.both(b ^ 1, c ^ 1)
        ands.differ(a, ands.both(g ^ 1, n ^ 1))
        c = ands.either(g, ands.both(n ^ 1, a))
        yield


def rotate(ands):
    """Stages of multiplexers that rotate 16 bits by 1, 2, 4 or 8. Depth grows with the size."""
    word = [source(j) for j in range(16)]
    for k in itertools.count():
        by = 1 << k % 4
        s = source(16 + k % (INPUTS - 16))
        word = [ands.choose(s, word[(j + by) % 16], word[j]) for j in range(16)]
        yield


def chain(ands):
    """Each AND is the one before, complemented at every second, with the next of four inputs. Depth grows with the size. The four inputs are a cut
    of each AND, and all ANDs below stand in its cone."""
    last = ands.both(source(0), source(0))
    yield
    for k in itertools.count():
        last = ands.both(last ^ (1 - k % 2), source((k + 1) % 4))
        yield


def tree(ands):
    """Trees of multiplexers, side by side: each chooses one of 32 inputs by five others. Depth stays as it is. What chooses is never
    chosen: were it so, an AND would have more than 18 cuts."""
    for k in itertools.count():
        level = [source((7 * k + j) % 48) for j in range(32)]
        for depth in range(5):
            s = source(48 + (5 * k + depth) % 16)
            level = [ands.choose(s, a, b) for a, b in zip(level[::2], level[1::2])]
        yield


def in_order(size):
    return range(size)


def backwards(size):
    return range(size - 1, -1, -1)


def at_random(size):
    numbers = list(range(size))
    random.Random(size).shuffle(numbers)
    return numbers


def text(family, size, numbering):
    ands = Ands()
    for _ in family(ands):
        if len(ands.lines) >= size:
            break
    numbers = numbering(size)

    def literal(x):
        return x if x >> 1 <= INPUTS else 2 * (INPUTS + numbers[(x >> 1) - INPUTS - 1] + 1) | x & 1

    lines = [tuple(map(literal, line)) for line in ands.lines[:size]]
    used = {operand >> 1 for _, a, b in lines for operand in (a, b)}
    outputs = [left for left, _, _ in lines if left >> 1 not in used]
    rows = [("aag", INPUTS + size, INPUTS, 0, len(outputs), size)]
    rows += [(source(k),) for k in range(INPUTS)] + [(left,) for left in outputs] + lines
    return "".join(" ".join(map(str, row)) + "\n" for row in rows)


FAMILIES = (
    ("hold", hold, in_order),
    ("carry", carry, in_order),
    ("rotate", rotate, in_order),
    ("back", rotate, backwards),
    ("chain", chain, in_order),
    ("tree", tree, in_order),
    ("random", tree, at_random),
)


def write(folder):
    folder.mkdir(parents=True, exist_ok=True)
    for name, family, numbering in FAMILIES:
        for size in SIZES:
            made = text(family, size, numbering)
            assert len(made) <= 65536, (name, size, len(made))
            (folder / f"{name}_{size}.aag").write_text(made)


if __name__ == "__main__":
    root = pathlib.Path(__file__).resolve().parent.parent
    write(pathlib.Path(sys.argv[1]) if len(sys.argv) > 1 else root / "target/bench")
