#!/usr/bin/env python3
"""Prints rows that pass all checks: boundary rows first, then random ones. The same arguments give the same rows.

    generate.py [--rows N] [--seed S]             N rows; on standard error, what they cover
    generate.py --stored [--rows N] [--seed S]    at most N rows, chosen so that few cover much
"""

import argparse
import sys
from itertools import chain, islice
from random import Random

from boundary import boundary_rows
from coverage import Coverage, chosen
from rows import *

# What random operands are drawn from, so that those of one class meet each other.
THEMES = [VECTORS, MASKS + VECTORS, MASKS, TILES, BOUNDS, R32, R64, R32 + R64]
THEMES += [ALL, MEMORY, VSIB, SUFFIXED, OPCODE_REGISTERS + STACK]

# How many rows are looked at for those to be stored.
CANDIDATES = 60000


class Rows:
    """A stream of rows drawn from a seed."""

    def __init__(self, seed):
        self.rng = Random(seed)

    def boundary(self):
        return boundary_rows(self.fill, self.rng)

    def random(self):
        while True:
            yield self.fill()

    def fill(self, kinds_at=None, **given):
        """A row of the given fields, and of given kinds at some places; the rest is drawn."""
        rng = self.rng
        row = Row(
            encoding=rng.choice(ENCODINGS),
            table=rng.choice(TABLES),
            prefix=rng.choice(PREFIXES),
            address=rng.choice(SIZES),
            operand=rng.choice(SIZES),
            length=rng.choice(LENGTHS),
            lkind=rng.choice(LENGTH_KINDS),
            flags=self.flags(),
            group=self.index(),
            rm=self.index(),
            kinds=self.operands(kinds_at or {}),
            tag=self.tag(),
            name="".join(rng.choice(LETTERS) for _ in range(rng.choice((1, 2, 3, 4, 5, 6, 8, 12, 31, 32)))),
            option=rng.choice(OPTIONS),
            memory=self.memory(),
            broadcast=self.memory(),
            bytes=rng.choice((1, 1, 2)),
        )
        row.opcode = rng.randrange(1 << 8 * row.bytes)
        for field, value in given.items():
            setattr(row, field, value)
        self.settle(row, given)
        problem = fault(row)
        assert problem is None, (problem, row)
        return row

    def settle(self, row, given):
        """Where two drawn fields do not go together, draws one of them anew."""
        if row.encoding in VECTOR_ENCODINGS and not row.has(LIG):
            if row.lkind == NO_LENGTH:
                row.lkind = self.rng.choice((L128, L0))
            if row.lkind == LZ:
                row.length = 0
        if row.has(BROADCAST) and any(kind in GPR_MEM for kind in row.kinds):
            if "flags" in given or self.rng.random() < 0.5:
                row.kinds = tuple(self.rng.choice(BROADCASTING) if kind in GPR_MEM else kind for kind in row.kinds)
            else:
                row.flags &= ~BROADCAST

    def flags(self):
        often = self.rng.choice((0.1, 0.5, 0.8))
        return sum(1 << bit for bit in BITS if self.rng.random() < often)

    def index(self):
        return self.rng.choice((-1, self.rng.randrange(8)))

    def tag(self):
        return self.rng.choice((0, 0, self.rng.choice(TAGS)))

    def memory(self):
        size = self.rng.choice((self.rng.choice(MEMORY_BYTES), self.rng.choice(MEMORY_BYTES), self.rng.randrange(513)))
        return self.rng.choice((0, self.rng.choice(LABELS))), size

    def operands(self, kinds_at):
        """Up to five kinds, half of a theme and half of all, without those that hide or misplace a kind that is given."""
        theme = self.rng.choice(THEMES)
        least = max(kinds_at, default=-1) + 1
        drawn = [self.rng.choice(self.rng.choice((theme, ALL))) for _ in range(self.rng.randint(least, 5))]
        for place, kind in enumerate(drawn):
            if kinds_at and kind in STRINGS or place > 0 and kind == SEG_RDI:
                drawn[place] = self.rng.choice(VECTORS)
        for place, kind in kinds_at.items():
            drawn[place] = kind
        return tuple(drawn)


def main():
    parser = argparse.ArgumentParser()
    parser.add_argument("--rows", type=int, default=100000)
    parser.add_argument("--seed", type=int, default=1)
    parser.add_argument("--stored", action="store_true")
    arguments = parser.parse_args()

    rows = Rows(arguments.seed)
    coverage = Coverage()
    stream = chain(rows.boundary(), rows.random())
    if arguments.stored:
        stream = chosen(islice(stream, CANDIDATES))
    printed = 0
    for row in islice(stream, arguments.rows):
        coverage.add(row)
        print(spelled(row))
        printed += 1
    print(f"{printed} rows", file=sys.stderr)
    coverage.report(sys.stderr)


if __name__ == "__main__":
    main()
