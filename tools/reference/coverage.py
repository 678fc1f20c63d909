"""What a set of rows covers: which codes met which in the texts, and which corners were met."""

from itertools import product

from corners import CORNERS, WIDTHS, broadcasts, memories, rested, shown, unwritten
from rows import *


class Coverage:
    def __init__(self):
        self.met = set()

    def add(self, row):
        self.met.update(meetings(row))

    def report(self, out):
        for subject, (wanted, _) in SUBJECTS.items():
            missed = [value for value in wanted if (subject, value) not in self.met]
            print(f"{subject}: {len(wanted) - len(missed)} of {len(wanted)}", file=out)
            for value in missed:
                print(f"not met: {value}", file=out)


def meetings(row):
    """All that a row covers: pairs of a subject and what is met of it."""
    return {(subject, value) for subject, (_, meets) in SUBJECTS.items() for value in meets(row)}


def chosen(rows, times=2):
    """Of these rows, some that cover all that these cover, each thing so many times; those that add much come first."""
    numbers = {}
    left = [(row, tuple(numbers.setdefault(meeting, len(numbers)) for meeting in meetings(row))) for row in rows]
    met = [0] * len(numbers)
    weight = [CORNER_WEIGHT if subject == "corner" else 1 for subject, _ in numbers]
    for least in (32, 16, 8, 4, 2, 1):
        passed = []
        for row, covers in left:
            if sum(weight[number] for number in covers if met[number] < times) < least:
                passed.append((row, covers))
                continue
            for number in covers:
                met[number] += 1
            yield row
        left = passed


def walked(row):
    """Place and kind of the operands that the signature walks; those that hide the others count as walked."""
    hiding = [(place, kind) for place, kind in enumerate(row.kinds) if kind in STRINGS and shown(row)]
    return hiding or row.printed()


def lengths():
    """Vector encoding, LIG, length kind and length where the four go together."""
    for encoding, lig, lkind, length in product(VECTOR_ENCODINGS, (False, True), LENGTH_KINDS, LENGTHS):
        if lig or lkind in (L128, L0) or lkind == LZ and length == 0:
            yield encoding, lig, lkind, length


def length_of(row):
    if shown(row) and row.encoding in VECTOR_ENCODINGS:
        yield row.encoding, row.has(LIG), row.lkind, row.length


def suffix_pairs(row):
    """Two kinds with a suffix, in this order."""
    if rested(row):
        for place, kind in enumerate(row.kinds):
            if kind in SUFFIXED:
                yield from ((kind, later) for later in row.kinds[place + 1 :] if later in SUFFIXED)


def decorations(row):
    """Rounding, sae, mask and zeroing as one number."""
    return row.flags >> 6 & 15


def alone(row):
    """The encoding and the kind that alone decides on the ModRM part."""
    return [(row.encoding, row.kinds[0])] if unwritten(row) and len(set(row.kinds)) == 1 else []


def first_two(row):
    """What the first two operands count as, the option, and whether there are more."""
    if len(row.kinds) > 1 and row.printed():
        yield COUNTED_AS[row.kinds[0]], COUNTED_AS[row.kinds[1]], row.option, len(row.kinds) > 2


def in_head(fields):
    """Fields that count where no pseudo tag hides them."""
    return lambda row: [fields(row)] if shown(row) else []


INSTRUCTIONS = [tag for tag in TAGS if tag not in PSEUDO]
BOTH = (False, True)
CORNER_WEIGHT = 16
COUNTED_AS = {kind: name for name, group in COUNTED.items() for kind in group}

# For each subject: all that there is to meet, and what a row meets of it.
SUBJECTS = {
    "kind at place": (
        [(kind, place) for kind, place in product(ALL, range(5)) if kind != SEG_RDI or place == 0],
        lambda row: [(kind, place) for place, kind in walked(row)],
    ),
    "kind under option": (
        [(kind, option) for kind, option in product(ALL, OPTIONS) if (kind, option) != (SEG_RDI, SKIP_OP0)],
        lambda row: [(kind, row.option) for _, kind in walked(row)],
    ),
    "kind in encoding": (
        list(product(ALL, ENCODINGS)),
        lambda row: [(kind, row.encoding) for _, kind in walked(row)],
    ),
    "kind, ModRM info, group or none": (
        list(product(ALL, BOTH, BOTH)),
        lambda row: [(kind, row.has(MODRM), row.group >= 0) for kind in row.kinds] if rested(row) else [],
    ),
    "encoding and kind that alone decides on ModRM": (list(product((LEGACY, VEX, EVEX, XOP), ALL)), alone),
    "first two operands, option, more or not": (
        [pair for pair in product(COUNTED, COUNTED, OPTIONS, BOTH) if pair[1] != "seg_rDI"],
        first_two,
    ),
    "operand count under option": (
        list(product(range(6), OPTIONS)),
        in_head(lambda row: (len(row.kinds), row.option)),
    ),
    "encoding and table": (list(product(ENCODINGS, TABLES)), in_head(lambda row: (row.encoding, row.table))),
    "encoding and prefix": (list(product(ENCODINGS, PREFIXES)), in_head(lambda row: (row.encoding, row.prefix))),
    "encoding and opcode length": (list(product(ENCODINGS, (1, 2))), in_head(lambda row: (row.encoding, row.bytes))),
    "encoding and flag bit, clear or set": (
        list(product(ENCODINGS, BITS, (0, 1))),
        lambda row: [(row.encoding, bit, row.flags >> bit & 1) for bit in BITS] if shown(row) else [],
    ),
    "vector encoding, LIG, length kind, length": (list(lengths()), length_of),
    "Legacy address size, operand size, prefix": (
        list(product(SIZES, SIZES, PREFIXES)),
        lambda row: [(row.address, row.operand, row.prefix)] if shown(row) and row.encoding == LEGACY else [],
    ),
    "group, rm, ModRM info": (
        list(product(range(-1, 8), range(-1, 8), BOTH)),
        lambda row: [(row.group, row.rm, row.has(MODRM))] if rested(row) else [],
    ),
    "suffix before suffix": (list(product(SUFFIXED, SUFFIXED)), suffix_pairs),
    "tag and option": (list(product(TAGS, OPTIONS)), lambda row: [(row.tag, row.option)]),
    "tag and encoding": (list(product(TAGS, ENCODINGS)), lambda row: [(row.tag, row.encoding)]),
    "tag and FPU bit": (list(product(TAGS, BOTH)), lambda row: [(row.tag, row.has(FPU))]),
    "tag and label": (
        list(product(INSTRUCTIONS, LABELS)),
        lambda row: [(row.tag, row.memory[0])] if memories(row) else [],
    ),
    "tag and broadcast label": (
        list(product(INSTRUCTIONS, LABELS)),
        lambda row: [(row.tag, row.broadcast[0])] if broadcasts(row) else [],
    ),
    "memory kind, label, FPU bit": (
        list(product(MEMORY, LABELS, BOTH)),
        lambda row: [(kind, row.memory[0], row.has(FPU)) for kind in memories(row)],
    ),
    "broadcast memory kind, label, FPU bit": (
        list(product(BROADCASTING, LABELS, BOTH)),
        lambda row: [(kind, row.broadcast[0], row.has(FPU)) for kind in broadcasts(row)],
    ),
    "memory kind and common size": (
        list(product(MEMORY, MEMORY_BYTES)),
        lambda row: [(kind, row.memory[1]) for kind in memories(row) if row.memory[1] in MEMORY_BYTES],
    ),
    "memory size": (range(513), lambda row: [row.memory[1]] if memories(row) else []),
    "register or memory, of one size or not": (
        list(product(GPR_MEM, BOTH)),
        lambda row: [(kind, row.memory[1] == WIDTHS[kind]) for kind in memories(row) if kind in GPR_MEM],
    ),
    "decorations under option": (
        list(product(range(16), OPTIONS)),
        lambda row: [(decorations(row), row.option)] if row.printed() else [],
    ),
    "decorations, Legacy, last imm8": (
        list(product(range(16), BOTH, BOTH)),
        lambda row: [(decorations(row), row.encoding == LEGACY, row.kinds[-1] == IMM8)] if row.printed() else [],
    ),
    "mnemonic length": (range(1, 33), in_head(lambda row: len(row.name))),
    "mnemonic letter": (LETTERS, lambda row: row.name if shown(row) else ""),
    "corner": (list(CORNERS), lambda row: [corner for corner, meets in CORNERS.items() if meets(row)]),
}
