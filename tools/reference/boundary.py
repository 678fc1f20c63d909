"""Boundary rows: every code beside every code that it meets in a text, and the corners where two rules touch."""

from itertools import product

from rows import *

MASKING = [sum(bits) for bits in product((0, MASK), (0, ZEROING), (0, SAE), (0, ROUNDING))]

# Operand lists in which numbers, letters and decorations meet.
LISTS = [
    tuple(kinds(names))
    for names in (
        "",
        "imm8",
        "xmm_reg",
        "xmm_reg imm8",
        "imm8 imm8",
        "xmm_reg ymm_vvvv zmm_or_mem",
        "zmm_reg zmmp3_vvvv mem",
        "xmm_reg xmm_vvvv xmm_or_mem xmm_is4 imm8",
        "ymm_reg ymm_vvvv ymm_or_mem ymm_is5 imm8",
        "mm_reg mm_rm xmm_rm ymm_rm zmm_rm",
        "xmm_reg r32_reg imm8sex32",
        "k_reg k_rm",
        "k_reg xmm_vvvv",
        "kp1_reg zmm_vvvv",
        "k_reg xmm_vvvv xmm_or_mem imm8",
        "kp1_reg zmm_vvvv zmm_or_mem",
        "k_reg k_vvvv k_or_mem k_rm kp1_reg",
        "xmm_reg k_rm k_vvvv",
        "tmm_reg tmm_rm tmm_vvvv",
        "tmm_reg sibmem",
        "bnd_reg",
        "bnd_or_mem_mpx",
        "bnd_reg bnd_or_mem_mpx",
        "bnd_reg bnd_reg bnd_or_mem_mpx",
        "bnd_reg r64_or_mem_mpx",
        "r32_reg r32_or_mem",
        "r32_reg r32_rm",
        "r32_reg r32_vvvv r32_reg_mem r32_opcode r32_rm",
        "r64_reg r64_rm",
        "r64_reg r64_vvvv r64_reg_mem r64_opcode r64_rm",
        "r32_reg r64_reg r32_rm r64_rm imm8",
        "r64_reg r32_rm",
        "xmm_reg r64_vvvv r64_rm",
        "seg_rDI",
        "seg_rDI mm_reg mm_rm",
        "seg_rDI xmm_reg imm8",
        "seg_rDI imm8",
        "seg_rSI",
        "es_rDI seg_rSI",
        "seg_rBX_al xmm_reg",
        "r32_reg r32_rm es_rDI",
        "seg_rDI xmm_reg seg_rSI",
        "st0 sti_opcode",
        "sti_opcode st0",
    )
]


def boundary_rows(fill, rng):
    """All boundary rows, in an order of their own. `fill` makes a row of the given fields; the rest it chooses."""
    yield from operand_rows(fill)
    yield from numbered_rows(fill, rng)
    yield from opcode_rows(fill)
    yield from memory_rows(fill)
    yield from tag_rows(fill)
    yield from name_rows(fill, rng)


def operand_rows(fill):
    """Every kind at every place, under every option and encoding; lists with every option and decoration."""
    for kind, place, encoding in product(ALL, range(5), ENCODINGS):
        if kind != SEG_RDI or place == 0:
            yield fill(encoding=encoding, kinds_at={place: kind}, tag=0, option=PLAIN)
    for kind, option, encoding in product(ALL, OPTIONS, ENCODINGS):
        place = 1 if option == SKIP_OP0 and kind != SEG_RDI else 0
        yield fill(encoding=encoding, kinds_at={place: kind}, tag=0, option=option)
    for operands, option, masking in product(LISTS, OPTIONS, MASKING):
        yield fill(encoding=LEGACY, kinds=operands, tag=0, option=option, flags=masking)
        yield fill(encoding=EVEX, kinds=operands, tag=0, option=option, flags=masking | LIG)
    for first, second in product(SUFFIXED, SUFFIXED):
        yield fill(encoding=LEGACY, kinds=(first, second), tag=0)
    for first, second in product(OPCODE_REGISTERS + STACK, OPCODE_REGISTERS + STACK):
        for encoding in ENCODINGS:
            yield fill(encoding=encoding, kinds=(first, second), tag=0)


def numbered_rows(fill, rng):
    """Two operands that count alike or not, with and without others after them, under every option."""
    for first, second, option in product(COUNTED, COUNTED, OPTIONS):
        if second != "seg_rDI":
            operands = rng.choice(COUNTED[first]), rng.choice(COUNTED[second])
            others = rng.choice(VECTORS), rng.choice(COUNTED[second])
            yield fill(kinds=operands, tag=0, option=option)
            yield fill(kinds=operands + others, tag=0, option=option)


def opcode_rows(fill):
    """The heads of the five encodings, and the fields of the ModRM byte."""
    for encoding, table, prefix in product(ENCODINGS, TABLES, PREFIXES):
        yield fill(encoding=encoding, table=table, prefix=prefix, tag=0)
    for address, operand, prefix, flags in product(SIZES, SIZES, PREFIXES, (0, FWAIT)):
        yield fill(encoding=LEGACY, address=address, operand=operand, prefix=prefix, flags=flags, tag=0)
    for encoding, lkind, length, lig, w in product(VECTOR_ENCODINGS, LENGTH_KINDS, LENGTHS, (0, LIG), (0, W, WIG, W | WIG)):
        if lig or lkind in (L128, L0) or lkind == LZ and length == 0:
            yield fill(encoding=encoding, lkind=lkind, length=length, flags=lig | w, tag=0)
    for encoding, opcode, width in product(ENCODINGS, (0x00, 0x0F, 0x9B, 0xA0, 0xFF, 0x0F0F, 0xA00A, 0xFFFF), (1, 2)):
        if opcode < 1 << 8 * width:
            yield fill(encoding=encoding, opcode=opcode, bytes=width, tag=0)
    for group, rm, modrm in product(range(-1, 8), range(-1, 8), (0, MODRM)):
        for names in ("", "r32_reg", "mem", "mem_offs", "mem_vsib32x", "sibmem", "sibmem mem_offs", "imm8"):
            for encoding in (LEGACY, VEX, EVEX):
                flags = modrm if encoding == LEGACY else modrm | LIG
                yield fill(encoding=encoding, group=group, rm=rm, flags=flags, kinds=tuple(kinds(names)), tag=0)
    for kind, encoding, modrm, group in product(ALL, ENCODINGS, (0, MODRM), (-1, 0, 7)):
        flags = modrm if encoding not in VECTOR_ENCODINGS else modrm | LIG
        yield fill(encoding=encoding, group=group, flags=flags, kinds=(kind,), tag=0)


def memory_rows(fill):
    """Every memory kind with every label and with sizes around the widths of registers."""
    for kind, label, fpu in product(MEMORY, LABELS, (0, FPU)):
        for size in (0, 4):
            yield fill(kinds=(kind,), memory=(label, size), flags=fpu | LIG, tag=0, option=PLAIN)
        if kind in BROADCASTING:
            yield fill(kinds=(kind,), broadcast=(label, 2), flags=fpu | LIG | BROADCAST, tag=0, option=PLAIN)
    for kind, size, label in product(MEMORY, MEMORY_BYTES, (0, 1, 9, 14)):
        yield fill(kinds=(kind,), memory=(label, size), flags=LIG, tag=0, option=PLAIN)
    for size in range(513):
        yield fill(kinds=(KIND["mem"],), memory=(0, size), broadcast=(0, 512 - size), flags=LIG | BROADCAST, tag=0)


def tag_rows(fill):
    """Every tag with every option, FPU bit, label and encoding."""
    for tag, option, fpu in product(TAGS, OPTIONS, (0, FPU)):
        for names in ("", "mem", "st0 sti_opcode", "r32_reg r32_rm", "es_rDI", "seg_rDI"):
            yield fill(tag=tag, option=option, flags=fpu | LIG, kinds=tuple(kinds(names)))
    for tag, label, fpu in product(TAGS, LABELS, (0, FPU)):
        for names in ("mem", "mem_offs", "xmm_or_mem r64_or_mem"):
            operands = tuple(kinds(names))
            yield fill(tag=tag, memory=(label, 6), broadcast=(label, 2), flags=fpu | LIG, kinds=operands, option=PLAIN)
        operands = tuple(kinds("zmm_reg zmm_or_mem"))
        yield fill(tag=tag, memory=(label, 6), broadcast=(label, 2), flags=fpu | LIG | BROADCAST, kinds=operands, option=PLAIN)
    for tag, encoding, option in product(TAGS, ENCODINGS, OPTIONS):
        yield fill(tag=tag, encoding=encoding, option=option)


def name_rows(fill, rng):
    """Mnemonics of every length and letter."""
    for length in range(1, 33):
        yield fill(name="".join(rng.choice(LETTERS) for _ in range(length)), tag=0)
    for letter in LETTERS:
        yield fill(name=letter, tag=0)
        yield fill(name=letter * 32, tag=0)
