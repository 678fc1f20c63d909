"""Corners, where two rules of the texts meet: each with a name and a test whether a row stands there."""

from rows import *

WIDTHS = dict(zip(GPR_MEM, GPR_MEM_BYTES))


def shown(row):
    """Whether the texts show more than a pseudo tag."""
    return row.tag not in PSEUDO


def rested(row):
    """Whether the opcode string has a ModRM part and suffixes."""
    return shown(row) and row.encoding != D3NOW


def unwritten(row):
    """Whether the ModRM part has neither the three-bit fields nor a group."""
    return rested(row) and not row.has(MODRM) and row.group < 0


def legacy(row):
    return shown(row) and row.encoding == LEGACY


def all_walked(row):
    return row.option != SKIP_OP0 and bool(row.printed())


def all_but_first(row):
    return row.option == SKIP_OP0 and bool(row.printed())


def none_left(row):
    return row.option == SKIP_OP0 and shown(row) and len(row.kinds) < 2


def last_is_imm8(row):
    """Whether sae and rounding stand before the last operand, if anywhere."""
    return row.encoding != LEGACY and row.kinds[-1:] == (IMM8,)


def lone_imm8(row):
    return all_walked(row) and row.kinds == (IMM8,)


def lone_seg_rdi(row):
    return all_walked(row) and row.kinds == (SEG_RDI,)


def first(row, group):
    return row.kinds[:1] != () and row.kinds[0] in group


def tally(row, group):
    """How many of the row's kinds are of the group, printed or not."""
    return sum(kind in group for kind in row.kinds)


def both_lettered(row):
    return all_walked(row) and tally(row, R32) > 1 and tally(row, R64) > 1


def memories(row):
    """The kinds that print a memory."""
    return [kind for _, kind in row.printed() if kind in MEMORY]


def broadcasts(row):
    """The kinds that print a broadcast memory."""
    return [kind for kind in memories(row) if kind in BROADCASTING and row.has(BROADCAST)]


def fpu_memory(row):
    return row.tag == 0 and row.has(FPU) and row.memory[0] in FPU_LABELS and bool(memories(row))


def fpu_broadcast(row):
    return row.tag == 0 and row.has(FPU) and row.broadcast[0] in FPU_LABELS and bool(broadcasts(row))


def same_width(row):
    return any(kind in GPR_MEM and row.memory[1] == WIDTHS[kind] for kind in memories(row))


def printed_stack(row):
    return set(STACK) <= {kind for _, kind in row.printed()}


def bare_st(row):
    return row.tag == BARE_ST and printed_stack(row)


MOFFS, SIBMEM, STI = kinds("mem_offs sibmem sti_opcode")
PLUS_3 = kinds("xmmp3_vvvv zmmp3_vvvv")

CORNERS = {
    # Operands that are hidden or skipped.
    "a kind that hides all stands last": lambda r: shown(r) and r.kinds[1:] and r.kinds[-1] in STRINGS,
    "implied operands after hidden ones": lambda r: r.tag in IMPLIED and tally(r, STRINGS) > 0,
    "implied operands after none": lambda r: r.tag in IMPLIED and not r.kinds,
    "implied operands after a skipped one": lambda r: none_left(r) and r.kinds and r.tag in IMPLIED,
    "SkipOp0 of none": lambda r: none_left(r) and not r.kinds,
    "SkipOp0 of a lone one": lambda r: none_left(r) and r.kinds,
    "SkipOp0 with mask": lambda r: all_but_first(r) and r.has(MASK),
    "SkipOp0 of the place of sae": lambda r: all_but_first(r) and r.has(SAE) and last_is_imm8(r) and len(r.kinds) == 2,
    "SkipOp0 before the place of sae": lambda r: all_but_first(r) and r.has(SAE) and last_is_imm8(r) and len(r.kinds) > 2,
    "SkipOp0 of one r32 of two": lambda r: all_but_first(r) and first(r, R32) and tally(r, R32) == 2,
    "SkipOp0 of one r64 of two": lambda r: all_but_first(r) and first(r, R64) and tally(r, R64) == 2,
    "SkipOp0 of one bound register of two": lambda r: all_but_first(r) and first(r, BOUNDS) and tally(r, BOUNDS) == 2,
    "SkipOp0 of a mask register, vectors by place": lambda r: (
        all_but_first(r) and first(r, FIRST_MASKS) and len(r.kinds) > 2 and tally(r, VECTORS) > 1
    ),
    "SkipOp0 of seg_rDI": lambda r: all_but_first(r) and first(r, [SEG_RDI]) and len(r.kinds) > 2,
    "seg_rDI alone": lambda r: lone_seg_rdi(r) and not r.flags & (MASK | SAE | ROUNDING),
    "seg_rDI alone with mask": lambda r: lone_seg_rdi(r) and r.has(MASK),
    "seg_rDI alone with sae": lambda r: lone_seg_rdi(r) and r.has(SAE),
    "seg_rDI before others with mask": lambda r: all_walked(r) and first(r, [SEG_RDI]) and r.kinds[1:] and r.has(MASK),
    "seg_rDI at the place of sae": lambda r: all_walked(r) and r.kinds == (SEG_RDI, IMM8) and last_is_imm8(r) and r.has(SAE),
    "pseudo tag with operands in EVEX": lambda r: r.tag in PSEUDO and r.kinds[1:] and r.encoding == EVEX,
    # Decorations.
    "lone imm8 outside Legacy with sae": lambda r: lone_imm8(r) and last_is_imm8(r) and r.has(SAE),
    "lone imm8 outside Legacy with rounding": lambda r: lone_imm8(r) and last_is_imm8(r) and r.has(ROUNDING),
    "lone imm8 outside Legacy with mask": lambda r: lone_imm8(r) and last_is_imm8(r) and r.has(MASK),
    "lone imm8 in Legacy with sae and rounding": lambda r: lone_imm8(r) and legacy(r) and r.has(SAE | ROUNDING),
    "two imm8 outside Legacy with sae": lambda r: (
        all_walked(r) and last_is_imm8(r) and r.kinds[-2:] == (IMM8, IMM8) and r.has(SAE)
    ),
    "zeroing without mask": lambda r: all_walked(r) and r.has(ZEROING) and not r.has(MASK),
    # Numbers and letters.
    "one bound register": lambda r: all_walked(r) and tally(r, BOUNDS) == 1,
    "two bound registers": lambda r: all_walked(r) and tally(r, BOUNDS) == 2,
    "five letters of r32": lambda r: all_walked(r) and tally(r, R32) == 5 and r.option != OP_MASK_IS_K1,
    "five letters of r64": lambda r: all_walked(r) and tally(r, R64) == 5 and r.option != OP_MASK_IS_K1,
    "letters of r32 and r64": lambda r: both_lettered(r) and r.option != OP_MASK_IS_K1,
    "no letters where the mask is k1": lambda r: both_lettered(r) and r.option == OP_MASK_IS_K1,
    "five mask registers and the mask, which is k1": lambda r: (
        all_walked(r) and tally(r, MASKS) == 5 and r.has(MASK) and r.option == OP_MASK_IS_K1
    ),
    "the mask alone, where it is k1": lambda r: (
        all_walked(r) and tally(r, MASKS) == 0 and r.has(MASK) and r.option == OP_MASK_IS_K1
    ),
    "mask register first of two": lambda r: (
        all_walked(r) and first(r, FIRST_MASKS) and len(r.kinds) == 2 and r.kinds[1] in VECTORS
    ),
    "k_rm first of three": lambda r: all_walked(r) and first(r, kinds("k_rm")) and len(r.kinds) > 2 and tally(r, VECTORS) > 1,
    "one vector under SwapVecIndex12": lambda r: all_walked(r) and tally(r, VECTORS) == 1 and r.option == SWAP_VEC_INDEX_12,
    "five vectors under SwapVecIndex12": lambda r: all_walked(r) and tally(r, VECTORS) == 5 and r.option == SWAP_VEC_INDEX_12,
    "vector by place after others": lambda r: (
        all_walked(r) and r.option == SAME_AS_OP_INDEX and r.kinds[2:] and tally(r, VECTORS) == 1 and r.kinds[-1] in VECTORS
    ),
    "+3 without number": lambda r: r.option == NO_VEC_INDEX and any(kind in PLUS_3 for _, kind in r.printed()),
    "three tiles": lambda r: all_walked(r) and tally(r, TILES) == 3,
    # Memories.
    "FPU memory of size 0": lambda r: fpu_memory(r) and r.memory[1] == 0,
    "FPU broadcast": fpu_broadcast,
    "FPU label outside the FPU": lambda r: not r.has(FPU) and r.memory[0] in FPU_LABELS and memories(r),
    "2byte of moffs": lambda r: r.tag == TWO_BYTE and r.has(FPU) and r.memory[0] in FPU_LABELS and MOFFS in memories(r),
    "2byte broadcast": lambda r: r.tag == TWO_BYTE and broadcasts(r),
    "2byte beside a register of the memory's size": lambda r: r.tag == TWO_BYTE and same_width(r),
    "descriptor table, six bytes": lambda r: r.tag == DESCRIPTOR_TABLE and r.memory[0] == FWORDS[0] and memories(r),
    "descriptor table, ten bytes": lambda r: r.tag == DESCRIPTOR_TABLE and r.memory[0] == FWORDS[1] and memories(r),
    "descriptor table broadcast": lambda r: r.tag == DESCRIPTOR_TABLE and r.broadcast[0] in FWORDS and broadcasts(r),
    "bare ST in the FPU's range": lambda r: bare_st(r) and r.has(FPU),
    "bare ST outside the FPU's range": lambda r: bare_st(r) and not r.has(FPU),
    "ST(0) of another tag": lambda r: r.tag != BARE_ST and printed_stack(r),
    "named memory of the register's size": lambda r: r.memory[0] not in FPU_LABELS and r.memory[0] > 0 and same_width(r),
    # The opcode string.
    "vsib in EVEX with group": lambda r: rested(r) and r.encoding == EVEX and tally(r, VSIB) > 0 and r.group >= 0,
    "vsib in EVEX without group": lambda r: unwritten(r) and r.encoding == EVEX and tally(r, VSIB) > 0,
    "vsib in VEX": lambda r: unwritten(r) and r.encoding == VEX and tally(r, VSIB) > 0,
    "vsib over an rm index": lambda r: rested(r) and r.has(MODRM) and tally(r, VSIB) > 0 and r.rm not in (-1, 4),
    "sibmem over an rm index": lambda r: rested(r) and r.has(MODRM) and SIBMEM in r.kinds and r.rm not in (-1, 4),
    "moffs with ModRM info": lambda r: rested(r) and r.has(MODRM) and set(r.kinds) == {MOFFS},
    "EVEX without operands": lambda r: unwritten(r) and r.encoding == EVEX and not r.kinds,
    "EVEX with imm8 alone": lambda r: unwritten(r) and r.encoding == EVEX and r.kinds == (IMM8,),
    "VEX with imm8 alone": lambda r: unwritten(r) and r.encoding == VEX and r.kinds == (IMM8,),
    "two opcode registers": lambda r: legacy(r) and len({kind for kind in r.kinds if kind in OPCODE_REGISTERS}) > 1,
    "opcode register and ST(i)": lambda r: legacy(r) and tally(r, OPCODE_REGISTERS) > 0 and STI in r.kinds,
    "two ST(i)": lambda r: legacy(r) and r.kinds.count(STI) > 1,
    "opcode register outside Legacy": lambda r: rested(r) and r.encoding != LEGACY and tally(r, OPCODE_REGISTERS) > 0,
    "imm8 after is5": lambda r: rested(r) and any((kind, IMM8) in zip(r.kinds, r.kinds[1:]) for kind in IS5),
    "D3NOW with group, ModRM info and suffixes": lambda r: (
        shown(r) and r.encoding == D3NOW and r.has(MODRM) and r.group >= 0 and tally(r, SUFFIXED) > 0
    ),
    "W under WIG": lambda r: shown(r) and r.encoding in VECTOR_ENCODINGS and r.has(W | WIG),
    "o64 after a prefix": lambda r: legacy(r) and r.operand == 64 and r.prefix > 0,
    "two-byte opcode below 256": lambda r: shown(r) and r.bytes == 2 and r.opcode < 256,
}
