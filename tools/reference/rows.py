"""Rows of forms: their numbers, the checks that a row has to pass, and its spelling in a job."""

from dataclasses import dataclass

# The operand kinds, numbered from 0.
KINDS = """
r32_reg r32_reg_mem r32_rm r32_opcode r32_vvvv r64_reg r64_reg_mem r64_rm r64_opcode r64_vvvv bnd_or_mem_mpx bnd_reg
None farbr2_2 farbr4_2 mem_offs mem mem_mpx mem_mib mem_vsib32x mem_vsib64x mem_vsib32y mem_vsib64y mem_vsib32z
mem_vsib64z r8_or_mem r16_or_mem r32_or_mem r32_or_mem_mpx r64_or_mem r64_or_mem_mpx mm_or_mem xmm_or_mem ymm_or_mem
zmm_or_mem k_or_mem r8_reg r8_opcode r16_reg r16_reg_mem r16_rm r16_opcode seg_reg k_reg kp1_reg k_rm k_vvvv mm_reg
mm_rm xmm_reg xmm_rm xmm_vvvv xmmp3_vvvv xmm_is4 xmm_is5 ymm_reg ymm_rm ymm_vvvv ymm_is4 ymm_is5 zmm_reg zmm_rm
zmm_vvvv zmmp3_vvvv cr_reg dr_reg tr_reg es cs ss ds fs gs al cl ax dx eax rax st0 sti_opcode imm4_m2z imm8
imm8_const_1 imm8sex16 imm8sex32 imm8sex64 imm16 imm32 imm32sex64 imm64 seg_rDI br16_1 br32_1 br64_1 br16_2 br32_4
br64_4 xbegin_2 xbegin_4 brdisp_2 brdisp_4 sibmem tmm_reg tmm_rm tmm_vvvv seg_rSI es_rDI seg_rBX_al
""".split()
KIND = {name: number for number, name in enumerate(KINDS)}


def kinds(names):
    """The numbers of the kinds of these names."""
    return [KIND[name] for name in names.split()]


NO_KIND = KIND["None"]
SEG_RDI = KIND["seg_rDI"]
IMM8 = KIND["imm8"]
ALL = [kind for kind in range(len(KINDS)) if kind != NO_KIND]

# Groups of kinds by what they do in the two texts.
R32 = kinds("r32_reg r32_reg_mem r32_rm r32_opcode r32_vvvv")
R64 = kinds("r64_reg r64_reg_mem r64_rm r64_opcode r64_vvvv")
BOUNDS = kinds("bnd_or_mem_mpx bnd_reg")
VSIB = kinds("mem_vsib32x mem_vsib64x mem_vsib32y mem_vsib64y mem_vsib32z mem_vsib64z")
GPR_MEM = kinds("r8_or_mem r16_or_mem r32_or_mem r32_or_mem_mpx r64_or_mem r64_or_mem_mpx")
GPR_MEM_BYTES = [1, 2, 4, 4, 8, 8]
VECTOR_MEM = kinds("mm_or_mem xmm_or_mem ymm_or_mem zmm_or_mem")
VECTORS = VECTOR_MEM + [KIND[name] for name in KINDS if name[:3] in ("mm_", "xmm", "ymm", "zmm") and "mem" not in name]
MASKS = kinds("k_reg kp1_reg k_rm k_vvvv k_or_mem")
FIRST_MASKS = kinds("k_reg kp1_reg")
TILES = kinds("tmm_reg tmm_rm tmm_vvvv")
STRINGS = kinds("seg_rSI es_rDI seg_rBX_al")
BROADCASTING = kinds("mem mem_mpx bnd_or_mem_mpx k_or_mem") + VECTOR_MEM
MEMORY = kinds("mem_offs") + BROADCASTING + GPR_MEM
OPCODE_REGISTERS = kinds("r8_opcode r16_opcode r32_opcode r64_opcode")
STACK = kinds("st0 sti_opcode")
IS5 = kinds("xmm_is5 ymm_is5")
SUFFIXED = IS5 + kinds(
    "br16_1 br32_1 br64_1 br16_2 xbegin_2 brdisp_2 farbr2_2 br32_4 br64_4 xbegin_4 brdisp_4 farbr4_2 imm8 imm8sex16"
    " imm8sex32 imm8sex64 imm16 imm32 imm32sex64 imm64 xmm_is4 ymm_is4 mem_offs"
)


# The kinds by the count that they move on, or by what else they do to the operands beside them.
COUNTED = {
    "vector": VECTORS,
    "first mask": FIRST_MASKS,
    "mask": [kind for kind in MASKS if kind not in FIRST_MASKS],
    "tile": TILES,
    "bound": BOUNDS,
    "r32": R32,
    "r64": R64,
    "seg_rDI": [SEG_RDI],
    "imm8": [IMM8],
}
COUNTED["other"] = [kind for kind in ALL if kind not in STRINGS and not any(kind in group for group in COUNTED.values())]

LEGACY, VEX, EVEX, XOP, D3NOW = ENCODINGS = range(5)
VECTOR_ENCODINGS = (VEX, EVEX, XOP)
TABLES, PREFIXES, LENGTHS, LENGTH_KINDS, OPTIONS, TAGS, LABELS = map(range, (9, 5, 3, 4, 7, 17, 17))
SIZES = (0, 16, 32, 64)
NO_LENGTH, L128, L0, LZ = LENGTH_KINDS
PLAIN, OP_MASK_IS_K1, INC_VEC_INDEX, NO_VEC_INDEX, SWAP_VEC_INDEX_12, SKIP_OP0, SAME_AS_OP_INDEX = OPTIONS
PSEUDO = range(1, 7)
TWO_BYTE, DESCRIPTOR_TABLE, BARE_ST = 7, 8, 9
IMPLIED = range(10, 17)
FPU_LABELS = range(1, 4)
FWORDS = (15, 16)
BITS = range(11)
LIG, W, WIG, FWAIT, MODRM, BROADCAST, ROUNDING, SAE, MASK, ZEROING, FPU = [1 << bit for bit in BITS]
MEMORY_BYTES = (0, 1, 2, 4, 8, 16, 32, 64, 512)
LETTERS = "ABCDEFGHIJKLMNOPQRSTUVWXYZabcdefghijklmnopqrstuvwxyz0123456789_"


@dataclass(slots=True)
class Row:
    encoding: int = LEGACY
    table: int = 0
    prefix: int = 0
    opcode: int = 0
    bytes: int = 1
    address: int = 0
    operand: int = 0
    length: int = 0
    lkind: int = NO_LENGTH
    flags: int = 0
    group: int = -1
    rm: int = -1
    kinds: tuple = ()
    tag: int = 0
    name: str = "NAME"
    option: int = PLAIN
    memory: tuple = (0, 0)
    broadcast: tuple = (0, 0)

    def has(self, flags):
        return self.flags & flags == flags

    def printed(self):
        """Place and kind of the operands that the signature walks."""
        if self.tag in PSEUDO or any(kind in STRINGS for kind in self.kinds):
            return []
        return list(enumerate(self.kinds))[1 if self.option == SKIP_OP0 else 0 :]


def fault(row):
    """What keeps a row from being a form with a name, or None."""
    memories = (row.memory, row.broadcast)
    if (
        row.encoding not in range(6)
        or row.table not in TABLES
        or row.prefix not in PREFIXES
        or row.lkind not in LENGTH_KINDS
        or row.tag not in TAGS
        or any(kind not in range(len(KINDS)) for kind in row.kinds)
        or row.flags not in range(1 << len(BITS))
    ):
        return "a code or a flag bit is outside its set"
    if row.encoding not in ENCODINGS:
        return "the encoding is MVEX"
    if len(row.kinds) > 5 or NO_KIND in row.kinds:
        return "there are more than five operands, or one is no operand"
    if SEG_RDI in row.kinds[1:]:
        return "seg_rDI stands elsewhere than at operand 0"
    if row.address not in SIZES or row.operand not in SIZES:
        return "an address or operand size is none of 0, 16, 32, 64"
    if row.bytes not in (1, 2) or row.opcode not in range(1 << 8 * row.bytes):
        return "the opcode is not as long as said"
    if row.group not in range(-1, 8) or row.rm not in range(-1, 8):
        return "a group or rm index is outside -1 to 7"
    if row.length not in LENGTHS:
        return "the vector length is above 2"
    if row.encoding in VECTOR_ENCODINGS and not row.has(LIG):
        if row.lkind == NO_LENGTH or row.lkind == LZ and row.length != 0:
            return "a vector encoding has no length that can be printed"
    if row.has(BROADCAST) and any(kind in GPR_MEM for kind in row.kinds):
        return "broadcast is set beside a general register or memory"
    if not 1 <= len(row.name) <= 32 or any(letter not in LETTERS for letter in row.name):
        return "the mnemonic is empty, too long or has a foreign byte"
    if row.option not in OPTIONS or any(label not in LABELS or size not in range(513) for label, size in memories):
        return "an option, a label or a memory size is outside its set"
    return None


def spelled(row):
    """The row as a line of a job."""
    return "row %d %d %d %0*X %d %d %d %d %04X %d %d %s %d %s %d %d:%d %d:%d" % (
        row.encoding,
        row.table,
        row.prefix,
        2 * row.bytes,
        row.opcode,
        row.address,
        row.operand,
        row.length,
        row.lkind,
        row.flags,
        row.group,
        row.rm,
        ",".join(map(str, row.kinds)) or "-",
        row.tag,
        row.name,
        row.option,
        *row.memory,
        *row.broadcast,
    )
