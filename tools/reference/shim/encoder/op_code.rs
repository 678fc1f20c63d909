// `OpCodeInfo` with the accessors that the formatter files call, answering from a row.
use crate::code::Code;
use crate::names::{EncodingKind, MandatoryPrefix, OpCodeOperandKind, OpCodeTableKind};
use rows::{Flag, Row};

pub(crate) struct OpCodeInfo {
    row: &'static Row,
    code: Code,
    encoding: EncodingKind,
    kinds: Vec<OpCodeOperandKind>,
}

impl OpCodeInfo {
    pub(super) fn new(row: &'static Row, turn: usize) -> OpCodeInfo {
        let encoding = EncodingKind::ALL[row.encoding];
        assert!(
            encoding != EncodingKind::MVEX,
            "the files are built without MVEX"
        );
        let kinds = row
            .kinds
            .iter()
            .map(|&kind| OpCodeOperandKind::ALL[kind])
            .collect();
        OpCodeInfo {
            row,
            code: Code::of(row, turn),
            encoding,
            kinds,
        }
    }

    pub(super) const fn code(&self) -> Code {
        self.code
    }

    /// The table of spellings answers for the row in hand, whatever it is asked for.
    pub(super) fn mnemonic(&self) -> usize {
        0
    }

    pub(super) fn is_instruction(&self) -> bool {
        !self.code.is_pseudo()
    }

    pub(super) fn encoding(&self) -> EncodingKind {
        self.encoding
    }

    pub(super) fn table(&self) -> OpCodeTableKind {
        OpCodeTableKind::ALL[self.row.table]
    }

    pub(super) fn mandatory_prefix(&self) -> MandatoryPrefix {
        MandatoryPrefix::ALL[self.row.prefix]
    }

    pub(super) fn op_code(&self) -> u32 {
        self.row.opcode
    }

    pub(super) fn op_code_len(&self) -> u32 {
        self.row.bytes
    }

    pub(super) fn address_size(&self) -> u32 {
        self.row.address
    }

    pub(super) fn operand_size(&self) -> u32 {
        self.row.operand
    }

    pub(super) fn l(&self) -> u32 {
        self.row.length
    }

    pub(super) fn w(&self) -> u32 {
        self.row.has(Flag::W) as u32
    }

    pub(super) fn is_lig(&self) -> bool {
        self.row.has(Flag::Lig)
    }

    pub(super) fn is_wig(&self) -> bool {
        self.row.has(Flag::Wig)
    }

    pub(super) fn fwait(&self) -> bool {
        self.row.has(Flag::Fwait)
    }

    pub(super) fn can_broadcast(&self) -> bool {
        self.row.has(Flag::Broadcast)
    }

    pub(super) fn can_use_rounding_control(&self) -> bool {
        self.row.has(Flag::Rounding)
    }

    pub(super) fn can_suppress_all_exceptions(&self) -> bool {
        self.row.has(Flag::Sae)
    }

    pub(super) fn can_use_op_mask_register(&self) -> bool {
        self.row.has(Flag::Mask)
    }

    pub(super) fn can_use_zeroing_masking(&self) -> bool {
        self.row.has(Flag::Zeroing)
    }

    pub(super) fn is_group(&self) -> bool {
        self.row.group >= 0
    }

    pub(super) fn group_index(&self) -> i32 {
        self.row.group
    }

    pub(super) fn rm_group_index(&self) -> i32 {
        self.row.rm
    }

    pub(super) fn op_count(&self) -> u32 {
        self.kinds.len() as u32
    }

    pub(super) fn op_kinds(&self) -> &[OpCodeOperandKind] {
        &self.kinds
    }

    pub(super) fn op_kind(&self, operand: u32) -> OpCodeOperandKind {
        self.kinds
            .get(operand as usize)
            .copied()
            .unwrap_or(OpCodeOperandKind::None)
    }

    pub(super) fn op0_kind(&self) -> OpCodeOperandKind {
        self.op_kind(0)
    }
}
