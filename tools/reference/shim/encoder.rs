// The module that the formatter files stand in, with the two files that they import beside them.
mod instruction_fmt;
mod op_code;
#[allow(unused_attributes)]
mod op_code_fmt;

mod mnemonic_str_tbl {
    pub(crate) static TO_MNEMONIC_STR: crate::fed::Spellings = crate::fed::Spellings;
}

use crate::names::InstrStrFmtOption;
use instruction_fmt::InstructionFormatter;
use op_code::OpCodeInfo;
use op_code_fmt::{LKind, OpCodeFormatter};
use rows::{Flag, Row};

/// The length kinds, in the order of a row's numbers.
const LKINDS: [LKind; 4] = [LKind::None, LKind::L128, LKind::L0, LKind::LZ];

/// Both texts, made as the constructor of `OpCodeInfo` makes them.
pub(crate) fn texts(row: &'static Row, turn: usize) -> (String, String) {
    let info = OpCodeInfo::new(row, turn);
    let mut sb = String::new();
    let op =
        OpCodeFormatter::new(&info, &mut sb, LKINDS[row.lkind], row.has(Flag::ModrmInfo)).format();
    let sig =
        InstructionFormatter::new(&info, InstrStrFmtOption::ALL[row.option], &mut sb).format();
    (op, sig)
}
