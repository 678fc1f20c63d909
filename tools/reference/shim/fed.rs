// What the formatter files look up by code in tables of their own crate: here it is the row in hand that answers.
use rows::{Memory, Row};
use std::cell::Cell;
use std::ops::Index;

#[allow(non_camel_case_types)]
#[derive(Copy, Clone, PartialEq, Eq)]
pub(crate) enum MemorySize {
    /// Any memory that no test names.
    Untested,
    Int16,
    Int32,
    Int64,
    Float32,
    Float64,
    Float80,
    Bcd,
    Bound16_WordWord,
    Bound32_DwordDword,
    FpuEnv14,
    FpuEnv28,
    FpuState94,
    FpuState108,
    Fxsave_512Byte,
    Fxsave64_512Byte,
    Xsave,
    Xsave64,
    SegPtr16,
    SegPtr32,
    SegPtr64,
    Fword6,
    Fword10,
}
use MemorySize::*;

/// The names of each label.
static LABELLED: [&[MemorySize]; 17] = [
    &[Untested],
    &[Int16, Int32, Int64],
    &[Float32, Float64, Float80],
    &[Bcd],
    &[Bound16_WordWord],
    &[Bound32_DwordDword],
    &[FpuEnv14],
    &[FpuEnv28],
    &[FpuState94],
    &[FpuState108],
    &[Fxsave_512Byte, Fxsave64_512Byte],
    &[Xsave, Xsave64],
    &[SegPtr16],
    &[SegPtr32],
    &[SegPtr64],
    &[Fword6],
    &[Fword10],
];

thread_local! {
    static FED: Cell<Option<(&'static Row, usize)>> = const { Cell::new(None) };
    static LOOKED_UP: Cell<usize> = const { Cell::new(0) };
}

/// Makes the row the one that all lookups answer for.
pub(crate) fn feed(row: &'static Row, turn: usize) {
    FED.set(Some((row, turn)));
}

fn fed() -> (&'static Row, usize) {
    FED.get().expect("a row is fed before its texts are made")
}

impl MemorySize {
    /// The size in bytes. The files ask for it only of the memory that they looked up last.
    pub(crate) fn size(self) -> usize {
        LOOKED_UP.get()
    }
}

/// A table of memories by code.
pub(crate) struct Memories(fn(&'static Row) -> &'static Memory);

impl Index<usize> for Memories {
    type Output = MemorySize;

    fn index(&self, _code: usize) -> &MemorySize {
        let (row, turn) = fed();
        let memory = (self.0)(row);
        LOOKED_UP.set(memory.size);
        let names = LABELLED[memory.label];
        &names[turn % names.len()]
    }
}

pub(crate) mod instruction_memory_sizes {
    use super::Memories;

    pub(crate) static SIZES_NORMAL: Memories = Memories(|row| &row.memory);
    pub(crate) static SIZES_BCST: Memories = Memories(|row| &row.broadcast);
}

/// A table of spellings by mnemonic.
pub(crate) struct Spellings;

impl Index<usize> for Spellings {
    type Output = &'static str;

    fn index(&self, _mnemonic: usize) -> &&'static str {
        &fed().0.mnemonic
    }
}
