// The crate around the two formatter files: every name that they import from their own crate, fed from a row.
//
// It is built twice. The files take a code for one of the FPU's if its number lies in a range; with `--cfg fpu`
// every code lies in that range, without it every one that can lies outside. A row's FPU bit picks the build.

extern crate alloc;

mod code;
mod encoder;
mod fed;
mod names;

use code::Code;
use fed::{instruction_memory_sizes, MemorySize};
use names::*;
use rows::Row;

/// The opcode string and the signature of a row. The turn picks one of several names that mean the same to the files.
pub fn texts(row: &'static Row, turn: usize) -> (String, String) {
    fed::feed(row, turn);
    encoder::texts(row, turn)
}
