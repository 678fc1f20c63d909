// A row as a job line spells it, read into plain numbers.

/// A memory operand: what it is called, and its size in bytes.
pub struct Memory {
    pub label: usize,
    pub size: usize,
}

/// A form and its naming. All codes are numbers, in the order in which the shim lists their names.
pub struct Row {
    pub encoding: usize,
    pub table: usize,
    pub prefix: usize,
    pub opcode: u32,
    /// Length of the opcode: 1 or 2.
    pub bytes: u32,
    pub address: u32,
    pub operand: u32,
    pub length: u32,
    pub lkind: usize,
    pub flags: u16,
    pub group: i32,
    pub rm: i32,
    pub kinds: Vec<usize>,
    pub tag: usize,
    pub mnemonic: &'static str,
    pub option: usize,
    pub memory: Memory,
    pub broadcast: Memory,
}

/// The bits of a row's flags, from the lowest.
#[derive(Copy, Clone)]
pub enum Flag {
    Lig,
    W,
    Wig,
    Fwait,
    ModrmInfo,
    Broadcast,
    Rounding,
    Sae,
    Mask,
    Zeroing,
    Fpu,
}

impl Row {
    /// Reads `row ENC TABLE PREFIX CODE ASZ OSZ LEN LKIND FLAGS GROUP RM KINDS TAG NAME OPT MEM BMEM`.
    /// `None` if the line is spelled otherwise.
    pub fn read(line: &'static str) -> Option<Row> {
        let mut words = line.split(' ');
        if words.next()? != "row" {
            return None;
        }
        let mut word = || words.next();
        let (encoding, table, prefix) = (
            word()?.parse().ok()?,
            word()?.parse().ok()?,
            word()?.parse().ok()?,
        );
        let (opcode, bytes) = read_opcode(word()?)?;
        let row = Row {
            encoding,
            table,
            prefix,
            opcode,
            bytes,
            address: word()?.parse().ok()?,
            operand: word()?.parse().ok()?,
            length: word()?.parse().ok()?,
            lkind: word()?.parse().ok()?,
            flags: u16::from_str_radix(word()?, 16).ok()?,
            group: word()?.parse().ok()?,
            rm: word()?.parse().ok()?,
            kinds: read_kinds(word()?)?,
            tag: word()?.parse().ok()?,
            mnemonic: word()?,
            option: word()?.parse().ok()?,
            memory: read_memory(word()?)?,
            broadcast: read_memory(word()?)?,
        };
        words.next().is_none().then_some(row)
    }

    pub fn has(&self, flag: Flag) -> bool {
        self.flags >> flag as u32 & 1 == 1
    }
}

/// Two digits are an opcode of one byte, four an opcode of two.
fn read_opcode(word: &str) -> Option<(u32, u32)> {
    match word.len() {
        2 | 4 => Some((u32::from_str_radix(word, 16).ok()?, word.len() as u32 / 2)),
        _ => None,
    }
}

fn read_kinds(word: &str) -> Option<Vec<usize>> {
    match word {
        "-" => Some(Vec::new()),
        _ => word.split(',').map(|kind| kind.parse().ok()).collect(),
    }
}

fn read_memory(word: &str) -> Option<Memory> {
    let (label, size) = word.split_once(':')?;
    Some(Memory {
        label: label.parse().ok()?,
        size: size.parse().ok()?,
    })
}
