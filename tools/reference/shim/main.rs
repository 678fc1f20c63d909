// Reads rows from standard input, one a line, up to a line `texts` or the end, and prints both texts of each.
use rows::{Flag, Row};
use std::io::{self, BufWriter, Read, Write};
use std::process::exit;

fn main() -> io::Result<()> {
    let mut out = BufWriter::new(io::stdout().lock());
    for (k, row) in read_rows()?.iter().enumerate() {
        let (op, sig) = if row.has(Flag::Fpu) {
            inside::texts(row, k)
        } else {
            outside::texts(row, k)
        };
        writeln!(out, "{k} op={op}\n{k} sig={sig}")?;
    }
    out.flush()
}

/// The rows live as long as the program, since the shim hands out their mnemonics as a table's constants.
fn read_rows() -> io::Result<&'static [Row]> {
    let mut job = String::new();
    io::stdin().read_to_string(&mut job)?;
    let lines = job.leak().lines().take_while(|line| *line != "texts");
    Ok(lines
        .enumerate()
        .map(|(k, line)| Row::read(line).unwrap_or_else(|| not_a_row(k, line)))
        .collect::<Vec<Row>>()
        .leak())
}

fn not_a_row(k: usize, line: &str) -> ! {
    eprintln!("line {}: not a row: {line}", k + 1);
    exit(2)
}
