//! What the program `letters` has to write for its rows of 16 bytes, p then T.
//! A line for each whole row with its number, letter or `-` and refusal; then the counts.

use crate::entries::sub_region3_pT;
use crate::row::number;
use std::io::{self, Write};

pub fn write(input: &[u8], mut out: impl Write) -> io::Result<()> {
    let rows = input.chunks_exact(16);
    let left = rows.remainder().len();
    let whole = rows.len();
    for (i, row) in rows.enumerate() {
        match sub_region3_pT(number(&row[..8]), number(&row[8..])) {
            Ok(letter) => writeln!(out, "{} {letter} 0", i + 1)?,
            Err(refusal) => writeln!(out, "{} - {refusal}", i + 1)?,
        }
    }
    writeln!(out, "rows {whole} left {left}")
}
