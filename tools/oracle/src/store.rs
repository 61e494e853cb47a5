//! Writes a stored list: records of 112 bytes, a row of 24 and the oracle's answer of 88.
//! All edges are in it; then random rows, so that no entry, choice or refusal crowds out another.

use crate::counts::Counts;
use crate::entries;
use crate::make::Rows;
use crate::ranges::{STATE, STEP};
use crate::row::{Answer, Row};
use std::collections::HashMap;
use std::fs::File;
use std::io::{self, BufWriter, Write};

/// Rows that are looked at for each one that is kept, at most.
const PATIENCE: usize = 200;

/// What is balanced: the entry, the whole number where it chooses an equation, the letter, the refusal.
type Kind = (u8, i32, u8, u8);

pub fn write(seed: u64, entries: &[u8], count: usize, to: &str) -> io::Result<()> {
    let mut out = BufWriter::new(File::create(to)?);
    let mut counts = Counts::default();
    for (row, answer) in chosen(seed, entries, count) {
        counts.add(row.entry, answer.refusal, true);
        out.write_all(&row.bytes())?;
        out.write_all(&answer.bytes())?;
    }
    out.flush()?;
    print!("{counts}");
    println!("rows {} stored with seed {seed}", counts.rows());
    Ok(())
}

fn chosen(seed: u64, entries: &[u8], count: usize) -> Vec<(Row, Answer)> {
    let mut rows = Rows::new(seed, entries);
    let mut kept: Vec<(Row, Answer)> = Vec::new();
    let mut kinds: HashMap<Kind, usize> = HashMap::new();
    // the edges first: every second row until none is left
    while rows.edges_left() > 0 && kept.len() < count {
        let before = rows.edges_left();
        let row = rows.next().expect("rows have no end");
        if rows.edges_left() < before {
            keep(row, &mut kept, &mut kinds);
        }
    }
    // then random rows, of each kind up to a height that rises as rare kinds run dry
    let mut height = 1;
    let mut looked = 0;
    while kept.len() < count && looked < PATIENCE * count {
        for _ in 0..entries.len() * 64 {
            let row = rows.next().expect("rows have no end");
            looked += 1;
            let kind = kind(&row, &entries::answer(&row));
            let room = height * share(row.entry, kind.3) / 8;
            if kept.len() < count && kinds.get(&kind).copied().unwrap_or(0) < room {
                keep(row, &mut kept, &mut kinds);
            }
        }
        height += 1;
    }
    kept
}

fn keep(row: Row, kept: &mut Vec<(Row, Answer)>, kinds: &mut HashMap<Kind, usize>) {
    let answer = entries::answer(&row);
    *kinds.entry(kind(&row, &answer)).or_default() += 1;
    kept.push((row, answer));
}

fn worked_out(refusal: u8) -> bool {
    matches!(refusal, 0 | STATE | STEP)
}

/// The share of a kind: least where only the arguments are looked at, and the more where one kind
/// stands for a whole entry or, in 10 and 21, for all letters.
fn share(entry: u8, refusal: u8) -> usize {
    match entry {
        _ if !worked_out(refusal) => 1,
        7 | 8 | 9 | 11 | 25 | 30 => 8,
        10 | 21 => 80,
        _ => 40,
    }
}

fn kind(row: &Row, answer: &Answer) -> Kind {
    let chooses = matches!(row.entry, 7 | 9 | 11 | 25) && worked_out(answer.refusal);
    let whole = if chooses { row.whole } else { 0 };
    (row.entry, whole, answer.letter, answer.refusal)
}
