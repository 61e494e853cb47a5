//! The largest relative difference of the ruled answers from the untouched crate's.
//! Kept by entry and property, with the row that shows it. Rows whose letter flips stand apart.

use crate::direct::plain;
use crate::row::{entry_name, Answer, Row, BOUNDARIES, FIELDS, PROPERTIES};
use std::collections::BTreeMap;
use std::fmt;

/// What is measured on its own: the entry, a whole number where that chooses an equation, the place
/// in the answer, and whether the untouched crate chose another letter.
type Key = (u8, i32, usize, bool);

struct Largest {
    rows: u64,
    unequal: u64,
    relative: f64,
    row: Row,
    ruled: f64,
    plain: f64,
}

#[derive(Default)]
pub struct Measures {
    largest: BTreeMap<Key, Largest>,
    flips: BTreeMap<u8, (u64, Row)>,
}

impl Measures {
    /// Takes a row that the oracle accepts, with its answer.
    pub fn add(&mut self, row: &Row, ruled: &Answer) {
        let plain = plain::answer(row);
        let flipped = self.flipped(row, ruled);
        let places = match row.entry {
            8 => 0,
            20..=24 | 26..=28 => 10,
            34 => 2,
            _ => 1,
        };
        let whole = if matches!(row.entry, 7 | 9 | 11 | 25) {
            row.whole
        } else {
            0
        };
        for place in 0..places {
            let key = (row.entry, whole, place, flipped);
            self.keep(key, row, ruled.numbers[place], plain.numbers[place]);
        }
    }

    /// At the critical point no letter is chosen, so none can flip.
    fn flipped(&mut self, row: &Row, ruled: &Answer) -> bool {
        let letter = match row.entry {
            8 | 30 => ruled.letter,
            10 | 21 => crate::entries::volume_letter(row.first, row.second),
            _ => 0,
        };
        let flipped = letter != 0 && letter != plain::letter(row.first, row.second);
        if flipped {
            self.flips.entry(row.entry).or_insert((0, *row)).0 += 1;
        }
        flipped
    }

    fn keep(&mut self, key: Key, row: &Row, ruled: f64, plain: f64) {
        let relative = if ruled == plain {
            0.0
        } else {
            ((ruled - plain) / plain).abs()
        };
        let new = Largest {
            rows: 0,
            unequal: 0,
            relative: -1.0,
            row: *row,
            ruled,
            plain,
        };
        let largest = self.largest.entry(key).or_insert(new);
        largest.rows += 1;
        largest.unequal += u64::from(ruled.to_bits() != plain.to_bits());
        // a number of the untouched crate that is not finite counts as the largest
        if relative > largest.relative || relative.is_nan() {
            let kept = Largest {
                relative,
                row: *row,
                ruled,
                plain,
                ..*largest
            };
            *largest = kept;
        }
    }
}

fn property(key: &Key) -> String {
    let (entry, whole, place, _) = *key;
    match entry {
        7 => BOUNDARIES[whole as usize].to_string(),
        9 => format!("v of {}", whole as u8 as char),
        11 => ["v of liquid", "v of steam"][whole as usize].to_string(),
        20..=24 | 26..=28 => FIELDS[place].to_string(),
        34 => ["cp", "w"][place].to_string(),
        25 => PROPERTIES
            .iter()
            .find(|p| p.0 == whole)
            .map_or("", |p| p.1)
            .to_string(),
        _ => String::new(),
    }
}

impl fmt::Display for Measures {
    fn fmt(&self, f: &mut fmt::Formatter) -> fmt::Result {
        writeln!(
            f,
            "largest relative difference from the untouched crate, accepted rows"
        )?;
        writeln!(
            f,
            "entry                   property        rows  unequal  relative  shown by"
        )?;
        for (key, largest) in &self.largest {
            let Largest {
                rows,
                unequal,
                relative,
                row,
                ruled,
                plain,
            } = largest;
            let (entry, name, property) = (key.0, entry_name(key.0), property(key));
            write!(f, "{entry:3} {name:19} {property:11} {rows:8} {unequal:8}")?;
            if *unequal > 0 {
                let (x, y) = (row.first, row.second);
                write!(
                    f,
                    "  {relative:8.2e}  ({x:?}, {y:?}): {ruled:e} against {plain:e}"
                )?;
            }
            writeln!(f, "{}", if key.3 { ", another letter" } else { "" })?;
        }
        for (entry, (count, row)) in &self.flips {
            let (p, T) = (row.first, row.second);
            writeln!(
                f,
                "entry {entry}: {count} rows with another letter, the first at ({p:?}, {T:?})"
            )?;
        }
        Ok(())
    }
}
