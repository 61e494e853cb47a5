//! Counts of answers by entry and refusal, and the table that shows them.
//! Rows that were not compared are counted on their own, and rows that name no entry as entry 0.

use crate::row::{entry_name, ENTRIES};
use std::collections::BTreeMap;
use std::fmt;

#[derive(Default)]
struct Count {
    rows: u64,
    differ: u64,
    skipped: u64,
    refusals: BTreeMap<u8, u64>,
}

#[derive(Default)]
pub struct Counts(BTreeMap<u8, Count>);

impl Counts {
    fn entry(&mut self, entry: u8, refusal: u8) -> &mut Count {
        let known = ENTRIES.iter().any(|e| e.0 == entry);
        let count = self.0.entry(if known { entry } else { 0 }).or_default();
        count.rows += 1;
        *count.refusals.entry(refusal).or_default() += 1;
        count
    }

    pub fn add(&mut self, entry: u8, refusal: u8, same: bool) {
        self.entry(entry, refusal).differ += u64::from(!same);
    }

    pub fn skip(&mut self, entry: u8, refusal: u8) {
        self.entry(entry, refusal).skipped += 1;
    }

    pub fn rows(&self) -> u64 {
        self.0.values().map(|c| c.rows).sum()
    }

    pub fn differ(&self) -> u64 {
        self.0.values().map(|c| c.differ).sum()
    }

    pub fn skipped(&self) -> u64 {
        self.0.values().map(|c| c.skipped).sum()
    }

    /// Entries of which no row was skipped.
    pub fn answered(&self) -> Vec<u8> {
        self.0
            .iter()
            .filter(|c| *c.0 != 0 && c.1.skipped == 0)
            .map(|c| *c.0)
            .collect()
    }
}

impl fmt::Display for Counts {
    fn fmt(&self, f: &mut fmt::Formatter) -> fmt::Result {
        writeln!(
            f,
            "entry                       rows   differ  skipped  by refusal number"
        )?;
        for (entry, count) in &self.0 {
            let refusals: Vec<String> = count
                .refusals
                .iter()
                .map(|(number, n)| format!("{number}: {n}"))
                .collect();
            writeln!(
                f,
                "{entry:3} {:19} {:8} {:8} {:8}  {}",
                entry_name(*entry),
                count.rows,
                count.differ,
                count.skipped,
                refusals.join(", ")
            )?;
        }
        Ok(())
    }
}
