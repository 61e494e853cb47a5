//! Makes rows: for each entry its edges, one by one, and between them random ones.
//! Only docs/SCOPE.md's rules are used, so a seed gives the same rows on every machine.

mod edges;
mod points;
mod random;
pub mod records;
mod rules;
mod search;
mod searched;
mod states;

use crate::row::{Row, ENTRIES};
use random::Random;

/// Entry 0 stands for rows that name no entry.
pub fn all_entries() -> Vec<u8> {
    let mut all = vec![0];
    all.extend(ENTRIES.iter().map(|e| e.0));
    all
}

/// An endless run of rows. The entries take turns, and an entry's edges take turns with its random
/// rows until no edge is left.
pub struct Rows {
    random: Random,
    lanes: Vec<Lane>,
    turn: usize,
}

struct Lane {
    entry: u8,
    edges: std::vec::IntoIter<Row>,
    edge_next: bool,
}

impl Rows {
    pub fn new(seed: u64, entries: &[u8]) -> Rows {
        let mut random = Random::new(seed);
        let lanes = entries
            .iter()
            .map(|&entry| {
                let mut edges = edges::of(entry, &mut random);
                random.shuffle(&mut edges);
                Lane {
                    entry,
                    edges: edges.into_iter(),
                    edge_next: true,
                }
            })
            .collect();
        Rows {
            random,
            lanes,
            turn: 0,
        }
    }

    /// How many rows are left among the edges.
    pub fn edges_left(&self) -> usize {
        self.lanes.iter().map(|lane| lane.edges.len()).sum()
    }
}

impl Iterator for Rows {
    type Item = Row;

    fn next(&mut self) -> Option<Row> {
        let turn = self.turn % self.lanes.len();
        let lane = &mut self.lanes[turn];
        self.turn += 1;
        lane.edge_next = !lane.edge_next;
        let edge = if lane.edge_next {
            None
        } else {
            lane.edges.next()
        };
        Some(edge.unwrap_or_else(|| any(lane.entry, &mut self.random)))
    }
}

/// A random row of an entry.
fn any(entry: u8, random: &mut Random) -> Row {
    let mut row = match entry {
        0 => nameless(random),
        1..=4 => rules::any(entry, random),
        26..=28 | 35..=37 => searched::any(entry, random),
        _ => states::any(entry, random),
    };
    // what an entry does not read may hold anything
    if random.one_in(8) {
        if !reads_whole(entry) {
            row.whole = random.next() as i32;
        }
        if !reads_second(entry) {
            row.second = random.of(&points::SPECIAL);
        }
    }
    row
}

fn reads_whole(entry: u8) -> bool {
    matches!(entry, 0 | 1 | 7 | 9 | 11 | 25)
}

fn reads_second(entry: u8) -> bool {
    !matches!(entry, 1..=7 | 18 | 19)
}

/// A row whose entry does not exist, or whose whole number names nothing.
fn nameless(random: &mut Random) -> Row {
    let mut row = states::any(random.of(&[7, 9, 11, 21]), random);
    let known = |n: i32| match row.entry {
        7 => (0..12).contains(&n),
        9 => (97..=122).contains(&n),
        11 => (0..2).contains(&n),
        _ => true,
    };
    let wholes = [
        -1,
        2,
        12,
        96,
        123,
        65,
        90,
        128,
        256 + 97,
        i32::MIN,
        i32::MAX,
        0,
        97,
    ];
    let mut whole = random.of(&wholes);
    if known(whole) {
        row.entry = random.of(&[0, 17, 38, 39, 40, 29, 31, 32, 127, 128, 254, 255]);
        whole = random.below(3) as i32;
    }
    row.whole = whole;
    row
}
