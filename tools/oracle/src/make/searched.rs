//! Rows for the pairs whose state is found by a search: (p,v), (T,h), (T,s).
//! Most are of states that exist: a search for one that does not can go to 20,000 trials.

use super::points::{beside, Quantity, SPECIAL};
use super::random::Random;
use super::search::crossing;
use super::states::{mark, shape};
use crate::forms::ruled::{common, r3};
use crate::num::count;
use crate::ranges::*;
use crate::row::Row;

type Pair = (f64, f64);

/// The entry that answers the record of the same pair, 26, 27 or 28.
fn pair_of(entry: u8) -> u8 {
    if entry > 30 {
        entry - 9
    } else {
        entry
    }
}

/// The row's pair as asked of a state.
fn asked(entry: u8, T: f64, d: f64) -> Pair {
    match pair_of(entry) {
        26 => (r3::Td2p_reg3(T, d), 1.0 / d),
        27 => (T, r3::Td2h_reg3(T, d)),
        _ => (T, r3::Td2s_reg3(T, d)),
    }
}

pub fn any(entry: u8, random: &mut Random) -> Row {
    let (first, second) = shape(entry);
    let second = second.expect("each of these entries takes two numbers");
    let (mut x, mut y) = of_a_state(entry, random);
    match random.below(64) {
        0 => x = random.of(&SPECIAL),
        1 => y = random.of(&SPECIAL),
        2 => x = random.of(&first.outside()),
        3 => y = random.of(&second.outside()),
        4 => x = mark(first, random),
        5 => (x, y) = (random.within(first.range()), random.within(second.range())),
        6..=25 => (x, y) = line(entry, random).unwrap_or((x, y)),
        _ => (),
    }
    Row::new(entry, 0, x, y)
}

/// The pair of a state, of the first of a few whose numbers are both in range.
fn of_a_state(entry: u8, random: &mut Random) -> Pair {
    let (first, second) = shape(entry);
    let mut pair = (0.0, 0.0);
    for _ in 0..4 {
        let (T, d) = state(random);
        pair = asked(entry, T, d);
        let inside = |q: Quantity, x: f64| !outside(x, q.range());
        if inside(first, pair.0) && second.map_or(true, |q| inside(q, pair.1)) {
            break;
        }
    }
    pair
}

/// A state: of region 3 by its p and T, anywhere in the box of (T,d), or between liquid and steam.
fn state(random: &mut Random) -> Pair {
    match random.below(8) {
        0 | 1 => (random.within(T_BOX), random.within(D_BOX)),
        2 => (random.within(T_LINE), random.between(120.0, 600.0)),
        _ => {
            let p = random.within(P_BOX);
            let T = random.between(T_BOX.0, common::B23_p2T(p).max(T_BOX.0));
            (T, 1.0 / r3::pT2v_reg3(p, T))
        }
    }
}

/// A pair at which the answer changes, or a few units beside it.
pub fn line(entry: u8, random: &mut Random) -> Option<Pair> {
    let T = random.within(T_BOX);
    let d = random.within(D_BOX);
    let p_end = random.of(&[P_BOX.0, P_BOX.1]);
    // the record's own p on an end of its range
    let at_end = crossing(D_BOX.0, D_BOX.1, p_end, |d| r3::Td2p_reg3(T, d));
    if pair_of(entry) == 26 {
        return match random.below(4) {
            // the T found on an end of its range
            0 => {
                let (p, v) = asked(entry, random.of(&[T_BOX.0, T_BOX.1]), d);
                Some((random.near(p, 4), v))
            }
            1 => Some((random.near(p_end, 2), random.near(1.0 / at_end?, 2))),
            // start points next to each other
            2 => {
                let p = random.between(16.5291642, 16.5291643);
                let d = crossing(D_BOX.0, D_BOX.1, p, |d| r3::Td2p_reg3(T_BOX.0, d))?;
                Some((random.near(16.529164252604808, 3).max(p), 1.0 / d))
            }
            _ => {
                let (p, v) = asked(entry, T, random.of(&[D_BOX.0, D_BOX.1]));
                Some((p, random.near(v, 2)))
            }
        };
    }
    let beside_of = |T: f64, d: f64, random: &mut Random| {
        let (T, y) = asked(entry, T, d);
        (T, random.near(y, 4))
    };
    match random.below(4) {
        // the d found on an end of its range
        0 => Some(beside_of(T, random.of(&[D_BOX.0, D_BOX.1]), random)),
        1 => Some(beside_of(T, at_end?, random)),
        // a start point that is the answer
        2 => {
            let p = random.of(&[common::B23_T2p(T), P_BOX.1]);
            Some(beside_of(T, 1.0 / r3::pT2v_reg3(p, T), random))
        }
        // the border's p passes 100
        _ => {
            let T = beside(T_BOX.1, -i64::from(random.whole(0, 800)));
            Some(beside_of(T, random.between(300.0, 400.0), random))
        }
    }
}

/// Whether the search goes on to the last trial that it may make.
pub fn endless(entry: u8, (x, y): Pair) -> bool {
    let row = Row::new(entry, 0, x, y);
    count(|| crate::entries::answer(&row)).1 > 20000
}

/// The places that look odd and are right, of a record's entry.
pub fn odd(entry: u8) -> &'static [Pair] {
    match pair_of(entry) {
        26 => &PV,
        27 => &TH,
        _ => &TS,
    }
}

const PV: [Pair; 14] = [
    (50.0, 0.002),
    (100.0, 0.001533061262553137),
    (16.529164252604808, 0.0013157015192282405),
    (24.99, 0.0068327097557721594),
    (f64::NAN, 0.0),
    (101.0, 0.0),
    (50.0, 0.0),
    (50.0, -0.0),
    (50.0, 5e-324),
    (20.0, 0.01),
    (20.0, 0.010000000000000002),
    (100.0, 0.00125),
    (100.0, 0.0012499999999999998),
    (100.0, -0.00125),
];

const TH: [Pair; 10] = [
    (700.0, 2500.0),
    (700.0, 1924.8708156845616),
    (863.15, 2820.0),
    (863.1499999999539, 2500.0),
    (863.15, 2812.952116123153),
    (859.1136650031038, 2620.270705157618),
    (716.7091396139051, 1523.5036123394186),
    (856.2225878410742, 1575.9363733204323),
    (640.0, 2100.0),
    (863.15, 1500.0),
];

const TS: [Pair; 5] = [
    (863.15, 4.5),
    (863.149999999954, 4.5),
    (863.1499999999539, 4.5),
    (743.5006480648088, 3.3230225561443656),
    (700.0, 4.967560078350539),
];
