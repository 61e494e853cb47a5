//! Random rows for the entries that take p, T, d, h or s.
//! Some are spread over the box, others lie on the lines at which an answer changes.

use super::points::{Quantity, P_BANDS, P_SPLITS, SPECIAL, STRIPS, S_MARKS, ZERO_BASES};
use super::random::Random;
use super::search::crossing;
use crate::forms::ruled::{common, r3, r4};
use crate::ranges::*;
use crate::row::{Row, BOUNDARIES, PROPERTIES};

/// What an entry's two numbers are.
pub fn shape(entry: u8) -> (Quantity, Option<Quantity>) {
    use Quantity::*;
    match entry {
        5 => (TLine, None),
        6 => (PLine, None),
        7 => (P, None),
        8 | 9 | 10 | 21 | 30 => (P, Some(T)),
        11 => (PLine, Some(TLine)),
        12 | 13 | 22 => (P, Some(H)),
        14 | 15 | 23 => (P, Some(S)),
        16 | 24 => (H, Some(S)),
        18 => (P, None),
        19 => (T, None),
        20 | 25 | 34 => (T, Some(D)),
        26 | 35 => (P, Some(V)),
        27 | 36 => (T, Some(H)),
        28 | 37 => (T, Some(S)),
        _ => unreachable!("entry {entry} takes no state"),
    }
}

pub fn any(entry: u8, random: &mut Random) -> Row {
    let (first, second) = shape(entry);
    let mut x = random.within(first.range());
    let mut y = second.map_or(0.0, |q| random.within(q.range()));
    match random.below(32) {
        0 => x = random.of(&SPECIAL),
        1 if second.is_some() => y = random.of(&SPECIAL),
        2 => x = random.of(&first.outside()),
        3 => y = second.map_or(y, |q| random.of(&q.outside())),
        4 | 5 => x = mark(first, random),
        6 | 7 => y = second.map_or(y, |q| mark(q, random)),
        8..=23 => (x, y) = line(entry, random).unwrap_or((x, y)),
        _ => (),
    }
    Row::new(entry, whole(entry, x, y, random), x, y)
}

/// A number of the kind at which something changes, or a neighbour of it.
pub fn mark(quantity: Quantity, random: &mut Random) -> f64 {
    let mark = random.of(&quantity.marks());
    random.near(mark, 3)
}

/// The whole number of an entry that reads one.
pub fn whole(entry: u8, x: f64, y: f64, random: &mut Random) -> i32 {
    match entry {
        7 => random.whole(0, 11),
        9 if random.one_in(2) && !outside(x, P_BOX) && !outside(y, T_BOX) => {
            r3::sub_region3_pT(x, y) as i32
        }
        9 => random.whole(97, 122),
        11 => random.whole(0, 1),
        25 if random.one_in(16) => random.of(&[-1, 1, 2, 15, 16, 24, 30, 36, i32::MIN, i32::MAX]),
        25 => random.of(&PROPERTIES).0,
        _ => 0,
    }
}

/// A point on, or a few units beside, a line that matters to the entry.
pub fn line(entry: u8, random: &mut Random) -> Option<(f64, f64)> {
    match entry {
        9 if random.one_in(4) => Some(zero_base(random)),
        8 | 9 | 10 | 21 | 30 => pT(random),
        11 => Some(saturated(random)),
        12 | 13 | 22 => ph(random),
        14 | 15 | 23 => ps(random),
        16 | 24 => hs(random),
        20 | 25 | 34 => Td(random),
        _ => None,
    }
}

/// A pressure: in the box, in its lower part, round the critical one, or at a band's end.
pub fn pressure(random: &mut Random) -> f64 {
    match random.below(4) {
        0 => random.within(P_BOX),
        1 => random.between(16.529, 25.0),
        2 => random.between(20.9, 22.6),
        _ => {
            let end = random.of(&[P_BANDS[0], P_BANDS[4], band_end(), P_BANDS[9]]);
            random.near(end, 3)
        }
    }
}

/// The end of a band at p_saturation(643.15).
pub fn band_end() -> f64 {
    r4::p_saturation(643.15)
}

/// The lines of the (p,T) plane: the boundaries, the saturation line, the border with region 2.
pub const LINES: usize = BOUNDARIES.len() + 2;

/// The temperature on a line by its number; saturation has none above 22.064.
pub fn on_line(line: usize, p: f64) -> f64 {
    match BOUNDARIES.get(line) {
        Some(name) => r3::T_atRegionBoundary(p, name),
        None if line > BOUNDARIES.len() => common::B23_p2T(p),
        None => r4::T_saturation(p.min(P_LINE.1)),
    }
}

fn pT(random: &mut Random) -> Option<(f64, f64)> {
    let p = pressure(random);
    match random.below(8) {
        0..=2 => {
            let T = on_line(random.below(LINES as u64) as usize, p);
            Some((p, random.near(T, 6)))
        }
        3 => {
            let off = random.between(-2.5e-5, 2.5e-5);
            Some((random.near(22.064, 2), 647.096 + off))
        }
        4 => {
            let d = |T: f64| 1.0 / r3::pT2v_reg3(p, T);
            let T = crossing(650.0, T_BOX.1, D_BOX.0, d)?;
            Some((p, random.near(T, 4)))
        }
        5 => {
            let (from, to, below, above) = random.of(&STRIPS);
            let p = random.between(from, to);
            let (low, high) = (on_line(below, p), on_line(above, p));
            let margin = (high - low) / 8.0;
            Some((p, random.between(low - margin, high + margin)))
        }
        6 => Some((random.between(16.529, 25.0), random.between(623.15, 680.0))),
        _ => {
            // at p = 100 the record's own p passes the end of its range now and again
            Some((random.near(100.0, 2).min(100.0), random.within(T_BOX)))
        }
    }
}

fn zero_base(random: &mut Random) -> (f64, f64) {
    let (_, p, T) = random.of(&ZERO_BASES);
    let p = if random.one_in(2) {
        random.near(p, 2)
    } else {
        random.between(p - 1.0, p + 1.0)
    };
    let T = if random.one_in(2) {
        random.near(T, 2)
    } else {
        random.between(T - 5.0, T + 5.0)
    };
    (p, T)
}

fn saturated(random: &mut Random) -> (f64, f64) {
    let split = random.of(&P_SPLITS);
    let p = match random.below(3) {
        0 => random.near(split, 3),
        1 => random.between(split - 1e-3, split + 1e-3),
        _ => random.within(P_LINE),
    };
    let T = r4::T_saturation(p);
    let off = random.between(-0.5, 0.5);
    (
        p,
        if random.one_in(4) {
            T + off
        } else {
            random.near(T, 3)
        },
    )
}

fn ph(random: &mut Random) -> Option<(f64, f64)> {
    let p = pressure(random);
    let h = match random.below(4) {
        0 => random.near(r3::p2h_3ab(p), 3),
        1 => {
            let end = random.of(&[T_BOX.0, T_BOX.1]);
            let h = crossing(H_BOX.0, H_BOX.1, end, |h| r3::ph2T_reg3(p, h))?;
            random.near(h, 4)
        }
        2 => {
            let end = random.of(&[D_BOX.0, D_BOX.1]);
            let h = crossing(H_BOX.0, H_BOX.1, end, |h| 1.0 / r3::ph2v_reg3(p, h))?;
            random.near(h, 4)
        }
        _ => random.between(1650.0, 2650.0),
    };
    Some((p, h))
}

fn ps(random: &mut Random) -> Option<(f64, f64)> {
    let p = pressure(random);
    let s = match random.below(4) {
        0 => random.near(S_MARKS[0], 3),
        1 => {
            let end = random.of(&[T_BOX.0, T_BOX.1]);
            let s = crossing(S_BOX.0, S_BOX.1, end, |s| r3::ps2T_reg3(p, s))?;
            random.near(s, 4)
        }
        2 => {
            let end = random.of(&[D_BOX.0, D_BOX.1]);
            let s = crossing(S_BOX.0, S_BOX.1, end, |s| 1.0 / r3::ps2v_reg3(p, s))?;
            random.near(s, 4)
        }
        _ => random.between(3.6, 5.2),
    };
    Some((p, s))
}

/// From a state of region 3, with h moved to where p or T passes the end of its range.
fn hs(random: &mut Random) -> Option<(f64, f64)> {
    let p = if random.one_in(4) {
        pressure(random)
    } else {
        random.within(P_BOX)
    };
    // region 3 ends near a straight line from (16.529, 623.15) to (100, 863.15)
    let share = (p - P_BOX.0) / (P_BOX.1 - P_BOX.0);
    let T = random.between(T_BOX.0, T_BOX.0 + share * (T_BOX.1 - T_BOX.0));
    let d = 1.0 / r3::pT2v_reg3(p, T);
    let (h, s) = (r3::Td2h_reg3(T, d), r3::Td2s_reg3(T, d));
    match random.below(8) {
        0 => {
            let end = random.of(&[P_BOX.0, P_BOX.1]);
            let h = crossing(h - 300.0, h + 300.0, end, |h| r3::hs2p_reg3(h, s))?;
            Some((random.near(h, 4), s))
        }
        1 => {
            let end = random.of(&[T_BOX.0, T_BOX.1]);
            let T = |h: f64| r3::ph2T_reg3(r3::hs2p_reg3(h, s), h);
            let h = crossing(h - 300.0, h + 300.0, end, T)?;
            Some((random.near(h, 4), s))
        }
        2 => Some((random.near(1906.8, 2), s)),
        3 => Some((random.between(2000.0, 2200.0), random.near(S_MARKS[0], 3))),
        _ => Some((h, s)),
    }
}

fn Td(random: &mut Random) -> Option<(f64, f64)> {
    match random.below(3) {
        0 => {
            let (T, end) = (random.within(T_BOX), random.of(&[P_BOX.0, P_BOX.1]));
            let d = crossing(D_BOX.0, D_BOX.1, end, |d| r3::Td2p_reg3(T, d))?;
            Some((T, random.near(d, 4)))
        }
        // two phases, for the most part
        1 => Some((random.within(T_LINE), random.between(120.0, 600.0))),
        _ => Some((random.between(623.15, 700.0), random.within(D_BOX))),
    }
}
