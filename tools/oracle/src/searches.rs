//! The pairs whose state is found by a search, (p,v), (T,h) and (T,s): the Rust's own search, then a test of what it found that
//! trusts nobody. Each answer comes with the count of trials.

use crate::entries::{steps, two, Outcome, Td_record};
use crate::forms::checked::r3;
use crate::num::{count, Num};
use crate::ranges::*;
use crate::row::Answer;

/// How far the property of a found state may be from the one asked for.
const TOLERANCE: f64 = 1e-6;

type Counted<A> = Outcome<(A, u32)>;

/// Answers a row of an entry of this file.
pub fn answer(entry: u8, x: f64, y: f64) -> Outcome<Answer> {
    let number = |found: Counted<f64>| found.map(|(x, trials)| Answer::number(x).beside(trials));
    let record = |found: Counted<_>| found.map(|(r, trials)| Answer::record(r).beside(trials));
    match entry {
        26 => record(pv_record(x, y)),
        27 => record(Th_record(x, y)),
        28 => record(Ts_record(x, y)),
        35 => number(pv2T_reg3(x, y)),
        36 => number(Th2d_reg3(x, y)),
        37 => number(Ts2d_reg3(x, y)),
        _ => Err(NO_ENTRY),
    }
}

/// What the Rust's search proposes, in its range, and the trials: both start points are asked before the first of them.
fn proposed(search: impl FnOnce() -> Num, range: Range) -> Counted<Num> {
    let (found, asked) = count(|| steps(search));
    let x = found?;
    if outside(x.0, range) {
        return Err(STATE);
    }
    Ok((x, asked - 2))
}

/// The property of a proposed state is the one asked for, near enough.
fn accepted(property: impl FnOnce() -> Num, asked: Num) -> Outcome<()> {
    let off = steps(|| property() - asked)?;
    if off.0.abs() <= TOLERANCE {
        Ok(())
    } else {
        Err(UNFOUND)
    }
}

/// v's range is that of d = 1/v, which is infinite at 0 and so outside.
fn pressure_and_density(p: f64, v: f64) -> Outcome<(Num, Num)> {
    two(p, P_BOX, v, (f64::MIN, f64::MAX))?;
    let d = 1.0 / v;
    if outside(d, D_BOX) {
        return Err(SECOND);
    }
    Ok((Num(p), Num(d)))
}

pub fn pv2T_reg3(p: f64, v: f64) -> Counted<f64> {
    let (p, d) = pressure_and_density(p, v)?;
    let (T, trials) = proposed(|| r3::pv2T_reg3(p, Num(v)), T_BOX)?;
    accepted(|| r3::Td2p_reg3(T, d), p)?;
    Ok((T.0, trials))
}

pub fn Th2d_reg3(T: f64, h: f64) -> Counted<f64> {
    let (T, h) = two(T, T_BOX, h, H_BOX)?;
    let (d, trials) = proposed(|| r3::Th2d_reg3(T, h), D_BOX)?;
    accepted(|| r3::Td2h_reg3(T, d), h)?;
    Ok((d.0, trials))
}

pub fn Ts2d_reg3(T: f64, s: f64) -> Counted<f64> {
    let (T, s) = two(T, T_BOX, s, S_BOX)?;
    let (d, trials) = proposed(|| r3::Ts2d_reg3(T, s), D_BOX)?;
    accepted(|| r3::Td2s_reg3(T, d), s)?;
    Ok((d.0, trials))
}

// The record of (T,d) at what was found. It can refuse what the test has accepted.

pub fn pv_record(p: f64, v: f64) -> Counted<[f64; 10]> {
    let (T, trials) = pv2T_reg3(p, v)?;
    Ok((Td_record(T, 1.0 / v)?, trials))
}

pub fn Th_record(T: f64, h: f64) -> Counted<[f64; 10]> {
    let (d, trials) = Th2d_reg3(T, h)?;
    Ok((Td_record(T, d)?, trials))
}

pub fn Ts_record(T: f64, s: f64) -> Counted<[f64; 10]> {
    let (d, trials) = Ts2d_reg3(T, s)?;
    Ok((Td_record(T, d)?, trials))
}
