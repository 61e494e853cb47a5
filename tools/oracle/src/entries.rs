//! docs/SCOPE.md's entry points over the checked form: ranges, order and refusals.
//! Leaf functions are the Rust's own. What is put together from them follows docs/SCOPE.md.

use crate::forms::checked::common::{DC_WATER, PC_WATER, P_TOL, TC_WATER, T_TOL};
use crate::forms::checked::{common, r3, r4};
use crate::num::{watch, Num};
use crate::ranges::*;
use crate::row::{is_property, Answer, Row, BOUNDARIES};
use crate::{rules, searches};

pub type Outcome<A> = Result<A, u8>;

/// Answers one row.
pub fn answer(row: &Row) -> Answer {
    let (x, y) = (row.first, row.second);
    let number = |outcome: Outcome<f64>| outcome.map(Answer::number);
    let record = |outcome: Outcome<[f64; 10]>| outcome.map(Answer::record);
    let outcome = match row.entry {
        1 => number(rules::power(x, row.whole)),
        2 => number(rules::root(x)),
        3 => number(rules::logarithm(x)),
        4 => number(rules::exponential(x)),
        5 => number(p_saturation(x)),
        6 => number(T_saturation(x)),
        7 => match usize::try_from(row.whole)
            .ok()
            .and_then(|i| BOUNDARIES.get(i))
        {
            Some(name) => number(T_atRegionBoundary(x, name)),
            None => Err(NO_ENTRY),
        },
        8 => sub_region3_pT(x, y).map(|letter| Answer::lettered(letter as u8, 0.0)),
        9 => match u8::try_from(row.whole) {
            Ok(letter @ b'a'..=b'z') => number(pT2v_3subreg(x, y, letter as char)),
            _ => Err(NO_ENTRY),
        },
        10 => number(pT2v_reg3(x, y)),
        11 => match row.whole {
            0 | 1 => number(pT2v_sat_reg3(x, y, row.whole == 1)),
            _ => Err(NO_ENTRY),
        },
        12 => number(ph2T_reg3(x, y)),
        13 => number(ph2v_reg3(x, y)),
        14 => number(ps2T_reg3(x, y)),
        15 => number(ps2v_reg3(x, y)),
        16 => number(hs2p_reg3(x, y)),
        18 => number(B23_p2T(x)),
        19 => number(B23_T2p(x)),
        20 => record(Td_record(x, y)),
        21 => record(pT_record(x, y)),
        22 => record(ph_record(x, y)),
        23 => record(ps_record(x, y)),
        24 => record(hs_record(x, y)),
        25 => number(Td_property(x, y, row.whole)),
        30 => column_row(x, y).map(|(letter, d)| Answer::lettered(letter, d)),
        34 => Ok(cp_and_w(x, y)),
        26..=28 | 35..=37 => searches::answer(row.entry, x, y),
        _ => Err(NO_ENTRY),
    };
    outcome.unwrap_or_else(Answer::refused)
}

/// 1 looks at every argument before 2 looks at the first.
fn one(x: f64, range: Range) -> Outcome<Num> {
    if !x.is_finite() {
        return Err(NOT_FINITE);
    }
    if outside(x, range) {
        return Err(FIRST);
    }
    Ok(Num(x))
}

pub fn two(x: f64, x_range: Range, y: f64, y_range: Range) -> Outcome<(Num, Num)> {
    if !x.is_finite() || !y.is_finite() {
        return Err(NOT_FINITE);
    }
    let x = one(x, x_range)?;
    if outside(y, y_range) {
        return Err(SECOND);
    }
    Ok((x, Num(y)))
}

/// The box of (p,T), then 8 where T is above the border with region 2 as `B23_p2T` works it out.
fn in_region3(p: f64, T: f64) -> Outcome<(Num, Num)> {
    let (p, T) = two(p, P_BOX, T, T_BOX)?;
    if T > steps(|| common::B23_p2T(p))? {
        return Err(BORDER);
    }
    Ok((p, T))
}

pub fn steps(work: impl FnOnce() -> Num) -> Outcome<Num> {
    watch(work)
}

fn raw(outcome: Outcome<Num>) -> Outcome<f64> {
    outcome.map(|n| n.0)
}

/// d = 1/v of a found v, with its range test.
fn density(v: Num) -> Outcome<Num> {
    steps(|| (Num(1.0) / v).of_the_state(D_BOX))
}

/// A found v is answered once its d is known to be in range.
fn volume(find: impl FnOnce() -> Num) -> Outcome<f64> {
    let v = steps(find)?;
    density(v)?;
    Ok(v.0)
}

// The border with region 2, the saturation line, the boundaries and the letter.

pub fn B23_p2T(p: f64) -> Outcome<f64> {
    let p = one(p, P_BOX)?;
    raw(steps(|| common::B23_p2T(p)))
}

pub fn B23_T2p(T: f64) -> Outcome<f64> {
    let T = one(T, T_BOX)?;
    raw(steps(|| common::B23_T2p(T)))
}

pub fn p_saturation(T: f64) -> Outcome<f64> {
    let T = one(T, T_LINE)?;
    raw(steps(|| r4::p_saturation(T)))
}

pub fn T_saturation(p: f64) -> Outcome<f64> {
    let p = one(p, P_LINE)?;
    raw(steps(|| r4::T_saturation(p)))
}

pub fn T_atRegionBoundary(p: f64, name: &str) -> Outcome<f64> {
    let p = one(p, P_BOX)?;
    raw(steps(|| r3::T_atRegionBoundary(p, name)))
}

pub fn sub_region3_pT(p: f64, T: f64) -> Outcome<char> {
    let (p, T) = in_region3(p, T)?;
    watch(|| r3::sub_region3_pT(p, T))
}

// Volumes: each works out d = 1/v too.

pub fn pT2v_3subreg(p: f64, T: f64, letter: char) -> Outcome<f64> {
    let (p, T) = two(p, P_BOX, T, T_BOX)?;
    volume(|| r3::pT2v_3subreg(p, T, letter))
}

pub fn pT2v_reg3(p: f64, T: f64) -> Outcome<f64> {
    let (p, T) = two(p, P_BOX, T, T_BOX)?;
    volume(|| r3::pT2v_reg3(p, T))
}

pub fn pT2v_sat_reg3(p: f64, T: f64, steam: bool) -> Outcome<f64> {
    let (p, T) = two(p, P_LINE, T, T_LINE)?;
    let x = Num(if steam { 1.0 } else { 0.0 });
    volume(|| r3::pT2v_sat_reg3(p, T, x))
}

pub fn ph2v_reg3(p: f64, h: f64) -> Outcome<f64> {
    let (p, h) = two(p, P_BOX, h, H_BOX)?;
    volume(|| r3::ph2v_reg3(p, h))
}

pub fn ps2v_reg3(p: f64, s: f64) -> Outcome<f64> {
    let (p, s) = two(p, P_BOX, s, S_BOX)?;
    volume(|| r3::ps2v_reg3(p, s))
}

// T and p of the state by the backward equations, each range-tested.

pub fn ph2T_reg3(p: f64, h: f64) -> Outcome<f64> {
    let (p, h) = two(p, P_BOX, h, H_BOX)?;
    raw(steps(|| r3::ph2T_reg3(p, h).of_the_state(T_BOX)))
}

pub fn ps2T_reg3(p: f64, s: f64) -> Outcome<f64> {
    let (p, s) = two(p, P_BOX, s, S_BOX)?;
    raw(steps(|| r3::ps2T_reg3(p, s).of_the_state(T_BOX)))
}

pub fn hs2p_reg3(h: f64, s: f64) -> Outcome<f64> {
    let (h, s) = two(h, H_BOX, s, S_BOX)?;
    raw(steps(|| r3::hs2p_reg3(h, s).of_the_state(P_BOX)))
}

// Records, in the order T, d, v, p, h, s, u, cv, cp, w.

/// What stands after v: p, where no equation has found it, then h to w. The checked form's
/// `Td2p_reg3` has its range test inside.
fn record(T: Num, d: Num, v: Num, p: Option<Num>) -> Outcome<[f64; 10]> {
    let p = match p {
        Some(p) => p,
        None => steps(|| r3::Td2p_reg3(T, d))?,
    };
    let h = steps(|| r3::Td2h_reg3(T, d))?;
    let s = steps(|| r3::Td2s_reg3(T, d))?;
    let u = steps(|| r3::Td2u_reg3(T, d))?;
    let cv = steps(|| r3::Td2cv_reg3(T, d))?;
    let cp = steps(|| r3::Td2cp_reg3(T, d))?;
    let w = steps(|| r3::Td2w_reg3(T, d))?;
    Ok([T, d, v, p, h, s, u, cv, cp, w].map(|n| n.0))
}

pub fn Td_record(T: f64, d: f64) -> Outcome<[f64; 10]> {
    let (T, d) = two(T, T_BOX, d, D_BOX)?;
    let v = steps(|| Num(1.0) / d)?;
    record(T, d, v, None)
}

pub fn pT_record(p: f64, T: f64) -> Outcome<[f64; 10]> {
    let (p, T) = in_region3(p, T)?;
    let v = steps(|| r3::pT2v_reg3(p, T))?;
    record(T, density(v)?, v, None)
}

pub fn ph_record(p: f64, h: f64) -> Outcome<[f64; 10]> {
    let (p, h) = two(p, P_BOX, h, H_BOX)?;
    let T = steps(|| r3::ph2T_reg3(p, h).of_the_state(T_BOX))?;
    let v = steps(|| r3::ph2v_reg3(p, h))?;
    record(T, density(v)?, v, None)
}

pub fn ps_record(p: f64, s: f64) -> Outcome<[f64; 10]> {
    let (p, s) = two(p, P_BOX, s, S_BOX)?;
    let T = steps(|| r3::ps2T_reg3(p, s).of_the_state(T_BOX))?;
    let v = steps(|| r3::ps2v_reg3(p, s))?;
    record(T, density(v)?, v, None)
}

pub fn hs_record(h: f64, s: f64) -> Outcome<[f64; 10]> {
    let (h, s) = two(h, H_BOX, s, S_BOX)?;
    let p = steps(|| r3::hs2p_reg3(h, s).of_the_state(P_BOX))?;
    let T = steps(|| r3::ph2T_reg3(p, h).of_the_state(T_BOX))?;
    let v = steps(|| r3::ph2v_reg3(p, h))?;
    record(T, density(v)?, v, Some(p))
}

/// 6 comes before 1, 2 and 3. Only the property's own formula is worked.
pub fn Td_property(T: f64, d: f64, number: i32) -> Outcome<f64> {
    if !is_property(number) {
        return Err(PROPERTY);
    }
    let (T, d) = two(T, T_BOX, d, D_BOX)?;
    raw(steps(|| r3::Td_thermal_reg3(T, d, number)))
}

/// cp and w, each by the Rust's own function and each a value or a refusal: a range refuses both.
pub fn cp_and_w(T: f64, d: f64) -> Answer {
    let (cp, w) = match two(T, T_BOX, d, D_BOX) {
        Ok((T, d)) => (
            raw(steps(|| r3::Td2cp_reg3(T, d))),
            raw(steps(|| r3::Td2w_reg3(T, d))),
        ),
        Err(k) => (Err(k), Err(k)),
    };
    let mut answer = Answer::refused(cp.err().unwrap_or(0));
    answer.beside = w.err().unwrap_or(0).into();
    answer.numbers[0] = cp.unwrap_or(0.0);
    answer.numbers[1] = w.unwrap_or(0.0);
    answer
}

fn critical(p: Num, T: Num) -> bool {
    (T - TC_WATER).abs() < T_TOL && (p - PC_WATER).abs() < P_TOL
}

/// The letter by whose equation `pT2v_reg3` works, beyond the border too, and 0 where it has none.
pub fn volume_letter(p: f64, T: f64) -> u8 {
    match two(p, P_BOX, T, T_BOX) {
        Ok((p, T)) if !critical(p, T) => {
            watch(|| r3::sub_region3_pT(p, T)).map_or(0, |letter| letter as u8)
        }
        _ => 0,
    }
}

/// One row of the column run: the (p,T) steps as far as d. The letter is 0 at the critical point.
pub fn column_row(p: f64, T: f64) -> Outcome<(u8, f64)> {
    let (p, T) = in_region3(p, T)?;
    let (letter, v) = if critical(p, T) {
        (0, steps(|| Num(1.0) / DC_WATER)?)
    } else {
        let letter = watch(|| r3::sub_region3_pT(p, T))?;
        (letter as u8, steps(|| r3::pT2v_3subreg(p, T, letter))?)
    };
    Ok((letter, density(v)?.0))
}
