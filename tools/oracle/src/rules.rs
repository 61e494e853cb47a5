//! docs/SCOPE.md's written rules for the four functions, each as a public call with its refusals.
//! Every operation below is one f64 operation, in the order that docs/SCOPE.md writes down.

use crate::ranges::{outside, EXPONENT, FIRST, NOT_FINITE, POWER, SECOND, STEP};
use std::sync::atomic::{AtomicBool, Ordering::Relaxed};

/// Whether the power is worked as before Ask 6 (docs/landings/ask-06.md), which looked at no digits
/// lost below the normal range.
static BEFORE_ASK_6: AtomicBool = AtomicBool::new(false);

/// From here on the power of before Ask 6 stands in the place of the rule's.
pub fn power_before_ask_6() {
    BEFORE_ASK_6.store(true, Relaxed);
}

/// As docs/SCOPE.md writes it.
#[allow(clippy::approx_constant)]
pub const L: f64 = 0.6931471805599453;

fn argument(x: f64) -> Result<(), u8> {
    if x.is_finite() {
        Ok(())
    } else {
        Err(NOT_FINITE)
    }
}

fn step(x: f64) -> Result<f64, u8> {
    if x.is_finite() {
        Ok(x)
    } else {
        Err(STEP)
    }
}

/// a^n by the bits of |n| from the lowest. Each r and the result are looked at: one that is not
/// finite is refused, and of a base that is not 0 one that is below the normal range, 0 included.
/// A square of a that is lost shows in r, since the highest bit is always set.
pub fn power(a: f64, n: i32) -> Result<f64, u8> {
    argument(a)?;
    if n < POWER.0 || n > POWER.1 {
        return Err(SECOND);
    }
    let looks = a != 0.0 && !BEFORE_ASK_6.load(Relaxed);
    let whole = |r: f64| {
        if looks && r.abs() < f64::MIN_POSITIVE {
            Err(STEP)
        } else {
            step(r)
        }
    };
    let (mut r, mut a, mut bits) = (1.0, a, n.unsigned_abs());
    while bits > 0 {
        if bits & 1 == 1 {
            r = whole(r * a)?;
        }
        bits >>= 1;
        if bits > 0 {
            a *= a;
        }
    }
    if n < 0 {
        whole(1.0 / r)
    } else {
        Ok(r)
    }
}

/// The f64 nearest the exact root: IEEE's own square root is that. -0 gives -0.
pub fn root(x: f64) -> Result<f64, u8> {
    argument(x)?;
    if x < 0.0 {
        Err(STEP)
    } else {
        Ok(x.sqrt())
    }
}

pub fn logarithm(x: f64) -> Result<f64, u8> {
    argument(x)?;
    if x <= 0.0 {
        return Err(STEP);
    }
    let (m, e) = split(x);
    let z = (m - 1.0) / (m + 1.0);
    let y = z * z;
    let mut q = 1.0 / 27.0;
    for odd in (1..=25).rev().step_by(2) {
        q = q * y + 1.0 / f64::from(odd);
    }
    Ok(f64::from(e) * L + (2.0 * z) * q)
}

pub fn exponential(x: f64) -> Result<f64, u8> {
    argument(x)?;
    if outside(x, EXPONENT) {
        return Err(FIRST);
    }
    let k = (x / L).round_ties_even();
    let r = x - k * L;
    let mut s = 1.0;
    for j in (1..=14).rev() {
        s = 1.0 + (r * s) / f64::from(j);
    }
    Ok(s * two_to(k as i32))
}

/// The Rust's powf. docs/SCOPE.md names one half and one quarter. The other exponents that occur are
/// whole: 4 goes by the power rule, and 1 is the value itself and no step.
pub fn powf(x: f64, exponent: f64) -> Result<f64, u8> {
    match exponent {
        1.0 => Ok(x),
        0.5 => root(x),
        0.25 => root(root(x)?),
        4.0 => power(x, 4),
        other => panic!("docs/SCOPE.md has no rule for the exponent {other}"),
    }
}

/// x = m * 2^e with 0.75 <= m < 1.5, for a finite x above 0, subnormals too.
fn split(x: f64) -> (f64, i32) {
    const LEAD: u64 = 1 << 52;
    let (fraction, field) = (x.to_bits() & (LEAD - 1), (x.to_bits() >> 52) as i32);
    // x = significand * 2^exponent with the leading bit of the significand at 52
    let (significand, exponent) = if field == 0 {
        let up = fraction.leading_zeros() as i32 - 11;
        (fraction << up, -1074 - up)
    } else {
        (fraction | LEAD, field - 1075)
    };
    let m = f64::from_bits((significand & (LEAD - 1)) | 1.0f64.to_bits());
    if m < 1.5 {
        (m, exponent + 52)
    } else {
        (m / 2.0, exponent + 53)
    }
}

/// 2^k for a k whose power is a normal number.
fn two_to(k: i32) -> f64 {
    f64::from_bits(((1023 + k) as u64) << 52)
}
