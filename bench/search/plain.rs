// The plain Rust that a search is measured against: the crate's own functions as tools/oracle rewrites them (`rtsec` and what it calls, its tables and
// its sums), with the written rules in place of std's functions, raw f64, hardware root. Tested are the ranges, what the search proposes and what the
// call answers, and no step between.
#![allow(warnings)]

mod forms {
    pub mod ruled {
        include!(env!("RULED"));
    }
}

mod raw {
    include!("../power.rs");
    include!("../series.rs");

    pub trait Rules {
        fn rule_powi(self, n: i32) -> f64;
        fn rule_powf(self, exponent: f64) -> f64;
        fn rule_ln(self) -> f64;
        fn rule_exp(self) -> f64;
        fn rule_sqrt(self) -> f64;
    }

    impl Rules for f64 {
        #[inline(always)]
        fn rule_powi(self, n: i32) -> f64 {
            power(self, n)
        }
        #[inline(always)]
        fn rule_powf(self, exponent: f64) -> f64 {
            match exponent {
                0.5 => self.sqrt(),
                0.25 => self.sqrt().sqrt(),
                4.0 => power(self, 4),
                _ => self,
            }
        }
        #[inline(always)]
        fn rule_ln(self) -> f64 {
            logarithm(self)
        }
        #[inline(always)]
        fn rule_exp(self) -> f64 {
            exponential(self)
        }
        #[inline(always)]
        fn rule_sqrt(self) -> f64 {
            self.sqrt()
        }
    }
}

use forms::ruled::r3::*;

type Range = (f64, f64);
const P: Range = (16.529, 100.0);
const T: Range = (623.15, 863.15);
const D: Range = (100.0, 800.0);
const H: Range = (1500.0, 2900.0);
const S: Range = (3.3, 5.3);

fn outside(x: f64, range: Range) -> bool {
    !(range.0 <= x && x <= range.1)
}

// The arguments' refusal, or 0.
fn arguments(a: f64, of_a: Range, b: f64, of_b: Range) -> u8 {
    if !a.is_finite() || !b.is_finite() {
        1
    } else if outside(a, of_a) {
        2
    } else if outside(b, of_b) {
        3
    } else {
        0
    }
}

// What a search proposes is in its range, and has the property that was asked.
fn accepted(x: f64, range: Range, property: impl Fn(f64) -> f64, asked: f64) -> Result<f64, u8> {
    if !x.is_finite() {
        return Err(5);
    }
    if outside(x, range) {
        return Err(4);
    }
    let e = property(x) - asked;
    if !e.is_finite() {
        Err(5)
    } else if e.abs() <= 1e-6 {
        Ok(x)
    } else {
        Err(15)
    }
}

fn pv(p: f64, v: f64) -> Result<f64, u8> {
    match arguments(p, P, 1.0 / v, D) {
        0 => {
            let t = accepted(pv2T_reg3(p, v), T, |t| Td2p_reg3(t, 1.0 / v), p)?;
            if outside(Td2p_reg3(t, 1.0 / v), P) {
                Err(4)
            } else {
                Ok(t)
            }
        }
        k => Err(k),
    }
}

fn th(t: f64, h: f64) -> Result<f64, u8> {
    match arguments(t, T, h, H) {
        0 => accepted(Th2d_reg3(t, h), D, |d| Td2h_reg3(t, d), h),
        k => Err(k),
    }
}

fn ts(t: f64, s: f64) -> Result<f64, u8> {
    match arguments(t, T, s, S) {
        0 => accepted(Ts2d_reg3(t, s), D, |d| Td2s_reg3(t, d), s),
        k => Err(k),
    }
}

fn record(t: f64, d: f64, out: &mut [f64; 10]) -> u8 {
    let found = [
        t,
        d,
        1.0 / d,
        Td2p_reg3(t, d),
        Td2h_reg3(t, d),
        Td2s_reg3(t, d),
        Td2u_reg3(t, d),
        Td2cv_reg3(t, d),
        Td2cp_reg3(t, d),
        Td2w_reg3(t, d),
    ];
    if outside(found[3], P) {
        return 4;
    }
    if found.iter().any(|x| !x.is_finite()) {
        return 5;
    }
    *out = found;
    0
}

fn alone(found: Result<f64, u8>, out: &mut f64) -> u8 {
    *out = found.unwrap_or(0.0);
    found.err().unwrap_or(0)
}

fn all(found: Result<f64, u8>, state: impl Fn(f64) -> (f64, f64), out: &mut [f64; 10]) -> u8 {
    *out = [0.0; 10];
    match found {
        Ok(x) => {
            let (t, d) = state(x);
            record(t, d, out)
        }
        Err(k) => k,
    }
}

#[no_mangle]
pub extern "C" fn plain_pv2t(p: f64, v: f64, out: &mut f64) -> u8 {
    alone(pv(p, v), out)
}
#[no_mangle]
pub extern "C" fn plain_th2d(t: f64, h: f64, out: &mut f64) -> u8 {
    alone(th(t, h), out)
}
#[no_mangle]
pub extern "C" fn plain_ts2d(t: f64, s: f64, out: &mut f64) -> u8 {
    alone(ts(t, s), out)
}
#[no_mangle]
pub extern "C" fn plain_pv(p: f64, v: f64, out: &mut [f64; 10]) -> u8 {
    all(pv(p, v), |t| (t, 1.0 / v), out)
}
#[no_mangle]
pub extern "C" fn plain_th(t: f64, h: f64, out: &mut [f64; 10]) -> u8 {
    all(th(t, h), |d| (t, d), out)
}
#[no_mangle]
pub extern "C" fn plain_ts(t: f64, s: f64, out: &mut [f64; 10]) -> u8 {
    all(ts(t, s), |d| (t, d), out)
}
