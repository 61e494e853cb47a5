//! The number of the checked form: an f64 whose every step is tested, the first refusal being kept.
//! Work goes on after a refusal with whatever number came out: only the first one is ever read.

use crate::ranges::{outside, Range, STATE, STEP};
use crate::rules;
use std::cell::Cell;
use std::ops::{Add, AddAssign, Div, DivAssign, Mul, MulAssign, Neg, Sub, SubAssign};

#[derive(Clone, Copy, PartialEq, PartialOrd, Debug)]
pub struct Num(pub f64);

thread_local! {
    /// The first refusal since `watch` began, or 0.
    static KEPT: Cell<u8> = const { Cell::new(0) };
    /// How often a search has asked since `count` began.
    static ASKED: Cell<u32> = const { Cell::new(0) };
}

/// A search asks for its property.
pub fn asked() {
    ASKED.set(ASKED.get() + 1);
}

/// Does some work and answers what it gives, with how often a search asked in it.
pub fn count<A>(work: impl FnOnce() -> A) -> (A, u32) {
    ASKED.set(0);
    let answer = work();
    (answer, ASKED.get())
}

fn note(refusal: u8) {
    if KEPT.get() == 0 {
        KEPT.set(refusal);
    }
}

/// Does some work and answers what it gives, or the first refusal met on the way.
pub fn watch<A>(work: impl FnOnce() -> A) -> Result<A, u8> {
    KEPT.set(0);
    let answer = work();
    match KEPT.get() {
        0 => Ok(answer),
        refusal => Err(refusal),
    }
}

fn step(x: f64) -> Num {
    if !x.is_finite() {
        note(STEP);
    }
    Num(x)
}

/// Whatever a rule refuses with, the call that uses it answers 5.
fn ruled(answer: Result<f64, u8>) -> Num {
    step(answer.unwrap_or(f64::NAN))
}

impl Num {
    /// A whole number of the Rust's tables, all of which an f64 holds exactly.
    pub fn of(whole: i32) -> Num {
        Num(f64::from(whole))
    }

    /// A p, T or d of the state, tested directly after the step that gives it: outside its range
    /// it is 4. Where it is not finite, that step has kept 5 already.
    pub fn of_the_state(self, range: Range) -> Num {
        if outside(self.0, range) {
            note(STATE);
        }
        self
    }

    pub fn powi(self, n: i32) -> Num {
        ruled(rules::power(self.0, n))
    }

    pub fn powf(self, exponent: Num) -> Num {
        ruled(rules::powf(self.0, exponent.0))
    }

    pub fn ln(self) -> Num {
        ruled(rules::logarithm(self.0))
    }

    pub fn exp(self) -> Num {
        ruled(rules::exponential(self.0))
    }

    pub fn sqrt(self) -> Num {
        ruled(rules::root(self.0))
    }

    pub fn abs(self) -> Num {
        Num(self.0.abs())
    }
}

impl Neg for Num {
    type Output = Num;
    fn neg(self) -> Num {
        Num(-self.0)
    }
}

macro_rules! operation {
    ($trait:ident $function:ident, $assign:ident $assigned:ident, $sign:tt) => {
        impl $trait for Num {
            type Output = Num;
            fn $function(self, other: Num) -> Num {
                step(self.0 $sign other.0)
            }
        }

        impl $assign for Num {
            fn $assigned(&mut self, other: Num) {
                *self = *self $sign other;
            }
        }
    };
}

operation!(Add add, AddAssign add_assign, +);
operation!(Sub sub, SubAssign sub_assign, -);
operation!(Mul mul, MulAssign mul_assign, *);
operation!(Div div, DivAssign div_assign, /);
