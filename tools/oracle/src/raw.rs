//! docs/SCOPE.md's rules as methods of f64, for the ruled form.
//! What a rule refuses is NaN here: a refused number travels as itself.

use crate::rules;

pub trait Rules {
    fn rule_powi(self, n: i32) -> f64;
    fn rule_powf(self, exponent: f64) -> f64;
    fn rule_ln(self) -> f64;
    fn rule_exp(self) -> f64;
    fn rule_sqrt(self) -> f64;
}

impl Rules for f64 {
    fn rule_powi(self, n: i32) -> f64 {
        rules::power(self, n).unwrap_or(f64::NAN)
    }

    fn rule_powf(self, exponent: f64) -> f64 {
        rules::powf(self, exponent).unwrap_or(f64::NAN)
    }

    fn rule_ln(self) -> f64 {
        rules::logarithm(self).unwrap_or(f64::NAN)
    }

    fn rule_exp(self) -> f64 {
        rules::exponential(self).unwrap_or(f64::NAN)
    }

    fn rule_sqrt(self) -> f64 {
        rules::root(self).unwrap_or(f64::NAN)
    }
}
