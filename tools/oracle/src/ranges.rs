//! docs/SCOPE.md's call domain and refusal numbers.
//! Both ends of a range count as inside.

pub type Range = (f64, f64);

pub const P_BOX: Range = (16.529, 100.0);
pub const T_BOX: Range = (623.15, 863.15);
pub const D_BOX: Range = (100.0, 800.0);
/// Of (p,v) it is 1/v that is held to d's range; these are the volumes at its ends.
pub const V_BOX: Range = (0.00125, 0.01);
pub const H_BOX: Range = (1500.0, 2900.0);
pub const S_BOX: Range = (3.3, 5.3);

/// On the saturation line p and T end at the critical point.
pub const P_LINE: Range = (16.529, 22.064);
pub const T_LINE: Range = (623.15, 647.096);

/// The exponential's argument, and the power's exponent.
pub const EXPONENT: Range = (-700.0, 700.0);
pub const POWER: (i32, i32) = (-64, 64);

// The refusals of docs/SCOPE.md.
pub const NOT_FINITE: u8 = 1;
pub const FIRST: u8 = 2;
pub const SECOND: u8 = 3;
pub const STATE: u8 = 4;
pub const STEP: u8 = 5;
pub const PROPERTY: u8 = 6;
pub const BORDER: u8 = 8;
pub const UNFOUND: u8 = 15;

/// No refusal of docs/SCOPE.md: the row names no entry, boundary, letter or phase.
pub const NO_ENTRY: u8 = 255;

pub fn outside(x: f64, range: Range) -> bool {
    x < range.0 || x > range.1
}
