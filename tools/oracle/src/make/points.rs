//! The numbers at which something changes: range ends, band ends, splits, special numbers.
//! `beside` moves a number by units in its last place.

use crate::ranges::*;

/// NaN with several signs and payloads, infinities, zeros, subnormals and the ends of f64.
pub const SPECIAL: [f64; 22] = [
    f64::from_bits(0x7ff8_0000_0000_0000),
    f64::from_bits(0xfff8_0000_0000_0000),
    f64::from_bits(0x7ff8_0000_0000_0001),
    f64::from_bits(0x7ff0_0000_0000_0001),
    f64::from_bits(0xfff0_0000_0000_0001),
    f64::from_bits(0x7fff_ffff_ffff_ffff),
    f64::from_bits(0xffff_ffff_ffff_ffff),
    f64::INFINITY,
    f64::NEG_INFINITY,
    0.0,
    -0.0,
    f64::from_bits(1),
    f64::from_bits(0x8000_0000_0000_0001),
    f64::from_bits(0x000f_ffff_ffff_ffff),
    f64::from_bits(0x800f_ffff_ffff_ffff),
    f64::MIN_POSITIVE,
    -f64::MIN_POSITIVE,
    f64::MAX,
    f64::MIN,
    1.0,
    -1.0,
    1e300,
];

/// Band ends of the letter choice, of its near-critical part, and the critical pressure.
/// The end at p_saturation(643.15) is worked out where it is used.
pub const P_BANDS: [f64; 12] = [
    40.0,
    25.0,
    23.5,
    23.0,
    22.5,
    22.11,
    22.064,
    21.93161551,
    21.90096265,
    20.5,
    19.00881189173929,
    24.0,
];

/// Where `pT2v_sat_reg3` changes its equation.
pub const P_SPLITS: [f64; 5] = [19.0088, 21.0434, 21.9316, 20.5, 21.9009];

/// The critical temperature, a unit of T_TOL either side of it, and the temperature whose
/// saturation pressure ends a band.
pub const T_MARKS: [f64; 6] = [647.096, 647.09599, 647.09601, 643.15, 650.0, 623.15];

/// Where the equation of hs2p3b has base 0, and the critical enthalpy.
pub const H_MARKS: [f64; 3] = [1906.8, 2087.546845, 1880.0];

/// The critical entropy, at which 3a ends.
pub const S_MARKS: [f64; 2] = [4.41202148223476, 4.2];

/// Where a letter's equation has base 0: reducing pressure times shift, reducing temperature times
/// shift. Below it a root is refused, at it a negative power.
pub const ZERO_BASES: [(char, f64, f64); 26] = [
    ('a', 100.0 * 0.085, 760.0 * 0.817),
    ('b', 100.0 * 0.280, 860.0 * 0.779),
    ('c', 40.0 * 0.259, 690.0 * 0.903),
    ('d', 40.0 * 0.559, 690.0 * 0.939),
    ('e', 40.0 * 0.587, 710.0 * 0.918),
    ('f', 40.0 * 0.587, 730.0 * 0.891),
    ('g', 25.0 * 0.872, 660.0 * 0.971),
    ('h', 25.0 * 0.898, 660.0 * 0.983),
    ('i', 25.0 * 0.910, 660.0 * 0.984),
    ('j', 25.0 * 0.875, 670.0 * 0.964),
    ('k', 25.0 * 0.802, 680.0 * 0.935),
    ('l', 24.0 * 0.908, 650.0 * 0.989),
    ('m', 23.0 * 1.0, 650.0 * 0.997),
    ('n', 23.0 * 0.976, 650.0 * 0.997),
    ('o', 23.0 * 0.974, 650.0 * 0.996),
    ('p', 23.0 * 0.972, 650.0 * 0.997),
    ('q', 23.0 * 0.848, 650.0 * 0.983),
    ('r', 23.0 * 0.874, 650.0 * 0.982),
    ('s', 21.0 * 0.886, 640.0 * 0.990),
    ('t', 20.0 * 0.803, 650.0 * 1.02),
    ('u', 23.0 * 0.902, 650.0 * 0.988),
    ('v', 23.0 * 0.960, 650.0 * 0.995),
    ('w', 23.0 * 0.959, 650.0 * 0.995),
    ('x', 23.0 * 0.910, 650.0 * 0.988),
    ('y', 22.0 * 0.996, 650.0 * 0.994),
    ('z', 22.0 * 0.993, 650.0 * 0.994),
];

/// Strips of the (p,T) plane that a random point of the box seldom meets, each with letters of its
/// own: p from, p to, and the boundaries below and above by their number in `BOUNDARIES`.
pub const STRIPS: [(f64, f64, usize, usize); 6] = [
    (25.0, 40.0, 1, 2),
    (23.0, 25.0, 1, 5),
    (22.5, 23.0, 3, 4),
    (22.064, 22.5, 8, 9),
    (21.9, 22.064, 8, 9),
    (21.05, 21.9, 8, 9),
];

/// What an argument can be.
#[derive(Clone, Copy, PartialEq)]
pub enum Quantity {
    P,
    T,
    D,
    V,
    H,
    S,
    PLine,
    TLine,
}

impl Quantity {
    pub fn range(self) -> Range {
        match self {
            Quantity::P => P_BOX,
            Quantity::T => T_BOX,
            Quantity::D => D_BOX,
            Quantity::V => V_BOX,
            Quantity::H => H_BOX,
            Quantity::S => S_BOX,
            Quantity::PLine => P_LINE,
            Quantity::TLine => T_LINE,
        }
    }

    /// Its range ends and the numbers inside at which something changes.
    pub fn marks(self) -> Vec<f64> {
        let (from, to) = self.range();
        let inside: &[f64] = match self {
            Quantity::P => &P_BANDS,
            Quantity::T | Quantity::TLine => &T_MARKS,
            Quantity::D => &[322.0],
            Quantity::V => &[1.0 / 322.0],
            Quantity::H => &H_MARKS,
            Quantity::S => &S_MARKS,
            Quantity::PLine => &P_SPLITS,
        };
        let mut marks = vec![from, to];
        marks.extend(inside);
        marks
    }

    /// Finite numbers outside its range, near and far.
    pub fn outside(self) -> Vec<f64> {
        let (from, to) = self.range();
        vec![
            beside(from, -1),
            beside(to, 1),
            from - 1.0,
            to + 1.0,
            -from,
            0.0,
            1e300,
        ]
    }
}

/// The number n units in the last place above x, through 0 where it lies between.
pub fn beside(x: f64, n: i64) -> f64 {
    let bits = x.to_bits() as i64;
    let place = if bits < 0 { i64::MIN - bits } else { bits };
    let moved = place + n;
    f64::from_bits(if moved < 0 { i64::MIN - moved } else { moved } as u64)
}
