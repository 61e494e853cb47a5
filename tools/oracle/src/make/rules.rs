//! Rows for the four rules: power, root, logarithm, exponential.
//! Edges are bit patterns, whole powers, perfect squares, and the places where m or k changes.

use super::points::{beside, SPECIAL};
use super::random::Random;
use crate::row::Row;
use crate::rules::L;

pub fn any(entry: u8, random: &mut Random) -> Row {
    let row = |whole, x| Row::new(entry, whole, x, 0.0);
    if random.one_in(32) {
        return row(exponent(random), random.of(&SPECIAL));
    }
    match entry {
        1 => row(exponent(random), base(random)),
        2 => row(0, square(random)),
        3 => row(0, logarithm(random)),
        _ => row(0, exponential(random)),
    }
}

pub fn edges(entry: u8, random: &mut Random) -> Vec<Row> {
    let mut rows = Vec::new();
    let wholes: Vec<i32> = match entry {
        1 => (-70..=70)
            .chain([i32::MIN, i32::MAX, i32::MIN + 1, 128, -128])
            .collect(),
        _ => vec![0],
    };
    for x in SPECIAL {
        rows.extend(wholes.iter().map(|&n| (n, x)));
    }
    let points: Vec<f64> = match entry {
        1 => vec![2.0, -2.0, 0.5, 3.0, 10.0, 1e5, 1e-5, 0.1, 1.5],
        2 => (0..64)
            .map(|i| f64::from(i * i))
            .chain([-1.0, -4.0, 94906265.0 * 94906265.0])
            .collect(),
        3 => (-1074..1024)
            .step_by(37)
            .flat_map(|e| [1.0, 0.75, 1.5].map(|m| m * two(e)))
            .collect(),
        _ => (-1010..=1010)
            .step_by(20)
            .map(|k| (f64::from(k) + 0.5) * L)
            .chain([700.0, -700.0])
            .collect(),
    };
    let units: &[i64] = if entry == 1 { &[0] } else { &[-2, -1, 0, 1, 2] };
    for x in points {
        for &unit in units {
            rows.extend(wholes.iter().map(|&n| (n, beside(x, unit))));
        }
    }
    random.shuffle(&mut rows);
    rows.into_iter()
        .take(1000)
        .map(|(n, x)| Row::new(entry, n, x, 0.0))
        .collect()
}

fn exponent(random: &mut Random) -> i32 {
    match random.below(32) {
        0 => random.of(&[i32::MIN, i32::MAX, 65, -65, 64, -64, 128, 1 << 16]),
        1 => random.next() as i32,
        2..=7 => random.whole(-70, 70),
        _ => random.whole(-36, 36),
    }
}

fn base(random: &mut Random) -> f64 {
    match random.below(8) {
        0 => f64::from_bits(random.next()),
        1 => random.between(-10.0, 10.0),
        2 => random.near(1.0, 1000),
        3 => f64::from(random.whole(-20, 20)),
        4 => random.between(-1e-3, 1e-3),
        5 => random.between(-1e6, 1e6),
        _ => random.between(0.0, 3.0),
    }
}

/// Squares and their neighbours, and numbers whose root lies next to the middle of two f64.
fn square(random: &mut Random) -> f64 {
    match random.below(8) {
        0 => f64::from_bits(random.next()),
        1 => f64::from_bits(random.below(1 << 53)),
        2 => {
            let k = random.below(94_906_266) as f64;
            let scale = two(2 * random.whole(-400, 400));
            random.near(k * k * scale, 2)
        }
        3 => {
            // half a unit above or below r, squared
            let (r, side) = (random.between(1.0, 2.0), random.of(&[-1.0, 1.0]));
            random.near(r * r + side * r * f64::EPSILON, 1)
        }
        4 => random.between(0.0, 1e12),
        _ => random.between(0.0, 30.0),
    }
}

fn logarithm(random: &mut Random) -> f64 {
    match random.below(8) {
        0 => f64::from_bits(random.next()),
        1 => f64::from_bits(random.below(1 << 52)),
        2 => {
            let (lead, scale) = (random.of(&[1.0, 0.75, 1.5]), two(random.whole(-1074, 1023)));
            random.near(lead * scale, 3)
        }
        3 => random.near(1.0, 100_000),
        4 | 5 => random.between(16.0, 101.0),
        _ => random.between(0.3, 2.5),
    }
}

fn exponential(random: &mut Random) -> f64 {
    match random.below(8) {
        0 => f64::from_bits(random.next()),
        1 => {
            let k = random.whole(-1010, 1010);
            random.near((f64::from(k) + 0.5) * L, 4)
        }
        2 => random.between(-1e-8, 1e-8),
        3 => {
            let end = random.of(&[700.0, -700.0]);
            random.near(end, 3)
        }
        4 | 5 => random.between(-10.0, 10.0),
        _ => random.between(-701.0, 701.0),
    }
}

/// 2^e, subnormal where e is below -1022 and 0 below -1074.
fn two(e: i32) -> f64 {
    match e {
        -1022.. => f64::from_bits(((e + 1023) as u64) << 52),
        -1074.. => f64::from_bits(1 << (e + 1074)),
        _ => 0.0,
    }
}
