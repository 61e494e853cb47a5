//! The four rules against second transcriptions of docs/SCOPE.md that share no step with src/rules.rs,
//! and the root against whole numbers alone.

use oracle::make::Rows;
use oracle::row::Row;
use oracle::rules::{exponential, logarithm, power, root};

#[allow(clippy::approx_constant)]
const L: f64 = 0.6931471805599453;
const ROWS: usize = 200_000;

fn rows(entry: u8) -> impl Iterator<Item = Row> {
    Rows::new(7, &[entry]).take(ROWS)
}

fn same(a: Result<f64, u8>, b: Result<f64, u8>) -> bool {
    a.map(f64::to_bits) == b.map(f64::to_bits)
}

/// The bits of |n| as text, read from the last.
fn literal_power(a: f64, n: i32) -> Result<f64, u8> {
    if !a.is_finite() {
        return Err(1);
    }
    if i64::from(n).abs() > 64 {
        return Err(3);
    }
    let bits: Vec<char> = format!("{:b}", i64::from(n).abs()).chars().rev().collect();
    let (mut r, mut square, mut seen) = (1.0f64, a, Vec::new());
    for (i, bit) in bits.iter().enumerate() {
        if *bit == '1' {
            r *= square;
            seen.push(r);
        }
        if i + 1 < bits.len() {
            square *= square;
        }
    }
    let answer = if n < 0 { 1.0 / r } else { r };
    seen.push(answer);
    if seen.iter().all(|x| x.is_normal() || x.is_finite() && a == 0.0) {
        Ok(answer)
    } else {
        Err(5)
    }
}

/// Halved and doubled until 0.75 <= m < 1.5; both are exact, since doubling comes first for a subnormal.
fn literal_logarithm(x: f64) -> Result<f64, u8> {
    if !x.is_finite() {
        return Err(1);
    }
    if x <= 0.0 {
        return Err(5);
    }
    let (mut m, mut e) = (x, 0.0);
    while m < 0.75 {
        m *= 2.0;
        e -= 1.0;
    }
    while m >= 1.5 {
        m /= 2.0;
        e += 1.0;
    }
    let z = (m - 1.0) / (m + 1.0);
    let y = z * z;
    let mut q = 1.0 / 27.0;
    for odd in [
        25.0, 23.0, 21.0, 19.0, 17.0, 15.0, 13.0, 11.0, 9.0, 7.0, 5.0, 3.0, 1.0,
    ] {
        q = q * y + 1.0 / odd;
    }
    Ok(e * L + (2.0 * z) * q)
}

/// k by comparing distances, and 2^k by doubling.
fn literal_exponential(x: f64) -> Result<f64, u8> {
    if !x.is_finite() {
        return Err(1);
    }
    if !(-700.0..=700.0).contains(&x) {
        return Err(2);
    }
    let quotient = x / L;
    let under = quotient.floor();
    let (down, up) = (quotient - under, under + 1.0 - quotient);
    let k = match down.partial_cmp(&up).unwrap() {
        std::cmp::Ordering::Less => under,
        std::cmp::Ordering::Greater => under + 1.0,
        std::cmp::Ordering::Equal if under % 2.0 == 0.0 => under,
        std::cmp::Ordering::Equal => under + 1.0,
    };
    let r = x - k * L;
    let mut s = 1.0;
    for j in [
        14.0, 13.0, 12.0, 11.0, 10.0, 9.0, 8.0, 7.0, 6.0, 5.0, 4.0, 3.0, 2.0, 1.0,
    ] {
        s = 1.0 + (r * s) / j;
    }
    let (mut scale, mut left) = (1.0, k);
    while left > 0.0 {
        scale *= 2.0;
        left -= 1.0;
    }
    while left < 0.0 {
        scale /= 2.0;
        left += 1.0;
    }
    Ok(s * scale)
}

#[test]
fn the_power_is_as_written() {
    for row in rows(1) {
        let (a, n) = (row.first, row.whole);
        assert!(same(power(a, n), literal_power(a, n)), "{a:?} to the {n}");
    }
}

#[test]
fn the_logarithm_is_as_written() {
    for row in rows(3) {
        let x = row.first;
        assert!(same(logarithm(x), literal_logarithm(x)), "{x:?}");
    }
}

#[test]
fn the_exponential_is_as_written() {
    for row in rows(4) {
        let x = row.first;
        assert!(same(exponential(x), literal_exponential(x)), "{x:?}");
    }
}

/// x as a whole number times a power of two.
fn parts(x: f64) -> (u128, i32) {
    let (fraction, field) = (
        x.to_bits() & ((1 << 52) - 1),
        (x.to_bits() >> 52) as i32 & 0x7ff,
    );
    match field {
        0 => (u128::from(fraction), -1074),
        _ => (u128::from(fraction | 1 << 52), field - 1075),
    }
}

/// Whether the middle of r and its lower neighbour, squared, lies below x, and the middle of r and
/// its upper neighbour, squared, above it: all in quarters of r's last unit, all whole.
fn is_nearest_root(r: f64, x: f64) -> bool {
    let ((s, t), (m, e)) = (parts(r), parts(x));
    assert!(s >= 1 << 52, "the root of an f64 is a normal number");
    let low = if s == 1 << 52 { 4 * s - 1 } else { 4 * s - 2 };
    let high = 4 * s + 2;
    // x in units of (a quarter of r's last unit) squared
    let shift = e - 2 * t + 4;
    let x = m << shift;
    low * low < x && x < high * high
}

#[test]
fn the_root_is_the_nearest_number() {
    for row in rows(2) {
        let x = row.first;
        match root(x) {
            Err(refusal) => {
                assert_eq!(refusal, if x.is_finite() { 5 } else { 1 });
                assert!(!x.is_finite() || x < 0.0);
            }
            Ok(r) if x == 0.0 => assert_eq!(r.to_bits(), x.to_bits()),
            Ok(r) => assert!(is_nearest_root(r, x), "{x:?}"),
        }
    }
}

#[test]
fn document_01_points() {
    assert_eq!(power(2.0, -3), Ok(0.125));
    assert_eq!(power(0.0, 0), Ok(1.0));
    assert_eq!(logarithm(1.0), Ok(0.0));
    assert_eq!(exponential(0.0), Ok(1.0));
    assert_eq!(root(-1.0), Err(5));
    assert_eq!(root(-0.0).map(f64::to_bits), Ok((-0.0f64).to_bits()));
    assert_eq!(power(f64::NAN, 100), Err(1));
    assert_eq!(power(2.0, 65), Err(3));
    assert_eq!(
        power(1e10, -40),
        Err(5),
        "r is not finite, though 1/r would be 0"
    );
    assert_eq!(exponential(700.1), Err(2));
}

/// Below the smallest normal f64 a power of a base that is not 0 has lost its digits.
#[test]
fn lost_digits() {
    let two = |e: i32| 2.0f64.powi(e);
    let next = |x: f64| f64::from_bits(x.to_bits() + 1);
    let least = f64::MIN_POSITIVE;
    assert_eq!(power(two(-511), 2), Ok(least));
    assert_eq!(power(two(-512), 2), Err(5));
    assert_eq!(power(1e-7, 64), Err(5));
    assert_eq!(power(least, 1), Ok(least));
    assert_eq!(power(f64::from_bits(least.to_bits() - 1), 1), Err(5));
    assert_eq!(power(two(1022), -1), Ok(least));
    assert_eq!(power(next(two(1022)), -1), Err(5));
    assert_eq!(power(f64::from_bits(1 << 51), -1), Err(5), "r itself is 2^-1023");
    assert_eq!(power(0.0, 3), Ok(0.0));
    assert_eq!(power(-0.0, 3).map(f64::to_bits), Ok((-0.0f64).to_bits()));
    assert_eq!(power(0.0, -3), Err(5));
    assert_eq!(power(f64::from_bits(1), 0), Ok(1.0));
}
