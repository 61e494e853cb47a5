// The series of the logarithm, at a normal number above 0, and of the exponential, as a plain Rust programmer writes them.
fn logarithm(x: f64) -> f64 {
    const L: f64 = 0.6931471805599453;
    let bits = x.to_bits();
    let (mut m, mut e) = (f64::from_bits(bits & 0xf_ffff_ffff_ffff | 0x3ff0_0000_0000_0000), (bits >> 52) as i32 - 1023);
    if m >= 1.5 {
        m *= 0.5;
        e += 1;
    }
    let z = (m - 1.0) / (m + 1.0);
    let y = z * z;
    let mut q = 1.0 / 27.0;
    for k in [25.0, 23.0, 21.0, 19.0, 17.0, 15.0, 13.0, 11.0, 9.0, 7.0, 5.0, 3.0, 1.0] {
        q = q * y + 1.0 / k;
    }
    f64::from(e) * L + (2.0 * z) * q
}

fn exponential(x: f64) -> f64 {
    const L: f64 = 0.6931471805599453;
    if !(-700.0..=700.0).contains(&x) {
        return f64::NAN;
    }
    const ROUND: f64 = 6755399441055744.0;
    let k = (x / L + ROUND) - ROUND;
    let r = x - k * L;
    let mut s = 1.0;
    for j in [14.0, 13.0, 12.0, 11.0, 10.0, 9.0, 8.0, 7.0, 6.0, 5.0, 4.0, 3.0, 2.0, 1.0] {
        s = 1.0 + (r * s) / j;
    }
    s * f64::from_bits(((k as i64 + 1023) as u64) << 52)
}
