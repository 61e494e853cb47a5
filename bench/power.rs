// The power rule as a plain Rust programmer writes it, with no look at a lost power: for a base of which none is lost.
fn power(a: f64, n: i32) -> f64 {
    let (mut r, mut a, mut k) = (1.0, a, n.unsigned_abs());
    loop {
        if k & 1 == 1 {
            r *= a;
        }
        k >>= 1;
        if k == 0 {
            break;
        }
        a *= a;
    }
    if n < 0 { 1.0 / r } else { r }
}
