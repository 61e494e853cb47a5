// The plain Rust that the column run is measured against: docs/SCOPE.md's rules on columns of p and T, raw f64, hardware root, one finiteness
// test a row, boundaries worked only when they are reached. In two forms, which differ in the sums alone: one generic sum over tables of rows, each
// power worked for its term; or straight code for each table, each power of a base worked once.
#![allow(non_upper_case_globals)]

mod tables {
    include!(env!("TABLES"));
}

type Row = (i32, i32, f64);

include!("../power.rs");
include!("../series.rs");

// Whether no power from the -64th to the 64th can be lost: then |a|^64 lies from 2^-960 to 2^960.
fn usual(a: f64) -> bool {
    const LEAST: f64 = 1.0 / 32768.0;
    (LEAST..=32768.0).contains(&a.abs())
}

// The power rule with its looks: a NaN where an r of a base that is not 0 is below the normal range.
fn looked_power(a: f64, n: i32) -> f64 {
    let lost = |r: f64| a != 0.0 && r.abs() < f64::MIN_POSITIVE;
    let (mut r, mut b, mut k) = (1.0, a, n.unsigned_abs());
    loop {
        if k & 1 == 1 {
            r *= b;
            if lost(r) {
                return f64::NAN;
            }
        }
        k >>= 1;
        if k == 0 {
            break;
        }
        b *= b;
    }
    if n >= 0 {
        return r;
    }
    r = 1.0 / r;
    if lost(r) { f64::NAN } else { r }
}

// Each power worked for its term.
fn sum(x: f64, y: f64, rows: &[Row]) -> f64 {
    if !usual(x) || !usual(y) {
        return looked_sum(x, y, rows);
    }
    let mut v = 0.0;
    for &(i, j, n) in rows {
        v += n * power(x, i) * power(y, j);
    }
    v
}

#[cold]
fn looked_sum(x: f64, y: f64, rows: &[Row]) -> f64 {
    let mut v = 0.0;
    for &(i, j, n) in rows {
        v += n * looked_power(x, i) * looked_power(y, j);
    }
    v
}

fn t_saturation(p: f64) -> f64 {
    const n: [f64; 10] = [
        0.11670521452767E+04, -0.72421316703206E+06, -0.17073846940092E+02, 0.12020824702470E+05, -0.32325550322333E+07,
        0.14915108613530E+02, -0.48232657361591E+04, 0.40511340542057E+06, -0.23855557567849E+00, 0.65017534844798E+03,
    ];
    let b = p.sqrt().sqrt();
    let e = b * (b + n[2]) + n[5];
    let f = b * (n[0] * b + n[3]) + n[6];
    let g = b * (n[1] * b + n[4]) + n[7];
    let d = 2.0 * g / (-f - (f * f - 4.0 * e * g).sqrt());
    0.5 * (n[9] + d - ((n[9] + d) * (n[9] + d) - 4.0 * (n[8] + n[9] * d)).sqrt())
}

fn cubic(p: f64, n: [f64; 4]) -> f64 {
    let p2 = p * p;
    0.0 + n[0] + n[1] * p + n[2] * p2 + n[3] * (p * p2)
}

fn quartic(p: f64, n: [f64; 5]) -> f64 {
    let p2 = p * p;
    0.0 + n[0] + n[1] * p + n[2] * p2 + n[3] * (p * p2) + n[4] * (p2 * p2)
}

fn in_ln(p: f64, n: [f64; 5]) -> f64 {
    let x = logarithm(p);
    let x2 = x * x;
    0.0 + n[0] + n[1] * x + n[2] * x2 + n[3] * (1.0 / x) + n[4] * (1.0 / x2)
}

fn ab(p: f64) -> f64 {
    in_ln(p, [0.154793642129415e4, -0.187661219490113e3, 0.213144632222113e2, -0.191887498864292e4, 0.918419702359447e3])
}
fn cd(p: f64) -> f64 {
    cubic(p, [0.585276966696349e3, 0.278233532206915e1, -0.127283549295878e-1, 0.159090746562729e-3])
}
fn ef(p: f64) -> f64 {
    3.727888004 * (p - 22.064) + 647.096
}
fn gh(p: f64) -> f64 {
    quartic(p, [-0.249284240900418e5, 0.428143584791546e4, -0.269029173140130e3, 0.751608051114157e1, -0.787105249910383e-1])
}
fn ij(p: f64) -> f64 {
    quartic(p, [0.584814781649163e3, -0.616179320924617, 0.260763050899562, -0.587071076864459e-2, 0.515308185433082e-4])
}
fn jk(p: f64) -> f64 {
    quartic(p, [0.617229772068439e3, -0.770600270141675e1, 0.697072596851896, -0.157391839848015e-1, 0.137897492684194e-3])
}
fn mn(p: f64) -> f64 {
    cubic(p, [0.535339483742384e3, 0.761978122720128e1, -0.158365725441648, 0.192871054508108e-2])
}
fn op(p: f64) -> f64 {
    in_ln(p, [0.969461372400213e3, -0.332500170441278e3, 0.642859598466067e2, 0.773845935768222e3, -0.152313732937084e4])
}
fn qu(p: f64) -> f64 {
    cubic(p, [0.565603648239126e3, 0.529062258221222e1, -0.102020639611016, 0.122240301070145e-2])
}
fn rx(p: f64) -> f64 {
    cubic(p, [0.584561202520006e3, -0.102961025163669e1, 0.243293362700452, -0.294905044740799e-2])
}
fn uv(p: f64) -> f64 {
    cubic(p, [0.528199646263062e3, 0.890579602135307e1, -0.222814134903755, 0.286791682263697e-2])
}
fn wx(p: f64) -> f64 {
    in_ln(p, [0.728052609145380e1, 0.973505869861952e2, 0.147370491183191e2, 0.329196213998375e3, 0.873371668682417e3])
}

// The border with region 2.
fn border(p: f64) -> f64 {
    0.57254459862746e3 + ((p - 0.13918839778870e2) / 0.10192970039326e-2).sqrt()
}

fn near_critical(p: f64, t: f64) -> u8 {
    if p > 22.11 {
        if t <= uv(p) { b'u' } else if t < ef(p) { b'v' } else if t < wx(p) { b'w' } else { b'x' }
    } else if p > 22.064 {
        if t <= uv(p) { b'u' } else if t <= ef(p) { b'y' } else if t <= wx(p) { b'z' } else { b'x' }
    } else if t <= t_saturation(p) {
        if p > 21.93161551 && t >= uv(p) { b'y' } else { b'u' }
    } else if p > 21.90096265 && t < wx(p) {
        b'z'
    } else {
        b'x'
    }
}

#[inline(always)]
fn letter(p: f64, t: f64) -> u8 {
    // p_saturation(643.15)
    const LIMIT: f64 = f64::from_bits(0x40350b1a1ee0b6d0);
    if p > 40.0 {
        if t > ab(p) { b'b' } else { b'a' }
    } else if p > 25.0 {
        if t <= cd(p) { b'c' } else if t <= ab(p) { b'd' } else if t <= ef(p) { b'e' } else { b'f' }
    } else if p > 23.0 {
        if t <= cd(p) {
            b'c'
        } else if t <= gh(p) {
            if p > 23.5 { b'g' } else { b'l' }
        } else if t <= ef(p) {
            b'h'
        } else if t <= ij(p) {
            b'i'
        } else if t <= jk(p) {
            b'j'
        } else {
            b'k'
        }
    } else if p > 22.5 {
        if t <= cd(p) {
            b'c'
        } else if t <= gh(p) {
            b'l'
        } else if t <= mn(p) {
            b'm'
        } else if t <= ef(p) {
            b'n'
        } else if t <= op(p) {
            b'o'
        } else if t <= ij(p) {
            b'p'
        } else if t <= jk(p) {
            b'j'
        } else {
            b'k'
        }
    } else if p > LIMIT {
        if t <= cd(p) {
            return b'c';
        }
        if t <= qu(p) {
            return b'q';
        }
        let tjk = jk(p);
        if t > tjk {
            b'k'
        } else if t > rx(p) {
            b'r'
        } else {
            near_critical(p, t)
        }
    } else if p > 20.5 {
        if t <= cd(p) { b'c' } else if t <= t_saturation(p) { b's' } else if t <= jk(p) { b'r' } else { b'k' }
    } else if p > 19.00881189173929 {
        if t <= cd(p) { b'c' } else if t <= t_saturation(p) { b's' } else { b't' }
    } else if t <= t_saturation(p) {
        b'c'
    } else {
        b't'
    }
}

// One letter's equation: its table, that table's sum with powers worked once, reducing pressure, temperature and volume, and the two shifts.
type Equation = (&'static [Row], fn(f64, f64) -> f64, f64, f64, f64, f64, f64);

#[inline(always)]
fn equation(letter: u8) -> Equation {
    use tables::*;
    match letter {
        b'a' => (&A, sum_a, 100.0, 760.0, 0.0024, 0.085, 0.817),
        b'b' => (&B, sum_b, 100.0, 860.0, 0.0041, 0.280, 0.779),
        b'c' => (&C, sum_c, 40.0, 690.0, 0.0022, 0.259, 0.903),
        b'd' => (&D, sum_d, 40.0, 690.0, 0.0029, 0.559, 0.939),
        b'e' => (&E, sum_e, 40.0, 710.0, 0.0032, 0.587, 0.918),
        b'f' => (&F, sum_f, 40.0, 730.0, 0.0064, 0.587, 0.891),
        b'g' => (&G, sum_g, 25.0, 660.0, 0.0027, 0.872, 0.971),
        b'h' => (&H, sum_h, 25.0, 660.0, 0.0032, 0.898, 0.983),
        b'i' => (&I, sum_i, 25.0, 660.0, 0.0041, 0.910, 0.984),
        b'j' => (&J, sum_j, 25.0, 670.0, 0.0054, 0.875, 0.964),
        b'k' => (&K, sum_k, 25.0, 680.0, 0.0077, 0.802, 0.935),
        b'l' => (&L, sum_l, 24.0, 650.0, 0.0026, 0.908, 0.989),
        b'm' => (&M, sum_m, 23.0, 650.0, 0.0028, 1.0, 0.997),
        b'n' => (&N, sum_n, 23.0, 650.0, 0.0031, 0.976, 0.997),
        b'o' => (&O, sum_o, 23.0, 650.0, 0.0034, 0.974, 0.996),
        b'p' => (&P, sum_p, 23.0, 650.0, 0.0041, 0.972, 0.997),
        b'q' => (&Q, sum_q, 23.0, 650.0, 0.0022, 0.848, 0.983),
        b'r' => (&R, sum_r, 23.0, 650.0, 0.0054, 0.874, 0.982),
        b's' => (&S, sum_s, 21.0, 640.0, 0.0022, 0.886, 0.990),
        b't' => (&T, sum_t, 20.0, 650.0, 0.0088, 0.803, 1.02),
        b'u' => (&U, sum_u, 23.0, 650.0, 0.0026, 0.902, 0.988),
        b'v' => (&V, sum_v, 23.0, 650.0, 0.0031, 0.960, 0.995),
        b'w' => (&W, sum_w, 23.0, 650.0, 0.0039, 0.959, 0.995),
        b'x' => (&X, sum_x, 23.0, 650.0, 0.0049, 0.910, 0.988),
        b'y' => (&Y, sum_y, 22.0, 650.0, 0.0031, 0.996, 0.994),
        _ => (&Z, sum_z, 22.0, 650.0, 0.0038, 0.993, 0.994),
    }
}

fn volume<const ONCE: bool>(p: f64, t: f64, letter: u8) -> f64 {
    // one jump for each row: in an arm the letter is known
    macro_rules! by_letter {
        ($($known:literal)*) => { match letter { $($known => volume_of::<ONCE>(p, t, $known),)* _ => volume_of::<ONCE>(p, t, b'z') } };
    }
    by_letter!(b'a' b'b' b'c' b'd' b'e' b'f' b'g' b'h' b'i' b'j' b'k' b'l' b'm' b'n' b'o' b'p' b'q' b'r' b's' b't' b'u' b'v' b'w' b'x' b'y')
}

#[inline(always)]
fn volume_of<const ONCE: bool>(p: f64, t: f64, letter: u8) -> f64 {
    let (rows, sum_once, ps, ts, vs, a, b) = equation(letter);
    let mut x = p / ps - a;
    let mut y = t / ts - b;
    match letter {
        b'f' | b'i' | b'j' | b'o' | b'p' => x = x.sqrt(),
        b'm' => y = y.sqrt().sqrt(),
        _ => {}
    }
    let v = if !ONCE {
        sum(x, y, rows)
    } else if usual(x) && usual(y) {
        sum_once(x, y)
    } else {
        looked_sum(x, y, rows)
    };
    match letter {
        // a look at this power can be spared: where it is lost the density is infinite, which is 5 too
        b'd' | b'f' | b'g' | b'h' | b'i' | b'j' | b'l' | b'q' | b's' | b'w' | b'y' | b'z' => power(v, 4) * vs,
        b'n' => exponential(v) * vs,
        _ => v * vs,
    }
}

// Letter, density and refusal of one row.
fn row<const ONCE: bool>(p: f64, t: f64) -> (u8, f64, u8) {
    if !p.is_finite() || !t.is_finite() {
        return (0, 0.0, 1);
    }
    if !(16.529..=100.0).contains(&p) {
        return (0, 0.0, 2);
    }
    if !(623.15..=863.15).contains(&t) {
        return (0, 0.0, 3);
    }
    if t > border(p) {
        return (0, 0.0, 8);
    }
    let (l, v) = if (t - 647.096).abs() < 1.0e-5 && (p - 22.064).abs() < 1.0e-15 {
        (0, 1.0 / 322.0)
    } else {
        let l = letter(p, t);
        (l, volume::<ONCE>(p, t, l))
    };
    let d = 1.0 / v;
    if !v.is_finite() || !d.is_finite() {
        (0, 0.0, 5)
    } else if !(100.0..=800.0).contains(&d) {
        (0, 0.0, 4)
    } else {
        (l, d, 0)
    }
}

unsafe fn columns<const ONCE: bool>(p: *const f64, t: *const f64, n: usize, letter: *mut u8, density: *mut f64, refusal: *mut u8) {
    for i in 0..n {
        let (l, d, k) = row::<ONCE>(*p.add(i), *t.add(i));
        *letter.add(i) = l;
        *density.add(i) = d;
        *refusal.add(i) = k;
    }
}

/// Each power worked for its term.
/// # Safety
/// Each pointer has n elements behind it.
#[no_mangle]
pub unsafe extern "C" fn plain_columns(p: *const f64, t: *const f64, n: usize, letter: *mut u8, density: *mut f64, refusal: *mut u8) {
    columns::<false>(p, t, n, letter, density, refusal)
}

/// Each power of a base worked once.
/// # Safety
/// Each pointer has n elements behind it.
#[no_mangle]
pub unsafe extern "C" fn once_columns(p: *const f64, t: *const f64, n: usize, letter: *mut u8, density: *mut f64, refusal: *mut u8) {
    columns::<true>(p, t, n, letter, density, refusal)
}

/// Where the bases of a letter's table are 0, for rows made on purpose: its p, or its T.
#[no_mangle]
pub extern "C" fn zero_base(letter: u8, of_t: bool) -> f64 {
    let (_, _, ps, ts, _, a, b) = equation(letter);
    if of_t { ts * b } else { ps * a }
}
