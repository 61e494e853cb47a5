//! What the Rust does that the documents do not: each finding with the input that shows it.
//! `cargo test --test findings -- --nocapture` prints both values of each.
#![allow(non_snake_case)]

use oracle::direct;
use oracle::entries::*;
use oracle::forms::plain::common::{property_id::*, Tt, PC_WATER, P_TOL, SC_WATER};
use oracle::forms::{plain, ruled};
use oracle::make::Rows;
use oracle::row::Row;
use oracle::rules;
use std::hint::black_box;

fn rows(entry: u8, count: usize) -> impl Iterator<Item = Row> {
    Rows::new(3, &[entry]).take(count)
}

fn units(a: f64, b: f64) -> u64 {
    a.to_bits().abs_diff(b.to_bits())
}

fn property(T: f64, d: f64, number: i32) -> f64 {
    plain::r3::Td_thermal_reg3(T, d, number)
}

fn near(a: f64, b: f64, relative: f64) -> bool {
    ((a - b) / b).abs() <= relative
}

/// `pT2v_3l` leaves the last of its 43 rows out.
#[test]
fn letter_l_drops_a_term() {
    let whole = |p: f64, T: f64| {
        let v = plain::r3::pT2v_3l(p, T);
        let term = 6.42794932373694e32 * (p / 24.0 - 0.908).powi(14) * (T / 650.0 - 0.989).powi(10);
        (v, ((v / 0.0026).powf(0.25) + term).powi(4) * 0.0026)
    };
    let (rust, full) = whole(23.0, 646.0);
    println!("v3l(23, 646): {rust:.9e}, with all 43 rows {full:.9e}");
    assert_eq!(format!("{rust:.9e}"), "2.062374647e-3");
    assert_eq!(format!("{full:.9e}"), "2.062374674e-3");
    let (rust, full) = whole(23.5, 651.5700016914416);
    println!(
        "v3l(23.5, 651.57): {rust:e}, with all 43 rows {full:e}, {:.2} percent",
        100.0 * (full - rust) / full
    );
    assert!(near(rust, full * (1.0 - 0.041), 1e-3));
    assert_eq!(sub_region3_pT(23.5, 651.5700016914416), Ok('l'));
}

/// S05rev prints 15 digits for the coefficients of 3z, the Rust has 14.
/// In exact arithmetic that is at most 1.4e-10 of v; rounding in the f64 sums, which cancel, adds to
/// what is measured here.
#[test]
fn letter_z_has_14_digits() {
    const PRINTED: [(i32, i32, f64); 23] = [
        (-8, 3, 0.244007892290650e-10),
        (-6, 6, -0.463057430331242e7),
        (-5, 6, 0.728803274777712e10),
        (-5, 8, 0.327776302858856e16),
        (-4, 5, -0.110598170118409e10),
        (-4, 6, -0.323899915729957e13),
        (-4, 8, 0.923814007023245e16),
        (-3, -2, 0.842250080413712e-12),
        (-3, 5, 0.663221436245506e12),
        (-3, 6, -0.167170186672139e15),
        (-2, 2, 0.253749358701391e4),
        (-1, -6, -0.819731559610523e-20),
        (0, 3, 0.328380587890663e12),
        (1, 1, -0.625004791171543e8),
        (2, 6, 0.803197957462023e21),
        (3, -6, -0.204397011338353e-10),
        (3, -2, -0.378391047055938e4),
        (6, -6, 0.972876545938620e-2),
        (6, -5, 0.154355721681459e2),
        (6, -4, -0.373962862928643e4),
        (6, -1, -0.682859011374572e11),
        (8, -8, -0.248488015614543e-3),
        (8, -4, 0.394536049497068e7),
    ];
    let mut largest = (0.0, 0.0, 0.0);
    let mut count = 0;
    for row in rows(8, 200_000).filter(|row| sub_region3_pT(row.first, row.second) == Ok('z')) {
        let (p, T) = (row.first, row.second);
        let sum = plain::algo::poly_powi(p / 22.0 - 0.993, T / 650.0 - 0.994, &PRINTED);
        let (printed, rust) = (sum.powf(4.0) * 0.0038, plain::r3::pT2v_3z(p, T));
        let relative = ((rust - printed) / printed).abs();
        if relative > largest.0 {
            largest = (relative, p, T);
        }
        count += 1;
    }
    println!("v3z: {largest:?} is the largest difference of {count} points");
    assert!(largest.0 > 1e-10 && largest.0 < 2e-10 && count > 1000);
}

/// Strict signs at a boundary give it to the letter above.
#[test]
fn strict_signs() {
    let cases = [
        (22.146122500502763, "3ef", 'v', 'w'),
        (22.3, "3wx", 'w', 'x'),
        (22.0, "3uv", 'u', 'y'),
        (22.0, "3wx", 'z', 'x'),
    ];
    for (p, name, below, on) in cases {
        let T = T_atRegionBoundary(p, name).unwrap();
        let under = f64::from_bits(T.to_bits() - 1);
        println!("p {p}: {name} is {T:?}, {on} there and {below} a unit below");
        assert_eq!(sub_region3_pT(p, T), Ok(on));
        assert_eq!(sub_region3_pT(p, under), Ok(below));
    }
    assert_eq!(
        T_atRegionBoundary(22.146122500502763, "3ef"),
        Ok(647.4021434844827)
    );
    // where the sign is not strict, the boundary belongs to the letter below
    let T = T_atRegionBoundary(22.08, "3ef").unwrap();
    assert_eq!(sub_region3_pT(22.08, T), Ok('y'));
}

/// The splits on the saturation line have fewer digits than the letter choice.
#[test]
fn splits_of_the_saturation_line() {
    // p, phase, the letter that pT2v_sat_reg3 takes, the one that the letter choice takes there
    let cases = [
        (21.04338, false, 's', 'u'),
        (21.93161, false, 'y', 'u'),
        (21.90093, true, 'z', 'x'),
        (19.008805, false, 's', 'c'),
        (21.04338, true, 'r', 'x'),
    ];
    for (p, steam, line, choice) in cases {
        let T = T_saturation(p).unwrap();
        let T = if steam {
            f64::from_bits(T.to_bits() + 1)
        } else {
            T
        };
        let taken = pT2v_sat_reg3(p, T, steam).unwrap();
        let by = |letter| pT2v_3subreg(p, T, letter).unwrap();
        println!(
            "p {p} T {T:?}: {line} {:e} on the line, {choice} {:e} by choice",
            by(line),
            by(choice)
        );
        assert_eq!(taken.to_bits(), by(line).to_bits());
        assert_eq!(sub_region3_pT(p, T), Ok(choice));
    }
}

#[test]
fn exergy() {
    let (T, d) = (750.0, 500.0);
    let (rust, sound) = (
        property(T, d, OE),
        property(T, d, OH) - Tt * property(T, d, OS),
    );
    println!("OE(750, 500): {rust:.3}, h - Tt*s is {sound:.3}");
    assert_eq!(format!("{rust:.3} {sound:.3}"), "928.679 1037.740");
}

/// (dh/dp) at constant T, by a finite difference along T = 750.
#[test]
fn isothermal_throttling() {
    let (T, d, step) = (750.0, 500.0, 1e-3);
    let rise = |number| property(T, d + step, number) - property(T, d - step, number);
    let (rust, sound) = (property(T, d, OIJTC), rise(OH) / rise(OP));
    println!("OIJTC(750, 500): {rust:e}, a finite difference gives {sound:e}");
    assert!(near(rust, -0.0046227, 1e-4) && near(sound, 1000.0 * rust, 1e-6));
}

/// The fugacity coefficient is exp(g/RT) as it stands. Of a dilute vapour it should be near 1.
#[test]
fn fugacity() {
    for (T, d) in [(750.0, 500.0), (863.15, 100.0)] {
        let (fi, fu) = (property(T, d, OFI), property(T, d, OFU));
        let (g, p) = (property(T, d, OG), property(T, d, OP));
        println!("OFI({T}, {d}): {fi:e}, OFU {fu:e}, p {p}, g {g}");
        assert_eq!(fi, (g / 0.461526 / T).exp());
        assert_eq!(fu, p * fi);
    }
}

/// P_TOL is below half a unit of 22.064.
#[test]
fn critical_answer() {
    let (up, down) = (PC_WATER.next_up(), PC_WATER.next_down());
    assert!(up - PC_WATER > P_TOL && PC_WATER - down > P_TOL);
    let at = |p| pT2v_reg3(p, 647.096).unwrap();
    let z = pT2v_3subreg(22.064, 647.096, 'z').unwrap();
    println!(
        "22.064: {:e}, a unit above {:e}, a unit below {:e}, 3z {z:e}",
        at(PC_WATER),
        at(up),
        at(down)
    );
    assert_eq!(at(PC_WATER), 1.0 / 322.0);
    assert_ne!(at(up), 1.0 / 322.0);
    assert_ne!(at(down), 1.0 / 322.0);
    assert_eq!(format!("{z:.7}"), "0.0031561");
}

/// The compiler folds p_saturation(643.15) of the untouched crate by another power.
#[test]
fn folded_constant() {
    let rule = p_saturation(643.15).unwrap();
    let run = plain::r4::p_saturation(black_box(643.15));
    println!(
        "p_saturation(643.15): rule {:016x}, untouched at run time {:016x}",
        rule.to_bits(),
        run.to_bits()
    );
    assert_eq!(rule.to_bits(), 0x40350b1a1ee0b6d0);
    let p = f64::from_bits(rule.to_bits() + 1);
    let untouched = direct::plain::letter(p, 642.0) as char;
    println!(
        "a unit higher, T 642: rule {:?}, untouched {untouched}",
        sub_region3_pT(p, 642.0)
    );
    assert_eq!(sub_region3_pT(p, 642.0), Ok('q'));
    assert!(
        matches!(untouched, 's' | 'q'),
        "s where it is folded, q where it is not"
    );
}

/// Near saturation the untouched T_saturation differs, and with it a letter.
#[test]
fn saturation_temperature() {
    let (p, T) = (
        f64::from_bits(0x403087b94ef06f01),
        f64::from_bits(0x4083793d5d79603c),
    );
    let untouched = direct::plain::letter(p, T) as char;
    println!(
        "({p:?}, {T:?}): rule {:?}, untouched {untouched}",
        sub_region3_pT(p, T)
    );
    assert_eq!(sub_region3_pT(p, T), Ok('c'));
    assert_eq!(untouched, 't');
    let apart = |p: f64| units(ruled::r4::T_saturation(p), plain::r4::T_saturation(p));
    let line = rows(6, 400_000)
        .map(|row| row.first)
        .filter(|&p| T_saturation(p).is_ok());
    let largest = line.map(|p| (apart(p), p)).max_by_key(|a| a.0).unwrap();
    println!(
        "T_saturation: rule and untouched are up to {} units apart, at p {:?}",
        largest.0, largest.1
    );
    assert!(largest.0 > 300);
}

/// h next above 1906.8 gives base 0, and 3b has negative powers of it.
#[test]
fn base_zero() {
    let h = f64::from_bits(0x409dcb3333333334);
    let s = SC_WATER.next_up();
    println!(
        "hs2p({h:?}, {s:?}): {:?}, untouched {:?}",
        hs2p_reg3(h, s),
        plain::r3::hs2p_reg3(h, s)
    );
    assert_eq!(h / 2800.0 - 0.681, 0.0);
    assert_eq!(hs2p_reg3(h, s), Err(5));
    assert_eq!(hs_record(h, s), Err(5));
    assert_ne!(hs2p_reg3(h.next_down(), s), Err(5));
}

#[test]
fn record_at_the_end_of_p() {
    let (p, T) = (100.0, 679.5125318168051);
    let (_, d) = column_row(p, T).unwrap();
    let found = plain::r3::Td2p_reg3(T, d);
    println!(
        "({p}, {T:?}): column d {d:?}, the record's p {found:?}, the record {:?}",
        pT_record(p, T)
    );
    assert_eq!(format!("{found:.6}"), "100.000118");
    assert_eq!(pT_record(p, T), Err(4));
    let refused = |p: f64| {
        let even = (0..=4000).map(|i| 623.15 + (863.15 - 623.15) * f64::from(i) / 4000.0);
        let states = even.filter(|&T| pT_record(p, T) == Err(4)).count();
        println!("p = {p}: {states} of 4001 evenly spaced T are refused with 4");
        states
    };
    assert_eq!([100.0, 99.999, 99.99].map(refused), [2053, 429, 0]);
    assert_eq!(pT_record(100.0, 863.15), Err(8));
}

/// A power below the normal range, which the Rust goes on with: 5. At p = 23 the base is 0, which has
/// lost nothing.
#[test]
fn powers_below_the_normal_range() {
    let (p, T) = (22.999999999833125, 650.2253224955537);
    println!(
        "pT2v_reg3({p:?}, {T:?}): {:?}, untouched {:?}",
        pT2v_reg3(p, T),
        plain::r3::pT2v_reg3(p, T)
    );
    assert_eq!(plain::r3::pT2v_reg3(p, T), 0.002750714851315062);
    assert_eq!(pT2v_reg3(p, T), Err(5));
    assert_eq!(pT_record(p, T), Err(5));
    assert_eq!(column_row(p, T), Err(5));
    assert!(pT2v_reg3(23.0, T).is_ok());
}

#[test]
fn two_phases() {
    let record = Td_record(640.0, 300.0).unwrap();
    println!("(640, 300): p {} cp {}", record[3], record[8]);
    assert!(record[8] < 0.0);
}

#[test]
fn saturation_below_the_box() {
    let T = T_saturation(16.529).unwrap();
    println!("T_saturation(16.529): {T:?}");
    assert_eq!(format!("{T:.5}"), "623.14919");
}

/// The box reaches far beyond region 3. (p,T) is refused with 8 there, where the volume alone is still
/// worked, by an equation whose state has another p. (p,h) and (h,s) know no border: where d and p
/// come out in range the answer is accepted, whatever it is.
#[test]
fn beyond_region_3() {
    let (p, T) = (18.048, 703.054);
    assert_eq!((pT_record(p, T), sub_region3_pT(p, T)), (Err(8), Err(8)));
    let record = Td_record(T, 1.0 / pT2v_reg3(p, T).unwrap()).unwrap();
    println!("(p,T) ({p:?}, {T:?}): d {} and p {}", record[1], record[3]);
    assert_eq!(format!("{:.2}", record[3]), "96.26");
    let (p, h) = (17.13, 2882.13);
    let record = ph_record(p, h).unwrap();
    println!("(p,h) ({p:?}, {h:?}): p {} and h {}", record[3], record[4]);
    assert_eq!(
        (format!("{:.2}", record[3]), format!("{:.1}", record[4])),
        ("41.63".into(), "3305.8".into())
    );
    let (h, s) = (1562.09, 5.0092);
    let record = hs_record(h, s).unwrap();
    println!("(h,s) ({h:?}, {s:?}): h {} and s {}", record[4], record[5]);
    assert_eq!(format!("{:.4}", record[5]), "3.4618");
}

/// OPC and OALFAP are one quantity, (dp/dT)/p at constant v, by two formulas.
#[test]
fn one_quantity_twice() {
    let (mut largest, mut count) = (0.0f64, 0);
    for row in rows(20, 50_000).filter(|row| Td_record(row.first, row.second).is_ok()) {
        let (T, d) = (row.first, row.second);
        let (a, b) = (property(T, d, OPC), property(T, d, OALFAP));
        largest = largest.max(((a - b) / a).abs());
        count += 1;
    }
    println!("OPC and OALFAP: {largest:e} apart at most, {count} states");
    let (T, d) = (833.8411375815019, 143.4983399588724);
    let (a, b) = (property(T, d, OPC), property(T, d, OALFAP));
    println!(
        "({T:?}, {d:?}): {a:?} and {b:?}, {:e} apart",
        ((a - b) / a).abs()
    );
    assert!(near(a, b, 1.1e-15) && !near(a, b, 1e-15));
    assert!(largest < 1e-9 && count > 10_000);
}

/// powi is the power rule; ln is within a unit of the rule on the box's p; exp is not near its ends.
#[test]
fn rules_and_std() {
    for row in rows(1, 1_000_000) {
        if let Ok(r) = rules::power(row.first, row.whole) {
            assert_eq!(r.to_bits(), row.first.powi(row.whole).to_bits(), "{row:?}");
        }
    }
    let inside = rows(7, 400_000)
        .map(|row| row.first)
        .filter(|p| (16.529..=100.0).contains(p));
    let ln = inside
        .map(|p| units(rules::logarithm(p).unwrap(), p.ln()))
        .max()
        .unwrap();
    let all = rows(4, 1_000_000).map(|row| row.first);
    let exp = all.filter_map(|x| Some((units(rules::exponential(x).ok()?, x.exp()), x)));
    let exp = exp.max_by_key(|a| a.0).unwrap();
    println!(
        "ln: {ln} units on 16.529 to 100; exp: {} units at {:?}",
        exp.0, exp.1
    );
    assert!(ln <= 1 && exp.0 > 500);
}

/// 5 comes from calls by letter, from base 0 in (h,s), and from powers that have lost their digits: in (p,T)
/// those of p / 23 - 1 in letter m.
#[test]
fn where_5_comes_from() {
    for entry in [10, 21, 30] {
        for row in rows(entry, 100_000).filter(|row| answer(row).refusal == 5) {
            let near = row.first - 23.0;
            assert!(
                near != 0.0 && near.abs() < 2.4e-10,
                "entry {entry}: {row:?}"
            );
        }
    }
    for entry in [7, 8, 11, 12, 13, 14, 15, 20, 22, 23, 25, 34] {
        let refused = rows(entry, 100_000)
            .filter(|row| answer(row).refusal == 5)
            .count();
        assert_eq!(refused, 0, "entry {entry}");
    }
    let mut letters: Vec<char> = rows(9, 400_000)
        .filter(|row| answer(row).refusal == 5)
        .map(|row| row.whole as u8 as char)
        .collect();
    letters.sort();
    letters.dedup();
    println!("5 by letter: {letters:?}");
    for letter in ['n', 'f', 'i', 'j', 'm', 'o', 'p'] {
        assert!(letters.contains(&letter));
    }
}
