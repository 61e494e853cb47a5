//! Points to check and the order of refusals, on the oracle's entry points.
//! Beside them mistakes that are easy to make.

#![allow(non_snake_case)]

use oracle::entries::*;
use oracle::lines;
use oracle::ranges::outside;

#[test]
fn letters() {
    let points = [
        (24.0, 640.0, 'c'),
        (24.0, 650.0, 'g'),
        (24.0, 653.5, 'h'),
        (24.0, 655.0, 'i'),
        (24.0, 660.0, 'j'),
        (24.0, 670.0, 'k'),
        (23.2, 648.0, 'l'),
        (40.0, 630.0, 'c'),
        (50.0, 700.0, 'a'),
        (50.0, 720.0, 'b'),
        (18.0, 625.0, 'c'),
        (18.0, 635.8209528593616, 't'),
    ];
    for (p, T, letter) in points {
        assert_eq!(sub_region3_pT(p, T), Ok(letter), "({p}, {T})");
    }
    assert_eq!(T_atRegionBoundary(22.064, "3ef"), Ok(647.096));
}

/// The border with region 2: T equal to it is accepted, the next f64 above is 8, after 1, 2 and 3.
#[test]
fn the_border() {
    let at_18 = 635.8209528593616;
    assert_eq!(B23_p2T(18.0), Ok(at_18));
    assert_eq!(B23_p2T(100.0), Ok(863.1499999999929));
    assert_eq!((B23_p2T(101.0), B23_T2p(623.149)), (Err(2), Err(2)));
    let points = [
        (18.0, 640.0, Err(8)),
        (18.0, at_18, Ok('t')),
        (18.0, 635.8209528593617, Err(8)),
        (24.0, 670.0, Ok('k')),
        (100.0, 863.15, Err(8)),
        (100.0, 863.1499999999929, Ok('b')),
        (16.529, 623.15, Err(8)),
        (16.529164252604804, 623.15, Err(8)),
        (16.529164252604808, 623.15, Ok('t')),
        (16.529164252604808, 623.1500000000001, Err(8)),
        (22.064, 647.096, Ok('z')),
        (24.0, 623.149, Err(3)),
        (f64::NAN, 900.0, Err(1)),
        (101.0, 900.0, Err(2)),
    ];
    for (p, T, letter) in points {
        assert_eq!(sub_region3_pT(p, T), letter, "({p}, {T})");
        let refused = letter.err();
        assert_eq!(column_row(p, T).err(), refused, "({p}, {T})");
        // at p = 100 the p of the found state lies above it
        let of_record = pT_record(p, T).err().filter(|&k| k != 4 || p < 100.0);
        assert_eq!(of_record, refused, "({p}, {T})");
    }
    assert_eq!(pT2v_reg3(18.0, 640.0), Ok(0.00908693247290276));
    assert_eq!(pT_record(100.0, 679.5125318168051), Err(4));
}

#[test]
fn the_letters_program() {
    let rows = [24.0, 650.0, 24.0, 655.0, 101.0, 650.0f64];
    let mut input: Vec<u8> = rows.iter().flat_map(|x| x.to_le_bytes()).collect();
    let mut wrote = Vec::new();
    lines::write(&input, &mut wrote).unwrap();
    assert_eq!(wrote, b"1 g 0\n2 i 0\n3 - 2\nrows 3 left 0\n");
    input.truncate(31);
    wrote.clear();
    lines::write(&input, &mut wrote).unwrap();
    assert_eq!(wrote, b"1 g 0\nrows 1 left 15\n");
    wrote.clear();
    lines::write(&[], &mut wrote).unwrap();
    assert_eq!(wrote, b"rows 0 left 0\n");
}

#[test]
fn order_of_refusals() {
    assert!(pT2v_reg3(24.0, 623.15).is_ok());
    assert_eq!(pT2v_reg3(24.0, 623.149), Err(3));
    assert_eq!(pT2v_reg3(f64::NAN, 900.0), Err(1));
    assert_eq!(pT2v_reg3(101.0, 900.0), Err(2));
    assert_eq!(pT2v_reg3(101.0, f64::NAN), Err(1));
    assert_eq!(Td_property(f64::NAN, 900.0, 1), Err(6));
    assert_eq!(Td_property(f64::NAN, 900.0, 0), Err(1));
    assert_eq!(p_saturation(647.0960000000001), Err(2));
    assert_eq!(pT2v_sat_reg3(22.1, 640.0, true), Err(2));
    assert_eq!(pT2v_sat_reg3(20.0, 650.0, true), Err(3));
}

/// The letter choice does not know the critical point; volume and column run do.
#[test]
fn critical_point() {
    let v = 1.0 / 322.0;
    assert!(sub_region3_pT(22.064, 647.096).is_ok());
    assert_eq!(pT2v_reg3(22.064, 647.096), Ok(v));
    assert_eq!(column_row(22.064, 647.096), Ok((0, 1.0 / v)));
}

/// A formula that works p out tests it at that place, and a formula that does not works on.
#[test]
fn p_of_a_property() {
    let (T, d) = (863.15, 800.0);
    assert_eq!(Td_record(T, d), Err(4));
    for number in [0, 11, 14, 31, 32, 34, 35] {
        assert_eq!(Td_property(T, d, number), Err(4), "property {number}");
    }
    for number in [
        3, 4, 5, 6, 7, 8, 9, 10, 12, 13, 17, 18, 19, 20, 21, 22, 23, 33,
    ] {
        assert!(Td_property(T, d, number).is_ok(), "property {number}");
    }
}

/// The caller's p is not echoed: the record's is worked out from the state, but in (h,s).
#[test]
fn p_of_a_record() {
    let record = pT_record(24.0, 650.0).unwrap();
    assert_ne!(record[3], 24.0);
    assert!(!outside(record[3], (23.99, 24.01)));
    assert_eq!(record[2], pT2v_reg3(24.0, 650.0).unwrap());
    let record = hs_record(2000.0, 4.2).unwrap();
    assert_eq!(record[3], hs2p_reg3(2000.0, 4.2).unwrap());
    assert_eq!(record[0], ph2T_reg3(record[3], 2000.0).unwrap());
}
