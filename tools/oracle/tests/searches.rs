//! (p,v), (T,h) and (T,s): places that look odd and are right, each with its count of trials.
#![allow(non_snake_case)]

use oracle::forms::checked::r3;
use oracle::num::{count, Num};
use oracle::searches::*;

fn T_and_p(p: f64, v: f64) -> Result<(f64, f64, u32), u8> {
    pv_record(p, v).map(|(r, trials)| (r[0], r[3], trials))
}

fn d_of(found: Result<([f64; 10], u32), u8>) -> Result<(f64, u32), u8> {
    found.map(|(r, trials)| (r[1], trials))
}

#[test]
fn pressure_and_volume() {
    assert_eq!(
        T_and_p(50.0, 0.002),
        Ok((697.54983343387, 49.99999999999887, 5))
    );
    assert_eq!(pv2T_reg3(50.0, 0.002), Ok((697.54983343387, 5)));
    // T is in range, and its p above 100
    assert_eq!(pv2T_reg3(100.0, 0.001533061262553137), Err(4));
    // both start points are one
    assert_eq!(
        pv2T_reg3(16.529164252604808, 0.0013157015192282405),
        Err(15)
    );
    assert_eq!(
        pv_record(24.99, 0.0068327097557721594).map(|r| r.0[2]),
        Ok(0.00683270975577216)
    );
}

/// The range of v is that of d: 1/v is worked before it is tested, and infinite is outside.
#[test]
fn range_of_the_volume() {
    assert_eq!(pv2T_reg3(f64::NAN, 0.0), Err(1));
    assert_eq!(pv2T_reg3(101.0, f64::INFINITY), Err(1));
    assert_eq!(pv2T_reg3(101.0, 0.0), Err(2));
    for v in [
        0.0,
        -0.0,
        5e-324,
        -0.002,
        0.010000000000000002,
        0.0012499999999999998,
    ] {
        assert_eq!(pv2T_reg3(50.0, v), Err(3), "{v:?}");
    }
    // inside; the T found is not
    for v in [0.01, 0.00125] {
        assert_eq!(pv2T_reg3(50.0, v), Err(4), "{v:?}");
    }
}

#[test]
fn temperature_and_enthalpy() {
    assert_eq!(d_of(Th_record(700.0, 2500.0)), Ok((235.3422999307922, 7)));
    // the start point at 100 MPa has that h
    assert_eq!(Th_record(700.0, 1924.8708156845616).map(|r| r.1), Ok(0));
    // the start pressure is 100.00000000002728, the start density negative
    assert_eq!(d_of(Th_record(863.15, 2820.0)), Ok((381.83445187797275, 5)));
    // it is 100, so that both start points are one
    assert_eq!(Th2d_reg3(863.1499999999539, 2500.0), Err(15));
    // a two-phase state
    assert_eq!(d_of(Th_record(640.0, 2100.0)), Ok((292.09255280798175, 9)));
    assert!(Th_record(640.0, 2100.0).unwrap().0[8] < 0.0);
}

/// 4 of the proposal, and 4 of the record where the test has accepted.
#[test]
fn outside_the_box() {
    assert_eq!(Th2d_reg3(716.7091396139051, 1523.5036123394186), Err(4));
    assert_eq!(
        Th2d_reg3(859.1136650031038, 2620.270705157618),
        Ok((555.121869599535, 8))
    );
    assert_eq!(Th_record(859.1136650031038, 2620.270705157618), Err(4));
    assert_eq!(Th2d_reg3(863.15, 2812.952116123153).map(|d| d.1), Ok(0));
    assert_eq!(Th_record(863.15, 2812.952116123153), Err(4));
}

/// The logarithm of a negative start density, at every s.
#[test]
fn temperature_and_entropy_at_the_end() {
    for i in 0..=100 {
        let s = 3.3 + 0.02 * f64::from(i);
        assert_eq!(Ts2d_reg3(863.15, s), Err(5));
        assert_eq!(Ts2d_reg3(f64::from_bits(0x408af9333333319f), s), Err(5));
        assert_ne!(Ts2d_reg3(f64::from_bits(0x408af9333333319e), s), Err(5));
    }
}

/// Searches that end with the last trial that they may make; then the test refuses what they propose.
#[test]
fn to_the_last_trial() {
    let (T, h) = (856.2225878410742, 1575.9363733204323);
    assert_eq!(count(|| r3::Th2d_reg3(Num(T), Num(h))).1, 20002);
    assert_eq!((Th2d_reg3(T, h), Th_record(T, h)), (Err(15), Err(15)));
    let (T, s) = (743.5006480648088, 3.3230225561443656);
    assert_eq!(count(|| r3::Ts2d_reg3(Num(T), Num(s))).1, 20002);
    assert_eq!((Ts2d_reg3(T, s), Ts_record(T, s)), (Err(15), Err(15)));
}
