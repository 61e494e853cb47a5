// Over the stand-in archive of stand_in.c, which answers 200 beside fair numbers, every call of the crate is an error.
use region3::*;

#[test]
#[ignore = "needs the archive of tests/stand_in.c: bindings/test makes it and runs this"]
fn an_unknown_number_is_an_error() {
    let (p, t, d, h, s) = (MPa(24.0), Kelvin(650.0), KgPerM3(500.0), KJPerKg(2000.0), KJPerKgK(4.2));
    let unknown = Refusal::Other(200);
    assert_eq!(td(t, d), Err(unknown));
    assert_eq!(pt(p, t), Err(unknown));
    assert_eq!(ph(p, h), Err(unknown));
    assert_eq!(ps(p, s), Err(unknown));
    assert_eq!(hs(h, s), Err(unknown));
    let v = M3PerKg(0.002);
    assert_eq!(pv(p, v), Err(unknown));
    assert_eq!(th(t, h), Err(unknown));
    assert_eq!(ts(t, s), Err(unknown));
    assert_eq!(pv_to_t(p, v), Err(unknown));
    assert_eq!(th_to_d(t, h), Err(unknown));
    assert_eq!(ts_to_d(t, s), Err(unknown));
    assert_eq!(property(Property::OH, t, d), Err(unknown));
    assert_eq!(cp_w(t, d), CpW { cp: Err(unknown), w: Err(Refusal::Other(201)) });
    assert_eq!(letter(p, t), Err(unknown));
    assert_eq!(p_saturation(Kelvin(640.0)), Err(unknown));
    assert_eq!(t_saturation(MPa(20.0)), Err(unknown));
    assert_eq!(p_border(t), Err(unknown));
    assert_eq!(t_border(p), Err(unknown));
    assert_eq!(power(2.0, 3), Err(unknown));
    assert_eq!(root(2.0), Err(unknown));
    assert_eq!(logarithm(2.0), Err(unknown));
    assert_eq!(exponential(2.0), Err(unknown));
    assert_eq!(read(&[1]), Ok((Pair::PT, Err(unknown))));
    assert_eq!(read(&[]), Err(unknown));
    assert_eq!(read(&[9]), Err(unknown));
    assert_eq!(write(Point::PT(p, t), &mut [0; 22]), Err(unknown));
    assert_eq!(columns(&[p], &[t], &mut [0], &mut [d], &mut [0]), Err(unknown));
}
