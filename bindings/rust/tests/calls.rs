// Every call of the crate: published values, refusals, and the columns' checks. The C test has the published tables whole.
use region3::*;

// x, rounded to the digits of a printed value, is that value
fn printed(x: f64, value: f64, digits: i32) -> bool {
    let unit = 10f64.powi(value.log10().floor() as i32 - digits + 1);
    (x - value).abs() <= 0.5000001 * unit
}

#[test]
fn the_record_of_r7_97_table_33() {
    let r = td(Kelvin(650.0), KgPerM3(500.0)).unwrap();
    let fields = [r.p.0, r.h.0, r.u.0, r.s.0, r.cp.0, r.w];
    let values = [2.55837018e+01, 1.86343019e+03, 1.81226279e+03, 4.05427273, 1.38935717e+01, 5.02005554e+02];
    assert!(fields.iter().zip(values).all(|(&x, v)| printed(x, v, 9)), "{fields:?}");
    assert_eq!((r.T, r.d, r.v), (Kelvin(650.0), KgPerM3(500.0), 0.002));
}

#[test]
fn the_pairs() {
    assert!(printed(pt(MPa(50.0), Kelvin(630.0)).unwrap().v, 1.470853100e-03, 10));
    let by_h = ph(MPa(50.0), KJPerKg(2000.0)).unwrap();
    assert!(printed(by_h.T.0, 6.905718338e+02, 10) && printed(by_h.v, 1.908139035e-03, 10));
    let by_s = ps(MPa(50.0), KJPerKgK(3.6)).unwrap();
    assert!(printed(by_s.T.0, 6.297158726e+02, 10) && printed(by_s.v, 1.469680170e-03, 10));
    assert!(printed(hs(KJPerKg(2000.0), KJPerKgK(4.2)).unwrap().p.0, 4.540873468e+01, 10));
}

#[test]
fn properties_by_kind_and_by_number() {
    let (t, d) = (Kelvin(750.0), KgPerM3(500.0));
    let r = td(t, d).unwrap();
    assert_eq!(property(Property::OH, t, d), Ok(r.h.0));
    assert_eq!(property_by_number(10, t, d), Ok(r.w));
    assert_eq!(property_by_number(1, t, d), Err(Refusal::Property));
    assert!(Property::ALL.iter().all(|&p| Property::of(p.number()) == Some(p) && property(p, t, d).is_ok()));
    let known = |n: &i32| property_by_number(*n, t, d) != Err(Refusal::Property);
    assert!((-1000..1000).filter(known).eq(Property::ALL.iter().map(|p| p.number())));
    assert_eq!(property_by_number(-1, Kelvin(f64::NAN), d), Err(Refusal::Property));
}

#[test]
fn cp_and_w_together_are_the_properties_asked_one_by_one() {
    for i in 0..200 {
        let (t, d) = (Kelvin(623.15 + 1.2 * f64::from(i)), KgPerM3(100.0 + 3.5 * f64::from(37 * i % 200)));
        let both = cp_w(t, d);
        assert_eq!(both.cp.map(|cp| cp.0), property(Property::OCP, t, d), "{t:?} {d:?}");
        assert_eq!(both.w, property(Property::OW, t, d), "{t:?} {d:?}");
    }
    let both = cp_w(Kelvin(650.0), KgPerM3(500.0));
    assert!(printed(both.cp.unwrap().0, 13.8935717, 9) && printed(both.w.unwrap(), 502.005554, 9));
    let refused = |k| CpW { cp: Err(k), w: Err(k) };
    assert_eq!(cp_w(Kelvin(f64::NAN), KgPerM3(99.0)), refused(Refusal::NotFinite));
    assert_eq!(cp_w(Kelvin(900.0), KgPerM3(99.0)), refused(Refusal::First));
    assert_eq!(cp_w(Kelvin(650.0), KgPerM3(99.0)), refused(Refusal::Second));
}

#[test]
fn searched_states() {
    let found = pv(MPa(50.0), M3PerKg(0.002)).unwrap();
    assert_eq!((found.found.T.0, found.found.p.0, found.trials), (697.54983343387, 49.99999999999887, 5));
    assert_eq!(pv_to_t(MPa(50.0), M3PerKg(0.002)), Ok(Searched { found: Kelvin(697.54983343387), trials: 5 }));
    assert_eq!(td(found.found.T, found.found.d), Ok(found.found));
    assert_eq!(pv(MPa(50.0), M3PerKg(0.0)), Err(Refusal::Second));
    assert_eq!(pv(MPa(100.0), M3PerKg(0.001533061262553137)), Err(Refusal::State));
    assert_eq!(pv(MPa(16.529164252604808), M3PerKg(0.0013157015192282405)), Err(Refusal::Unfound));
    let d = |s: Searched<Record>| (s.found.d.0, s.trials);
    assert_eq!(th(Kelvin(700.0), KJPerKg(2500.0)).map(d), Ok((235.3422999307922, 7)));
    assert_eq!(th(Kelvin(640.0), KJPerKg(2100.0)).map(d), Ok((292.09255280798175, 9)));
    assert_eq!(th(Kelvin(637.0), KJPerKg(2110.0)).map(d), Ok((277.4177712016782, 10)));
    assert_eq!(ts(Kelvin(625.0), KJPerKgK(4.36)).map(d), Ok((271.0344006817296, 10)));
    assert_eq!(th_to_d(Kelvin(637.0), KJPerKg(2110.0)).map(|s| s.trials), Ok(10));
    assert_eq!(ts_to_d(Kelvin(625.0), KJPerKgK(4.36)).map(|s| s.trials), Ok(10));
    let (t, h) = (Kelvin(859.1136650031038), KJPerKg(2620.270705157618));
    assert_eq!(th_to_d(t, h), Ok(Searched { found: KgPerM3(555.121869599535), trials: 8 }));
    assert_eq!(th(t, h), Err(Refusal::State));
    assert_eq!(th(Kelvin(856.2225878410742), KJPerKg(1575.9363733204323)), Err(Refusal::Unfound));
    assert_eq!(ts(Kelvin(863.15), KJPerKgK(4.5)), Err(Refusal::Step));
    assert_eq!(ts_to_d(Kelvin(743.5006480648088), KJPerKgK(3.3230225561443656)), Err(Refusal::Unfound));
    let state = td(Kelvin(700.0), KgPerM3(300.0)).unwrap();
    let again = ts(state.T, state.s).unwrap();
    assert!((again.found.s.0 - state.s.0).abs() <= 1e-6 && again.trials > 0);
    assert_eq!(ts_to_d(state.T, state.s), Ok(Searched { found: again.found.d, trials: again.trials }));
}

#[test]
fn the_archive_has_the_version_of_the_crate() {
    let parts: Vec<u32> = env!("CARGO_PKG_VERSION").split('.').map(|part| part.parse().unwrap()).collect();
    assert_eq!(library_version(), 10000 * parts[0] + 100 * parts[1] + parts[2]);
}

#[test]
fn the_rules() {
    assert_eq!(power(2.0, -3), Ok(0.125));
    assert_eq!(power(2.0, i32::MIN), Err(Refusal::Second));
    assert_eq!(root(2.0), Ok(2f64.sqrt()));
    assert_eq!(root(-1.0), Err(Refusal::Step));
    assert_eq!(logarithm(1.0), Ok(0.0));
    assert_eq!(exponential(0.0), Ok(1.0));
    assert_eq!(exponential(701.0), Err(Refusal::First));
}

#[test]
fn the_saturation_line() {
    assert!(printed(p_saturation(Kelvin(643.15)).unwrap().0, 21.04336732, 10));
    assert_eq!(p_saturation(Kelvin(650.0)), Err(Refusal::First));
    assert!(printed(t_saturation(MPa(22.064)).unwrap().0, 647.096, 6));
}

#[test]
fn the_border_with_region_2() {
    assert!(printed(p_border(Kelvin(623.15)).unwrap().0, 16.5291643, 9));
    assert!(printed(t_border(MPa(16.5291643)).unwrap().0, 623.15, 9));
    assert_eq!(t_border(MPa(101.0)), Err(Refusal::First));
    let border = t_border(MPa(18.0)).unwrap();
    let above = Kelvin(f64::from_bits(border.0.to_bits() + 1));
    assert_eq!(letter(MPa(18.0), border), Ok('t'));
    assert_eq!(letter(MPa(18.0), above), Err(Refusal::Border));
    assert_eq!(pt(MPa(18.0), Kelvin(640.0)), Err(Refusal::Border));
    assert_eq!(pt(MPa(18.0), Kelvin(900.0)), Err(Refusal::Second));
}

#[test]
fn letters_and_refusals() {
    assert_eq!(letter(MPa(24.0), Kelvin(650.0)), Ok('g'));
    assert_eq!(letter(MPa(101.0), Kelvin(900.0)), Err(Refusal::First));
    assert_eq!(pt(MPa(f64::NAN), Kelvin(900.0)), Err(Refusal::NotFinite));
    assert_eq!(pt(MPa(24.0), Kelvin(623.149)), Err(Refusal::Second));
    assert_eq!(td(Kelvin(863.15), KgPerM3(800.0)), Err(Refusal::State));
}

#[test]
fn every_number_but_0_is_a_refusal() {
    assert_eq!(Refusal::of(0), None);
    assert!((1..=255).all(|k| Refusal::of(k).map(Refusal::number) == Some(k)));
    assert_eq!(Refusal::of(7), Some(Refusal::Columns));
    assert_eq!(Refusal::of(8), Some(Refusal::Border));
    assert_eq!(Refusal::of(200), Some(Refusal::Other(200)));
    assert!(Refusal::Other(200).to_string().contains("200"));
}

#[test]
fn plain_slices_are_columns_without_a_copy() {
    let (p, t, mut d) = ([24.0, 24.0, 101.0], [650.0, 655.0, 650.0], [9.0; 3]);
    assert_eq!(MPa::slice(&p).as_ptr().cast(), p.as_ptr());
    assert_eq!(KJPerKg::slice(&[]).len(), 0);
    let (mut letter, mut refusal) = ([9; 3], [9; 3]);
    let density = KgPerM3::slice_mut(&mut d);
    assert_eq!(columns(MPa::slice(&p), Kelvin::slice(&t), &mut letter, density, &mut refusal), Ok(()));
    assert_eq!((letter, refusal), ([b'g', b'i', 0], [0, 0, 2]));
    assert_eq!((d[0], d[2].to_bits()), (pt(MPa(24.0), Kelvin(650.0)).unwrap().d.0, 0));
}

#[test]
fn the_columns() {
    let p = [24.0, 24.0, 101.0, 22.064].map(MPa);
    let t = [650.0, 655.0, 650.0, 647.096].map(Kelvin);
    let (mut letter, mut density, mut refusal) = ([9; 4], [KgPerM3(9.0); 4], [9; 4]);
    assert_eq!(columns(&p, &t, &mut letter, &mut density, &mut refusal), Ok(()));
    assert_eq!((letter, refusal), ([b'g', b'i', 0, 0], [0, 0, 2, 0]));
    assert_eq!(density[0], pt(p[0], t[0]).unwrap().d);
    assert_eq!(density[2].0.to_bits(), 0);
}

#[test]
fn columns_of_unequal_length_are_refused_and_nothing_is_written() {
    let (p, t) = ([MPa(24.0); 2], [Kelvin(650.0); 2]);
    let (mut letter, mut density, mut refusal) = ([9; 2], [KgPerM3(9.0); 2], [9; 2]);
    assert_eq!(columns(&p[..1], &t, &mut letter, &mut density, &mut refusal), Err(Refusal::Columns));
    assert_eq!(columns(&p, &t[..1], &mut letter, &mut density, &mut refusal), Err(Refusal::Columns));
    assert_eq!(columns(&p, &t, &mut letter[..1], &mut density, &mut refusal), Err(Refusal::Columns));
    assert_eq!(columns(&p, &t, &mut letter, &mut density[..1], &mut refusal), Err(Refusal::Columns));
    assert_eq!(columns(&p, &t, &mut letter, &mut density, &mut refusal[..1]), Err(Refusal::Columns));
    assert_eq!((letter, density, refusal), ([9; 2], [KgPerM3(9.0); 2], [9; 2]));
    assert_eq!(columns(&[], &[], &mut [], &mut [], &mut []), Ok(()));
}

fn field(tag: u8, x: f64) -> Vec<u8> {
    [&[tag, 0, 8][..], &x.to_be_bytes()].concat()
}

#[test]
fn the_exchange_record() {
    let (p, t, d, h, s) = (field(1, 24.0), field(2, 650.0), field(3, 500.0), field(4, 2000.0), field(5, 4.2));
    let join = |fields: &[&[u8]]| fields.concat();
    assert_eq!(read(&join(&[&p, &t])), Ok((Pair::PT, pt(MPa(24.0), Kelvin(650.0)))));
    assert_eq!(read(&join(&[&t, &d])), Ok((Pair::TD, td(Kelvin(650.0), KgPerM3(500.0)))));
    assert_eq!(read(&join(&[&p, &h])), Ok((Pair::PH, ph(MPa(24.0), KJPerKg(2000.0)))));
    assert_eq!(read(&join(&[&p, &s])), Ok((Pair::PS, ps(MPa(24.0), KJPerKgK(4.2)))));
    assert_eq!(read(&join(&[&h, &s])), Ok((Pair::HS, hs(KJPerKg(2000.0), KJPerKgK(4.2)))));
    let skipping = join(&[&[200, 0, 0], &p, b"\x80\x00\x03abc", &t, &[255, 1, 44], &[90; 300]]);
    assert_eq!(read(&skipping).unwrap().1.unwrap().d.0, 461.6711044147961);
    assert_eq!(read(&join(&[&field(1, f64::NAN), &t])), Ok((Pair::PT, Err(Refusal::NotFinite))));
    for (record, refusal) in [
        (vec![], Refusal::NotAPair),
        (join(&[&p, &t, &d]), Refusal::NotAPair),
        (join(&[&p, &t, &d, &[6, 0, 0]]), Refusal::UnknownTag),
        (join(&[&p, &t, &[128]]), Refusal::PastEnd),
        (join(&[&p, &[1, 0, 3, 0, 0, 0]]), Refusal::WrongLength),
        (join(&[&t, &p]), Refusal::OutOfOrder),
    ] {
        assert_eq!(read(&record), Err(refusal), "{record:?}");
    }
    for number in 10..15 {
        assert_eq!(Refusal::of(number).map(Refusal::number), Some(number));
        assert!(!matches!(Refusal::of(number), Some(Refusal::Other(_))));
    }
}

#[test]
fn a_record_written() {
    let points = [
        (Point::PT(MPa(24.0), Kelvin(650.0)), Pair::PT),
        (Point::TD(Kelvin(650.0), KgPerM3(500.0)), Pair::TD),
        (Point::PH(MPa(25.0), KJPerKg(2095.0)), Pair::PH),
        (Point::PS(MPa(50.0), KJPerKgK(4.5)), Pair::PS),
        (Point::HS(KJPerKg(2000.0), KJPerKgK(4.2)), Pair::HS),
    ];
    for (point, pair) in points {
        let mut room = [0xaa; 30];
        assert_eq!(write(point, &mut room[..21]), Err(Refusal::NoRoom));
        assert_eq!(room, [0xaa; 30]);
        assert_eq!(write(point, &mut room), Ok(()));
        assert_eq!(room[22..], [0xaa; 8]);
        let (read_as, state) = read(&room[..22]).unwrap();
        assert_eq!((read_as, state.is_ok()), (pair, true));
    }
    assert_eq!(write(Point::PT(MPa(f64::NAN), Kelvin(1.0)), &mut []), Err(Refusal::NotFinite));
    let mut room = [0; 22];
    assert_eq!(write(Point::PT(MPa(101.0), Kelvin(650.0)), &mut room), Err(Refusal::First));
    assert_eq!(room, [0; 22]);
}
