//! Region 3 of IAPWS-IF97, the water and steam around and above the critical point: safe calls of the proved library `libregion3_c.a`.
//!
//! A quantity enters under its own unit, so one in another's place is a compile error. Every `f64` is a fair argument, NaN and the infinities
//! too: a call answers a value or a [`Refusal`].
//!
//! ```
//! use region3::{pt, Kelvin, MPa};
//! let state = pt(MPa(24.0), Kelvin(650.0))?;
//! assert_eq!((1.0 / state.v, state.T), (state.d.0, Kelvin(650.0)));
//! # Ok::<(), region3::Refusal>(())
//! ```
//!
//! # Ranges
//!
//! Both ends inside: p 16.529 to 100 MPa, T 623.15 to 863.15 K, d 100 to 800 kg/m3, h 1500 to 2900 kJ/kg, s 3.3 to 5.3 kJ/(kg K).
//!
//! # What a number is worth
//!
//! - The bits are those of one written order of rounded operations, the Rust crate seuif97 2.3.8's with its powers, roots, logarithms and exponentials
//!   written out. That the library gives them is proved of its source; the compiler behind the proof is not proved.
//! - **Letter l** lacks the last term of its published equation, as the Rust has it: v is up to 4.1 percent low, and on an even grid over l 12 percent
//!   of the points come back from [`pt`] with a p more than 1e-4 of it off, at most 0.5 percent.
//! - **[`Property::OE`], [`Property::OIJTC`], [`Property::OFI`], [`Property::OFU`]** are not what their names say; each says by how much.
//! - **Of (T,d) the ranges are wider than region 3.** Inside the saturation dome, and where the p of a state lies beyond the border with region 2, the
//!   calls answer numbers that mean nothing, a negative heat capacity among them. A p and a T beyond that border are [`Refusal::Border`].
//! - **A searched state** ([`pv`], [`th`], [`ts`]) has the property that was asked, within 1e-6 in its unit; it need not be the only state that has it.
//! - **At p = 100 MPa**, the end of the range, half of all [`pt`] calls are refused with [`Refusal::State`]: the p of the found state comes out a little
//!   above 100. At 99.99 none of 4,001 was.
//!
//! # Rounding mode
//!
//! The library counts on rounding to nearest, ties to even; in another mode its answers have other bits. A Rust program is always in that mode: Rust
//! assumes it, offers no safe way to leave it, and calls it undefined behaviour to change it by other means (`_mm_setcsr`, assembly). Only foreign
//! code of the same thread that has set another mode and not set it back could break this, and with it every Rust function that works with floats.
//!
//! # Linking
//!
//! The crate needs `libregion3_c.a`, of its own version and for the target's processor, in the repository's out/staticlib (for aarch64 out/native/aarch64) or in
//! the folder that `REGION3_LIB` names; a relative one is read from the folder in which cargo was started. Where it is not there the build says so and
//! ends; `cargo doc` and `cargo check` need none. The archive leaves one symbol to the linker, `memset`, and calls no mathematical
//! function of the C library.
#![allow(non_snake_case)]
#![deny(missing_docs)]
#![deny(clippy::undocumented_unsafe_blocks)]

mod property;
mod raw;
mod refusal;
mod unit;

pub use property::Property;
pub use refusal::Refusal;
pub use unit::{KJPerKg, KJPerKgK, Kelvin, KgPerM3, M3PerKg, MPa};

/// The properties of a state.
#[derive(Clone, Copy, Debug, PartialEq)]
#[non_exhaustive]
pub struct Record {
    /// Temperature.
    pub T: Kelvin,
    /// Density.
    pub d: KgPerM3,
    /// Specific volume in m3/kg. In [`pt`], [`ph`], [`ps`] and [`hs`] an equation's, of which d is the inverse; in the others 1/d.
    pub v: f64,
    /// Pressure. In [`hs`] the backward equation's; in the others worked from the found state, so it need not be the caller's.
    pub p: MPa,
    /// Specific enthalpy.
    pub h: KJPerKg,
    /// Specific entropy.
    pub s: KJPerKgK,
    /// Specific internal energy.
    pub u: KJPerKg,
    /// Isochoric heat capacity.
    pub cv: KJPerKgK,
    /// Isobaric heat capacity.
    pub cp: KJPerKgK,
    /// Speed of sound in m/s.
    pub w: f64,
}

impl Record {
    fn of([T, d, v, p, h, s, u, cv, cp, w]: [f64; 10]) -> Record {
        Record {
            T: Kelvin(T),
            d: KgPerM3(d),
            v,
            p: MPa(p),
            h: KJPerKg(h),
            s: KJPerKgK(s),
            u: KJPerKg(u),
            cv: KJPerKgK(cv),
            cp: KJPerKgK(cp),
            w,
        }
    }
}

// Only 0 is accepted.
fn answer<T>(number: u8, value: T) -> Result<T, Refusal> {
    match Refusal::of(number) {
        None => Ok(value),
        Some(refusal) => Err(refusal),
    }
}

// A call that writes one number.
fn number(call: impl FnOnce(&mut f64) -> u8) -> Result<f64, Refusal> {
    let mut out = 0.0;
    let refusal = call(&mut out);
    answer(refusal, out)
}

// A call that writes a record.
fn record(call: unsafe extern "C" fn(f64, f64, *mut [f64; 10]) -> u8, a: f64, b: f64) -> Result<Record, Refusal> {
    let mut out = [0.0; 10];
    // SAFETY: out is ten numbers of ours, and the call keeps no pointer.
    let refusal = unsafe { call(a, b, &mut out) };
    answer(refusal, Record::of(out))
}

/// The record at a temperature and a density.
pub fn td(t: Kelvin, d: KgPerM3) -> Result<Record, Refusal> {
    record(raw::r3_td, t.0, d.0)
}

/// The record at a pressure and a temperature. Its p is the found state's, not the caller's.
///
/// In letter l the volume is up to 4.1 percent low, and at p = 100 half of the calls are refused: see the crate's first page.
pub fn pt(p: MPa, t: Kelvin) -> Result<Record, Refusal> {
    record(raw::r3_pt, p.0, t.0)
}

/// The record at a pressure and an enthalpy.
pub fn ph(p: MPa, h: KJPerKg) -> Result<Record, Refusal> {
    record(raw::r3_ph, p.0, h.0)
}

/// The record at a pressure and an entropy.
pub fn ps(p: MPa, s: KJPerKgK) -> Result<Record, Refusal> {
    record(raw::r3_ps, p.0, s.0)
}

/// The record at an enthalpy and an entropy. Its p is the backward equation's.
pub fn hs(h: KJPerKg, s: KJPerKgK) -> Result<Record, Refusal> {
    record(raw::r3_hs, h.0, s.0)
}

/// What a search finds, and how many trials it made.
#[derive(Clone, Copy, Debug, PartialEq)]
pub struct Searched<A> {
    /// A record, or the T or d alone.
    pub found: A,
    /// The trials of the search; its two start points are not counted.
    pub trials: u32,
}

// A call that writes what a search finds, and its trials.
fn searched<A>(call: impl FnOnce(&mut A, &mut u32) -> u8, mut found: A) -> Result<Searched<A>, Refusal> {
    let mut trials = 0;
    let refusal = call(&mut found, &mut trials);
    answer(refusal, Searched { found, trials })
}

impl<A> Searched<A> {
    fn map<B>(self, f: impl FnOnce(A) -> B) -> Searched<B> {
        Searched {
            found: f(self.found),
            trials: self.trials,
        }
    }
}

/// The record at a pressure and a specific volume, whose T is searched for.
///
/// The Rust's secant search proposes the T; a test that does not trust it works p there and accepts it within 1e-6 MPa of the asked one, or refuses it
/// with [`Refusal::Unfound`]. The range of v is that of 1/v, and the record's v is 1/(1/v), which need not be the asked one. An accepted state need not be
/// the only one with that p, nor lie inside the border with region 2. At p = 100 and 16.529 about half of the states that exist are
/// [`Refusal::State`].
///
/// ```
/// use region3::{pv, M3PerKg, MPa};
/// let state = pv(MPa(50.0), M3PerKg(0.002))?;
/// assert_eq!((state.found.T.0, state.trials), (697.54983343387, 5));
/// # Ok::<(), region3::Refusal>(())
/// ```
pub fn pv(p: MPa, v: M3PerKg) -> Result<Searched<Record>, Refusal> {
    // SAFETY: out and trials are ours, apart, and the call keeps no pointer.
    searched(|out, trials| unsafe { raw::r3_pv(p.0, v.0, out, trials) }, [0.0; 10]).map(|s| s.map(Record::of))
}

/// The record at a temperature and an enthalpy, whose d is searched for and tested as T is in [`pv`]: within 1e-6 kJ/kg.
///
/// A search for a state that does not exist can make 20,000 trials, some milliseconds; one that finds makes up to some 14.
pub fn th(t: Kelvin, h: KJPerKg) -> Result<Searched<Record>, Refusal> {
    // SAFETY: out and trials are ours, apart, and the call keeps no pointer.
    searched(|out, trials| unsafe { raw::r3_th(t.0, h.0, out, trials) }, [0.0; 10]).map(|s| s.map(Record::of))
}

/// The record at a temperature and an entropy, whose d is searched for and tested as in [`th`]: within 1e-6 kJ/(kg K).
///
/// Every T from 863.149999999954 up is [`Refusal::Step`]: the search starts at a negative density there.
pub fn ts(t: Kelvin, s: KJPerKgK) -> Result<Searched<Record>, Refusal> {
    // SAFETY: out and trials are ours, apart, and the call keeps no pointer.
    searched(|out, trials| unsafe { raw::r3_ts(t.0, s.0, out, trials) }, [0.0; 10]).map(|found| found.map(Record::of))
}

/// The T alone that the test of [`pv`] accepted. The record there can still be refused: its p has a range of its own.
pub fn pv_to_t(p: MPa, v: M3PerKg) -> Result<Searched<Kelvin>, Refusal> {
    // SAFETY: out and trials are ours, apart, and the call keeps no pointer.
    searched(|out, trials| unsafe { raw::r3_pv2t(p.0, v.0, out, trials) }, 0.0).map(|s| s.map(Kelvin))
}

/// The d alone that the test of [`th`] accepted.
pub fn th_to_d(t: Kelvin, h: KJPerKg) -> Result<Searched<KgPerM3>, Refusal> {
    // SAFETY: out and trials are ours, apart, and the call keeps no pointer.
    searched(|out, trials| unsafe { raw::r3_th2d(t.0, h.0, out, trials) }, 0.0).map(|s| s.map(KgPerM3))
}

/// The d alone that the test of [`ts`] accepted.
pub fn ts_to_d(t: Kelvin, s: KJPerKgK) -> Result<Searched<KgPerM3>, Refusal> {
    // SAFETY: out and trials are ours, apart, and the call keeps no pointer.
    searched(|out, trials| unsafe { raw::r3_ts2d(t.0, s.0, out, trials) }, 0.0).map(|found| found.map(KgPerM3))
}

/// The pairs that an exchange record can hold.
#[derive(Clone, Copy, Debug, PartialEq, Eq, Hash)]
pub enum Pair {
    /// Pressure and temperature, [`pt`].
    PT,
    /// Temperature and density, [`td`].
    TD,
    /// Pressure and enthalpy, [`ph`].
    PH,
    /// Pressure and entropy, [`ps`].
    PS,
    /// Enthalpy and entropy, [`hs`].
    HS,
}

/// The pair of an exchange record and the answer of its own call; or the record's refusal, 10 to 14.
///
/// A record is fields of a tag, a length in two bytes, the high byte first, and that many bytes. Tag 1 is p, 2 T, 3 d, 4 h, 5 s, each an `f64`, the high
/// byte first; two of them that are a pair, in rising order. Tags from 128 up are skipped.
///
/// ```
/// use region3::{pt, read, Kelvin, MPa, Pair};
/// let record = [&[1, 0, 8][..], &24f64.to_be_bytes(), &[2, 0, 8], &650f64.to_be_bytes()].concat();
/// assert_eq!(read(&record), Ok((Pair::PT, pt(MPa(24.0), Kelvin(650.0)))));
/// ```
pub fn read(record: &[u8]) -> Result<(Pair, Result<Record, Refusal>), Refusal> {
    let (mut pair, mut out) = (0, [0.0; 10]);
    // SAFETY: the record's bytes are live and only read; pair and out are ours, and the call keeps no pointer.
    let refusal = unsafe { raw::r3_read(record.as_ptr(), record.len(), &mut pair, &mut out) };
    let answer = answer(refusal, Record::of(out));
    let pair = match pair {
        1 => Pair::PT,
        2 => Pair::TD,
        3 => Pair::PH,
        4 => Pair::PS,
        5 => Pair::HS,
        // no pair was read, so the call is refused
        _ => return Err(answer.err().unwrap_or(Refusal::Other(refusal))),
    };
    Ok((pair, answer))
}

/// A point of one of the five pairs, each number under its unit.
#[derive(Clone, Copy, Debug, PartialEq)]
pub enum Point {
    /// Pressure and temperature.
    PT(MPa, Kelvin),
    /// Temperature and density.
    TD(Kelvin, KgPerM3),
    /// Pressure and enthalpy.
    PH(MPa, KJPerKg),
    /// Pressure and entropy.
    PS(MPa, KJPerKgK),
    /// Enthalpy and entropy.
    HS(KJPerKg, KJPerKgK),
}

/// Writes a point's exchange record, 22 bytes, at the front of `out`, if the point's own call accepts it: else that call's refusal, then
/// [`Refusal::NoRoom`], and nothing is written. Bytes that the record does not need stay as they are.
///
/// ```
/// use region3::{pt, read, write, Kelvin, MPa, Pair, Point};
/// let mut record = [0; 22];
/// write(Point::PT(MPa(24.0), Kelvin(650.0)), &mut record)?;
/// assert_eq!(read(&record), Ok((Pair::PT, pt(MPa(24.0), Kelvin(650.0)))));
/// # Ok::<(), region3::Refusal>(())
/// ```
pub fn write(point: Point, out: &mut [u8]) -> Result<(), Refusal> {
    let (pair, a, b) = match point {
        Point::PT(p, t) => (1, p.0, t.0),
        Point::TD(t, d) => (2, t.0, d.0),
        Point::PH(p, h) => (3, p.0, h.0),
        Point::PS(p, s) => (4, p.0, s.0),
        Point::HS(h, s) => (5, h.0, s.0),
    };
    // SAFETY: out is live memory of ours of that length, and the call keeps no pointer.
    answer(unsafe { raw::r3_write(pair, a, b, out.as_mut_ptr(), out.len()) }, ())
}

/// One property at a temperature and a density, in the unit that the [`Property`] names.
pub fn property(property: Property, t: Kelvin, d: KgPerM3) -> Result<f64, Refusal> {
    property_by_number(property.number(), t, d)
}

/// One property by its number: [`Refusal::Property`] for a number that no [`Property`] has.
pub fn property_by_number(o_id: i32, t: Kelvin, d: KgPerM3) -> Result<f64, Refusal> {
    // SAFETY: out is a number of ours, and the call keeps no pointer.
    number(|out| unsafe { raw::r3_property(o_id, t.0, d.0, out) })
}

/// What [`cp_w`] answers: each half a value or a refusal of its own.
#[derive(Clone, Copy, Debug, PartialEq)]
pub struct CpW {
    /// Isobaric heat capacity.
    pub cp: Result<KJPerKgK, Refusal>,
    /// Speed of sound in m/s.
    pub w: Result<f64, Refusal>,
}

/// Isobaric heat capacity and speed of sound at a temperature and a density, for the price of one: [`Property::OCP`] and [`Property::OW`], bit for bit.
///
/// ```
/// use region3::{cp_w, Kelvin, KgPerM3};
/// let both = cp_w(Kelvin(650.0), KgPerM3(500.0));
/// println!("{} kJ/(kg K), {} m/s", both.cp?.0, both.w?);
/// # Ok::<(), region3::Refusal>(())
/// ```
pub fn cp_w(t: Kelvin, d: KgPerM3) -> CpW {
    let (mut cp, mut w, mut w_refusal) = (0.0, 0.0, 0);
    // SAFETY: two numbers and a byte of ours, apart, and the call keeps no pointer.
    let cp_refusal = unsafe { raw::r3_cp_w(t.0, d.0, &mut cp, &mut w, &mut w_refusal) };
    CpW {
        cp: answer(cp_refusal, KJPerKgK(cp)),
        w: answer(w_refusal, w),
    }
}

/// The version of the library that is linked, 10000 * first + 100 * second + third: this crate's own, since the archive of another does not link.
pub fn library_version() -> u32 {
    // SAFETY: the call takes nothing and answers a number.
    unsafe { raw::r3_library_version_0_3_0() }
}

/// The subregion's letter, 'a' to 'z'. At the critical point, (22.064, 647.096), it is 'z', where the row of [`columns`] has none.
///
/// For 23 < p <= 25 MPa a theorem says that it is the letter of the exact published boundaries wherever T is a millionth of a kelvin or more away from
/// each of them; elsewhere it is the letter of the rounded ones.
pub fn letter(p: MPa, t: Kelvin) -> Result<char, Refusal> {
    let mut out = 0;
    // SAFETY: out is a byte of ours, and the call keeps no pointer.
    let refusal = unsafe { raw::r3_letter(p.0, t.0, &mut out) };
    answer(refusal, char::from(out))
}

/// The saturation pressure at a temperature from 623.15 to 647.096 K.
pub fn p_saturation(t: Kelvin) -> Result<MPa, Refusal> {
    // SAFETY: out is a number of ours, and the call keeps no pointer.
    number(|out| unsafe { raw::r3_p_saturation(t.0, out) }).map(MPa)
}

/// The saturation temperature at a pressure from 16.529 to 22.064 MPa.
pub fn t_saturation(p: MPa) -> Result<Kelvin, Refusal> {
    // SAFETY: out is a number of ours, and the call keeps no pointer.
    number(|out| unsafe { raw::r3_t_saturation(p.0, out) }).map(Kelvin)
}

/// The pressure of the border with region 2 at a temperature from 623.15 to 863.15 K (R7-97, equation 5).
pub fn p_border(t: Kelvin) -> Result<MPa, Refusal> {
    // SAFETY: out is a number of ours, and the call keeps no pointer.
    number(|out| unsafe { raw::r3_p_border(t.0, out) }).map(MPa)
}

/// The temperature of the border with region 2 at a pressure from 16.529 to 100 MPa (R7-97, equation 6). [`pt`], [`letter`] and the rows of [`columns`]
/// accept a T that equals it and refuse one above it with [`Refusal::Border`].
pub fn t_border(p: MPa) -> Result<Kelvin, Refusal> {
    // SAFETY: out is a number of ours, and the call keeps no pointer.
    number(|out| unsafe { raw::r3_t_border(p.0, out) }).map(Kelvin)
}

/// a to the n by the bits of n, for n from -64 to 64.
pub fn power(a: f64, n: i32) -> Result<f64, Refusal> {
    // SAFETY: out is a number of ours, and the call keeps no pointer.
    number(|out| unsafe { raw::r3_power(a, n, out) })
}

/// The f64 nearest the exact root.
pub fn root(x: f64) -> Result<f64, Refusal> {
    // SAFETY: out is a number of ours, and the call keeps no pointer.
    number(|out| unsafe { raw::r3_root(x, out) })
}

/// The logarithm by the written series, within 5.8e-16 of the host's where that was compared.
pub fn logarithm(x: f64) -> Result<f64, Refusal> {
    // SAFETY: out is a number of ours, and the call keeps no pointer.
    number(|out| unsafe { raw::r3_logarithm(x, out) })
}

/// The exponential by the written series, for x from -700 to 700: within 8.0e-14 of the host's where that was compared.
pub fn exponential(x: f64) -> Result<f64, Refusal> {
    // SAFETY: out is a number of ours, and the call keeps no pointer.
    number(|out| unsafe { raw::r3_exponential(x, out) })
}

/// The column run: for each row of p and t the letter's byte, the density and the refusal's number, 0 where the row is accepted.
///
/// A row at the critical point has no letter, 0, and a refused row holds letter 0 and density +0.0. Columns of unequal length are refused
/// before the call, with nothing written. Plain slices enter by [`MPa::slice`], [`Kelvin::slice`] and [`KgPerM3::slice_mut`], without a copy:
///
/// ```
/// use region3::{columns, Kelvin, KgPerM3, MPa};
/// let (p, t) = (vec![24.0, 30.0], vec![650.0, 690.0]);
/// let (mut letter, mut density, mut refusal) = (vec![0; 2], vec![0.0; 2], vec![0; 2]);
/// columns(MPa::slice(&p), Kelvin::slice(&t), &mut letter, KgPerM3::slice_mut(&mut density), &mut refusal)?;
/// assert_eq!((&letter[..], &refusal[..]), (&b"gf"[..], &[0, 0][..]));
/// assert!((density[0] - 461.671).abs() < 0.001);
/// # Ok::<(), region3::Refusal>(())
/// ```
pub fn columns(
    p: &[MPa],
    t: &[Kelvin],
    letter: &mut [u8],
    density: &mut [KgPerM3],
    refusal: &mut [u8],
) -> Result<(), Refusal> {
    let rows = p.len();
    if [t.len(), letter.len(), density.len(), refusal.len()] != [rows; 4] {
        return Err(Refusal::Columns);
    }
    // SAFETY: the five columns are `rows` long, a unit is an f64 by `repr(transparent)`, the borrows keep them apart, and the call keeps no pointer.
    let number = unsafe {
        raw::r3_columns(
            p.as_ptr().cast(),
            rows,
            t.as_ptr().cast(),
            rows,
            letter.as_mut_ptr(),
            rows,
            density.as_mut_ptr().cast(),
            rows,
            refusal.as_mut_ptr(),
            rows,
        )
    };
    answer(number, ())
}
