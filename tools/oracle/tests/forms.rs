//! The three forms agree where they must: checked numbers are the ruled ones, bit by bit.
//! And the rewriting that makes them is right on the shapes that the crate's files have.

#[path = "../rewrite/forms.rs"]
#[allow(dead_code)]
mod forms;
#[path = "../rewrite/items.rs"]
mod items;
#[path = "../rewrite/tokens.rs"]
mod tokens;

use forms::Form;
use oracle::direct::{plain, ruled};
use oracle::make::{all_entries, Rows};
use oracle::row::{is_property, Row};
use oracle::{entries, num};

/// Wherever docs/SCOPE.md's entry point accepts, the Rust's own composition in region3.rs with the
/// rules put in has the same bits. At the critical point the Rust has a letter all the same.
#[test]
fn checked_is_ruled() {
    let mut accepted = 0;
    for row in Rows::new(11, &all_entries()).take(400_000) {
        let answer = entries::answer(&row);
        if answer.refusal == 0 {
            let mut ruled = ruled::answer(&row);
            if row.entry == 30 && answer.letter == 0 {
                ruled.letter = 0;
            }
            // trials are counted in the checked form alone
            ruled.beside = answer.beside;
            assert_eq!(answer.bytes(), ruled.bytes(), "{row:?}");
            accepted += 1;
        }
    }
    assert!(accepted > 200_000);
}

/// The Rust answers -1000 for a number that it does not name: the 25 are exactly the others.
#[test]
fn properties() {
    for number in -100..100 {
        let answer = plain::answer(&Row::new(25, number, 750.0, 500.0));
        assert_eq!(
            answer.numbers[0] == -1000.0,
            !is_property(number),
            "{number}"
        );
    }
}

#[test]
fn the_first_refusal_is_kept() {
    let infinite = || num::Num(1e300) * num::Num(1e300);
    assert_eq!(num::watch(|| num::Num(1.0) / infinite()).err(), Some(5));
    assert_eq!(num::watch(|| num::Num(-1.0).sqrt()).err(), Some(5));
    assert_eq!(num::watch(|| num::Num(701.0).exp()).err(), Some(5));
    let late = || num::Num(101.0).of_the_state((16.529, 100.0)) / num::Num(0.0);
    assert_eq!(num::watch(late).err(), Some(4));
    assert_eq!(
        num::watch(|| infinite().of_the_state((16.529, 100.0))).err(),
        Some(5)
    );
    assert_eq!(num::watch(|| num::Num(2.0).powf(num::Num(4.0)).0), Ok(16.0));
}

#[test]
fn rewriting() {
    let rust = "use crate::r3::*; // note\nconst n: [(i32, i32, f64); 1] = [(-12, 5, -0.5e-2)];\n\
                fn f(x: f64) -> f64 { -1.0 * x - 0.5 + n[0].2 * e.0 as f64 * (I*(I-1)) as f64 * x.powi(2) }";
    let plain = Form::Plain.rewrite("other", rust);
    assert_eq!(
        plain,
        "use crate::forms::plain::r3::*;  \nconst n: [(i32, i32, f64); 1] = [(-12, 5, -0.5e-2)];\n\
         fn f(x: f64) -> f64 { -1.0 * x - 0.5 + n[0].2 * e.0 as f64 * (I*(I-1)) as f64 * x.powi(2) }"
    );
    assert!(Form::Ruled
        .rewrite("other", rust)
        .contains("x.rule_powi(2)"));
    let checked = Form::Checked.rewrite("other", rust);
    assert!(checked.contains("[(i32, i32, Num); 1] = [(-12, 5, Num(-0.5e-2))]"));
    assert!(checked.contains(
        "{ Num(-1.0) * x - Num(0.5) + n[0].2 * Num::of(e.0 ) * Num::of((I*(I-1)) ) * x.powi(2) }"
    ));
    let taken = Form::Plain.rewrite(
        "region3",
        "use a; #[x] pub fn tv_reg3() { b } #[x] pub fn pT_reg3() { Td_reg3() }",
    );
    assert_eq!(taken, "use a; #[x] pub fn pT_reg3() { Td_thermal_reg3() }");
}
