//! The power of before Ask 6 (docs/landings/ask-06.md), which stands in the rule's place once it is asked for.
//! A file of its own: what is asked for holds for the whole program.
#![allow(non_snake_case)]

use oracle::entries::pT2v_reg3;
use oracle::rules::{power, power_before_ask_6};

#[test]
fn numbers_below_the_normal_range() {
    let small = 2f64.powi(-512);
    let (p, T) = (22.999999999833125, 650.2253224955537);
    assert_eq!(power(small, 2), Err(5));
    assert_eq!(pT2v_reg3(p, T), Err(5));
    power_before_ask_6();
    assert_eq!(power(small, 2), Ok(small * small));
    assert_eq!(power(5e-324, -1), Err(5));
    assert_eq!(pT2v_reg3(p, T), Ok(0.002750714851315062));
}
