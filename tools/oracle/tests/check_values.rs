//! The published IAPWS check values on the untouched crate, to all printed digits.
//! The list is check-values.tsv in shared/data beside the repository, or where CHECK_VALUES says.

use oracle::forms::plain::{common, r3, r4};
use std::path::PathBuf;

fn list() -> String {
    let beside =
        || PathBuf::from(env!("CARGO_MANIFEST_DIR")).join("../../../shared/data/check-values.tsv");
    let path = std::env::var_os("CHECK_VALUES").map_or_else(beside, PathBuf::from);
    std::fs::read_to_string(&path).unwrap_or_else(|e| {
        panic!(
            "{}: {e}. Set CHECK_VALUES to check-values.tsv.",
            path.display()
        )
    })
}

fn value(function: &str, first: &str, second: &str, letter: &str) -> f64 {
    let x: f64 = first.parse().unwrap();
    let y = || second.parse::<f64>().unwrap();
    match function {
        "Td2p_reg3" => r3::Td2p_reg3(x, y()),
        "Td2h_reg3" => r3::Td2h_reg3(x, y()),
        "Td2u_reg3" => r3::Td2u_reg3(x, y()),
        "Td2s_reg3" => r3::Td2s_reg3(x, y()),
        "Td2cp_reg3" => r3::Td2cp_reg3(x, y()),
        "Td2w_reg3" => r3::Td2w_reg3(x, y()),
        "p_saturation" => r4::p_saturation(x),
        "T_saturation" => r4::T_saturation(x),
        "p2h_3ab" => r3::p2h_3ab(x),
        "B23_p2T" => common::B23_p2T(x),
        "B23_T2p" => common::B23_T2p(x),
        "ph2T_reg3" => r3::ph2T_reg3(x, y()),
        "ph2v_reg3" => r3::ph2v_reg3(x, y()),
        "ps2T_reg3" => r3::ps2T_reg3(x, y()),
        "ps2v_reg3" => r3::ps2v_reg3(x, y()),
        "hs2p_reg3" => r3::hs2p_reg3(x, y()),
        "T_atRegionBoundary" => r3::T_atRegionBoundary(x, second),
        "pT2v_3subreg" => r3::pT2v_3subreg(x, y(), letter.chars().next().unwrap()),
        other => panic!("the list names {other}"),
    }
}

/// The value with as many digits as the document prints.
fn printed(value: f64, like: &str) -> String {
    let digits = like
        .split('e')
        .next()
        .unwrap()
        .trim_start_matches('-')
        .len()
        - 2;
    let text = format!("{value:.digits$e}");
    let (mantissa, exponent) = text.split_once('e').unwrap();
    let exponent: i32 = exponent.parse().unwrap();
    format!(
        "{mantissa}e{}{:02}",
        if exponent < 0 { '-' } else { '+' },
        exponent.abs()
    )
}

#[test]
fn published_values() {
    let text = list();
    let (mut equal, mut missed) = (0, Vec::new());
    for line in text
        .lines()
        .filter(|line| !line.starts_with('#') && !line.is_empty())
    {
        let cells: Vec<&str> = line.split('\t').collect();
        let (function, first, second, letter, wanted) =
            (cells[1], cells[2], cells[3], cells[4], cells[5]);
        let got = value(function, first, second, letter);
        if printed(got, wanted) == wanted {
            equal += 1;
        } else {
            missed.push((
                function,
                letter,
                first,
                second,
                printed(got, wanted),
                wanted,
            ));
        }
    }
    println!("{equal} equal, missed: {missed:?}");
    // the dropped term of letter l, and nothing else
    let l = (
        "pT2v_3subreg",
        "l",
        "23.0",
        "646.0",
        "2.062374647e-03".to_string(),
        "2.062374674e-03",
    );
    assert_eq!(missed, [l]);
    assert_eq!(equal, 118);
}
