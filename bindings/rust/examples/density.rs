//! The density at a pressure and a temperature: `cargo run --example density 24 650`.
//! Status: 0 the density is printed; 1 the point is refused, with its number; 2 wrong usage.
use region3::{pt, Kelvin, MPa};
use std::process::exit;

fn main() {
    let words: Vec<String> = std::env::args().skip(1).collect();
    let numbers: Result<Vec<f64>, _> = words.iter().map(|word| word.parse()).collect();
    let (p, t) = match numbers.as_deref() {
        Ok(&[p, t]) => (p, t),
        _ => {
            eprintln!("usage: density P T, a pressure in MPa and a temperature in K, as in density 24 650");
            exit(2)
        }
    };
    match pt(MPa(p), Kelvin(t)) {
        Ok(state) => println!("{:.6} kg/m3", state.d.0),
        Err(refusal) => {
            println!("refused with {}: {refusal}", refusal.number());
            exit(1)
        }
    }
}
