//! Rows answered straight from a form's functions, which know no ranges and refuse nothing.
//! Records come from the Rust's own region3.rs, number by number. T stays in kelvin.

macro_rules! direct {
    ($form:ident: $powi:ident $sqrt:ident $ln:ident $exp:ident) => {
        pub mod $form {
            use crate::forms::$form::common::property_id::*;
            use crate::forms::$form::common::{B23_T2p, B23_p2T};
            use crate::forms::$form::{r3, r4};
            use crate::ranges::NO_ENTRY;
            #[allow(unused_imports)]
            use crate::raw::Rules;
            use crate::row::{Answer, Row, BOUNDARIES};

            /// The property numbers of a record's fields from v on.
            const NUMBERS: [i32; 8] = [OV, OP, OH, OS, OU, OCV, OCP, OW];

            pub fn answer(row: &Row) -> Answer {
                let (x, y, whole) = (row.first, row.second, row.whole);
                let number = match row.entry {
                    1 => x.$powi(whole),
                    2 => x.$sqrt(),
                    3 => x.$ln(),
                    4 => x.$exp(),
                    5 => r4::p_saturation(x),
                    6 => r4::T_saturation(x),
                    7 => match usize::try_from(whole).ok().and_then(|i| BOUNDARIES.get(i)) {
                        Some(name) => r3::T_atRegionBoundary(x, name),
                        None => return Answer::refused(NO_ENTRY),
                    },
                    8 => return Answer::lettered(letter(x, y), 0.0),
                    9 => match u8::try_from(whole) {
                        Ok(letter @ b'a'..=b'z') => r3::pT2v_3subreg(x, y, letter as char),
                        _ => return Answer::refused(NO_ENTRY),
                    },
                    10 => r3::pT2v_reg3(x, y),
                    11 => match whole {
                        0 | 1 => r3::pT2v_sat_reg3(x, y, f64::from(whole)),
                        _ => return Answer::refused(NO_ENTRY),
                    },
                    12 => r3::ph2T_reg3(x, y),
                    13 => r3::ph2v_reg3(x, y),
                    14 => r3::ps2T_reg3(x, y),
                    15 => r3::ps2v_reg3(x, y),
                    16 => r3::hs2p_reg3(x, y),
                    18 => B23_p2T(x),
                    19 => B23_T2p(x),
                    20 => return record(x, y, |number| r3::Td_thermal_reg3(x, y, number)),
                    21 => {
                        let d = r3::pT_reg3(x, y, OD);
                        return record(y, d, |number| r3::pT_reg3(x, y, number));
                    }
                    22 => {
                        let (T, d) = (r3::ph2T_reg3(x, y), r3::ph_reg3(x, y, OD));
                        return record(T, d, |number| r3::ph_reg3(x, y, number));
                    }
                    23 => {
                        let (T, d) = (r3::ps2T_reg3(x, y), r3::ps_reg3(x, y, OD));
                        return record(T, d, |number| r3::ps_reg3(x, y, number));
                    }
                    24 => {
                        let T = r3::ph2T_reg3(r3::hs2p_reg3(x, y), x);
                        let d = r3::hs_reg3(x, y, OD);
                        return record(T, d, |number| r3::hs_reg3(x, y, number));
                    }
                    25 => r3::Td_thermal_reg3(x, y, whole),
                    30 => return Answer::lettered(letter(x, y), r3::pT_reg3(x, y, OD)),
                    26 => {
                        let (T, d) = (r3::pv2T_reg3(x, y), r3::pv_reg3(x, y, OD));
                        return record(T, d, |number| r3::pv_reg3(x, y, number));
                    }
                    27 | 28 => {
                        // region3.rs has these pairs with t in degrees Celsius only
                        let d = if row.entry == 27 {
                            r3::Th2d_reg3(x, y)
                        } else {
                            r3::Ts2d_reg3(x, y)
                        };
                        return record(x, d, |number| r3::Td_thermal_reg3(x, d, number));
                    }
                    35 => r3::pv2T_reg3(x, y),
                    36 => r3::Th2d_reg3(x, y),
                    37 => r3::Ts2d_reg3(x, y),
                    34 => {
                        let mut both = Answer::number(r3::Td_thermal_reg3(x, y, OCP));
                        both.numbers[1] = r3::Td_thermal_reg3(x, y, OW);
                        return both;
                    }
                    _ => return Answer::refused(NO_ENTRY),
                };
                Answer::number(number)
            }

            pub fn letter(p: f64, T: f64) -> u8 {
                r3::sub_region3_pT(p, T) as u8
            }

            fn record(T: f64, d: f64, property: impl Fn(i32) -> f64) -> Answer {
                let mut numbers = [0.0; 10];
                numbers[0] = T;
                numbers[1] = d;
                for (place, number) in numbers[2..].iter_mut().zip(NUMBERS) {
                    *place = property(number);
                }
                Answer::record(numbers)
            }
        }
    };
}

direct!(plain: powi sqrt ln exp);
direct!(ruled: rule_powi rule_sqrt rule_ln rule_exp);
