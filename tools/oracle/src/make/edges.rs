//! The edges of each entry, one by one: special numbers, range ends, marks, lines, known points.
//! A random number that stands beside an edge only fills the other argument.

use super::points::{beside, Quantity, P_BANDS, P_SPLITS, SPECIAL, ZERO_BASES};
use super::random::Random;
use super::search::crossing;
use super::states::{self, band_end, on_line, shape, LINES};
use super::{nameless, rules, searched};
use crate::forms::ruled::{r3, r4};
use crate::ranges::*;
use crate::row::Row;

type Pair = (f64, f64);

pub fn of(entry: u8, random: &mut Random) -> Vec<Row> {
    match entry {
        0 => (0..80).map(|_| nameless(random)).collect(),
        1..=4 => rules::edges(entry, random),
        _ => of_state(entry, random),
    }
}

fn of_state(entry: u8, random: &mut Random) -> Vec<Row> {
    let (first, second) = shape(entry);
    let mut pairs = match second {
        None => alone(first).into_iter().map(|x| (x, 0.0)).collect(),
        Some(second) => both(first, second, random),
    };
    match entry {
        8 | 10 | 30 => {
            pairs.extend(pT_lines(random));
            pairs.extend(between_lines());
        }
        9 | 21 => pairs.extend(pT_lines(random)),
        12..=16 | 20 | 22..=25 | 34 => {
            // crossings of range ends, dividing lines, two-phase states
            pairs.extend((0..150).filter_map(|_| states::line(entry, random)));
        }
        11 => pairs.extend(splits()),
        26..=28 | 35..=37 => {
            pairs.extend((0..150).filter_map(|_| searched::line(entry, random)));
            pairs.retain(|&pair| !searched::endless(entry, pair));
            pairs.extend(searched::odd(entry));
        }
        _ => (),
    }
    pairs.extend(on_ends(entry));
    let row = |n, (x, y): Pair| Row::new(entry, n, x, y);
    let mut rows: Vec<Row> = Vec::new();
    for &(x, y) in &pairs {
        rows.push(row(states::whole(entry, x, y, random), (x, y)));
    }
    match entry {
        7 => rows.extend(
            pairs
                .iter()
                .flat_map(|&pair| (0..12).map(move |n| row(n, pair))),
        ),
        9 => rows.extend(
            bases()
                .into_iter()
                .map(|(letter, pair)| row(letter as i32, pair)),
        ),
        11 => rows.extend(pairs.iter().flat_map(|&pair| [row(0, pair), row(1, pair)])),
        25 => rows.extend(numbers(random).into_iter().map(|(n, pair)| row(n, pair))),
        _ => (),
    }
    rows
}

/// One argument: special, outside, and every mark with its neighbours.
fn alone(quantity: Quantity) -> Vec<f64> {
    let mut numbers = SPECIAL.to_vec();
    numbers.extend(quantity.outside());
    for mark in quantity.marks() {
        numbers.extend((-2..=2).map(|n| beside(mark, n)));
    }
    numbers
}

/// Two arguments: each edge of one with the other inside and outside, and all corners.
fn both(first: Quantity, second: Quantity, random: &mut Random) -> Vec<Pair> {
    let mut pairs = Vec::new();
    for (i, &special) in SPECIAL.iter().enumerate() {
        pairs.push((special, SPECIAL[(i + 5) % SPECIAL.len()]));
        pairs.push((special, second.range().1 + 1.0));
        pairs.push((first.range().1 + 1.0, special));
    }
    for x in alone(first) {
        pairs.push((x, random.within(second.range())));
    }
    for y in alone(second) {
        pairs.push((random.within(first.range()), y));
    }
    for x in first.outside() {
        pairs.push((x, random.of(&second.outside())));
    }
    for x in ends(first) {
        pairs.extend(ends(second).into_iter().map(|y| (x, y)));
    }
    pairs
}

fn ends(quantity: Quantity) -> Vec<f64> {
    let (from, to) = quantity.range();
    [from, to]
        .iter()
        .flat_map(|&end| (-1..=1).map(move |n| beside(end, n)))
        .collect()
}

/// Every boundary and the saturation line at the bands' ends and between; the critical point; the
/// points that docs/SCOPE.md and docs/DIFFERENCES.md name.
fn pT_lines(random: &mut Random) -> Vec<Pair> {
    let mut pairs = Vec::new();
    let mut pressures = P_BANDS.to_vec();
    pressures.extend((-2..=2).map(|n| beside(band_end(), n)));
    pressures.extend((0..8).map(|_| states::pressure(random)));
    for p in pressures {
        for line in 0..LINES {
            let T = on_line(line, p);
            pairs.extend((-1..=1).map(|n| (p, beside(T, n))));
        }
    }
    let mut temperatures: Vec<f64> = (-2..=2).map(|n| beside(647.096, n)).collect();
    for end in [647.096 - 1e-5, 647.096 + 1e-5] {
        temperatures.extend((-1..=1).map(|n| beside(end, n)));
    }
    for n in -2..=2 {
        pairs.extend(temperatures.iter().map(|&T| (beside(22.064, n), T)));
    }
    pairs.extend(NAMED);
    pairs
}

/// At each band's end, a unit and some 1e-9 either side of it: the middle between every two lines
/// that stand next to each other there, so that each letter of both bands is met. Where an end is the
/// crossing of two lines, a unit leaves no room between them; the last printed digit, 1e-8, does.
fn between_lines() -> Vec<Pair> {
    let mut ends = P_BANDS.to_vec();
    ends.push(band_end());
    let near = |p: f64| [p, beside(p, -1), beside(p, 1), p - 4e-9, p + 4e-9, p + 9e-9];
    let mut pairs = Vec::new();
    for p in ends.into_iter().flat_map(near) {
        let mut lines: Vec<f64> = (0..LINES).map(|line| on_line(line, p)).collect();
        lines.retain(|&T| T_BOX.0 < T && T < T_BOX.1);
        lines.extend([T_BOX.0, T_BOX.1]);
        lines.sort_by(f64::total_cmp);
        pairs.extend(
            lines
                .windows(2)
                .map(|two| (p, two[0] + (two[1] - two[0]) / 2.0)),
        );
    }
    pairs
}

/// Where `pT2v_sat_reg3` changes its equation and a unit either side of it, on the saturation line,
/// beside it, and at both ends of its temperatures.
fn splits() -> Vec<Pair> {
    let mut pairs = Vec::new();
    for p in P_SPLITS
        .iter()
        .flat_map(|&end| (-1..=1).map(move |n| beside(end, n)))
    {
        let T = r4::T_saturation(p);
        pairs.extend([T, beside(T, -1), beside(T, 1), 624.0, 640.0, 647.0].map(|T| (p, T)));
    }
    pairs
}

/// Where the state that an entry works out has its p, T or d on an end of its range, exactly, and a
/// unit of the argument either side of it. The first argument runs over its range.
fn on_ends(entry: u8) -> Vec<Pair> {
    let d = |v: f64| 1.0 / v;
    match entry {
        9 | 10 | 21 | 30 => ends_of(P_BOX, T_BOX, &[D_BOX.0], |p, T| d(r3::pT2v_reg3(p, T))),
        12 | 22 => ends_of(P_BOX, H_BOX, &[T_BOX.0, T_BOX.1], r3::ph2T_reg3),
        13 => ends_of(P_BOX, H_BOX, &[D_BOX.0, D_BOX.1], |p, h| {
            d(r3::ph2v_reg3(p, h))
        }),
        14 | 23 => ends_of(P_BOX, S_BOX, &[T_BOX.0, T_BOX.1], r3::ps2T_reg3),
        15 => ends_of(P_BOX, S_BOX, &[D_BOX.0, D_BOX.1], |p, s| {
            d(r3::ps2v_reg3(p, s))
        }),
        16 | 24 => ends_of(H_BOX, S_BOX, &[P_BOX.0, P_BOX.1], r3::hs2p_reg3),
        20 | 25 => ends_of(T_BOX, D_BOX, &[P_BOX.0, P_BOX.1], r3::Td2p_reg3),
        _ => Vec::new(),
    }
}

fn ends_of(first: Range, second: Range, ends: &[f64], f: impl Fn(f64, f64) -> f64) -> Vec<Pair> {
    let mut pairs = Vec::new();
    for &end in ends {
        let mut found = 0;
        for i in 1..400 {
            let x = first.0 + (first.1 - first.0) * f64::from(i) / 400.0;
            let Some(y) = crossing(second.0, second.1, end, |y| f(x, y)) else {
                continue;
            };
            let Some(y) = (-20..=20).map(|n| beside(y, n)).find(|&y| f(x, y) == end) else {
                continue;
            };
            pairs.extend((-1..=1).map(|n| (x, beside(y, n))));
            found += 1;
            if found == 6 {
                break;
            }
        }
    }
    pairs
}

const NAMED: [Pair; 34] = [
    (24.0, 640.0),
    (24.0, 650.0),
    (24.0, 653.5),
    (24.0, 655.0),
    (24.0, 660.0),
    (24.0, 670.0),
    (23.2, 648.0),
    (40.0, 630.0),
    (50.0, 700.0),
    (50.0, 720.0),
    (18.0, 625.0),
    (18.0, 640.0),
    (24.0, 623.15),
    (24.0, 623.149),
    (101.0, 650.0),
    (101.0, 900.0),
    (23.5, 651.5700016914416),
    (22.146122500502763, 647.4021434844827),
    (100.0, 679.5125318168051),
    (f64::from_bits(0x40350b1a1ee0b6d0), 642.0),
    (f64::from_bits(0x40350b1a1ee0b6d1), 642.0),
    (
        f64::from_bits(0x403087b94ef06f01),
        f64::from_bits(0x4083793d5d79603c),
    ),
    (21.04338, 643.14),
    (21.93161, 646.7),
    (21.90093, 646.6),
    (19.008805, 633.0),
    (18.0, 635.8209528593616),
    (18.0, 635.8209528593617),
    (100.0, 863.15),
    (100.0, 863.1499999999929),
    (16.529, 623.15),
    (16.529164252604804, 623.15),
    (16.529164252604808, 623.15),
    (16.529164252604808, 623.1500000000001),
];

/// Each letter's equation at base 0 of either argument, and a unit beside it.
fn bases() -> Vec<(char, Pair)> {
    let mut rows = Vec::new();
    for (letter, p, T) in ZERO_BASES {
        for n in -1..=1 {
            rows.push((letter, (beside(p, n), 650.0)));
            rows.push((letter, (beside(p, n), 647.0)));
            rows.push((letter, (22.8, beside(T, n))));
            rows.push((letter, (23.4, beside(T, n))));
            rows.push((letter, (beside(p, n), beside(T, n))));
        }
    }
    rows
}

/// Property numbers known and unknown, with arguments fit and unfit: 6 comes before 1, 2 and 3.
fn numbers(random: &mut Random) -> Vec<(i32, Pair)> {
    let points = [
        (750.0, 500.0),
        (650.0, 200.0),
        (640.0, 300.0),
        (863.15, 800.0),
        (f64::NAN, 500.0),
        (900.0, f64::INFINITY),
        (900.0, 500.0),
        (750.0, 801.0),
    ];
    let mut rows = Vec::new();
    for number in (-1..=40).chain([i32::MIN, i32::MAX]) {
        rows.extend(points.iter().map(|&pair| (number, pair)));
        rows.extend((0..4).filter_map(|_| states::line(25, random).map(|pair| (number, pair))));
    }
    rows
}
