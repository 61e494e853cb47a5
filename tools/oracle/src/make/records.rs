//! Makes exchange records: the edges first, then records made from the grammar and damaged in one place or none.

use super::random::Random;
use super::{points, states};
use crate::exchange::spelt;

const TAGS: [(u8, [u8; 2]); 5] = [(21, [1, 2]), (20, [2, 3]), (22, [1, 4]), (23, [1, 5]), (24, [4, 5])];

fn known(tag: u8, x: f64) -> Vec<u8> {
    spelt(tag, &x.to_bits().to_be_bytes())
}

/// ASKS.md's table, and every place where a rule could be one off.
fn edges() -> Vec<Vec<u8>> {
    let (p, t, d, h) = (known(1, 24.0), known(2, 650.0), known(3, 400.0), known(4, 2000.0));
    let join = |fields: &[&[u8]]| fields.concat();
    let pt = join(&[&p, &t]);
    let mut all = vec![
        pt.clone(),
        join(&[&[0xc8, 0, 0], &p, b"\x80\x00\x03abc", &t, &spelt(0xff, &[0x5a; 300])]),
        vec![],
        p.clone(),
        join(&[&p, &d]),
        join(&[&t, &h]),
        join(&[&p, &t, &d]),
        join(&[&p, &t, &d, &[6, 0, 0]]),
        vec![6],
        join(&[&[6, 0, 9], &[0; 8]]),
        join(&[&pt, &[0x80]]),
        pt[..pt.len() - 1].to_vec(),
        join(&[&pt, &[0x80, 0, 1]]),
        spelt(0, &[0; 8]),
        spelt(0x7f, &[0; 8]),
        spelt(1, &[0x40; 7]),
        spelt(1, &[]),
        join(&[&p, &spelt(1, &[0; 3])]),
        join(&[&p, &p]),
        join(&[&t, &p]),
        join(&[&known(1, f64::NAN), &t]),
        join(&[&known(1, 18.0), &known(2, 640.0)]),
    ];
    // a record with skipped fields, cut after each of its bytes
    let long = join(&[&[0xc8, 0, 0], &p, b"\x80\x00\x03abc", &t, &[0xff, 0, 0]]);
    all.extend((0..=long.len()).map(|n| long[..n].to_vec()));
    // each tag, alone, of length 0 and 9, between p and T, and after three known tags
    for tag in 0..=255 {
        all.push(spelt(tag, &[0; 8]));
        all.push(join(&[&p, &spelt(tag, &[]), &t]));
        all.push(join(&[&p, &t, &spelt(tag, &[0; 9])]));
        all.push(join(&[&p, &t, &d, &spelt(tag, &[7; 8])]));
    }
    // each length's low and high byte beside 8, and lengths that reach just to the end and past it
    for size in [0u16, 1, 7, 8, 9, 255, 256, 263, 264, 265, 0x0800, 0xffff] {
        for have in [0, size.saturating_sub(1), size, size.saturating_add(1)] {
            for tag in [1, 6, 128] {
                let [high, low] = size.to_be_bytes();
                all.push(join(&[&[tag, high, low], &vec![1; usize::from(have).min(2_100)]]));
            }
        }
    }
    // every two and every three known tags
    for x in 1..=5 {
        for y in 1..=5 {
            all.push(join(&[&known(x, 24.0), &known(y, 650.0)]));
            for z in 1..=5 {
                all.push(join(&[&known(x, 24.0), &known(y, 650.0), &known(z, 4.5)]));
            }
        }
    }
    // numbers that are none, in either place
    for x in points::SPECIAL {
        for (_, [first, second]) in TAGS {
            all.push(join(&[&known(first, x), &known(second, 650.0)]));
            all.push(join(&[&known(first, 24.0), &known(second, x)]));
        }
    }
    // a repeat, and tags out of order, with a skipped field between them
    let between = spelt(200, b"ab");
    for [before, after] in [[&p, &p], [&t, &p], [&pt, &t], [&join(&[&pt, &d]), &d]] {
        all.push(join(&[before, &between, after]));
    }
    // the longest record that the program can be given
    all.push(join(&[&pt, &spelt(200, &vec![9; 65_535 - 25])]));
    all
}

/// Bytes that need not look at what they are.
fn filler(random: &mut Random) -> Vec<u8> {
    let size = match random.below(8) {
        0 => 0,
        1 => 8,
        2 => random.below(400) as usize,
        _ => random.below(12) as usize,
    };
    (0..size).map(|_| random.next() as u8).collect()
}

fn skipped(random: &mut Random) -> Vec<u8> {
    let tag = 128 + random.below(128) as u8;
    spelt(tag, &filler(random))
}

/// A pair's two fields, skipped ones among them.
fn grown(random: &mut Random) -> Vec<Vec<u8>> {
    let (entry, [x, y]) = random.of(&TAGS);
    let row = states::any(entry, random);
    let mut fields = vec![known(x, row.first), known(y, row.second)];
    while random.one_in(3) {
        let at = random.below(fields.len() as u64 + 1) as usize;
        fields.insert(at, skipped(random));
    }
    fields
}

fn any(random: &mut Random) -> Vec<u8> {
    let mut fields = grown(random);
    let some = random.below(fields.len() as u64) as usize;
    match random.below(16) {
        0 => fields.insert(some, known(1 + random.below(5) as u8, random.between(0.0, 1000.0))),
        1 => fields.insert(some, spelt(random.below(128) as u8, &filler(random))),
        2 => fields.reverse(),
        3 => {
            fields.remove(some);
        }
        // a length that is not its field's
        4 => fields[some][2] = random.of(&[0, 7, 8, 9, 16, 255]),
        5 => fields[some][1] = random.of(&[1, 8, 255]),
        // a tag of another kind
        6 => fields[some][0] = random.next() as u8,
        7 => fields[some][0] = random.below(8) as u8,
        8 => fields = vec![filler(random)],
        _ => (),
    }
    let mut record = fields.concat();
    match random.below(8) {
        0 => record.truncate(random.below(record.len() as u64 + 1) as usize),
        1 if !record.is_empty() => {
            let at = random.below(record.len() as u64) as usize;
            record[at] = random.next() as u8;
        }
        2 => record.extend(filler(random)),
        _ => (),
    }
    record
}

/// As many records as are asked for, each after its length in two bytes, little end first.
pub fn stream(count: usize, seed: u64) -> impl Iterator<Item = Vec<u8>> {
    let mut random = Random::new(seed);
    let made = std::iter::from_fn(move || Some(any(&mut random)));
    edges().into_iter().chain(made).take(count).map(|record| {
        let size = u16::try_from(record.len()).unwrap().to_le_bytes();
        [&size[..], &record].concat()
    })
}

/// A row of the program `forward`.
fn point(pair: u8, room: u8, fill: u8, a: f64, b: f64) -> Vec<u8> {
    [&[pair, room, fill, 0, 0, 0, 0, 0][..], &a.to_bits().to_le_bytes(), &b.to_bits().to_le_bytes()].concat()
}

/// Rows of the program `forward`: the request's own first, every room and every pair byte, then points in and around the ranges.
pub fn points(count: usize, seed: u64) -> impl Iterator<Item = Vec<u8>> {
    let mut rows = vec![
        point(1, 22, 0xaa, 24.0, 650.0),
        point(1, 21, 0xaa, 24.0, 650.0),
        point(1, 0, 0xaa, 18.0, 640.0),
        point(1, 0, 0xaa, f64::NAN, 1.0),
        point(1, 30, 0xaa, 24.0, 650.0),
    ];
    for byte in 0..=255 {
        rows.push(point(1, byte, 0x5a, 24.0, 650.0));
        rows.push(point(1, byte, 0x5a, 101.0, 650.0));
        rows.push(point(byte, 40, byte, 700.0, 500.0));
    }
    for x in points::SPECIAL {
        for pair in 1..=5 {
            rows.push(point(pair, 40, 7, x, 650.0));
            rows.push(point(pair, 40, 7, 24.0, x));
        }
    }
    let mut random = Random::new(seed);
    let made = std::iter::from_fn(move || {
        let pair = 1 + random.below(5);
        let (entry, _) = TAGS[pair as usize - 1];
        let row = states::any(entry, &mut random);
        let room = if random.one_in(4) { random.below(48) } else { 22 + random.below(19) };
        let mut bytes = point(pair as u8, room as u8, random.next() as u8, row.first, row.second);
        for byte in &mut bytes[3..8] {
            *byte = random.next() as u8;
        }
        Some(bytes)
    });
    rows.into_iter().chain(made).take(count)
}
