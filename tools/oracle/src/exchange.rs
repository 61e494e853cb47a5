//! The exchange record, read from document 02's Ask 3 by itself: a list of fields, then the pair and its entry's answer.
//! Nothing here follows the port's reader.

use crate::entries;
use crate::row::{number, Row, ANSWER};

pub const REPLY: usize = 24 + ANSWER;

/// The tags of the five pairs, the byte that names the pair, and its entry's number.
const PAIRS: [([u8; 2], u8, u8); 5] = [
    ([1, 2], 1, 21),
    ([2, 3], 2, 20),
    ([1, 4], 3, 22),
    ([1, 5], 4, 23),
    ([4, 5], 5, 24),
];

/// A field as it stands: tag, bytes.
type Field<'a> = (u8, &'a [u8]);

/// The first field and what follows it.
fn field(bytes: &[u8]) -> Option<(Field<'_>, &[u8])> {
    let (header, rest) = (bytes.get(..3)?, &bytes[3..]);
    let size = usize::from(u16::from_be_bytes([header[1], header[2]]));
    Some(((header[0], rest.get(..size)?), &rest[size..]))
}

/// The pair's place in the list and its two numbers as they stand, high byte first; or 10 to 14.
pub fn read(record: &[u8]) -> Result<(usize, [[u8; 8]; 2]), u8> {
    let mut known: Vec<(u8, [u8; 8])> = Vec::new();
    let mut rest = record;
    while !rest.is_empty() {
        let ((tag, body), after) = field(rest).ok_or(10)?;
        rest = after;
        if tag >= 128 {
            continue;
        }
        if !matches!(tag, 1..=5) {
            return Err(11);
        }
        let number = body.try_into().map_err(|_| 12)?;
        if known.iter().any(|k| k.0 >= tag) {
            return Err(13);
        }
        known.push((tag, number));
    }
    let &[(x, a), (y, b)] = &known[..] else {
        return Err(14);
    };
    let place = PAIRS.iter().position(|p| p.0 == [x, y]).ok_or(14)?;
    Ok((place, [a, b]))
}

/// The 112 bytes that the program `exchange` answers a record with.
pub fn reply(record: &[u8]) -> [u8; REPLY] {
    let mut bytes = [0; REPLY];
    match read(record) {
        Err(refusal) => bytes[0] = refusal,
        Ok((place, numbers)) => {
            let (_, pair, entry) = PAIRS[place];
            bytes[1] = pair;
            for (at, mut x) in [(8, numbers[0]), (16, numbers[1])] {
                x.reverse();
                bytes[at..at + 8].copy_from_slice(&x);
            }
            let row = Row::new(entry, 0, number(&bytes[8..16]), number(&bytes[16..24]));
            bytes[24..].copy_from_slice(&entries::answer(&row).bytes());
        }
    }
    bytes
}

/// A list of records as the program reads them, each after its length, little end first. What is no whole record ends it.
pub fn records(mut bytes: &[u8]) -> Vec<&[u8]> {
    let mut all = Vec::new();
    while bytes.len() >= 2 {
        let size = usize::from(u16::from_le_bytes([bytes[0], bytes[1]]));
        let Some(record) = bytes.get(2..2 + size) else {
            break;
        };
        all.push(record);
        bytes = &bytes[2 + size..];
    }
    all
}

/// A field's bytes.
pub fn spelt(tag: u8, body: &[u8]) -> Vec<u8> {
    let size = u16::try_from(body.len()).unwrap().to_be_bytes();
    [&[tag][..], &size, body].concat()
}

// The writer, from the request's Ask 7 by itself.

pub const FORWARD: usize = 48;

/// Writes the pair's record at the front of the room, or answers the entry's own number, then 16, and writes nothing.
pub fn write(place: usize, numbers: [f64; 2], room: &mut [u8]) -> u8 {
    let (tags, _, entry) = PAIRS[place];
    let refusal = entries::answer(&Row::new(entry, 0, numbers[0], numbers[1])).refusal;
    if refusal != 0 {
        return refusal;
    }
    let record = [spelt(tags[0], &numbers[0].to_be_bytes()), spelt(tags[1], &numbers[1].to_be_bytes())].concat();
    match room.get_mut(..record.len()) {
        None => 16,
        Some(front) => {
            front.copy_from_slice(&record);
            0
        }
    }
}

/// The 48 bytes that the program `forward` answers a row of 24 with.
pub fn forward(row: &[u8]) -> [u8; FORWARD] {
    let mut bytes = [0; FORWARD];
    let room = &mut bytes[8..8 + usize::from(row[1]).min(40)];
    room.fill(row[2]);
    let place = PAIRS.iter().position(|p| p.1 == row[0]);
    bytes[0] = place.map_or(255, |place| write(place, [number(&row[8..16]), number(&row[16..24])], room));
    bytes
}
