//! Rows of 24 bytes and answers of 88, as the program `answers` reads and writes them.
//! A row: entry, i32, two f64. An answer: refusal, letter, u32 from byte 4 on, ten f64. All little end first.

use crate::forms::plain::common::property_id::*;

pub const ROW: usize = 24;
pub const ANSWER: usize = 88;

/// The names of an answer's ten numbers where it is a record.
pub const FIELDS: [&str; 10] = ["T", "d", "v", "p", "h", "s", "u", "cv", "cp", "w"];

/// The entries, by number and by the name that reports give them.
pub const ENTRIES: [(u8, &str); 32] = [
    (1, "power"),
    (2, "root"),
    (3, "logarithm"),
    (4, "exponential"),
    (5, "p_saturation"),
    (6, "T_saturation"),
    (7, "T_atRegionBoundary"),
    (8, "sub_region3_pT"),
    (9, "pT2v_3subreg"),
    (10, "pT2v_reg3"),
    (11, "pT2v_sat_reg3"),
    (12, "ph2T_reg3"),
    (13, "ph2v_reg3"),
    (14, "ps2T_reg3"),
    (15, "ps2v_reg3"),
    (16, "hs2p_reg3"),
    (18, "B23_p2T"),
    (19, "B23_T2p"),
    (20, "(T,d) record"),
    (21, "(p,T) record"),
    (22, "(p,h) record"),
    (23, "(p,s) record"),
    (24, "(h,s) record"),
    (25, "property"),
    (26, "(p,v) record"),
    (27, "(T,h) record"),
    (28, "(T,s) record"),
    (30, "column row"),
    (34, "cp and w"),
    (35, "pv2T_reg3"),
    (36, "Th2d_reg3"),
    (37, "Ts2d_reg3"),
];

/// The boundaries in the order of entry 7's whole number.
pub const BOUNDARIES: [&str; 12] = [
    "3ab", "3cd", "3ef", "3gh", "3ij", "3jk", "3mn", "3op", "3qu", "3rx", "3uv", "3wx",
];

/// The 25 properties that `Td_thermal_reg3` and `Td_ext_reg3` name, by the Rust's own numbers.
pub const PROPERTIES: [(i32, &str); 25] = [
    (OP, "OP"),
    (OV, "OV"),
    (OH, "OH"),
    (OS, "OS"),
    (OE, "OE"),
    (OU, "OU"),
    (OCP, "OCP"),
    (OCV, "OCV"),
    (OW, "OW"),
    (OKS, "OKS"),
    (OF, "OF"),
    (OG, "OG"),
    (OZ, "OZ"),
    (OEC, "OEC"),
    (OKT, "OKT"),
    (ODVDT, "ODVDT"),
    (ODVDP, "ODVDP"),
    (ODPDT, "ODPDT"),
    (OIJTC, "OIJTC"),
    (OJTC, "OJTC"),
    (OPC, "OPC"),
    (OBETAP, "OBETAP"),
    (OFI, "OFI"),
    (OFU, "OFU"),
    (OALFAP, "OALFAP"),
];

pub fn is_property(number: i32) -> bool {
    PROPERTIES.iter().any(|p| p.0 == number)
}

pub fn entry_name(entry: u8) -> &'static str {
    ENTRIES
        .iter()
        .find(|e| e.0 == entry)
        .map_or("no entry", |e| e.1)
}

#[derive(Clone, Copy, Debug, Default)]
pub struct Row {
    pub entry: u8,
    pub whole: i32,
    pub first: f64,
    pub second: f64,
}

impl Row {
    pub fn new(entry: u8, whole: i32, first: f64, second: f64) -> Row {
        Row {
            entry,
            whole,
            first,
            second,
        }
    }

    pub fn read(bytes: &[u8]) -> Row {
        Row {
            entry: bytes[0],
            whole: i32::from_le_bytes(bytes[4..8].try_into().unwrap()),
            first: number(&bytes[8..16]),
            second: number(&bytes[16..24]),
        }
    }

    pub fn bytes(&self) -> [u8; ROW] {
        let mut bytes = [0; ROW];
        bytes[0] = self.entry;
        bytes[4..8].copy_from_slice(&self.whole.to_le_bytes());
        bytes[8..16].copy_from_slice(&self.first.to_bits().to_le_bytes());
        bytes[16..24].copy_from_slice(&self.second.to_bits().to_le_bytes());
        bytes
    }
}

#[derive(Clone, Copy, Debug, Default)]
pub struct Answer {
    pub refusal: u8,
    pub letter: u8,
    /// what stands beside the refusal: of cp and w together, w's; of a search, its trials
    pub beside: u32,
    pub numbers: [f64; 10],
}

impl Answer {
    pub fn refused(refusal: u8) -> Answer {
        Answer {
            refusal,
            ..Answer::default()
        }
    }

    pub fn beside(self, beside: u32) -> Answer {
        Answer { beside, ..self }
    }

    pub fn number(x: f64) -> Answer {
        Answer::lettered(0, x)
    }

    pub fn lettered(letter: u8, x: f64) -> Answer {
        let mut numbers = [0.0; 10];
        numbers[0] = x;
        Answer {
            letter,
            numbers,
            ..Answer::default()
        }
    }

    pub fn record(numbers: [f64; 10]) -> Answer {
        Answer {
            numbers,
            ..Answer::default()
        }
    }

    pub fn bytes(&self) -> [u8; ANSWER] {
        let mut bytes = [0; ANSWER];
        bytes[0] = self.refusal;
        bytes[1] = self.letter;
        bytes[4..8].copy_from_slice(&self.beside.to_le_bytes());
        for (place, x) in bytes[8..].chunks_exact_mut(8).zip(self.numbers) {
            place.copy_from_slice(&x.to_bits().to_le_bytes());
        }
        bytes
    }

    pub fn read(bytes: &[u8]) -> Answer {
        let mut numbers = [0.0; 10];
        for (x, place) in numbers.iter_mut().zip(bytes[8..].chunks_exact(8)) {
            *x = number(place);
        }
        Answer {
            refusal: bytes[0],
            letter: bytes[1],
            beside: u32::from_le_bytes(bytes[4..8].try_into().unwrap()),
            numbers,
        }
    }
}

pub fn number(bytes: &[u8]) -> f64 {
    f64::from_bits(u64::from_le_bytes(bytes.try_into().unwrap()))
}
