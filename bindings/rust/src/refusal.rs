use std::fmt;

/// Why a call is refused.
///
/// They are looked for in the order 7, 6, 1, 2, 3, 8, then 4 or 5 at the first step that meets either; of a search its 5, 4 of what it proposes, 5 or 4
/// of the test, 15, then the record's 4 or 5. Later versions of the library add numbers.
#[derive(Clone, Copy, Debug, PartialEq, Eq, Hash)]
#[non_exhaustive]
pub enum Refusal {
    /// 1: an argument is NaN or infinite.
    NotFinite,
    /// 2: the first argument is outside its range.
    First,
    /// 3: the second argument is outside its range.
    Second,
    /// 4: a p, T or d of the state, worked out by the call, is outside its range.
    State,
    /// 5: a step gives a number that is not finite, a power has lost its digits, or a root of a negative or a logarithm of a number not above 0 is taken.
    Step,
    /// 6: the property's number is unknown.
    Property,
    /// 7: the columns are of unequal length.
    Columns,
    /// 8: T is above the border with region 2 at p.
    Border,
    /// 10, of [`read`](crate::read) alone: a field or its header runs past the end.
    PastEnd,
    /// 11, of [`read`](crate::read) alone: a field's tag is unknown.
    UnknownTag,
    /// 12, of [`read`](crate::read) alone: a known field is not of 8 bytes.
    WrongLength,
    /// 13, of [`read`](crate::read) alone: a known tag is not above the one before.
    OutOfOrder,
    /// 14, of [`read`](crate::read) alone: the known tags are not one of the five pairs.
    NotAPair,
    /// 15: what a search proposes has not the property that was asked for.
    Unfound,
    /// 16, of [`write`](crate::write) alone: fewer than 22 bytes are lent.
    NoRoom,
    /// A number that this version of the crate does not know: the library is newer than the crate.
    Other(
        /// The number, which is not 0.
        u8,
    ),
}

impl Refusal {
    /// The refusal of a number: none for 0, which is accepted, and one for every other.
    pub fn of(number: u8) -> Option<Refusal> {
        Some(match number {
            0 => return None,
            1 => Refusal::NotFinite,
            2 => Refusal::First,
            3 => Refusal::Second,
            4 => Refusal::State,
            5 => Refusal::Step,
            6 => Refusal::Property,
            7 => Refusal::Columns,
            8 => Refusal::Border,
            10 => Refusal::PastEnd,
            11 => Refusal::UnknownTag,
            12 => Refusal::WrongLength,
            13 => Refusal::OutOfOrder,
            14 => Refusal::NotAPair,
            15 => Refusal::Unfound,
            16 => Refusal::NoRoom,
            other => Refusal::Other(other),
        })
    }

    /// The number, as the C header and the README have it.
    pub fn number(self) -> u8 {
        match self {
            Refusal::NotFinite => 1,
            Refusal::First => 2,
            Refusal::Second => 3,
            Refusal::State => 4,
            Refusal::Step => 5,
            Refusal::Property => 6,
            Refusal::Columns => 7,
            Refusal::Border => 8,
            Refusal::PastEnd => 10,
            Refusal::UnknownTag => 11,
            Refusal::WrongLength => 12,
            Refusal::OutOfOrder => 13,
            Refusal::NotAPair => 14,
            Refusal::Unfound => 15,
            Refusal::NoRoom => 16,
            Refusal::Other(number) => number,
        }
    }
}

impl fmt::Display for Refusal {
    fn fmt(&self, f: &mut fmt::Formatter<'_>) -> fmt::Result {
        f.write_str(match self {
            Refusal::NotFinite => "an argument is NaN or infinite",
            Refusal::First => "the first argument is outside its range",
            Refusal::Second => "the second argument is outside its range",
            Refusal::State => "a p, T or d of the state, worked out by the call, is outside its range",
            Refusal::Step => "a step gives a number that is not finite, a power has lost its digits, or a root of a negative or a logarithm of a number not above 0 is taken",
            Refusal::Property => "the property's number is unknown",
            Refusal::Columns => "the columns are of unequal length",
            Refusal::Border => "T is above the border with region 2 at p",
            Refusal::PastEnd => "a field or its header runs past the end",
            Refusal::UnknownTag => "a field's tag is unknown",
            Refusal::WrongLength => "a known field is not of 8 bytes",
            Refusal::OutOfOrder => "a known tag is not above the one before",
            Refusal::NotAPair => "the known tags are not one of the five pairs",
            Refusal::Unfound => "what a search proposes has not the property that was asked for",
            Refusal::NoRoom => "fewer than 22 bytes are lent",
            Refusal::Other(number) => return write!(f, "refused with {number}, which this version of the crate does not know"),
        })
    }
}

impl std::error::Error for Refusal {}
