//! Why a call was refused: the numbers of 01's table, in words.

use std::error::Error;
use std::fmt;

/// Why a call was refused: one case for each number of the table of refusals.
/// `offset` is that of the first byte of the field at fault.
#[derive(Debug, Clone, Copy, PartialEq, Eq, Hash)]
pub enum Refusal {
    /// 1: the query has more than [`QUERY_BYTES`](crate::QUERY_BYTES) bytes.
    QueryTooLong,
    /// 2: fewer than 3 bytes are left for a field's head, or its value runs
    /// past the end.
    CutOff {
        /// Where the field begins.
        offset: usize,
    },
    /// 3: the tag is none of 01 to 08.
    UnknownTag {
        /// Where the field begins.
        offset: usize,
    },
    /// 4: the length isn't the tag's own.
    WrongLength {
        /// Where the field begins.
        offset: usize,
    },
    /// 5: one array, base or Boolean term too many.
    TooManyTerms {
        /// Where the field begins.
        offset: usize,
    },
    /// 6: a term is named that is not yet given.
    TermNotGiven {
        /// Where the field begins.
        offset: usize,
    },
    /// 7: a truth byte is neither 0 nor 1.
    NoTruth {
        /// Where the field begins.
        offset: usize,
    },
    /// 8: a witness isn't a read, or reads another array, or the two read at
    /// different index terms.
    WrongWitness {
        /// Where the field begins.
        offset: usize,
    },
    /// 9: an equality with truth 0 whose witnesses have equal values.
    EqualWitnesses {
        /// Where the field begins.
        offset: usize,
    },
    /// 10: the answer is longer than the buffer.
    BufferTooShort,
    /// 11: the query has no array term of this number, or the index is 2^32 or
    /// more.
    NoSuchCell,
    /// 12: a lookup on a query in conflict, or clauses for a consistent one.
    OtherVerdict,
}

impl Refusal {
    /// The refusal that the library reports by its number.
    pub(crate) fn reported(number: u64, offset: u64) -> Refusal {
        let offset = offset as usize;
        match number {
            1 => Refusal::QueryTooLong,
            2 => Refusal::CutOff { offset },
            3 => Refusal::UnknownTag { offset },
            4 => Refusal::WrongLength { offset },
            5 => Refusal::TooManyTerms { offset },
            6 => Refusal::TermNotGiven { offset },
            7 => Refusal::NoTruth { offset },
            8 => Refusal::WrongWitness { offset },
            9 => Refusal::EqualWitnesses { offset },
            10 => Refusal::BufferTooShort,
            11 => Refusal::NoSuchCell,
            12 => Refusal::OtherVerdict,
            _ => unreachable!("the library has no refusal {number}"),
        }
    }

    /// The number in the table of refusals, 1 to 12.
    pub fn number(self) -> u8 {
        match self {
            Refusal::QueryTooLong => 1,
            Refusal::CutOff { .. } => 2,
            Refusal::UnknownTag { .. } => 3,
            Refusal::WrongLength { .. } => 4,
            Refusal::TooManyTerms { .. } => 5,
            Refusal::TermNotGiven { .. } => 6,
            Refusal::NoTruth { .. } => 7,
            Refusal::WrongWitness { .. } => 8,
            Refusal::EqualWitnesses { .. } => 9,
            Refusal::BufferTooShort => 10,
            Refusal::NoSuchCell => 11,
            Refusal::OtherVerdict => 12,
        }
    }

    /// The offset of the field at fault, or 0 where the refusal names no place.
    pub fn offset(self) -> usize {
        match self {
            Refusal::CutOff { offset }
            | Refusal::UnknownTag { offset }
            | Refusal::WrongLength { offset }
            | Refusal::TooManyTerms { offset }
            | Refusal::TermNotGiven { offset }
            | Refusal::NoTruth { offset }
            | Refusal::WrongWitness { offset }
            | Refusal::EqualWitnesses { offset } => offset,
            Refusal::QueryTooLong
            | Refusal::BufferTooShort
            | Refusal::NoSuchCell
            | Refusal::OtherVerdict => 0,
        }
    }

    /// Whether the refusal is about one field, so that its offset is a place.
    fn has_place(self) -> bool {
        (2..=9).contains(&self.number())
    }

    fn words(self) -> &'static str {
        match self {
            Refusal::QueryTooLong => "the query has more than 4,096 bytes",
            Refusal::CutOff { .. } => "the field is cut off by the end of the query",
            Refusal::UnknownTag { .. } => "no field has this tag",
            Refusal::WrongLength { .. } => "the length isn't the one that the tag has",
            Refusal::TooManyTerms { .. } => "one term too many of its series",
            Refusal::TermNotGiven { .. } => "a term is named that is not yet given",
            Refusal::NoTruth { .. } => "the truth is neither 0 nor 1",
            Refusal::WrongWitness { .. } => {
                "a witness isn't a read of its side, or the two read at different index terms"
            }
            Refusal::EqualWitnesses { .. } => {
                "an equality taken to be false, whose witnesses have equal values"
            }
            Refusal::BufferTooShort => "the answer is longer than the buffer",
            Refusal::NoSuchCell => {
                "the query has no array term of this number, or no array has such an index"
            }
            Refusal::OtherVerdict => {
                "a lookup needs a consistent query, and clauses need one in conflict"
            }
        }
    }
}

/// Number, place and reason, such as `refused 3 at byte 0: no field has this
/// tag`.
impl fmt::Display for Refusal {
    fn fmt(&self, formatter: &mut fmt::Formatter) -> fmt::Result {
        write!(formatter, "refused {}", self.number())?;
        if self.has_place() {
            write!(formatter, " at byte {}", self.offset())?;
        }
        write!(formatter, ": {}", self.words())
    }
}

impl Error for Refusal {}
