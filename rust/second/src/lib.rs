//! The second program: check, lookup and clauses of document 01, with what
//! document 02 changes in them (E1, E6), written from their text alone and by
//! sets of arrays held in 64-bit words. It shares no code with the product that
//! it is compared with.

mod clauses;
mod decode;
mod layers;
mod lemma;
mod lines;
mod query;
mod reach;

pub use clauses::Written;
pub use lines::{clause_lines, lookup_line, verdict_lines};
pub use query::{MAX_ARRAYS, MAX_BASES, MAX_BOOLEANS, MAX_QUERY_BYTES};

/// 01's width of a base term in bits. The judge runs the clauses at less.
pub const WIDTH: u32 = 32;

/// The largest lemma, in bytes (01, The lemma).
pub const MAX_LEMMA_BYTES: usize = 343;

/// The longest run of clause numbers (01, The clauses).
pub const MAX_CLAUSE_NUMBERS: usize = 12_625;

/// Why a call was refused: the number of 01's table, and the offset of the
/// field at fault, or 0 where the number names no place.
#[derive(Clone, Copy, Debug, PartialEq, Eq)]
pub struct Refusal {
    pub number: u8,
    pub offset: usize,
}

impl Refusal {
    /// A refusal that names no place.
    pub(crate) fn without_place(number: u8) -> Refusal {
        Refusal { number, offset: 0 }
    }
}

/// What a check answers. `lemma` holds the bytes written to the answer buffer.
#[derive(Clone, Debug, PartialEq, Eq)]
pub enum Checked {
    Refused(Refusal),
    Consistent { pairs: usize },
    Conflict { pairs: usize, lemma: Vec<u8> },
}

/// Checks one query with an answer buffer of `room` bytes.
pub fn check(bytes: &[u8], room: usize) -> Checked {
    let query = match decode::decode(bytes) {
        Ok(query) => query,
        Err(refusal) => return Checked::Refused(refusal),
    };
    let reach = reach::Reach::of(&query);
    let pairs = reach.pairs(&query);
    let Some(literals) = lemma::lemma(&query, &reach) else {
        return Checked::Consistent { pairs };
    };
    let lemma = lemma::encode(&literals);
    if lemma.len() > room {
        return Checked::Refused(Refusal::without_place(10));
    }
    Checked::Conflict { pairs, lemma }
}

/// The model's value at one cell. Array and index may be any numbers; an
/// index that no source has, of whatever size, holds 0.
pub fn lookup(bytes: &[u8], array: u64, index: u64) -> Result<u64, Refusal> {
    let query = decode::decode(bytes)?;
    let reach = reach::Reach::of(&query);
    if lemma::least_pair(&query, &reach).is_some() {
        return Err(Refusal::without_place(12));
    }
    if array >= query.arrays as u64 {
        return Err(Refusal::without_place(11));
    }
    Ok(reach.cell(&query, array as usize, index))
}

/// The clauses of the lemma, into a run of `room` numbers.
pub fn clauses(bytes: &[u8], room: usize) -> Result<Written, Refusal> {
    clauses_at_width(bytes, room, WIDTH)
}

/// The same clauses for base terms of `width` bits instead of 32.
pub fn clauses_at_width(bytes: &[u8], room: usize, width: u32) -> Result<Written, Refusal> {
    let query = decode::decode(bytes)?;
    let reach = reach::Reach::of(&query);
    let literals = lemma::lemma(&query, &reach).ok_or(Refusal::without_place(12))?;
    let written = clauses::write(&query, &literals, width);
    if written.numbers.len() > room {
        return Err(Refusal::without_place(10));
    }
    Ok(written)
}
