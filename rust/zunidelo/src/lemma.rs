//! The lemma of a query in conflict, taken from the bytes that the library
//! wrote.

use std::fmt;

/// What holds in every interpretation of the query's terms, and is false
/// under its values: where all literals but the last are true, so is the last.
/// Its path between the two sources has the fewest writes, each of which costs
/// a comparison, and among those the fewest edges.
///
/// A comparison of two fixed numbers, [`Literal::Equal`] or [`Literal::Differ`],
/// is left out, as no interpretation decides it otherwise; between a fixed
/// number and another term it stays, and so does the conclusion always.
#[derive(Debug, Clone, PartialEq, Eq, Hash)]
pub struct Lemma {
    /// The literals in order; the last one, and no other, is the conclusion.
    pub literals: Vec<Literal>,
}

/// One literal. The numbers are those of base terms, or of a Boolean. The
/// first source and the later one are the two that conflict.
#[derive(Debug, Clone, Copy, PartialEq, Eq, Hash)]
pub enum Literal {
    /// Field 21: the index terms of the two sources are equal.
    Equal {
        /// The index term of the first source.
        first: usize,
        /// The index term of the later source.
        later: usize,
    },
    /// Field 22: a write on the path is at another index.
    Differ {
        /// The index term of the first source.
        first: usize,
        /// The index term of the write.
        write: usize,
    },
    /// Field 23: the Boolean of an equality, or of a conditional, is true.
    True {
        /// The Boolean.
        boolean: usize,
    },
    /// Field 24: the Boolean of a conditional is false.
    False {
        /// The Boolean.
        boolean: usize,
    },
    /// Field 25, the conclusion: the values of the two sources are equal.
    Conclusion {
        /// The value term of the first source.
        first: usize,
        /// The value term of the later source.
        later: usize,
    },
}

impl Lemma {
    /// The lemma of these fields, as the library writes them.
    pub(crate) fn parse(mut bytes: &[u8]) -> Lemma {
        let mut literals = Vec::new();
        while !bytes.is_empty() {
            literals.push(take_literal(&mut bytes));
        }
        Lemma { literals }
    }
}

fn take_literal(bytes: &mut &[u8]) -> Literal {
    let tag = take(bytes, 1);
    let length = take(bytes, 2);
    let one = take(bytes, 2);
    match (tag, length) {
        (0x21, 4) => Literal::Equal { first: one, later: take(bytes, 2) },
        (0x22, 4) => Literal::Differ { first: one, write: take(bytes, 2) },
        (0x23, 2) => Literal::True { boolean: one },
        (0x24, 2) => Literal::False { boolean: one },
        (0x25, 4) => Literal::Conclusion { first: one, later: take(bytes, 2) },
        _ => unreachable!("the library writes no field {tag:02x} of length {length}"),
    }
}

/// The next number of `count` bytes.
fn take(bytes: &mut &[u8], count: usize) -> usize {
    let (number, rest) = bytes.split_at(count);
    *bytes = rest;
    number.iter().fold(0, |sum, byte| sum << 8 | usize::from(*byte))
}

/// The line that the verdict program prints, such as `eq 0 1`, without its
/// newline.
impl fmt::Display for Literal {
    fn fmt(&self, formatter: &mut fmt::Formatter) -> fmt::Result {
        match self {
            Literal::Equal { first, later } => write!(formatter, "eq {first} {later}"),
            Literal::Differ { first, write } => write!(formatter, "ne {first} {write}"),
            Literal::True { boolean } => write!(formatter, "true {boolean}"),
            Literal::False { boolean } => write!(formatter, "false {boolean}"),
            Literal::Conclusion { first, later } => write!(formatter, "then {first} {later}"),
        }
    }
}

/// The verdict program's lines, one for each literal, each with its newline.
impl fmt::Display for Lemma {
    fn fmt(&self, formatter: &mut fmt::Formatter) -> fmt::Result {
        self.literals.iter().try_for_each(|literal| writeln!(formatter, "{literal}"))
    }
}
