//! Zunidelo from Rust: is there any memory that fits a guess?
//!
//! A query is a run of bytes that gives array terms (variables, writes,
//! conditionals, reads, equalities), a guessed value for each read, and fixed
//! numbers, which have their value whatever is guessed. This crate is a thin,
//! safe cover over the library's three functions, which are proved to meet
//! their contracts:
//!
//! - [`check`] says whether some memories fit the guess, and gives a lemma
//!   that rules the guess out where none do;
//! - [`lookup`] gives one cell of memories that fit;
//! - [`clauses`] gives the lemma as clauses for a SAT solver.
//!
//! They take any bytes: what isn't a query is answered with a [`Refusal`].
//! They keep no state and can be called from any thread. [`check_into`] and
//! [`clauses_into`] write into a buffer of the caller's and allocate nothing.
//!
//! The page `docs/FORMAT.md` of the product has the format of a query, of the
//! lemma and of the clauses, and what a loop of guesses owes.
//!
//! # Example
//!
//! Two base terms of value 5, an array, and two reads of it: 7 at the one
//! index, 9 at the other. No memory fits, since 5 is 5.
//!
//! ```
//! use zunidelo::{check, clauses, lookup, Literal, Refusal, Verdict};
//!
//! let mut query = vec![
//!     0x01, 0, 4, 0, 0, 0, 5, // base 0 = 5
//!     0x01, 0, 4, 0, 0, 0, 5, // base 1 = 5
//!     0x03, 0, 0, // array 0
//!     0x06, 0, 8, 0, 0, 0, 0, 0, 0, 0, 7, // base 2 = 7: array 0 at base 0
//!     0x06, 0, 8, 0, 0, 0, 1, 0, 0, 0, 9, // base 3 = 9: array 0 at base 1
//! ];
//!
//! let Verdict::Conflict { pairs, lemma } = check(&query)? else { panic!("no memory fits") };
//! assert_eq!(pairs, 2);
//! assert_eq!(lemma.literals[0], Literal::Equal { first: 0, later: 1 });
//! assert_eq!(lemma.to_string(), "eq 0 1\nthen 2 3\n");
//! assert!(clauses(&query)?.to_string().starts_with("p cnf 161 129\n1 33 -129 0\n"));
//! assert_eq!(lookup(&query, 0, 5), Err(Refusal::OtherVerdict));
//!
//! // With 7 at both indices there are such memories, with 7 in cell 5.
//! *query.last_mut().unwrap() = 7;
//! assert_eq!(check(&query)?, Verdict::Consistent { pairs: 2 });
//! assert_eq!(lookup(&query, 0, 5)?, 7);
//! # Ok::<(), Refusal>(())
//! ```
//!
//! # Constants
//!
//! A base term of tag 01 is free. One of tag 08 is a fixed number: its value is
//! the same in every interpretation, and no lemma compares two of them, which
//! would cost 64 clauses. With both indices of the example fixed:
//!
//! ```
//! use zunidelo::{check, clauses, Refusal, Verdict};
//!
//! let query = [
//!     0x08, 0, 4, 0, 0, 0, 5, // base 0 is 5
//!     0x08, 0, 4, 0, 0, 0, 5, // base 1 is 5
//!     0x03, 0, 0, // array 0
//!     0x06, 0, 8, 0, 0, 0, 0, 0, 0, 0, 7, // base 2 = 7: array 0 at base 0
//!     0x06, 0, 8, 0, 0, 0, 1, 0, 0, 0, 9, // base 3 = 9: array 0 at base 1
//! ];
//! let Verdict::Conflict { lemma, .. } = check(&query)? else { panic!("no memory fits") };
//! assert_eq!(lemma.to_string(), "then 2 3\n");
//! assert!(clauses(&query)?.to_string().starts_with("p cnf 129 65\n"));
//! # Ok::<(), Refusal>(())
//! ```
//!
//! # Growing a query
//!
//! A query that is in conflict stays so whatever fields are put after it, as
//! long as it is accepted: a search that extends queries at the end can drop
//! one at its first conflict. The lemma of that front rules the grown guess out
//! as it stands, though the grown query's own may be another, and longer. The
//! front's clauses do not: the variables of Booleans and the fresh ones depend
//! on how many base terms there are, so that clauses are to be had by a call on
//! the grown query, or renumbered. The first example, and one more read:
//!
//! ```
//! use zunidelo::{check, clauses, Literal, Refusal, Verdict};
//!
//! let mut query = vec![
//!     0x01, 0, 4, 0, 0, 0, 5, // base 0 = 5
//!     0x01, 0, 4, 0, 0, 0, 5, // base 1 = 5
//!     0x03, 0, 0, // array 0
//!     0x06, 0, 8, 0, 0, 0, 0, 0, 0, 0, 7, // base 2 = 7: array 0 at base 0
//!     0x06, 0, 8, 0, 0, 0, 1, 0, 0, 0, 9, // base 3 = 9: array 0 at base 1
//! ];
//! let Verdict::Conflict { lemma, .. } = check(&query)? else { panic!("no memory fits") };
//! assert!(clauses(&query)?.to_string().starts_with("p cnf 161 129\n1 33 -129 0\n"));
//!
//! query.extend([0x06, 0, 8, 0, 0, 0, 1, 0, 0, 0, 7]); // base 4 = 7: array 0 at base 1
//! assert!(matches!(check(&query)?, Verdict::Conflict { .. }));
//! let grown = [5, 5, 7, 9, 7]; // the values of base terms 0 to 4
//! for literal in lemma.literals {
//!     match literal {
//!         Literal::Equal { first, later } => assert_eq!(grown[first], grown[later]),
//!         Literal::Conclusion { first, later } => assert_ne!(grown[first], grown[later]),
//!         other => panic!("the lemma has no {other}"),
//!     }
//! }
//! // The bits of base term 4 are the variables 129 to 160, where fresh ones were.
//! assert!(clauses(&query)?.to_string().starts_with("p cnf 193 129\n1 33 -161 0\n"));
//! # Ok::<(), Refusal>(())
//! ```

mod call;
mod clauses;
mod lemma;
mod refusal;

pub use clauses::Clauses;
pub use lemma::{Lemma, Literal};
pub use refusal::Refusal;

/// The longest query that is not refused for its length, in bytes.
pub const QUERY_BYTES: usize = 4_096;

/// The longest lemma in bytes: with a buffer of this length no check is
/// refused for its buffer.
pub const LEMMA_BYTES: usize = 343;

/// The longest run of clauses: with a run of this length no call is refused
/// for it.
pub const CLAUSE_NUMBERS: usize = 12_625;

/// How many bytes of stack a call of the library needs at the most, below the
/// frame of its caller. This is measured, not proved: on x86-64, over the
/// largest queries of every class in both verdicts and over every refusal, by
/// `tests/stack` of the product. On another processor it may be a little more
/// or less.
///
/// The functions of this crate are such callers. In an optimised build their
/// own frames take fewer than 512 bytes beside: [`check`] has a buffer of
/// [`LEMMA_BYTES`] there, the others have no buffer on the stack.
pub const STACK_BYTES: usize = 9_000;

/// What a check says of a query.
#[derive(Debug, Clone, PartialEq, Eq, Hash)]
pub enum Verdict {
    /// Some memories fit the guess; [`lookup`] gives their cells.
    Consistent {
        /// How many pairs of an array term and a source that reaches it there are.
        pairs: usize,
    },
    /// No memories fit the guess, and the lemma says why.
    Conflict {
        /// How many pairs of an array term and a source that reaches it there are.
        pairs: usize,
        /// What the guess breaks.
        lemma: Lemma,
    },
}

/// What a check into a buffer says of a query.
#[derive(Debug, Clone, Copy, PartialEq, Eq, Hash)]
pub enum Checked {
    /// Some memories fit the guess; the buffer is untouched.
    Consistent {
        /// How many pairs of an array term and a source that reaches it there are.
        pairs: usize,
    },
    /// No memories fit the guess; the buffer begins with the lemma.
    Conflict {
        /// How many pairs of an array term and a source that reaches it there are.
        pairs: usize,
        /// How many bytes the lemma has; the buffer's others are untouched.
        length: usize,
    },
}

/// How much the clauses of a query are.
#[derive(Debug, Clone, Copy, PartialEq, Eq, Hash)]
pub struct Totals {
    /// How many variables there are, used or not.
    pub variables: usize,
    /// How many clauses there are.
    pub clauses: usize,
    /// How many numbers were written, with the 0 that closes each clause.
    pub count: usize,
}

/// Checks a query, and gives the lemma of one in conflict.
///
/// ```
/// use zunidelo::{check, Refusal, Verdict};
///
/// assert_eq!(check(&[]), Ok(Verdict::Consistent { pairs: 0 }));
/// assert_eq!(check(&[0x09, 0, 0]), Err(Refusal::UnknownTag { offset: 0 }));
/// ```
pub fn check(query: &[u8]) -> Result<Verdict, Refusal> {
    let mut answer = [0; LEMMA_BYTES];
    Ok(match check_into(query, &mut answer)? {
        Checked::Consistent { pairs } => Verdict::Consistent { pairs },
        Checked::Conflict { pairs, length } => {
            Verdict::Conflict { pairs, lemma: Lemma::parse(&answer[..length]) }
        }
    })
}

/// Checks a query, and writes the lemma of one in conflict into the buffer, as
/// fields 21 to 25.
///
/// A refused check changes no byte of the buffer, and neither does one of a
/// consistent query. A buffer that is too short for the lemma is
/// [`Refusal::BufferTooShort`]; [`LEMMA_BYTES`] are always enough.
///
/// ```
/// use zunidelo::{check_into, Checked, Refusal};
///
/// // one index, one array, and two reads there that differ
/// let query = [
///     0x01, 0, 4, 0, 0, 0, 5, 0x03, 0, 0, //
///     0x06, 0, 8, 0, 0, 0, 0, 0, 0, 0, 7, 0x06, 0, 8, 0, 0, 0, 0, 0, 0, 0, 9,
/// ];
/// let mut answer = [0xAA; 8];
/// assert_eq!(check_into(&query, &mut answer[..6]), Err(Refusal::BufferTooShort));
/// assert_eq!(check_into(&query, &mut answer), Ok(Checked::Conflict { pairs: 2, length: 7 }));
/// assert_eq!(answer, [0x25, 0, 4, 0, 1, 0, 2, 0xAA]);
/// ```
pub fn check_into(query: &[u8], answer: &mut [u8]) -> Result<Checked, Refusal> {
    let (returned, [number, offset, pairs, length]) = call::check(query, answer);
    let pairs = pairs as usize;
    match returned {
        call::CONSISTENT => Ok(Checked::Consistent { pairs }),
        call::CONFLICT => Ok(Checked::Conflict { pairs, length: length as usize }),
        _ => Err(Refusal::reported(number, offset)),
    }
}

/// Looks up what the array term has at the index, in memories that fit the
/// guess of a consistent query. Indices are below 2^32; one that no source has
/// holds 0.
///
/// ```
/// use zunidelo::{lookup, Refusal};
///
/// let query = [0x03, 0, 0];
/// assert_eq!(lookup(&query, 0, 5), Ok(0));
/// assert_eq!(lookup(&query, 1, 5), Err(Refusal::NoSuchCell));
/// assert_eq!(lookup(&query, 0, 1 << 32), Err(Refusal::NoSuchCell));
/// ```
pub fn lookup(query: &[u8], array: u64, index: u64) -> Result<u64, Refusal> {
    let (returned, [number, offset, value, _]) = call::lookup(query, array, index);
    match returned {
        call::CONSISTENT => Ok(value),
        _ => Err(Refusal::reported(number, offset)),
    }
}

/// The clauses that say exactly the lemma of a query in conflict.
///
/// The fresh variables of every call start at the same number, the first after
/// those of the terms: give each call's fresh variables numbers that nothing
/// else has before clauses of two calls meet in one solver, or it will call
/// satisfiable problems unsatisfiable. The page `docs/FORMAT.md` shows how, and
/// says what else the caller owes.
///
/// ```
/// use zunidelo::{clauses, Refusal};
///
/// assert_eq!(clauses(&[]), Err(Refusal::OtherVerdict));
/// ```
pub fn clauses(query: &[u8]) -> Result<Clauses, Refusal> {
    let mut numbers = vec![0; CLAUSE_NUMBERS];
    let totals = clauses_into(query, &mut numbers)?;
    Ok(Clauses::split(totals.variables, &numbers[..totals.count]))
}

/// Writes the clauses of a query in conflict into the run, each closed by 0.
/// Their fresh variables are to be renumbered, as for [`clauses`].
///
/// A refused call changes no number of the run. A run that is too short is
/// [`Refusal::BufferTooShort`]; [`CLAUSE_NUMBERS`] are always enough.
///
/// ```
/// use zunidelo::{clauses_into, Totals};
///
/// // one index, one array, and two reads there that differ
/// let query = [
///     0x01, 0, 4, 0, 0, 0, 5, 0x03, 0, 0, //
///     0x06, 0, 8, 0, 0, 0, 0, 0, 0, 0, 7, 0x06, 0, 8, 0, 0, 0, 0, 0, 0, 0, 9,
/// ];
/// let mut numbers = [0; 300];
/// let totals = Totals { variables: 97, clauses: 65, count: 258 };
/// assert_eq!(clauses_into(&query, &mut numbers), Ok(totals));
/// assert_eq!(numbers[..8], [-33, 65, -97, 0, 33, -65, -97, 0]);
/// ```
pub fn clauses_into(query: &[u8], numbers: &mut [i32]) -> Result<Totals, Refusal> {
    let (returned, [number, offset, variables, clauses, count]) = call::clauses(query, numbers);
    match returned {
        call::CONFLICT => Ok(Totals {
            variables: variables as usize,
            clauses: clauses as usize,
            count: count as usize,
        }),
        _ => Err(Refusal::reported(number, offset)),
    }
}
