//! The calls that are timed, each by every contender: the same bytes in, the
//! same buffers out.

use crate::libraries::{Answer, Check, Clauses, Function, Lookup, Report};
use judge::field::{decode, Field, Series};
use std::ops::Range;
use tester::mutate::raw_fields;
use zunidelo::{CLAUSE_NUMBERS, LEMMA_BYTES};

/// What the functions return, as the header numbers it.
const CONSISTENT: u32 = 0;
pub const CONFLICT: u32 = 1;
pub const REFUSED: u32 = 2;

/// The least index that the library refuses, and by which number. The second
/// program takes any index.
const INDEX_LIMIT: u64 = 1 << 32;
pub const NO_SUCH_CELL: u64 = 11;

/// The number by which an answer that is longer than its buffer is refused.
pub const NO_ROOM: u64 = 10;

/// The tag of a fixed number (02, E1).
const FIXED_TAG: u8 = 8;

/// What a buffer is filled with, so that a write of 0 is seen.
const BYTE: u8 = 0xAA;
const NUMBER: i32 = -7;

/// A query, a cell of its newest array at an index that most sources have,
/// and the buffers that answers go to.
#[derive(Clone, PartialEq)]
pub struct Question {
    query: Vec<u8>,
    array: u64,
    index: u64,
    answer: Vec<u8>,
    numbers: Vec<i32>,
}

impl Question {
    pub fn about(query: &[u8]) -> Question {
        let (fields, _) = decode(query);
        let arrays = fields.iter().filter(|field| field.gives() == Series::Array).count() as u64;
        Question {
            query: query.to_vec(),
            array: arrays.saturating_sub(1),
            index: 1,
            answer: vec![BYTE; LEMMA_BYTES],
            numbers: vec![NUMBER; CLAUSE_NUMBERS],
        }
    }

    /// The same with room for so many bytes of a lemma.
    pub fn with_bytes(self, room: usize) -> Question {
        Question { answer: vec![BYTE; room], ..self }
    }

    /// The same with room for so many numbers of clauses.
    pub fn with_numbers(self, room: usize) -> Question {
        Question { numbers: vec![NUMBER; room], ..self }
    }

    /// The same with as much room as any answer takes.
    pub fn with_all_room(self) -> Question {
        self.with_bytes(LEMMA_BYTES).with_numbers(CLAUSE_NUMBERS)
    }

    /// The same with no more room than another question has.
    pub fn with_room_of(mut self, other: &Question) -> Question {
        self.answer.truncate(other.answer.len());
        self.numbers.truncate(other.numbers.len());
        self
    }

    /// Whether a field of the query has the tag of a fixed number.
    pub fn has_fixed(&self) -> bool {
        raw_fields(&self.query).iter().any(|field| field.first() == Some(&FIXED_TAG))
    }

    pub fn has_room_for(&self, written: &Written) -> bool {
        written.bytes <= self.answer.len() && written.numbers <= self.numbers.len()
    }

    /// The first bytes of the answer.
    pub fn bytes(&self, count: usize) -> &[u8] {
        &self.answer[..count]
    }

    /// Whether the buffers are as they were filled, but for what is written.
    pub fn is_untouched_after(&self, written: &Written) -> bool {
        self.has_room_for(written)
            && self.answer[written.bytes..].iter().all(|byte| *byte == BYTE)
            && self.numbers[written.numbers..].iter().all(|number| *number == NUMBER)
    }

    /// The same about the array after the newest.
    pub fn past_the_arrays(self) -> Question {
        Question { array: self.array + 1, ..self }
    }

    /// The same at the least index that is refused.
    pub fn past_the_indices(self) -> Question {
        Question { index: INDEX_LIMIT, ..self }
    }
}

/// How much of each buffer an answer fills.
#[derive(Default)]
pub struct Written {
    pub bytes: usize,
    pub numbers: usize,
}

/// A function of the library, which the second program has as well.
pub trait Contest: Function {
    const NAME: &'static str;

    /// The earlier library's, where one is linked that can be asked about this
    /// query: one that knows no fixed numbers refuses each, and has nothing to
    /// compare.
    fn before(question: &Question) -> Option<Self> {
        Self::BEFORE.filter(|_| Check::knows_fixed() || !question.has_fixed())
    }

    /// Today's, then the earlier one where it can be asked.
    fn asked(question: &Question) -> impl Iterator<Item = Self> {
        [Self::TODAY].into_iter().chain(Self::before(question))
    }

    /// Which numbers of a report of a conflict are about the lemma.
    const OF_THE_LEMMA: Range<usize>;

    /// What it has written, by its report.
    fn written(report: &Report) -> Written;

    /// Whether the function refuses no query of this verdict.
    fn answers(conflict: bool) -> bool;

    fn library(self, question: &mut Question) -> Answer;
    fn second(question: &mut Question) -> Answer;
}

impl Check {
    /// Whether the earlier library, if one is linked, knows fixed numbers: it
    /// accepts a query of one.
    fn knows_fixed() -> bool {
        let one = Question::about(&Field::Fixed { value: 0 }.bytes());
        Check::BEFORE.is_some_and(|before| refused_by(before.library(&mut one.clone())).is_none())
    }
}

impl Contest for Check {
    const NAME: &'static str = "check";
    const OF_THE_LEMMA: Range<usize> = 3..4;

    fn written(report: &Report) -> Written {
        Written { bytes: report[3] as usize, ..Written::default() }
    }

    fn answers(_conflict: bool) -> bool {
        true
    }

    fn library(self, question: &mut Question) -> Answer {
        self.call(&question.query, &mut question.answer)
    }

    fn second(question: &mut Question) -> Answer {
        match second::check(&question.query, question.answer.len()) {
            second::Checked::Consistent { pairs } => (CONSISTENT, [0, 0, pairs as u64, 0, 0]),
            second::Checked::Conflict { pairs, lemma } => {
                question.answer[..lemma.len()].copy_from_slice(&lemma);
                (CONFLICT, [0, 0, pairs as u64, lemma.len() as u64, 0])
            }
            second::Checked::Refused(refusal) => refused(refusal),
        }
    }
}

impl Contest for Lookup {
    const NAME: &'static str = "lookup";
    const OF_THE_LEMMA: Range<usize> = 0..0;

    fn written(_report: &Report) -> Written {
        Written::default()
    }

    fn answers(conflict: bool) -> bool {
        !conflict
    }

    fn library(self, question: &mut Question) -> Answer {
        self.call(&question.query, question.array, question.index)
    }

    fn second(question: &mut Question) -> Answer {
        match second::lookup(&question.query, question.array, question.index) {
            Ok(_) if question.index >= INDEX_LIMIT => (REFUSED, [NO_SUCH_CELL, 0, 0, 0, 0]),
            Ok(value) => (CONSISTENT, [0, 0, value, 0, 0]),
            Err(refusal) => refused(refusal),
        }
    }
}

impl Contest for Clauses {
    const NAME: &'static str = "clauses";
    const OF_THE_LEMMA: Range<usize> = 2..5;

    fn written(report: &Report) -> Written {
        Written { numbers: report[4] as usize, ..Written::default() }
    }

    fn answers(conflict: bool) -> bool {
        conflict
    }

    fn library(self, question: &mut Question) -> Answer {
        self.call(&question.query, &mut question.numbers)
    }

    fn second(question: &mut Question) -> Answer {
        match second::clauses(&question.query, question.numbers.len()) {
            Ok(written) => {
                let count = written.numbers.len();
                question.numbers[..count].copy_from_slice(&written.numbers);
                let totals = [written.variables, written.clauses, count].map(|total| total as u64);
                (CONFLICT, [0, 0, totals[0], totals[1], totals[2]])
            }
            Err(refusal) => refused(refusal),
        }
    }
}

fn refused(refusal: second::Refusal) -> Answer {
    (REFUSED, [u64::from(refusal.number), refusal.offset as u64, 0, 0, 0])
}

/// The number by which an answer refuses, if it does.
pub fn refused_by((returned, report): Answer) -> Option<u64> {
    (returned == REFUSED).then_some(report[0])
}

/// What an answer says, in words.
pub fn told(answer: Answer) -> String {
    match answer {
        (CONSISTENT, _) => "answered consistent".to_string(),
        (CONFLICT, _) => "answered conflict".to_string(),
        (_, report) => format!("refused by {}", report[0]),
    }
}
