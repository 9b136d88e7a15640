//! The exhaustive run: the library against the second program on every query
//! of a tiny shape, and on every damage of a kind to the smaller ones. The
//! judge has decided the same queries by trying every interpretation.

use crate::expected::{BUFFER_FILL, RUN_FILL};
use crate::progress::Progress;
use crate::request::hex;
use judge::every::every;
use judge::field::{encode, Field, Series};
use second::{Checked, Refusal, Written, MAX_CLAUSE_NUMBERS, MAX_LEMMA_BYTES};
use std::fmt::Debug;

/// Values are below two to this many: 0 and 1.
const WIDTH: u32 = 1;

/// Lookups are at all indices below this, one of which no source has.
const INDICES: u64 = 3;

/// Damage is done to queries of so many fields less than the largest.
const FEWER_FIELDS: usize = 2;

/// What each byte in turn becomes: no tag, each tag, one more, and the last.
const DAMAGES: [u8; 11] = [0, 1, 2, 3, 4, 5, 6, 7, 8, 9, 0xFF];

/// How much longer than its answer a run of numbers is.
const SPARE: usize = 4;

#[derive(Default)]
struct Counts {
    queries: usize,
    damaged: usize,
    conflicts: usize,
    refused: usize,
    calls: usize,
}

/// Compares all answers; prints how many there were, and answers how many
/// queries they were about.
pub fn run(fields: usize) -> Result<usize, String> {
    let mut counts = Counts::default();
    let mut progress = Progress::begin();
    let mut wrong = None;
    every(WIDTH, fields, &mut |query| {
        if wrong.is_none() {
            wrong = compare_query(query, fields, &mut counts).err();
            progress.tell(counts.queries + counts.damaged);
        }
    });
    if let Some(wrong) = wrong {
        return Err(wrong);
    }
    println!(
        "all {} queries of at most {fields} fields, {} in conflict, \
         and {} damaged ones, {} refused",
        counts.queries, counts.conflicts, counts.damaged, counts.refused
    );
    println!("{} calls compared", counts.calls);
    Ok(counts.queries + counts.damaged)
}

fn compare_query(fields: &[Field], most: usize, counts: &mut Counts) -> Result<(), String> {
    let query = encode(fields);
    let arrays = fields.iter().filter(|field| field.gives() == Series::Array).count() as u64;
    if let Checked::Conflict { .. } = compare(&query, arrays, counts)? {
        counts.conflicts += 1;
    }
    counts.queries += 1;
    if fields.len() + FEWER_FIELDS <= most {
        compare_damaged(fields, &query, arrays, counts)?;
    }
    Ok(())
}

/// The last field cut short at each length, or one of its bytes changed: the
/// fields before it have been damaged in shorter queries.
fn compare_damaged(
    fields: &[Field],
    query: &[u8],
    arrays: u64,
    counts: &mut Counts,
) -> Result<(), String> {
    let last = fields.last().map_or(0, |field| field.bytes().len());
    for place in query.len() - last..query.len() {
        let changed =
            DAMAGES.map(|damage| [&query[..place], &[damage], &query[place + 1..]].concat());
        for damaged in changed.iter().map(Vec::as_slice).chain([&query[..place]]) {
            if let Checked::Refused(_) = compare(damaged, arrays, counts)? {
                counts.refused += 1;
            }
            counts.damaged += 1;
        }
    }
    Ok(())
}

/// All calls about one query; answers what its check answers.
fn compare(query: &[u8], arrays: u64, counts: &mut Counts) -> Result<Checked, String> {
    let checked = compare_checks(query, counts)?;
    compare_clauses(query, counts)?;
    for array in 0..=arrays {
        for index in 0..INDICES {
            let expected = second::lookup(query, array, index);
            let answered = zunidelo::lookup(query, array, index).map_err(told);
            counts.same(query, || format!("lookup {array} {index}"), &expected, &answered)?;
        }
    }
    Ok(checked)
}

/// With the largest buffer, and of a conflict with exactly enough room and
/// with one byte too little.
fn compare_checks(query: &[u8], counts: &mut Counts) -> Result<Checked, String> {
    let checked = second::check(query, MAX_LEMMA_BYTES);
    let mut rooms = vec![MAX_LEMMA_BYTES];
    if let Checked::Conflict { lemma, .. } = &checked {
        rooms.extend([lemma.len(), lemma.len() - 1]);
    }
    for room in rooms {
        let expected = (second::check(query, room), true);
        counts.same(query, || format!("check {room}"), &expected, &check(query, room))?;
    }
    Ok(checked)
}

/// With room to spare and with one number too little.
fn compare_clauses(query: &[u8], counts: &mut Counts) -> Result<(), String> {
    let written = second::clauses(query, MAX_CLAUSE_NUMBERS);
    let length = written.map_or(0, |written| written.numbers.len());
    for room in [length + SPARE, length.saturating_sub(1)] {
        let expected = (second::clauses(query, room), true);
        counts.same(query, || format!("clauses {room}"), &expected, &clauses(query, room))?;
    }
    Ok(())
}

/// What the library's check answers, and whether the rest of the buffer is
/// as it was.
fn check(query: &[u8], room: usize) -> (Checked, bool) {
    let mut buffer = vec![BUFFER_FILL; room];
    let (checked, length) = match zunidelo::check_into(query, &mut buffer) {
        Err(refusal) => (Checked::Refused(told(refusal)), 0),
        Ok(zunidelo::Checked::Consistent { pairs }) => (Checked::Consistent { pairs }, 0),
        Ok(zunidelo::Checked::Conflict { pairs, length }) => {
            (Checked::Conflict { pairs, lemma: buffer[..length].to_vec() }, length)
        }
    };
    (checked, buffer[length..].iter().all(|byte| *byte == BUFFER_FILL))
}

/// What the library's clauses answer, and whether the rest of the run is as
/// it was.
fn clauses(query: &[u8], room: usize) -> (Result<Written, Refusal>, bool) {
    let mut run = vec![RUN_FILL; room];
    let totals = zunidelo::clauses_into(query, &mut run).map_err(told);
    let count = totals.map_or(0, |totals| totals.count);
    let written = totals.map(|totals| Written {
        variables: totals.variables,
        clauses: totals.clauses,
        numbers: run[..count].to_vec(),
    });
    (written, run[count..].iter().all(|number| *number == RUN_FILL))
}

fn told(refusal: zunidelo::Refusal) -> Refusal {
    Refusal { number: refusal.number(), offset: refusal.offset() }
}

impl Counts {
    /// Compares what one call is to answer with what it answered.
    fn same<T: PartialEq + Debug>(
        &mut self,
        query: &[u8],
        call: impl Fn() -> String,
        expected: &T,
        answered: &T,
    ) -> Result<(), String> {
        if expected == answered {
            self.calls += 1;
            return Ok(());
        }
        let (call, query) = (call(), hex(query));
        let both = format!("expected {expected:?}\nanswered {answered:?}");
        Err(format!("DIFFERENCE\n{call}\nquery {query}\n{both}"))
    }
}
