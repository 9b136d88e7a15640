//! What each call is asked where its stack is measured: the query of every
//! class in both verdicts, that query damaged in every way, what this call
//! alone refuses of it, and every stored query.

use crate::classes::Class;
use crate::contenders::{refused_by, Contest, Question, NO_ROOM, NO_SUCH_CELL};
use crate::damages::DAMAGES;
use crate::libraries::{Check, Clauses, Function, Lookup};
use std::fs;
use tester::request::parse_hex;

/// Lookup on a query in conflict, clauses for a consistent one.
const OTHER_VERDICT: u64 = 12;

/// The stored queries, beside what the programs print for them.
const STORED: &str = concat!(env!("CARGO_MANIFEST_DIR"), "/../../tests/known");

pub struct Case {
    pub name: String,
    pub question: Question,
    /// The number that is to refuse it, if one is.
    pub refused: Option<u64>,
}

/// A question that is refused for what is asked, not for its query: what it
/// is, the number, and the question.
type Unanswered = (&'static str, u64, Question);

/// A call whose stack is measured.
pub trait Measured: Contest {
    /// The numbers by which it refuses.
    const REFUSALS: &'static [u64];

    /// The ways in which it refuses a query that it answers otherwise.
    fn unanswered(question: &Question) -> Vec<Unanswered>;
}

impl Measured for Check {
    const REFUSALS: &'static [u64] = &[1, 2, 3, 4, 5, 6, 7, 8, 9, NO_ROOM];

    fn unanswered(question: &Question) -> Vec<Unanswered> {
        let (_, [_, _, _, length, _]) = Check::TODAY.library(&mut question.clone());
        too_short(length, |room| question.clone().with_bytes(room))
    }
}

impl Measured for Lookup {
    const REFUSALS: &'static [u64] = &[1, 2, 3, 4, 5, 6, 7, 8, 9, NO_SUCH_CELL, OTHER_VERDICT];

    fn unanswered(question: &Question) -> Vec<Unanswered> {
        vec![
            ("in no such array", NO_SUCH_CELL, question.clone().past_the_arrays()),
            ("at index 2^32", NO_SUCH_CELL, question.clone().past_the_indices()),
        ]
    }
}

impl Measured for Clauses {
    const REFUSALS: &'static [u64] = &[1, 2, 3, 4, 5, 6, 7, 8, 9, NO_ROOM, OTHER_VERDICT];

    fn unanswered(question: &Question) -> Vec<Unanswered> {
        let (_, [.., count]) = Clauses::TODAY.library(&mut question.clone());
        too_short(count, |room| question.clone().with_numbers(room))
    }
}

/// Without room, and with one byte or number less than an answer of this
/// length takes; nothing where nothing is written.
fn too_short(length: u64, with_room: impl Fn(usize) -> Question) -> Vec<Unanswered> {
    match (length as usize).checked_sub(1) {
        Some(less) => vec![
            ("into an empty buffer", NO_ROOM, with_room(0)),
            ("into a buffer that is one too short", NO_ROOM, with_room(less)),
        ],
        None => Vec::new(),
    }
}

pub fn cases<C: Measured>(classes: &[Class]) -> Vec<Case> {
    let mut cases = Vec::new();
    for class in classes {
        cases.extend(accepted::<C>(class));
        cases.extend(damaged(class));
    }
    cases.extend(stored().into_iter().map(|(name, query)| stored_case::<C>(name, &query)));
    cases
}

fn accepted<C: Measured>(class: &Class) -> Vec<Case> {
    let (name, question) = (class.name_and_verdict(), Question::about(&class.query));
    if !C::answers(class.conflict) {
        return vec![Case { name, question, refused: Some(OTHER_VERDICT) }];
    }
    let unanswered = C::unanswered(&question).into_iter().map(|(way, number, question)| Case {
        name: format!("{name}, {way}"),
        question,
        refused: Some(number),
    });
    let mut cases: Vec<Case> = unanswered.collect();
    cases.push(Case { name, question, refused: None });
    cases
}

fn damaged(class: &Class) -> impl Iterator<Item = Case> + '_ {
    DAMAGES.into_iter().map(|(damage, number, damaged)| Case {
        name: format!("{}, {damage}", class.name_and_verdict()),
        question: Question::about(&damaged(&class.query)),
        refused: Some(number),
    })
}

fn stored_case<C: Measured>(name: String, query: &[u8]) -> Case {
    let question = Question::about(query);
    let refused = refused_by(C::second(&mut question.clone()));
    Case { name: format!("stored {name}"), question, refused }
}

/// Each stored query with its name.
pub fn stored() -> Vec<(String, Vec<u8>)> {
    let mut queries = Vec::new();
    for entry in fs::read_dir(STORED).expect("the folder of stored queries") {
        let path = entry.expect("an entry of the folder").path();
        if path.extension().is_some_and(|ending| ending == "hex") {
            let name = path.file_stem().expect("a name").to_string_lossy().to_string();
            let hex = fs::read_to_string(&path).expect("a file of text");
            queries.push((name, parse_hex(&hex).expect("a stored query is hex")));
        }
    }
    queries.sort();
    queries
}
