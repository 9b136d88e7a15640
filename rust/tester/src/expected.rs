//! The text that the product is to answer, computed by the second program.

use crate::request::{hex, Question, Request};
use second::{Checked, Refusal};

/// What each byte of an answer buffer is filled with before a check.
pub const BUFFER_FILL: u8 = 0xAA;

/// What each number of a run is filled with before the clauses.
pub const RUN_FILL: i32 = -7;

/// All lines of the answer, without the closing line.
pub fn expected(request: &Request) -> String {
    match request.question {
        Question::Verdict => second::verdict_lines(&request.query),
        Question::Check { room } => check_lines(&request.query, usize::from(room)),
        Question::Lookup { array, index } => match second::lookup(&request.query, array, index) {
            Ok(value) => format!("{value}\n"),
            Err(refusal) => told(refusal),
        },
        Question::Clauses { room } => clauses_lines(&request.query, usize::from(room)),
    }
}

fn told(refusal: Refusal) -> String {
    refusal_line(refusal.number, refusal.offset)
}

pub fn refusal_line(number: u8, offset: usize) -> String {
    format!("refused {number} {offset}\n")
}

/// The whole buffer as the line that an answer closes with.
pub fn buffer_line(buffer: &[u8]) -> String {
    format!("{}\n", hex(buffer))
}

/// The whole run as the line that an answer closes with.
pub fn run_line(run: &[i32]) -> String {
    let numbers: Vec<String> = run.iter().map(i32::to_string).collect();
    format!("{}\n", numbers.join(" "))
}

fn check_lines(query: &[u8], room: usize) -> String {
    let mut buffer = vec![BUFFER_FILL; room];
    let line = match second::check(query, room) {
        Checked::Refused(refusal) => told(refusal),
        Checked::Consistent { pairs } => format!("consistent {pairs}\n"),
        Checked::Conflict { pairs, lemma } => {
            buffer[..lemma.len()].copy_from_slice(&lemma);
            format!("conflict {pairs} {}\n", lemma.len())
        }
    };
    line + &buffer_line(&buffer)
}

fn clauses_lines(query: &[u8], room: usize) -> String {
    let mut run = vec![RUN_FILL; room];
    let line = match second::clauses(query, room) {
        Err(refusal) => told(refusal),
        Ok(written) => {
            let count = written.numbers.len();
            run[..count].copy_from_slice(&written.numbers);
            format!("{} {} {count}\n", written.variables, written.clauses)
        }
    };
    line + &run_line(&run)
}
