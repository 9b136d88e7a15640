//! The library as the product under test: linked in, and asked without a
//! process between. Its answers are told in the words of the pipe's protocol.

use crate::expected::{buffer_line, expected, refusal_line, run_line, BUFFER_FILL, RUN_FILL};
use crate::product::Product;
use crate::request::{Question, Request};
use judge::field::{decode, Field, Series};
use judge::tiny::base_values;
use std::collections::BTreeSet;
use zunidelo::{Checked, Refusal, Verdict};

pub struct Library;

impl Product for Library {
    fn answers(&mut self, requests: &[Request]) -> Vec<String> {
        requests.iter().map(answer).collect()
    }

    /// The library does not say which cells a source reaches, so that of the
    /// cells that hold 0 no line is told.
    fn expected(&self, request: &Request) -> String {
        let answer = expected(request);
        if request.question != Question::Verdict || !answer.starts_with("consistent") {
            return answer;
        }
        let told = |line: &&str| line.starts_with("consistent") || !line.ends_with(" 0\n");
        answer.split_inclusive('\n').filter(told).collect()
    }
}

fn answer(request: &Request) -> String {
    let query = &request.query;
    let told = match request.question {
        Question::Verdict => verdict_lines(query),
        Question::Check { room } => return check_lines(query, usize::from(room)),
        Question::Lookup { array, index } => {
            zunidelo::lookup(query, array, index).map(|value| format!("{value}\n"))
        }
        Question::Clauses { room } => return clauses_lines(query, usize::from(room)),
    };
    told.unwrap_or_else(refusal)
}

fn refusal(refusal: Refusal) -> String {
    refusal_line(refusal.number(), refusal.offset())
}

fn verdict_lines(query: &[u8]) -> Result<String, Refusal> {
    match zunidelo::check(query)? {
        Verdict::Conflict { pairs, lemma } => Ok(format!("conflict {pairs}\n{lemma}")),
        Verdict::Consistent { pairs } => Ok(format!("consistent {pairs}\n{}", cell_lines(query)?)),
    }
}

/// A line for each cell that does not hold 0, at all indices that a source has.
fn cell_lines(query: &[u8]) -> Result<String, Refusal> {
    let (fields, _) = decode(query);
    let arrays = fields.iter().filter(|field| field.gives() == Series::Array).count() as u64;
    let mut lines = String::new();
    for array in 0..arrays {
        for index in index_values(&fields) {
            match zunidelo::lookup(query, array, u64::from(index))? {
                0 => {}
                value => lines.push_str(&format!("{array} {index} {value}\n")),
            }
        }
    }
    Ok(lines)
}

/// The value of each index term of a write or read, each value once, rising.
pub fn index_values(fields: &[Field]) -> BTreeSet<u32> {
    let values = base_values(fields);
    let index_value = |field: &Field| match *field {
        Field::Write { index, .. } | Field::Read { index, .. } => Some(values[usize::from(index)]),
        _ => None,
    };
    fields.iter().filter_map(index_value).collect()
}

fn check_lines(query: &[u8], room: usize) -> String {
    let mut buffer = vec![BUFFER_FILL; room];
    let line = match zunidelo::check_into(query, &mut buffer) {
        Err(refused) => refusal(refused),
        Ok(Checked::Consistent { pairs }) => format!("consistent {pairs}\n"),
        Ok(Checked::Conflict { pairs, length }) => format!("conflict {pairs} {length}\n"),
    };
    line + &buffer_line(&buffer)
}

fn clauses_lines(query: &[u8], room: usize) -> String {
    let mut run = vec![RUN_FILL; room];
    let line = match zunidelo::clauses_into(query, &mut run) {
        Err(refused) => refusal(refused),
        Ok(totals) => format!("{} {} {}\n", totals.variables, totals.clauses, totals.count),
    };
    line + &run_line(&run)
}
