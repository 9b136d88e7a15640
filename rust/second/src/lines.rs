//! The printed lines of the three programs (01, Printed lines).

use crate::decode::decode;
use crate::lemma::{lemma, Literal};
use crate::query::Query;
use crate::reach::Reach;
use crate::{Refusal, MAX_CLAUSE_NUMBERS};
use std::fmt::Write;

const MAX_DIGITS: usize = 10;

/// What the verdict program prints for this input.
pub fn verdict_lines(bytes: &[u8]) -> String {
    let query = match decode(bytes) {
        Ok(query) => query,
        Err(refusal) => return refusal_line(refusal),
    };
    let reach = Reach::of(&query);
    let pairs = reach.pairs(&query);
    match lemma(&query, &reach) {
        None => format!("consistent {pairs}\n{}", cell_lines(&query, &reach)),
        Some(literals) => {
            let lines: String = literals.iter().map(literal_line).collect();
            format!("conflict {pairs}\n{lines}")
        }
    }
}

/// What the lookup program prints for this query and this `cell.txt`, if any.
pub fn lookup_line(bytes: &[u8], cell_file: Option<&[u8]>) -> String {
    let cell = cell_file.and_then(parse_cell);
    // A file without a cell is refused like an array that no query has: 11,
    // after everything about the query, 12 included.
    let (array, index) = cell.unwrap_or((u64::MAX, 0));
    match crate::lookup(bytes, array, index) {
        Ok(value) => format!("{value}\n"),
        Err(refusal) => refusal_line(refusal),
    }
}

/// What the clause program prints for this input.
pub fn clause_lines(bytes: &[u8]) -> String {
    let written = match crate::clauses(bytes, MAX_CLAUSE_NUMBERS) {
        Ok(written) => written,
        Err(refusal) => return refusal_line(refusal),
    };
    let mut lines = format!("p cnf {} {}\n", written.variables, written.clauses);
    for number in written.numbers {
        let end = if number == 0 { '\n' } else { ' ' };
        write!(lines, "{number}{end}").expect("a string takes any text");
    }
    lines
}

fn refusal_line(refusal: Refusal) -> String {
    format!("refused {} {}\n", refusal.number, refusal.offset)
}

/// A line for each cell that a source reaches, by array, then index.
fn cell_lines(query: &Query, reach: &Reach) -> String {
    let mut lines = String::new();
    for array in 0..query.arrays {
        for index in reach.index_values() {
            if let Some(value) = reach.source_at(query, array, u64::from(index)) {
                writeln!(lines, "{array} {index} {value}").expect("a string takes any text");
            }
        }
    }
    lines
}

fn literal_line(literal: &Literal) -> String {
    match literal {
        Literal::Equal(one, other) => format!("eq {one} {other}\n"),
        Literal::Differ(one, other) => format!("ne {one} {other}\n"),
        Literal::True(boolean) => format!("true {boolean}\n"),
        Literal::False(boolean) => format!("false {boolean}\n"),
        Literal::Conclusion(one, other) => format!("then {one} {other}\n"),
    }
}

/// Exactly two lines of 1 to 10 digits, each number below 2^32.
fn parse_cell(file: &[u8]) -> Option<(u64, u64)> {
    let body = file.strip_suffix(b"\n")?;
    let mut lines = body.split(|byte| *byte == b'\n');
    let cell = (parse_number(lines.next()?)?, parse_number(lines.next()?)?);
    match lines.next() {
        None => Some(cell),
        Some(_) => None,
    }
}

fn parse_number(line: &[u8]) -> Option<u64> {
    let digits = !line.is_empty() && line.len() <= MAX_DIGITS;
    if !digits || !line.iter().all(u8::is_ascii_digit) {
        return None;
    }
    let number = line.iter().fold(0, |sum, digit| sum * 10 + u64::from(digit - b'0'));
    (number < 1 << 32).then_some(number)
}
