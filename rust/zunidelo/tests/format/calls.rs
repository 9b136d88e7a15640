//! The calls as C makes them: what each returns, and its report's numbers in
//! the order that the page has them in.

use crate::call::{self, CONFLICT, CONSISTENT};
use crate::page;
use crate::stored;
use zunidelo::{check_into, clauses_into, lookup, Checked, Refusal};
use zunidelo::{CLAUSE_NUMBERS, LEMMA_BYTES};

/// What is returned beside a refusal.
const REFUSED: u32 = 2;

/// A row of the table of calls.
struct Row {
    call: String,
    returns: Vec<usize>,
    report: Vec<String>,
    room: String,
}

fn rows() -> Vec<Row> {
    let columns =
        ["call", "returns", "the report's numbers, in order", "lent room that always suffices"];
    let rows = page::section("The calls").table(columns).into_iter();
    rows.map(|[call, returns, report, room]| Row {
        call: page::code(&call).to_string(),
        returns: page::list(&returns).into_iter().map(page::number).collect(),
        report: page::list(&report).into_iter().map(str::to_string).collect(),
        room,
    })
    .collect()
}

/// What the call returns and reports, with these cells in a lookup.
fn made(name: &str, query: &[u8]) -> (u32, Vec<u64>) {
    let (returned, report) = match name {
        "zunidelo_check" => widened(call::check(query, &mut [0; LEMMA_BYTES])),
        "zunidelo_lookup" => widened(call::lookup(query, 0, 5)),
        "zunidelo_clauses" => widened(call::clauses(query, &mut [0; CLAUSE_NUMBERS])),
        _ => panic!("no call {name}"),
    };
    (returned, report)
}

fn widened<const COUNT: usize>((returned, report): (u32, [u64; COUNT])) -> (u32, Vec<u64>) {
    (returned, report.to_vec())
}

/// What the safe crate says of the call: returned, the refusal if there is one,
/// and the number of this name.
fn expected(name: &str, query: &[u8], number: &str) -> (u32, u64) {
    let refused = |refusal: Refusal| match number {
        "refusal" => (REFUSED, u64::from(refusal.number())),
        "offset" => (REFUSED, refusal.offset() as u64),
        _ => (REFUSED, 0),
    };
    let of_check = |checked: Checked| match (checked, number) {
        (Checked::Consistent { pairs }, "pairs") => (CONSISTENT, pairs as u64),
        (Checked::Consistent { .. }, _) => (CONSISTENT, 0),
        (Checked::Conflict { pairs, .. }, "pairs") => (CONFLICT, pairs as u64),
        (Checked::Conflict { length, .. }, "bytes of the lemma") => (CONFLICT, length as u64),
        (Checked::Conflict { .. }, _) => (CONFLICT, 0),
    };
    match name {
        "zunidelo_check" => check_into(query, &mut [0; LEMMA_BYTES]).map_or_else(refused, of_check),
        "zunidelo_lookup" => lookup(query, 0, 5)
            .map_or_else(refused, |value| (CONSISTENT, if number == "value" { value } else { 0 })),
        _ => clauses_into(query, &mut [0; CLAUSE_NUMBERS]).map_or_else(refused, |totals| {
            let number = match number {
                "variables" => totals.variables,
                "clauses" => totals.clauses,
                "numbers written" => totals.count,
                _ => 0,
            };
            (CONFLICT, number as u64)
        }),
    }
}

const NAMES: [&str; 9] = [
    "refusal",
    "offset",
    "pairs",
    "bytes of the lemma",
    "value",
    "variables",
    "clauses",
    "numbers written",
    "0",
];

#[test]
fn what_is_returned_is_what_the_page_says() {
    let prose = page::section("The calls").prose();
    let words =
        format!("{CONSISTENT} for consistent, {CONFLICT} for in conflict and {REFUSED} for");
    assert!(prose.contains(&words), "{words}");
}

#[test]
fn each_report_has_its_numbers_in_the_order_of_the_page() {
    let rows = rows();
    assert_eq!(rows.len(), 3, "a row for each call");
    for row in &rows {
        let mut returns = Vec::new();
        for query in ["K1", "K2", "K6", "K7", "K8", "K11-cut"].map(stored::query) {
            let (returned, report) = made(&row.call, &query);
            returns.push(returned as usize);
            assert_eq!(report.len(), row.report.len(), "{}", row.call);
            for (number, told) in row.report.iter().zip(report) {
                assert!(NAMES.contains(&number.as_str()), "no number is called {number}");
                assert_eq!((returned, told), expected(&row.call, &query, number), "{}", row.call);
            }
        }
        returns.sort();
        returns.dedup();
        assert_eq!(returns, row.returns, "{}", row.call);
    }
}

#[test]
fn the_room_that_the_page_says_always_suffices() {
    let query = stored::query("longest");
    let mut lent = 0;
    for row in rows().into_iter().filter(|row| row.room != "none") {
        let room = page::number(&row.room);
        let refused = |room: usize| match row.call.as_str() {
            "zunidelo_check" => check_into(&query, &mut vec![0; room]).err(),
            "zunidelo_clauses" => clauses_into(&query, &mut vec![0; room]).err(),
            other => panic!("{other} is lent no room"),
        };
        assert_eq!(refused(room), None, "{}", row.call);
        assert_eq!(refused(room - 1), Some(Refusal::BufferTooShort), "{}", row.call);
        lent += 1;
    }
    assert_eq!(lent, 2, "check and clauses are lent room");
}
