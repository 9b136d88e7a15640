//! The table of refusals: each row is met by a call, with its number, its
//! offset and no more calls than it says, and of two that are met the one that
//! the page has first decides.

use crate::asked::{Asked, Call, CALLS};
use crate::faults::{alone, both, in_conflict, wrong_witnesses, Fault};
use crate::fields::{front, variable};
use crate::page;

/// The numbers in the order in which 01 tries them.
const ORDER: [usize; 13] = [1, 2, 3, 4, 2, 5, 6, 7, 8, 9, 12, 11, 10];

struct Row {
    number: usize,
    when: String,
    calls: Vec<Call>,
    has_place: bool,
}

fn rows() -> Vec<Row> {
    let columns = ["order", "number", "when, and only then", "calls", "offset"];
    let rows = page::section("Refusals").table(columns).into_iter().enumerate();
    rows.map(|(place, [order, number, when, calls, offset])| {
        assert_eq!(page::number(&order), place + 1, "the rows are counted: {when}");
        assert!(["0", "the field's"].contains(&offset.as_str()), "an offset: {offset}");
        let calls = page::list(&calls);
        let calls =
            CALLS.iter().filter(|call| calls.contains(&call.0)).map(|call| call.1).collect();
        Row { number: page::number(&number), when, calls, has_place: offset != "0" }
    })
    .collect()
}

/// Its name among the pairs that are met together: 2 is there twice.
fn name(row: &Row) -> String {
    match row.number {
        2 if row.when.contains("head") => "2h".to_string(),
        2 => "2v".to_string(),
        number => number.to_string(),
    }
}

/// The place of the row of this name.
fn place(rows: &[Row], wanted: &str) -> usize {
    let found = rows.iter().position(|row| name(row) == wanted);
    found.unwrap_or_else(|| panic!("no row for {wanted}"))
}

/// What meets the row and nothing that is tried before it, and the offset of
/// the field that is at fault.
fn meets(row: &Row) -> (Vec<Asked>, usize) {
    if let Some(fault) = alone(&row.when) {
        return (vec![Asked::hopeless(fault.query())], fault.front.len());
    }
    let asked = match row.when.as_str() {
        "the query has more than 4,096 bytes" => vec![Asked::hopeless(vec![0; 4_097])],
        "a lookup on a query in conflict; clauses for a consistent query" => {
            vec![Asked::well(in_conflict()), Asked::well(front())]
        }
        "the query has no such array term, or the index is 2^32 or more" => vec![
            Asked { array: 2, ..Asked::well(front()) },
            Asked { index: 1 << 32, ..Asked::well(front()) },
        ],
        "the answer is longer than the lent room" => {
            vec![Asked { room: 6, ..Asked::well(in_conflict()) }]
        }
        _ => panic!("nothing is known to meet: {}", row.when),
    };
    (asked, 0)
}

#[test]
fn every_row_is_met_by_its_calls_alone_at_its_offset() {
    let rows = rows();
    for row in &rows {
        let (asked, field) = meets(row);
        let offset = if row.has_place { field } else { 0 };
        let by_number = |call: Call| {
            let refused = asked.iter().filter_map(|asked| asked.refused(call));
            refused.filter(|refused| refused.0 == row.number).collect::<Vec<_>>()
        };
        for (word, call) in CALLS {
            let refused = by_number(call);
            assert_eq!(!refused.is_empty(), row.calls.contains(&call), "{word}: {}", row.when);
            assert!(refused.iter().all(|refused| refused.1 == offset), "{word}: {}", row.when);
        }
        assert!(row.has_place == (field > 0), "the offset of: {}", row.when);
    }
}

#[test]
fn the_order_is_that_of_01() {
    assert_eq!(rows().iter().map(|row| row.number).collect::<Vec<_>>(), ORDER);
}

/// The refusal of the row by each of its calls.
fn demand(row: &Row, asked: &Asked, field: usize) {
    let offset = if row.has_place { field } else { 0 };
    for (word, call) in CALLS.iter().filter(|call| row.calls.contains(&call.1)) {
        assert_eq!(asked.refused(*call), Some((row.number, offset)), "{word}: {}", row.when);
    }
}

#[test]
fn of_two_faults_in_a_field_the_row_before_decides() {
    let rows = rows();
    let pairs = both();
    for (one, other, fault) in &pairs {
        let first = place(&rows, one).min(place(&rows, other));
        demand(&rows[first], &Asked::hopeless(fault.query()), fault.front.len());
    }
    // 2 for the head to 9: each two neighbours of the page are among the pairs
    for neighbours in rows[1..10].windows(2) {
        let names = [name(&neighbours[0]), name(&neighbours[1])];
        let tried = pairs.iter().any(|(one, other, _)| names == [*one, *other]);
        assert!(tried, "no field meets both {names:?}");
    }
}

/// All faults of one field, by the row.
fn faults(rows: &[Row]) -> Vec<(&Row, Fault)> {
    let found: Vec<_> = rows.iter().filter_map(|row| Some((row, alone(&row.when)?))).collect();
    assert_eq!(found.len(), 9, "2 for the head to 9");
    found
}

#[test]
fn a_query_that_is_too_long_is_refused_before_all_its_faults() {
    let rows = rows();
    let mut queries: Vec<Vec<u8>> = faults(&rows).iter().map(|fault| fault.1.query()).collect();
    for query in &mut queries {
        query.resize(4_097, 0);
    }
    // fields of 3 bytes, and 2 bytes left for the last one's head
    queries.push([variable().repeat(1_365), vec![3, 0]].concat());
    for query in queries {
        assert_eq!(query.len(), 4_097);
        demand(&rows[0], &Asked::hopeless(query), 0);
    }
}

#[test]
fn the_first_field_with_a_fault_decides_whatever_its_number() {
    let rows = rows();
    let mut tried = 0;
    for (row, first) in faults(&rows) {
        // What is cut off is the end of the query: no field comes after it.
        if row.number == 2 {
            continue;
        }
        for (_, second) in faults(&rows) {
            let query = [first.query(), second.field].concat();
            demand(row, &Asked::hopeless(query), first.front.len());
            tried += 1;
        }
    }
    assert_eq!(tried, 7 * 9);
}

#[test]
fn each_way_to_a_wrong_witness_is_refused() {
    let rows = rows();
    let row = &rows[place(&rows, "8")];
    for field in wrong_witnesses() {
        demand(row, &Asked::hopeless([in_conflict(), field].concat()), in_conflict().len());
    }
}

#[test]
fn on_a_query_in_conflict_a_lookup_is_refused_before_its_cell() {
    let rows = rows();
    let first = place(&rows, "12").min(place(&rows, "11"));
    let refused = Asked::hopeless(in_conflict()).refused(Call::Lookup);
    assert_eq!(refused, Some((rows[first].number, 0)));
}

#[test]
fn no_call_meets_10_with_11_or_12() {
    let rows = rows();
    let calls = |wanted: &str| &rows[place(&rows, wanted)].calls;
    assert!(calls("11").iter().all(|call| !calls("10").contains(call)));
    // A lookup is lent no room, and for a consistent query there are no clauses to be too long.
    let refused = Asked::hopeless(front()).refused(Call::Clauses);
    assert_eq!(refused, Some((12, 0)));
    let prose = page::section("Refusals").prose();
    assert!(prose.contains("No call can meet both 11 and 10, or both 12 and 10."));
}
