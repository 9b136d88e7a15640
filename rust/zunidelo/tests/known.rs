//! The stored queries through each call, against what the programs print.

mod stored;

use zunidelo::{check, clauses, lookup, Refusal, Verdict};

fn refusal_line(refusal: Refusal) -> String {
    format!("refused {} {}\n", refusal.number(), refusal.offset())
}

/// The verdict program's first line, and the literals of a conflict.
fn verdict_lines(query: &[u8]) -> String {
    match check(query) {
        Err(refusal) => refusal_line(refusal),
        Ok(Verdict::Consistent { pairs }) => format!("consistent {pairs}\n"),
        Ok(Verdict::Conflict { pairs, lemma }) => format!("conflict {pairs}\n{lemma}"),
    }
}

fn lookup_line(query: &[u8], array: u64, index: u64) -> String {
    lookup(query, array, index).map_or_else(refusal_line, |value| format!("{value}\n"))
}

fn number(text: &str) -> u64 {
    text.parse().expect("a decimal number")
}

#[test]
fn every_query_is_stored_with_both_answers() {
    let names: Vec<String> = stored::queries().into_iter().map(|(name, _)| name).collect();
    for ending in ["verdict", "clauses"] {
        let answered: Vec<String> = stored::files(ending).into_keys().map(|key| key.0).collect();
        assert_eq!(answered, names);
    }
    for name in ["K1", "K6", "K8", "K10-empty", "mixed", "longest", "all-pairs-conflict"] {
        assert!(names.iter().any(|one| one == name), "{name} is stored");
    }
}

#[test]
fn checks_are_those_of_the_verdict_program() {
    for ((name, _), expected) in stored::files("verdict") {
        let lines = verdict_lines(&stored::query(&name));
        if expected.starts_with("consistent") {
            assert_eq!(lines, expected.split_inclusive('\n').next().unwrap(), "{name}");
        } else {
            assert_eq!(lines, expected, "{name}");
        }
    }
}

#[test]
fn cells_of_consistent_queries_are_looked_up() {
    let mut cells = 0;
    for ((name, _), expected) in stored::files("verdict") {
        let query = stored::query(&name);
        for line in expected.lines().skip(1).filter(|_| expected.starts_with("consistent")) {
            let cell: Vec<u64> = line.split(' ').map(number).collect();
            assert_eq!(lookup(&query, cell[0], cell[1]), Ok(cell[2]), "{name}: {line}");
            cells += 1;
        }
    }
    assert!(cells >= 10, "K8 alone has ten cells");
}

#[test]
fn lookups_are_those_of_the_lookup_program() {
    for ((name, cell), expected) in stored::files("lookup-") {
        let (array, index) = cell.split_once('-').expect("array and index");
        let line = lookup_line(&stored::query(&name), number(array), number(index));
        assert_eq!(line, expected, "{name} {cell}");
    }
}

#[test]
fn numbers_beyond_the_programs_name_no_cell() {
    let query = stored::query("K2");
    assert_eq!(lookup(&query, 0, 5), Ok(7));
    for (array, index) in [(0, (1 << 32) + 5), (0, u64::MAX), (1 << 32, 5), (u64::MAX, 5)] {
        assert_eq!(lookup(&query, array, index), Err(Refusal::NoSuchCell), "{array} {index}");
    }
}

#[test]
fn clauses_are_those_of_the_clause_program() {
    for ((name, _), expected) in stored::files("clauses") {
        let lines =
            clauses(&stored::query(&name)).map_or_else(refusal_line, |clauses| clauses.to_string());
        assert_eq!(lines, expected, "{name}");
    }
}

#[test]
fn calls_on_several_threads_do_not_disturb_each_other() {
    let queries = stored::queries();
    let alone: Vec<String> = queries.iter().map(|(_, query)| verdict_lines(query)).collect();
    std::thread::scope(|scope| {
        for start in 0..8 {
            let (queries, alone) = (&queries, &alone);
            scope.spawn(move || {
                for place in (0..queries.len()).cycle().skip(start).take(200) {
                    let (name, query) = &queries[place];
                    assert_eq!(verdict_lines(query), alone[place], "{name}");
                }
            });
        }
    });
}

#[test]
fn the_empty_query_is_consistent() {
    assert_eq!(check(&[]), Ok(Verdict::Consistent { pairs: 0 }));
    assert_eq!(lookup(&[], 0, 0), Err(Refusal::NoSuchCell));
    assert_eq!(clauses(&[]), Err(Refusal::OtherVerdict));
}
