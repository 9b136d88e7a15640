//! Fixed numbers: which literals a lemma leaves out, and which stay (02, E1).

mod fields;

use fields::*;
use second::{clauses, lookup, verdict_lines};

fn counts(query: &[u8]) -> (usize, usize) {
    let written = clauses(query, second::MAX_CLAUSE_NUMBERS).expect("a query in conflict");
    (written.clauses, written.variables)
}

#[test]
fn equal_goes_where_both_indices_are_fixed() {
    let query = two_reads_at([fixed(5), fixed(5)], 7, 9);
    assert_eq!(verdict_lines(&query), "conflict 2\nthen 2 3\n");
    assert_eq!(counts(&query), (65, 129));
}

#[test]
fn equal_stays_where_one_is_free_or_read() {
    let lines = "conflict 2\neq 0 1\nthen 2 3\n";
    for indices in [[fixed(5), base(5)], [base(5), fixed(5)]] {
        let query = two_reads_at(indices, 7, 9);
        assert_eq!(verdict_lines(&query), lines);
        assert_eq!(counts(&query), (129, 161));
    }
    let read_index = [fixed(5), variable(), read(0, 0, 5)].concat();
    let query = [read_index, variable(), read(1, 0, 7), read(1, 1, 9)].concat();
    assert_eq!(verdict_lines(&query), "conflict 3\neq 0 1\nthen 2 3\n");
}

#[test]
fn differ_goes_where_both_indices_are_fixed_and_stays_where_one_is() {
    let query = read_through_write_at([fixed(1), fixed(2)]);
    assert_eq!(verdict_lines(&query), "conflict 5\nthen 3 4\n");
    assert_eq!(counts(&query), (65, 161));
    for indices in [[fixed(1), base(2)], [base(1), fixed(2)]] {
        let query = read_through_write_at(indices);
        assert_eq!(verdict_lines(&query), "conflict 5\nne 0 1\nthen 3 4\n");
    }
}

#[test]
fn the_guess_has_the_fixed_value() {
    let query = two_reads_at([fixed(5), fixed(6)], 7, 9);
    assert_eq!(verdict_lines(&query), "consistent 2\n0 5 7\n0 6 9\n");
    assert_eq!(lookup(&query, 0, 6), Ok(9));
    let query = two_reads_at([fixed(5), fixed(5)], 7, 7);
    assert_eq!(verdict_lines(&query), "consistent 2\n0 5 7\n");
}

#[test]
fn a_conclusion_stays_between_two_fixed_numbers() {
    // Two writes of different fixed values at one fixed index, taken to be equal.
    let terms = [fixed(5), fixed(7), fixed(9), variable(), write(0, 0, 1), write(0, 0, 2)].concat();
    let reads = [read(1, 0, 7), read(2, 0, 9)].concat();
    let query = [terms, reads, equality(1, 2, 1, 3, 4)].concat();
    assert_eq!(verdict_lines(&query), "conflict 8\ntrue 0\nthen 1 2\n");
    assert_eq!(counts(&query), (65, 162));
}

#[test]
fn of_several_literals_those_of_fixed_numbers_alone_go() {
    let writes = [write(0, 1, 1), write(1, 2, 1), write(2, 3, 1)].concat();
    let terms = [fixed(1), fixed(2), base(3), fixed(4), variable(), writes].concat();
    let query = [terms, read(0, 0, 5), read(3, 0, 6)].concat();
    assert_eq!(verdict_lines(&query), "conflict 14\nne 0 2\nthen 4 5\n");
}

#[test]
fn a_write_without_a_literal_is_a_write_of_the_path() {
    // Beside the write stand two equalities: they cost two literals, it none.
    let terms = [fixed(1), fixed(2), variable(), variable(), write(0, 1, 1)].concat();
    let reads = [read(2, 0, 8), read(0, 0, 9), read(1, 0, 8)].concat();
    let edges = [equality(2, 1, 1, 2, 4), equality(1, 0, 1, 4, 3)].concat();
    let query = [terms.clone(), reads.clone(), edges].concat();
    assert_eq!(verdict_lines(&query), "conflict 12\ntrue 0\ntrue 1\nthen 2 3\n");
    assert_eq!(verdict_lines(&[terms, reads].concat()), "conflict 6\nthen 2 3\n");
}
