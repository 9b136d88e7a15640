//! Which lemma is given where several would do (01, The lemma; 02, E6).

mod fields;

use fields::*;
use second::verdict_lines;

#[test]
fn the_least_first_source_then_the_least_later_one() {
    let terms = [base(1), base(2), variable()].concat();
    let reads = [read(0, 0, 5), read(0, 1, 6), read(0, 1, 7), read(0, 0, 8), read(0, 0, 9)];
    let query = [terms, reads.concat()].concat();
    assert_eq!(verdict_lines(&query), "conflict 5\nthen 2 5\n");
}

#[test]
fn of_parallel_edges_the_lowest_even_past_closed_ones() {
    let terms = [base(1), variable(), variable(), read(0, 0, 5), read(1, 0, 6)].concat();
    let edges = [equality(0, 1, 0, 1, 2), equality(0, 1, 1, 1, 2), equality(1, 0, 1, 2, 1)];
    let query = [terms, edges.concat()].concat();
    assert_eq!(verdict_lines(&query), "conflict 4\ntrue 1\nthen 1 2\n");
}

#[test]
fn an_equality_wins_over_a_write_of_lower_number() {
    let terms = [base(1), base(2), variable(), write(0, 1, 1), read(1, 0, 8), read(0, 0, 9)];
    let query = [terms.concat(), equality(1, 0, 1, 2, 3)].concat();
    assert_eq!(verdict_lines(&query), "conflict 6\ntrue 0\nthen 2 3\n");
}

#[test]
fn two_equalities_win_over_one_write() {
    let terms = [base(1), base(2), variable(), variable(), write(0, 1, 1)].concat();
    let reads = [read(2, 0, 8), read(0, 0, 9), read(1, 0, 8)].concat();
    let edges = [equality(2, 1, 1, 2, 4), equality(1, 0, 1, 4, 3)].concat();
    let query = [terms, reads, edges].concat();
    assert_eq!(verdict_lines(&query), "conflict 12\ntrue 0\ntrue 1\nthen 2 3\n");
}

#[test]
fn every_write_edge_counts_also_where_its_literal_is_repeated() {
    // Two writes at one index leave one literal. One write and two equalities
    // leave three, and have fewer write edges.
    let chain = [write(0, 1, 1), write(2, 1, 1), write(0, 2, 1)].concat();
    let terms = [base(1), base(2), base(3), variable(), variable(), chain].concat();
    let reads = [read(0, 0, 8), read(3, 0, 9), read(4, 0, 8), read(1, 0, 9)].concat();
    let query = [terms.clone(), reads.clone()].concat();
    assert_eq!(verdict_lines(&query), "conflict 16\nne 0 1\nthen 3 4\n");
    let edges = [equality(4, 1, 1, 5, 6), equality(1, 3, 1, 6, 4)].concat();
    let query = [terms, reads, edges].concat();
    assert_eq!(verdict_lines(&query), "conflict 30\nne 0 2\ntrue 0\ntrue 1\nthen 3 4\n");
}

#[test]
fn of_as_many_writes_the_fewer_edges_win_over_a_lower_edge() {
    let terms = [base(1), base(2), base(3), variable(), write(0, 1, 1), write(0, 2, 1)].concat();
    let reads = [read(0, 0, 8), read(2, 0, 9), read(1, 0, 9)].concat();
    let query = [terms, reads, equality(2, 1, 1, 4, 5)].concat();
    assert_eq!(verdict_lines(&query), "conflict 15\nne 0 2\nthen 3 4\n");
}

#[test]
fn a_shorter_path_wins_over_a_lower_edge() {
    let terms = [base(1), base(2), base(3), variable(), write(0, 1, 1), write(1, 2, 1)].concat();
    let reads = [read(0, 0, 5), read(2, 0, 6)].concat();
    let query = [terms.clone(), reads.clone(), equality(0, 2, 1, 3, 4)].concat();
    assert_eq!(verdict_lines(&query), "conflict 12\ntrue 0\nthen 3 4\n");
    let longer = [terms, reads].concat();
    assert_eq!(verdict_lines(&longer), "conflict 9\nne 0 1\nne 0 2\nthen 3 4\n");
}

#[test]
fn differ_names_the_first_sources_index() {
    let terms = [base(1), base(1), base(2), variable(), write(0, 2, 2)].concat();
    let query = [terms, read(0, 0, 5), read(1, 1, 6)].concat();
    assert_eq!(verdict_lines(&query), "conflict 5\neq 0 1\nne 0 2\nthen 3 4\n");
}

#[test]
fn a_repeated_literal_stands_at_its_first_place() {
    let terms = [base(1), base(2), variable(), write(0, 1, 1), write(1, 1, 0)].concat();
    let query = [terms, read(0, 0, 5), read(2, 0, 6)].concat();
    assert_eq!(verdict_lines(&query), "conflict 8\nne 0 1\nthen 2 3\n");
}

#[test]
fn a_conditional_on_an_equality_shares_its_literal() {
    let terms = [base(1), variable(), variable(), read(0, 0, 5), read(1, 0, 5)].concat();
    let edges = [equality(0, 1, 1, 1, 2), conditional(0, 1, 1)].concat();
    let query = [terms, edges, read(2, 0, 6)].concat();
    assert_eq!(verdict_lines(&query), "conflict 9\ntrue 0\nthen 1 3\n");
}

#[test]
fn a_closed_write_goes_by_value_not_by_term() {
    let terms = [base(1), base(1), base(9), variable(), write(0, 0, 2)].concat();
    let query = [terms, read(0, 1, 3), read(1, 1, 9)].concat();
    assert_eq!(verdict_lines(&query), "consistent 3\n0 1 3\n1 1 9\n");
}
