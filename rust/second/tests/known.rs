//! The known queries K1 to K12 of 01: printed lines, bytes and counts.

mod fields;

use fields::*;
use second::{check, clause_lines, clauses, lookup, lookup_line, verdict_lines, Checked, Refusal};

fn counts(query: &[u8]) -> (usize, usize) {
    let written = clauses(query, second::MAX_CLAUSE_NUMBERS).expect("a query in conflict");
    (written.clauses, written.variables)
}

#[test]
fn k1_two_reads_at_equal_indices_conflict() {
    let query = two_reads(7, 9);
    let hex = "01000400000005010004000000050300000600080000000000000007\
               0600080000000100000009";
    let text: String = query.iter().map(|byte| format!("{byte:02x}")).collect();
    assert_eq!(text, hex);
    assert_eq!(verdict_lines(&query), "conflict 2\neq 0 1\nthen 2 3\n");
    assert_eq!(counts(&query), (129, 161));
    let lemma = vec![0x21, 0, 4, 0, 0, 0, 1, 0x25, 0, 4, 0, 2, 0, 3];
    assert_eq!(check(&query, 14), Checked::Conflict { pairs: 2, lemma });
}

#[test]
fn k1_clauses_stand_in_the_papers_order() {
    let lines = clause_lines(&two_reads(7, 9));
    let lines: Vec<&str> = lines.lines().collect();
    assert_eq!(lines.len(), 130);
    assert_eq!(lines[0], "p cnf 161 129");
    assert_eq!(lines[1..5], ["1 33 -129 0", "-1 -33 -129 0", "2 34 -130 0", "-2 -34 -130 0"]);
    assert_eq!(lines[65..68], ["-65 97 -161 0", "65 -97 -161 0", "-66 98 -161 0"]);
    let link: Vec<String> = (129..=161).map(|number| number.to_string()).collect();
    assert_eq!(lines[129], link.join(" ") + " 0");
}

#[test]
fn k2_equal_values_are_consistent() {
    assert_eq!(verdict_lines(&two_reads(7, 7)), "consistent 2\n0 5 7\n");
}

#[test]
fn k3_one_index_term_leaves_equal_out() {
    assert_eq!(verdict_lines(&one_index()), "conflict 2\nthen 1 2\n");
    assert_eq!(counts(&one_index()), (65, 97));
}

#[test]
fn k4_a_read_passes_an_open_write() {
    assert_eq!(verdict_lines(&read_through_write(2)), "conflict 5\nne 0 1\nthen 3 4\n");
}

#[test]
fn k5_a_write_is_a_source_of_its_value() {
    assert_eq!(verdict_lines(&read_through_write(1)), "conflict 3\neq 1 0\nthen 2 3\n");
}

#[test]
fn k6_a_path_goes_up_across_and_down() {
    let lines = "conflict 22\nne 2 0\ntrue 0\nne 2 1\nthen 6 7\n";
    assert_eq!(verdict_lines(&two_written(1, 0)), lines);
    assert_eq!(counts(&two_written(1, 0)), (193, 324));
    let clauses = clause_lines(&two_written(1, 0));
    assert_eq!(clauses.lines().last(), Some("-321 322 323 324 0"));
}

#[test]
fn k7_a_false_equality_needs_different_witnesses() {
    assert_eq!(verdict_lines(&two_written(0, 0)), "refused 9 110\n");
}

#[test]
fn k8_a_false_equality_is_not_followed() {
    let query = two_written(0, 1);
    let cells = "0 5 20\n0 6 0\n1 5 21\n1 6 1\n2 3 10\n2 5 20\n2 6 0\n3 4 11\n3 5 21\n3 6 1\n";
    assert_eq!(verdict_lines(&query), format!("consistent 10\n{cells}"));
    assert_eq!(lookup_line(&query, Some(b"3\n7\n")), "0\n");
    assert_eq!(lookup_line(&query, Some(b"4\n7\n")), "refused 11 0\n");
    assert_eq!(lookup(&query, 3, 5), Ok(21));
    assert_eq!(clause_lines(&query), "refused 12 0\n");
}

#[test]
fn k9_a_conditional_leads_to_the_chosen_branch() {
    assert_eq!(verdict_lines(&chosen_branch()), "conflict 5\nfalse 0\nthen 1 2\n");
}

#[test]
fn k10_no_source_no_pair() {
    assert_eq!(verdict_lines(&[]), "consistent 0\n");
    assert_eq!(verdict_lines(&variable().repeat(48)), "consistent 0\n");
    assert_eq!(verdict_lines(&variable().repeat(49)), "refused 5 144\n");
}

#[test]
fn k11_tag_end_and_length() {
    assert_eq!(verdict_lines(&[9, 0, 0]), "refused 3 0\n");
    assert_eq!(verdict_lines(&[1, 0, 4, 0, 0]), "refused 2 0\n");
    assert_eq!(verdict_lines(&[3, 0, 5]), "refused 4 0\n");
}

#[test]
fn k12_the_least_and_the_largest_index() {
    let indices = [base(0), base(u32::MAX), variable()].concat();
    let query = [indices, read(0, 0, 1), read(0, 1, 2)].concat();
    assert_eq!(verdict_lines(&query), "consistent 2\n0 0 1\n0 4294967295 2\n");
    assert_eq!(lookup_line(&query, Some(b"0\n4294967295\n")), "2\n");
}

#[test]
fn the_answer_must_fit() {
    let query = two_reads(7, 9);
    let refused = Refusal { number: 10, offset: 0 };
    assert_eq!(check(&query, 13), Checked::Refused(refused));
    let count = clauses(&query, 12_625).expect("a query in conflict").numbers.len();
    assert_eq!(clauses(&query, count - 1), Err(refused));
    assert_eq!(check(&two_reads(7, 7), 0), Checked::Consistent { pairs: 2 });
}
