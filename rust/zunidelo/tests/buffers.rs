//! Buffers of every length: too short ones are refused and untouched, and
//! beyond the answer nothing is written.

mod stored;

use zunidelo::{
    check, check_into, clauses_into, Checked, Refusal, Totals, Verdict, CLAUSE_NUMBERS, LEMMA_BYTES,
};

const BYTE_BEFORE: u8 = 0xAA;
const NUMBER_BEFORE: i32 = -7;

/// The stored queries in conflict.
fn conflicts() -> Vec<(String, Vec<u8>)> {
    let mut queries = stored::queries();
    queries.retain(|(_, query)| matches!(check(query), Ok(Verdict::Conflict { .. })));
    assert!(queries.len() >= 8, "K1, K3, K4, K5, K6, K9 and two at the bounds");
    queries
}

/// The lemma's bytes, and the answer of the check that gave them.
fn lemma(query: &[u8]) -> (Checked, Vec<u8>) {
    let mut answer = [BYTE_BEFORE; LEMMA_BYTES];
    let checked = check_into(query, &mut answer).expect("a buffer that is long enough");
    let Checked::Conflict { length, .. } = checked else { panic!("a query in conflict") };
    (checked, answer[..length].to_vec())
}

fn run(query: &[u8]) -> (Totals, Vec<i32>) {
    let mut numbers = vec![NUMBER_BEFORE; CLAUSE_NUMBERS];
    let totals = clauses_into(query, &mut numbers).expect("a run that is long enough");
    (totals, numbers[..totals.count].to_vec())
}

#[test]
fn a_lemma_goes_into_any_buffer_that_holds_it() {
    for (name, query) in conflicts() {
        let (checked, bytes) = lemma(&query);
        for room in 0..=LEMMA_BYTES + 1 {
            let mut answer = vec![BYTE_BEFORE; room];
            let mut expected = answer.clone();
            if room < bytes.len() {
                let refused = check_into(&query, &mut answer);
                assert_eq!(refused, Err(Refusal::BufferTooShort), "{name}, {room}");
            } else {
                assert_eq!(check_into(&query, &mut answer), Ok(checked), "{name}, {room}");
                expected[..bytes.len()].copy_from_slice(&bytes);
            }
            assert_eq!(answer, expected, "{name}, {room}");
        }
    }
}

#[test]
fn clauses_go_into_any_run_that_holds_them() {
    for (name, query) in conflicts() {
        let (totals, written) = run(&query);
        for room in 0..=written.len() + 1 {
            let mut numbers = vec![NUMBER_BEFORE; room];
            let mut expected = numbers.clone();
            if room < written.len() {
                let refused = clauses_into(&query, &mut numbers);
                assert_eq!(refused, Err(Refusal::BufferTooShort), "{name}, {room}");
            } else {
                assert_eq!(clauses_into(&query, &mut numbers), Ok(totals), "{name}, {room}");
                expected[..written.len()].copy_from_slice(&written);
            }
            assert_eq!(numbers, expected, "{name}, {room}");
        }
    }
}

#[test]
fn the_longest_lemma_fills_both_buffers() {
    let query = stored::query("longest");
    assert_eq!(lemma(&query).1.len(), LEMMA_BYTES);
    assert_eq!(run(&query).0.count, CLAUSE_NUMBERS);
}

#[test]
fn what_gives_no_lemma_leaves_the_buffers_as_they_are() {
    for (name, query) in stored::queries() {
        let mut answer = [BYTE_BEFORE; LEMMA_BYTES];
        if matches!(check_into(&query, &mut answer), Ok(Checked::Conflict { .. })) {
            continue;
        }
        assert_eq!(answer, [BYTE_BEFORE; LEMMA_BYTES], "{name}");
        let mut numbers = vec![NUMBER_BEFORE; CLAUSE_NUMBERS];
        assert!(clauses_into(&query, &mut numbers).is_err(), "{name}");
        assert!(numbers.iter().all(|number| *number == NUMBER_BEFORE), "{name}");
    }
}

#[test]
fn a_consistent_query_needs_no_buffer() {
    let query = stored::query("K8");
    assert_eq!(check_into(&query, &mut []), Ok(Checked::Consistent { pairs: 10 }));
    assert_eq!(check_into(&[], &mut []), Ok(Checked::Consistent { pairs: 0 }));
    assert_eq!(clauses_into(&[], &mut []), Err(Refusal::OtherVerdict));
}
