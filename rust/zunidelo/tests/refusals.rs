//! Each refusal by its number, with its place and its words.

use zunidelo::{check, check_into, clauses, lookup, Refusal, QUERY_BYTES};

const BASE: [u8; 7] = [0x01, 0, 4, 0, 0, 0, 5];
const VARIABLE: [u8; 3] = [0x03, 0, 0];

/// A read of array 0 at base 0.
fn read(value: u8) -> Vec<u8> {
    vec![0x06, 0, 8, 0, 0, 0, 0, 0, 0, 0, value]
}

/// An equality of array 0 with itself.
fn equality(truth: u8, left_witness: u8, right_witness: u8) -> Vec<u8> {
    vec![0x07, 0, 9, 0, 0, 0, 0, truth, 0, left_witness, 0, right_witness]
}

/// A base term, an array and two reads of it, which differ: 32 bytes.
fn conflict() -> Vec<u8> {
    [&BASE[..], &VARIABLE, &read(7), &read(9)].concat()
}

const OFFSET: usize = 32;

/// The refusal of a query whose last field is at fault, checked by all calls.
fn refused(field: &[u8]) -> Refusal {
    let query = [conflict(), field.to_vec()].concat();
    let refusal = check(&query).expect_err("a refused query");
    assert_eq!(lookup(&query, 0, 0), Err(refusal));
    assert_eq!(clauses(&query), Err(refusal));
    refusal
}

#[test]
fn a_field_at_fault_is_named_by_its_offset() {
    let offset = OFFSET;
    let faults = [
        (vec![0x03, 0], 2, Refusal::CutOff { offset }),
        (vec![0x7F, 0, 0], 3, Refusal::UnknownTag { offset }),
        (vec![0x03, 0, 1], 4, Refusal::WrongLength { offset }),
        (vec![0x08, 0, 0], 4, Refusal::WrongLength { offset }),
        (vec![0x01, 0, 4, 0], 2, Refusal::CutOff { offset }),
        (vec![0x08, 0, 4, 0], 2, Refusal::CutOff { offset }),
        (equality(1, 1, 3), 6, Refusal::TermNotGiven { offset }),
        (equality(2, 1, 2), 7, Refusal::NoTruth { offset }),
        (equality(1, 0, 2), 8, Refusal::WrongWitness { offset }),
        (equality(0, 1, 1), 9, Refusal::EqualWitnesses { offset }),
    ];
    for (field, number, expected) in faults {
        let refusal = refused(&field);
        assert_eq!(refusal, expected);
        assert_eq!((refusal.number(), refusal.offset()), (number, OFFSET));
        let start = format!("refused {number} at byte 32: ");
        assert!(refusal.to_string().starts_with(&start), "{refusal}");
    }
}

#[test]
fn the_forty_ninth_array_is_one_too_many() {
    let refusal = check(&VARIABLE.repeat(49)).expect_err("a refused query");
    assert_eq!(refusal, Refusal::TooManyTerms { offset: 144 });
    assert_eq!((refusal.number(), refusal.offset()), (5, 144));
    assert_eq!(refusal.to_string(), "refused 5 at byte 144: one term too many of its series");
}

#[test]
fn a_fixed_number_is_no_witness() {
    let fixed = [0x08, 0, 4, 0, 0, 0, 7];
    let offset = OFFSET + fixed.len();
    for (left, right) in [(3, 2), (1, 3), (3, 3)] {
        let query = [conflict(), fixed.to_vec(), equality(1, left, right)].concat();
        assert_eq!(check(&query), Err(Refusal::WrongWitness { offset }), "{left} {right}");
    }
}

#[test]
fn a_query_that_is_too_long_has_no_place() {
    for length in [QUERY_BYTES + 1, 1_000_000] {
        let refusal = check(&vec![0; length]).expect_err("a refused query");
        assert_eq!(refusal, Refusal::QueryTooLong);
        assert_eq!((refusal.number(), refusal.offset()), (1, 0));
        assert_eq!(refusal.to_string(), "refused 1: the query has more than 4,096 bytes");
    }
    assert_eq!(check(&[0; QUERY_BYTES]), Err(Refusal::UnknownTag { offset: 0 }));
}

#[test]
fn what_is_asked_is_refused_without_a_place() {
    let query = conflict();
    let refusals = [
        (check_into(&query, &mut []).err(), 10, Refusal::BufferTooShort),
        (lookup(&VARIABLE, 1, 0).err(), 11, Refusal::NoSuchCell),
        (lookup(&query, 1, 0).err(), 12, Refusal::OtherVerdict),
        (clauses(&VARIABLE).err(), 12, Refusal::OtherVerdict),
    ];
    for (refusal, number, expected) in refusals {
        assert_eq!(refusal, Some(expected));
        assert_eq!((expected.number(), expected.offset()), (number, 0));
        let start = format!("refused {number}: ");
        assert!(expected.to_string().starts_with(&start), "{expected}");
    }
}

#[test]
fn a_refusal_is_an_error() {
    let error: Box<dyn std::error::Error> = check(&[9, 0, 0]).expect_err("a refused query").into();
    assert_eq!(error.to_string(), "refused 3 at byte 0: no field has this tag");
}
