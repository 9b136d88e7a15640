//! Each row of the table of fields makes fields that the library takes, with
//! no other length and no other tag, and gives a term of the series it says.

use crate::fields::{
    base, boolean, conditional, equality, fixed, front, read, row, rows, variable, write, Row,
    Series, GIVEN,
};
use zunidelo::{check, lookup, Refusal};

/// One field of each row, to stand after the front.
pub fn examples() -> Vec<(Row, Vec<u8>)> {
    let fields = [
        ("base term", base(9)),
        ("Boolean", boolean(0)),
        ("array variable", variable()),
        ("write", write(0, 0, 1)),
        ("conditional", conditional(0, 0, 1)),
        ("read", read(0, 1, 8)),
        ("equality", equality([0, 1], 0, [2, 3])),
        ("fixed number", fixed(9)),
    ];
    assert_eq!(rows().len(), fields.len(), "a field of each row is tried");
    fields.into_iter().map(|(field, bytes)| (row(field), bytes)).collect()
}

/// A field that names the term and nothing else that is not given.
fn naming(series: Series, number: u32) -> Vec<u8> {
    match series {
        Series::Base => read(0, number, 7),
        Series::Boolean => conditional(number, 0, 0),
        Series::Array => write(number, 0, 0),
    }
}

fn refusal(query: &[u8]) -> Option<Refusal> {
    check(query).err()
}

#[test]
fn every_row_makes_a_field_that_is_accepted() {
    for (row, field) in examples() {
        assert_eq!(field.len(), 3 + row.length, "the parts of {} make up its length", row.field);
        assert_eq!(refusal(&[front(), field].concat()), None, "{}", row.field);
    }
}

#[test]
fn no_row_has_another_length() {
    let offset = front().len();
    for (row, field) in examples() {
        let shorter = row.length.checked_sub(1);
        for length in shorter.into_iter().chain([row.length + 1]) {
            let mut other = field.clone();
            other[1..3].copy_from_slice(&(length as u16).to_be_bytes());
            other.resize(3 + length, 0);
            let refused = refusal(&[front(), other].concat());
            assert_eq!(refused, Some(Refusal::WrongLength { offset }), "{} {length}", row.field);
        }
    }
}

#[test]
fn no_other_tag_is_known() {
    let known: Vec<u8> = rows().iter().map(|row| row.tag).collect();
    let offset = front().len();
    for tag in (0..=255).filter(|tag| !known.contains(tag)) {
        for length in 0..=9 {
            let mut field = vec![tag, 0, length];
            field.resize(3 + usize::from(length), 0);
            let refused = refusal(&[front(), field].concat());
            assert_eq!(refused, Some(Refusal::UnknownTag { offset }), "{tag:02x} {length}");
        }
    }
}

#[test]
fn every_row_gives_the_next_term_of_its_series_and_no_other() {
    for (row, field) in examples() {
        let grown = [front(), field].concat();
        for (series, number) in GIVEN {
            let next = naming(series, number);
            let offset = front().len();
            let without = refusal(&[front(), next.clone()].concat());
            assert_eq!(without, Some(Refusal::TermNotGiven { offset }), "{series:?}");
            let offset = grown.len();
            let expected = (series != row.gives).then_some(Refusal::TermNotGiven { offset });
            let with = refusal(&[grown.clone(), next].concat());
            assert_eq!(with, expected, "{} {series:?}", row.field);
            let after = refusal(&[grown.clone(), naming(series, number + 1)].concat());
            assert_eq!(after, Some(Refusal::TermNotGiven { offset }), "one term: {}", row.field);
        }
    }
}

/// Each part is where the row has it: what is looked up tells array, index and
/// value apart, and the branches of a conditional.
#[test]
fn the_parts_mean_what_the_row_says() {
    let cell = |field: Vec<u8>, array| lookup(&[front(), field].concat(), array, 5);
    assert_eq!(cell(vec![], 0), Ok(7));
    assert_eq!(cell(vec![], 1), Ok(0x0A0B_0C0D));
    assert_eq!(cell(write(1, 0, 1), 2), Ok(0x0102_0304));
    assert_eq!(cell(write(1, 1, 0), 2), Ok(0x0A0B_0C0D));
    assert_eq!(cell(conditional(0, 0, 1), 2), Ok(7));
    assert_eq!(cell(conditional(0, 1, 0), 2), Ok(0x0A0B_0C0D));
    let written = [front(), write(1, 1, 0)].concat();
    assert_eq!(lookup(&written, 2, 0x0102_0304), Ok(5));
    let written = [front(), fixed(0x0506_0708), write(1, 4, 4)].concat();
    assert_eq!(lookup(&written, 2, 0x0506_0708), Ok(0x0506_0708));
}

/// The left witness is a read of the left array, and the right one of the
/// right: no other pair of the front's reads passes.
#[test]
fn the_witnesses_go_with_their_sides() {
    for sides in [[0, 1], [1, 0]] {
        for witnesses in [[2, 3], [3, 2], [2, 2], [3, 3]] {
            let query = [front(), equality(sides, 0, witnesses)].concat();
            let fits = [witnesses[0] - 2, witnesses[1] - 2] == sides;
            let expected = (!fits).then_some(Refusal::WrongWitness { offset: front().len() });
            assert_eq!(refusal(&query), expected, "{sides:?} {witnesses:?}");
        }
    }
}
