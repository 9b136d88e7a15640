//! A query damaged in nine ways: each is refused by a number of its own, 1 to 9.

use judge::field::{decode, encode, Field, Series};
use second::{MAX_ARRAYS, MAX_QUERY_BYTES};

/// What the damage is, the number that refuses it, and the damaged query.
pub type Damage = (&'static str, u64, fn(&[u8]) -> Vec<u8>);

pub const DAMAGES: [Damage; 9] = [
    ("with more than 4,096 bytes", 1, too_long),
    ("without its last byte", 2, |query| query[..query.len() - 1].to_vec()),
    ("with an unknown tag", 3, |query| [query, &[0x7F, 0, 0]].concat()),
    ("with a field of a wrong length", 4, |query| [query, &[0x03, 0, 1, 0]].concat()),
    ("with one array too many", 5, one_array_too_many),
    ("with a witness that is not given", 6, |query| with_equality(query, 1, Some(NOT_GIVEN))),
    ("with a truth of 2", 7, |query| with_equality(query, 2, None)),
    ("with a witness that is no read", 8, |query| with_equality(query, 1, Some(NO_READ))),
    ("with equal witnesses and truth 0", 9, |query| with_equality(query, 0, None)),
];

const NOT_GIVEN: u16 = u16::MAX;

/// The first base term is no read, since a read names an earlier one.
const NO_READ: u16 = 0;

fn too_long(query: &[u8]) -> Vec<u8> {
    let mut query = query.to_vec();
    query.resize(MAX_QUERY_BYTES + 1, 0);
    query
}

fn one_array_too_many(query: &[u8]) -> Vec<u8> {
    let (mut fields, _) = decode(query);
    let arrays = fields.iter().filter(|field| field.gives() == Series::Array).count();
    fields.resize(fields.len() + MAX_ARRAYS + 1 - arrays, Field::Variable);
    encode(&fields)
}

/// An equality of this truth of an array with itself, in place of the query's
/// last or, where it has none, at its end. Both witnesses are a read of the
/// array, but for the left one where another is given.
fn with_equality(query: &[u8], truth: u8, left_witness: Option<u16>) -> Vec<u8> {
    let (mut fields, _) = decode(query);
    let (array, read) = first_read(&fields);
    let left_witness = left_witness.unwrap_or(read);
    let equality =
        Field::Equality { left: array, right: array, truth, left_witness, right_witness: read };
    match fields.iter_mut().rfind(|field| matches!(field, Field::Equality { .. })) {
        Some(last) => *last = equality,
        None => fields.push(equality),
    }
    encode(&fields)
}

/// The array of the first read, and the read's own number among the base terms.
fn first_read(fields: &[Field]) -> (u16, u16) {
    let bases = fields.iter().filter(|field| field.gives() == Series::Base);
    let read = bases.zip(0..).find_map(|(field, number)| match *field {
        Field::Read { array, .. } => Some((array, number)),
        _ => None,
    });
    read.expect("the query of a class has a read")
}
