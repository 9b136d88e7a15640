//! The query as a faulty copy takes it, which it then answers rightly.

use crate::constants::freed;
use crate::fault::Fault;
use judge::field::{decode, encode, Field};
use judge::graph::fixed_bases;

pub fn mistaken(fault: Fault, query: &[u8]) -> Vec<u8> {
    match fault {
        Fault::BranchNotChosen => each(query, |field| match field {
            Field::Conditional { boolean, if_true, if_false } => {
                Field::Conditional { boolean, if_true: if_false, if_false: if_true }
            }
            _ => field,
        }),
        Fault::FalseEqualityFollowed => each(query, |mut field| {
            if let Field::Equality { truth, .. } = &mut field {
                *truth |= 1;
            }
            field
        }),
        Fault::WriteTakenAsVariable => each(query, |field| match field {
            Field::Write { .. } => Field::Variable,
            _ => field,
        }),
        Fault::KeptByTwo => freed(query),
        Fault::FixedValueIgnored => each(query, |field| match field {
            Field::Fixed { .. } => field.with_value(0),
            _ => field,
        }),
        Fault::FixedAsWitness => with_equality_as_boolean(query),
        _ => query.to_vec(),
    }
}

/// The query with each field as it is taken.
fn each(query: &[u8], taken: impl Fn(Field) -> Field) -> Vec<u8> {
    let (fields, rest) = decode(query);
    let fields: Vec<Field> = fields.into_iter().map(taken).collect();
    [encode(&fields), rest.to_vec()].concat()
}

/// An equality with a fixed witness gives its Boolean, and nothing refuses it.
fn with_equality_as_boolean(query: &[u8]) -> Vec<u8> {
    let fixed = fixed_bases(&decode(query).0);
    let is_fixed = |base: u16| fixed.get(usize::from(base)) == Some(&true);
    each(query, |field| match field {
        Field::Equality { truth, left_witness, right_witness, .. }
            if is_fixed(left_witness) || is_fixed(right_witness) =>
        {
            Field::Boolean { truth }
        }
        _ => field,
    })
}
