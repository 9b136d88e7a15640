//! Every accepted query of at most so many fields, with all values below two
//! to the width: each field in turn is any that the terms so far allow.

use crate::field::{Field, Series};
use crate::tiny::{base_values, reads};

/// Visits each such query once, the empty one first.
pub fn every(width: u32, most_fields: usize, visit: &mut impl FnMut(&[Field])) {
    extend(width, most_fields, &mut Vec::new(), visit);
}

fn extend(width: u32, most: usize, fields: &mut Vec<Field>, visit: &mut impl FnMut(&[Field])) {
    visit(fields);
    if fields.len() == most {
        return;
    }
    for next in next_fields(width, fields) {
        fields.push(next);
        extend(width, most, fields, visit);
        fields.pop();
    }
}

fn next_fields(width: u32, fields: &[Field]) -> Vec<Field> {
    let count = |series| fields.iter().filter(|field| field.gives() == series).count() as u16;
    let [bases, booleans, arrays] = [Series::Base, Series::Boolean, Series::Array].map(count);
    let mut next = vec![Field::Variable];
    next.extend([0, 1].map(|truth| Field::Boolean { truth }));
    next.extend((0..1 << width).map(|value| Field::Base { value }));
    next.extend((0..1 << width).map(|value| Field::Fixed { value }));
    for array in 0..arrays {
        next.extend(over_array(width, array, arrays, bases, booleans));
    }
    next.extend(equalities(fields));
    next
}

/// Writes over, reads of, and conditionals with this array if true.
fn over_array(width: u32, array: u16, arrays: u16, bases: u16, booleans: u16) -> Vec<Field> {
    let mut next = Vec::new();
    for index in 0..bases {
        next.extend((0..bases).map(|value| Field::Write { array, index, value }));
        next.extend((0..1 << width).map(|value| Field::Read { array, index, value }));
    }
    for boolean in 0..booleans {
        let branches = 0..arrays;
        next.extend(branches.map(|if_false| Field::Conditional {
            boolean,
            if_true: array,
            if_false,
        }));
    }
    next
}

/// An equality for each two reads at one index; a false one needs values
/// that differ.
fn equalities(fields: &[Field]) -> Vec<Field> {
    let reads = reads(fields);
    let values = base_values(fields);
    let mut next = Vec::new();
    for (left_witness, left, index) in &reads {
        for (right_witness, right, _) in reads.iter().filter(|read| read.2 == *index) {
            let (left_witness, right_witness) = (*left_witness, *right_witness);
            let differ = values[usize::from(left_witness)] != values[usize::from(right_witness)];
            let truths = if differ { 0..=1 } else { 1..=1 };
            let (left, right) = (*left, *right);
            next.extend(truths.map(|truth| Field::Equality {
                left,
                right,
                truth,
                left_witness,
                right_witness,
            }));
        }
    }
    next
}
