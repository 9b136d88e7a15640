//! Random accepted queries that are small enough for the judge. The assigned
//! values are those of a random interpretation, now and then disturbed, so
//! that both verdicts come often.

use crate::field::{Field, Series};
use crate::interpretation::{free_bits, Interpretation};
use crate::random::Random;

const MOST_FIELDS: usize = 16;

/// A query of at most 16 fields and `bits` bits of free choice.
pub fn tiny(random: &mut Random, width: u32, bits: u32) -> Vec<Field> {
    let first = *random.pick(&[Field::Base { value: 0 }, Field::Fixed { value: 0 }]);
    let mut fields = vec![first, Field::Variable];
    let mut terms = Interpretation::new(width);
    let wrong = *random.pick(&[0, 20, 50]);
    for field in &mut fields {
        settle(random, &mut terms, field, width, 0);
    }
    for _ in 0..4 + random.below(MOST_FIELDS - 5) {
        let Some(mut field) = any_field(random, &fields, &terms, width) else { continue };
        if free_bits(&fields, width) + free_bits(&[field], width) <= bits {
            settle(random, &mut terms, &mut field, width, wrong);
            fields.push(field);
        }
    }
    // A disturbed value may have made a false equality's witnesses equal.
    make_accepted(&mut fields);
    fields
}

/// Gives the field's term a value in the interpretation, and assigns it,
/// rightly or by `wrong` percent at random. A fixed number keeps its own.
fn settle(
    random: &mut Random,
    terms: &mut Interpretation,
    field: &mut Field,
    width: u32,
    wrong: usize,
) {
    let bits = free_bits(&[*field], width);
    terms.extend(field, (random.number() & ((1 << bits) - 1)) as u32);
    let disturbed = random.chance(wrong);
    match field {
        Field::Base { value } | Field::Read { value, .. } => {
            *value = *terms.bases.last().expect("a base was given");
            if disturbed {
                *value = random.below(1 << width) as u32;
            }
        }
        Field::Boolean { truth } | Field::Equality { truth, .. } => {
            *truth = u8::from(*terms.booleans.last().expect("a Boolean was given"));
            if disturbed {
                *truth = random.below(2) as u8;
            }
        }
        _ => {}
    }
}

/// A field of a random kind over the terms so far, if it has the terms.
fn any_field(
    random: &mut Random,
    fields: &[Field],
    terms: &Interpretation,
    width: u32,
) -> Option<Field> {
    let array = |random: &mut Random| random.below(terms.arrays.len()) as u16;
    let base = |random: &mut Random| random.below(terms.bases.len()) as u16;
    Some(match random.below(18) {
        0 | 1 => Field::Base { value: 0 },
        16 | 17 => Field::Fixed { value: random.below(1 << width) as u32 },
        2 => Field::Boolean { truth: 0 },
        3 => Field::Variable,
        4..=6 => Field::Write { array: array(random), index: base(random), value: base(random) },
        7 | 8 if !terms.booleans.is_empty() => Field::Conditional {
            boolean: random.below(terms.booleans.len()) as u16,
            if_true: array(random),
            if_false: array(random),
        },
        9..=12 => Field::Read { array: array(random), index: base(random), value: 0 },
        13..=15 => any_equality(random, fields)?,
        _ => return None,
    })
}

fn any_equality(random: &mut Random, fields: &[Field]) -> Option<Field> {
    let reads = reads(fields);
    if reads.is_empty() {
        return None;
    }
    let (left_witness, left, index) = *random.pick(&reads);
    let fitting: Vec<_> = reads.into_iter().filter(|read| read.2 == index).collect();
    let (right_witness, right, _) = *random.pick(&fitting);
    Some(Field::Equality { left, right, truth: 0, left_witness, right_witness })
}

/// Each read: its base number, its array, its index.
pub fn reads(fields: &[Field]) -> Vec<(u16, u16, u16)> {
    let mut reads = Vec::new();
    let mut bases = 0;
    for field in fields {
        if let Field::Read { array, index, .. } = *field {
            reads.push((bases, array, index));
        }
        bases += u16::from(field.gives() == Series::Base);
    }
    reads
}

/// The assigned or fixed values of the base terms.
pub fn base_values(fields: &[Field]) -> Vec<u32> {
    fields.iter().filter_map(Field::value).collect()
}

fn make_accepted(fields: &mut [Field]) {
    let values = base_values(fields);
    for field in fields {
        if let Field::Equality { truth, left_witness, right_witness, .. } = field {
            if values[usize::from(*left_witness)] == values[usize::from(*right_witness)] {
                *truth = 1;
            }
        }
    }
}
