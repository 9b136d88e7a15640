//! Tiny random queries in which several ways lead from one array to another: a
//! few arrays joined by writes, conditionals and equalities, each read at one
//! index, and one of the reads wrong.

use crate::field::Field;
use crate::interpretation::free_bits;
use crate::random::Random;

/// Base terms: where every array is read, and another index.
const INDEX: u16 = 0;
const OTHER_INDEX: u16 = 1;

/// A query of three to six arrays and `bits` bits of free choice at most. Its
/// two indices are free or fixed.
pub fn ways(random: &mut Random, width: u32, bits: u32) -> Vec<Field> {
    let index =
        |value: u32| if random.chance(50) { Field::Fixed { value } } else { Field::Base { value } };
    let mut fields = [0, 1].map(index).to_vec();
    fields.push(Field::Boolean { truth: 1 });
    let arrays = 3 + random.below(4) as u16;
    let wrong = random.below(usize::from(arrays)) as u16;
    for array in 0..arrays {
        let room = bits - free_bits(&fields, width);
        let variable = free_bits(&[Field::Variable], width) <= room && random.chance(40);
        fields.push(match array {
            0 => Field::Variable,
            _ if variable => Field::Variable,
            _ => above(random, array),
        });
        fields.push(Field::Read { array, index: INDEX, value: u32::from(array == wrong) });
        for _ in 0..random.below(4) {
            fields.push(equality(random, array));
        }
    }
    fields
}

/// A write over an earlier array, or a conditional of it.
fn above(random: &mut Random, array: u16) -> Field {
    let array = random.below(usize::from(array)) as u16;
    match random.below(8) {
        0 => Field::Write { array, index: INDEX, value: INDEX },
        1..=5 => Field::Write { array, index: OTHER_INDEX, value: INDEX },
        _ => Field::Conditional { boolean: 0, if_true: array, if_false: 0 },
    }
}

/// A true equality of two of the arrays up to this one, whose reads follow
/// the two base terms.
fn equality(random: &mut Random, newest: u16) -> Field {
    let [left, right] = [(); 2].map(|()| random.below(usize::from(newest) + 1) as u16);
    let witness = |array: u16| array + 2;
    let (left_witness, right_witness) = (witness(left), witness(right));
    Field::Equality { left, right, truth: 1, left_witness, right_witness }
}
