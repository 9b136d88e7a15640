//! Damage done to queries: mostly they are then refused, each refusal number
//! and offset in turn.

use judge::field::{decode, encode, Field};
use judge::graph::fixed_bases;
use judge::random::Random;

/// The longest query that a request carries.
const MOST_BYTES: usize = 5_000;

/// The lengths that belong to the tags 01 to 08.
const OWN_LENGTHS: [usize; 8] = [4, 1, 0, 6, 6, 8, 9, 4];

/// The length of a whole equality, and the place of its truth.
const EQUALITY_BYTES: usize = 12;
const EQUALITY_TRUTH: usize = 7;

/// The fields of the bytes by their heads, as far as they go.
pub fn raw_fields(bytes: &[u8]) -> Vec<Vec<u8>> {
    let mut fields = Vec::new();
    let mut rest = bytes;
    while rest.len() >= 3 {
        let length = 3 + usize::from(u16::from_be_bytes([rest[1], rest[2]]));
        let (field, after) = rest.split_at(length.min(rest.len()));
        fields.push(field.to_vec());
        rest = after;
    }
    fields.push(rest.to_vec());
    fields
}

/// One to three random changes.
pub fn mutated(random: &mut Random, mut query: Vec<u8>) -> Vec<u8> {
    for _ in 0..1 + random.below(3) {
        query = mutate_once(random, query);
    }
    query.truncate(MOST_BYTES);
    query
}

fn mutate_once(random: &mut Random, mut query: Vec<u8>) -> Vec<u8> {
    if query.is_empty() {
        return any_field(random);
    }
    let place = random.below(query.len());
    match random.below(11) {
        0 => query[place] ^= 1 << random.below(8),
        1 => query[place] = *random.pick(&[0, 1, 2, 0xFF]),
        2 => query[place] = query[place].wrapping_add(1),
        3 => {
            query.remove(place);
        }
        4 => query.insert(place, random.number() as u8),
        5 => query.truncate(place),
        6 => query.extend(any_field(random)),
        7 | 8 => return mutate_equality(random, &query),
        _ => return mutate_fields(random, &query),
    }
    query
}

fn mutate_fields(random: &mut Random, query: &[u8]) -> Vec<u8> {
    let mut fields = raw_fields(query);
    let (one, other) = (random.below(fields.len()), random.below(fields.len()));
    match random.below(7) {
        0 => fields.swap(one, other),
        1 => fields.insert(other, fields[one].clone()),
        2 => {
            fields.remove(one);
        }
        3 => fields.insert(one, any_field(random)),
        4 => change_length(random, &mut fields[one]),
        5 => change_tag(random, &mut fields[one]),
        _ => change_number(random, &mut fields[one]),
    }
    fields.concat()
}

/// Another tag, mostly of another length.
fn change_tag(random: &mut Random, field: &mut [u8]) {
    if let Some(tag) = field.first_mut() {
        *tag = random.below(OWN_LENGTHS.len() + 2) as u8;
    }
}

/// Changes an equality, if there is one: its truth, its sides or a witness.
fn mutate_equality(random: &mut Random, query: &[u8]) -> Vec<u8> {
    let mut fields = raw_fields(query);
    let is_equality = |field: &Vec<u8>| field.len() == EQUALITY_BYTES && field[0] == 7;
    let places: Vec<usize> = (0..fields.len()).filter(|at| is_equality(&fields[*at])).collect();
    if places.is_empty() {
        return mutate_fields(random, query);
    }
    let field = &mut fields[*random.pick(&places)];
    match random.below(6) {
        0 | 1 => field[EQUALITY_TRUTH] ^= 1,
        2 => field[EQUALITY_TRUTH] = 2,
        3 => field.copy_within(3..5, 5),
        4 => field.copy_within(8..10, 10),
        _ => change_number(random, field),
    }
    fields.concat()
}

/// Changes the length in the head, the value's length, or both.
fn change_length(random: &mut Random, field: &mut Vec<u8>) {
    if field.len() < 3 {
        return;
    }
    let longer = random.chance(50);
    if random.chance(70) {
        let length = u16::from_be_bytes([field[1], field[2]]);
        let length = if longer { length.wrapping_add(1) } else { length.wrapping_sub(1) };
        field[1..3].copy_from_slice(&length.to_be_bytes());
    }
    if longer {
        field.push(random.number() as u8);
    } else {
        field.pop();
    }
}

/// Moves one number of the value up or down, or by 256.
fn change_number(random: &mut Random, field: &mut [u8]) {
    if field.len() < 5 {
        return;
    }
    let place = 3 + random.below(field.len() - 4);
    let number = u16::from_be_bytes([field[place], field[place + 1]]);
    let step = *random.pick(&[1, u16::MAX, 0x0100, 2, 47, 48, 63, 64, 255]);
    field[place..place + 2].copy_from_slice(&number.wrapping_add(step).to_be_bytes());
}

/// A field of any tag, mostly with its own length and small numbers, so that
/// several faults often meet in it.
fn any_field(random: &mut Random) -> Vec<u8> {
    let tag = random.below(10);
    let own = tag.checked_sub(1).and_then(|place| OWN_LENGTHS.get(place)).copied();
    let length = match own {
        Some(length) if random.chance(85) => length,
        _ => random.below(11),
    };
    let mut field = vec![tag as u8, 0, length as u8];
    for place in 0..length {
        let high = place % 2 == 0;
        let small = if high { 0 } else { random.below(6) as u8 };
        field.push(if random.chance(80) { small } else { random.number() as u8 });
    }
    if random.chance(10) {
        field.truncate(random.below(field.len() + 1));
    }
    field
}

/// The query and then bytes enough to pass the largest length, or nearly.
pub fn lengthened(random: &mut Random, mut query: Vec<u8>) -> Vec<u8> {
    let goal = *random.pick(&[4_095, 4_096, 4_097, 4_098, MOST_BYTES]);
    while query.len() < goal {
        query.extend(any_field(random));
    }
    query.truncate(goal);
    query
}

/// A fixed number for a witness, which is to be a read, where the query has
/// both a fixed number and an equality.
pub fn with_fixed_witness(random: &mut Random, query: &[u8]) -> Vec<u8> {
    let (mut fields, rest) = decode(query);
    let bases = (0..).zip(fixed_bases(&fields));
    let fixed: Vec<u16> = bases.filter(|base| base.1).map(|base| base.0).collect();
    let mut witnesses = Vec::new();
    for field in &mut fields {
        if let Field::Equality { left_witness, right_witness, .. } = field {
            witnesses.extend([left_witness, right_witness]);
        }
    }
    if !fixed.is_empty() && !witnesses.is_empty() {
        let place = random.below(witnesses.len());
        *witnesses[place] = *random.pick(&fixed);
    }
    [encode(&fields), rest.to_vec()].concat()
}

/// Series filled to their end, then one field more of any kind.
pub fn overfilled(random: &mut Random) -> Vec<u8> {
    let mut query = Vec::new();
    let base = [*random.pick(&[1, 8]), 0, 4, 0, 0, 0, 9];
    for (field, most) in [(&[3, 0, 0][..], 48), (&base, 256), (&[2, 0, 1, 1], 64)] {
        let count = *random.pick(&[most, most, most - 1, 1]);
        query.extend(field.repeat(count));
    }
    query.extend(any_field(random));
    query.extend(any_field(random));
    query
}
