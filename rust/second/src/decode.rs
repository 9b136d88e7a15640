//! From bytes to a query, or to the refusals 1 to 9. One table says of which
//! parts each tag's value is made; lengths and named terms follow from it.

use crate::query::{
    Base, Edge, Guard, Kind, Query, Source, MAX_ARRAYS, MAX_BASES, MAX_BOOLEANS, MAX_QUERY_BYTES,
};
use crate::Refusal;

const HEAD_BYTES: usize = 3;

/// One part of a field's value.
#[derive(Clone, Copy)]
enum Part {
    Base,
    Boolean,
    Array,
    Value,
    Truth,
}

/// The parts of a tag's value, then the series whose next term it gives.
fn layout(tag: u8) -> Option<(&'static [Part], Part)> {
    use Part::*;
    Some(match tag {
        1 => (&[Value], Base),
        2 => (&[Truth], Boolean),
        3 => (&[], Array),
        4 => (&[Array, Base, Base], Array),
        5 => (&[Boolean, Array, Array], Array),
        6 => (&[Array, Base, Value], Base),
        7 => (&[Array, Array, Truth, Base, Base], Boolean),
        8 => (&[Value], Base),
        _ => return None,
    })
}

impl Part {
    fn bytes(self) -> usize {
        match self {
            Part::Base | Part::Boolean | Part::Array => 2,
            Part::Value => 4,
            Part::Truth => 1,
        }
    }

    /// How many terms of this series are given so far, and the most allowed.
    fn given_and_most(self, query: &Query) -> Option<(usize, usize)> {
        match self {
            Part::Base => Some((query.bases.len(), MAX_BASES)),
            Part::Boolean => Some((query.booleans.len(), MAX_BOOLEANS)),
            Part::Array => Some((query.arrays, MAX_ARRAYS)),
            Part::Value | Part::Truth => None,
        }
    }
}

/// The query, or the refusal of its first faulty field.
pub fn decode(bytes: &[u8]) -> Result<Query, Refusal> {
    if bytes.len() > MAX_QUERY_BYTES {
        return Err(Refusal::without_place(1));
    }
    let mut query = Query::default();
    let mut offset = 0;
    while offset < bytes.len() {
        offset += take_field(&mut query, &bytes[offset..])
            .map_err(|number| Refusal { number, offset })?;
    }
    Ok(query)
}

/// Takes the field at the front of `rest` into the query and answers its
/// length, or the number of its first fault in 01's order.
fn take_field(query: &mut Query, rest: &[u8]) -> Result<usize, u8> {
    if rest.len() < HEAD_BYTES {
        return Err(2);
    }
    let tag = rest[0];
    let length = number(&rest[1..HEAD_BYTES]);
    let (parts, gives) = layout(tag).ok_or(3)?;
    if length != parts.iter().map(|part| part.bytes()).sum() {
        return Err(4);
    }
    let value = rest.get(HEAD_BYTES..HEAD_BYTES + length).ok_or(2)?;
    let numbers = split(parts, value);
    refuse_terms(query, parts, &numbers, gives)?;
    if tag == 7 {
        refuse_witnesses(query, &numbers)?;
    }
    give(query, tag, &numbers);
    Ok(HEAD_BYTES + length)
}

fn number(bytes: &[u8]) -> usize {
    bytes.iter().fold(0, |sum, byte| sum << 8 | *byte as usize)
}

fn split(parts: &[Part], value: &[u8]) -> Vec<usize> {
    let mut start = 0;
    let mut numbers = Vec::new();
    for part in parts {
        numbers.push(number(&value[start..start + part.bytes()]));
        start += part.bytes();
    }
    numbers
}

/// Refusals 5, 6 and 7.
fn refuse_terms(query: &Query, parts: &[Part], numbers: &[usize], gives: Part) -> Result<(), u8> {
    if gives.given_and_most(query).is_some_and(|(given, most)| given == most) {
        return Err(5);
    }
    let mut named = parts.iter().zip(numbers);
    if named
        .any(|(part, number)| part.given_and_most(query).is_some_and(|(given, _)| *number >= given))
    {
        return Err(6);
    }
    let mut truths = parts.iter().zip(numbers);
    if truths.any(|(part, number)| matches!(part, Part::Truth) && *number > 1) {
        return Err(7);
    }
    Ok(())
}

/// Refusals 8 and 9, of an equality whose terms are all given.
fn refuse_witnesses(query: &Query, numbers: &[usize]) -> Result<(), u8> {
    let [left, right, truth, left_witness, right_witness] = numbers[..] else {
        unreachable!("an equality has five parts");
    };
    let (left_base, right_base) = (&query.bases[left_witness], &query.bases[right_witness]);
    match (&left_base.kind, &right_base.kind) {
        (
            Kind::Read { array: left_read, index },
            Kind::Read { array: right_read, index: other },
        ) if (*left_read, *right_read) == (left, right) && index == other => {}
        _ => return Err(8),
    }
    if truth == 0 && left_base.value == right_base.value {
        return Err(9);
    }
    Ok(())
}

/// Adds a field without fault to the query.
fn give(query: &mut Query, tag: u8, numbers: &[usize]) {
    match (tag, numbers) {
        (1, &[value]) => query.bases.push(Base { value: value as u32, kind: Kind::Free }),
        (8, &[value]) => query.bases.push(Base { value: value as u32, kind: Kind::Fixed }),
        (2, &[truth]) => query.booleans.push(truth == 1),
        (3, &[]) => query.arrays += 1,
        (4, &[array, index, value]) => {
            let origin = query.arrays;
            query.arrays += 1;
            query.sources.push(Source { origin, index, value });
            query.edges.push(Edge { ends: [origin, array], guard: Guard::Write(index) });
        }
        (5, &[boolean, if_true, if_false]) => {
            let branch = if query.booleans[boolean] { if_true } else { if_false };
            let ends = [query.arrays, branch];
            query.arrays += 1;
            query.edges.push(Edge { ends, guard: Guard::Conditional(boolean) });
        }
        (6, &[array, index, value]) => {
            query.sources.push(Source { origin: array, index, value: query.bases.len() });
            query.bases.push(Base { value: value as u32, kind: Kind::Read { array, index } });
        }
        (7, &[left, right, truth, _, _]) => {
            let guard = Guard::Equality(query.booleans.len());
            query.booleans.push(truth == 1);
            query.edges.push(Edge { ends: [left, right], guard });
        }
        _ => unreachable!("the layout table gives each tag its parts"),
    }
}
