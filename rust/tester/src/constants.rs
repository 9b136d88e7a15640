//! Constants as customers have them: most indices are fixed numbers, and some
//! values (02, E1). A free base term that becomes fixed keeps its place, number
//! and value, so that the query is accepted as before, with the same verdict.

use judge::field::{decode, encode, Field, Series};
use judge::random::Random;
use std::collections::BTreeSet;

/// How many of the free terms become fixed, in percent.
struct Mix {
    indices: usize,
    others: usize,
}

/// What customers have, and beside it everything and half of everything.
const MIXES: [Mix; 4] = [
    Mix { indices: 90, others: 30 },
    Mix { indices: 90, others: 30 },
    Mix { indices: 100, others: 100 },
    Mix { indices: 50, others: 50 },
];

/// How many queries have constants, in percent.
const WITH_CONSTANTS: usize = 60;

/// The query with constants in some mix, or as it is.
pub fn with_constants(random: &mut Random, query: Vec<u8>) -> Vec<u8> {
    if !random.chance(WITH_CONSTANTS) {
        return query;
    }
    let mix = random.pick(&MIXES);
    with_fixed(&query, |_, is_index| random.chance(if is_index { mix.indices } else { mix.others }))
}

/// The query with all its indices fixed that can be: reads are what they are.
pub fn with_indices_fixed(query: &[u8]) -> Vec<u8> {
    with_fixed(query, |_, is_index| is_index)
}

/// The query with those free base terms fixed that the test holds of. It is
/// told the term's number, and whether a write or read is at it.
pub fn with_fixed(query: &[u8], mut test: impl FnMut(u16, bool) -> bool) -> Vec<u8> {
    let (mut fields, rest) = decode(query);
    let indices = index_terms(&fields);
    let bases = fields.iter_mut().filter(|field| field.gives() == Series::Base);
    for (number, field) in (0..).zip(bases) {
        if let Field::Base { value } = *field {
            if test(number, indices.contains(&number)) {
                *field = Field::Fixed { value };
            }
        }
    }
    [encode(&fields), rest.to_vec()].concat()
}

/// The query with no fixed number: each is a free term of that value.
pub fn freed(query: &[u8]) -> Vec<u8> {
    let (mut fields, rest) = decode(query);
    for field in &mut fields {
        if let Field::Fixed { value } = *field {
            *field = Field::Base { value };
        }
    }
    [encode(&fields), rest.to_vec()].concat()
}

/// The numbers of the base terms that a write or read is at.
fn index_terms(fields: &[Field]) -> BTreeSet<u16> {
    let index = |field: &Field| match *field {
        Field::Write { index, .. } | Field::Read { index, .. } => Some(index),
        _ => None,
    };
    fields.iter().filter_map(index).collect()
}

#[cfg(test)]
mod tests {
    use super::*;
    use crate::shapes::SHAPES;
    use crate::ways::many_ways;
    use second::{check, Checked, MAX_LEMMA_BYTES};

    /// The pairs, and the literals of a conflict.
    fn told(query: &[u8]) -> (usize, Option<Vec<u8>>) {
        match check(query, MAX_LEMMA_BYTES) {
            Checked::Consistent { pairs } => (pairs, None),
            Checked::Conflict { pairs, lemma } => (pairs, Some(lemma)),
            Checked::Refused(refusal) => panic!("{refusal:?}"),
        }
    }

    #[test]
    fn constants_change_the_lemma_alone_and_only_shorten_it() {
        let (mut fixed, mut shorter) = (0, 0);
        for seed in 0..800 {
            let mut random = Random::new(seed);
            let shape = random.pick(&SHAPES);
            let free =
                if seed % 2 == 0 { shape.query(&mut random) } else { many_ways(&mut random) };
            let query = with_constants(&mut random, free.clone());
            assert_eq!(freed(&query), free, "seed {seed}");
            let ((pairs, lemma), (pairs_free, whole)) = (told(&query), told(&free));
            assert_eq!((pairs, lemma.is_some()), (pairs_free, whole.is_some()), "seed {seed}");
            let length = |lemma: Option<Vec<u8>>| lemma.map_or(0, |lemma| lemma.len());
            let (length, whole) = (length(lemma), length(whole));
            assert!(length <= whole, "seed {seed}");
            fixed += usize::from(query != free);
            shorter += usize::from(length < whole);
        }
        assert!(fixed > 200 && shorter > 30, "{fixed} {shorter}");
    }

    #[test]
    fn indices_are_fixed_and_nothing_else() {
        let fields = [
            Field::Base { value: 3 },
            Field::Base { value: 4 },
            Field::Base { value: 5 },
            Field::Variable,
            Field::Write { array: 0, index: 0, value: 1 },
            Field::Read { array: 0, index: 2, value: 3 },
            Field::Read { array: 0, index: 3, value: 7 },
        ];
        let query = with_indices_fixed(&encode(&fields));
        let (fixed, _) = decode(&query);
        let places: Vec<usize> = (0..fixed.len()).filter(|at| fixed[*at].is_fixed()).collect();
        assert_eq!(places, [0, 2]);
    }
}
