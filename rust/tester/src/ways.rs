//! Queries in which several ways lead from one array to another, with
//! different numbers of writes and of edges (02, E6).

use crate::builder::Builder;
use crate::memory::Memory;
use judge::field::encode;
use judge::random::Random;
use second::MAX_ARRAYS;

/// What the two reads in conflict are at. The writes are at other indices,
/// but for a few whose edge is closed, and they write what is there: 0.
const INDEX: u32 = 1;
const WRITE_INDEX: u32 = 4;

/// How many arrays back an array joins on.
const NEAR: usize = 4;

/// Arrays, each above one of the last few by a write, a conditional or an
/// equality, and equalities across; last a right read and a wrong one.
pub fn many_ways(random: &mut Random) -> Vec<u8> {
    let mut builder = Builder::default();
    let (index, witness_index, zero) = (builder.base(INDEX), builder.base(2), builder.base(0));
    let mut write_indices: Vec<u16> =
        (0..2 + random.below(3)).map(|_| builder.base(WRITE_INDEX)).collect();
    if random.chance(20) {
        write_indices.push(index);
    }
    let booleans = [builder.boolean(true), builder.boolean(false)];
    builder.variable(Memory::all(0));
    let (arrays, across) = (3 + random.below(MAX_ARRAYS - 2), 10 + random.below(60));
    while builder.arrays.len() < arrays && builder.room_for_boolean() {
        let beneath = near(random, &builder);
        match random.below(10) {
            0..=5 => builder.write(beneath, *random.pick(&write_indices), zero),
            6 | 7 => builder.conditional(*random.pick(&booleans), beneath, beneath),
            _ => {
                let array = builder.variable(Memory::all(0));
                builder.equality(array, beneath, true, witness_index);
                array
            }
        };
        if random.chance(across) && builder.room_for_boolean() {
            let (left, right) = (near(random, &builder), near(random, &builder));
            builder.equality(left, right, true, witness_index);
        }
    }
    let mut values = [0, 6];
    values.rotate_left(random.below(2));
    builder.read_as(builder.any_array(random), index, values[0]);
    builder.read_as(builder.any_array(random), index, values[1]);
    encode(&builder.fields)
}

/// Two arrays, each written at one index and then a few times elsewhere, and
/// taken to be equal although the two values differ: the sources in conflict
/// are the writes, whose values are plain terms.
pub fn written_apart(random: &mut Random) -> Vec<u8> {
    let mut builder = Builder::default();
    let witness_index = builder.base(2);
    let indices = [builder.base(INDEX), builder.base(INDEX)];
    let write_indices = [3, 4, 5].map(|value| builder.base(value));
    let mut tops = Vec::new();
    for value in [6, 7] {
        let value = builder.base(value);
        let beneath = builder.variable(Memory::all(0));
        let mut top = builder.write(beneath, *random.pick(&indices), value);
        for _ in 0..random.below(4) {
            top = builder.write(top, *random.pick(&write_indices), value);
        }
        tops.push(top);
    }
    builder.equality(tops[0], tops[1], true, witness_index);
    encode(&builder.fields)
}

fn near(random: &mut Random, builder: &Builder) -> u16 {
    let count = builder.arrays.len();
    (count - 1 - random.below(count.min(NEAR))) as u16
}

#[cfg(test)]
mod tests {
    use super::*;
    use crate::constants::{with_fixed, with_indices_fixed};
    use crate::rules::{byte_count, lemma_by, Rule};
    use second::verdict_lines;

    /// Of 300 queries, those that a test holds of.
    fn how_many(test: impl Fn(&[u8]) -> bool) -> usize {
        (0..300).filter(|seed| test(&many_ways(&mut Random::new(*seed)))).count()
    }

    #[test]
    fn they_are_accepted_and_mostly_in_conflict() {
        assert!(how_many(|query| verdict_lines(query).starts_with("conflict")) > 250);
        assert_eq!(how_many(|query| verdict_lines(query).starts_with("refused")), 0);
    }

    #[test]
    fn every_wrong_rule_shows_in_many() {
        let right = |query: &[u8]| lemma_by(Rule::FewestWrites, query);
        for rule in [Rule::FewestEdges, Rule::EdgesBeforeWrites, Rule::HighestEdge] {
            let shown = how_many(|query| lemma_by(rule, query) != right(query));
            assert!(shown > 30, "{rule:?}: {shown}");
        }
        let rule = Rule::FewestComparisons;
        assert_eq!(how_many(|query| lemma_by(rule, query) != right(query)), 0);
        let fixed = how_many(|query| {
            let query = with_indices_fixed(query);
            lemma_by(rule, &query) != right(&query)
        });
        assert!(fixed > 30, "{rule:?}: {fixed}");
    }

    #[test]
    fn two_writes_in_conflict_keep_their_conclusion() {
        for seed in 0..100 {
            let query = written_apart(&mut Random::new(seed));
            let (free, fixed) = (verdict_lines(&query), with_fixed(&query, |_, _| true));
            assert!(free.starts_with("conflict") && free.ends_with("then 6 7\n"), "{free}");
            let (first, _) = free.split_once('\n').expect("a line");
            let expected = format!("{first}\ntrue 0\nthen 6 7\n");
            assert_eq!(verdict_lines(&fixed), expected, "seed {seed}");
        }
    }

    #[test]
    fn the_lemma_may_be_longer_than_by_a_shortest_walk_and_shorter() {
        let bytes = |rule, query: &[u8]| lemma_by(rule, query).map(|lemma| byte_count(&lemma));
        let right = |query: &[u8]| bytes(Rule::FewestWrites, query);
        assert!(how_many(|query| right(query) > bytes(Rule::FewestEdges, query)) > 30);
        assert!(how_many(|query| right(query) < bytes(Rule::FewestEdges, query)) > 10);
    }
}
