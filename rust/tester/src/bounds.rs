//! Queries constructed to reach the bounds of 01: all pairs in both verdicts,
//! the longest lemmas, the longest way around a write, and many paths of one
//! length to choose from.

use crate::builder::Builder;
use crate::memory::Memory;
use judge::field::encode;
use judge::random::Random;
use second::{MAX_ARRAYS, MAX_BASES, MAX_BOOLEANS};

const VALUES: usize = 7;

/// Every source reaches every array: 47 writes and 255 reads, all arrays
/// joined by true equalities, so 48 times 302 pairs.
pub fn all_pairs(random: &mut Random, conflict: bool) -> Vec<u8> {
    let mut builder = Builder::default();
    let mut memory = Memory::all(0);
    for index in 0..VALUES as u32 {
        memory = memory.with(index, random.below(VALUES) as u32);
    }
    let index = builder.base(random.below(VALUES) as u32);
    builder.variable(memory);
    builder.read(0, index);
    for array in 1..MAX_ARRAYS as u16 {
        // Writing what a read found leaves the memory as it is.
        let reading = *random.pick(&builder.reads);
        builder.write(random.below(usize::from(array)) as u16, reading.index, reading.base);
        builder.read(array, builder.any_base(random));
        builder.equality(array - 1, array, true, index);
    }
    while builder.room_for_boolean() {
        let (left, right) = (builder.any_array(random), builder.any_array(random));
        builder.equality(left, right, true, index);
    }
    while builder.room_for_bases(2) {
        builder.read(builder.any_array(random), builder.any_base(random));
    }
    let wrong = u32::from(conflict);
    let assigned = builder.assigned[1] + wrong;
    builder.read_as(builder.any_array(random), index, assigned);
    encode(&builder.fields)
}

/// What the edges of a longest path are made of.
#[derive(Clone, Copy)]
pub enum Links {
    /// Writes alone: 49 literals in 343 bytes, 12,625 numbers.
    Writes,
    /// Writes, conditionals and equalities at random: 49 literals.
    Any,
}

/// A path over all 48 arrays, each of its edges with a literal of its own,
/// between two reads at equal indices of different terms.
pub fn longest_lemma(random: &mut Random, links: Links) -> Vec<u8> {
    let mut joined = Joined::begin(random);
    for array in 1..MAX_ARRAYS as u16 {
        let link = match links {
            Links::Writes => Link::Write,
            Links::Any => *random.pick(&[Link::Write, Link::Conditional, Link::Equality]),
        };
        joined.link(random, array - 1, link);
    }
    joined.finish(random, MAX_ARRAYS as u16 - 1)
}

/// Two ways between the same arrays: so many writes and one more, and around
/// them all arrays that are left, with so many writes. The second is the path,
/// of 47 edges less so many (02, E6).
pub fn longest_detour(random: &mut Random, writes: usize) -> Vec<u8> {
    let mut joined = Joined::begin(random);
    let (mut end, mut newest) = (0, 0);
    for _ in 0..=writes {
        end = joined.link(random, end, Link::Write);
    }
    let others = MAX_ARRAYS - 2 - writes;
    let written = |place: usize| (place + 1) * writes / others > place * writes / others;
    for place in 0..others {
        let other = *random.pick(&[Link::Conditional, Link::Equality]);
        newest = joined.link(random, newest, if written(place) { Link::Write } else { other });
    }
    joined.builder.equality(newest, end, true, joined.witness_index);
    joined.finish(random, end)
}

#[derive(Clone, Copy)]
enum Link {
    Write,
    Conditional,
    Equality,
}

/// Arrays with edges that are open to one index value, the first a variable.
struct Joined {
    builder: Builder,
    index_value: u32,
    /// Two base terms of that value.
    indices: [u16; 2],
    witness_index: u16,
}

impl Joined {
    fn begin(random: &mut Random) -> Joined {
        let mut builder = Builder::default();
        let index_value = random.number() as u32 | 1;
        let indices = [builder.base(index_value), builder.base(index_value)];
        let witness_index = builder.base(index_value ^ 1);
        builder.variable(Memory::all(0));
        Joined { builder, index_value, indices, witness_index }
    }

    /// Gives the next array with an edge to `beneath` that has a literal of
    /// its own.
    fn link(&mut self, random: &mut Random, beneath: u16, link: Link) -> u16 {
        let builder = &mut self.builder;
        match link {
            Link::Write => {
                // Even, so that it differs from the index value, which is odd.
                let index = builder.base((random.number() as u32) & !1);
                assert!(builder.values[usize::from(index)] != self.index_value);
                builder.write(beneath, index, index)
            }
            Link::Conditional => {
                let truth = random.chance(50);
                let boolean = builder.boolean(truth);
                let unchosen = builder.any_array(random);
                let (if_true, if_false) =
                    if truth { (beneath, unchosen) } else { (unchosen, beneath) };
                builder.conditional(boolean, if_true, if_false)
            }
            Link::Equality => {
                let twin = builder.arrays[usize::from(beneath)].clone();
                let array = builder.variable(twin);
                builder.equality(beneath, array, true, self.witness_index);
                array
            }
        }
    }

    /// The query with two reads in conflict, of the first array and the end.
    fn finish(mut self, random: &mut Random, end: u16) -> Vec<u8> {
        let ends = [0, end];
        let first = random.below(2);
        self.builder.read_as(ends[first], self.indices[0], 5);
        self.builder.read_as(ends[1 - first], self.indices[1], 6);
        encode(&self.builder.fields)
    }
}

/// Layers of arrays, joined at random from layer to layer by equalities in a
/// shuffled order, and a conflict across: many paths of one length.
pub fn many_paths(random: &mut Random) -> Vec<u8> {
    let mut builder = Builder::default();
    let (index, witness_index) = (builder.base(1), builder.base(2));
    let breadth = 2 + random.below(4);
    let layers = 2 + random.below(MAX_ARRAYS / breadth - 1);
    for _ in 0..breadth * layers {
        builder.variable(Memory::all(0));
    }
    let mut joints = Vec::new();
    for layer in 1..layers {
        for _ in 0..breadth {
            let near = (layer - 1) * breadth + random.below(breadth);
            joints.push((near, layer * breadth + random.below(breadth)));
        }
    }
    while let Some(last) = joints.len().checked_sub(1) {
        let (near, far) = joints.swap_remove(random.below(last + 1));
        let (left, right) = if random.chance(50) { (near, far) } else { (far, near) };
        if builder.booleans.len() < MAX_BOOLEANS && builder.room_for_bases(4) {
            builder.equality(left as u16, right as u16, true, witness_index);
        }
    }
    let last = (layers - 1) * breadth;
    builder.read_as(random.below(breadth) as u16, index, 5);
    builder.read_as((last + random.below(breadth)) as u16, index, 6);
    assert!(builder.base_count() <= MAX_BASES);
    encode(&builder.fields)
}

#[cfg(test)]
mod tests {
    use super::*;
    use crate::rules::{lemma_by, Rule};
    use second::{check, clauses, Checked, MAX_CLAUSE_NUMBERS, MAX_LEMMA_BYTES};

    const ALL_PAIRS: usize = 14_496;

    #[test]
    fn all_pairs_are_reached_in_both_verdicts() {
        for seed in 0..20 {
            let query = all_pairs(&mut Random::new(seed), false);
            assert_eq!(query.len(), 4_006);
            assert_eq!(check(&query, 0), Checked::Consistent { pairs: ALL_PAIRS });
            let query = all_pairs(&mut Random::new(seed), true);
            let checked = check(&query, MAX_LEMMA_BYTES);
            assert!(matches!(checked, Checked::Conflict { pairs: ALL_PAIRS, .. }), "{checked:?}");
        }
    }

    #[test]
    fn the_longest_lemma_fills_both_answers() {
        for seed in 0..20 {
            let query = longest_lemma(&mut Random::new(seed), Links::Writes);
            let checked = check(&query, MAX_LEMMA_BYTES);
            let Checked::Conflict { lemma, .. } = checked else { panic!("{checked:?}") };
            assert_eq!(lemma.len(), MAX_LEMMA_BYTES);
            let written = clauses(&query, MAX_CLAUSE_NUMBERS).expect("it fits exactly");
            assert_eq!(written.numbers.len(), MAX_CLAUSE_NUMBERS);
        }
    }

    #[test]
    fn any_links_give_forty_nine_literals() {
        for seed in 0..20 {
            let query = longest_lemma(&mut Random::new(seed), Links::Any);
            let lines = second::verdict_lines(&query);
            assert_eq!(lines.lines().count(), 1 + 49, "{lines}");
        }
    }
    #[test]
    fn the_longest_detour_is_taken_for_one_write_less() {
        for (seed, writes) in (0..20).flat_map(|seed| (0..=3).map(move |writes| (seed, writes))) {
            let query = longest_detour(&mut Random::new(seed), writes);
            let count = |rule| lemma_by(rule, &query).map(|lemma| lemma.premise.len());
            assert_eq!(count(Rule::FewestEdges), Some(1 + writes + 1), "seed {seed}");
            assert_eq!(count(Rule::FewestWrites), Some(1 + 47 - writes), "seed {seed}");
            let lines = second::verdict_lines(&query);
            assert_eq!(lines.lines().count(), 1 + 49 - writes, "{lines}");
            let differ = lines.lines().filter(|line| line.starts_with("ne ")).count();
            assert_eq!(differ, writes, "{lines}");
        }
    }
}
