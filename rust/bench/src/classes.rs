//! The classes of queries that are timed: three shapes at three sizes in both
//! verdicts, queries in which every source reaches every array, with few index
//! values and with one, queries whose lemma has as many literals as any, and
//! queries in which equalities go around the writes. Those with writes once
//! more with their indices fixed, as customers have them.

use judge::field::encode;
use judge::random::Random;
use second::MAX_ARRAYS;
use tester::bounds::all_pairs;
use tester::builder::Builder;
use tester::constants::with_indices_fixed;
use tester::memory::Memory;
use tester::request::parse_hex;

const SEED: u64 = 1;

/// What reads that must meet are at; writes are at even indices.
const INDEX: u32 = 1;

/// How many base terms a round adds at most, and what the last read needs.
const BASES_OF_A_ROUND: usize = 3;

pub struct Class {
    pub name: String,
    pub query: Vec<u8>,
    pub conflict: bool,
}

/// The shapes whose indices are fixed once more.
const FIXED: [&str; 4] = ["chain", "mixed", "most literals", "ladder"];

impl Class {
    /// The same with its indices fixed, where that is a class.
    fn with_indices_fixed(&self) -> Option<Class> {
        let (shape, size) = self.name.split_once(", ")?;
        FIXED.contains(&shape).then(|| Class {
            name: format!("{shape}, fixed, {size}"),
            query: with_indices_fixed(&self.query),
            conflict: self.conflict,
        })
    }

    pub fn verdict(&self) -> &'static str {
        if self.conflict {
            "conflict"
        } else {
            "consistent"
        }
    }

    pub fn name_and_verdict(&self) -> String {
        format!("{}, {}", self.name, self.verdict())
    }
}

#[derive(Clone, Copy)]
enum Shape {
    /// Writes, each over the one before.
    Chain,
    /// Variables joined by true equalities.
    Mesh,
    /// Writes, conditionals and equalities at random.
    Mixed,
}

const SHAPES: [(&str, Shape); 3] =
    [("chain", Shape::Chain), ("mesh", Shape::Mesh), ("mixed", Shape::Mixed)];

/// A query ends before it passes so many bytes, or when its terms are full.
const SIZES: [(&str, usize); 3] = [("100 bytes", 115), ("1 KB", 1_024), ("largest", usize::MAX)];

/// Stored queries with all pairs and one index value for all sources.
const ONE_INDEX: &str = include_str!("../../../tests/known/all-pairs.hex");
const ONE_INDEX_CONFLICT: &str = include_str!("../../../tests/known/all-pairs-conflict.hex");

pub fn classes() -> Vec<Class> {
    let mut classes = Vec::new();
    for (size, most_bytes) in SIZES {
        for (shape_name, shape) in SHAPES {
            for conflict in [false, true] {
                let query = query(shape, most_bytes, conflict);
                classes.push(Class { name: format!("{shape_name}, {size}"), query, conflict });
            }
        }
    }
    for conflict in [false, true] {
        let query = all_pairs(&mut Random::new(SEED), conflict);
        classes.push(Class { name: "all pairs, largest".to_string(), query, conflict });
    }
    for (stored, conflict) in [(ONE_INDEX, false), (ONE_INDEX_CONFLICT, true)] {
        let query = parse_hex(stored).expect("a stored query is hex");
        classes.push(Class { name: "one index, largest".to_string(), query, conflict });
    }
    for conflict in [false, true] {
        let query = most_literals(conflict);
        classes.push(Class { name: "most literals, largest".to_string(), query, conflict });
    }
    for conflict in [false, true] {
        classes.push(Class {
            name: "ladder, largest".to_string(),
            query: ladder(conflict),
            conflict,
        });
    }
    let fixed: Vec<Class> = classes.iter().filter_map(Class::with_indices_fixed).collect();
    classes.extend(fixed);
    classes
}

/// A first read of array 0, then rounds of an array with an edge and a read,
/// in a mesh the equalities that are left, then reads alone; last a read of
/// the newest array that is right or wrong.
fn query(shape: Shape, most_bytes: usize, conflict: bool) -> Vec<u8> {
    let mut random = Random::new(SEED);
    let mut builder = Builder::default();
    let index = builder.base(INDEX);
    builder.variable(Memory::all(0));
    builder.read(0, index);
    let mut grown = vec![finished(&builder, index, conflict)];
    while builder.room_for_array() && builder.room_for_bases(BASES_OF_A_ROUND) {
        round(shape, &mut random, &mut builder, index);
        grown.push(finished(&builder, index, conflict));
    }
    while matches!(shape, Shape::Mesh) && builder.room_for_boolean() {
        let (left, right) = (builder.any_array(&mut random), builder.any_array(&mut random));
        builder.equality(left, right, true, index);
        grown.push(finished(&builder, index, conflict));
    }
    while builder.room_for_bases(2) {
        builder.read(builder.any_array(&mut random), builder.any_base(&mut random));
        grown.push(finished(&builder, index, conflict));
    }
    grown.into_iter().rfind(|query| query.len() <= most_bytes).expect("the first one is small")
}

/// One array more, with an edge to an earlier one that is open at the index.
fn round(shape: Shape, random: &mut Random, builder: &mut Builder, index: u16) {
    let newest = builder.arrays.len() as u16 - 1;
    let kind = match shape {
        Shape::Chain => 0,
        Shape::Mesh => 1,
        Shape::Mixed => random.below(3),
    };
    match kind {
        0 => {
            let write_index = builder.base(2 * u32::from(newest));
            builder.write(newest, write_index, write_index);
        }
        1 => {
            let other = builder.any_array(random);
            let twin = builder.arrays[usize::from(other)].clone();
            let array = builder.variable(twin);
            builder.equality(other, array, true, index);
        }
        _ => {
            let truth = random.chance(50);
            let boolean = builder.boolean(truth);
            let other = builder.any_array(random);
            let branches = if truth { (newest, other) } else { (other, newest) };
            builder.conditional(boolean, branches.0, branches.1);
        }
    }
    builder.read(builder.arrays.len() as u16 - 1, index);
}

/// A write for each array but the first, then reads at the writes' indices;
/// last a read of the first array and one of the newest, right or wrong, at
/// equal indices of different terms that nothing else is at.
fn most_literals(conflict: bool) -> Vec<u8> {
    let mut random = Random::new(SEED);
    let mut builder = Builder::default();
    let (one, other) = (builder.base(INDEX), builder.base(INDEX));
    builder.variable(Memory::all(0));
    let mut write_indices = Vec::new();
    for newest in 0..MAX_ARRAYS as u16 - 1 {
        let write_index = builder.base(2 * u32::from(newest));
        builder.write(newest, write_index, write_index);
        write_indices.push(write_index);
    }
    while builder.room_for_bases(3) {
        builder.read(builder.any_array(&mut random), *random.pick(&write_indices));
    }
    builder.read(0, one);
    finished(&builder, other, conflict)
}

/// A chain of writes, each of what is there, and around each but the last two
/// equalities; then reads at any index. The path from end to end of the chain
/// has all the equalities and the last write; a shortest walk has the writes.
fn ladder(conflict: bool) -> Vec<u8> {
    let mut random = Random::new(SEED);
    let mut builder = Builder::default();
    let (index, zero) = (builder.base(INDEX), builder.base(0));
    let mut newest = builder.variable(Memory::all(0));
    builder.read(newest, index);
    while builder.room_for_array() {
        let write_index = builder.base(2 * u32::from(newest));
        let written = builder.write(newest, write_index, zero);
        if builder.room_for_array() {
            let side = builder.variable(Memory::all(0));
            builder.equality(newest, side, true, index);
            builder.equality(side, written, true, index);
        }
        newest = written;
    }
    while builder.room_for_bases(2) {
        builder.read(builder.any_array(&mut random), builder.any_base(&mut random));
    }
    finished(&builder, index, conflict)
}

/// The query so far with its last read.
fn finished(builder: &Builder, index: u16, conflict: bool) -> Vec<u8> {
    let mut builder = builder.clone();
    let newest = builder.arrays.len() as u16 - 1;
    let wrong = u32::from(conflict);
    builder.read_as(newest, index, wrong);
    encode(&builder.fields)
}

#[cfg(test)]
mod tests {
    use super::*;
    use judge::lemma::Literal;
    use second::{check, Checked, MAX_LEMMA_BYTES};
    use tester::rules::{lemma_by, Rule};

    #[test]
    fn every_class_has_its_verdict() {
        for Class { name, query, conflict } in classes() {
            match check(&query, MAX_LEMMA_BYTES) {
                Checked::Consistent { .. } => assert!(!conflict, "{name}"),
                Checked::Conflict { .. } => assert!(conflict, "{name}"),
                Checked::Refused(refusal) => panic!("{name}: {refusal:?}"),
            }
        }
    }

    #[test]
    fn the_most_literals_fill_the_answer() {
        let checked = check(&most_literals(true), MAX_LEMMA_BYTES);
        let Checked::Conflict { lemma, .. } = checked else { panic!("{checked:?}") };
        assert_eq!(lemma.len(), MAX_LEMMA_BYTES);
    }

    #[test]
    fn fixed_indices_leave_no_comparison() {
        let mut fixed = 0;
        for Class { name, query, .. } in classes().into_iter().filter(|class| class.conflict) {
            let lines = second::verdict_lines(&query);
            let compares = lines.contains("eq ") || lines.contains("ne ");
            assert!(!name.contains("fixed") || !compares, "{name}: {lines}");
            fixed += usize::from(name.contains("fixed"));
        }
        assert_eq!(fixed, 8);
    }

    #[test]
    fn the_ladder_is_climbed_by_its_equalities() {
        let lemma = |rule| lemma_by(rule, &ladder(true)).expect("a conflict").premise;
        let writes = |premise: &[Literal]| {
            premise.iter().filter(|literal| matches!(literal, Literal::Differ(..))).count()
        };
        let (path, shortest) = (lemma(Rule::FewestWrites), lemma(Rule::FewestEdges));
        assert_eq!((path.len(), writes(&path)), (47, 1));
        assert_eq!((shortest.len(), writes(&shortest)), (24, 24));
    }

    #[test]
    fn every_class_has_its_size() {
        for Class { name, query, .. } in classes() {
            let size = match name.rsplit_once(", ") {
                Some((_, "100 bytes")) => 90..=115,
                Some((_, "1 KB")) => 980..=1_024,
                _ => 3_000..=4_096,
            };
            assert!(size.contains(&query.len()), "{name}: {} bytes", query.len());
        }
    }
}
