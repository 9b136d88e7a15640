//! The second program against the judge: random tiny queries, and all queries
//! of a tiny shape.

use judge::every::every;
use judge::field::Field;
use judge::random::Random;
use judge::tiny::tiny;
use judge::ways::ways;
use judge::{judge, Verdict};

const SEED: u64 = 20_260_101;

/// Makes a query of at most so many bits of free choice, at a width.
type Generator = fn(&mut Random, u32, u32) -> Vec<Field>;

/// Judges `count` random queries; answers how many were in conflict.
fn judge_random(generator: Generator, width: u32, bits: u32, count: u64) -> usize {
    let mut conflicts = 0;
    for number in 0..count {
        let fields = generator(&mut Random::for_number(SEED, number), width, bits);
        match judge(&fields, width) {
            Ok(verdict) => conflicts += usize::from(verdict == Verdict::Conflict),
            Err(wrong) => panic!("seed {SEED} number {number} width {width}: {wrong}\n{fields:?}"),
        }
    }
    println!("seed {SEED} width {width}: {count} queries, {conflicts} in conflict");
    conflicts
}

#[test]
fn random_queries_at_width_one() {
    let conflicts = judge_random(tiny, 1, 14, 4_000);
    assert!((400..3_600).contains(&conflicts));
}

#[test]
fn random_queries_at_width_two() {
    let conflicts = judge_random(tiny, 2, 17, 600);
    assert!((60..540).contains(&conflicts));
}

#[test]
fn random_ways_at_width_one() {
    let conflicts = judge_random(ways, 1, 14, 2_000);
    assert!((1_000..2_000).contains(&conflicts));
}

#[test]
fn random_ways_at_width_two() {
    let conflicts = judge_random(ways, 2, 17, 300);
    assert!((150..=300).contains(&conflicts));
}

/// Judges every accepted query of at most `most` fields at width 1.
fn judge_every(most: usize) {
    let (mut queries, mut conflicts) = (0, 0);
    every(1, most, &mut |fields| {
        queries += 1;
        match judge(fields, 1) {
            Ok(verdict) => conflicts += usize::from(verdict == Verdict::Conflict),
            Err(wrong) => panic!("{wrong}\n{fields:?}"),
        }
    });
    println!("all {queries} accepted queries of at most {most} fields: {conflicts} in conflict");
    assert!(conflicts > 0);
}

#[test]
fn every_query_of_at_most_six_fields_at_width_one() {
    judge_every(6);
}

#[test]
#[ignore = "takes minutes"]
fn every_query_of_at_most_seven_fields_at_width_one() {
    judge_every(7);
}
