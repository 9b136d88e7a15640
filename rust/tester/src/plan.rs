//! Which queries a run asks about, and what it asks of each: a function of
//! the seed and the query's number alone.

use crate::bounds::{all_pairs, longest_detour, longest_lemma, many_paths, Links};
use crate::cells::{many_cells, most_cells};
use crate::constants::{freed, with_constants, with_fixed};
use crate::mutate::{lengthened, mutated, overfilled, with_fixed_witness};
use crate::request::{Question, Request};
use crate::rooms::{answer_length, with_room};
use crate::rules::{byte_count, lemma_by, Rule};
use crate::shapes::SHAPES;
use crate::ways::{many_ways, written_apart};
use judge::field::{decode, Series};
use judge::random::Random;
use judge::tiny::base_values;
use second::{Checked, MAX_CLAUSE_NUMBERS, MAX_LEMMA_BYTES};

/// How many queries at the start of every run are the constructed ones.
const CONSTRUCTED: u64 = 14;

/// All requests about the numbered query of a seed.
pub fn requests(seed: u64, number: u64, wide_index: bool) -> Vec<Request> {
    let mut random = Random::for_number(seed, number);
    let query = query(&mut random, number);
    let check = Question::Check { room: 0 };
    let clauses = Question::Clauses { room: 0 };
    let questions = [
        Question::Verdict,
        with_any_room(&mut random, check, &query, MAX_LEMMA_BYTES),
        lookup(&mut random, &query, wide_index),
        lookup(&mut random, &query, false),
        with_any_room(&mut random, clauses, &query, MAX_CLAUSE_NUMBERS),
    ];
    questions.map(|question| Request { question, query: query.clone() }).to_vec()
}

/// The numbered query of a seed, of at most 5,000 bytes.
pub fn query_of(seed: u64, number: u64) -> Vec<u8> {
    query(&mut Random::for_number(seed, number), number)
}

fn query(random: &mut Random, number: u64) -> Vec<u8> {
    match number {
        0..CONSTRUCTED => constructed(random, number),
        _ => match random.below(100) {
            0..=1 => {
                let which = random.number() % CONSTRUCTED;
                constructed(random, which)
            }
            2..=9 => {
                let query = many_paths(random);
                with_constants(random, query)
            }
            10..=29 => {
                let query = shaped(random);
                mutated(random, query)
            }
            30..=33 => cut(random),
            34..=36 => overfilled(random),
            37 => {
                let query = shaped(random);
                lengthened(random, query)
            }
            38..=40 => {
                let conflict = random.chance(50);
                let query = many_cells(random, conflict);
                with_constants(random, query)
            }
            41..=50 => ways(random),
            51..=53 => {
                let query = ways(random);
                with_fixed_witness(random, &query)
            }
            54..=58 => {
                let query = written_apart(random);
                with_constants(random, query)
            }
            _ => shaped(random),
        },
    }
}

fn ways(random: &mut Random) -> Vec<u8> {
    let query = many_ways(random);
    with_constants(random, query)
}

fn constructed(random: &mut Random, which: u64) -> Vec<u8> {
    match which {
        0 => all_pairs(random, false),
        1 => all_pairs(random, true),
        2 | 3 => longest_lemma(random, Links::Writes),
        4 | 5 => longest_lemma(random, Links::Any),
        6 => SHAPES[SHAPES.len() - 1].query(random),
        7 => lengthened(random, Vec::new()),
        8 => most_cells(random),
        9 => many_cells(random, false),
        10 => many_cells(random, true),
        11 => {
            let writes = random.below(4);
            longest_detour(random, writes)
        }
        // The longest path with all numbers fixed: the conclusion alone is left.
        12 => with_fixed(&longest_lemma(random, Links::Writes), |_, _| true),
        // With all but the first source's index: nothing is left out.
        _ => with_fixed(&longest_lemma(random, Links::Writes), |number, _| number > 0),
    }
}

fn shaped(random: &mut Random) -> Vec<u8> {
    let shape = random.pick(&SHAPES);
    let query = shape.query(random);
    with_constants(random, query)
}

fn cut(random: &mut Random) -> Vec<u8> {
    let mut query = shaped(random);
    query.truncate(random.below(query.len() + 1));
    query
}

/// The question with a room: often exactly enough, or one too little.
fn with_any_room(random: &mut Random, question: Question, query: &[u8], most: usize) -> Question {
    let exact = answer_length(question, query).unwrap_or(0);
    let room = match random.below(10) {
        0..=2 => exact,
        3 | 4 => exact.saturating_sub(1),
        5 => exact + 1 + random.below(20),
        6 => random.below(exact + 1),
        7 => shortest_walk_room(query),
        // What the answer would take were nothing left out of the lemma.
        8 => answer_length(question, &freed(query)).unwrap_or(0),
        _ => *random.pick(&[0, 1, most - 1, most, most + 1]),
    };
    with_room(question, room)
}

/// The bytes that the lemma would take were its path a shortest walk.
fn shortest_walk_room(query: &[u8]) -> usize {
    match second::check(query, MAX_LEMMA_BYTES) {
        Checked::Conflict { .. } => {
            lemma_by(Rule::FewestEdges, query).map_or(0, |lemma| byte_count(&lemma))
        }
        _ => 0,
    }
}

/// A cell: mostly of an array of the query, at an index near a value of it.
fn lookup(random: &mut Random, query: &[u8], wide_index: bool) -> Question {
    let (fields, _) = decode(query);
    let arrays = fields.iter().filter(|field| field.gives() == Series::Array).count() as u64;
    let array = match random.below(12) {
        0 => *random.pick(&[arrays, arrays + 1, 48, 1 << 16, 1 << 32, u64::MAX]),
        _ => random.number() % arrays.max(1),
    };
    let values = base_values(&fields);
    let index = match random.below(8) {
        0 => random.number() as u32,
        1 => *random.pick(&[0, 1, u32::MAX]),
        _ if values.is_empty() => 0,
        2 => random.pick(&values).wrapping_add(1),
        _ => *random.pick(&values),
    };
    let wide = if wide_index && random.chance(20) { random.number() << 32 } else { 0 };
    Question::Lookup { array, index: u64::from(index) | wide }
}
