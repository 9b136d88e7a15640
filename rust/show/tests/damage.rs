//! Damaged queries: whatever the bytes are, each form is printed, hex text
//! brings the bytes back, and each lemma has its path.

mod stored;

use show::{dot, from_hex, show, to_hex};
use zunidelo::{check, Verdict};

const SEED: u64 = 1;
const ROUNDS: usize = 4_000;

/// Numbers that the seed fixes (splitmix64).
struct Random(u64);

impl Random {
    fn below(&mut self, bound: usize) -> usize {
        self.0 = self.0.wrapping_add(0x9E37_79B9_7F4A_7C15);
        let mut mixed = self.0;
        mixed = (mixed ^ mixed >> 30).wrapping_mul(0xBF58_476D_1CE4_E5B9);
        mixed = (mixed ^ mixed >> 27).wrapping_mul(0x94D0_49BB_1331_11EB);
        ((mixed ^ mixed >> 31) % bound as u64) as usize
    }
}

/// One change: a byte set to something small or to anything, a piece taken
/// out, a piece put in again elsewhere, or the end cut off.
fn damage(query: &mut Vec<u8>, random: &mut Random) {
    let place = random.below(query.len() + 1);
    let end = (place + random.below(20)).min(query.len());
    match random.below(6) {
        0..=2 if place < query.len() => query[place] = random.below(4) as u8,
        3 if place < query.len() => query[place] = random.below(256) as u8,
        4 => drop(query.drain(place..end)),
        5 if random.below(4) == 0 => query.truncate(place),
        _ => {
            let piece = query[place..end].to_vec();
            let target = random.below(query.len() + 1);
            query.splice(target..target, piece);
        }
    }
}

#[test]
fn no_damage_is_too_much() {
    let queries: Vec<Vec<u8>> = stored::names().iter().map(|name| stored::query(name)).collect();
    let mut random = Random(SEED);
    let mut seen = [0; 3];
    for round in 0..ROUNDS {
        let mut query = queries[random.below(queries.len())].clone();
        for _ in 0..=random.below(3) {
            damage(&mut query, &mut random);
        }
        let (text, graph) = (show(&query), dot(&query));
        assert!(text.ends_with('\n') && graph.ends_with("}\n"), "seed {SEED}, round {round}");
        assert_eq!(from_hex(&to_hex(&query)).as_ref(), Ok(&query), "seed {SEED}, round {round}");
        match check(&query) {
            Err(refusal) => {
                assert!(text.contains(&refusal.to_string()), "seed {SEED}, round {round}");
                seen[0] += 1;
            }
            Ok(Verdict::Consistent { .. }) => seen[1] += 1,
            Ok(Verdict::Conflict { .. }) => {
                assert!(graph.contains("first source"), "seed {SEED}, round {round}");
                seen[2] += 1;
            }
        }
    }
    assert!(
        seen.iter().all(|count| *count > ROUNDS / 50),
        "refused, consistent, conflict: {seen:?}"
    );
}

#[test]
fn bytes_of_any_kind_come_back_from_hex() {
    let mut random = Random(SEED + 1);
    for _ in 0..1_000 {
        let query: Vec<u8> = (0..random.below(60)).map(|_| random.below(256) as u8).collect();
        assert_eq!(from_hex(&to_hex(&query)), Ok(query));
    }
}
