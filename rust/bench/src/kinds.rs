//! The kinds of query that the tester draws, and what is told of them: a line
//! for each kind, and one for all.

use judge::random::Random;
use tester::bounds::{all_pairs, longest_detour, longest_lemma, many_paths, Links};
use tester::cells::many_cells;
use tester::shapes::SHAPES;
use tester::ways::{many_ways, written_apart};

/// Makes a query of a kind.
type Generator = Box<dyn Fn(&mut Random) -> Vec<u8>>;

/// The kinds of query that the tester draws, each with its name. None has fixed
/// numbers, so that an earlier library can be asked about them all.
fn kinds() -> Vec<(&'static str, Generator)> {
    let shaped =
        |place: usize| -> Generator { Box::new(move |random| SHAPES[place].query(random)) };
    let mut kinds: Vec<(&str, Generator)> =
        (0..SHAPES.len()).map(|place| (SHAPES[place].name, shaped(place))).collect();
    kinds.push(("many paths", Box::new(many_paths)));
    kinds.push(("many ways", Box::new(many_ways)));
    kinds.push(("written apart", Box::new(written_apart)));
    kinds.push(("many cells", Box::new(|random| many_cells(random, true))));
    kinds.push(("all pairs", Box::new(|random| all_pairs(random, true))));
    kinds.push(("longest, writes", Box::new(|random| longest_lemma(random, Links::Writes))));
    kinds.push(("longest, any links", Box::new(|random| longest_lemma(random, Links::Any))));
    kinds.push(("longest detour", Box::new(|random| longest_detour(random, 0))));
    kinds
}

/// What is counted of some queries, and printed in one line.
pub trait Tally: Default {
    fn add_query(&mut self, name: &str, query: &[u8]);
    fn add(&mut self, other: &Self);
    fn print(&self, name: &str);
}

/// Adds number by number.
pub fn add<const N: usize>(total: &mut [u64; N], more: &[u64; N]) {
    for (sum, number) in total.iter_mut().zip(more) {
        *sum += number;
    }
}

/// Prints a line for each kind, of so many queries each, and one for all, whose
/// counts it gives.
pub fn print_kinds<T: Tally>(seed: u64, count: u64) -> T {
    let mut all = T::default();
    for (name, query) in kinds() {
        let mut tally = T::default();
        for number in 0..count {
            let place = format!("{name}, seed {seed}, query {number}");
            tally.add_query(&place, &query(&mut Random::for_number(seed, number)));
        }
        tally.print(name);
        all.add(&tally);
    }
    all.print("all");
    all
}

#[cfg(test)]
mod tests {
    use super::*;
    use crate::contenders::Question;
    use second::verdict_lines;

    #[test]
    fn every_kind_has_conflicts() {
        for (name, query) in kinds() {
            let lines = |seed| verdict_lines(&query(&mut Random::new(seed)));
            assert!((0..100).any(|seed| lines(seed).starts_with("conflict")), "{name}");
        }
    }

    #[test]
    fn no_kind_has_fixed_numbers() {
        for (name, query) in kinds() {
            let has_fixed = |seed| Question::about(&query(&mut Random::new(seed))).has_fixed();
            assert!(!(0..100).any(has_fixed), "{name}");
        }
    }
}
