//! Pairs and path by listing every walk without a repeated array: slow, but
//! the paper's words about reach and the lemma taken one by one.

use crate::field::Field;
use crate::graph::{Graph, Source};
use crate::lemma::Lemma;

pub struct Walks(Graph);

impl Walks {
    pub fn of(fields: &[Field], width: u32) -> Walks {
        Walks(Graph::of(fields, width))
    }

    /// Of all walks between two arrays that with the fewest write edges, among
    /// those the fewest edges, and then the least edge numbers (02, E6).
    fn least_walk(&self, index_value: u32, from: u16, to: u16) -> Option<Vec<usize>> {
        let walks = self.all(index_value, from, to).into_iter();
        walks.min_by_key(|walk| (self.writes(walk), walk.len(), walk.clone()))
    }

    fn writes(&self, walk: &[usize]) -> usize {
        walk.iter().filter(|number| self.0.edges[**number].is_write()).count()
    }

    /// All walks between two arrays that repeat no array, by edge numbers.
    fn all(&self, index_value: u32, from: u16, to: u16) -> Vec<Vec<usize>> {
        let mut found = Vec::new();
        self.list(index_value, &mut vec![from], to, &mut vec![], &mut found);
        found
    }

    fn list(
        &self,
        index_value: u32,
        visited: &mut Vec<u16>,
        to: u16,
        walk: &mut Vec<usize>,
        found: &mut Vec<Vec<usize>>,
    ) {
        let place = visited[visited.len() - 1];
        if place == to {
            found.push(walk.clone());
            return;
        }
        for (number, edge) in self.0.edges.iter().enumerate() {
            for (near, far) in [edge.ends, (edge.ends.1, edge.ends.0)] {
                if near == place && !visited.contains(&far) && self.0.is_open(edge, index_value) {
                    visited.push(far);
                    walk.push(number);
                    self.list(index_value, visited, to, walk, found);
                    visited.pop();
                    walk.pop();
                }
            }
        }
    }

    pub fn pairs(&self) -> usize {
        let reaches = |source: &Source, array: u16| {
            self.least_walk(self.0.base(source.index), source.origin, array).is_some()
        };
        let count =
            |source: &Source| (0..self.0.arrays).filter(|array| reaches(source, *array)).count();
        self.0.sources.iter().map(count).sum()
    }

    /// The model's value: that of a source that reaches the cell, else 0.
    pub fn cell(&self, array: u16, index: u32) -> u32 {
        let reaching = self.0.sources.iter().find(|source| {
            self.0.base(source.index) == index
                && self.least_walk(index, source.origin, array).is_some()
        });
        reaching.map_or(0, |source| self.0.base(source.value))
    }

    /// The lemma that 01 and 02 choose, or nothing without a conflicting pair.
    pub fn chosen(&self) -> Option<Lemma> {
        self.on_the_path(Graph::lemma)
    }

    /// The same with nothing left out of it.
    pub fn whole(&self) -> Option<Lemma> {
        self.on_the_path(Graph::whole_lemma)
    }

    fn on_the_path(
        &self,
        lemma: impl Fn(&Graph, &Source, &Source, &[usize]) -> Lemma,
    ) -> Option<Lemma> {
        let (first, later) = self.pair()?;
        let walk = self.least_walk(self.0.base(first.index), first.origin, later.origin)?;
        Some(lemma(&self.0, first, later, &walk))
    }

    /// The least first source that conflicts with a later one, with the least
    /// such later one.
    fn pair(&self) -> Option<(&Source, &Source)> {
        let sources = self.0.sources.iter().enumerate();
        let pairs = sources.flat_map(|(number, first)| {
            self.0.sources[number + 1..].iter().map(move |later| (first, later))
        });
        pairs.into_iter().find(|(first, later)| self.conflict(first, later))
    }

    fn conflict(&self, first: &Source, later: &Source) -> bool {
        let index_value = self.0.base(first.index);
        index_value == self.0.base(later.index)
            && self.0.base(first.value) != self.0.base(later.value)
            && self.least_walk(index_value, first.origin, later.origin).is_some()
    }
}

#[cfg(test)]
mod tests {
    use super::*;
    use crate::every::every;
    use crate::random::Random;
    use crate::ways::ways;

    /// Of how many conflicts the path is another walk than the least of the
    /// shortest, and of how many it is longer: a run that meets none of them
    /// could not tell the rule from that of 01.
    #[derive(Debug, Default)]
    struct Counts {
        others: usize,
        longer: usize,
    }

    impl Counts {
        fn add(&mut self, fields: &[Field], width: u32) {
            let walks = Walks::of(fields, width);
            let Some((first, later)) = walks.pair() else { return };
            let (index_value, from, to) = (walks.0.base(first.index), first.origin, later.origin);
            let path = walks.least_walk(index_value, from, to).expect("the pair is joined");
            let all = walks.all(index_value, from, to).into_iter();
            let shortest = all.min_by_key(|walk| (walk.len(), walk.clone())).expect("as the path");
            self.others += usize::from(shortest != path);
            self.longer += usize::from(shortest.len() < path.len());
        }
    }

    #[test]
    fn random_ways_have_paths_that_are_no_shortest_walks() {
        for (width, bits) in [(1, 14), (2, 17)] {
            let mut counts = Counts::default();
            for seed in 0..500 {
                counts.add(&ways(&mut Random::new(seed), width, bits), width);
            }
            assert!(counts.others > 100 && counts.longer > 10, "width {width}: {counts:?}");
        }
    }

    /// Sixteen whose one index is free, and sixteen whose one index is fixed.
    #[test]
    fn of_all_queries_of_six_fields_thirty_two_have_another_path_than_before() {
        let mut counts = Counts::default();
        every(1, 6, &mut |fields| counts.add(fields, 1));
        assert_eq!((counts.others, counts.longer), (32, 0));
    }
}
