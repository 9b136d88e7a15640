//! The graph of a query for showing: array terms joined by edges, and the
//! sources whose values go along them (01, Sources, edges, reach).

use crate::field::Field;
use crate::walk::Placed;
use std::collections::BTreeSet;

/// A write or a read. `origin` is an array number, the others are of bases.
#[derive(Clone, Copy, Debug)]
pub struct Source {
    pub origin: usize,
    pub index: usize,
    pub value: usize,
    pub is_write: bool,
}

/// What an edge asks for to be open.
#[derive(Clone, Copy, Debug, PartialEq, Eq)]
pub enum Guard {
    /// That the source's index differs from this base term.
    Differs(usize),
    /// That this Boolean is true.
    True(usize),
    /// That this Boolean is false.
    False(usize),
}

#[derive(Clone, Copy, Debug)]
pub struct Edge {
    pub ends: [usize; 2],
    pub guard: Guard,
}

impl Edge {
    /// The other end, if the array is one.
    pub fn leads_from(&self, array: usize) -> Option<usize> {
        match self.ends {
            [one, other] if one == array => Some(other),
            [one, other] if other == array => Some(one),
            _ => None,
        }
    }
}

/// What a walk has: "the fewest write edges, and among those the fewest edges"
/// (02, E6), so that the lesser of two is what the order of these makes it.
#[derive(Clone, Copy, Debug, Default, PartialEq, Eq, PartialOrd, Ord)]
pub struct Distance {
    pub writes: usize,
    pub edges: usize,
}

impl Distance {
    /// That of the walk with this edge more.
    pub fn and(self, edge: &Edge) -> Distance {
        let write = usize::from(matches!(edge.guard, Guard::Differs(_)));
        Distance { writes: self.writes + write, edges: self.edges + 1 }
    }
}

/// The terms' values and truths, which base terms are fixed, the array terms in
/// words, sources and edges by number, and the branches that no conditional
/// chooses.
#[derive(Debug, Default)]
pub struct Graph {
    pub values: Vec<usize>,
    pub fixed: Vec<bool>,
    pub truths: Vec<bool>,
    pub arrays: Vec<String>,
    pub sources: Vec<Source>,
    pub edges: Vec<Edge>,
    pub not_chosen: Vec<[usize; 2]>,
}

impl Graph {
    pub fn of(fields: &[Placed]) -> Graph {
        let mut graph = Graph::default();
        for placed in fields {
            graph.join(placed.number, placed.field);
            graph.give(placed.number, placed.field);
        }
        graph
    }

    /// The field's value or truth, or its array in words.
    fn give(&mut self, number: usize, field: Field) {
        match field {
            Field::Base { value } | Field::Read { value, .. } | Field::Fixed { value } => {
                self.values.push(value);
                self.fixed.push(matches!(field, Field::Fixed { .. }));
            }
            Field::Boolean { truth } | Field::Equality { truth, .. } => {
                self.truths.push(truth == 1)
            }
            _ => self.arrays.push(field.words(number)),
        }
    }

    /// The field's source and edge, if it has them.
    fn join(&mut self, number: usize, field: Field) {
        match field {
            Field::Write { array, index, value } => {
                self.sources.push(Source { origin: number, index, value, is_write: true });
                self.edges.push(Edge { ends: [number, array], guard: Guard::Differs(index) });
            }
            Field::Read { array, index, .. } => {
                self.sources.push(Source { origin: array, index, value: number, is_write: false });
            }
            Field::Conditional { boolean, if_true, if_false } => {
                let (guard, chosen, other) = match self.truths[boolean] {
                    true => (Guard::True(boolean), if_true, if_false),
                    false => (Guard::False(boolean), if_false, if_true),
                };
                self.edges.push(Edge { ends: [number, chosen], guard });
                self.not_chosen.push([number, other]);
            }
            Field::Equality { left, right, .. } => {
                self.edges.push(Edge { ends: [left, right], guard: Guard::True(number) });
            }
            Field::Base { .. } | Field::Fixed { .. } | Field::Boolean { .. } | Field::Variable => {}
        }
    }

    /// The base term in words, in which a fixed number is told.
    pub fn base(&self, number: usize) -> String {
        format!("base {number}{}", if self.fixed[number] { " (fixed)" } else { "" })
    }

    /// The same with its value.
    pub fn base_and_value(&self, number: usize) -> String {
        format!("{} = {}", self.base(number), self.values[number])
    }

    pub fn index_value(&self, source: usize) -> usize {
        self.values[self.sources[source].index]
    }

    pub fn source_value(&self, source: usize) -> usize {
        self.values[self.sources[source].value]
    }

    /// Whether the edge is open to this index value.
    pub fn is_open(&self, edge: &Edge, index_value: usize) -> bool {
        match edge.guard {
            Guard::Differs(index) => self.values[index] != index_value,
            Guard::True(boolean) => self.truths[boolean],
            Guard::False(boolean) => !self.truths[boolean],
        }
    }

    /// How far each array term is from this one over edges open to the index
    /// value, if it is reached. The nearest that is not yet settled comes next.
    pub fn distances(&self, from: usize, index_value: usize) -> Vec<Option<Distance>> {
        let mut distances = vec![None; self.arrays.len()];
        let mut waiting = BTreeSet::from([(Distance::default(), from)]);
        while let Some((distance, array)) = waiting.pop_first() {
            if distances[array].is_some() {
                continue;
            }
            distances[array] = Some(distance);
            for edge in self.edges.iter().filter(|edge| self.is_open(edge, index_value)) {
                if let Some(next) = edge.leads_from(array) {
                    waiting.insert((distance.and(edge), next));
                }
            }
        }
        distances
    }

    /// For each array term, the index values of the sources that reach it.
    pub fn cells(&self) -> Vec<BTreeSet<usize>> {
        let mut cells = vec![BTreeSet::new(); self.arrays.len()];
        for (number, source) in self.sources.iter().enumerate() {
            let index_value = self.index_value(number);
            let distances = self.distances(source.origin, index_value);
            for (array, _) in distances.iter().enumerate().filter(|(_, way)| way.is_some()) {
                cells[array].insert(index_value);
            }
        }
        cells
    }
}
