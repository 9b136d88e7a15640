//! Which arrays a source reaches. For each index value the open edges split
//! the arrays into components; a component is a word with a bit per array.

use crate::query::{Edge, Query, MAX_ARRAYS};
use std::collections::BTreeMap;

/// For each array, a set of arrays.
pub type Sets = [u64; MAX_ARRAYS];

/// For each index value of a source, each array's component.
pub struct Reach {
    components: BTreeMap<u32, Sets>,
}

impl Reach {
    pub fn of(query: &Query) -> Reach {
        let mut components = BTreeMap::new();
        for source in &query.sources {
            let value = query.value(source.index);
            let open = |edge: &Edge| query.is_open(edge, value);
            components
                .entry(value)
                .or_insert_with(|| split(&neighbours(query, open), query.arrays));
        }
        Reach { components }
    }

    /// The arrays that a source reaches.
    pub fn reached(&self, query: &Query, source: usize) -> u64 {
        self.components[&query.index_value(source)][query.sources[source].origin]
    }

    /// How many pairs (array term, source) there are with the term reached.
    pub fn pairs(&self, query: &Query) -> usize {
        let sources = 0..query.sources.len();
        sources.map(|source| self.reached(query, source).count_ones() as usize).sum()
    }

    /// The value of the first source that reaches the cell.
    pub fn source_at(&self, query: &Query, array: usize, index: u64) -> Option<u32> {
        (0..query.sources.len())
            .find(|source| {
                u64::from(query.index_value(*source)) == index
                    && self.reached(query, *source) >> array & 1 == 1
            })
            .map(|source| query.source_value(source))
    }

    /// The model's value at the cell; meaningful for a consistent query.
    pub fn cell(&self, query: &Query, array: usize, index: u64) -> u64 {
        self.source_at(query, array, index).map_or(0, u64::from)
    }

    /// Every index value that some source has, rising.
    pub fn index_values(&self) -> impl Iterator<Item = u32> + '_ {
        self.components.keys().copied()
    }
}

/// For each array, the arrays one step away over the edges that are walked.
pub fn neighbours(query: &Query, walked: impl Fn(&Edge) -> bool) -> Sets {
    let mut sets = [0; MAX_ARRAYS];
    for edge in query.edges.iter().filter(|edge| walked(edge)) {
        let [one, other] = edge.ends;
        sets[one] |= 1 << other;
        sets[other] |= 1 << one;
    }
    sets
}

/// All arrays one step away from some array of the set.
pub fn step(neighbours: &Sets, mut set: u64) -> u64 {
    let mut stepped = 0;
    while set != 0 {
        stepped |= neighbours[set.trailing_zeros() as usize];
        set &= set - 1;
    }
    stepped
}

/// Floods from each array that no earlier flood has covered.
fn split(neighbours: &Sets, arrays: usize) -> Sets {
    let mut components = [0; MAX_ARRAYS];
    for start in 0..arrays {
        if components[start] == 0 {
            share(&mut components, flood(neighbours, start));
        }
    }
    components
}

fn flood(neighbours: &Sets, start: usize) -> u64 {
    let mut flooded = 1 << start;
    loop {
        let wider = flooded | step(neighbours, flooded);
        if wider == flooded {
            return flooded;
        }
        flooded = wider;
    }
}

/// Gives each array of the component the whole component.
fn share(components: &mut Sets, component: u64) {
    for (array, slot) in components.iter_mut().enumerate() {
        if component >> array & 1 == 1 {
            *slot = component;
        }
    }
}
