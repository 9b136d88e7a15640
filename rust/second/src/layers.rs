//! How far the arrays are from the goal of a path: "the fewest write edges, and
//! among those the fewest edges" (02, E6). Each layer is a set of arrays.

use crate::query::{Edge, Query, MAX_ARRAYS};
use crate::reach::{neighbours, step, Sets};

/// How many write edges and how many edges there are to the goal. The order
/// is that of the rule: write edges first.
pub type Distance = (usize, usize);

/// What is left to the goal after a write or another edge, where such an edge
/// lies on a best way.
pub fn after((writes, edges): Distance, is_write: bool) -> Option<Distance> {
    Some((writes.checked_sub(usize::from(is_write))?, edges.checked_sub(1)?))
}

/// By write edges and then by edges, the arrays whose best way to the goal has
/// so many of both. A best way goes from layer to layer.
pub struct Layers(Vec<Sets>);

impl Layers {
    /// The layers around the goal, the nearest first, up to the one that holds
    /// the start, and its distance. An array stands in the first layer that
    /// meets it.
    pub fn until(query: &Query, value: u32, start: usize, goal: usize) -> (Layers, Distance) {
        let open = |edge: &Edge| query.is_open(edge, value);
        let over_writes = neighbours(query, |edge| edge.is_write() && open(edge));
        let over_others = neighbours(query, |edge| !edge.is_write() && open(edge));
        let mut layers = Layers(Vec::new());
        let mut seen: u64 = 0;
        for distance in distances(query.arrays) {
            if distance.1 == 0 {
                layers.0.push([0; MAX_ARRAYS]);
            }
            let met = match distance {
                (0, 0) => 1 << goal,
                _ => {
                    step(&over_writes, layers.at(after(distance, true)))
                        | step(&over_others, layers.at(after(distance, false)))
                }
            };
            layers.0[distance.0][distance.1] = met & !seen;
            seen |= met;
            if seen >> start & 1 == 1 {
                return (layers, distance);
            }
        }
        unreachable!("the pair's origins are in one component");
    }

    /// The arrays at this distance; none where there is no such distance.
    pub fn at(&self, distance: Option<Distance>) -> u64 {
        distance.map_or(0, |(writes, edges)| self.0[writes][edges])
    }
}

/// Every distance, the nearest first: no way that comes nowhere twice has as
/// many edges as there are arrays.
fn distances(arrays: usize) -> impl Iterator<Item = Distance> {
    (0..arrays).flat_map(move |writes| (0..arrays).map(move |edges| (writes, edges)))
}
