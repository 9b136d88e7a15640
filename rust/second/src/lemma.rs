//! The lemma of a query in conflict: the least pair, the path between its
//! origins, and the literals along it.

use crate::layers::{after, Layers};
use crate::query::{Edge, Guard, Query};
use crate::reach::Reach;

/// One literal; the numbers are those of base terms or of a Boolean.
#[derive(Clone, Copy, PartialEq, Eq)]
pub enum Literal {
    Equal(usize, usize),
    Differ(usize, usize),
    True(usize),
    False(usize),
    Conclusion(usize, usize),
}

/// The literals in order, or nothing for a consistent query.
pub fn lemma(query: &Query, reach: &Reach) -> Option<Vec<Literal>> {
    let (first, later) = least_pair(query, reach)?;
    let from = &query.sources[first];
    let to = &query.sources[later];
    let mut literals = Vec::new();
    if from.index != to.index && !query.both_fixed(from.index, to.index) {
        literals.push(Literal::Equal(from.index, to.index));
    }
    for edge in path(query, query.value(from.index), from.origin, to.origin) {
        let literal = edge_literal(query, edge, from.index);
        literals.extend(literal.filter(|literal| !literals.contains(literal)));
    }
    literals.push(Literal::Conclusion(from.value, to.value));
    Some(literals)
}

/// The least first source that conflicts with a later one, with the least
/// such later one.
pub fn least_pair(query: &Query, reach: &Reach) -> Option<(usize, usize)> {
    let count = query.sources.len();
    let pairs = (0..count).flat_map(|first| (first + 1..count).map(move |later| (first, later)));
    pairs.into_iter().find(|(first, later)| {
        query.index_value(*first) == query.index_value(*later)
            && query.source_value(*first) != query.source_value(*later)
            && reach.reached(query, *first) >> query.sources[*later].origin & 1 == 1
    })
}

/// The path's edges (02, E6).
fn path(query: &Query, index_value: u32, start: usize, goal: usize) -> Vec<&Edge> {
    let (layers, mut distance) = Layers::until(query, index_value, start, goal);
    let mut place = start;
    let mut edges = Vec::new();
    while place != goal {
        let nearer = |edge: &Edge| layers.at(after(distance, edge.is_write()));
        let (edge, next) = lowest_edge(query, index_value, place, nearer);
        distance = after(distance, edge.is_write()).expect("the edge leads nearer");
        place = next;
        edges.push(edge);
    }
    edges
}

/// "at each step the lowest-numbered open edge that lies on such a path", and
/// where it leads. Over an edge on such a path certain arrays are nearer.
fn lowest_edge(
    query: &Query,
    index_value: u32,
    place: usize,
    nearer: impl Fn(&Edge) -> u64,
) -> (&Edge, usize) {
    for edge in query.edges.iter().filter(|edge| query.is_open(edge, index_value)) {
        for (near, far) in [(0, 1), (1, 0)] {
            if edge.ends[near] == place && nearer(edge) >> edge.ends[far] & 1 == 1 {
                return (edge, edge.ends[far]);
            }
        }
    }
    unreachable!("an array other than the goal has a neighbour that is nearer");
}

/// The literal that an edge leaves on the path of a source with this index. A
/// write leaves none where its index and the source's are both fixed (02, E1).
fn edge_literal(query: &Query, edge: &Edge, index: usize) -> Option<Literal> {
    Some(match edge.guard {
        Guard::Write(write_index) if query.both_fixed(index, write_index) => return None,
        Guard::Write(write_index) => Literal::Differ(index, write_index),
        Guard::Conditional(boolean) if !query.booleans[boolean] => Literal::False(boolean),
        Guard::Conditional(boolean) | Guard::Equality(boolean) => Literal::True(boolean),
    })
}

/// The literals as fields 21 to 25.
pub fn encode(literals: &[Literal]) -> Vec<u8> {
    literals.iter().flat_map(encode_literal).collect()
}

fn encode_literal(literal: &Literal) -> Vec<u8> {
    let (tag, numbers) = match *literal {
        Literal::Equal(one, other) => (0x21, vec![one, other]),
        Literal::Differ(one, other) => (0x22, vec![one, other]),
        Literal::True(boolean) => (0x23, vec![boolean]),
        Literal::False(boolean) => (0x24, vec![boolean]),
        Literal::Conclusion(one, other) => (0x25, vec![one, other]),
    };
    let mut bytes = vec![tag, 0, 2 * numbers.len() as u8];
    for number in numbers {
        bytes.extend((number as u16).to_be_bytes());
    }
    bytes
}
