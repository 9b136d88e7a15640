//! The two sources of a lemma and the path between them. The lemma's literals
//! do not name them: two sources may share their terms, a repeated literal
//! stands once, and one between fixed numbers does not at all. So both are
//! searched for again as 01 and 02 (E1, E6) say, and are shown only if they
//! spell the lemma that the library gave.

use crate::graph::{Edge, Graph, Guard};
use zunidelo::{Lemma, Literal};

/// The sources by number, and the edges of the path from the first one's
/// origin to the later one's, by number.
#[derive(Debug)]
pub struct Path {
    pub first: usize,
    pub later: usize,
    pub edges: Vec<usize>,
}

impl Path {
    /// The path of this lemma.
    pub fn of(graph: &Graph, lemma: &Lemma) -> Option<Path> {
        let (first, later) = least_pair(graph)?;
        let edges = fewest_writes(graph, first, later)?;
        let path = Path { first, later, edges };
        let (_, stay) = path.literals(graph);
        (stay == lemma.literals).then_some(path)
    }

    /// The literals that are left out of the lemma.
    pub fn left_out(&self, graph: &Graph) -> Vec<Literal> {
        self.literals(graph).0
    }

    /// Those that are left out, and those that stay.
    fn literals(&self, graph: &Graph) -> (Vec<Literal>, Vec<Literal>) {
        let (from, to) = (graph.sources[self.first], graph.sources[self.later]);
        let mut literals = Vec::new();
        if from.index != to.index {
            literals.push(Literal::Equal { first: from.index, later: to.index });
        }
        for edge in &self.edges {
            let literal = self.edge_literal(graph, &graph.edges[*edge]);
            if !literals.contains(&literal) {
                literals.push(literal);
            }
        }
        literals.push(Literal::Conclusion { first: from.value, later: to.value });
        literals.into_iter().partition(|literal| compares_fixed(graph, literal))
    }

    /// The literal of an edge on the path.
    fn edge_literal(&self, graph: &Graph, edge: &Edge) -> Literal {
        match edge.guard {
            Guard::Differs(write) => {
                Literal::Differ { first: graph.sources[self.first].index, write }
            }
            Guard::True(boolean) => Literal::True { boolean },
            Guard::False(boolean) => Literal::False { boolean },
        }
    }

    /// Whether the literal of an edge on the path is left out.
    pub fn leaves_out(&self, graph: &Graph, edge: &Edge) -> bool {
        compares_fixed(graph, &self.edge_literal(graph, edge))
    }
}

/// "An 'equal' or 'differ' between two fixed numbers is left out of the lemma"
fn compares_fixed(graph: &Graph, literal: &Literal) -> bool {
    match *literal {
        Literal::Equal { first, later: other } | Literal::Differ { first, write: other } => {
            graph.fixed[first] && graph.fixed[other]
        }
        _ => false,
    }
}

/// "the least first source s that stands in a pair with a later one, and with
/// it the least later source t"
fn least_pair(graph: &Graph) -> Option<(usize, usize)> {
    for first in 0..graph.sources.len() {
        let distances = graph.distances(graph.sources[first].origin, graph.index_value(first));
        let later = (first + 1..graph.sources.len()).find(|later| {
            graph.index_value(*later) == graph.index_value(first)
                && graph.source_value(*later) != graph.source_value(first)
                && distances[graph.sources[*later].origin].is_some()
        });
        if let Some(later) = later {
            return Some((first, later));
        }
    }
    None
}

/// "at each step the lowest-numbered open edge that lies on such a path"
fn fewest_writes(graph: &Graph, first: usize, later: usize) -> Option<Vec<usize>> {
    let index_value = graph.index_value(first);
    let goal = graph.sources[later].origin;
    let distances = graph.distances(goal, index_value);
    let mut array = graph.sources[first].origin;
    distances[array]?;
    let mut edges = Vec::new();
    while array != goal {
        let (edge, next) = graph.edges.iter().enumerate().find_map(|(number, edge)| {
            let next = edge.leads_from(array)?;
            let on_path = distances[next].map(|left| left.and(edge)) == distances[array];
            (on_path && graph.is_open(edge, index_value)).then_some((number, next))
        })?;
        edges.push(edge);
        array = next;
    }
    Some(edges)
}
