//! The lemma of a conflict by 02's rule for its path, and by others: faults
//! answer by these, and where the two differ a query shows the rule.

use judge::field::decode;
use judge::graph::{Edge, Graph};
use judge::lemma::{Lemma, Literal};
use second::WIDTH;

#[derive(Clone, Copy, Debug, PartialEq, Eq)]
pub enum Rule {
    /// 02, E6: the fewest write edges, and among those the fewest edges.
    FewestWrites,
    /// A shortest walk, as in 01.
    FewestEdges,
    /// The fewest edges, and among those the fewest write edges.
    EdgesBeforeWrites,
    /// As 02 says, but at each step the highest-numbered edge.
    HighestEdge,
    /// The fewest writes whose literal stays in the lemma, and among those the
    /// fewest edges.
    FewestComparisons,
}

/// What a walk has of each kind, the first to be least.
type Measure = (usize, usize);

/// The lemma of an accepted query by this rule; nothing without a conflict.
pub fn lemma_by(rule: Rule, query: &[u8]) -> Option<Lemma> {
    let (fields, _) = decode(query);
    let graph = &Graph::of(&fields, WIDTH);
    (0..graph.sources.len()).find_map(|first| {
        let later = least_later(graph, first)?;
        let (first, later) = (&graph.sources[first], &graph.sources[later]);
        let path = Search { rule, graph, index: first.index }.path(first.origin, later.origin);
        Some(graph.lemma(first, later, &path))
    })
}

/// The lines that the verdict program prints of a lemma.
pub fn lines(lemma: &Lemma) -> String {
    let premise: String = lemma.premise.iter().map(line).collect();
    format!("{premise}then {} {}\n", lemma.conclusion.0, lemma.conclusion.1)
}

fn line(literal: &Literal) -> String {
    match literal {
        Literal::Equal(one, other) => format!("eq {one} {other}\n"),
        Literal::Differ(one, other) => format!("ne {one} {other}\n"),
        Literal::True(boolean) => format!("true {boolean}\n"),
        Literal::False(boolean) => format!("false {boolean}\n"),
    }
}

/// The bytes that a lemma takes: 3 for a head, 2 for each number.
pub fn byte_count(lemma: &Lemma) -> usize {
    let bytes = |literal: &Literal| match literal {
        Literal::Equal(..) | Literal::Differ(..) => 7,
        Literal::True(_) | Literal::False(_) => 5,
    };
    lemma.premise.iter().map(bytes).sum::<usize>() + 7
}

/// The least later source that conflicts with this one.
fn least_later(graph: &Graph, first: usize) -> Option<usize> {
    let from = &graph.sources[first];
    let differs = |later: &usize| {
        let to = &graph.sources[*later];
        graph.base(to.index) == graph.base(from.index)
            && graph.base(to.value) != graph.base(from.value)
    };
    let mut later = (first + 1..graph.sources.len()).filter(differs).peekable();
    later.peek()?;
    let search = Search { rule: Rule::FewestEdges, graph, index: from.index };
    let reached = search.measures(from.origin);
    later.find(|later| reached[usize::from(graph.sources[*later].origin)].is_some())
}

/// The search for a path by a rule, of a source with this index term.
struct Search<'a> {
    rule: Rule,
    graph: &'a Graph,
    index: u16,
}

impl Search<'_> {
    /// What an edge adds to a walk.
    fn measure(&self, edge: &Edge) -> Measure {
        let writes = usize::from(edge.is_write());
        match self.rule {
            Rule::FewestWrites | Rule::HighestEdge => (writes, 1),
            Rule::FewestEdges => (1, 0),
            Rule::EdgesBeforeWrites => (1, writes),
            Rule::FewestComparisons => {
                let literal = self.graph.edge_literal(self.index, edge);
                (if self.graph.compares_fixed(&literal) { 0 } else { writes }, 1)
            }
        }
    }

    /// What a walk over this edge has, with what is left beyond it.
    fn over(&self, edge: &Edge, beyond: Option<Measure>) -> Option<Measure> {
        let own = self.measure(edge);
        beyond.map(|beyond| (own.0 + beyond.0, own.1 + beyond.1))
    }

    /// Each edge that is open to the index, by number, from either of its ends
    /// to the other.
    fn steps(&self) -> impl DoubleEndedIterator<Item = (usize, &Edge, u16, u16)> {
        let value = self.graph.base(self.index);
        let edges = self.graph.edges.iter().enumerate();
        let open = edges.filter(move |(_, edge)| self.graph.is_open(edge, value));
        open.flat_map(|(number, edge)| {
            let (one, other) = edge.ends;
            [(number, edge, one, other), (number, edge, other, one)]
        })
    }

    /// For each array the least that a walk from it to the goal has, if there
    /// is one.
    fn measures(&self, goal: u16) -> Vec<Option<Measure>> {
        let mut measures = vec![None; usize::from(self.graph.arrays)];
        measures[usize::from(goal)] = Some((0, 0));
        let mut settled = false;
        while !settled {
            settled = true;
            for (_, edge, near, far) in self.steps() {
                let over = self.over(edge, measures[usize::from(far)]);
                let known = &mut measures[usize::from(near)];
                if over.is_some_and(|over| known.is_none_or(|known| over < known)) {
                    *known = over;
                    settled = false;
                }
            }
        }
        measures
    }

    /// The path between two arrays, by edge numbers.
    fn path(&self, start: u16, goal: u16) -> Vec<usize> {
        let measures = self.measures(goal);
        let mut place = start;
        let mut path = Vec::new();
        while place != goal {
            let left = measures[usize::from(place)];
            let mut nearer = self.steps().filter(|(_, edge, near, far)| {
                *near == place && self.over(edge, measures[usize::from(*far)]) == left
            });
            let highest = self.rule == Rule::HighestEdge;
            let step = if highest { nearer.next_back() } else { nearer.next() };
            let (number, _, _, far) = step.expect("a least walk has a first edge");
            path.push(number);
            place = far;
        }
        path
    }
}

#[cfg(test)]
mod tests {
    use super::*;
    use crate::plan::query_of;
    use second::{check, verdict_lines, Checked, MAX_LEMMA_BYTES};

    #[test]
    fn by_the_right_rule_the_lemma_is_that_of_the_second_program() {
        let mut conflicts = 0;
        for number in 0..600 {
            let query = query_of(5, number);
            if let Checked::Conflict { lemma, .. } = check(&query, MAX_LEMMA_BYTES) {
                let chosen = lemma_by(Rule::FewestWrites, &query).expect("a conflict");
                assert_eq!(Lemma::read(&lemma).as_ref(), Some(&chosen), "query {number}");
                assert_eq!(byte_count(&chosen), lemma.len(), "query {number}");
                let told = verdict_lines(&query);
                assert_eq!(told.split_once('\n').map(|(_, rest)| rest), Some(&*lines(&chosen)));
                conflicts += 1;
            }
        }
        assert!(conflicts > 100, "{conflicts}");
    }
}
