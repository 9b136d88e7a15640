//! The sources and edges of a query: the paper's words about them taken one by
//! one, under the assigned values and truths.

use crate::field::{Field, Series};
use crate::interpretation::Interpretation;
use crate::lemma::{Lemma, Literal};

pub struct Source {
    pub origin: u16,
    pub index: u16,
    pub value: u16,
}

pub struct Edge {
    pub ends: (u16, u16),
    /// The write's index term, for a write.
    write_index: Option<u16>,
    /// The literal of a conditional or an equality.
    literal: Option<Literal>,
    open: bool,
}

impl Edge {
    pub fn is_write(&self) -> bool {
        self.write_index.is_some()
    }
}

/// The sources and edges of the fields, the assigned values and truths, and
/// which base terms are fixed.
pub struct Graph {
    pub sources: Vec<Source>,
    pub edges: Vec<Edge>,
    pub arrays: u16,
    guess: Interpretation,
    fixed: Vec<bool>,
}

impl Graph {
    pub fn of(fields: &[Field], width: u32) -> Graph {
        let guess = Interpretation::assigned(fields, width);
        let fixed = fixed_bases(fields);
        let mut graph = Graph { sources: vec![], edges: vec![], arrays: 0, guess, fixed };
        let (mut bases, mut booleans) = (0, 0);
        for field in fields {
            graph.add(field, bases, booleans);
            match field.gives() {
                Series::Base => bases += 1,
                Series::Boolean => booleans += 1,
                Series::Array => graph.arrays += 1,
            }
        }
        graph
    }

    fn add(&mut self, field: &Field, bases: u16, booleans: u16) {
        let own = self.arrays;
        match *field {
            Field::Write { array, index, value } => {
                self.sources.push(Source { origin: own, index, value });
                let (write_index, literal) = (Some(index), None);
                self.edges.push(Edge { ends: (own, array), write_index, literal, open: true });
            }
            Field::Read { array, index, .. } => {
                self.sources.push(Source { origin: array, index, value: bases });
            }
            Field::Conditional { boolean, if_true, if_false } => {
                let truth = self.guess.booleans[usize::from(boolean)];
                let branch = if truth { if_true } else { if_false };
                let literal = if truth { Literal::True } else { Literal::False }(boolean);
                self.join((own, branch), literal, true);
            }
            Field::Equality { left, right, truth, .. } => {
                self.join((left, right), Literal::True(booleans), truth == 1);
            }
            _ => {}
        }
    }

    fn join(&mut self, ends: (u16, u16), literal: Literal, open: bool) {
        self.edges.push(Edge { ends, write_index: None, literal: Some(literal), open });
    }

    pub fn base(&self, number: u16) -> u32 {
        self.guess.bases[usize::from(number)]
    }

    /// Whether a source with this index value can walk the edge.
    pub fn is_open(&self, edge: &Edge, index_value: u32) -> bool {
        edge.open && edge.write_index.is_none_or(|index| self.base(index) != index_value)
    }

    pub fn is_fixed(&self, number: u16) -> bool {
        self.fixed[usize::from(number)]
    }

    /// "An 'equal' or 'differ' between two fixed numbers" (02, E1).
    pub fn compares_fixed(&self, literal: &Literal) -> bool {
        literal.compared().is_some_and(|(one, other)| self.is_fixed(one) && self.is_fixed(other))
    }

    /// The literal of an edge, for a source with this index.
    pub fn edge_literal(&self, index: u16, edge: &Edge) -> Literal {
        let differ = edge.write_index.map(|write_index| Literal::Differ(index, write_index));
        edge.literal.or(differ).expect("an edge is a write or has a literal")
    }

    /// The lemma of two sources and a walk between them, by edge numbers.
    pub fn lemma(&self, first: &Source, later: &Source, walk: &[usize]) -> Lemma {
        self.whole_lemma(first, later, walk).without(|literal| self.compares_fixed(literal))
    }

    /// The same with nothing left out of it: what it is in 01.
    pub fn whole_lemma(&self, first: &Source, later: &Source, walk: &[usize]) -> Lemma {
        let mut premise = Vec::new();
        if first.index != later.index {
            premise.push(Literal::Equal(first.index, later.index));
        }
        for number in walk {
            let literal = self.edge_literal(first.index, &self.edges[*number]);
            if !premise.contains(&literal) {
                premise.push(literal);
            }
        }
        Lemma { premise, conclusion: (first.value, later.value) }
    }
}

/// Of each base term whether it is fixed.
pub fn fixed_bases(fields: &[Field]) -> Vec<bool> {
    let bases = fields.iter().filter(|field| field.gives() == Series::Base);
    bases.map(Field::is_fixed).collect()
}
