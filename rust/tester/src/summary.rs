//! What a run has compared: how many answers to how many queries, how often
//! each verdict and refusal was expected, and the largest answers seen.

use crate::compare::Comparison;
use crate::constants::freed;
use crate::request::Question;
use second::Checked;
use std::collections::BTreeMap;
use std::fmt;

#[derive(Default)]
pub struct Summary {
    answers: usize,
    /// A query is compared where the verdict's lines on it are.
    pub queries: usize,
    outcomes: BTreeMap<String, usize>,
    consistent_pairs: usize,
    conflict_pairs: usize,
    literals: usize,
    lemma_bytes: usize,
    numbers: usize,
    cells: usize,
    /// How many queries have a fixed number, and how many lemmas leave out a
    /// comparison for it.
    fixed: usize,
    left_out: usize,
}

impl Summary {
    /// Counts a comparison that was made.
    pub fn add(&mut self, comparison: &Comparison) {
        let Comparison { request, expected, .. } = comparison;
        self.answers += 1;
        let first = expected.lines().next().unwrap_or("");
        let words: Vec<&str> = first.split(' ').collect();
        match (request.question, &words[..]) {
            (_, ["refused", number, _]) => self.count(&format!("refused {number:>2}")),
            (Question::Verdict, [verdict, ..]) => self.count(verdict),
            (Question::Clauses { .. }, [_, _, count]) => {
                self.count("clauses");
                self.numbers = self.numbers.max(count.parse().unwrap_or(0));
            }
            (Question::Lookup { .. }, _) => self.count("looked up"),
            _ => self.count("checked"),
        }
        if request.question == Question::Verdict {
            self.add_query(&request.query, expected);
        }
    }

    fn count(&mut self, outcome: &str) {
        *self.outcomes.entry(outcome.to_string()).or_default() += 1;
    }

    fn add_query(&mut self, query: &[u8], expected: &str) {
        self.queries += 1;
        let free = freed(query);
        self.fixed += usize::from(free != query);
        match second::check(query, usize::MAX) {
            Checked::Refused(_) => {}
            Checked::Consistent { pairs } => {
                self.consistent_pairs = self.consistent_pairs.max(pairs);
                self.cells = self.cells.max(cells_of_one_array(expected));
            }
            Checked::Conflict { pairs, lemma } => {
                self.conflict_pairs = self.conflict_pairs.max(pairs);
                self.lemma_bytes = self.lemma_bytes.max(lemma.len());
                let whole = second::check(&free, usize::MAX);
                self.left_out += usize::from(whole != Checked::Conflict { pairs, lemma });
                self.literals = self.literals.max(expected.lines().count() - 1);
            }
        }
    }
}

/// How many of the lines after the first are about one array, at most.
pub fn cells_of_one_array(lines: &str) -> usize {
    let arrays: Vec<&str> =
        lines.lines().skip(1).filter_map(|line| line.split(' ').next()).collect();
    arrays.chunk_by(|one, next| one == next).map(<[_]>::len).max().unwrap_or(0)
}

impl fmt::Display for Summary {
    fn fmt(&self, out: &mut fmt::Formatter) -> fmt::Result {
        writeln!(out, "{} queries, {} answers", self.queries, self.answers)?;
        writeln!(
            out,
            "  {} with fixed numbers, for which {} lemmas leave out a comparison",
            self.fixed, self.left_out
        )?;
        for (outcome, count) in &self.outcomes {
            writeln!(out, "  {outcome:<12} {count}")?;
        }
        writeln!(
            out,
            "  most pairs: {} consistent, {} in conflict; longest lemma: {} literals, {} bytes; \
             longest run: {} numbers; most cells of one array: {}",
            self.consistent_pairs,
            self.conflict_pairs,
            self.literals,
            self.lemma_bytes,
            self.numbers,
            self.cells
        )
    }
}
