//! The verdict in words: how many pairs and cells, with what the cells hold,
//! or the lemma, one literal a line, what is left out of it, and since which
//! field there is a conflict.

use crate::front::conflict_arises;
use crate::graph::Graph;
use crate::path::Path;
use crate::walk::Placed;
use std::fmt::Write;
use zunidelo::{lookup, Lemma, Literal, Verdict};

pub fn words(query: &[u8], fields: &[Placed], verdict: &Verdict) -> String {
    let graph = Graph::of(fields);
    match verdict {
        Verdict::Consistent { pairs } => consistent(query, &graph, *pairs),
        Verdict::Conflict { pairs, lemma } => {
            conflict(&graph, *pairs, lemma) + &since(query, fields)
        }
    }
}

/// Which cells there are follows from the graph; what they hold is looked up.
fn consistent(query: &[u8], graph: &Graph, pairs: usize) -> String {
    let cells = graph.cells();
    let count: usize = cells.iter().map(|indices| indices.len()).sum();
    let mut text = format!(
        "consistent: some memories fit. {}; {}, all others hold 0\n",
        counted(pairs, "pair"),
        counted(count, "cell")
    );
    for (array, indices) in cells.iter().enumerate().filter(|(_, indices)| !indices.is_empty()) {
        let held: Vec<String> = indices.iter().map(|index| cell(query, array, *index)).collect();
        writeln!(text, "    array {array} has {}", held.join(", ")).expect("text takes any line");
    }
    text
}

fn cell(query: &[u8], array: usize, index: usize) -> String {
    match lookup(query, array as u64, index as u64) {
        Ok(value) => format!("{value} at {index}"),
        Err(refusal) => refusal.to_string(),
    }
}

fn conflict(graph: &Graph, pairs: usize, lemma: &Lemma) -> String {
    let mut lines = Vec::new();
    for (place, literal) in lemma.literals.iter().enumerate() {
        let link = match literal {
            Literal::Conclusion { .. } if place == 0 => "always",
            Literal::Conclusion { .. } => "then",
            _ if place == 0 => "if",
            _ => "and",
        };
        lines.push(format!("{link} {}", literal_words(*literal, |base| graph.base(base))));
    }
    if let Some(Literal::Conclusion { first, later }) = lemma.literals.last() {
        let [one, other] = [first, later].map(|base| graph.base_and_value(*base));
        lines.push(format!("but {one} and {other}"));
    }
    let left_out = Path::of(graph, lemma).map_or(vec![], |path| path.left_out(graph));
    for literal in left_out {
        let words = literal_words(literal, |base| format!("base {base}"));
        lines.push(format!("left out, as both are fixed: {words}"));
    }
    let lines: String = lines.into_iter().map(|line| format!("    {line}\n")).collect();
    format!("conflict: no memories fit. {}. The lemma:\n{lines}", counted(pairs, "pair"))
}

/// Where a proper front is in conflict, so that no growing mends it: since when.
fn since(query: &[u8], fields: &[Placed]) -> String {
    let place = conflict_arises(query, fields);
    let front = place + 1;
    if front == fields.len() {
        return String::new();
    }
    format!(
        "    in conflict since byte {}: the first {}, of {}, are in conflict already, \
         and so is every accepted query that begins with them\n",
        fields[place].offset,
        counted(front, "field"),
        fields.len()
    )
}

/// What the literal says, with a name for each base term.
fn literal_words(literal: Literal, base: impl Fn(usize) -> String) -> String {
    match literal {
        Literal::Equal { first, later } | Literal::Conclusion { first, later } => {
            format!("{} = {}", base(first), base(later))
        }
        Literal::Differ { first, write } => {
            format!("{} differs from {}", base(first), base(write))
        }
        Literal::True { boolean } => format!("Boolean {boolean} is true"),
        Literal::False { boolean } => format!("Boolean {boolean} is false"),
    }
}

fn counted(count: usize, word: &str) -> String {
    format!("{count} {word}{}", if count == 1 { "" } else { "s" })
}
