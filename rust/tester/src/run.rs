//! A run: kept cases first, then the seed's queries in batches; differences
//! are shrunk, printed and kept.

use crate::cases;
use crate::compare::{compare, Comparison};
use crate::plan::requests;
use crate::product::Product;
use crate::progress::Progress;
use crate::request::{hex, Request};
use crate::shrink::shrink;
use crate::summary::Summary;
use std::path::Path;

/// How many queries are asked about at once.
const BATCH: u64 = 32;

/// Answers longer than this are printed only around the first difference.
const LONG: usize = 1_500;

pub struct Run<'a> {
    pub product: &'a mut dyn Product,
    pub seed: u64,
    pub count: u64,
    pub cases: &'a Path,
    pub wide_index: bool,
    pub summary: Summary,
}

impl Run<'_> {
    /// Asks everything, or up to the first batch with a difference; answers
    /// its differences, shrunk.
    pub fn all(&mut self) -> Result<Vec<Comparison>, String> {
        let kept = cases::load(self.cases)?;
        let mut found = self.batch(&kept, "kept cases")?;
        let mut progress = Progress::begin();
        let mut number = 0;
        while number < self.count && found.is_empty() {
            let end = (number + BATCH).min(self.count);
            let batch: Vec<Request> = (number..end)
                .flat_map(|number| requests(self.seed, number, self.wide_index))
                .collect();
            let place = format!("seed {} queries {number} to {}", self.seed, end - 1);
            found = self.batch(&batch, &place)?;
            progress.tell(self.summary.queries);
            number = end;
        }
        Ok(found)
    }

    /// One batch; of its differences the first for each kind of question.
    fn batch(&mut self, requests: &[Request], place: &str) -> Result<Vec<Comparison>, String> {
        let mut found: Vec<Comparison> = Vec::new();
        for comparison in compare(self.product, requests) {
            self.summary.add(&comparison);
            let kind = std::mem::discriminant(&comparison.request.question);
            let seen = |known: &Comparison| std::mem::discriminant(&known.request.question) == kind;
            if comparison.differs() && !found.iter().any(seen) {
                found.push(self.report(comparison, place)?);
            }
        }
        Ok(found)
    }

    fn report(&mut self, difference: Comparison, place: &str) -> Result<Comparison, String> {
        let original = difference.request.query.len();
        let small = shrink(self.product, difference);
        let path = cases::keep(self.cases, &small.request)?;
        let length = small.request.query.len();
        println!("DIFFERENCE at {place}, shrunk from {original} bytes to {length}");
        println!("op {}", small.request.question.line());
        println!("query {}", hex(&small.request.query));
        println!("expected:\n{}", shortened(&small.expected, &small.answered));
        println!("answered:\n{}", shortened(&small.answered, &small.expected));
        println!("kept as {}", path.display());
        Ok(small)
    }
}

/// The text, or if it is long what surrounds its first difference from the
/// other text.
fn shortened(text: &str, other: &str) -> String {
    if text.len() <= LONG {
        return text.to_string();
    }
    let signs: Vec<char> = text.chars().collect();
    let same = signs.iter().zip(other.chars()).take_while(|(one, other)| **one == *other).count();
    let (start, end) = (same.saturating_sub(100), (same + 100).min(signs.len()));
    let around: String = signs[start..end].iter().collect();
    format!("(from sign {start} on) {around}\n")
}
