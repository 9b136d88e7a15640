//! What `zunidelo-show` prints of a query: its fields, its verdict in words,
//! its graph, and its hex text. Verdict, refusal and lemma come from the
//! library; what is taken apart here is taken apart for showing alone.

mod dot;
mod field;
mod front;
mod graph;
mod hex;
mod listing;
#[cfg(test)]
mod page;
mod path;
mod verdict;
mod walk;

pub use dot::dot;
pub use hex::{from_hex, to_hex, HexFault};

use walk::Walk;
use zunidelo::check;

/// The fields one by one, then the verdict in words. A refused query has its
/// refusal at the place, and the bytes that follow.
pub fn show(query: &[u8]) -> String {
    let checked = check(query);
    let walk = Walk::of(query, checked.as_ref().err());
    let fields = listing::listing(query, &walk);
    match checked {
        Err(_) => fields,
        Ok(verdict) => {
            let space = if fields.is_empty() { "" } else { "\n" };
            fields + space + &verdict::words(query, &walk.fields, &verdict)
        }
    }
}
