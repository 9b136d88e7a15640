//! The judge: decides tiny queries by trying every interpretation, with no
//! notion of reach, and holds the second program's answers against that.

mod clauses;
pub mod every;
pub mod field;
pub mod graph;
pub mod interpretation;
mod judgement;
pub mod lemma;
pub mod random;
mod satisfy;
pub mod tiny;
mod walks;
pub mod ways;

pub use judgement::{judge, Verdict};
