//! docs/FORMAT.md, held to the library: its tables are read from the page, and
//! queries, lemmas and clauses made from them alone are what the library takes
//! and gives.

mod asked;
mod calls;
mod clauses;
mod faults;
mod fields;
mod first;
mod formula;
mod lemma;
mod limits;
mod page;
mod refusals;
mod tags;

#[path = "../stored/mod.rs"]
mod stored;

// The calls as they are linked: the report's numbers by their places.
#[path = "../../src/call.rs"]
mod call;
