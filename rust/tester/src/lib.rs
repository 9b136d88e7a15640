//! The seeded tester's parts: generators of queries, the ways to ask the
//! product, the comparison with the second program, and the shrinking.

pub mod arguments;
pub mod bounds;
pub mod builder;
pub mod cases;
pub mod cells;
pub mod compare;
pub mod constants;
pub mod disturb;
pub mod drop_fields;
pub mod exhaustive;
pub mod expected;
pub mod fault;
pub mod left_out;
pub mod library;
pub mod memory;
pub mod mistake;
pub mod mutate;
pub mod plan;
pub mod product;
pub mod progress;
pub mod request;
pub mod rooms;
pub mod rules;
pub mod run;
pub mod selftest;
pub mod serve;
pub mod shapes;
pub mod shrink;
pub mod summary;
pub mod ways;
