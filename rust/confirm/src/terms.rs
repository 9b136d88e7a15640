//! A query's terms and its guess in z3's language: base terms b0, b1 and so
//! on, Booleans m0.., arrays a0.., as 01 says what an interpretation is.

use judge::field::{Field, Series};
use std::fmt::Write;

const VALUE: &str = "(_ BitVec 32)";
const ARRAY: &str = "(Array (_ BitVec 32) (_ BitVec 32))";

/// A value as a constant of 32 bits.
pub fn constant(value: u32) -> String {
    format!("#x{value:08x}")
}

/// How many terms of each series have been given.
#[derive(Default)]
struct Given {
    bases: usize,
    booleans: usize,
    arrays: usize,
}

impl Given {
    /// The name of the term that the field gives.
    fn name(&mut self, field: &Field) -> String {
        let (letter, count) = match field.gives() {
            Series::Base => ('b', &mut self.bases),
            Series::Boolean => ('m', &mut self.booleans),
            Series::Array => ('a', &mut self.arrays),
        };
        *count += 1;
        format!("{letter}{}", *count - 1)
    }
}

fn sort(field: &Field) -> &'static str {
    match field.gives() {
        Series::Base => VALUE,
        Series::Boolean => "Bool",
        Series::Array => ARRAY,
    }
}

/// What the field's term is, or nothing where it is free.
fn definition(field: &Field) -> Option<String> {
    match *field {
        Field::Base { .. } | Field::Boolean { .. } | Field::Variable => None,
        Field::Fixed { value } => Some(constant(value)),
        Field::Write { array, index, value } => Some(format!("(store a{array} b{index} b{value})")),
        Field::Conditional { boolean, if_true, if_false } => {
            Some(format!("(ite m{boolean} a{if_true} a{if_false})"))
        }
        Field::Read { array, index, .. } => Some(format!("(select a{array} b{index})")),
        // A witness adds nothing: the arrays differ somewhere, or nowhere.
        Field::Equality { left, right, .. } => Some(format!("(= a{left} a{right})")),
    }
}

/// All terms: each is free, or is what its field says.
pub fn terms(fields: &[Field]) -> String {
    let mut given = Given::default();
    let mut script = String::new();
    for field in fields {
        let (name, sort) = (given.name(field), sort(field));
        let line = match definition(field) {
            None => format!("(declare-const {name} {sort})"),
            Some(definition) => define(&name, sort, &definition),
        };
        writeln!(script, "{line}").expect("a string takes any text");
    }
    script
}

/// Base terms and Booleans alone, all of them free but for fixed numbers: what
/// clauses are about.
pub fn free_terms(fields: &[Field]) -> String {
    let mut given = Given::default();
    let mut script = String::new();
    for field in fields {
        let (name, sort) = (given.name(field), sort(field));
        let line = match *field {
            Field::Fixed { value } => define(&name, sort, &constant(value)),
            _ if field.gives() == Series::Array => continue,
            _ => format!("(declare-const {name} {sort})"),
        };
        writeln!(script, "{line}").expect("a string takes any text");
    }
    script
}

fn define(name: &str, sort: &str, definition: &str) -> String {
    format!("(define-fun {name} () {sort} {definition})")
}

/// Every assigned value and truth. A fixed number has its value by definition.
pub fn guess(fields: &[Field]) -> String {
    let mut given = Given::default();
    let mut script = String::new();
    for field in fields {
        let name = given.name(field);
        let line = match *field {
            Field::Base { value } | Field::Read { value, .. } => {
                format!("(assert (= {name} {}))\n", constant(value))
            }
            Field::Boolean { truth: 1 } | Field::Equality { truth: 1, .. } => {
                format!("(assert {name})\n")
            }
            Field::Boolean { .. } | Field::Equality { .. } => format!("(assert (not {name}))\n"),
            _ => continue,
        };
        script.push_str(&line);
    }
    script
}

/// The array with these cells, and 0 elsewhere.
pub fn memory(cells: &[(u32, u32)]) -> String {
    let mut term = format!("((as const {ARRAY}) {})", constant(0));
    for (index, value) in cells {
        term = format!("(store {term} {} {})", constant(*index), constant(*value));
    }
    term
}

#[cfg(test)]
mod tests {
    use super::*;

    const FIELDS: [Field; 8] = [
        Field::Base { value: 5 },
        Field::Boolean { truth: 1 },
        Field::Variable,
        Field::Write { array: 0, index: 0, value: 0 },
        Field::Conditional { boolean: 0, if_true: 1, if_false: 0 },
        Field::Read { array: 2, index: 0, value: 7 },
        Field::Equality { left: 2, right: 2, truth: 0, left_witness: 1, right_witness: 1 },
        Field::Fixed { value: 9 },
    ];

    #[test]
    fn each_term_is_free_or_what_its_field_says() {
        let script = terms(&FIELDS).replace(ARRAY, "Array").replace(VALUE, "Value");
        let lines = [
            "(declare-const b0 Value)",
            "(declare-const m0 Bool)",
            "(declare-const a0 Array)",
            "(define-fun a1 () Array (store a0 b0 b0))",
            "(define-fun a2 () Array (ite m0 a1 a0))",
            "(define-fun b1 () Value (select a2 b0))",
            "(define-fun m1 () Bool (= a2 a2))",
            "(define-fun b2 () Value #x00000009)",
        ];
        assert_eq!(script.lines().collect::<Vec<_>>(), lines);
    }

    #[test]
    fn without_arrays_all_terms_are_free_but_for_fixed_numbers() {
        let script = free_terms(&FIELDS).replace(VALUE, "Value");
        let lines = [
            "(declare-const b0 Value)",
            "(declare-const m0 Bool)",
            "(declare-const b1 Value)",
            "(declare-const m1 Bool)",
            "(define-fun b2 () Value #x00000009)",
        ];
        assert_eq!(script.lines().collect::<Vec<_>>(), lines);
    }

    #[test]
    fn the_guess_has_every_value_and_truth() {
        let lines = [
            "(assert (= b0 #x00000005))",
            "(assert m0)",
            "(assert (= b1 #x00000007))",
            "(assert (not m1))",
        ];
        assert_eq!(guess(&FIELDS).lines().collect::<Vec<_>>(), lines);
    }
}
