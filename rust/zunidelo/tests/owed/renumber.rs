//! The page's piece of Rust, which the loop of these tests runs: the lines
//! between the marks stand in docs/FORMAT.md as they do here.

// from here
/// The clauses of one call in the solver's variables. `terms` has those of
/// the query's bits and Booleans, in order; from `next` on nothing is used.
pub fn renumber(call: &zunidelo::Clauses, terms: &[i32], next: &mut i32) -> Vec<Vec<i32>> {
    let shift = *next - terms.len() as i32 - 1;
    *next += (call.variables - terms.len()) as i32;
    let own = |number: &i32| {
        let term = terms.get(number.unsigned_abs() as usize - 1);
        number.signum() * term.copied().unwrap_or(number.abs() + shift)
    };
    call.clauses.iter().map(|clause| clause.iter().map(own).collect()).collect()
}
// to here

#[test]
fn the_page_has_these_lines() {
    let source = include_str!("renumber.rs");
    let start = source.find("// from here\n").expect("a mark") + "// from here\n".len();
    let end = source.find("// to here\n").expect("a mark");
    let lines = &source[start..end];
    assert_eq!(lines.lines().count(), 11);
    let block = format!("```rust\n{lines}```\n");
    assert!(include_str!("../../../../docs/FORMAT.md").contains(&block), "{block}");
}

#[test]
fn the_fresh_variables_of_two_calls_are_different_ones() {
    let query = include_bytes!("../../../../examples/K1.query");
    let clauses = zunidelo::clauses(query).expect("K1 is in conflict");
    let terms: Vec<i32> = (1001..1129).collect();
    let mut next = 5000;
    let first = renumber(&clauses, &terms, &mut next);
    assert_eq!((first[0].clone(), next), (vec![1001, 1033, -5000], 5033));
    let second = renumber(&clauses, &terms, &mut next);
    assert_eq!((second[1].clone(), next), (vec![-1001, -1033, -5033], 5066));
    assert_eq!(second.last(), Some(&(5033..5066).collect()));
}
