//! The front page's example in Rust: the lines between the marks stand in
//! README.md as they do here, and are run on K6 and K8.

use zunidelo::{Refusal, Verdict};

fn print(query: &[u8]) -> Result<(), Refusal> {
    // from here
    match zunidelo::check(query)? {
        Verdict::Consistent { .. } => println!("array 3 at 5: {}", zunidelo::lookup(query, 3, 5)?),
        Verdict::Conflict { lemma, .. } => print!("{lemma}{}", zunidelo::clauses(query)?),
    }
    // to here
    Ok(())
}

#[test]
fn the_front_page_has_these_lines() {
    let source = include_str!("readme.rs");
    let start = source.find("// from here\n").expect("a mark") + "// from here\n".len();
    let end = source.find("    // to here\n").expect("a mark");
    let lines = &source[start..end];
    assert_eq!(lines.lines().count(), 4);
    assert!(include_str!("../../../README.md").contains(lines), "{lines}");
}

#[test]
fn they_answer_k6_and_k8() {
    assert_eq!(print(include_bytes!("../../../examples/K6.query")), Ok(()));
    assert_eq!(print(include_bytes!("../../../examples/K8.query")), Ok(()));
    assert_eq!(zunidelo::lookup(include_bytes!("../../../examples/K8.query"), 3, 5), Ok(21));
}
