//! The stored queries of the product, with what the three programs print for
//! each: none of it comes from a program that checks queries.

use second::{clause_lines, lookup_line, verdict_lines};
use std::fs;
use std::path::PathBuf;

fn folder() -> PathBuf {
    PathBuf::from(env!("CARGO_MANIFEST_DIR")).join("../../tests/known")
}

fn text(file: &str) -> String {
    fs::read_to_string(folder().join(file)).expect("a stored file")
}

fn query(name: &str) -> Vec<u8> {
    let hex = text(&format!("{name}.hex"));
    let byte = |at: usize| u8::from_str_radix(&hex[at..at + 2], 16).expect("hex text");
    (0..hex.trim_end().len()).step_by(2).map(byte).collect()
}

/// What the program of a file's ending prints: `verdict`, `clauses`, or
/// `lookup-ARRAY-INDEX`.
fn printed(query: &[u8], ending: &str) -> String {
    match ending.split('-').collect::<Vec<&str>>()[..] {
        ["verdict"] => verdict_lines(query),
        ["clauses"] => clause_lines(query),
        ["lookup", array, index] => {
            lookup_line(query, Some(format!("{array}\n{index}\n").as_bytes()))
        }
        _ => panic!("no program prints {ending}"),
    }
}

#[test]
fn every_stored_answer_is_printed() {
    let mut compared = 0;
    for entry in fs::read_dir(folder()).expect("the folder of stored queries") {
        let file = entry.expect("an entry of the folder").file_name();
        let file = file.to_str().expect("a plain name");
        let (name, ending) = file.rsplit_once('.').expect("a name with an ending");
        if ending != "hex" {
            assert_eq!(printed(&query(name), ending), text(file), "{file}");
            compared += 1;
        }
    }
    assert!(compared > 100, "{compared}");
}
