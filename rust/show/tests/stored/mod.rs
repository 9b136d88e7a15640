//! The stored queries of the product.

use std::fs;
use std::path::PathBuf;

pub fn folder() -> PathBuf {
    PathBuf::from(env!("CARGO_MANIFEST_DIR")).join("../../tests/known")
}

/// The names of all stored queries.
pub fn names() -> Vec<String> {
    let mut names = Vec::new();
    for entry in fs::read_dir(folder()).expect("the folder of stored queries") {
        let file = entry.expect("an entry of the folder").file_name();
        let file = file.to_str().expect("a plain name");
        names.extend(file.strip_suffix(".hex").map(str::to_string));
    }
    names.sort();
    assert!(names.len() >= 12, "K1 to K12 are stored");
    names
}

/// A stored file, such as `K8.verdict`.
pub fn text(file: &str) -> String {
    fs::read_to_string(folder().join(file)).expect("a stored file")
}

pub fn query(name: &str) -> Vec<u8> {
    show::from_hex(&text(&format!("{name}.hex"))).expect("hex text")
}
