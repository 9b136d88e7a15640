//! The stored queries of the product, with what its programs print on each.

use std::collections::BTreeMap;
use std::fs;
use std::path::PathBuf;

fn folder() -> PathBuf {
    PathBuf::from(env!("CARGO_MANIFEST_DIR")).join("../../tests/known")
}

/// All stored files with this ending, by the name before it: `K8` or, for a
/// lookup, `K8` with the cell behind the ending.
pub fn files(ending: &str) -> BTreeMap<(String, String), String> {
    let mut found = BTreeMap::new();
    for entry in fs::read_dir(folder()).expect("the folder of stored queries") {
        let path = entry.expect("an entry of the folder").path();
        let file = path.file_name().and_then(|name| name.to_str()).expect("a plain name");
        let (name, kind) = file.rsplit_once('.').expect("a name with its kind");
        if let Some(rest) = kind.strip_prefix(ending) {
            let text = fs::read_to_string(&path).expect("a file of text");
            found.insert((name.to_string(), rest.to_string()), text);
        }
    }
    assert!(!found.is_empty(), "no stored file ends in {ending}");
    found
}

/// Each stored query with its name.
pub fn queries() -> Vec<(String, Vec<u8>)> {
    files("hex").into_iter().map(|((name, _), hex)| (name, bytes(&hex))).collect()
}

pub fn query(name: &str) -> Vec<u8> {
    let (_, query) = queries().into_iter().find(|one| one.0 == name).expect("a stored query");
    query
}

fn bytes(hex: &str) -> Vec<u8> {
    let hex = hex.trim();
    (0..hex.len())
        .step_by(2)
        .map(|at| u8::from_str_radix(&hex[at..at + 2], 16).expect("two hex digits"))
        .collect()
}
