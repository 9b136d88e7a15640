//! The tester's command line.

use std::path::PathBuf;

pub const USAGE: &str = "tester [--seed N] [--count N] [--cases DIRECTORY] [--wide-index] \
                         [--selftest | --serve | --exhaustive FIELDS | --library | \
                         --product COMMAND ARGUMENT...]";

#[derive(Debug)]
pub struct Arguments {
    pub seed: u64,
    pub count: u64,
    pub cases: PathBuf,
    /// Whether lookups also ask at indices of 2^32 and above.
    pub wide_index: bool,
    pub selftest: bool,
    /// Whether to be a child that answers by the second program.
    pub serve: bool,
    /// Whether to ask the library that is linked in.
    pub library: bool,
    /// Ask the library about all queries of at most so many fields.
    pub exhaustive: Option<usize>,
    pub product: Vec<String>,
}

pub fn parse(mut words: impl Iterator<Item = String>) -> Result<Arguments, String> {
    let mut arguments = Arguments {
        seed: 1,
        count: 2_000,
        cases: PathBuf::from(concat!(env!("CARGO_MANIFEST_DIR"), "/../cases")),
        wide_index: false,
        selftest: false,
        serve: false,
        library: false,
        exhaustive: None,
        product: Vec::new(),
    };
    while let Some(word) = words.next() {
        match word.as_str() {
            "--seed" => arguments.seed = number(words.next())?,
            "--count" => arguments.count = number(words.next())?,
            "--cases" => arguments.cases = words.next().ok_or(USAGE)?.into(),
            "--wide-index" => arguments.wide_index = true,
            "--selftest" => arguments.selftest = true,
            "--serve" => arguments.serve = true,
            "--library" => arguments.library = true,
            "--exhaustive" => arguments.exhaustive = Some(number(words.next())? as usize),
            "--product" => arguments.product = words.by_ref().collect(),
            _ => return Err(USAGE.to_string()),
        }
    }
    Ok(arguments)
}

fn number(word: Option<String>) -> Result<u64, String> {
    word.and_then(|word| word.parse().ok()).ok_or(USAGE.to_string())
}
