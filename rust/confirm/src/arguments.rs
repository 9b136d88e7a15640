//! The command line of `confirm`.

const USAGE: &str = "confirm [--seed N] [--count N] [--selftest]";

pub struct Arguments {
    pub seed: u64,
    pub count: u64,
    /// Whether to put faults into the answers and demand that they are found.
    pub selftest: bool,
}

pub fn parse(mut words: impl Iterator<Item = String>) -> Result<Arguments, String> {
    let mut arguments = Arguments { seed: 1, count: 100, selftest: false };
    while let Some(word) = words.next() {
        match word.as_str() {
            "--seed" => arguments.seed = number(words.next())?,
            "--count" => arguments.count = number(words.next())?,
            "--selftest" => arguments.selftest = true,
            _ => return Err(USAGE.to_string()),
        }
    }
    Ok(arguments)
}

fn number(word: Option<String>) -> Result<u64, String> {
    word.and_then(|word| word.parse().ok()).ok_or(USAGE.to_string())
}
