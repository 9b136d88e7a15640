//! Kept cases: each difference ever found stays as a file, a line with the
//! question and a line with the query in hex, and is asked first on every run.

use crate::request::{hex, parse_hex, Question, Request};
use second::{MAX_CLAUSE_NUMBERS, MAX_LEMMA_BYTES};
use std::fs;
use std::path::{Path, PathBuf};

/// Keeps the request under a name made of its text, and answers the place.
pub fn keep(directory: &Path, request: &Request) -> Result<PathBuf, String> {
    let text = format!("{}\n{}\n", request.question.line(), hex(&request.query));
    let letter = &text[..1];
    let path = directory.join(format!("{letter}-{:016x}", fingerprint(&text)));
    fs::create_dir_all(directory).map_err(|error| format!("{}: {error}", directory.display()))?;
    fs::write(&path, text).map_err(|error| format!("{}: {error}", path.display()))?;
    Ok(path)
}

/// FNV-1a: the same text always gets the same name.
fn fingerprint(text: &str) -> u64 {
    let mix = |sum: u64, byte: u8| (sum ^ u64::from(byte)).wrapping_mul(0x0000_0100_0000_01B3);
    text.bytes().fold(0xCBF2_9CE4_8422_2325, mix)
}

/// All kept requests, by file name, each followed by the other questions
/// about the same query.
pub fn load(directory: &Path) -> Result<Vec<Request>, String> {
    let Ok(entries) = fs::read_dir(directory) else {
        return Ok(Vec::new());
    };
    let mut paths: Vec<PathBuf> = entries.flatten().map(|entry| entry.path()).collect();
    paths.retain(|path| path.is_file());
    paths.sort();
    let mut requests = Vec::new();
    for path in paths {
        let kept = read(&path).ok_or(format!("{}: not a kept case", path.display()))?;
        let others = beside(&kept);
        requests.push(kept);
        requests.extend(others);
    }
    Ok(requests)
}

fn read(path: &Path) -> Option<Request> {
    let text = fs::read_to_string(path).ok()?;
    let (question, query) = text.split_once('\n')?;
    Some(Request { question: Question::parse(question)?, query: parse_hex(query)? })
}

fn beside(kept: &Request) -> Vec<Request> {
    let questions = [
        Question::Verdict,
        Question::Check { room: MAX_LEMMA_BYTES as u16 },
        Question::Lookup { array: 0, index: 0 },
        Question::Clauses { room: MAX_CLAUSE_NUMBERS as u16 },
    ];
    let others = questions.into_iter().filter(|question| *question != kept.question);
    others.map(|question| Request { question, query: kept.query.clone() }).collect()
}
