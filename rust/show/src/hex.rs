//! Hex text: pairs of digits, white space between them, `#` before a comment.
//! `to_hex` writes a field a line with its words, and `from_hex` reads the
//! same bytes back.

use crate::field::{grouped, hex, GROUPED_WIDTH};
use crate::walk::Walk;
use std::error::Error;
use std::fmt;
use zunidelo::check;

const LINE_BYTES: usize = 16;

/// What is wrong with hex text, and in which line.
#[derive(Debug, Clone, PartialEq, Eq)]
pub struct HexFault {
    line: usize,
    digits: String,
}

impl fmt::Display for HexFault {
    fn fmt(&self, formatter: &mut fmt::Formatter) -> fmt::Result {
        write!(formatter, "line {}: `{}` is not bytes in hex", self.line, self.digits)
    }
}

impl Error for HexFault {}

/// The bytes of hex text.
pub fn from_hex(text: &str) -> Result<Vec<u8>, HexFault> {
    let mut bytes = Vec::new();
    for (place, line) in text.lines().enumerate() {
        let digits = line.split('#').next().unwrap_or("");
        for run in digits.split_whitespace() {
            let run_bytes = run_bytes(run);
            let fault = || HexFault { line: place + 1, digits: run.to_string() };
            bytes.extend(run_bytes.ok_or_else(fault)?);
        }
    }
    Ok(bytes)
}

/// The bytes of digits without white space, which come in pairs.
fn run_bytes(run: &str) -> Option<Vec<u8>> {
    let digits: Option<Vec<u8>> = run.chars().map(digit).collect();
    let digits = digits?;
    let pairs = digits.chunks_exact(2);
    pairs.remainder().is_empty().then(|| pairs.map(|pair| pair[0] << 4 | pair[1]).collect())
}

fn digit(character: char) -> Option<u8> {
    character.to_digit(16).map(|value| value as u8)
}

/// The query as hex text: a field a line with its words, a comment where it
/// is refused, and what follows in plain lines.
pub fn to_hex(query: &[u8]) -> String {
    let walk = Walk::of(query, check(query).err().as_ref());
    let mut text = String::new();
    for placed in &walk.fields {
        let bytes = grouped(&query[placed.offset..placed.offset + placed.length]);
        let words = placed.field.words(placed.number);
        text += &format!("{bytes:GROUPED_WIDTH$}  # {:4}: {words}\n", placed.offset);
    }
    if let Some((refusal, _)) = walk.refusal {
        text += &format!("# {refusal}\n");
        for line in query[refusal.offset()..].chunks(LINE_BYTES) {
            text += &format!("{}\n", hex(line));
        }
    }
    text
}
