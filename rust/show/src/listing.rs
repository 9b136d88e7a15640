//! The fields line by line: offset, bytes, words. Where the query is refused
//! an arrow points at the place, and what follows is a plain dump.

use crate::field::{grouped, hex, GROUPED_WIDTH};
use crate::walk::{Fault, Placed, Walk};
use std::fmt::Write;
use zunidelo::{Refusal, QUERY_BYTES};

const DUMP_BYTES: usize = 16;

pub fn listing(query: &[u8], walk: &Walk) -> String {
    let mut text = String::new();
    for placed in &walk.fields {
        text += &field_line(query, placed);
    }
    if let Some((refusal, fault)) = &walk.refusal {
        text += &fault_lines(query, *refusal, fault);
        text += &dump(query, fault.end());
    }
    text
}

fn field_line(query: &[u8], placed: &Placed) -> String {
    let bytes = &query[placed.offset..placed.offset + placed.length];
    line(placed.offset, &grouped(bytes), &placed.field.words(placed.number))
}

fn line(offset: usize, bytes: &str, words: &str) -> String {
    let text = format!("{offset:5}  {bytes:GROUPED_WIDTH$}  {words}");
    text.trim_end().to_string() + "\n"
}

/// The place at fault, and an arrow at its first byte.
fn fault_lines(query: &[u8], refusal: Refusal, fault: &Fault) -> String {
    let shown = match fault {
        Fault::Field(placed) => field_line(query, placed),
        Fault::Bytes { length: 0, .. } => return format!("       {refusal}\n"),
        Fault::Bytes { offset, length } => {
            line(*offset, &grouped(&query[*offset..offset + length]), "")
        }
    };
    format!("{shown}       ^ {refusal}\n")
}

/// The bytes from here on, sixteen a line, as many as a query may have.
fn dump(query: &[u8], start: usize) -> String {
    let mut text = String::new();
    let end = query.len().min(start + QUERY_BYTES);
    for offset in (start..end).step_by(DUMP_BYTES) {
        let bytes = &query[offset..end.min(offset + DUMP_BYTES)];
        let words: Vec<String> = bytes.iter().map(|byte| hex(&[*byte])).collect();
        text += &line(offset, &words.join(" "), "");
    }
    if end < query.len() {
        writeln!(text, "       and {} bytes more", query.len() - end).expect("text takes any line");
    }
    text
}
