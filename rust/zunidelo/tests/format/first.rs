//! The first query, byte by byte, and its answer.

use crate::page;
use crate::stored;
use zunidelo::{check, Verdict};

/// The numbers that the words beside the bytes have, for K1 (01, Printed lines):
/// lengths, term numbers and guessed values, row by row.
const NUMBERS: [&[usize]; 10] =
    [&[], &[4], &[0, 5], &[1, 5], &[0], &[8], &[0], &[0], &[7, 2], &[3, 0, 1, 9]];

#[test]
fn the_bytes_are_those_of_k1_each_at_its_offset() {
    let rows = page::section("A first query").table(["at", "bytes", "what they are"]);
    let mut query = Vec::new();
    assert_eq!(rows.len(), NUMBERS.len(), "the words of each row are tried");
    for ([at, bytes, words], expected) in rows.into_iter().zip(NUMBERS) {
        assert_eq!(page::number(&at), query.len(), "the offset of {bytes}");
        query.extend(bytes.split(' ').map(page::byte));
        let numbers = words.split(|letter: char| !letter.is_ascii_digit());
        let numbers: Vec<usize> =
            numbers.filter(|number| !number.is_empty()).map(page::number).collect();
        assert_eq!(numbers, expected, "{words}");
    }
    assert_eq!(query, stored::query("K1"));
    let answer = page::section("A first query").block("text");
    let Ok(Verdict::Conflict { pairs, lemma }) = check(&query) else { panic!("a conflict") };
    assert_eq!(answer, format!("conflict {pairs}\n{lemma}"));
}
