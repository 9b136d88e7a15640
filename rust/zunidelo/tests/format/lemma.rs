//! The table of the lemma's fields: the library's bytes are what its rows make
//! of the printed literals.

use crate::fields::{base, conditional, fixed, front, read, write, Series};
use crate::page;
use crate::stored;
use zunidelo::{check, check_into, Checked, Verdict, LEMMA_BYTES};

struct Row {
    tag: u8,
    printed: String,
    length: usize,
    /// The series that each part names, with its bytes.
    parts: Vec<(Series, usize)>,
    says: String,
}

fn rows() -> Vec<Row> {
    let columns = ["tag", "printed", "length", "parts of the value, each with its bytes", "says"];
    let rows = page::section("The lemma").table(columns);
    assert_eq!(rows.len(), 5, "a row for each kind of literal");
    let rows = rows.into_iter();
    rows.map(|[tag, printed, length, parts, says]| Row {
        tag: page::byte(&tag),
        printed: page::code(&printed).to_string(),
        length: page::number(&length),
        parts: page::list(&parts).into_iter().map(part).collect(),
        says,
    })
    .collect()
}

fn part(words: &str) -> (Series, usize) {
    let (name, bytes) = words.rsplit_once(' ').expect("a part with its bytes");
    (Series::of(name), page::number(bytes))
}

/// The names of the stored queries in conflict.
pub fn conflicts() -> Vec<String> {
    let verdicts = stored::files("verdict").into_iter();
    let conflicts = verdicts.filter(|(_, verdict)| verdict.starts_with("conflict"));
    let names: Vec<String> = conflicts.map(|((name, _), _)| name).collect();
    assert!(names.len() >= 8, "K1, K3, K4, K5, K6, K9 and two at the bounds");
    names
}

/// A literal as it is printed: its word and its numbers.
pub fn literals(query: &[u8]) -> Vec<(String, Vec<usize>)> {
    let Ok(Verdict::Conflict { lemma, .. }) = check(query) else { panic!("a conflict") };
    let printed = lemma.to_string();
    let literal = |line: &str| {
        let mut words = line.split(' ');
        let word = words.next().expect("a word").to_string();
        (word, words.map(page::number).collect())
    };
    printed.lines().map(literal).collect()
}

fn bytes(rows: &[Row], word: &str, numbers: &[usize]) -> Vec<u8> {
    let row = rows.iter().find(|row| row.printed == word);
    let row = row.unwrap_or_else(|| panic!("no row is printed {word}"));
    assert_eq!(row.parts.len(), numbers.len(), "the parts of {word}");
    let mut bytes = vec![row.tag];
    bytes.extend((row.length as u16).to_be_bytes());
    for ((_, size), number) in row.parts.iter().zip(numbers) {
        bytes.extend(&(*number as u64).to_be_bytes()[8 - size..]);
    }
    assert_eq!(bytes.len(), 3 + row.length, "the parts of {word} make up its length");
    bytes
}

fn written(query: &[u8]) -> Vec<u8> {
    let mut answer = [0; LEMMA_BYTES];
    let checked = check_into(query, &mut answer);
    let Ok(Checked::Conflict { length, .. }) = checked else { panic!("a conflict") };
    answer[..length].to_vec()
}

#[test]
fn the_lemmas_bytes_are_those_of_the_rows() {
    let rows = rows();
    let mut met = Vec::new();
    for name in conflicts() {
        let query = stored::query(&name);
        let literals = literals(&query);
        let expected: Vec<u8> =
            literals.iter().flat_map(|(word, numbers)| bytes(&rows, word, numbers)).collect();
        assert_eq!(written(&query), expected, "{name}");
        met.extend(literals.into_iter().map(|literal| literal.0));
    }
    for row in &rows {
        assert!(met.contains(&row.printed), "no lemma has the literal {}", row.printed);
    }
}

/// `eq` stands first or not at all, `then` last and only there, and each of the
/// others says what it is for.
#[test]
fn hypotheses_come_first_and_the_conclusion_last() {
    let rows = rows();
    let conclusions: Vec<&Row> =
        rows.iter().filter(|row| row.says.starts_with("conclusion: ")).collect();
    assert!(conclusions.len() == 1 && conclusions[0].printed == "then");
    for row in rows.iter().filter(|row| row.printed != "then") {
        assert!(row.says.starts_with("hypothesis: "), "{}", row.says);
    }
    for name in conflicts() {
        let words: Vec<String> =
            literals(&stored::query(&name)).into_iter().map(|literal| literal.0).collect();
        let (last, others) = words.split_last().expect("a literal");
        assert_eq!(last, "then", "{name}");
        assert!(!others.contains(last), "{name}");
        assert!(!others.iter().skip(1).any(|word| word == "eq"), "{name}");
    }
}

/// What a literal says of the guess of `mixed`: the hypotheses hold under it,
/// the conclusion does not.
#[test]
fn each_literal_says_what_the_row_says() {
    let values = [1, 1, 2, 5, 6];
    let truths = [true, false];
    for (word, numbers) in literals(&stored::query("mixed")) {
        let row = rows().into_iter().find(|row| row.printed == word).expect("a row");
        let equal = |numbers: &[usize]| values[numbers[0]] == values[numbers[1]];
        let holds = match row.says.split(' ').next_back() {
            Some("equal") => equal(&numbers),
            Some("true") => truths[numbers[0]],
            Some("false") => !truths[numbers[0]],
            _ if row.says.contains(" differs ") => !equal(&numbers),
            _ => panic!("no meaning: {}", row.says),
        };
        assert_eq!(holds, row.says.starts_with("hypothesis"), "{word}");
        let named = row.parts.iter().all(|part| match part.0 {
            Series::Base => numbers.iter().all(|number| *number < values.len()),
            Series::Boolean => numbers.iter().all(|number| *number < truths.len()),
            Series::Array => false,
        });
        assert!(named, "the parts of {word}");
    }
}

/// The lemma's lines on a read at one term and another of what is written above
/// it, at a second term of the same value, and at a third of another value.
fn lines(terms: [Vec<u8>; 3]) -> String {
    let index = |place: u32| 4 + place;
    let arrays = [write(0, index(2), 0), conditional(0, 2, 1)].concat();
    let reads = [read(0, index(0), 1), read(3, index(1), 2)].concat();
    let query = [front(), terms.concat(), arrays, reads].concat();
    let Ok(Verdict::Conflict { lemma, .. }) = check(&query) else { panic!("a conflict") };
    lemma.to_string()
}

/// "An `eq` or `ne` between two fixed numbers is left out": no other is.
#[test]
fn comparisons_of_two_fixed_numbers_are_left_out() {
    let prose = page::section("The lemma").prose();
    assert!(prose.contains("An `eq` or `ne` between two fixed numbers is left out"), "{prose}");
    for kinds in 0..8 {
        let is_fixed = |place: usize| kinds >> place & 1 == 1;
        let term =
            |place: usize, value: u32| if is_fixed(place) { fixed(value) } else { base(value) };
        let eq = if is_fixed(0) && is_fixed(1) { "" } else { "eq 4 5\n" };
        let ne = if is_fixed(0) && is_fixed(2) { "" } else { "ne 4 6\n" };
        let expected = format!("{eq}{ne}true 0\nthen 7 8\n");
        assert_eq!(lines([term(0, 90), term(1, 90), term(2, 91)]), expected, "{kinds:03b}");
    }
}

/// "`then` always stays": also between two fixed numbers.
#[test]
fn a_conclusion_between_two_fixed_numbers_stays() {
    let query = stored::query("fixed-values");
    let last = literals(&query).pop();
    assert_eq!(last, Some(("then".to_string(), vec![1, 2])));
    assert!([7, 14].iter().all(|offset| query[*offset] == 8), "base terms 1 and 2 are fixed");
}
