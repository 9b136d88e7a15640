//! The layout of the clauses: those of every stored conflict are made from the
//! page's formulas and patterns, and must be the library's.

use crate::formula::{letters, value, Letters};
use crate::lemma::{conflicts, literals};
use crate::page;
use crate::stored;
use std::collections::BTreeMap;
use zunidelo::{clauses_into, Totals, CLAUSE_NUMBERS};

const WIDTH: usize = 32;

/// The formula of this number, by the page's words.
fn formula(what: &str) -> String {
    let rows = page::section("The clauses").table(["what", "number"]);
    assert_eq!(rows.len(), 6, "each formula is tried");
    let found = rows.into_iter().find(|row| row[0] == what);
    found.unwrap_or_else(|| panic!("no formula of: {what}"))[1].clone()
}

/// What a literal brings, by its row.
struct Row {
    /// Such as `eq i j`.
    letters: Vec<char>,
    fresh: usize,
    /// The clauses of each bit; a literal is a letter, with its sign.
    patterns: Vec<Vec<(bool, char)>>,
    /// Its group in the linking clause, and what it puts there.
    group: usize,
    link: (bool, char),
}

fn rows() -> BTreeMap<String, Row> {
    let columns = ["literal", "fresh variables", "clauses of each bit, in order", "linking clause"];
    let rows = page::section("The clauses").table(columns);
    assert_eq!(rows.len(), 5, "a row for each literal");
    rows.iter().map(row).collect()
}

/// The row, by the literal's word.
fn row([literal, fresh, clauses, linking]: &[String; 4]) -> (String, Row) {
    let words: Vec<&str> = page::code(literal).split(' ').collect();
    let (group, link) = linking.split_once(": ").expect("a group: what is put there");
    let row = Row {
        letters: words[1..].iter().map(|word| letter(word)).collect(),
        fresh: page::number(fresh.split(':').next().expect("a number")),
        patterns: patterns(clauses),
        group: rank(group),
        link: signed(link.trim_start_matches("each ")),
    };
    (words[0].to_string(), row)
}

fn rank(group: &str) -> usize {
    let words = ["first", "second", "third"];
    words.iter().position(|word| *word == group).unwrap_or_else(|| panic!("a group: {group}"))
}

/// `(i, j, not d), (not i, not j, not d)`, or none.
fn patterns(cell: &str) -> Vec<Vec<(bool, char)>> {
    let clauses = cell.split('(').skip(1).map(|clause| clause.split(')').next().expect("a part"));
    clauses.map(|clause| clause.split(", ").map(signed).collect()).collect()
}

fn signed(words: &str) -> (bool, char) {
    match words.strip_prefix("not ") {
        Some(word) => (false, letter(word)),
        None => (true, letter(words)),
    }
}

fn letter(word: &str) -> char {
    let mut letters = word.chars();
    let letter = letters.next().expect("a letter");
    assert!(letters.next().is_none(), "one letter: {word}");
    letter
}

/// The numbers of the variables of one query, by the page's formulas.
struct Numbering {
    bit: String,
    boolean: String,
    next_fresh: usize,
    counts: Letters,
}

impl Numbering {
    fn of(bases: usize, booleans: usize) -> Numbering {
        let counts = letters([('B', bases), ('M', booleans)]);
        Numbering {
            bit: formula("variable of bit k of base term b, bit 0 the lowest"),
            boolean: formula("variable of Boolean m"),
            next_fresh: value(&formula("first fresh variable"), &counts),
            counts,
        }
    }

    fn bit(&self, b: usize, k: usize) -> usize {
        value(&self.bit, &letters([('b', b), ('k', k)]))
    }

    fn boolean(&self, m: usize) -> usize {
        let mut letters = self.counts.clone();
        letters.insert('m', m);
        value(&self.boolean, &letters)
    }

    /// What a letter of the row is at bit k: a term by its number, or fresh.
    fn variable(&self, row: &Row, numbers: &[usize], letter: char, k: usize) -> usize {
        match row.letters.iter().position(|one| *one == letter) {
            Some(place) if letter == 'm' => self.boolean(numbers[place]),
            Some(place) => self.bit(numbers[place], k),
            None if row.fresh == WIDTH => self.next_fresh + k,
            None => self.next_fresh,
        }
    }
}

fn literal((positive, _): (bool, char), variable: usize) -> i32 {
    let number = variable as i32;
    if positive {
        number
    } else {
        -number
    }
}

/// The clauses of a lemma as the page says they are.
fn made(lemma: &[(String, Vec<usize>)], mut numbering: Numbering) -> Vec<Vec<i32>> {
    let rows = rows();
    let mut clauses = Vec::new();
    let mut groups = [vec![], vec![], vec![]];
    for (word, numbers) in lemma {
        let row = rows.get(word).unwrap_or_else(|| panic!("no row for {word}"));
        for k in 0..WIDTH {
            for pattern in &row.patterns {
                let put =
                    |one: &(bool, char)| literal(*one, numbering.variable(row, numbers, one.1, k));
                clauses.push(pattern.iter().map(put).collect());
            }
        }
        for k in 0..row.fresh.max(1) {
            let variable = numbering.variable(row, numbers, row.link.1, k);
            groups[row.group].push(literal(row.link, variable));
        }
        numbering.next_fresh += row.fresh;
    }
    clauses.push(groups.concat());
    clauses
}

/// How many base terms and Booleans a query has, by its tags.
fn counts(query: &[u8]) -> (usize, usize) {
    let (mut bases, mut booleans, mut rest) = (0, 0, query);
    while let [tag, _, length, ..] = rest {
        bases += usize::from(matches!(tag, 1 | 6 | 8));
        booleans += usize::from(matches!(tag, 2 | 7));
        rest = &rest[3 + usize::from(*length)..];
    }
    (bases, booleans)
}

fn written(query: &[u8]) -> (Totals, Vec<i32>) {
    let mut numbers = vec![0; CLAUSE_NUMBERS];
    let totals = clauses_into(query, &mut numbers).expect("room enough");
    numbers.truncate(totals.count);
    (totals, numbers)
}

#[test]
fn the_clauses_are_those_of_the_page() {
    for name in conflicts() {
        let query = stored::query(&name);
        let (bases, booleans) = counts(&query);
        let made = made(&literals(&query), Numbering::of(bases, booleans));
        let run: Vec<i32> =
            made.into_iter().flat_map(|clause| [clause, vec![0]].concat()).collect();
        assert_eq!(written(&query).1, run, "{name}");
    }
}

#[test]
fn the_counts_are_those_of_the_formulas() {
    for name in conflicts() {
        let query = stored::query(&name);
        let lemma = literals(&query);
        let count =
            |words: &[&str]| lemma.iter().filter(|one| words.contains(&one.0.as_str())).count();
        let (bases, booleans) = counts(&query);
        let letters = letters([
            ('B', bases),
            ('M', booleans),
            ('y', count(&["eq"])),
            ('z', count(&["ne", "then"])),
        ]);
        let number = |what: &str| value(&formula(what), &letters);
        let totals = written(&query).0;
        assert_eq!(totals.clauses, number("clauses"), "{name}");
        assert_eq!(totals.variables, number("variables in all, used or not"), "{name}");
        let fresh = totals.variables + 1 - number("first fresh variable");
        assert_eq!(fresh, number("fresh variables"), "{name}");
    }
}

/// The page's lines of the first query, where `...` leaves some out.
#[test]
fn the_printed_clauses_are_those_of_the_library() {
    let query = stored::query("K1");
    let printed = zunidelo::clauses(&query).expect("a conflict").to_string();
    let page = page::section("The clauses").block("text").to_string();
    let pieces: Vec<&str> = page.split("...\n").collect();
    assert!(pieces.len() >= 2 && pieces.iter().all(|piece| !piece.is_empty()));
    assert!(printed.starts_with(pieces[0]), "{}", pieces[0]);
    assert!(printed.ends_with(pieces[pieces.len() - 1]), "{}", pieces[pieces.len() - 1]);
    let mut rest = printed.as_str();
    for piece in pieces {
        let at = rest.find(&format!("\n{piece}")).map(|at| at + 1);
        let at = if rest.starts_with(piece) { 0 } else { at.expect("the page's lines, in order") };
        rest = &rest[at + piece.len()..];
    }
    assert!(rest.is_empty());
}
