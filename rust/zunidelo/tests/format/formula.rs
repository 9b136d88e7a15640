//! The page's formulas, such as `64(y+z)+1`: sums of products, where a product
//! is a number before a letter or a bracket.

use std::collections::BTreeMap;

/// What the letters stand for.
pub type Letters = BTreeMap<char, usize>;

pub fn letters<const COUNT: usize>(values: [(char, usize); COUNT]) -> Letters {
    BTreeMap::from(values)
}

/// The number that the formula is.
pub fn value(formula: &str, letters: &Letters) -> usize {
    let mut rest: Vec<char> = formula.chars().rev().collect();
    let value = sum(&mut rest, letters);
    assert!(rest.is_empty(), "a formula: {formula}");
    value
}

/// `rest` is reversed, so that its last character comes next.
fn sum(rest: &mut Vec<char>, letters: &Letters) -> usize {
    let mut total = product(rest, letters);
    while rest.last() == Some(&'+') {
        rest.pop();
        total += product(rest, letters);
    }
    total
}

fn product(rest: &mut Vec<char>, letters: &Letters) -> usize {
    let mut total = factor(rest, letters);
    while rest.last().is_some_and(|next| next.is_alphabetic() || *next == '(') {
        total *= factor(rest, letters);
    }
    total
}

fn factor(rest: &mut Vec<char>, letters: &Letters) -> usize {
    match rest.pop() {
        Some('(') => {
            let total = sum(rest, letters);
            assert_eq!(rest.pop(), Some(')'), "a closed bracket");
            total
        }
        Some(digit @ '0'..='9') => {
            let mut digits = String::from(digit);
            while rest.last().is_some_and(char::is_ascii_digit) {
                digits.extend(rest.pop());
            }
            digits.parse().expect("a number")
        }
        Some(letter) => {
            *letters.get(&letter).unwrap_or_else(|| panic!("a letter with a meaning: {letter}"))
        }
        None => panic!("a formula that goes on"),
    }
}

#[test]
fn formulas_are_sums_of_products() {
    let letters = letters([('B', 3), ('b', 2), ('k', 5), ('y', 1), ('z', 4)]);
    assert_eq!(value("32b+k+1", &letters), 70);
    assert_eq!(value("64(y+z)+1", &letters), 321);
    assert_eq!(value("32B+32y+z", &letters), 132);
    assert_eq!(value("7", &letters), 7);
}

#[test]
#[should_panic(expected = "a formula: 32b-1")]
fn what_is_no_formula_is_told() {
    value("32b-1", &letters([('b', 1)]));
}
