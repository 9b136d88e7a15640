//! The clauses of a lemma as a formula for cadical, with and without the
//! guess, and in z3's language, over the bits of the terms.

use crate::lemma::{Lemma, Literal};
use judge::field::{Field, Series};
use judge::graph::fixed_bases;
use judge::tiny::base_values;
use std::collections::BTreeSet;
use std::fmt::Write;
use zunidelo::Clauses;

const WIDTH: usize = 32;

/// 01's numbers of the variables: bits of base terms, Booleans, fresh ones.
struct Numbering {
    bases: usize,
    booleans: usize,
}

impl Numbering {
    fn of(fields: &[Field]) -> Numbering {
        let count = |series| fields.iter().filter(|field| field.gives() == series).count();
        Numbering { bases: count(Series::Base), booleans: count(Series::Boolean) }
    }

    /// The last variable that is not fresh.
    fn last(&self) -> usize {
        WIDTH * self.bases + self.booleans
    }

    /// What the variable means, or nothing for a fresh one.
    fn meaning(&self, variable: usize) -> Option<String> {
        let place = variable - 1;
        if place < WIDTH * self.bases {
            Some(bit(place / WIDTH, place % WIDTH))
        } else if variable <= self.last() {
            Some(format!("m{}", place - WIDTH * self.bases))
        } else {
            None
        }
    }
}

/// Bit k of a base term, as a truth.
fn bit(base: usize, bit: usize) -> String {
    format!("(= ((_ extract {bit} {bit}) b{base}) #b1)")
}

/// The clauses in the DIMACS format, with unit clauses for what is known: the
/// bits of fixed numbers or, if asked, the whole guess.
pub fn formula(fields: &[Field], clauses: &Clauses, with_guess: bool) -> String {
    let units = if with_guess { guess(fields) } else { fixed_bits(fields) };
    let count = clauses.clauses.len() + units.len();
    let mut text = format!("p cnf {} {count}\n", clauses.variables);
    for clause in clauses.clauses.iter().chain(&units) {
        for number in clause {
            write!(text, "{number} ").expect("a string takes any text");
        }
        text.push_str("0\n");
    }
    text
}

/// A unit clause for every bit of every base term and for every Boolean.
fn guess(fields: &[Field]) -> Vec<Vec<i32>> {
    let bits = base_values(fields)
        .into_iter()
        .flat_map(|value| (0..WIDTH).map(move |bit| value >> bit & 1 == 1));
    let truths = fields.iter().filter_map(|field| match *field {
        Field::Boolean { truth } | Field::Equality { truth, .. } => Some(truth == 1),
        _ => None,
    });
    let signed = |(place, truth): (usize, bool)| {
        let variable = place as i32 + 1;
        vec![if truth { variable } else { -variable }]
    };
    bits.chain(truths).enumerate().map(signed).collect()
}

/// The unit clauses of the guess that are about fixed numbers.
fn fixed_bits(fields: &[Field]) -> Vec<Vec<i32>> {
    let fixed = fixed_bases(fields).into_iter().flat_map(|fixed| [fixed; WIDTH]);
    let units = guess(fields).into_iter().zip(fixed);
    units.filter(|unit| unit.1).map(|unit| unit.0).collect()
}

/// Says of each variable x1, x2 and so on of the clauses what it means. Fresh
/// ones are free, or mean what 01 has them for.
pub fn variables(fields: &[Field], clauses: &Clauses, fresh: Option<&Lemma>) -> String {
    let numbering = Numbering::of(fields);
    let meanings = fresh.map(fresh_meanings).unwrap_or_default();
    let used: BTreeSet<usize> =
        clauses.clauses.iter().flatten().map(|number| number.unsigned_abs() as usize).collect();
    let mut script = String::new();
    for variable in used {
        let fresh = || meanings.get(variable - numbering.last() - 1).cloned();
        let line = match numbering.meaning(variable).or_else(fresh) {
            Some(meaning) => format!("(define-fun x{variable} () Bool {meaning})"),
            None => format!("(declare-const x{variable} Bool)"),
        };
        writeln!(script, "{line}").expect("a string takes any text");
    }
    script
}

/// d: the two terms differ at a bit. e: the two terms agree at every bit.
fn fresh_meanings(lemma: &Lemma) -> Vec<String> {
    let mut meanings = Vec::new();
    for literal in &lemma.premise {
        match *literal {
            Literal::Equal(one, other) => meanings.extend(
                (0..WIDTH).map(|place| format!("(xor {} {})", bit(one, place), bit(other, place))),
            ),
            Literal::Differ(one, other) => meanings.push(format!("(= b{one} b{other})")),
            Literal::True(_) | Literal::False(_) => {}
        }
    }
    if let Literal::Equal(one, other) = lemma.conclusion {
        meanings.push(format!("(= b{one} b{other})"));
    }
    meanings
}

/// All clauses at once, in z3's language.
pub fn conjunction(clauses: &Clauses) -> String {
    let literal = |number: &i32| match number {
        0.. => format!("x{number}"),
        _ => format!("(not x{})", number.unsigned_abs()),
    };
    let clause = |clause: &Vec<i32>| {
        let literals: Vec<String> = clause.iter().map(literal).collect();
        format!("(or false {})", literals.join(" "))
    };
    let all: Vec<String> = clauses.clauses.iter().map(clause).collect();
    format!("(and true {})", all.join("\n"))
}

#[cfg(test)]
mod tests {
    use super::*;

    const FIELDS: [Field; 4] = [
        Field::Base { value: 5 },
        Field::Boolean { truth: 0 },
        Field::Variable,
        Field::Read { array: 0, index: 0, value: 1 << 31 },
    ];

    #[test]
    fn the_guess_is_a_unit_clause_for_each_bit_and_boolean() {
        let units = guess(&FIELDS);
        assert_eq!(units.len(), 2 * WIDTH + 1);
        let positive: Vec<i32> = units.into_iter().flatten().filter(|unit| *unit > 0).collect();
        assert_eq!(positive, [1, 3, 64]);
    }

    #[test]
    fn a_fixed_number_is_a_unit_clause_for_each_bit_without_the_guess() {
        let fields = [&FIELDS[..], &[Field::Fixed { value: 6 }]].concat();
        let units: Vec<i32> = fixed_bits(&fields).into_iter().flatten().collect();
        assert_eq!(units.len(), WIDTH);
        assert_eq!(units[..4], [-65, 66, 67, -68]);
        let clauses = Clauses { variables: 97, clauses: vec![] };
        assert!(formula(&fields, &clauses, false).starts_with("p cnf 97 32\n-65 0\n66 0\n"));
    }

    #[test]
    fn a_variable_means_what_01_numbers_it_for() {
        let numbering = Numbering::of(&FIELDS);
        assert_eq!(numbering.meaning(34), Some(bit(1, 1)));
        assert_eq!(numbering.meaning(65), Some("m0".to_string()));
        assert_eq!(numbering.meaning(66), None);
    }

    #[test]
    fn a_formula_counts_its_clauses() {
        let clauses = Clauses { variables: 66, clauses: vec![vec![-1, 66], vec![1]] };
        assert_eq!(formula(&FIELDS, &clauses, false), "p cnf 66 2\n-1 66 0\n1 0\n");
        assert!(formula(&FIELDS, &clauses, true).starts_with("p cnf 66 67\n-1 66 0\n1 0\n1 0\n"));
    }
}
