//! Literals that a faulty copy leaves out of a lemma, by its fixed numbers.

use crate::fault::Fault;
use judge::field::decode;
use judge::graph::fixed_bases;
use judge::tiny::base_values;

/// The verdict's lines without the literals that the fault leaves out.
pub fn left_out(fault: Fault, query: &[u8], answer: &str) -> String {
    let fixed = Fixed::of(query);
    let goes = |line: &&str| match line.split_whitespace().collect::<Vec<&str>>()[..] {
        ["eq" | "ne", one, other] => match fault {
            Fault::LeftOutByOne => [one, other].iter().any(|base| fixed.has(number(base))),
            Fault::FixedByValue => [one, other].iter().all(|base| fixed.has_value_of(number(base))),
            _ => false,
        },
        ["then", one, other] => {
            let both = [one, other].iter().all(|base| fixed.has(number(base)));
            fault == Fault::ConclusionLeftOut && both
        }
        _ => false,
    };
    answer.split_inclusive('\n').filter(|line| !goes(line)).collect()
}

fn number(word: &str) -> usize {
    word.parse().expect("the number of a term")
}

/// Which base terms of a query are fixed, and what values all have.
struct Fixed {
    bases: Vec<bool>,
    values: Vec<u32>,
}

impl Fixed {
    fn of(query: &[u8]) -> Fixed {
        let (fields, _) = decode(query);
        Fixed { bases: fixed_bases(&fields), values: base_values(&fields) }
    }

    fn has(&self, base: usize) -> bool {
        self.bases[base]
    }

    fn has_value_of(&self, base: usize) -> bool {
        let fixed = (0..self.bases.len()).filter(|one| self.has(*one));
        fixed.map(|one| self.values[one]).any(|value| value == self.values[base])
    }
}
