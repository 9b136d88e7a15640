//! Judges the clauses: for every value of the terms that the lemma names,
//! some fresh values satisfy all clauses exactly if the lemma holds there. Of a
//! fixed number that is its own value alone (02, E1). There the lemma with
//! nothing left out holds as well or does not, and the clauses must say that.

use crate::field::Field;
use crate::graph::fixed_bases;
use crate::interpretation::Interpretation;
use crate::lemma::Lemma;
use crate::satisfy::{satisfiable, Truths};
use second::Written;

pub fn judge_clauses(
    fields: &[Field],
    width: u32,
    lemma: &Lemma,
    whole: &Lemma,
    written: &Written,
) -> Result<(), String> {
    let guess = Interpretation::assigned(fields, width);
    let clauses = split(&written.numbers);
    if clauses.len() != written.clauses {
        return Err(format!("{} clauses reported, {} written", written.clauses, clauses.len()));
    }
    let named = Named { lemma, width, base_count: guess.bases.len(), fixed: fixed_bases(fields) };
    named.variables_allowed(guess.booleans.len(), &clauses, written.variables)?;
    for choice in 0..1_u64 << named.free_bits() {
        let mut terms = guess.clone();
        let mut truths = named.fix(&mut terms, choice, written.variables);
        if satisfiable(&clauses, &mut truths) != whole.holds(&terms) {
            return Err(format!("clauses and lemma part at {:?}", terms.bases));
        }
    }
    Ok(())
}

fn split(numbers: &[i32]) -> Vec<Vec<i32>> {
    let closed = numbers.split_inclusive(|number| *number == 0);
    closed.map(|clause| clause[..clause.len() - 1].to_vec()).collect()
}

/// The terms named by a lemma, and the variables that 01 numbers them by.
struct Named<'a> {
    lemma: &'a Lemma,
    width: u32,
    base_count: usize,
    /// Of each base term whether it is fixed.
    fixed: Vec<bool>,
}

impl Named<'_> {
    fn bit_variable(&self, base: u16, bit: u32) -> usize {
        (self.width * u32::from(base) + bit + 1) as usize
    }

    fn boolean_variable(&self, boolean: u16) -> usize {
        self.width as usize * self.base_count + usize::from(boolean) + 1
    }

    /// How many bits each base term of the lemma has that no field fixes.
    fn base_bits(&self, base: u16) -> u32 {
        if self.fixed[usize::from(base)] {
            0
        } else {
            self.width
        }
    }

    /// How many bits choose an assignment of the named terms.
    fn free_bits(&self) -> u32 {
        let bases = self.lemma.bases().into_iter().map(|base| self.base_bits(base));
        bases.sum::<u32>() + self.lemma.booleans().len() as u32
    }

    /// Fixes the named terms by the choice's bits: in `terms` as values, in
    /// the answered truths as variables. Fresh variables stay open. A fixed
    /// number keeps the value that `terms` has.
    fn fix(&self, terms: &mut Interpretation, mut choice: u64, variables: usize) -> Truths {
        let mut truths = vec![None; variables + 1];
        for base in self.lemma.bases() {
            let value = &mut terms.bases[usize::from(base)];
            let bits = self.base_bits(base);
            if bits > 0 {
                *value = choice as u32 & ((1 << bits) - 1);
            }
            choice >>= bits;
            for bit in 0..self.width {
                truths[self.bit_variable(base, bit)] = Some(*value >> bit & 1 == 1);
            }
        }
        for boolean in self.lemma.booleans() {
            terms.booleans[usize::from(boolean)] = choice & 1 == 1;
            truths[self.boolean_variable(boolean)] = Some(choice & 1 == 1);
            choice >>= 1;
        }
        truths
    }

    /// Every variable in a clause is fresh or belongs to a named term.
    fn variables_allowed(
        &self,
        boolean_count: usize,
        clauses: &[Vec<i32>],
        variables: usize,
    ) -> Result<(), String> {
        let last_term = self.width as usize * self.base_count + boolean_count;
        let mut allowed = vec![false; variables + 1];
        allowed[last_term + 1..].fill(true);
        for base in self.lemma.bases() {
            let first = self.bit_variable(base, 0);
            allowed[first..first + self.width as usize].fill(true);
        }
        for boolean in self.lemma.booleans() {
            allowed[self.boolean_variable(boolean)] = true;
        }
        let strange = |literal: &&i32| {
            !allowed.get(literal.unsigned_abs() as usize).copied().unwrap_or(false)
        };
        match clauses.iter().flatten().find(strange) {
            None => Ok(()),
            Some(literal) => Err(format!("a clause has the strange variable {literal}")),
        }
    }
}
