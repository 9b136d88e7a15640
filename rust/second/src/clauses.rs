//! The clauses of a lemma: variables numbered by term and bit, two clauses
//! per bit for each equality, and the linking clause last.

use crate::lemma::Literal;
use crate::query::Query;

/// What the clause writer answers.
#[derive(Clone, Debug, PartialEq, Eq)]
pub struct Written {
    /// All variables, used or not: width times B, plus M, plus the fresh ones.
    pub variables: usize,
    pub clauses: usize,
    /// The clauses one after another, each closed by 0.
    pub numbers: Vec<i32>,
}

struct Writer {
    width: u32,
    last_variable: i32,
    clauses: usize,
    numbers: Vec<i32>,
}

/// The clauses of these literals, at this width.
pub fn write(query: &Query, literals: &[Literal], width: u32) -> Written {
    let boolean_start = query.bases.len() as i32 * width as i32;
    let last_variable = boolean_start + query.booleans.len() as i32;
    let mut writer = Writer { width, last_variable, clauses: 0, numbers: Vec::new() };
    let mut reversed = Vec::new();
    let mut fresh = Vec::new();
    for literal in literals {
        match *literal {
            Literal::Equal(one, other) => fresh.extend(writer.equal(one, other)),
            Literal::Differ(one, other) | Literal::Conclusion(one, other) => {
                fresh.push(writer.same(one, other));
            }
            Literal::True(boolean) => reversed.push(-(boolean_start + boolean as i32 + 1)),
            Literal::False(boolean) => reversed.push(boolean_start + boolean as i32 + 1),
        }
    }
    reversed.extend(fresh);
    writer.clause(&reversed);
    Written {
        variables: writer.last_variable as usize,
        clauses: writer.clauses,
        numbers: writer.numbers,
    }
}

impl Writer {
    fn fresh(&mut self) -> i32 {
        self.last_variable += 1;
        self.last_variable
    }

    fn bit(&self, base: usize, bit: u32) -> i32 {
        (self.width * base as u32 + bit + 1) as i32
    }

    fn clause(&mut self, literals: &[i32]) {
        self.numbers.extend(literals);
        self.numbers.push(0);
        self.clauses += 1;
    }

    /// A fresh d per bit; d makes the two terms differ at its bit.
    fn equal(&mut self, one: usize, other: usize) -> Vec<i32> {
        let mut fresh = Vec::new();
        for bit in 0..self.width {
            let (i, j, d) = (self.bit(one, bit), self.bit(other, bit), self.fresh());
            self.clause(&[i, j, -d]);
            self.clause(&[-i, -j, -d]);
            fresh.push(d);
        }
        fresh
    }

    /// One fresh e, which makes the two terms agree at every bit.
    fn same(&mut self, one: usize, other: usize) -> i32 {
        let e = self.fresh();
        for bit in 0..self.width {
            let (v, w) = (self.bit(one, bit), self.bit(other, bit));
            self.clause(&[-v, w, -e]);
            self.clause(&[v, -w, -e]);
        }
        e
    }
}
