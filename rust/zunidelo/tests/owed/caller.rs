//! The caller: the problem in its solver, and lemmas after it, as
//! docs/FORMAT.md asks. Each thing that is owed can be left out.

use crate::problem::{Atom, Problem, WIDTH};
use crate::renumber::renumber;
use crate::solver::{Solver, Truths};
use judge::field::{encode, Field, Series};
use judge::interpretation::Interpretation;
use zunidelo::clauses;

/// What the caller does not do.
#[derive(Clone, Copy, Debug, PartialEq, Eq)]
pub enum LeftOut {
    Nothing,
    /// The fresh variables of every call are the same.
    Renumbering,
    /// The numbers of a part of the query are taken for those of the whole.
    Mapping,
    /// "Boolean m, or u and v differ" is not added.
    WitnessClauses,
    /// All equalities have the first one's index.
    WitnessIndices,
    /// The bits of constants are not fixed in the solver.
    Constants,
}

const BITS: usize = 32;

/// The solver and what its variables stand for.
pub struct Caller<'a> {
    problem: &'a Problem,
    fields: Vec<Field>,
    left_out: LeftOut,
    pub solver: Solver,
    /// The variables of bits, by base term, and of Booleans.
    bits: Vec<[i32; BITS]>,
    booleans: Vec<i32>,
    /// The first variable that nothing has.
    next: i32,
}

impl<'a> Caller<'a> {
    pub fn new(problem: &'a Problem, left_out: LeftOut) -> Caller<'a> {
        let mut caller = Caller {
            problem,
            fields: problem.fields.clone(),
            left_out,
            solver: Solver::default(),
            bits: Vec::new(),
            booleans: Vec::new(),
            next: 1,
        };
        caller.number_terms();
        caller.share_indices();
        caller.add_witness_clauses();
        caller.add_constraints();
        caller
    }

    fn variable(&mut self) -> i32 {
        self.next += 1;
        self.next - 1
    }

    /// The solver numbers the terms as they come, not as the library does.
    fn number_terms(&mut self) {
        for place in 0..self.fields.len() {
            match self.fields[place].gives() {
                Series::Base => {
                    let bits = std::array::from_fn(|_| self.variable());
                    self.bits.push(bits);
                    bits[WIDTH as usize..].iter().for_each(|bit| self.solver.add(vec![-bit]));
                }
                Series::Boolean => {
                    let boolean = self.variable();
                    self.booleans.push(boolean);
                }
                Series::Array => {}
            }
        }
    }

    fn share_indices(&mut self) {
        let [first, others @ ..] = &self.problem.equalities[..] else { return };
        if self.left_out != LeftOut::WitnessIndices {
            return;
        }
        let witnesses: Vec<usize> = others.iter().flat_map(|one| one.witnesses).collect();
        let bases = self.fields.iter_mut().filter(|field| field.gives() == Series::Base);
        for (base, field) in bases.enumerate() {
            if let Field::Read { index, .. } = field {
                if witnesses.contains(&base) {
                    *index = first.index as u16;
                }
            }
        }
    }

    /// For each equality "Boolean m, or u and v differ".
    fn add_witness_clauses(&mut self) {
        if self.left_out == LeftOut::WitnessClauses {
            return;
        }
        for equality in &self.problem.equalities {
            let [left, right] = equality.witnesses.map(|base| self.bits[base]);
            let mut clause = vec![self.booleans[equality.boolean]];
            for (u, v) in left.into_iter().zip(right) {
                let x = self.variable();
                self.solver.add(vec![u, v, -x]);
                self.solver.add(vec![-u, -v, -x]);
                clause.push(x);
            }
            self.solver.add(clause);
        }
    }

    fn add_constraints(&mut self) {
        let literal = |(atom, truth): &(Atom, bool)| {
            let variable = match *atom {
                Atom::Bit { base, bit } => self.bits[base][bit],
                Atom::Boolean(boolean) => self.booleans[boolean],
            };
            if *truth {
                variable
            } else {
                -variable
            }
        };
        for clause in &self.problem.constraints {
            self.solver.add(clause.iter().map(literal).collect());
        }
        if self.left_out == LeftOut::Constants {
            return;
        }
        for (base, value) in &self.problem.constants {
            for (place, bit) in self.bits[*base].iter().enumerate() {
                self.solver.add(vec![if value >> place & 1 == 1 { *bit } else { -bit }]);
            }
        }
    }

    /// The variables that the guess is about.
    pub fn low_variables(&self) -> Vec<i32> {
        let bits = self.bits.iter().flat_map(|bits| &bits[..WIDTH as usize]);
        bits.chain(&self.booleans).copied().collect()
    }

    /// The terms, each with its value or truth in the solver's answer; of a
    /// constant the caller knows the value.
    pub fn guessed(&self, truths: &Truths) -> Vec<Field> {
        let holds = |variable: &i32| truths[*variable as usize] == Some(true);
        let value = |bits: &[i32; BITS]| {
            bits.iter().enumerate().map(|(place, bit)| u32::from(holds(bit)) << place).sum()
        };
        let mut values: Vec<u32> = self.bits.iter().map(value).collect();
        for (base, value) in &self.problem.constants {
            values[*base] = *value;
        }
        let mut values = values.into_iter();
        let mut guessed = self.booleans.iter().map(|boolean| u8::from(holds(boolean)));
        let mut fields = self.fields.clone();
        for field in &mut fields {
            match field {
                field if field.gives() == Series::Base => {
                    let value = values.next().expect("a value for each base term");
                    *field = field.with_value(value);
                }
                Field::Boolean { truth } | Field::Equality { truth, .. } => {
                    *truth = guessed.next().expect("a truth for each Boolean");
                }
                _ => {}
            }
        }
        fields
    }

    /// Adds the clauses of a conflict to the solver.
    pub fn learn(&mut self, asked: &[Field]) {
        let mut clauses = clauses(&encode(asked)).expect("a conflict");
        let counted = if self.left_out == LeftOut::Mapping { &self.fields } else { asked };
        let guess = Interpretation::assigned(counted, WIDTH);
        let (bases, booleans) = (guess.bases.len(), guess.booleans.len());
        let terms = [self.bits[..bases].concat(), self.booleans[..booleans].to_vec()].concat();
        // A table of another query may be longer than these clauses know of.
        clauses.variables = clauses.variables.max(terms.len());
        let mut next = self.next;
        let renumbered = renumber(&clauses, &terms, &mut next);
        renumbered.into_iter().for_each(|clause| self.solver.add(clause));
        if self.left_out != LeftOut::Renumbering {
            self.next = next;
        }
    }
}
