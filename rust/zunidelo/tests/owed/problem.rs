//! Random small problems: array terms, and clauses over the bits of base terms
//! and over Booleans. Every value is below 4, so that the truth can be found
//! by trying all arrays.

use judge::field::{Field, Series};
use judge::interpretation::{free_bits, Interpretation};
use judge::random::Random;

/// The bits of a value; the upper ones are 0.
pub const WIDTH: u32 = 2;

/// The most bits of free choice: so many interpretations are tried.
const MOST_BITS: u32 = 15;

#[derive(Clone, Copy, Debug)]
pub enum Atom {
    Bit { base: usize, bit: usize },
    Boolean(usize),
}

/// An equality with the base numbers of its witnesses and of their index.
#[derive(Clone, Copy)]
pub struct Equality {
    pub boolean: usize,
    pub index: usize,
    pub witnesses: [usize; 2],
}

#[derive(Default)]
pub struct Problem {
    /// The terms; their assigned values and truths are not yet guessed.
    pub fields: Vec<Field>,
    pub equalities: Vec<Equality>,
    /// Base terms that are known, as fixed numbers or as free terms.
    pub constants: Vec<(usize, u32)>,
    /// Clauses of atoms, each with the truth that it is to have.
    pub constraints: Vec<Vec<(Atom, bool)>>,
    bases: usize,
    booleans: usize,
    arrays: usize,
}

impl Problem {
    pub fn random(random: &mut Random) -> Problem {
        let mut problem = Problem::default();
        for field in [Field::Base { value: 0 }, Field::Base { value: 0 }, Field::Variable] {
            problem.push(field);
        }
        for _ in 0..4 + random.below(7) {
            problem.grow(random);
        }
        problem.fix_some(random);
        problem.constrain(random);
        problem
    }

    /// One array, written at index 0 and, apart from that, at index 1: each
    /// written array differs from it, but at another index.
    pub fn two_differences() -> Problem {
        let mut problem = Problem::default();
        for field in [Field::Base { value: 0 }, Field::Base { value: 0 }, Field::Variable] {
            problem.push(field);
        }
        for index in [0, 1] {
            problem.push(Field::Write { array: 0, index, value: 1 });
            problem.equal([0, 1 + index]);
            problem.constraints.push(vec![(Atom::Boolean(usize::from(index)), false)]);
        }
        problem.constants = vec![(0, 0), (1, 1)];
        problem
    }

    fn push(&mut self, field: Field) {
        match field.gives() {
            Series::Base => self.bases += 1,
            Series::Boolean => self.booleans += 1,
            Series::Array => self.arrays += 1,
        }
        self.fields.push(field);
    }

    /// One term more, or an equality with its witnesses.
    fn grow(&mut self, random: &mut Random) {
        let own: Vec<usize> = (0..self.bases).filter(|base| !self.serves_equality(*base)).collect();
        let array = |random: &mut Random| random.below(self.arrays) as u16;
        let base = |random: &mut Random| *random.pick(&own) as u16;
        let field = match random.below(12) {
            0 => Field::Base { value: 0 },
            1 => Field::Boolean { truth: 0 },
            2 => Field::Variable,
            3 | 4 => {
                Field::Write { array: array(random), index: base(random), value: base(random) }
            }
            5 if self.booleans > 0 => Field::Conditional {
                boolean: random.below(self.booleans) as u16,
                if_true: array(random),
                if_false: array(random),
            },
            6..=8 if self.equalities.len() < 3 => {
                let sides = [array(random), array(random)];
                return self.equal(sides);
            }
            _ => Field::Read { array: array(random), index: base(random), value: 0 },
        };
        if free_bits(&self.fields, WIDTH) + free_bits(&[field], WIDTH) <= MOST_BITS {
            self.push(field);
        }
    }

    /// The equality of two arrays, with an index of its own and a read of each
    /// side there.
    fn equal(&mut self, [left, right]: [u16; 2]) {
        let index = self.bases;
        let equality =
            Equality { boolean: self.booleans, index, witnesses: [index + 1, index + 2] };
        self.push(Field::Base { value: 0 });
        self.push(Field::Read { array: left, index: index as u16, value: 0 });
        self.push(Field::Read { array: right, index: index as u16, value: 0 });
        let (left_witness, right_witness) = (index as u16 + 1, index as u16 + 2);
        self.push(Field::Equality { left, right, truth: 0, left_witness, right_witness });
        self.equalities.push(equality);
    }

    /// Whether the base term is there for an equality alone.
    fn serves_equality(&self, base: usize) -> bool {
        self.equalities.iter().any(|one| one.index == base || one.witnesses.contains(&base))
    }

    /// Some free terms are constants, and most of those fixed numbers.
    fn fix_some(&mut self, random: &mut Random) {
        let own: Vec<bool> = (0..self.bases).map(|base| !self.serves_equality(base)).collect();
        let bases = self.fields.iter_mut().filter(|field| field.gives() == Series::Base);
        for (base, field) in bases.enumerate() {
            let free = matches!(field, Field::Base { .. }) && own[base];
            if free && random.chance(40) {
                let value = random.below(1 << WIDTH) as u32;
                self.constants.push((base, value));
                if random.chance(70) {
                    *field = Field::Fixed { value };
                }
            }
        }
    }

    /// Clauses of two or three atoms. What serves an equality is in none.
    fn constrain(&mut self, random: &mut Random) {
        let bases = (0..self.bases).filter(|base| !self.serves_equality(*base));
        let bits =
            bases.flat_map(|base| (0..WIDTH as usize).map(move |bit| Atom::Bit { base, bit }));
        let atoms: Vec<Atom> = bits.chain((0..self.booleans).map(Atom::Boolean)).collect();
        for _ in 0..atoms.len() + random.below(atoms.len()) {
            let clause =
                (0..2 + random.below(2)).map(|_| (*random.pick(&atoms), random.chance(50)));
            let clause = clause.collect();
            self.constraints.push(clause);
        }
    }

    /// Whether the values and truths meet the constraints.
    pub fn met_by(&self, terms: &Interpretation) -> bool {
        let truth = |atom: Atom| match atom {
            Atom::Bit { base, bit } => terms.bases[base] >> bit & 1 == 1,
            Atom::Boolean(boolean) => terms.booleans[boolean],
        };
        self.constants.iter().all(|(base, value)| terms.bases[*base] == *value)
            && self.constraints.iter().all(|clause| clause.iter().any(|one| truth(one.0) == one.1))
    }

    /// The truth: whether some arrays, values and truths meet the constraints.
    /// The problem itself knows no witnesses: their indices are left at 0.
    pub fn is_satisfiable(&self) -> bool {
        let mut free = Vec::new();
        let mut base = 0;
        for field in &self.fields {
            let fixed = self.equalities.iter().any(|one| one.index == base)
                && matches!(field, Field::Base { .. });
            free.push(if fixed { 0 } else { free_bits(&[*field], WIDTH) });
            base += usize::from(field.gives() == Series::Base);
        }
        (0..1_u64 << free.iter().sum::<u32>()).any(|choice| self.is_met(&free, choice))
    }

    fn is_met(&self, free: &[u32], mut choice: u64) -> bool {
        let mut terms = Interpretation::new(WIDTH);
        for (field, bits) in self.fields.iter().zip(free) {
            terms.extend(field, (choice & ((1 << bits) - 1)) as u32);
            choice >>= bits;
        }
        self.met_by(&terms)
    }
}
