//! Interpretations at a small width, each made from one number: its bits give
//! the free base terms, free Booleans and array variables, in order. A fixed
//! number has its value in each of them (02, E1), and takes no bits.

use crate::field::Field;

/// An array at the small width: cell i in bits width*i and up.
type Memory = u32;

#[derive(Clone)]
pub struct Interpretation {
    width: u32,
    pub bases: Vec<u32>,
    pub booleans: Vec<bool>,
    pub arrays: Vec<Memory>,
}

/// How many bits choose an interpretation of these fields.
pub fn free_bits(fields: &[Field], width: u32) -> u32 {
    let bits = |field: &Field| match field {
        Field::Base { .. } => width,
        Field::Boolean { .. } => 1,
        Field::Variable => width << width,
        _ => 0,
    };
    fields.iter().map(bits).sum()
}

impl Interpretation {
    pub fn new(width: u32) -> Interpretation {
        Interpretation { width, bases: vec![], booleans: vec![], arrays: vec![] }
    }

    /// The assigned values and truths, with no arrays yet.
    pub fn assigned(fields: &[Field], width: u32) -> Interpretation {
        let mut guess = Interpretation::new(width);
        for field in fields {
            guess.bases.extend(field.value());
            if let Field::Boolean { truth } | Field::Equality { truth, .. } = *field {
                guess.booleans.push(truth == 1);
            }
        }
        guess
    }

    /// Becomes the interpretation of the fields that the choice's bits give.
    pub fn choose(&mut self, fields: &[Field], mut choice: u64) {
        self.bases.clear();
        self.booleans.clear();
        self.arrays.clear();
        for field in fields {
            let bits = free_bits(&[*field], self.width);
            self.extend(field, (choice & ((1 << bits) - 1)) as u32);
            choice >>= bits;
        }
    }

    /// Gives the field's term; `free` decides it where nothing else does.
    pub fn extend(&mut self, field: &Field, free: u32) {
        match *field {
            Field::Base { .. } => self.bases.push(free),
            Field::Fixed { value } => self.bases.push(value),
            Field::Boolean { .. } => self.booleans.push(free == 1),
            Field::Variable => self.arrays.push(free),
            Field::Write { array, index, value } => {
                let written = self.written(array, index, value);
                self.arrays.push(written);
            }
            Field::Conditional { boolean, if_true, if_false } => {
                let branch = if self.booleans[usize::from(boolean)] { if_true } else { if_false };
                self.arrays.push(self.arrays[usize::from(branch)]);
            }
            Field::Read { array, index, .. } => self.bases.push(self.read(array, index)),
            Field::Equality { left, right, .. } => {
                let same = self.arrays[usize::from(left)] == self.arrays[usize::from(right)];
                self.booleans.push(same);
            }
        }
    }

    fn mask(&self) -> u32 {
        (1 << self.width) - 1
    }

    fn read(&self, array: u16, index: u16) -> u32 {
        let place = self.width * self.bases[usize::from(index)];
        self.arrays[usize::from(array)] >> place & self.mask()
    }

    fn written(&self, array: u16, index: u16, value: u16) -> Memory {
        let place = self.width * self.bases[usize::from(index)];
        let beneath = self.arrays[usize::from(array)] & !(self.mask() << place);
        beneath | self.bases[usize::from(value)] << place
    }

    /// Whether the arrays given beside these values and truths meet every
    /// condition of an interpretation: each dependent term is what its field
    /// makes of the terms before it.
    pub fn meets(&self, fields: &[Field]) -> bool {
        let mut made = Interpretation::new(self.width);
        for field in fields {
            let free = match field {
                Field::Base { .. } => self.bases[made.bases.len()],
                Field::Boolean { .. } => u32::from(self.booleans[made.booleans.len()]),
                Field::Variable => self.arrays[made.arrays.len()],
                _ => 0,
            };
            made.extend(field, free);
        }
        made.bases == self.bases && made.booleans == self.booleans && made.arrays == self.arrays
    }
}
