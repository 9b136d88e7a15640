//! Builds accepted queries term by term beside an interpretation, so that
//! assigned values agree with each other unless they are disturbed on purpose.

use crate::memory::Memory;
use judge::field::Field;
use judge::random::Random;
use second::{MAX_ARRAYS, MAX_BASES, MAX_BOOLEANS};

/// A read that may serve as a witness.
#[derive(Clone, Copy)]
pub struct Reading {
    pub base: u16,
    pub array: u16,
    pub index: u16,
}

#[derive(Clone, Default)]
pub struct Builder {
    pub fields: Vec<Field>,
    /// Each base term's value in the interpretation, and as assigned.
    pub values: Vec<u32>,
    pub assigned: Vec<u32>,
    pub booleans: Vec<bool>,
    pub arrays: Vec<Memory>,
    pub reads: Vec<Reading>,
    /// The base terms that are no reads: those that can be constants.
    pub plain: Vec<u16>,
}

impl Builder {
    pub fn base_count(&self) -> usize {
        self.values.len()
    }

    pub fn room_for_bases(&self, count: usize) -> bool {
        self.base_count() + count <= MAX_BASES
    }

    pub fn room_for_boolean(&self) -> bool {
        self.booleans.len() < MAX_BOOLEANS
    }

    pub fn room_for_array(&self) -> bool {
        self.arrays.len() < MAX_ARRAYS
    }

    pub fn any_base(&self, random: &mut Random) -> u16 {
        random.below(self.base_count()) as u16
    }

    pub fn any_array(&self, random: &mut Random) -> u16 {
        random.below(self.arrays.len()) as u16
    }

    pub fn base(&mut self, value: u32) -> u16 {
        self.fields.push(Field::Base { value });
        let base = self.give_base(value, value);
        self.plain.push(base);
        base
    }

    fn give_base(&mut self, value: u32, assigned: u32) -> u16 {
        self.values.push(value);
        self.assigned.push(assigned);
        self.base_count() as u16 - 1
    }

    pub fn boolean(&mut self, truth: bool) -> u16 {
        self.fields.push(Field::Boolean { truth: u8::from(truth) });
        self.booleans.push(truth);
        self.booleans.len() as u16 - 1
    }

    pub fn variable(&mut self, memory: Memory) -> u16 {
        self.fields.push(Field::Variable);
        self.give_array(memory)
    }

    fn give_array(&mut self, memory: Memory) -> u16 {
        self.arrays.push(memory);
        self.arrays.len() as u16 - 1
    }

    pub fn write(&mut self, array: u16, index: u16, value: u16) -> u16 {
        self.fields.push(Field::Write { array, index, value });
        let at = self.values[usize::from(index)];
        let written = self.arrays[usize::from(array)].with(at, self.values[usize::from(value)]);
        self.give_array(written)
    }

    pub fn conditional(&mut self, boolean: u16, if_true: u16, if_false: u16) -> u16 {
        self.fields.push(Field::Conditional { boolean, if_true, if_false });
        let branch = if self.booleans[usize::from(boolean)] { if_true } else { if_false };
        self.give_array(self.arrays[usize::from(branch)].clone())
    }

    /// A read with the value that the interpretation has there.
    pub fn read(&mut self, array: u16, index: u16) -> u16 {
        let value = self.value_at(array, index);
        self.read_as(array, index, value)
    }

    /// A read with any assigned value.
    pub fn read_as(&mut self, array: u16, index: u16, assigned: u32) -> u16 {
        self.fields.push(Field::Read { array, index, value: assigned });
        let base = self.give_base(self.value_at(array, index), assigned);
        self.reads.push(Reading { base, array, index });
        base
    }

    fn value_at(&self, array: u16, index: u16) -> u32 {
        self.arrays[usize::from(array)].at(self.values[usize::from(index)])
    }

    /// The read of this array at this base number, added if there is none;
    /// nothing if the base terms are all given.
    pub fn witness(&mut self, array: u16, index: u16) -> Option<u16> {
        let mut reads = self.reads.iter();
        if let Some(read) = reads.find(|read| read.array == array && read.index == index) {
            return Some(read.base);
        }
        self.room_for_bases(1).then(|| self.read(array, index))
    }

    /// An equality with its witnesses at this base number. It is made true
    /// where assigned witness values would have it refused 9.
    pub fn equality(&mut self, left: u16, right: u16, truth: bool, index: u16) -> Option<u16> {
        let left_witness = self.witness(left, index)?;
        let right_witness = self.witness(right, index)?;
        let value = |base: u16| self.assigned[usize::from(base)];
        let truth = truth || value(left_witness) == value(right_witness);
        let field =
            Field::Equality { left, right, truth: u8::from(truth), left_witness, right_witness };
        self.fields.push(field);
        self.booleans.push(truth);
        Some(self.booleans.len() as u16 - 1)
    }

    /// A base term with this value, added if there is none.
    pub fn base_with(&mut self, value: u32) -> Option<u16> {
        let place = self.values.iter().position(|known| *known == value);
        match place {
            Some(place) if self.assigned[place] == value => Some(place as u16),
            _ => self.room_for_bases(1).then(|| self.base(value)),
        }
    }
}
