//! Random accepted queries of many shapes. A shape says which kinds of field
//! come how often, how small the values are and how often one is disturbed.

use crate::builder::Builder;
use crate::memory::Memory;
use judge::field::encode;
use judge::random::Random;

/// Weights of the fields 01 to 07, in this order.
type Weights = [usize; 7];

pub struct Shape {
    pub name: &'static str,
    weights: Weights,
    /// Values are below this, or any if it is 0.
    values: usize,
    /// How often, in percent, a field names the newest array.
    newest: usize,
    fields: usize,
    /// How often, in percent, an index or a written value is no read.
    plain: usize,
    /// Whether to go on until every series is full.
    full: bool,
}

pub const SHAPES: [Shape; 10] = [
    Shape::of("chains of writes", [4, 0, 1, 12, 0, 8, 0], 6, 80, 40),
    Shape::of("meshes of equalities", [2, 0, 8, 2, 0, 4, 12], 3, 10, 60),
    Shape::of("conditionals", [2, 4, 4, 1, 12, 6, 2], 4, 30, 50),
    Shape::of("colliding values", [4, 1, 2, 4, 2, 8, 3], 2, 30, 40),
    Shape::of("mixed", [4, 2, 2, 6, 4, 8, 4], 8, 40, 120),
    Shape::of("values of any size", [4, 2, 2, 6, 4, 8, 4], 0, 40, 60),
    Shape::of("few fields", [3, 1, 2, 3, 1, 5, 2], 3, 40, 12),
    Shape { plain: 95, ..Shape::of("plain indices", [6, 1, 1, 10, 2, 12, 2], 6, 80, 120) },
    Shape { plain: 95, ..Shape::of("few plain indices", [4, 1, 1, 4, 1, 8, 2], 3, 60, 30) },
    Shape { full: true, ..Shape::of("the largest sizes", [3, 2, 2, 4, 3, 8, 5], 12, 40, 400) },
];

impl Shape {
    const fn of(
        name: &'static str,
        weights: Weights,
        values: usize,
        newest: usize,
        fields: usize,
    ) -> Shape {
        Shape { name, weights, values, newest, fields, plain: 0, full: false }
    }

    /// An accepted query of this shape.
    pub fn query(&self, random: &mut Random) -> Vec<u8> {
        let mut builder = Builder::default();
        let wrong = *random.pick(&[0, 1, 3, 30]);
        builder.base(self.value(random));
        let memory = self.memory(random);
        builder.variable(memory);
        for _ in 0..random.below(self.fields) {
            self.add(random, &mut builder, wrong);
        }
        if self.full {
            self.fill(random, &mut builder, wrong);
        }
        encode(&builder.fields)
    }

    fn value(&self, random: &mut Random) -> u32 {
        let any = random.number() as u32;
        match (self.values, random.below(8)) {
            (0, 0) => u32::MAX - any % 3,
            (0, 1..=3) => any % 3,
            (0, _) => any,
            (bound, _) => any % bound as u32,
        }
    }

    fn memory(&self, random: &mut Random) -> Memory {
        let mut memory = Memory::all(self.value(random));
        for _ in 0..random.below(4) {
            memory = memory.with(self.value(random), self.value(random));
        }
        memory
    }

    fn kind(&self, random: &mut Random) -> usize {
        let mut left = random.below(self.weights.iter().sum());
        for (kind, weight) in self.weights.iter().enumerate() {
            if left < *weight {
                return kind + 1;
            }
            left -= weight;
        }
        unreachable!("the weights add up");
    }

    fn array(&self, random: &mut Random, builder: &Builder) -> u16 {
        if random.chance(self.newest) {
            builder.arrays.len() as u16 - 1
        } else {
            builder.any_array(random)
        }
    }

    /// Adds a field of a random kind, if there is room for its term.
    fn add(&self, random: &mut Random, builder: &mut Builder, wrong: usize) {
        match self.kind(random) {
            1 if builder.room_for_bases(1) => {
                builder.base(self.value(random));
            }
            2 if builder.room_for_boolean() => {
                builder.boolean(random.chance(50));
            }
            6 if builder.room_for_bases(1) => self.add_read(random, builder, wrong),
            7 if builder.room_for_boolean() => self.add_equality(random, builder, wrong),
            kind @ 3..=5 if builder.room_for_array() => self.add_array(random, builder, kind),
            _ => {}
        }
    }

    fn base(&self, random: &mut Random, builder: &Builder) -> u16 {
        if random.chance(self.plain) {
            *random.pick(&builder.plain)
        } else {
            builder.any_base(random)
        }
    }

    fn add_read(&self, random: &mut Random, builder: &mut Builder, wrong: usize) {
        let array = self.array(random, builder);
        let index = self.base(random, builder);
        if random.chance(wrong) {
            builder.read_as(array, index, self.value(random));
        } else {
            builder.read(array, index);
        }
    }

    fn add_array(&self, random: &mut Random, builder: &mut Builder, kind: usize) {
        let array = self.array(random, builder);
        let other = builder.any_array(random);
        match kind {
            3 => {
                let twin = builder.arrays[usize::from(other)].clone();
                let memory = if random.chance(50) { twin } else { self.memory(random) };
                builder.variable(memory);
            }
            5 if !builder.booleans.is_empty() => {
                let boolean = random.below(builder.booleans.len()) as u16;
                let branches = if random.chance(50) { (array, other) } else { (other, array) };
                builder.conditional(boolean, branches.0, branches.1);
            }
            _ => {
                let (index, value) = (self.base(random, builder), self.base(random, builder));
                builder.write(array, index, value);
            }
        }
    }

    /// An equality, mostly of equal memories, and true where they are.
    fn add_equality(&self, random: &mut Random, builder: &mut Builder, wrong: usize) {
        let left = self.array(random, builder);
        let memory = builder.arrays[usize::from(left)].clone();
        let all = 0..builder.arrays.len() as u16;
        let equal: Vec<u16> =
            all.filter(|array| builder.arrays[usize::from(*array)] == memory).collect();
        let right =
            if random.chance(75) { *random.pick(&equal) } else { builder.any_array(random) };
        let difference = memory.difference(&builder.arrays[usize::from(right)]);
        let index = match difference {
            Some(index) => builder.base_with(index),
            None => Some(builder.any_base(random)),
        };
        let truth = difference.is_none() != random.chance(wrong);
        if let Some(index) = index {
            builder.equality(left, right, truth, index);
        }
    }

    /// Goes on until there are 48 arrays, 64 Booleans and 256 base terms.
    fn fill(&self, random: &mut Random, builder: &mut Builder, wrong: usize) {
        while builder.room_for_array() {
            let kind = *random.pick(&[3, 4, 4, 5]);
            self.add_array(random, builder, kind);
        }
        while builder.room_for_boolean() {
            if random.chance(50) {
                self.add_equality(random, builder, wrong);
            } else {
                builder.boolean(random.chance(50));
            }
        }
        while builder.room_for_bases(1) {
            self.add_read(random, builder, wrong);
        }
    }
}

#[cfg(test)]
mod tests {
    use super::*;
    use judge::field::{decode, Series};
    use second::verdict_lines;

    #[test]
    fn every_shape_is_accepted_and_gives_both_verdicts() {
        for shape in &SHAPES {
            let name = shape.name;
            let (mut consistent, mut conflict) = (0, 0);
            for seed in 0..200 {
                let lines = verdict_lines(&shape.query(&mut Random::new(seed)));
                consistent += usize::from(lines.starts_with("consistent"));
                conflict += usize::from(lines.starts_with("conflict"));
            }
            assert_eq!(consistent + conflict, 200, "{name}");
            assert!(consistent > 10 && conflict > 10, "{name}: {consistent} {conflict}");
        }
    }

    #[test]
    fn the_largest_shape_fills_every_series() {
        for seed in 0..50 {
            let query = SHAPES[SHAPES.len() - 1].query(&mut Random::new(seed));
            let (fields, rest) = decode(&query);
            assert!(rest.is_empty());
            let count = |series| fields.iter().filter(|field| field.gives() == series).count();
            let counts = [Series::Array, Series::Base, Series::Boolean].map(count);
            assert_eq!(counts, [48, 256, 64]);
        }
    }
}
