//! Queries with many index values in one array, and so with many cells.

use crate::builder::Builder;
use crate::memory::Memory;
use judge::field::encode;
use judge::random::Random;
use second::MAX_BASES;

/// Of the many arrays that there may be, a few: each has many cells.
const MOST_ARRAYS: usize = 4;

/// Values near one another and at both ends are in this many.
const NEAR: u32 = 300;

/// More than 120 index values in one array, in any order of size, and
/// a few arrays above it that most of them reach. In a conflict the last read
/// has another value than one before it.
pub fn many_cells(random: &mut Random, conflict: bool) -> Vec<u8> {
    let free = *random.pick(&[0, 10, 30]);
    let mut builder = cells(random, free, MOST_ARRAYS);
    if conflict {
        disturb(random, &mut builder);
    }
    encode(&builder.fields)
}

/// As many index values in one array as there are base terms: 255 reads, each
/// at the term before it, and a write at the last.
pub fn most_cells(random: &mut Random) -> Vec<u8> {
    let mut builder = cells(random, 0, 1);
    let last = builder.base_count() as u16 - 1;
    let index = builder.read(0, last);
    builder.write(0, index, 1);
    encode(&builder.fields)
}

/// Every base term has a value of its own and is the index of one read at
/// most; so many in a hundred are free, the others reads. Room for one more
/// base term is left.
fn cells(random: &mut Random, free: usize, most_arrays: usize) -> Builder {
    let values = distinct_values(random);
    let indices = indices(random, free);
    let read = |(place, index): (usize, &Option<u16>)| {
        index.map(|index| (values[usize::from(index)], values[place]))
    };
    let memory = Memory::of(indices.iter().enumerate().filter_map(read));
    let mut builder = Builder::default();
    let boolean = builder.boolean(random.chance(50));
    builder.variable(memory);
    for (value, index) in values.iter().zip(&indices).take(MAX_BASES - 1) {
        match *index {
            None => builder.base(*value),
            Some(index) => {
                if builder.arrays.len() < most_arrays && random.chance(3) {
                    add_array(random, &mut builder, boolean);
                }
                builder.read(builder.any_array(random), index)
            }
        };
    }
    builder
}

/// For each base term the index that it is read at, or nothing for a free one.
fn indices(random: &mut Random, free: usize) -> Vec<Option<u16>> {
    let mut unread: Vec<u16> = Vec::new();
    let mut indices = Vec::new();
    for place in 0..MAX_BASES as u16 {
        let index = match unread.len() {
            0 => None,
            _ if random.chance(free) => None,
            count => Some(unread.swap_remove(random.below(count))),
        };
        indices.push(index);
        unread.push(place);
    }
    indices
}

/// None twice, and 0 at most at the first place: it is an index there, and no
/// cell's value, so that the library tells of every cell.
fn distinct_values(random: &mut Random) -> Vec<u32> {
    let mut values = vec![if random.chance(50) { 0 } else { u32::MAX }];
    while values.len() < MAX_BASES {
        let any = random.number() as u32;
        let value = *random.pick(&[any, any % NEAR, u32::MAX - any % NEAR]);
        if value != 0 && !values.contains(&value) {
            values.push(value);
        }
    }
    values
}

fn add_array(random: &mut Random, builder: &mut Builder, boolean: u16) {
    let (array, other) = (builder.any_array(random), builder.any_array(random));
    if random.chance(50) {
        builder.conditional(boolean, array, other);
    } else {
        let (index, value) = (builder.any_base(random), builder.any_base(random));
        builder.write(array, index, value);
    }
}

fn disturb(random: &mut Random, builder: &mut Builder) {
    let before = *random.pick(&builder.reads);
    let wrong = builder.assigned[usize::from(before.base)] ^ 1;
    builder.read_as(before.array, before.index, wrong);
}

#[cfg(test)]
mod tests {
    use super::*;
    use crate::summary::cells_of_one_array;
    use judge::field::decode;
    use second::verdict_lines;

    /// What a printer that stops after so many cells passes unseen.
    const MANY: usize = 120;

    #[test]
    fn consistent_ones_have_many_cells_in_one_array() {
        for seed in 0..200 {
            let lines = verdict_lines(&many_cells(&mut Random::new(seed), false));
            assert!(lines.starts_with("consistent"), "{lines}");
            assert!(cells_of_one_array(&lines) > MANY, "seed {seed}: {lines}");
        }
    }

    #[test]
    fn those_in_conflict_have_many_but_for_the_last_read() {
        for seed in 0..200 {
            let query = many_cells(&mut Random::new(seed), true);
            let lines = verdict_lines(&query);
            assert!(lines.starts_with("conflict"), "{lines}");
            let (fields, _) = decode(&query);
            let lines = verdict_lines(&encode(&fields[..fields.len() - 1]));
            assert!(cells_of_one_array(&lines) > MANY, "seed {seed}: {lines}");
        }
    }

    #[test]
    fn most_cells_are_as_many_as_base_terms() {
        for seed in 0..20 {
            let lines = verdict_lines(&most_cells(&mut Random::new(seed)));
            assert!(lines.starts_with("consistent 511\n"), "{lines}");
            assert_eq!(cells_of_one_array(&lines), MAX_BASES, "{lines}");
            assert!(!lines.contains(" 0\n"), "{lines}");
        }
    }
}
