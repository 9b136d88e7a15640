//! Drops fields from a query and renumbers the terms that stay.

use judge::field::{Field, Series};
use std::ops::Range;

/// What becomes of a field that names a dropped term.
#[derive(Clone, Copy, PartialEq, Eq)]
pub enum Orphans {
    /// It is dropped as well.
    Go,
    /// It names another term instead: for a write the array beneath, for a
    /// conditional its first branch, for others the last one that stays.
    Adopted,
}

/// The new number of each given term, if it has one, and how many stay.
#[derive(Default)]
struct Renumbering {
    numbers: [Vec<Option<u16>>; 3],
    kept: [u16; 3],
}

impl Renumbering {
    /// A term not given keeps its distance from those that are.
    fn new_number(&self, series: Series, number: u16) -> Option<u16> {
        let known = &self.numbers[series as usize];
        match known.get(usize::from(number)) {
            Some(new_number) => *new_number,
            None => Some(number - known.len() as u16 + self.kept[series as usize]),
        }
    }

    /// The field over the new numbers, unless a term that it names is lost.
    fn renumber(&self, mut field: Field) -> Option<Field> {
        for (series, number) in field.names() {
            *number = self.new_number(series, *number)?;
        }
        Some(field)
    }

    fn keep(&mut self, series: Series) {
        let place = series as usize;
        self.numbers[place].push(Some(self.kept[place]));
        self.kept[place] += 1;
    }

    fn lose(&mut self, field: &Field, orphans: Orphans) {
        let series = field.gives();
        let heir = match (orphans, *field) {
            (Orphans::Go, _) => None,
            (_, Field::Write { array, .. }) => self.new_number(Series::Array, array),
            (_, Field::Conditional { if_true, .. }) => self.new_number(Series::Array, if_true),
            _ => self.kept[series as usize].checked_sub(1),
        };
        self.numbers[series as usize].push(heir);
    }
}

/// The fields without those at the dropped places.
pub fn without(fields: &[Field], dropped: Range<usize>, orphans: Orphans) -> Vec<Field> {
    let mut renumbering = Renumbering::default();
    let mut stay = Vec::new();
    for (place, field) in fields.iter().enumerate() {
        match renumbering.renumber(*field) {
            Some(renumbered) if !dropped.contains(&place) => {
                renumbering.keep(field.gives());
                stay.push(renumbered);
            }
            _ => renumbering.lose(field, orphans),
        }
    }
    stay
}

#[cfg(test)]
mod tests {
    use super::*;

    const FIELDS: [Field; 6] = [
        Field::Base { value: 3 },
        Field::Base { value: 4 },
        Field::Variable,
        Field::Write { array: 0, index: 1, value: 1 },
        Field::Read { array: 0, index: 1, value: 7 },
        Field::Read { array: 1, index: 0, value: 7 },
    ];

    #[test]
    fn a_dropped_term_takes_its_fields_along() {
        let expected = [
            Field::Base { value: 4 },
            Field::Variable,
            Field::Write { array: 0, index: 0, value: 0 },
            Field::Read { array: 0, index: 0, value: 7 },
        ];
        assert_eq!(without(&FIELDS, 0..1, Orphans::Go), expected);
    }

    #[test]
    fn a_read_of_a_dropped_write_reads_the_array_beneath() {
        let expected = [
            Field::Base { value: 3 },
            Field::Base { value: 4 },
            Field::Variable,
            Field::Read { array: 0, index: 1, value: 7 },
            Field::Read { array: 0, index: 0, value: 7 },
        ];
        assert_eq!(without(&FIELDS, 3..4, Orphans::Adopted), expected);
    }
}
