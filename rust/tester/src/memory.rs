//! An array as a function from all indices below 2^32: a few cells and one
//! value for all the rest. Generators use it to assign values that agree.

use std::collections::{BTreeMap, BTreeSet};

/// Cells never hold the value of the rest, so equal functions are equal here.
#[derive(Clone, Default, PartialEq, Eq)]
pub struct Memory {
    cells: BTreeMap<u32, u32>,
    rest: u32,
}

impl Memory {
    pub fn all(rest: u32) -> Memory {
        Memory { cells: BTreeMap::new(), rest }
    }

    /// The array with these cells, and 0 elsewhere.
    pub fn of(cells: impl Iterator<Item = (u32, u32)>) -> Memory {
        Memory { cells: cells.filter(|(_, value)| *value != 0).collect(), rest: 0 }
    }

    pub fn at(&self, index: u32) -> u32 {
        self.cells.get(&index).copied().unwrap_or(self.rest)
    }

    pub fn with(&self, index: u32, value: u32) -> Memory {
        let mut memory = self.clone();
        if value == self.rest {
            memory.cells.remove(&index);
        } else {
            memory.cells.insert(index, value);
        }
        memory
    }

    /// An index at which the two differ, if there is one.
    pub fn difference(&self, other: &Memory) -> Option<u32> {
        let indices: BTreeSet<u32> = self.cells.keys().chain(other.cells.keys()).copied().collect();
        let in_cells = indices.iter().copied().find(|index| self.at(*index) != other.at(*index));
        let in_rest = || (0..).find(|index| !indices.contains(index));
        in_cells.or_else(|| if self.rest == other.rest { None } else { in_rest() })
    }
}
