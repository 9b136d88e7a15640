//! An accepted query: its terms by number, its sources and its edges.

pub const MAX_ARRAYS: usize = 48;
pub const MAX_BASES: usize = 256;
pub const MAX_BOOLEANS: usize = 64;
pub const MAX_QUERY_BYTES: usize = 4_096;

/// A base term: its assigned value, and where that is from.
pub struct Base {
    pub value: u32,
    pub kind: Kind,
}

/// What gives a base term its value in an interpretation.
pub enum Kind {
    Free,
    /// The field itself, in every interpretation (02, E1).
    Fixed,
    /// An array at an index, which the witnesses ask for.
    Read {
        array: usize,
        index: usize,
    },
}

/// A write or a read: where its value comes from. `index` and `value` are
/// base numbers, `origin` is an array number.
pub struct Source {
    pub origin: usize,
    pub index: usize,
    pub value: usize,
}

/// What an edge asks for to be open, and which literal it leaves on a path.
#[derive(Clone, Copy)]
pub enum Guard {
    /// The write's index, a base number.
    Write(usize),
    /// The conditional's Boolean.
    Conditional(usize),
    /// The equality's Boolean.
    Equality(usize),
}

/// Two array terms joined by a field 04, 05 or 07.
pub struct Edge {
    pub ends: [usize; 2],
    pub guard: Guard,
}

impl Edge {
    pub fn is_write(&self) -> bool {
        matches!(self.guard, Guard::Write(_))
    }
}

#[derive(Default)]
pub struct Query {
    pub arrays: usize,
    pub bases: Vec<Base>,
    pub booleans: Vec<bool>,
    pub sources: Vec<Source>,
    pub edges: Vec<Edge>,
}

impl Query {
    pub fn value(&self, base: usize) -> u32 {
        self.bases[base].value
    }

    pub fn index_value(&self, source: usize) -> u32 {
        self.value(self.sources[source].index)
    }

    pub fn source_value(&self, source: usize) -> u32 {
        self.value(self.sources[source].value)
    }

    /// Whether every interpretation compares these two terms alike.
    pub fn both_fixed(&self, one: usize, other: usize) -> bool {
        [one, other].into_iter().all(|base| matches!(self.bases[base].kind, Kind::Fixed))
    }

    /// Whether the edge can be walked by a source with this index value.
    pub fn is_open(&self, edge: &Edge, index_value: u32) -> bool {
        match edge.guard {
            Guard::Write(index) => self.value(index) != index_value,
            Guard::Conditional(_) => true,
            Guard::Equality(boolean) => self.booleans[boolean],
        }
    }
}
