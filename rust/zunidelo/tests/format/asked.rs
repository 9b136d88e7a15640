//! What is asked in one call beside the query, and how it is refused.

use zunidelo::{check_into, clauses_into, lookup, Refusal};

#[derive(Clone, Copy, Debug, PartialEq, Eq)]
pub enum Call {
    Check,
    Lookup,
    Clauses,
}

pub const CALLS: [(&str, Call); 3] =
    [("check", Call::Check), ("lookup", Call::Lookup), ("clauses", Call::Clauses)];

/// A query, with the room that is lent and the cell that is looked up.
#[derive(Clone, Debug)]
pub struct Asked {
    pub query: Vec<u8>,
    pub room: usize,
    pub array: u64,
    pub index: u64,
}

impl Asked {
    /// With no room at all, and a cell that isn't there: what 10 and 11 refuse.
    pub fn hopeless(query: Vec<u8>) -> Asked {
        Asked { query, room: 0, array: 99, index: 1 << 32 }
    }

    /// With room for every answer, and a cell that is there.
    pub fn well(query: Vec<u8>) -> Asked {
        Asked { query, room: zunidelo::CLAUSE_NUMBERS, array: 0, index: 0 }
    }

    /// The refusal's number and offset, if the call is refused. What is lent
    /// must then be as it was.
    pub fn refused(&self, call: Call) -> Option<(usize, usize)> {
        let refusal = match call {
            Call::Lookup => lookup(&self.query, self.array, self.index).err(),
            Call::Check => {
                let mut bytes = vec![0xAA; self.room];
                let refusal = check_into(&self.query, &mut bytes).err();
                assert!(refusal.is_none() || bytes.iter().all(|byte| *byte == 0xAA), "{self:?}");
                refusal
            }
            Call::Clauses => {
                let mut numbers = vec![-7; self.room];
                let refusal = clauses_into(&self.query, &mut numbers).err();
                assert!(refusal.is_none() || numbers.iter().all(|one| *one == -7), "{self:?}");
                refusal
            }
        };
        refusal.map(|refusal: Refusal| (usize::from(refusal.number()), refusal.offset()))
    }
}
