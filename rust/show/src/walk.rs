//! A query taken apart into fields, up to the place of its refusal.

use crate::field::{Field, Series, HEAD_BYTES};
use zunidelo::Refusal;

/// A field with its place and the number of the term that it gives.
#[derive(Clone, Copy, Debug)]
pub struct Placed {
    pub offset: usize,
    pub length: usize,
    pub number: usize,
    pub field: Field,
}

/// What stands at the place of a refusal: a whole field that says what it
/// may not, or bytes that are no field.
#[derive(Clone, Copy, Debug)]
pub enum Fault {
    Field(Placed),
    Bytes { offset: usize, length: usize },
}

impl Fault {
    /// Where the bytes at fault end.
    pub fn end(&self) -> usize {
        match *self {
            Fault::Field(placed) => placed.offset + placed.length,
            Fault::Bytes { offset, length } => offset + length,
        }
    }
}

/// The fields without fault, and the refusal with what stands at its place.
#[derive(Debug)]
pub struct Walk {
    pub fields: Vec<Placed>,
    pub refusal: Option<(Refusal, Fault)>,
}

impl Walk {
    /// The library says where the query is at fault, if it is: all that comes
    /// before are fields.
    pub fn of(query: &[u8], refusal: Option<&Refusal>) -> Walk {
        let end = refusal.map_or(query.len(), |refusal| refusal.offset());
        let mut walk = Walk { fields: Vec::new(), refusal: None };
        let mut counts = Counts::default();
        let mut offset = 0;
        while offset < end {
            let placed = counts.place(query, offset).expect("a field before the first fault");
            counts.count(placed.field);
            offset += placed.length;
            walk.fields.push(placed);
        }
        walk.refusal = refusal.map(|refusal| (*refusal, counts.fault(query, *refusal)));
        walk
    }
}

/// How many terms of each series are given so far.
#[derive(Default)]
struct Counts {
    bases: usize,
    booleans: usize,
    arrays: usize,
}

impl Counts {
    fn of(&mut self, series: Series) -> &mut usize {
        match series {
            Series::Base => &mut self.bases,
            Series::Boolean => &mut self.booleans,
            Series::Array => &mut self.arrays,
        }
    }

    fn count(&mut self, field: Field) {
        *self.of(field.gives()) += 1;
    }

    fn place(&mut self, query: &[u8], offset: usize) -> Option<Placed> {
        let (field, length) = Field::take(&query[offset..])?;
        Some(Placed { offset, length, number: *self.of(field.gives()), field })
    }

    fn fault(&mut self, query: &[u8], refusal: Refusal) -> Fault {
        let offset = refusal.offset();
        // A query that is too long is refused as a whole, not for a field.
        if refusal == Refusal::QueryTooLong {
            return Fault::Bytes { offset, length: 0 };
        }
        if let Some(placed) = self.place(query, offset) {
            return Fault::Field(placed);
        }
        // Of something unknown the head is shown as the place at fault.
        let left = query.len() - offset;
        let cut_off = matches!(refusal, Refusal::CutOff { .. });
        Fault::Bytes { offset, length: if cut_off { left } else { left.min(HEAD_BYTES) } }
    }
}
