//! The eight kinds of field as values, to and from bytes (01, The query; 02,
//! E1). Generators build them, the judge evaluates them, the tester shrinks them.

#[derive(Clone, Copy, Debug, PartialEq, Eq)]
pub enum Field {
    Base { value: u32 },
    Boolean { truth: u8 },
    Variable,
    Write { array: u16, index: u16, value: u16 },
    Conditional { boolean: u16, if_true: u16, if_false: u16 },
    Read { array: u16, index: u16, value: u32 },
    Equality { left: u16, right: u16, truth: u8, left_witness: u16, right_witness: u16 },
    Fixed { value: u32 },
}

/// The three series of term numbers.
#[derive(Clone, Copy, Debug, PartialEq, Eq)]
pub enum Series {
    Base,
    Boolean,
    Array,
}

pub fn encode(fields: &[Field]) -> Vec<u8> {
    fields.iter().flat_map(Field::bytes).collect()
}

/// The fields at the front of the bytes, as far as each has a known tag with
/// its own length, and the bytes that they leave over.
pub fn decode(bytes: &[u8]) -> (Vec<Field>, &[u8]) {
    let mut fields = Vec::new();
    let mut rest = bytes;
    while let Some((field, after)) = first(rest) {
        fields.push(field);
        rest = after;
    }
    (fields, rest)
}

fn first(bytes: &[u8]) -> Option<(Field, &[u8])> {
    let (head, rest) = bytes.split_at_checked(3)?;
    let length = usize::from(u16::from_be_bytes([head[1], head[2]]));
    let (value, rest) = rest.split_at_checked(length)?;
    Some((Field::read(head[0], value)?, rest))
}

fn join(numbers: &[u16]) -> Vec<u8> {
    numbers.iter().flat_map(|number| number.to_be_bytes()).collect()
}

impl Field {
    pub fn bytes(&self) -> Vec<u8> {
        let (tag, value) = self.tag_and_value();
        let mut bytes = vec![tag];
        bytes.extend((value.len() as u16).to_be_bytes());
        bytes.extend(value);
        bytes
    }

    /// The series whose next term the field gives.
    pub fn gives(&self) -> Series {
        match self {
            Field::Base { .. } | Field::Read { .. } | Field::Fixed { .. } => Series::Base,
            Field::Boolean { .. } | Field::Equality { .. } => Series::Boolean,
            Field::Variable | Field::Write { .. } | Field::Conditional { .. } => Series::Array,
        }
    }

    /// The assigned or fixed value of a base term.
    pub fn value(&self) -> Option<u32> {
        match *self {
            Field::Base { value } | Field::Read { value, .. } | Field::Fixed { value } => {
                Some(value)
            }
            _ => None,
        }
    }

    /// The same field with another value, where it has one.
    pub fn with_value(mut self, other: u32) -> Field {
        if let Field::Base { value } | Field::Read { value, .. } | Field::Fixed { value } =
            &mut self
        {
            *value = other;
        }
        self
    }

    pub fn is_fixed(&self) -> bool {
        matches!(self, Field::Fixed { .. })
    }

    /// The terms that the field names, to be read or renumbered.
    pub fn names(&mut self) -> Vec<(Series, &mut u16)> {
        use Series::*;
        match self {
            Field::Base { .. } | Field::Boolean { .. } | Field::Variable | Field::Fixed { .. } => {
                vec![]
            }
            Field::Write { array, index, value } => {
                vec![(Array, array), (Base, index), (Base, value)]
            }
            Field::Conditional { boolean, if_true, if_false } => {
                vec![(Boolean, boolean), (Array, if_true), (Array, if_false)]
            }
            Field::Read { array, index, .. } => vec![(Array, array), (Base, index)],
            Field::Equality { left, right, left_witness, right_witness, .. } => {
                let arrays = [(Array, left), (Array, right)];
                let witnesses = [(Base, left_witness), (Base, right_witness)];
                arrays.into_iter().chain(witnesses).collect()
            }
        }
    }

    fn tag_and_value(&self) -> (u8, Vec<u8>) {
        match *self {
            Field::Base { value } => (1, value.to_be_bytes().to_vec()),
            Field::Boolean { truth } => (2, vec![truth]),
            Field::Variable => (3, Vec::new()),
            Field::Write { array, index, value } => (4, join(&[array, index, value])),
            Field::Conditional { boolean, if_true, if_false } => {
                (5, join(&[boolean, if_true, if_false]))
            }
            Field::Read { array, index, value } => {
                (6, [join(&[array, index]), value.to_be_bytes().to_vec()].concat())
            }
            Field::Equality { left, right, truth, left_witness, right_witness } => {
                let witnesses = join(&[left_witness, right_witness]);
                (7, [join(&[left, right]), vec![truth], witnesses].concat())
            }
            Field::Fixed { value } => (8, value.to_be_bytes().to_vec()),
        }
    }

    fn read(tag: u8, value: &[u8]) -> Option<Field> {
        let two = |at: usize| u16::from_be_bytes([value[at], value[at + 1]]);
        let four = |at: usize| u32::from(two(at)) << 16 | u32::from(two(at + 2));
        Some(match (tag, value.len()) {
            (1, 4) => Field::Base { value: four(0) },
            (2, 1) => Field::Boolean { truth: value[0] },
            (3, 0) => Field::Variable,
            (4, 6) => Field::Write { array: two(0), index: two(2), value: two(4) },
            (5, 6) => Field::Conditional { boolean: two(0), if_true: two(2), if_false: two(4) },
            (6, 8) => Field::Read { array: two(0), index: two(2), value: four(4) },
            (7, 9) => Field::Equality {
                left: two(0),
                right: two(2),
                truth: value[4],
                left_witness: two(5),
                right_witness: two(7),
            },
            (8, 4) => Field::Fixed { value: four(0) },
            _ => return None,
        })
    }
}

#[cfg(test)]
mod tests {
    use super::*;

    #[test]
    fn fields_come_back_from_their_bytes() {
        let fields = vec![
            Field::Base { value: 0x0102_0304 },
            Field::Boolean { truth: 1 },
            Field::Variable,
            Field::Write { array: 1, index: 2, value: 0x0304 },
            Field::Conditional { boolean: 5, if_true: 6, if_false: 7 },
            Field::Read { array: 8, index: 9, value: 0xA0B0_C0D0 },
            Field::Equality { left: 1, right: 2, truth: 0, left_witness: 3, right_witness: 4 },
            Field::Fixed { value: 0x0506_0708 },
        ];
        let mut bytes = encode(&fields);
        bytes.extend([1, 0, 4, 0]);
        assert_eq!(decode(&bytes), (fields, &[1, 0, 4, 0][..]));
    }
}
