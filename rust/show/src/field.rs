//! One field: its parts, its bytes in groups, and what it says in words.

/// The bytes of a field's head: tag and length.
pub const HEAD_BYTES: usize = 3;

/// The width of the longest field in groups, an equality's.
pub const GROUPED_WIDTH: usize = 30;

/// A field with its own parts. Numbers are those of terms, except `value` and
/// `truth` where they are assigned, or fixed.
#[derive(Clone, Copy, Debug, PartialEq, Eq)]
pub enum Field {
    Base { value: usize },
    Boolean { truth: usize },
    Variable,
    Write { array: usize, index: usize, value: usize },
    Conditional { boolean: usize, if_true: usize, if_false: usize },
    Read { array: usize, index: usize, value: usize },
    Equality { left: usize, right: usize, truth: usize, left_witness: usize, right_witness: usize },
    Fixed { value: usize },
}

/// The three series of term numbers.
#[derive(Clone, Copy, Debug, PartialEq, Eq)]
pub enum Series {
    Base,
    Boolean,
    Array,
}

/// How many bytes each part of the tag's value has.
fn widths(tag: u8) -> Option<&'static [usize]> {
    Some(match tag {
        1 | 8 => &[4],
        2 => &[1],
        3 => &[],
        4 | 5 => &[2, 2, 2],
        6 => &[2, 2, 4],
        7 => &[2, 2, 1, 2, 2],
        _ => return None,
    })
}

impl Field {
    /// The field at the front of these bytes, with how many of them it takes,
    /// if a whole one stands there.
    pub fn take(bytes: &[u8]) -> Option<(Field, usize)> {
        let head = bytes.get(..HEAD_BYTES)?;
        let widths = widths(head[0])?;
        let length: usize = widths.iter().sum();
        if number(&head[1..]) != length {
            return None;
        }
        let value = bytes.get(HEAD_BYTES..HEAD_BYTES + length)?;
        let parts: Vec<usize> = split(value, widths).into_iter().map(number).collect();
        Some((Field::of(head[0], &parts)?, HEAD_BYTES + length))
    }

    fn of(tag: u8, parts: &[usize]) -> Option<Field> {
        Some(match (tag, parts) {
            (1, &[value]) => Field::Base { value },
            (2, &[truth]) => Field::Boolean { truth },
            (3, &[]) => Field::Variable,
            (4, &[array, index, value]) => Field::Write { array, index, value },
            (5, &[boolean, if_true, if_false]) => Field::Conditional { boolean, if_true, if_false },
            (6, &[array, index, value]) => Field::Read { array, index, value },
            (7, &[left, right, truth, left_witness, right_witness]) => {
                Field::Equality { left, right, truth, left_witness, right_witness }
            }
            (8, &[value]) => Field::Fixed { value },
            _ => return None,
        })
    }

    /// The series whose next term the field gives.
    pub fn gives(self) -> Series {
        match self {
            Field::Base { .. } | Field::Read { .. } | Field::Fixed { .. } => Series::Base,
            Field::Boolean { .. } | Field::Equality { .. } => Series::Boolean,
            Field::Variable | Field::Write { .. } | Field::Conditional { .. } => Series::Array,
        }
    }

    /// What the field says, where the term that it gives has this number.
    pub fn words(self, number: usize) -> String {
        match self {
            Field::Base { value } => format!("base {number} = {value}"),
            Field::Fixed { value } => format!("base {number} = {value}, fixed"),
            Field::Boolean { truth } => format!("Boolean {number} is {}", truth_word(truth)),
            Field::Variable => format!("array {number}"),
            Field::Write { array, index, value } => {
                format!("array {number} = array {array} with base {value} written at base {index}")
            }
            Field::Conditional { boolean, if_true, if_false } => format!(
                "array {number} = array {if_true} if Boolean {boolean} is true, else array {if_false}"
            ),
            Field::Read { array, index, value } => {
                format!("base {number} = {value}, read from array {array} at base {index}")
            }
            Field::Equality { left, right, truth, left_witness, right_witness } => format!(
                "Boolean {number} (array {left} = array {right}) is {}, \
                 witnesses base {left_witness} and base {right_witness}",
                truth_word(truth)
            ),
        }
    }
}

fn truth_word(truth: usize) -> String {
    match truth {
        0 => "false".to_string(),
        1 => "true".to_string(),
        other => format!("{other}, which is no truth"),
    }
}

/// The bytes of a field, or of what should be one, in hex: tag, length and
/// the parts of the value, as far as they go.
pub fn grouped(bytes: &[u8]) -> String {
    let head: &[usize] = &[1, 2];
    let value = bytes.first().and_then(|tag| widths(*tag)).unwrap_or(&[]);
    let groups = split(bytes, &[head, value].concat());
    groups.into_iter().map(hex).collect::<Vec<String>>().join(" ")
}

pub fn hex(bytes: &[u8]) -> String {
    bytes.iter().map(|byte| format!("{byte:02x}")).collect()
}

/// Pieces of these widths, as far as the bytes go; what is over is the last.
fn split<'a>(bytes: &'a [u8], widths: &[usize]) -> Vec<&'a [u8]> {
    let mut rest = bytes;
    let mut pieces = Vec::new();
    for width in widths {
        let (piece, after) = rest.split_at(rest.len().min(*width));
        pieces.push(piece);
        rest = after;
    }
    pieces.push(rest);
    pieces.retain(|piece| !piece.is_empty());
    pieces
}

fn number(bytes: &[u8]) -> usize {
    bytes.iter().fold(0, |sum, byte| sum << 8 | usize::from(*byte))
}
