//! Fields with a fault, by the words of the page's table of refusals: each
//! alone, and two faults in one field.

use crate::fields::{base, boolean, equality, fixed, front, read, variable, write, GIVEN};

/// A field at fault, and what must stand before it.
#[derive(Clone)]
pub struct Fault {
    pub front: Vec<u8>,
    pub field: Vec<u8>,
}

impl Fault {
    /// After the front that gives a term of every kind.
    fn after(field: Vec<u8>) -> Fault {
        Fault { front: in_conflict(), field }
    }

    /// After as many array terms and Booleans as there may be.
    fn after_all(field: Vec<u8>) -> Fault {
        let full = [variable().repeat(48 - given(2)), boolean(0).repeat(64 - given(1))].concat();
        Fault { front: [in_conflict(), full].concat(), field }
    }

    pub fn query(&self) -> Vec<u8> {
        [self.front.clone(), self.field.clone()].concat()
    }
}

fn given(series: usize) -> usize {
    GIVEN[series].1 as usize
}

/// The front, and base term 4, a read that conflicts with base term 2; base
/// term 5, a read that has the value of base term 2 at another index term; base
/// term 6, a fixed number of that value.
pub fn in_conflict() -> Vec<u8> {
    [front(), read(0, 0, 8), read(1, 1, 7), fixed(7)].concat()
}

/// The field without its last byte.
fn cut(mut field: Vec<u8>) -> Vec<u8> {
    field.pop();
    field
}

const UNKNOWN: u8 = 0x7F;

/// A base term whose length is one too large, with so many bytes.
fn too_long(bytes: usize) -> Vec<u8> {
    let mut field = base(9);
    field[2] += 1;
    field.resize(3 + bytes, 0);
    field
}

/// A field that meets what the row says, and nothing else.
pub fn alone(when: &str) -> Option<Fault> {
    Some(match when {
        "fewer than 3 bytes are left for a field's head" => Fault::after(vec![3, 0]),
        "the tag is unknown" => Fault::after(vec![UNKNOWN, 0, 0]),
        "the length is not the tag's own" => Fault::after(too_long(5)),
        "the value runs past the end" => Fault::after(cut(base(9))),
        "one array, base or Boolean term too many" => Fault::after_all(write(0, 0, 0)),
        "a term not yet given is named" => Fault::after(write(2, 0, 0)),
        "a truth byte is neither 0 nor 1" => Fault::after(boolean(2)),
        "a witness is no read, or reads another array than its side, or the two index numbers differ" => {
            Fault::after(equality([0, 1], 1, [2, 4]))
        }
        "an equality has truth 0, and its witnesses have equal assigned values" => {
            Fault::after(equality([0, 0], 0, [2, 2]))
        }
        _ => return None,
    })
}

/// The three ways to meet 8, and what all of them come from.
pub fn wrong_witnesses() -> [Vec<u8>; 5] {
    [
        equality([0, 1], 1, [0, 3]),
        equality([0, 1], 1, [6, 3]),
        equality([0, 1], 1, [2, 0]),
        equality([0, 1], 1, [2, 4]),
        equality([0, 1], 1, [2, 5]),
    ]
}

/// Fields that meet two rows at once, each with both numbers; `2h` is 2 for the
/// head, `2v` for the value.
pub fn both() -> Vec<(&'static str, &'static str, Fault)> {
    let ungiven = 200;
    vec![
        ("2h", "3", Fault::after(vec![UNKNOWN, 0])),
        ("2h", "5", Fault::after_all(vec![3, 0])),
        ("3", "4", Fault::after(vec![UNKNOWN, 0, 4, 0, 0, 0, 0])),
        ("3", "2v", Fault::after(vec![UNKNOWN, 0, 4])),
        ("4", "2v", Fault::after(too_long(2))),
        ("4", "5", Fault::after_all(vec![3, 0, 1, 0])),
        ("2v", "5", Fault::after_all(cut(write(0, 0, 0)))),
        ("2v", "6", Fault::after(cut(write(ungiven, 0, 0)))),
        ("5", "6", Fault::after_all(write(0, ungiven, 0))),
        ("5", "7", Fault::after_all(boolean(2))),
        ("5", "8", Fault::after_all(equality([0, 1], 1, [2, 4]))),
        ("6", "7", Fault::after(equality([0, ungiven], 2, [2, 3]))),
        ("6", "8", Fault::after(equality([0, 1], 1, [0, ungiven]))),
        ("7", "8", Fault::after(equality([0, 1], 2, [2, 4]))),
        ("8", "9", Fault::after(equality([0, 1], 0, [2, 5]))),
    ]
}
