//! The page's table of fields, and queries made from its rows alone.

use crate::page;

/// The three series of term numbers.
#[derive(Clone, Copy, Debug, PartialEq, Eq)]
pub enum Series {
    Base,
    Boolean,
    Array,
}

impl Series {
    /// The series that a cell speaks of.
    pub fn of(cell: &str) -> Series {
        let words =
            [("base", Series::Base), ("Boolean", Series::Boolean), ("array", Series::Array)];
        let found = words.iter().find(|(word, _)| cell.contains(word));
        found.unwrap_or_else(|| panic!("a series: {cell}")).1
    }
}

/// One part of a value, by the page's words.
struct Part {
    name: String,
    bytes: usize,
}

/// A row of the table.
pub struct Row {
    pub tag: u8,
    pub field: String,
    pub length: usize,
    pub gives: Series,
    parts: Vec<Part>,
}

pub fn rows() -> Vec<Row> {
    let columns = [
        "tag",
        "field",
        "length",
        "parts of the value, in order, each with its bytes",
        "gives the next",
    ];
    let rows = page::section("The query").table(columns).into_iter();
    rows.map(|[tag, field, length, parts, gives]| Row {
        tag: page::byte(&tag),
        field,
        length: page::number(&length),
        gives: Series::of(&gives),
        parts: page::list(&parts).into_iter().map(part).collect(),
    })
    .collect()
}

fn part(words: &str) -> Part {
    let (name, bytes) = words.rsplit_once(' ').expect("a part with its bytes");
    Part { name: name.to_string(), bytes: page::number(bytes) }
}

/// The row of this field, such as `read`.
pub fn row(field: &str) -> Row {
    let found = rows().into_iter().find(|row| row.field == field);
    found.unwrap_or_else(|| panic!("no row of the table of fields has {field}"))
}

impl Row {
    /// The field with these numbers for its parts, each by its name.
    pub fn bytes(&self, numbers: &[(&str, u32)]) -> Vec<u8> {
        assert_eq!(numbers.len(), self.parts.len(), "the parts of {}", self.field);
        let mut bytes = vec![self.tag];
        bytes.extend((self.length as u16).to_be_bytes());
        for part in &self.parts {
            let found = numbers.iter().find(|number| number.0 == part.name);
            let number =
                found.unwrap_or_else(|| panic!("the part {} of {}", part.name, self.field));
            bytes.extend(&number.1.to_be_bytes()[4 - part.bytes..]);
        }
        bytes
    }
}

pub fn base(value: u32) -> Vec<u8> {
    row("base term").bytes(&[("assigned value", value)])
}

pub fn boolean(truth: u32) -> Vec<u8> {
    row("Boolean").bytes(&[("assigned truth", truth)])
}

pub fn variable() -> Vec<u8> {
    row("array variable").bytes(&[])
}

pub fn write(beneath: u32, index: u32, value: u32) -> Vec<u8> {
    row("write").bytes(&[("array beneath", beneath), ("index base", index), ("value base", value)])
}

pub fn conditional(boolean: u32, if_true: u32, if_false: u32) -> Vec<u8> {
    let arrays = [("array if true", if_true), ("array if false", if_false)];
    row("conditional").bytes(&[[("choosing Boolean", boolean)].as_slice(), &arrays].concat())
}

pub fn read(array: u32, index: u32, value: u32) -> Vec<u8> {
    row("read").bytes(&[("array read", array), ("index base", index), ("assigned value", value)])
}

pub fn equality(sides: [u32; 2], truth: u32, witnesses: [u32; 2]) -> Vec<u8> {
    row("equality").bytes(&[
        ("left array", sides[0]),
        ("right array", sides[1]),
        ("assigned truth", truth),
        ("left witness base", witnesses[0]),
        ("right witness base", witnesses[1]),
    ])
}

pub fn fixed(value: u32) -> Vec<u8> {
    row("fixed number").bytes(&[("value", value)])
}

/// Base terms 0, 1 and Boolean 0; array terms 0 and 1 with a read of each, base
/// terms 2 and 3: what every kind of field can name.
pub fn front() -> Vec<u8> {
    [
        base(5),
        base(0x0102_0304),
        boolean(1),
        variable(),
        variable(),
        read(0, 0, 7),
        read(1, 0, 0x0A0B_0C0D),
    ]
    .concat()
}

/// How many terms of each series the front gives.
pub const GIVEN: [(Series, u32); 3] = [(Series::Base, 4), (Series::Boolean, 1), (Series::Array, 2)];
