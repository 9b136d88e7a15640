//! Fields written out by hand for the tests, and the known queries of 01.
#![allow(dead_code)]

pub fn field(tag: u8, value: &[u8]) -> Vec<u8> {
    let mut bytes = vec![tag];
    bytes.extend((value.len() as u16).to_be_bytes());
    bytes.extend(value);
    bytes
}

fn numbers(numbers: &[u16]) -> Vec<u8> {
    numbers.iter().flat_map(|number| number.to_be_bytes()).collect()
}

pub fn base(value: u32) -> Vec<u8> {
    field(1, &value.to_be_bytes())
}

pub fn boolean(truth: u8) -> Vec<u8> {
    field(2, &[truth])
}

pub fn variable() -> Vec<u8> {
    field(3, &[])
}

pub fn write(array: u16, index: u16, value: u16) -> Vec<u8> {
    field(4, &numbers(&[array, index, value]))
}

pub fn conditional(boolean: u16, if_true: u16, if_false: u16) -> Vec<u8> {
    field(5, &numbers(&[boolean, if_true, if_false]))
}

pub fn read(array: u16, index: u16, value: u32) -> Vec<u8> {
    field(6, &[numbers(&[array, index]), value.to_be_bytes().to_vec()].concat())
}

pub fn equality(
    left: u16,
    right: u16,
    truth: u8,
    left_witness: u16,
    right_witness: u16,
) -> Vec<u8> {
    let witnesses = numbers(&[left_witness, right_witness]);
    field(7, &[numbers(&[left, right]), vec![truth], witnesses].concat())
}

pub fn fixed(value: u32) -> Vec<u8> {
    field(8, &value.to_be_bytes())
}

/// K1 and K2: two reads of one array at two terms of value 5.
pub fn two_reads(first: u32, second: u32) -> Vec<u8> {
    two_reads_at([base(5), base(5)], first, second)
}

/// The same at these two terms.
pub fn two_reads_at(indices: [Vec<u8>; 2], first: u32, second: u32) -> Vec<u8> {
    [indices.concat(), variable(), read(0, 0, first), read(0, 1, second)].concat()
}

/// K3.
pub fn one_index() -> Vec<u8> {
    [base(5), variable(), read(0, 0, 7), read(0, 0, 9)].concat()
}

/// K4 and K5: a read above and a read beneath a write at `write_index`.
pub fn read_through_write(write_index: u32) -> Vec<u8> {
    read_through_write_at([base(1), base(write_index)])
}

/// The same with these terms for the reads' index and the write's.
pub fn read_through_write_at(indices: [Vec<u8>; 2]) -> Vec<u8> {
    let terms = [indices.concat(), base(30), variable(), write(0, 1, 2)].concat();
    [terms, read(1, 0, 8), read(0, 0, 9)].concat()
}

/// K6, K7 and K8: two written arrays compared.
pub fn two_written(truth: u8, last_read: u32) -> Vec<u8> {
    let bases = [3, 4, 5, 10, 11, 6].map(base).concat();
    let arrays = [variable(), variable(), write(0, 0, 3), write(1, 1, 4)].concat();
    let reads = [read(0, 2, 20), read(1, 2, 21), read(2, 5, 0), read(3, 5, last_read)].concat();
    [bases, arrays, reads, equality(2, 3, truth, 8, 9)].concat()
}

/// K9: a conditional on a false Boolean.
pub fn chosen_branch() -> Vec<u8> {
    let terms = [boolean(0), base(1), variable(), variable(), conditional(0, 0, 1)].concat();
    [terms, read(2, 0, 4), read(1, 0, 5), read(0, 0, 6)].concat()
}
