//! The order of the refusals, fault by fault, and the second file.

mod fields;

use fields::*;
use second::{lookup_line, verdict_lines};

/// The refusal line of a query whose last field, at `offset`, is at fault.
fn refused(before: &[Vec<u8>], field: &[u8], number: u8) {
    let before = before.concat();
    let line = format!("refused {number} {}\n", before.len());
    assert_eq!(verdict_lines(&[&before, field].concat()), line);
}

#[test]
fn too_long_comes_before_everything() {
    assert_eq!(verdict_lines(&[9; 4_097]), "refused 1 0\n");
    assert_eq!(verdict_lines(&[9; 4_096]), "refused 3 0\n");
}

#[test]
fn head_then_tag_then_length_then_value() {
    refused(&[variable()], &[9, 0], 2);
    refused(&[variable()], &[9, 0, 7], 3);
    refused(&[variable()], &[1, 0, 5], 4);
    refused(&[variable()], &[8, 0], 2);
    refused(&[variable()], &[8, 0, 3, 0, 0, 0], 4);
    refused(&[variable()], &[8, 0, 4, 0, 0, 0], 2);
    refused(&vec![variable(); 48], &[4, 0, 6, 0], 2);
}

#[test]
fn too_many_comes_before_ungiven() {
    refused(&vec![variable(); 48], &write(0, 0, 0), 5);
    refused(&vec![boolean(1); 64], &boolean(2), 5);
    refused(&vec![base(1); 256], &read(0, 0, 0), 5);
    refused(&[vec![fixed(1); 255], vec![base(1)]].concat(), &fixed(1), 5);
    refused(&vec![fixed(1); 256], &base(1), 5);
}

#[test]
fn ungiven_comes_before_truth_and_witnesses() {
    let before = [base(1), variable(), read(0, 0, 5)];
    refused(&before, &equality(0, 0, 2, 1, 2), 6);
    refused(&before, &equality(0, 0, 0, 0, 2), 6);
    refused(&before, &equality(0, 0, 2, 0, 1), 7);
    refused(&before, &write(1, 0, 0), 6);
    refused(&before, &write(0x0100, 0, 0), 6);
    refused(&before, &conditional(0, 0, 0), 6);
    refused(&before, &boolean(2), 7);
}

#[test]
fn witnesses_read_their_own_side_at_one_base_number() {
    let arrays = [base(1), base(1), variable(), variable()].concat();
    let before = [arrays, read(0, 0, 5), read(1, 1, 6), read(1, 0, 5)];
    refused(&before, &equality(0, 1, 0, 0, 4), 8);
    refused(&before, &equality(0, 1, 0, 4, 2), 8);
    refused(&before, &equality(0, 1, 0, 2, 3), 8);
    refused(&before, &equality(0, 1, 0, 2, 4), 9);
    refused(&before, &equality(0, 0, 0, 2, 2), 9);
}

#[test]
fn a_fixed_number_is_no_witness() {
    let before = [fixed(5), variable(), variable(), read(0, 0, 5), read(1, 0, 6)];
    for truth in [0, 1] {
        refused(&before, &equality(0, 1, truth, 0, 2), 8);
        refused(&before, &equality(0, 1, truth, 1, 0), 8);
    }
}

#[test]
fn true_equality_with_different_witnesses_is_a_conflict() {
    let before = [base(1), variable(), variable(), read(0, 0, 5), read(1, 0, 6)].concat();
    let query = [before, equality(0, 1, 1, 1, 2)].concat();
    assert_eq!(verdict_lines(&query), "conflict 4\ntrue 0\nthen 1 2\n");
}

#[test]
fn the_second_file_is_two_short_lines_of_digits() {
    let query = two_reads(7, 7);
    for good in ["0\n5\n", "0000000000\n0000000005\n"] {
        assert_eq!(lookup_line(&query, Some(good.as_bytes())), "7\n", "{good:?}");
    }
    let bad = [
        "",
        "0\n",
        "0\n5",
        "0\r\n5\r\n",
        " 0\n5\n",
        "+0\n5\n",
        "0\n5\n\n",
        "0\n\n5\n",
        "\n5\n",
        "0\n\n",
        "00000000000\n5\n",
        "0\n4294967296\n",
        "0\n5\n0",
        "1\n5\n",
        "0 5\n",
        "\n\n",
    ];
    for bad in bad {
        assert_eq!(lookup_line(&query, Some(bad.as_bytes())), "refused 11 0\n", "{bad:?}");
    }
    assert_eq!(lookup_line(&query, None), "refused 11 0\n");
    assert_eq!(lookup_line(&query, Some(b"0\n4294967295\n")), "0\n");
}

#[test]
fn the_query_comes_before_the_second_file() {
    assert_eq!(lookup_line(&two_reads(7, 9), None), "refused 12 0\n");
    assert_eq!(lookup_line(&[3, 0, 5], None), "refused 4 0\n");
}
