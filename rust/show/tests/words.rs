//! The fields and the verdict in words.

mod stored;

use show::show;

#[test]
fn k6_has_its_fields_and_its_lemma() {
    let expected = "    \
    0  01 0004 00000003                base 0 = 3
    7  01 0004 00000004                base 1 = 4
   14  01 0004 00000005                base 2 = 5
   21  01 0004 0000000a                base 3 = 10
   28  01 0004 0000000b                base 4 = 11
   35  01 0004 00000006                base 5 = 6
   42  03 0000                         array 0
   45  03 0000                         array 1
   48  04 0006 0000 0000 0003          array 2 = array 0 with base 3 written at base 0
   57  04 0006 0001 0001 0004          array 3 = array 1 with base 4 written at base 1
   66  06 0008 0000 0002 00000014      base 6 = 20, read from array 0 at base 2
   77  06 0008 0001 0002 00000015      base 7 = 21, read from array 1 at base 2
   88  06 0008 0002 0005 00000000      base 8 = 0, read from array 2 at base 5
   99  06 0008 0003 0005 00000000      base 9 = 0, read from array 3 at base 5
  110  07 0009 0002 0003 01 0008 0009  \
  Boolean 0 (array 2 = array 3) is true, witnesses base 8 and base 9

conflict: no memories fit. 22 pairs. The lemma:
    if base 2 differs from base 0
    and Boolean 0 is true
    and base 2 differs from base 1
    then base 6 = base 7
    but base 6 = 20 and base 7 = 21
";
    assert_eq!(show(&stored::query("K6")), expected);
}

#[test]
fn k8_has_its_cells() {
    let text = show(&stored::query("K8"));
    let verdict = text.split_once("\n\n").expect("fields, then the verdict").1;
    let expected = "\
consistent: some memories fit. 10 pairs; 10 cells, all others hold 0
    array 0 has 20 at 5, 0 at 6
    array 1 has 21 at 5, 1 at 6
    array 2 has 10 at 3, 20 at 5, 0 at 6
    array 3 has 11 at 4, 21 at 5, 1 at 6
";
    assert_eq!(verdict, expected);
}

/// The cells of the words, as the verdict program prints them.
fn cells(words: &str) -> String {
    let mut lines = String::new();
    for line in words.lines().filter_map(|line| line.strip_prefix("    array ")) {
        let Some((array, cells)) = line.split_once(" has ") else { continue };
        for cell in cells.split(", ") {
            let (value, index) = cell.split_once(" at ").expect("a value at an index");
            lines += &format!("{array} {index} {value}\n");
        }
    }
    lines
}

#[test]
fn the_cells_are_those_of_the_verdict_program() {
    let mut consistent = 0;
    for name in stored::names() {
        let verdict = stored::text(&format!("{name}.verdict"));
        if let Some((_, expected)) =
            verdict.split_once('\n').filter(|(head, _)| head.starts_with("consistent"))
        {
            assert_eq!(cells(&show(&stored::query(&name))), expected, "{name}");
            consistent += 1;
        }
    }
    assert!(consistent >= 5, "K2, K8, K10 twice and K12");
}

#[test]
fn every_kind_of_literal_has_its_words() {
    let text = show(&stored::query("mixed"));
    let expected = "\
conflict: no memories fit. 11 pairs. The lemma:
    if base 0 = base 1
    and base 0 differs from base 2
    and Boolean 0 is true
    and Boolean 1 is false
    then base 3 = base 4
    but base 3 = 5 and base 4 = 6
";
    assert!(text.ends_with(expected), "{text}");
}

#[test]
fn a_fixed_number_is_told_and_what_is_left_out_for_it() {
    let text = show(&stored::query("fixed-mixed"));
    assert!(
        text.starts_with("    0  08 0004 00000001                base 0 = 1, fixed\n"),
        "{text}"
    );
    assert!(text.contains("   14  01 0004 00000002                base 2 = 2\n"), "{text}");
    let expected = "\
conflict: no memories fit. 11 pairs. The lemma:
    if base 0 (fixed) differs from base 2
    and Boolean 0 is true
    and Boolean 1 is false
    then base 3 = base 4
    but base 3 = 5 and base 4 = 6
    left out, as both are fixed: base 0 = base 1
";
    assert!(text.ends_with(expected), "{text}");
    let text = show(&stored::query("fixed-K6"));
    let expected = "\
    if Boolean 0 is true
    then base 6 = base 7
    but base 6 = 20 and base 7 = 21
    left out, as both are fixed: base 2 differs from base 0
    left out, as both are fixed: base 2 differs from base 1
";
    assert!(text.ends_with(expected), "{text}");
}

#[test]
fn a_conclusion_between_fixed_numbers_stays() {
    let text = show(&stored::query("fixed-values"));
    let expected = "\
    if Boolean 0 is true
    then base 1 (fixed) = base 2 (fixed)
    but base 1 (fixed) = 7 and base 2 (fixed) = 9
";
    assert!(text.ends_with(expected), "{text}");
}

#[test]
fn nothing_is_left_out_where_one_number_is_free() {
    for name in ["fixed-and-free", "free-and-fixed", "fixed-around", "fixed-but-one"] {
        assert!(!show(&stored::query(name)).contains("left out"), "{name}");
    }
}

#[test]
fn a_conclusion_without_conditions_is_always_so() {
    let text = show(&stored::query("K3"));
    assert!(text.ends_with("    always base 1 = base 2\n    but base 1 = 7 and base 2 = 9\n"));
}

#[test]
fn a_field_at_fault_is_pointed_at() {
    let text = show(&stored::query("K7"));
    let expected = "  \
  110  07 0009 0002 0003 00 0008 0009  \
  Boolean 0 (array 2 = array 3) is false, witnesses base 8 and base 9
       ^ refused 9 at byte 110: an equality taken to be false, whose witnesses have equal values
";
    assert!(text.ends_with(expected), "{text}");
    assert_eq!(text.lines().count(), 16);
}

#[test]
fn bytes_that_are_no_field_are_pointed_at_and_the_rest_is_dumped() {
    let mut query = vec![0x03, 0, 0, 0x09, 0x01, 0x02];
    query.extend(0xA0..0xB2);
    let expected = "    \
    0  03 0000                         array 0
    3  09 0102
       ^ refused 3 at byte 3: no field has this tag
    6  a0 a1 a2 a3 a4 a5 a6 a7 a8 a9 aa ab ac ad ae af
   22  b0 b1
";
    assert_eq!(show(&query), expected);
}

#[test]
fn a_field_that_is_cut_off_is_shown_as_far_as_it_goes() {
    let expected = "    \
    0  01 0004 0000
       ^ refused 2 at byte 0: the field is cut off by the end of the query
";
    assert_eq!(show(&stored::query("K11-cut")), expected);
    assert!(show(&[0x03]).starts_with("    0  03\n       ^ refused 2 at byte 0: "));
}

#[test]
fn a_query_that_is_too_long_is_dumped_without_an_arrow() {
    let text = show(&[0; 5_000]);
    assert!(text.starts_with("       refused 1: the query has more than 4,096 bytes\n    0  00 00"));
    assert!(text.ends_with("       and 904 bytes more\n"));
}

#[test]
fn a_truth_that_is_none_is_shown_as_it_is() {
    let text = show(&[0x02, 0, 1, 7]);
    assert!(text.contains("Boolean 0 is 7, which is no truth\n       ^ refused 7 at byte 0: "));
}

#[test]
fn the_empty_query_has_no_fields() {
    let expected = "consistent: some memories fit. 0 pairs; 0 cells, all others hold 0\n";
    assert_eq!(show(&[]), expected);
}
