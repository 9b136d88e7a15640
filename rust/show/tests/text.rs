//! Hex text in and out.

mod stored;

use show::{from_hex, to_hex};

#[test]
fn hex_text_may_have_white_space_and_comments() {
    let text = "# a query\n03 0000 # an array\n\n\t0300 00\r\n#03\nAbcD";
    assert_eq!(from_hex(text), Ok(vec![3, 0, 0, 3, 0, 0, 0xAB, 0xCD]));
    assert_eq!(from_hex(""), Ok(vec![]));
}

#[test]
fn what_is_not_hex_is_named_with_its_line() {
    let faults = [
        ("03 000\n", "line 1: `000` is not bytes in hex"),
        ("03\n\n0g00", "line 3: `0g00` is not bytes in hex"),
        ("3 0", "line 1: `3` is not bytes in hex"),
        ("0\u{e9}", "line 1: `0\u{e9}` is not bytes in hex"),
    ];
    for (text, expected) in faults {
        assert_eq!(from_hex(text).expect_err("a fault").to_string(), expected);
    }
}

#[test]
fn k8_has_a_field_a_line() {
    let text = to_hex(&stored::query("K8"));
    let lines: Vec<&str> = text.lines().collect();
    assert_eq!(lines.len(), 15);
    assert_eq!(lines[0], "01 0004 00000003                #    0: base 0 = 3");
    assert_eq!(
        lines[14],
        "07 0009 0002 0003 00 0008 0009  #  110: \
         Boolean 0 (array 2 = array 3) is false, witnesses base 8 and base 9"
    );
}

#[test]
fn a_refused_query_has_its_refusal_as_a_comment() {
    let text = to_hex(&stored::query("K7"));
    let end = "# refused 9 at byte 110: an equality taken to be false, whose witnesses have equal \
               values\n070009000200030000080009\n";
    assert!(text.ends_with(end), "{text}");
}

#[test]
fn the_two_are_inverse_on_the_stored_queries() {
    for name in stored::names() {
        let query = stored::query(&name);
        assert_eq!(from_hex(&to_hex(&query)), Ok(query), "{name}");
    }
}
