//! The program: its arguments, its input and its exit status.

mod stored;

use std::io::Write;
use std::process::{Command, Output, Stdio};

/// What the program does with these arguments and this standard input.
fn run(arguments: &[&str], input: &[u8]) -> Output {
    let mut child = Command::new(env!("CARGO_BIN_EXE_zunidelo-show"))
        .args(arguments)
        .stdin(Stdio::piped())
        .stdout(Stdio::piped())
        .stderr(Stdio::piped())
        .spawn()
        .expect("the program starts");
    // A program that stops at its arguments may be gone before it is written to.
    let _ = child.stdin.take().expect("a pipe").write_all(input);
    child.wait_with_output().expect("the program ends")
}

fn printed(arguments: &[&str], input: &[u8]) -> Vec<u8> {
    let output = run(arguments, input);
    assert!(output.status.success() && output.stderr.is_empty(), "{arguments:?}: {output:?}");
    output.stdout
}

#[test]
fn a_query_comes_from_standard_input_or_from_a_file() {
    let file = stored::folder().join("K6.hex");
    let file = file.to_str().expect("a plain path");
    let query = stored::query("K6");
    let expected = show::show(&query).into_bytes();
    assert_eq!(printed(&[], &query), expected);
    assert_eq!(printed(&["--hex"], stored::text("K6.hex").as_bytes()), expected);
    assert_eq!(printed(&["--hex", file], b"not read"), expected);
    assert_eq!(printed(&["--dot"], &query), show::dot(&query).into_bytes());
}

#[test]
fn a_refused_query_is_shown_like_any_other() {
    let query = stored::query("K7");
    assert_eq!(printed(&[], &query), show::show(&query).into_bytes());
}

#[test]
fn to_hex_and_from_hex_are_inverse() {
    for name in stored::names() {
        let query = stored::query(&name);
        assert_eq!(printed(&["--from-hex"], &printed(&["--to-hex"], &query)), query, "{name}");
    }
}

#[test]
fn what_cannot_be_read_ends_with_status_2() {
    let cases: [(&[&str], &[u8], &str); 5] = [
        (&["--hex"], b"03 000", "zunidelo-show: line 1: `000` is not bytes in hex\n"),
        (&["--from-hex"], b"\xFF", "zunidelo-show: line 1: `\u{FFFD}` is not bytes in hex\n"),
        (&["no such file"], b"", "zunidelo-show: no such file: "),
        (&["--other"], b"", "usage: zunidelo-show "),
        (&["--dot", "--to-hex"], b"", "usage: zunidelo-show "),
    ];
    for (arguments, input, message) in cases {
        let output = run(arguments, input);
        assert_eq!(output.status.code(), Some(2), "{arguments:?}");
        assert!(output.stdout.is_empty(), "{arguments:?}");
        let said = String::from_utf8(output.stderr).expect("text");
        assert!(said.starts_with(message), "{arguments:?}: {said}");
    }
}
