//! The tester as a whole program: with a child at the other end of the pipes,
//! and with the library linked in.

use std::process::{Command, Output};

const TESTER: &str = env!("CARGO_BIN_EXE_tester");

fn run(name: &str, arguments: &[&str]) -> Output {
    let cases = format!("{}/{name}", env!("CARGO_TARGET_TMPDIR"));
    let _ = std::fs::remove_dir_all(&cases);
    let command = &mut Command::new(TESTER);
    command.args(["--cases", &cases]).args(arguments).output().expect("the tester starts")
}

fn shows_no_difference_and_every_bound(name: &str, product: &[&str]) {
    let output = run(name, &[&["--seed", "3", "--count", "300"], product].concat());
    let text = String::from_utf8_lossy(&output.stdout);
    assert!(output.status.success(), "{text}");
    assert!(text.ends_with("\n300 queries compared, no difference\n"), "{text}");
    let bounds = "14496 consistent, 14496 in conflict; longest lemma: 49 literals, 343 bytes; \
                  longest run: 12625 numbers; most cells of one array: 256";
    assert!(text.contains(bounds), "{text}");
    let fixed = text.lines().find(|line| line.contains(" with fixed numbers")).expect("a line");
    let counts: Vec<usize> = fixed.split(' ').filter_map(|word| word.parse().ok()).collect();
    assert!(counts.len() == 2 && counts[0] > 100 && counts[1] > 5, "{fixed}");
    for number in 1..=12 {
        assert!(text.contains(&format!("refused {number:>2} ")), "{number}: {text}");
    }
}

#[test]
fn a_right_child_shows_no_difference_and_every_bound() {
    shows_no_difference_and_every_bound("right", &["--product", TESTER, "--serve"]);
}

#[test]
fn the_library_shows_no_difference_and_every_bound() {
    shows_no_difference_and_every_bound("library", &["--library"]);
}

#[test]
fn the_exhaustive_run_counts_its_queries() {
    let output = run("exhaustive", &["--exhaustive", "4"]);
    let text = String::from_utf8_lossy(&output.stdout);
    assert!(output.status.success(), "{text}");
    assert!(text.starts_with("all 3929 queries of at most 4 fields, 32 in conflict"), "{text}");
    assert!(text.ends_with(" calls compared\n7673 queries compared, no difference\n"), "{text}");
}

#[test]
fn a_run_that_compares_nothing_fails() {
    let output = run("empty", &["--count", "0", "--library"]);
    assert!(!output.status.success());
    assert!(String::from_utf8_lossy(&output.stderr).contains("nothing was compared"));
}

#[test]
fn a_child_that_ends_is_a_difference() {
    let output = run("ends", &["--seed", "3", "--count", "200", "--product", "false"]);
    let text = String::from_utf8_lossy(&output.stdout);
    assert!(!output.status.success());
    assert!(text.contains("(ended)"), "{text}");
}

#[test]
fn a_child_that_cannot_start_is_told() {
    let output = run("nothing", &["--product", "/no/such/product"]);
    assert!(!output.status.success());
    assert!(String::from_utf8_lossy(&output.stderr).contains("/no/such/product"));
}
