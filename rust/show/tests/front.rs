//! The line that tells since which field a query is in conflict.

mod stored;

use show::show;
use zunidelo::{check, Verdict};

const SINCE: &str = "    in conflict since byte ";

const VARIABLE: [u8; 3] = [0x03, 0, 0];

fn is_in_conflict(query: &[u8]) -> bool {
    matches!(check(query), Ok(Verdict::Conflict { .. }))
}

/// Where each field begins, and the query's end.
fn cuts(query: &[u8]) -> Vec<usize> {
    let mut cuts = vec![0];
    while let Some(head) = query.get(cuts[cuts.len() - 1]..).and_then(|rest| rest.get(..3)) {
        cuts.push(cuts[cuts.len() - 1] + 3 + usize::from(head[2]));
    }
    cuts
}

/// The line's numbers: a field's offset, how many fields the front has, and
/// how many the whole.
fn told(query: &[u8]) -> Option<[usize; 3]> {
    let text = show(query);
    let line = text.lines().find_map(|line| line.strip_prefix(SINCE))?;
    let numbers: Vec<usize> =
        line.split([' ', ':', ',']).filter_map(|word| word.parse().ok()).collect();
    Some(numbers.try_into().expect("three numbers"))
}

#[test]
fn k9_is_in_conflict_before_its_last_field() {
    let expected = "\
conflict: no memories fit. 5 pairs. The lemma:
    if Boolean 0 is false
    then base 1 = base 2
    but base 1 = 4 and base 2 = 5
    in conflict since byte 37: the first 7 fields, of 8, are in conflict already, \
    and so is every accepted query that begins with them
";
    let text = show(&stored::query("K9"));
    assert!(text.ends_with(expected), "{text}");
}

#[test]
fn the_line_stands_after_what_is_left_out() {
    let query = [stored::query("fixed-K6"), VARIABLE.to_vec()].concat();
    let text = show(&query);
    let last: Vec<&str> = text.lines().rev().take(2).collect();
    assert!(last[0].starts_with(SINCE), "{text}");
    assert!(last[1].starts_with("    left out, as both are fixed: "), "{text}");
}

#[test]
fn k6_is_in_conflict_only_as_a_whole_until_it_grows() {
    let mut query = stored::query("K6");
    assert_eq!(told(&query), None);
    for fields in 16..20 {
        query.extend(VARIABLE);
        assert_eq!(told(&query), Some([110, 15, fields]));
    }
}

#[test]
fn the_front_that_is_told_is_the_shortest_in_conflict() {
    let mut seen = [0; 3];
    for name in stored::names() {
        let query = stored::query(&name);
        if !is_in_conflict(&query) {
            assert_eq!(told(&query), None, "{name}");
            seen[0] += 1;
            continue;
        }
        let cuts = cuts(&query);
        let all = cuts.len() - 1;
        let [offset, front, whole] = told(&query).unwrap_or([cuts[all - 1], all, all]);
        assert_eq!((cuts[front - 1], whole), (offset, all), "{name}");
        assert!(is_in_conflict(&query[..cuts[front]]), "{name}");
        assert!(!is_in_conflict(&query[..offset]), "{name}");
        seen[if front == all { 1 } else { 2 }] += 1;
    }
    assert!(seen.iter().all(|count| *count >= 10), "no conflict, as a whole, before: {seen:?}");
}
