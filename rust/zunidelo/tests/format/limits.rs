//! The limits, each reached and passed by one, and the bounds that follow
//! from them, each reached.

use crate::fields::{base, boolean, equality, read, row, rows, variable, write, Series};
use crate::stored;
use crate::tags::examples;
use crate::{fields, page};
use zunidelo::{check, check_into, clauses_into, Checked, Refusal, Verdict};

/// A row of the limits: of what, how many, the refusal of one more.
fn limits() -> Vec<(String, usize, usize)> {
    let columns = ["of", "at most", "one more is refused by"];
    let rows = page::section("Limits").table(columns);
    assert_eq!(rows.len(), 4, "a limit for each series, and one of bytes");
    let rows = rows.into_iter();
    rows.map(|[of, most, number]| (of, page::number(&most), page::number(&number))).collect()
}

fn limit(of: &str) -> usize {
    let found = limits().into_iter().find(|limit| limit.0 == of);
    found.unwrap_or_else(|| panic!("no limit of {of}")).1
}

/// The series' plain field: it names nothing.
fn plain(series: Series) -> Vec<u8> {
    match series {
        Series::Base => base(9),
        Series::Boolean => boolean(0),
        Series::Array => variable(),
    }
}

fn count(series: Series) -> usize {
    let given = fields::GIVEN.iter().find(|given| given.0 == series);
    given.expect("each series").1 as usize
}

#[test]
fn the_limits_are_reached_and_no_more() {
    let series: Vec<_> = limits().into_iter().filter(|limit| limit.0 != "bytes").collect();
    assert_eq!(series.len(), 3);
    for (of, most, number) in series {
        let series = Series::of(&of.to_lowercase().replace("boolean", "Boolean"));
        let full = plain(series).repeat(most - count(series));
        let full = [fields::front(), full].concat();
        assert!(check(&full).is_ok(), "{most} {of}");
        for (row, field) in examples().into_iter().filter(|example| example.0.gives == series) {
            let refusal = check(&[full.clone(), field].concat()).expect_err("one too many");
            assert_eq!(usize::from(refusal.number()), number, "{of}: {}", row.field);
            assert_eq!(refusal.offset(), full.len(), "{of}: {}", row.field);
        }
    }
}

#[test]
fn the_limit_of_bytes_is_reached_and_no_more() {
    let (_, most, number) =
        limits().into_iter().find(|limit| limit.0 == "bytes").expect("a limit of bytes");
    let refusal = |length: usize| check(&vec![0; length]).expect_err("0 is no tag");
    assert_eq!(refusal(most), Refusal::UnknownTag { offset: 0 });
    for length in [most + 1, 2 * most, 65_536 + 3] {
        assert_eq!(usize::from(refusal(length).number()), number);
        assert_eq!(refusal(length).offset(), 0);
    }
}

/// The bound of this name.
fn bound(name: &str) -> usize {
    let rows = page::section("Limits").table(["the most", "number"]);
    assert_eq!(rows.len(), 5, "each bound is tried");
    let found = rows.iter().find(|row| row[0] == name);
    page::number(&found.unwrap_or_else(|| panic!("no bound of {name}"))[1])
}

/// As many terms of each series as there may be, each by its longest field;
/// only the first base term and the first array term can't name any.
fn largest() -> Vec<u8> {
    let mut query = [base(5), variable()].concat();
    query.extend(read(0, 0, 7).repeat(limit("base terms") - 1));
    query.extend(write(0, 0, 0).repeat(limit("array terms") - 1));
    query.extend(equality([0, 0], 1, [1, 1]).repeat(limit("Booleans")));
    query
}

#[test]
fn the_largest_query_that_passes_has_as_many_bytes_as_the_page_says() {
    let query = largest();
    assert!(check(&query).is_ok());
    assert_eq!(query.len(), bound("bytes of a query that passes 1 to 9"));
    for (field, series) in
        [("read", Series::Base), ("write", Series::Array), ("equality", Series::Boolean)]
    {
        let longest = rows().iter().filter(|row| row.gives == series).map(|row| row.length).max();
        assert_eq!(Some(row(field).length), longest, "no field of a {series:?} is longer");
    }
    for (row, field) in examples() {
        let refusal = check(&[query.clone(), field].concat()).expect_err("every series is full");
        assert_eq!(refusal, Refusal::TooManyTerms { offset: query.len() }, "{}", row.field);
    }
}

#[test]
fn the_most_pairs_are_those_of_the_page() {
    let most = bound("pairs");
    assert_eq!(check(&stored::query("all-pairs")), Ok(Verdict::Consistent { pairs: most }));
    let conflict = check(&stored::query("all-pairs-conflict"));
    assert!(matches!(conflict, Ok(Verdict::Conflict { pairs, .. }) if pairs == most));
    // "(array term, source)": the largest query has as many sources as there can be
    let sources = limit("array terms") - 1 + limit("base terms") - 1;
    assert_eq!(limit("array terms") * sources, most);
}

#[test]
fn the_longest_lemma_is_that_of_the_page() {
    let query = stored::query("longest");
    let Ok(Verdict::Conflict { lemma, .. }) = check(&query) else { panic!("a conflict") };
    assert_eq!(lemma.literals.len(), bound("literals of a lemma"));
    let bytes = bound("bytes of a lemma");
    let checked = check_into(&query, &mut vec![0; bytes]);
    assert!(matches!(checked, Ok(Checked::Conflict { length, .. }) if length == bytes));
    let numbers = bound("numbers of the clauses of a lemma");
    let totals = clauses_into(&query, &mut vec![0; numbers]).expect("room enough");
    assert_eq!(totals.count, numbers);
}
