//! The page docs/K6.md walks one query through the product. Here each of its
//! numbers is made again by a run, and must stand on the page.

use crate::field::grouped;
use crate::graph::{Distance, Graph, Guard};
use crate::path::Path;
use crate::walk::Walk;
use std::fs;
use zunidelo::{
    check, check_into, clauses, clauses_into, Checked, Totals, Verdict, CLAUSE_NUMBERS, LEMMA_BYTES,
};

fn file(path: &str) -> String {
    let path = format!("{}/../../{path}", env!("CARGO_MANIFEST_DIR"));
    fs::read_to_string(&path).unwrap_or_else(|error| panic!("{path}: {error}"))
}

fn query() -> Vec<u8> {
    crate::from_hex(&file("tests/known/K6.hex")).expect("hex text")
}

fn graph() -> Graph {
    Graph::of(&Walk::of(&query(), None).fields)
}

/// Each of these stands on the page, where a line's end is a space.
fn demand(pieces: &[String]) {
    let page = file("docs/K6.md").replace('\n', " ");
    for piece in pieces {
        let piece = piece.replace('\n', " ");
        assert!(page.contains(piece.trim_end()), "docs/K6.md has no:\n{piece}");
    }
}

fn indented(lines: &str) -> String {
    lines.lines().map(|line| format!("    {line}\n")).collect()
}

fn base(graph: &Graph, number: usize) -> String {
    format!("base {number} = {}", graph.values[number])
}

fn listed(numbers: impl IntoIterator<Item = usize>) -> String {
    let words: Vec<String> = numbers.into_iter().map(|number| number.to_string()).collect();
    words.join(", ")
}

#[test]
fn the_fields_and_the_verdict_are_those_of_k6() {
    let query = query();
    let walk = Walk::of(&query, None);
    let graph = graph();
    demand(&[
        indented(&file("tests/known/K6.verdict")),
        format!("{} bytes in {} fields", query.len(), walk.fields.len()),
        indented(&crate::listing::listing(&query, &walk)),
        format!("`{}`", file("tests/known/K7.verdict").trim_end()),
        format!(
            "{} base terms, {} Boolean and {} arrays",
            graph.values.len(),
            graph.truths.len(),
            graph.arrays.len()
        ),
    ]);
}

#[test]
fn the_sources_and_edges_are_those_of_k6() {
    let graph = graph();
    let mut rows = Vec::new();
    for (number, source) in graph.sources.iter().enumerate() {
        let kind = if source.is_write { "write" } else { "read" };
        let (index, value) = (base(&graph, source.index), base(&graph, source.value));
        rows.push(format!("| {number}, {kind} | array {} | {index} | {value} |", source.origin));
    }
    for (number, edge) in graph.edges.iter().enumerate() {
        let guard = match edge.guard {
            Guard::Differs(index) => format!("the index differs from {}", base(&graph, index)),
            Guard::True(boolean) => format!("Boolean {boolean} is true"),
            Guard::False(boolean) => format!("Boolean {boolean} is false"),
        };
        let [one, other] = edge.ends;
        rows.push(format!("| {number} | array {one}, array {other} | {guard} |"));
    }
    assert_eq!(rows.len(), 9);
    demand(&rows);
}

#[test]
fn the_marks_are_those_of_k6() {
    let graph = graph();
    let mut rows = Vec::new();
    let mut pairs = 0;
    for (number, source) in graph.sources.iter().enumerate() {
        let at = graph.index_value(number);
        let ways = graph.distances(source.origin, at);
        let reached: Vec<usize> = (0..ways.len()).filter(|a| ways[*a].is_some()).collect();
        let row: u64 = reached.iter().map(|array| 1 << array).sum();
        pairs += reached.len();
        rows.push(format!("| {number} | {at} | {} | {row:04b} |", listed(reached)));
    }
    demand(&rows);
    demand(&[format!("everything else goes everywhere: {pairs} pairs")]);
    assert!(matches!(check(&query()), Ok(Verdict::Conflict { pairs: told, .. }) if told == pairs));
}

#[test]
fn the_path_is_that_of_k6() {
    let graph = graph();
    let Ok(Verdict::Conflict { lemma, .. }) = check(&query()) else { panic!("K6 is in conflict") };
    let path = Path::of(&graph, &lemma).expect("the lemma's path");
    let at = graph.index_value(path.first);
    let goal = graph.sources[path.later].origin;
    // Each write costs as much as all edges that it could spare, and one more.
    let cost = |distance: Distance| 48 * distance.writes + distance.edges;
    let costs: Vec<usize> = graph.distances(goal, at).into_iter().flatten().map(cost).collect();
    let (last, front) = costs.split_last().expect("four arrays");
    demand(&[
        format!("`first_pair` finds {} and {}", path.first, path.later),
        format!("the way to array {goal} at index {at} costs"),
        format!("{} and {last} from arrays 0 to 3", listed(front.iter().copied())),
        format!("on a way of least cost: edges {}.", listed(path.edges)),
    ]);
}

#[test]
fn the_lemma_is_that_of_k6() {
    let mut answer = [0; LEMMA_BYTES];
    let checked = check_into(&query(), &mut answer);
    let Ok(Checked::Conflict { pairs, length }) = checked else { panic!("K6 is in conflict") };
    let mut fields = Vec::new();
    let mut rest = &answer[..length];
    while !rest.is_empty() {
        let (field, after) = rest.split_at(3 + usize::from(rest[2]));
        let parts: Vec<String> = field[3..].chunks(2).map(crate::field::hex).collect();
        fields.push(format!("    {} {} ", grouped(&field[..3]), parts.join(" ")));
        rest = after;
    }
    assert_eq!(fields.len(), 4);
    demand(&fields);
    demand(&[
        format!("`put_lemma` writes {length}\nbytes"),
        format!("fewer than {length} bytes"),
        format!("`zunidelo_check` returns 1 with the report 0, 0, {pairs}, {length}, "),
    ]);
}

#[test]
fn the_clauses_are_those_of_k6() {
    let mut numbers = vec![0; CLAUSE_NUMBERS];
    let Totals { variables, clauses: count, count: long } =
        clauses_into(&query(), &mut numbers).expect("the clauses");
    let lines = clauses(&query()).expect("the clauses").to_string();
    let lines: Vec<&str> = lines.lines().collect();
    demand(&[
        indented(&lines[..3].join("\n")) + "    ...\n" + &indented(lines[count]),
        format!("{count} clauses in {long} numbers"),
        format!("or {long} numbers"),
        format!("returns 1 with 0, 0, {variables}, {count}, {long}."),
    ]);
}
