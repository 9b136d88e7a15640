//! The graph in Graphviz's language.

mod stored;

use show::dot;

fn line<'a>(graph: &'a str, start: &str) -> &'a str {
    let mut lines = graph.lines().filter(|line| line.trim_start().starts_with(start));
    lines.next().unwrap_or_else(|| panic!("a line that starts with {start}:\n{graph}"))
}

#[test]
fn k6_has_its_path_in_bold_and_its_sources() {
    let expected = r#"graph query {
  label="conflict 22\ndashed: closed to index 5";
  array0 [shape=box, label="array 0"];
  array1 [shape=box, label="array 1"];
  array2 [shape=box, label="array 2 = array 0 with base 3 written at base 0"];
  array3 [shape=box, label="array 3 = array 1 with base 4 written at base 1"];
  array2 -- array0 [label="edge 0: index differs from base 0 = 3", style=bold, penwidth=3];
  array3 -- array1 [label="edge 1: index differs from base 1 = 4", style=bold, penwidth=3];
  array2 -- array3 [label="edge 2: Boolean 0 is true", style=bold, penwidth=3];
  first [shape=ellipse, style=bold, label="first source: read\nbase 6 = 20 at base 2 = 5"];
  first -- array0 [dir=forward];
  later [shape=ellipse, style=bold, label="later source: read\nbase 7 = 21 at base 2 = 5"];
  later -- array1 [dir=forward];
}
"#;
    assert_eq!(dot(&stored::query("K6")), expected);
}

#[test]
fn k8_has_no_path_and_its_false_equality_is_dashed() {
    let graph = dot(&stored::query("K8"));
    assert!(graph.contains("consistent 10\\ndashed: closed to every index"));
    assert!(!graph.contains("bold") && !graph.contains("source"));
    assert!(line(&graph, "array2 -- array3").ends_with("Boolean 0 is true\", style=dashed];"));
    assert!(line(&graph, "array2 -- array0").ends_with("base 0 = 3\"];"));
}

#[test]
fn a_write_at_the_index_of_the_conflict_is_dashed() {
    // K5 with one more write, at the conflict's index, over array 0
    let mut query = stored::query("K5");
    query.extend([0x04, 0, 6, 0, 0, 0, 0, 0, 2]);
    let graph = dot(&query);
    assert!(graph.contains("dashed: closed to index 1"), "{graph}");
    assert!(line(&graph, "array2 -- array0").ends_with("style=dashed];"), "{graph}");
    assert!(graph.contains("first source: write\\nbase 2 = 30 at base 1 = 1"), "{graph}");
}

#[test]
fn a_branch_that_is_not_chosen_is_dotted() {
    let graph = dot(&stored::query("K9"));
    let chosen = line(&graph, "array2 -- array1");
    assert!(chosen.contains("edge 0: Boolean 0 is false\", style=bold"), "{graph}");
    let other = line(&graph, "array2 -- array0");
    assert_eq!(other, "  array2 -- array0 [style=dotted, label=\"not chosen\"];");
}

#[test]
fn the_path_goes_around_a_write_by_two_equalities() {
    let graph = dot(&stored::query("around-a-write"));
    assert!(line(&graph, "array2 -- array0").ends_with("base 1 = 2\"];"), "{graph}");
    for (ends, edge) in [("array2 -- array1", 1), ("array1 -- array0", 2)] {
        let bold = format!("edge {edge}: Boolean {} is true\", style=bold, penwidth=3];", edge - 1);
        assert!(line(&graph, ends).ends_with(&bold), "{graph}");
    }
}

#[test]
fn fixed_numbers_are_told_and_writes_without_a_literal_are_gray() {
    let graph = dot(&stored::query("fixed-K6"));
    for (ends, base) in
        [("array2 -- array0", "base 0 (fixed) = 3"), ("array3 -- array1", "base 1 (fixed) = 4")]
    {
        let gray = format!("index differs from {base}\", style=bold, penwidth=3, color=gray];");
        assert!(line(&graph, ends).ends_with(&gray), "{graph}");
    }
    let across = line(&graph, "array2 -- array3");
    assert!(across.ends_with("Boolean 0 is true\", style=bold, penwidth=3];"), "{graph}");
    assert!(graph.contains("base 6 = 20 at base 2 (fixed) = 5"), "{graph}");
}

#[test]
fn a_write_at_a_free_index_is_not_gray() {
    let graph = dot(&stored::query("fixed-mixed"));
    let write = line(&graph, "array1 -- array0");
    assert!(write.ends_with("base 2 = 2\", style=bold, penwidth=3];"), "{graph}");
    assert!(!graph.contains("gray"), "{graph}");
}

#[test]
fn a_refused_query_shows_what_comes_before_the_fault() {
    let graph = dot(&stored::query("K7"));
    assert!(graph.starts_with("graph query {\n  label=\"refused 9 at byte 110: an equality"));
    assert_eq!(graph.matches(" -- ").count(), 2);
}

#[test]
fn every_lemma_of_the_stored_queries_has_its_path() {
    let mut conflicts = 0;
    for name in stored::names() {
        if stored::text(&format!("{name}.verdict")).starts_with("conflict") {
            assert!(dot(&stored::query(&name)).contains("first source"), "{name}");
            conflicts += 1;
        }
    }
    assert!(
        conflicts >= 25,
        "six of K1 to K9, nine on which path is chosen, ten with fixed numbers"
    );
}
