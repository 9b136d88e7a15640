//! The graph of a query in Graphviz's language: array terms, and edges with
//! their numbers and guards. Closed edges are dashed; of a conflict the path
//! is bold, gray where its literal is left out of the lemma, and the two sources
//! hang at their origins.

use crate::graph::{Edge, Graph, Guard};
use crate::path::Path;
use crate::walk::Walk;
use zunidelo::{check, Verdict};

/// The graph of the fields without fault, with the verdict as its title.
pub fn dot(query: &[u8]) -> String {
    let checked = check(query);
    let graph = Graph::of(&Walk::of(query, checked.as_ref().err()).fields);
    let path = match &checked {
        Ok(Verdict::Conflict { lemma, .. }) => Path::of(&graph, lemma),
        _ => None,
    };
    let title = match checked {
        Err(refusal) => refusal.to_string(),
        Ok(Verdict::Consistent { pairs }) => format!("consistent {pairs}"),
        Ok(Verdict::Conflict { pairs, .. }) => format!("conflict {pairs}"),
    };
    let closed_to = path.as_ref().map_or("every index".to_string(), |path| {
        format!("index {}", graph.index_value(path.first))
    });
    let title = format!("{title}\\ndashed: closed to {closed_to}");
    format!("graph query {{\n{}}}\n", statements(&graph, &title, path.as_ref()))
}

fn statements(graph: &Graph, title: &str, path: Option<&Path>) -> String {
    let mut text = format!("  label=\"{title}\";\n");
    for (number, words) in graph.arrays.iter().enumerate() {
        text += &format!("  array{number} [shape=box, label=\"{words}\"];\n");
    }
    for (number, edge) in graph.edges.iter().enumerate() {
        text += &edge_statement(graph, number, edge, path);
    }
    for [array, other] in &graph.not_chosen {
        text += &format!("  array{array} -- array{other} [style=dotted, label=\"not chosen\"];\n");
    }
    if let Some(path) = path {
        text += &source_statements(graph, "first", path.first);
        text += &source_statements(graph, "later", path.later);
    }
    text
}

fn edge_statement(graph: &Graph, number: usize, edge: &Edge, path: Option<&Path>) -> String {
    let [one, other] = edge.ends;
    let guard = match edge.guard {
        Guard::Differs(index) => format!("index differs from {}", graph.base_and_value(index)),
        Guard::True(boolean) => format!("Boolean {boolean} is true"),
        Guard::False(boolean) => format!("Boolean {boolean} is false"),
    };
    let style = match path {
        Some(path) if path.edges.contains(&number) && path.leaves_out(graph, edge) => {
            ", style=bold, penwidth=3, color=gray"
        }
        Some(path) if path.edges.contains(&number) => ", style=bold, penwidth=3",
        _ if is_closed(graph, edge, path) => ", style=dashed",
        _ => "",
    };
    format!("  array{one} -- array{other} [label=\"edge {number}: {guard}\"{style}];\n")
}

/// Closed to the index value of the two sources; without them, closed to
/// every index value, which no write is.
fn is_closed(graph: &Graph, edge: &Edge, path: Option<&Path>) -> bool {
    match (path, edge.guard) {
        (Some(path), _) => !graph.is_open(edge, graph.index_value(path.first)),
        (None, Guard::Differs(_)) => false,
        (None, _) => !graph.is_open(edge, 0),
    }
}

fn source_statements(graph: &Graph, name: &str, number: usize) -> String {
    let source = graph.sources[number];
    let [value, index] = [source.value, source.index].map(|base| graph.base_and_value(base));
    let kind = if source.is_write { "write" } else { "read" };
    format!(
        "  {name} [shape=ellipse, style=bold, label=\"{name} source: {kind}\\n\
         {value} at {index}\"];\n  {name} -- array{} [dir=forward];\n",
        source.origin
    )
}
