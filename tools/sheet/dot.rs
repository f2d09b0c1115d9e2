// The same graph as Graphviz text.

use super::boxes::tag;
use super::graph::{Graph, Kind, Node};

fn quoted(text: &str) -> String {
    let mut out = String::from("\"");
    for c in text.chars() {
        match c {
            '"' => out.push_str("\\\""),
            '\\' => out.push_str("\\\\"),
            '\n' => out.push_str("\\n"),
            c => out.push(c),
        }
    }
    out.push('"');
    out
}

fn node_line(number: usize, node: &Node) -> String {
    let same = if node.same.is_empty() { String::new() } else { format!("\nsame as {}", node.same.join(", ")) };
    let flag = if node.goal { " (goal)" } else { "" };
    let label = quoted(&format!("{}{flag}\n{}\n{}{same}", tag(node), node.label, node.term));
    let look = match (&node.kind, node.goal) {
        (Kind::Missed, _) | (Kind::Missing, true) => "style=\"filled,rounded,dashed\", fillcolor=\"#fdecea\", color=\"#c0392b\", penwidth=2",
        (Kind::Missing, _) => "style=\"filled,rounded,dashed\", fillcolor=\"#ffffff\", color=\"#c0392b\"",
        // Public atoms have square corners.
        (Kind::Public, true) => "style=filled, fillcolor=\"#fff2c2\", color=\"#c98a00\", penwidth=2",
        (Kind::Public, _) => "style=filled, fillcolor=\"#e4e8ec\", color=\"#5f6d7d\"",
        (_, true) => "style=\"filled,rounded\", fillcolor=\"#fff2c2\", color=\"#c98a00\", penwidth=2",
        (Kind::Heard(_), _) => "style=\"filled,rounded\", fillcolor=\"#e9f1fc\", color=\"#7d9fd0\"",
        _ => "style=\"filled,rounded\", fillcolor=\"#ffffff\", color=\"#8b94a6\"",
    };
    let pale = if node.needed { "" } else { ", fontcolor=\"#9aa2b1\"" };
    format!("  n{number} [label={label}, {look}{pale}];\n")
}

pub fn dot(graph: &Graph) -> String {
    let caption = std::iter::once(graph.title.as_str()).chain(graph.notes.iter().map(String::as_str)).collect::<Vec<_>>().join("\n");
    let mut out = format!("digraph ladder {{\n  rankdir=LR;\n  label={};\n  labelloc=t;\n  bgcolor=\"#fbfaf6\";\n", quoted(&caption));
    out.push_str("  node [shape=box, fontname=\"DejaVu Sans Mono\", fontsize=11];\n  edge [color=\"#56627a\"];\n");
    for (i, node) in graph.nodes.iter().enumerate() {
        // Without a ladder nothing is pale.
        let shown = Node { needed: node.needed || !graph.reached, ..node.clone() };
        out.push_str(&node_line(i, &shown));
    }
    for edge in &graph.edges {
        let missing = graph.nodes[edge.from].kind == Kind::Missing;
        let dashed = if edge.key || missing { "style=dashed, " } else { "" };
        let colour = match edge.needed {
            _ if missing => "#c0392b",
            true => "#56627a",
            false => "#c6cbd5",
        };
        out.push_str(&format!("  n{} -> n{} [{dashed}color=\"{colour}\"];\n", edge.from, edge.to));
    }
    out.push_str("}\n");
    out
}
