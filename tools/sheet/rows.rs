// A long ladder in parts, each small enough for a row of the picture. A part has some rungs that follow one another, the public atoms and
// heard messages that are first used there, and a small node for each source that stands in an earlier part.

use super::boxes::tag;
use super::graph::{restrict, Graph, Kind};

// The part with these rungs. `first_use` has the rung that uses each node first.
fn part(graph: &Graph, rungs: &[usize], first_use: &[Option<usize>]) -> Graph {
    let inside = |node: usize| rungs.contains(&node);
    let mut sources: Vec<usize> = graph.edges.iter().filter(|edge| inside(edge.to) && !inside(edge.from)).map(|edge| edge.from).collect();
    sources.sort_unstable();
    sources.dedup();
    let kept: Vec<usize> = sources.iter().chain(rungs).copied().collect();
    let mut part = restrict(graph, &kept);
    part.edges.retain(|edge| edge.to >= sources.len());
    for (i, source) in sources.iter().enumerate() {
        let rung = matches!(graph.nodes[*source].kind, Kind::Rung(..));
        if rung || first_use[*source].map_or(false, |first| !inside(first)) {
            part.nodes[i].kind = Kind::Again(step_of(&part.nodes[i].kind).unwrap_or_else(|| tag(&graph.nodes[*source])));
        }
    }
    part
}

fn step_of(kind: &Kind) -> Option<String> {
    if let Kind::Rung(number, _) = kind { Some(format!("step {number}")) } else { None }
}

// The rung that uses a node first. Edges are in the order of the rungs.
fn first_use(graph: &Graph, node: usize) -> Option<usize> {
    graph.edges.iter().find(|edge| edge.from == node).map(|edge| edge.to)
}

// Takes as many rungs into a part as fit, and goes on behind them. A ladder that fits is its only part.
pub fn parts(graph: &Graph, fits: impl Fn(&Graph) -> bool) -> Vec<Graph> {
    let rungs: Vec<usize> = (0..graph.nodes.len()).filter(|node| matches!(graph.nodes[*node].kind, Kind::Rung(..))).collect();
    if rungs.is_empty() || fits(graph) {
        return vec![graph.clone()];
    }
    let first_use: Vec<Option<usize>> = (0..graph.nodes.len()).map(|node| first_use(graph, node)).collect();
    let mut parts = Vec::new();
    let mut open: Option<(usize, Graph)> = None;
    for i in 0..rungs.len() {
        let start = open.as_ref().map_or(i, |(start, _)| *start);
        let longer = part(graph, &rungs[start..=i], &first_use);
        open = if start == i || fits(&longer) {
            Some((start, longer))
        } else {
            parts.extend(open.map(|(_, done)| done));
            Some((i, part(graph, &rungs[i..=i], &first_use)))
        };
    }
    parts.extend(open.map(|(_, done)| done));
    parts
}
