// A layered layout, from left to right: the rank of a rung is its longest path from the public atoms and heard messages, and such a start
// stands just before its first use. In a rank, starts keep their order: public atoms, then heard messages. A line that passes a rank has
// a point there, shared by all lines of the same source, so no line runs over a box.

use super::graph::{Edge, Graph, Kind};

pub const GAP: f64 = 18.0;
const POINT: f64 = 7.0;
const SWEEPS: usize = 8;

// A box or a point. The first ones are the graph's nodes.
pub struct Cell {
    pub rank: usize,
    pub height: f64,
    // A public atom or a heard message.
    pub start: bool,
    // The middle.
    pub y: f64,
}

// A piece of a line between neighbouring ranks.
#[derive(Clone, Copy)]
pub struct Link {
    pub from: usize,
    pub to: usize,
    pub key: bool,
    pub needed: bool,
}

pub struct Layout {
    pub cells: Vec<Cell>,
    pub links: Vec<Link>,
    pub ranks: Vec<Vec<usize>>,
}

fn is_rung(graph: &Graph, node: usize) -> bool {
    matches!(graph.nodes[node].kind, Kind::Rung(..))
}

// The ranks of the rungs; all else has 0. Edges are in the order of the rungs: a source's rank is final before it is read.
fn rung_ranks(graph: &Graph) -> Vec<usize> {
    let mut rank: Vec<usize> = (0..graph.nodes.len()).map(|node| usize::from(is_rung(graph, node))).collect();
    for edge in &graph.edges {
        rank[edge.to] = rank[edge.to].max(rank[edge.from] + 1);
    }
    rank
}

// What isn't a rung stands one rank before the first that uses it.
fn rank_of(graph: &Graph) -> Vec<usize> {
    let rungs = rung_ranks(graph);
    let mut rank = rungs.clone();
    for node in (0..rank.len()).filter(|node| !is_rung(graph, *node)) {
        let uses = graph.edges.iter().filter(|edge| edge.from == node).map(|edge| rungs[edge.to]);
        rank[node] = uses.min().map_or(0, |first| first - 1);
    }
    let least = rank.iter().min().copied().unwrap_or(0);
    rank.iter().map(|rank| rank - least).collect()
}

// The links of one source: a chain of points through the ranks that its lines pass, and a link to each target.
fn route(layout: &mut Layout, source: usize, edges: &[Edge]) {
    let far = |needed: bool| edges.iter().filter(|e| e.needed || !needed).map(|e| layout.cells[e.to].rank).max().unwrap_or(0);
    let (last, last_needed) = (far(false), far(true));
    let start = layout.cells[source].rank;
    let mut at = source;
    for rank in start + 1..=last {
        for edge in edges.iter().filter(|e| layout.cells[e.to].rank == rank) {
            layout.links.push(Link { from: at, to: edge.to, key: edge.key, needed: edge.needed });
        }
        if rank < last {
            let point = layout.cells.len();
            layout.cells.push(Cell { rank, height: POINT, start: false, y: 0.0 });
            layout.ranks[rank].push(point);
            layout.links.push(Link { from: at, to: point, key: false, needed: rank < last_needed });
            at = point;
        }
    }
}

// For each cell, its neighbours in the rank before (or after).
fn neighbours(layout: &Layout, before: bool) -> Vec<Vec<usize>> {
    let mut list = vec![Vec::new(); layout.cells.len()];
    for link in &layout.links {
        let (cell, other) = if before { (link.to, link.from) } else { (link.from, link.to) };
        list[cell].push(other);
    }
    list
}

fn positions(layout: &Layout) -> Vec<usize> {
    let mut position = vec![0; layout.cells.len()];
    for rank in &layout.ranks {
        rank.iter().enumerate().for_each(|(i, cell)| position[*cell] = i);
    }
    position
}

// How often lines cross: for each two neighbouring ranks, pairs of links in opposite orders. A counting tree holds the ends seen.
fn crossings(layout: &Layout) -> usize {
    let position = positions(layout);
    let after = neighbours(layout, false);
    let mut total = 0;
    for (r, rank) in layout.ranks.iter().enumerate() {
        let width = layout.ranks.get(r + 1).map_or(0, Vec::len);
        let (mut tree, mut seen) = (vec![0usize; width + 1], 0);
        for cell in rank {
            let mut ends: Vec<usize> = after[*cell].iter().map(|to| position[*to]).collect();
            ends.sort_unstable();
            for end in &ends {
                let mut i = end + 1;
                let mut below = 0;
                while i > 0 {
                    below += tree[i];
                    i &= i - 1;
                }
                total += seen - below;
            }
            for end in ends {
                let mut i = end + 1;
                while i <= width {
                    tree[i] += 1;
                    i += i & i.wrapping_neg();
                }
                seen += 1;
            }
        }
    }
    total
}

// Orders one rank by the mean position of the neighbours. Cells without any keep their place. Starts then share their places out in their
// order, which is that of their numbers.
fn order(rank: &mut [usize], cells: &[Cell], neighbours: &[Vec<usize>], position: &mut [usize]) {
    let mean = |cell: usize| {
        let list = &neighbours[cell];
        match list.len() {
            0 => position[cell] as f64,
            n => list.iter().map(|other| position[*other] as f64).sum::<f64>() / n as f64,
        }
    };
    let mut keyed: Vec<(f64, usize)> = rank.iter().map(|cell| (mean(*cell), *cell)).collect();
    keyed.sort_by(|a, b| a.0.total_cmp(&b.0));
    let mut starts: Vec<usize> = rank.iter().copied().filter(|cell| cells[*cell].start).collect();
    starts.sort_unstable_by(|a, b| b.cmp(a));
    let ordered = keyed.into_iter().map(|(_, cell)| if cells[cell].start { starts.pop().unwrap_or(cell) } else { cell });
    for (i, cell) in ordered.enumerate() {
        rank[i] = cell;
        position[cell] = i;
    }
}

// Sweeps to and fro, and keeps the order with the fewest crossings.
fn untangle(layout: &mut Layout) {
    let (before, after) = (neighbours(layout, true), neighbours(layout, false));
    let mut best = (crossings(layout), layout.ranks.clone());
    for sweep in 0..SWEEPS {
        let mut position = positions(layout);
        let count = layout.ranks.len();
        for i in 0..count {
            let (r, list) = if sweep % 2 == 0 { (i, &before) } else { (count - 1 - i, &after) };
            order(&mut layout.ranks[r], &layout.cells, list, &mut position);
        }
        let now = crossings(layout);
        if now < best.0 {
            best = (now, layout.ranks.clone());
        }
    }
    layout.ranks = best.1;
}

// The heights of one rank's middles: as near to the wanted ones as can be without overlap, in order. Blocks of cells that
// touch move together to their mean.
fn settle(wanted: &[(f64, f64)], steps: &[f64]) -> Vec<f64> {
    let mut blocks: Vec<(f64, f64, usize)> = Vec::new();
    let mut offset = 0.0;
    let mut offsets = Vec::new();
    for ((want, weight), step) in wanted.iter().zip(steps) {
        offset += step;
        offsets.push(offset);
        let mut block = (want - offset, *weight, 1);
        while let Some(last) = blocks.last().copied().filter(|last| last.0 > block.0) {
            blocks.pop();
            let weight = last.1 + block.1;
            block = ((last.0 * last.1 + block.0 * block.1) / weight, weight, last.2 + block.2);
        }
        blocks.push(block);
    }
    let flat = blocks.iter().flat_map(|block| std::iter::repeat(block.0).take(block.2));
    flat.zip(offsets).map(|(place, offset)| place + offset).collect()
}

fn place(layout: &mut Layout, r: usize, lists: [&[Vec<usize>]; 2]) {
    let cells = &layout.cells;
    let rank = &layout.ranks[r];
    let mut wanted: Vec<(f64, f64)> = Vec::new();
    for cell in rank {
        let ys: Vec<f64> = lists.iter().flat_map(|list| &list[*cell]).map(|other| cells[*other].y).collect();
        let weight = if cells[*cell].height == POINT { 4.0 } else { 1.0 };
        // A cell without neighbours goes with the cell above it.
        let above = wanted.last().map_or(cells[*cell].y, |last| last.0);
        wanted.push(if ys.is_empty() { (above, 0.01) } else { (ys.iter().sum::<f64>() / ys.len() as f64, weight) });
    }
    let mut before: Option<usize> = None;
    let mut steps = Vec::new();
    for cell in rank {
        let gap = |a: usize| if cells[a].height == POINT && cells[*cell].height == POINT { 5.0 } else { GAP };
        steps.push(before.map_or(0.0, |a| (cells[a].height + cells[*cell].height) / 2.0 + gap(a)));
        before = Some(*cell);
    }
    let ys = settle(&wanted, &steps);
    for (i, y) in ys.into_iter().enumerate() {
        let cell = layout.ranks[r][i];
        layout.cells[cell].y = y;
    }
}

fn align(layout: &mut Layout) {
    let (before, after) = (neighbours(layout, true), neighbours(layout, false));
    let none: Vec<Vec<usize>> = vec![Vec::new(); layout.cells.len()];
    let count = layout.ranks.len();
    (0..count).for_each(|r| place(layout, r, [&none, &none]));
    for sweep in 0..SWEEPS {
        for i in 0..count {
            if sweep % 2 == 0 {
                place(layout, i, [&before, &none]);
            } else {
                place(layout, count - 1 - i, [&none, &after]);
            }
        }
    }
    (0..count).for_each(|r| place(layout, r, [&before, &after]));
    let top = layout.cells.iter().map(|cell| cell.y - cell.height / 2.0).fold(f64::INFINITY, f64::min);
    layout.cells.iter_mut().for_each(|cell| cell.y -= top);
}

// Cells and links in their ranks, neither ordered nor placed.
pub fn ranked(graph: &Graph, heights: &[f64]) -> Layout {
    let rank = rank_of(graph);
    let count = rank.iter().max().map_or(0, |most| most + 1);
    let mut layout = Layout { cells: Vec::new(), links: Vec::new(), ranks: vec![Vec::new(); count] };
    for (i, height) in heights.iter().enumerate() {
        let start = matches!(graph.nodes[i].kind, Kind::Public | Kind::Heard(_));
        layout.cells.push(Cell { rank: rank[i], height: *height, start, y: 0.0 });
        layout.ranks[rank[i]].push(i);
    }
    for source in 0..graph.nodes.len() {
        let mut edges: Vec<Edge> = graph.edges.iter().filter(|edge| edge.from == source).copied().collect();
        edges.sort_by_key(|edge| rank[edge.to]);
        route(&mut layout, source, &edges);
    }
    layout
}

// The height that the fullest rank takes at least.
pub fn least_height(layout: &Layout) -> f64 {
    let tall = |rank: &Vec<usize>| rank.iter().map(|cell| layout.cells[*cell].height + GAP).sum::<f64>();
    layout.ranks.iter().map(tall).fold(0.0, f64::max)
}

pub fn layout(graph: &Graph, heights: &[f64]) -> Layout {
    let mut layout = ranked(graph, heights);
    untangle(&mut layout);
    align(&mut layout);
    layout
}
