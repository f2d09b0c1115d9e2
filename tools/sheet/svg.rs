// The picture of a ladder as SVG: each rung a box, public atoms and heard messages before their first use, lines from its sources, the goal
// in gold. A picture that would be too wide or too tall is drawn in parts, row under row. A goal that is out of reach stands apart.

use super::boxes::{class, colour, draw, escape, size, spoken, Area};
use super::graph::{Graph, Kind};
use super::lack::lacking;
use super::layout::{layout, least_height, ranked, Layout, Link, GAP};
use super::rows::parts;
use super::short::{clipped, columns};

pub const EDGE: f64 = 28.0;
pub const HEAD: f64 = 72.0;
const LONGEST_HEADING: usize = 110;
// A picture of this width is read in a browser without moving it sideways.
pub const MOST_WIDTH: f64 = 1280.0;
pub const MOST_HEIGHT: f64 = 760.0;
// The space around a part, and over it for its caption.
const INNER: f64 = 16.0;
const CAPTION: f64 = 30.0;

const STYLE: &str = "\
text{font-family:'DejaVu Sans Mono',Menlo,Consolas,'Liberation Mono',monospace;font-size:12px;fill:#4a5261}
.title{font-family:'Segoe UI','Helvetica Neue','DejaVu Sans',Arial,sans-serif;font-size:19px;font-weight:600;fill:#1b2230}
.note{font-family:'Segoe UI','Helvetica Neue','DejaVu Sans',Arial,sans-serif;font-size:12.5px;fill:#5a6373}
.name{font-size:15px;font-weight:700;fill:#1b2230}
.tag{font-size:11.5px}
.flag{font-size:11.5px;font-weight:700;fill:#8a5a00}
.paper{fill:#fbfaf6;stroke:#d9d5c8}
rect{fill:#fff;stroke:#8b94a6;stroke-width:1.2}
.heard rect{fill:#e9f1fc;stroke:#7d9fd0}
.again rect{fill:#f4f2ec;stroke:#a8adb8;stroke-dasharray:3 3}
.panel{fill:#fdfdfb;stroke:#e3dfd2}
.missed rect{fill:#fdecea;stroke:#c0392b;stroke-width:2.2;stroke-dasharray:7 4}
.goal:not(.missed) rect{fill:#fff2c2;stroke:#c98a00;stroke-width:2.6}
.bar{fill:none;stroke-width:3.5;stroke-linecap:round}
.line{fill:none;stroke:#56627a;stroke-width:1.6}
.key{stroke-dasharray:6 4}
.line.pale{stroke:#c6cbd5;stroke-width:1.1}
g.pale{opacity:.5}
.tip{fill:#56627a;stroke:none}
.tip.pale{fill:#c6cbd5}
.wall{fill:none;stroke:#c0392b;stroke-width:1.6;stroke-dasharray:3 6}
.stop{font-family:'Segoe UI','Helvetica Neue','DejaVu Sans',Arial,sans-serif;font-size:17px;font-weight:600;fill:#b03022}
text.heard-ink{fill:#2f5c9e}path.heard-ink{stroke:#5b87c9}
text.again-ink{fill:#6b7280}path.again-ink{stroke:#a8adb8}
text.missed-ink{fill:#b03022}path.missed-ink{stroke:#c0392b}
text.split-ink{fill:#0d6e6e}path.split-ink{stroke:#1d9a9a}
text.open-ink{fill:#a04a00}path.open-ink{stroke:#dd7a1f}
text.join-ink{fill:#5d3fa3}path.join-ink{stroke:#8867d3}
text.seal-ink{fill:#a12a5e}path.seal-ink{stroke:#d2558c}
text.sum-ink{fill:#2c6e2f}path.sum-ink{stroke:#4f9f53}
";

// Only in pictures with a public atom.
const PUBLIC_STYLE: &str = "\
.public rect{fill:#e4e8ec;stroke:#5f6d7d}
text.public-ink{fill:#3d4a5a}path.public-ink{stroke:#5f6d7d}
";

// Only in pictures with a missing term beside the goal.
const MISSING_STYLE: &str = "\
.missing rect{stroke:#c0392b;stroke-dasharray:4 3}
.line.lack{stroke:#c0392b;stroke-dasharray:4 3}
.tip.lack{fill:#c0392b}
";

// Only in pictures with a step of this kind.
const UNLOCK_STYLE: &str = "\
text.unlock-ink{fill:#8f3d2e}path.unlock-ink{stroke:#c96a58}
";
const LOCK_STYLE: &str = "\
text.lock-ink{fill:#2f4f8f}path.lock-ink{stroke:#5877c4}
";

// The styles of what only some pictures have: those of a class or a colour that a node has.
fn more_styles(graph: &Graph) -> String {
    let styles = [("public", PUBLIC_STYLE), ("missing", MISSING_STYLE), ("unlock-ink", UNLOCK_STYLE), ("lock-ink", LOCK_STYLE)];
    let found = |name: &str| graph.nodes.iter().any(|node| class(node) == name || colour(node) == name);
    styles.into_iter().filter(|(name, _)| found(name)).map(|(_, style)| style).collect()
}

// The left edge and the width of each rank's column, from 0 on.
fn column_places(layout: &Layout, sizes: &[(f64, f64)]) -> Vec<(f64, f64)> {
    let mut links = vec![0usize; layout.ranks.len()];
    layout.links.iter().for_each(|link| links[layout.cells[link.from].rank] += 1);
    let mut x = 0.0;
    let mut places = Vec::new();
    for (r, rank) in layout.ranks.iter().enumerate() {
        let width = rank.iter().filter_map(|cell| sizes.get(*cell)).map(|size| size.0).fold(8.0, f64::max);
        places.push((x, width));
        x += width + 70.0 + (links[r] as f64 * 1.6).min(110.0);
    }
    places
}

// Where each link meets its target: the links of a box are spread over its left side in the order of their sources.
fn ports(layout: &Layout, boxes: usize) -> Vec<f64> {
    let mut port: Vec<f64> = layout.links.iter().map(|link| layout.cells[link.to].y).collect();
    let mut into: Vec<Vec<usize>> = vec![Vec::new(); boxes];
    for (i, link) in layout.links.iter().enumerate() {
        if let Some(list) = into.get_mut(link.to) {
            list.push(i);
        }
    }
    for list in &mut into {
        list.sort_by(|a, b| layout.cells[layout.links[*a].from].y.total_cmp(&layout.cells[layout.links[*b].from].y));
        let step = if list.len() > 1 { (38.0 / (list.len() - 1) as f64).min(13.0) } else { 0.0 };
        for (i, link) in list.iter().enumerate() {
            port[*link] += (i as f64 - (list.len() - 1) as f64 / 2.0) * step;
        }
    }
    port
}

fn line(layout: &Layout, link: &Link, port: f64, columns: &[(f64, f64)], boxes: usize, (x, y): (f64, f64)) -> String {
    let (from, to) = (&layout.cells[link.from], &layout.cells[link.to]);
    let (x1, y1) = (x + columns[from.rank].0 + columns[from.rank].1, y + from.y);
    let (x2, y2) = (x + columns[to.rank].0, y + port);
    let pale = if link.needed { "" } else { " pale" };
    let key = if link.key { " key" } else { "" };
    let is_box = link.to < boxes;
    let stop = if is_box { x2 - 7.0 } else { x2 };
    let bend = (stop - x1) / 2.0;
    let through = if is_box { String::new() } else { format!("h{:.1}", columns[to.rank].1) };
    let curve = format!("M{x1:.1} {y1:.1}C{:.1} {y1:.1} {:.1} {y2:.1} {stop:.1} {y2:.1}{through}", x1 + bend, stop - bend);
    let mut out = format!("<path class=\"line{key}{pale}\" d=\"{curve}\"/>\n");
    if is_box {
        out.push_str(&format!("<path class=\"tip{pale}\" d=\"M{x2:.1} {y2:.1}l-8 -3.6v7.2z\"/>\n"));
    }
    out
}

// A finished picture: its body inside the frame, with title and notes.
pub fn frame(graph: &Graph, body: &str, width: f64, bottom: f64) -> String {
    let heading = clipped(&graph.heading, LONGEST_HEADING);
    let widest = graph.notes.iter().map(|note| columns(note) as f64 * 7.4).fold(columns(&heading) as f64 * 11.6, f64::max);
    let width = width.max(widest + 2.0 * EDGE);
    let height = bottom + 14.0 + graph.notes.len() as f64 * 19.0 + EDGE;
    let told: Vec<String> = graph.nodes.iter().map(spoken).collect();
    let mut out = String::from("<svg xmlns=\"http://www.w3.org/2000/svg\" role=\"img\" aria-labelledby=\"title\" aria-describedby=\"told\"");
    out.push_str(&format!(" width=\"{width:.0}\" height=\"{height:.0}\" viewBox=\"0 0 {width:.0} {height:.0}\">\n"));
    out.push_str(&format!("<title id=\"title\">{}</title>\n<desc id=\"told\">{}</desc>\n", escape(&graph.title), escape(&told.join("; "))));
    out.push_str(&format!("<style>\n{STYLE}{}</style>\n", more_styles(graph)));
    out.push_str(&format!("<rect class=\"paper\" x=\"0.5\" y=\"0.5\" width=\"{:.0}\" height=\"{:.0}\" rx=\"10\"/>\n", width - 1.0, height - 1.0));
    out.push_str(&format!("<text class=\"title\" x=\"{EDGE}\" y=\"42\">{}</text>\n{body}", escape(&heading)));
    for (i, note) in graph.notes.iter().enumerate() {
        let y = bottom + 28.0 + i as f64 * 19.0;
        out.push_str(&format!("<text class=\"note\" x=\"{EDGE}\" y=\"{y:.1}\">{}</text>\n", escape(note)));
    }
    out.push_str("</svg>\n");
    out
}

// A part of the ladder, laid out.
struct Part<'a> {
    graph: &'a Graph,
    sizes: Vec<(f64, f64)>,
    layout: Layout,
    columns: Vec<(f64, f64)>,
}

fn width_of(columns: &[(f64, f64)]) -> f64 {
    columns.last().map_or(0.0, |(x, width)| x + width)
}

fn fits(graph: &Graph) -> bool {
    let sizes: Vec<(f64, f64)> = graph.nodes.iter().map(size).collect();
    let layout = ranked(graph, &sizes.iter().map(|size| size.1).collect::<Vec<_>>());
    let room = MOST_WIDTH - 2.0 * (EDGE + INNER);
    width_of(&column_places(&layout, &sizes)) <= room && least_height(&layout) <= MOST_HEIGHT
}

impl Part<'_> {
    fn of(graph: &Graph) -> Part<'_> {
        let sizes: Vec<(f64, f64)> = graph.nodes.iter().map(size).collect();
        let layout = layout(graph, &sizes.iter().map(|size| size.1).collect::<Vec<_>>());
        let columns = column_places(&layout, &sizes);
        Part { graph, sizes, layout, columns }
    }

    fn width(&self) -> f64 {
        width_of(&self.columns)
    }

    fn height(&self) -> f64 {
        self.layout.cells.iter().map(|cell| cell.y + cell.height / 2.0).fold(0.0, f64::max)
    }

    // Boxes and lines, with the upper left corner at this place.
    fn draw(&self, (x, y): (f64, f64)) -> String {
        let ports = ports(&self.layout, self.sizes.len());
        let mut body = String::new();
        // Needed lines are drawn over pale ones.
        for needed in [false, true] {
            for (link, port) in self.layout.links.iter().zip(&ports).filter(|(link, _)| link.needed == needed) {
                body.push_str(&line(&self.layout, link, *port, &self.columns, self.sizes.len(), (x, y)));
            }
        }
        for (node, cell) in self.graph.nodes.iter().zip(&self.layout.cells) {
            let (left, width) = self.columns[cell.rank];
            let area = Area { x: x + left, y: y + cell.y - cell.height / 2.0, width, height: cell.height };
            body.push_str(&draw(node, area, !node.needed));
        }
        body
    }

    // The steps of the part.
    fn caption(&self) -> String {
        let steps: Vec<usize> = self.graph.nodes.iter().filter_map(|node| if let Kind::Rung(step, _) = node.kind { Some(step) } else { None }).collect();
        match (steps.first(), steps.last()) {
            (Some(first), Some(last)) if first < last => format!("steps {first} to {last}"),
            (Some(first), _) => format!("step {first}"),
            _ => String::new(),
        }
    }

    // The part on a sheet of its own, with its caption.
    fn panel(&self, (x, y): (f64, f64)) -> String {
        let (width, height) = (self.width() + 2.0 * INNER, self.height() + CAPTION + INNER);
        let mut out = format!("<rect class=\"panel\" x=\"{x:.1}\" y=\"{y:.1}\" width=\"{width:.1}\" height=\"{height:.1}\" rx=\"8\"/>\n");
        out.push_str(&format!("<text class=\"note\" x=\"{:.1}\" y=\"{:.1}\">{}</text>\n", x + INNER, y + 20.0, self.caption()));
        out.push_str(&self.draw((x + INNER, y + CAPTION)));
        out
    }
}

fn ladder(graph: &Graph) -> String {
    let graphs = parts(graph, fits);
    let laid: Vec<Part> = graphs.iter().map(Part::of).collect();
    if let [part] = &laid[..] {
        return frame(graph, &part.draw((EDGE, HEAD)), part.width() + 2.0 * EDGE, part.height() + HEAD);
    }
    let (mut x, mut y, mut right, mut bottom) = (EDGE, HEAD, 0.0f64, HEAD);
    let mut body = String::new();
    for part in &laid {
        let (width, height) = (part.width() + 2.0 * INNER, part.height() + CAPTION + INNER);
        if x > EDGE && x + width + EDGE > MOST_WIDTH {
            (x, y) = (EDGE, bottom + GAP);
        }
        body.push_str(&part.panel((x, y)));
        right = right.max(x + width);
        bottom = bottom.max(y + height);
        x += width + GAP;
    }
    let mut noted = graph.clone();
    if graphs.iter().any(|part| part.nodes.iter().any(|node| matches!(node.kind, Kind::Again(_)))) {
        noted.notes.insert(0, "A small dashed box stands for a term that an earlier part has.".to_string());
    }
    frame(&noted, &body, right + EDGE, bottom)
}

// Public atoms and heard messages in columns, a wall, and the goal behind it.
fn apart(graph: &Graph) -> String {
    let sizes: Vec<(f64, f64)> = graph.nodes.iter().map(size).collect();
    let width = sizes.iter().map(|size| size.0).fold(0.0, f64::max);
    let height = sizes.iter().map(|size| size.1).fold(0.0, f64::max);
    let starts = graph.nodes.iter().filter(|node| !node.goal).count();
    let room = ((MOST_WIDTH - 2.0 * EDGE - width - 98.0) / (width + GAP)).max(1.0) as usize;
    let square = ((starts as f64 * 1.6).sqrt().ceil() as usize).clamp(1, starts.max(1));
    let rows = square.max((starts + room - 1) / room);
    let shelves = (starts + rows - 1) / rows;
    let wall = EDGE + shelves as f64 * (width + GAP) + 40.0;
    let bottom = HEAD + (rows as f64 * (height + GAP) - GAP).max(120.0);
    let middle = (HEAD + bottom) / 2.0;
    let mut body = format!("<path class=\"wall\" d=\"M{wall:.1} {HEAD}V{bottom:.1}\"/>\n");
    for (i, node) in graph.nodes.iter().enumerate() {
        let (x, y) = match node.goal {
            true => (wall + 58.0, middle - height / 2.0),
            false => (EDGE + (i / rows) as f64 * (width + GAP), HEAD + (i % rows) as f64 * (height + GAP)),
        };
        body.push_str(&draw(node, Area { x, y, width, height }, false));
    }
    let centre = wall + 58.0 + width / 2.0;
    let over = middle - height / 2.0 - 14.0;
    body.push_str(&format!("<text class=\"stop\" x=\"{centre:.1}\" y=\"{over:.1}\" text-anchor=\"middle\">out of reach</text>\n"));
    if starts == 0 {
        body.push_str(&format!("<text class=\"note\" x=\"{EDGE}\" y=\"{middle:.1}\">nothing heard</text>\n"));
    }
    frame(graph, &body, wall + 58.0 + width + EDGE, bottom)
}

pub fn svg(graph: &Graph) -> String {
    match graph.reached {
        true => ladder(graph),
        false if graph.edges.is_empty() => apart(graph),
        false => lacking(graph),
    }
}
