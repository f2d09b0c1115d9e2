// The picture of a goal that is out of reach with what is missing: the used terms, below a wall the missing ones, lines from all of them
// to the goal. Many terms stand in columns. In a row the last box has a line of its own, and those before it share one that runs under the
// row, so no line runs over a box.

use super::boxes::{draw, size, Area};
use super::graph::{Graph, Kind, Node};
use super::layout::GAP;
use super::svg::{frame, EDGE, HEAD, MOST_HEIGHT, MOST_WIDTH};

// The room between used and missing terms.
const BETWEEN: f64 = 50.0;
const LEAST_HEIGHT: f64 = 120.0;

// Where the used terms, the missing ones and the goal stand. The terms have boxes of one size.
struct Shelves {
    width: f64,
    height: f64,
    used: usize,
    missing: usize,
    columns: usize,
    goal: (f64, f64),
}

// The place of a term's box, its column, and whether another box stands behind it in its row.
struct Place {
    area: Area,
    column: usize,
    hidden: bool,
}

impl Shelves {
    // As few columns as keep to the height of a picture, where its width allows them.
    fn of(terms: &[Node], goal: &Node) -> Shelves {
        let sizes: Vec<(f64, f64)> = terms.iter().map(size).collect();
        let width = sizes.iter().map(|size| size.0).fold(0.0, f64::max);
        let height = sizes.iter().map(|size| size.1).fold(0.0, f64::max);
        let missing = terms.iter().filter(|node| node.kind == Kind::Missing).count();
        let one = Shelves { width, height, used: terms.len() - missing, missing, columns: 1, goal: size(goal) };
        let room = MOST_WIDTH - 2.0 * EDGE - one.goal.0 - one.lines();
        let most = (((room + GAP) / (width + GAP)) as usize).min(one.used.max(missing)).max(1);
        let with = |columns| Shelves { columns, ..one };
        (1..most).map(with).find(|shelves| shelves.bottom() - HEAD <= MOST_HEIGHT).unwrap_or(with(most))
    }

    // The width of the lines between the terms and the goal.
    fn lines(&self) -> f64 {
        110.0 + ((self.used + self.missing) as f64 * 2.0).min(90.0)
    }

    fn rows(&self, boxes: usize) -> usize {
        (boxes + self.columns - 1) / self.columns
    }

    // The height of some boxes in their rows, without the gap under the last.
    fn tall(&self, boxes: usize) -> f64 {
        (self.rows(boxes) as f64 * (self.height + GAP) - GAP).max(0.0)
    }

    // Where the missing terms begin.
    fn middle(&self) -> f64 {
        HEAD + if self.used > 0 { self.tall(self.used) + BETWEEN } else { 0.0 }
    }

    fn bottom(&self) -> f64 {
        (self.middle() + self.tall(self.missing)).max(HEAD + LEAST_HEIGHT)
    }

    // The right edge of the last column.
    fn right(&self) -> f64 {
        EDGE + self.columns as f64 * (self.width + GAP) - GAP
    }

    fn place(&self, term: usize) -> Place {
        let (i, boxes, top) = if term < self.used { (term, self.used, HEAD) } else { (term - self.used, self.missing, self.middle()) };
        let rows = self.rows(boxes);
        let (x, y) = (EDGE + (i / rows) as f64 * (self.width + GAP), top + (i % rows) as f64 * (self.height + GAP));
        Place { area: Area { x, y, width: self.width, height: self.height }, column: i / rows, hidden: i + rows < boxes }
    }

    fn goal(&self) -> Area {
        let (width, height) = self.goal;
        Area { x: self.right() + self.lines(), y: (HEAD + self.bottom() - height) / 2.0, width, height }
    }
}

// A line's class and its path, as far as the right edge of the shelves, and its height there.
struct Lane {
    class: &'static str,
    path: String,
    y: f64,
}

// The beginning of a term's line: from the middle of its box, or on under its row.
fn lane(node: &Node, place: &Place) -> Lane {
    let Area { x, y, width, height } = place.area;
    let (x, middle, under) = (x + width, y + height / 2.0, y + height + GAP / 2.0);
    let class = if node.kind == Kind::Missing { " lack" } else { "" };
    if !place.hidden {
        return Lane { class, path: format!("M{x:.1} {middle:.1}"), y: middle };
    }
    let bend = x + GAP / 2.0;
    Lane { class, path: format!("M{x:.1} {middle:.1}C{bend:.1} {middle:.1} {bend:.1} {under:.1} {:.1} {under:.1}", x + GAP), y: under }
}

fn line(class: &str, path: &str) -> String {
    format!("<path class=\"line{class}\" d=\"{path}\"/>\n")
}

// The lines of all terms. They meet the goal's left side in the order of their heights.
fn lines(terms: &[Node], shelves: &Shelves) -> String {
    let mut out = String::new();
    let mut lanes: Vec<Lane> = Vec::new();
    for (i, node) in terms.iter().enumerate() {
        let place = shelves.place(i);
        let lane = lane(node, &place);
        // The first box of a row begins the shared line.
        if place.hidden && place.column > 0 {
            out.push_str(&line(lane.class, &lane.path));
        } else {
            lanes.push(lane);
        }
    }
    lanes.sort_by(|a, b| a.y.total_cmp(&b.y));
    let (goal, right, last) = (shelves.goal(), shelves.right(), lanes.len().saturating_sub(1) as f64);
    let step = (38.0 / last.max(1.0)).min(13.0);
    let (stop, bend) = (goal.x - 7.0, (right + goal.x - 7.0) / 2.0);
    for (i, Lane { class, path, y }) in lanes.iter().enumerate() {
        let port = goal.y + goal.height / 2.0 + (i as f64 - last / 2.0) * step;
        out.push_str(&line(class, &format!("{path}H{right:.1}C{bend:.1} {y:.1} {bend:.1} {port:.1} {stop:.1} {port:.1}")));
        out.push_str(&format!("<path class=\"tip{class}\" d=\"M{:.1} {port:.1}l-8 -3.6v7.2z\"/>\n", goal.x));
    }
    out
}

// The wall below the used terms and beside them.
fn wall(shelves: &Shelves) -> String {
    let (x, y) = (shelves.right() + 22.0, shelves.middle() - BETWEEN / 2.0 + GAP / 4.0);
    if shelves.used == 0 { String::new() } else { format!("<path class=\"wall\" d=\"M{EDGE} {y:.1}H{x:.1}V{HEAD}\"/>\n") }
}

// The goal is the last node.
pub fn lacking(graph: &Graph) -> String {
    let Some((goal, terms)) = graph.nodes.split_last() else { return String::new() };
    let shelves = Shelves::of(terms, goal);
    let mut body = wall(&shelves) + &lines(terms, &shelves);
    for (i, node) in terms.iter().enumerate() {
        body.push_str(&draw(node, shelves.place(i).area, false));
    }
    let area = shelves.goal();
    body.push_str(&draw(goal, area, false));
    let (centre, over) = (area.x + area.width / 2.0, area.y - 14.0);
    body.push_str(&format!("<text class=\"stop\" x=\"{centre:.1}\" y=\"{over:.1}\" text-anchor=\"middle\">out of reach</text>\n"));
    frame(graph, &body, area.x + area.width + EDGE, shelves.bottom())
}
