// The boxes of a picture: their texts, their sizes, and their SVG.

use super::card::Rule;
use super::graph::{Kind, Node, LONGEST_TERM};
use super::model::ON_HULL_LABEL;
use super::short::{clipped, columns, cut};

const NAME_CHARACTER: f64 = 9.1;
const SMALL_CHARACTER: f64 = 7.3;
const MARGIN: f64 = 14.0;
const LONGEST_NAME: usize = 28;

// A place and a size; `x` and `y` are the upper left corner.
#[derive(Clone, Copy)]
pub struct Area {
    pub x: f64,
    pub y: f64,
    pub width: f64,
    pub height: f64,
}

pub fn escape(text: &str) -> String {
    let mut out = String::new();
    for c in text.chars() {
        match c {
            '&' => out.push_str("&amp;"),
            '<' => out.push_str("&lt;"),
            '>' => out.push_str("&gt;"),
            '"' => out.push_str("&quot;"),
            '\'' => out.push_str("&#39;"),
            c if c.is_control() => out.push('?'),
            c => out.push(c),
        }
    }
    out
}

// A sum's term, or its first items and how many more there are.
fn short_term(term: &str) -> String {
    let items: Vec<&str> = term.split(" ⊕ ").collect();
    if columns(term) <= LONGEST_TERM || items.len() < 3 {
        return clipped(term, LONGEST_TERM);
    }
    let mut out = String::new();
    for (i, item) in items.iter().enumerate() {
        if i > 0 && columns(&out) + columns(item) + 3 > LONGEST_TERM - 10 {
            return format!("{} ⊕ {} more", clipped(&out, LONGEST_TERM - 10), items.len() - i);
        }
        out = if i == 0 { item.to_string() } else { format!("{out} ⊕ {item}") };
    }
    out
}

// The small line over the name.
pub fn tag(node: &Node) -> String {
    match &node.kind {
        Kind::Public => ON_HULL_LABEL.to_string(),
        Kind::Heard(places) if places.len() > 4 => format!("heard {} times", places.len()),
        Kind::Heard(places) => format!("heard {}", places.iter().map(usize::to_string).collect::<Vec<_>>().join(", ")),
        // As the card's line begins, with the rung's place before it.
        Kind::Rung(number, rule) => format!("step {number} · rung {} {}", node.entry, rule.words()),
        Kind::Gained => "gained".to_string(),
        Kind::Again(place) => format!("{place}, earlier"),
        Kind::Missing => "missing".to_string(),
        Kind::Missed => "not gained".to_string(),
    }
}

// The whole node in words, for a reader without the picture.
pub fn spoken(node: &Node) -> String {
    let same = if node.same.is_empty() { String::new() } else { format!(", the same as {}", node.same.join(" and ")) };
    let goal = if node.goal { " (goal)" } else { "" };
    format!("{}: {}{goal} = {}{same}", tag(node), node.label, node.term)
}

fn same_line(node: &Node) -> Option<String> {
    let names: Vec<String> = node.same.iter().map(|name| cut(name, LONGEST_NAME)).collect();
    (!names.is_empty()).then(|| clipped(&format!("same as {}", names.join(", ")), LONGEST_TERM))
}

// A box for a term of an earlier part doesn't show the term again.
fn small_box(node: &Node) -> bool {
    matches!(node.kind, Kind::Again(_))
}

// The small lines under the name.
fn lines(node: &Node) -> Vec<String> {
    let term = (!small_box(node)).then(|| short_term(&node.short));
    term.into_iter().chain(same_line(node)).collect()
}

pub fn size(node: &Node) -> (f64, f64) {
    let small = |text: &str| columns(text) as f64 * SMALL_CHARACTER;
    let goal = if node.goal { 7.0 * SMALL_CHARACTER } else { 0.0 };
    let name = columns(&cut(&node.label, LONGEST_NAME)) as f64 * NAME_CHARACTER;
    let mut widest = (small(&tag(node)) + goal).max(name).max(if small_box(node) { 40.0 } else { 96.0 });
    let lines = lines(node);
    lines.iter().for_each(|text| widest = widest.max(small(text)));
    (widest + 2.0 * MARGIN, 48.0 + 15.0 * lines.len() as f64)
}

pub fn class(node: &Node) -> &'static str {
    match node.kind {
        Kind::Public => "public",
        Kind::Heard(_) => "heard",
        Kind::Rung(..) => "rung",
        Kind::Gained => "gained",
        Kind::Again(_) => "again",
        Kind::Missing if !node.goal => "missing",
        Kind::Missing | Kind::Missed => "missed",
    }
}

pub fn colour(node: &Node) -> &'static str {
    match node.kind {
        Kind::Public => "public-ink",
        Kind::Heard(_) => "heard-ink",
        Kind::Gained | Kind::Again(_) => "again-ink",
        Kind::Missing | Kind::Missed => "missed-ink",
        Kind::Rung(_, Rule::Left | Rule::Right) => "split-ink",
        Kind::Rung(_, Rule::Open) => "open-ink",
        Kind::Rung(_, Rule::Join) => "join-ink",
        Kind::Rung(_, Rule::Seal) => "seal-ink",
        Kind::Rung(_, Rule::Sum) => "sum-ink",
        Kind::Rung(_, Rule::Unlock) => "unlock-ink",
        Kind::Rung(_, Rule::Lock) => "lock-ink",
    }
}

fn text(class: &str, x: f64, y: f64, anchor: &str, content: &str) -> String {
    format!("<text class=\"{class}\" x=\"{x:.1}\" y=\"{y:.1}\"{anchor}>{}</text>\n", escape(content))
}

pub fn draw(node: &Node, area: Area, pale: bool) -> String {
    let Area { x, y, width, height } = area;
    let more = format!("{}{}", if node.goal { " goal" } else { "" }, if pale { " pale" } else { "" });
    let left = x + MARGIN;
    let mut out = format!("<g class=\"{}{more}\">\n<title>{}</title>\n", class(node), escape(&spoken(node)));
    let corner = if node.kind == Kind::Public { 0 } else { 7 };
    out.push_str(&format!("<rect x=\"{x:.1}\" y=\"{y:.1}\" width=\"{width:.1}\" height=\"{height:.1}\" rx=\"{corner}\"/>\n"));
    let bar = format!("M{:.1} {:.1}v{:.1}", x + 5.0, y + 10.0, height - 20.0);
    out.push_str(&format!("<path class=\"bar {}\" d=\"{bar}\"/>\n", colour(node)));
    out.push_str(&text(&format!("tag {}", colour(node)), left, y + 18.0, "", &tag(node)));
    if node.goal {
        out.push_str(&text("flag", x + width - MARGIN, y + 18.0, " text-anchor=\"end\"", "GOAL"));
    }
    out.push_str(&text("name", left, y + 37.0, "", &cut(&node.label, LONGEST_NAME)));
    for (i, line) in lines(node).iter().enumerate() {
        out.push_str(&text("term", left, y + 53.0 + 15.0 * i as f64, "", line));
    }
    out.push_str("</g>\n");
    out
}
