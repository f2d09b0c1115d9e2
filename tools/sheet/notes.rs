// What a picture leaves to words: dashed lines, pale rungs, missing terms, and what isn't drawn.

use super::graph::{Edge, Kind, Node};
use super::heads::Heads;
use super::model::{Sheet, ON_HULL_LABEL};

const PALE: &str = "Pale: ";

pub fn counted(n: usize, one: &str, many: &str) -> String {
    format!("{n} {}", if n == 1 { one } else { many })
}

pub fn public_atoms(n: usize) -> String {
    format!("{} {ON_HULL_LABEL}", counted(n, "atom", "atoms"))
}

// A list in a sentence: `a`, `a and b`, `a, b and c`.
pub fn listed(items: &[String]) -> String {
    match items {
        [first @ .., one, last] => first.iter().map(|item| format!("{item}, ")).collect::<String>() + &format!("{one} and {last}"),
        _ => items.concat(),
    }
}

// How much the picture leaves out: public atoms and heard messages that aren't used, and messages heard later. A heard message that is a
// public atom counts as that atom.
pub struct Undrawn {
    public: usize,
    heard: usize,
    later: usize,
}

pub fn undrawn(sheet: &Sheet, heads: &Heads, cut: usize, used: impl Fn(usize) -> bool) -> Undrawn {
    let public = sheet.public();
    let heard = sheet.heard.iter().take(cut).map(|entry| heads.head[*entry]).filter(|head| !used(*head) && !public.contains(head));
    Undrawn { public: public.iter().filter(|head| !used(**head)).count(), heard: heard.count(), later: sheet.heard.len() - cut }
}

pub fn notes(nodes: &[Node], edges: &[Edge], undrawn: &Undrawn) -> Vec<String> {
    let spare = spare(nodes).rungs;
    let mut notes = Vec::new();
    if edges.iter().any(|edge| edge.key) {
        notes.push("A dashed line brings a key.".to_string());
    }
    if spare > 0 {
        notes.push(format!("{PALE}{} that the goal doesn't need.", counted(spare, "rung", "rungs")));
    }
    notes.extend(not_drawn(undrawn, "that no rung uses"));
    if undrawn.later > 0 {
        notes.push(format!("Not drawn: {} heard later.", counted(undrawn.later, "message", "messages")));
    }
    notes
}

// The public atoms and heard messages that aren't drawn, and why.
fn not_drawn(undrawn: &Undrawn, why: &str) -> Vec<String> {
    let mut notes = Vec::new();
    if undrawn.public > 0 {
        notes.push(format!("Not drawn: {} {why}.", public_atoms(undrawn.public)));
    }
    if undrawn.heard > 0 {
        notes.push(format!("Not drawn: {} {why}.", counted(undrawn.heard, "heard message", "heard messages")));
    }
    notes
}

// What the missing terms are for, and what isn't in the sum that would gain the goal.
pub fn missing_notes(missing: usize, undrawn: &Undrawn) -> Vec<String> {
    let terms = if missing == 1 { "missing term" } else { "sum of the missing terms" };
    let mut notes = vec![format!("With the {terms} a listener gains the goal.")];
    notes.extend(not_drawn(undrawn, "outside the sum"));
    notes
}

// How many rungs, public atoms and heard messages the goal doesn't need.
struct Spare {
    rungs: usize,
    public: usize,
    heard: usize,
}

fn spare(nodes: &[Node]) -> Spare {
    let count = |kind: fn(&Kind) -> bool| nodes.iter().filter(|node| !node.needed && kind(&node.kind)).count();
    Spare {
        rungs: count(|kind| matches!(kind, Kind::Rung(..))),
        public: count(|kind| matches!(kind, Kind::Public)),
        heard: count(|kind| matches!(kind, Kind::Heard(_))),
    }
}

// The notes of a picture without what the goal doesn't need: how much that is, in place of the pale rungs.
pub fn left_out(nodes: &[Node], notes: &[String]) -> Vec<String> {
    let Spare { rungs, public, heard } = spare(nodes);
    let mut list = vec![counted(rungs, "rung", "rungs")];
    list.extend((public > 0).then(|| public_atoms(public)));
    list.extend((heard > 0).then(|| counted(heard, "heard message", "heard messages")));
    let kept = notes.iter().filter(|note| !note.starts_with(PALE)).cloned();
    kept.chain([format!("Left out: {} that the goal doesn't need.", listed(&list))]).collect()
}
