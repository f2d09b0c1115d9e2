// The ladder as a graph: one node for each public atom and each heard message that is used and for each rung, one edge for each source
// of a rung. Where the goal is out of reach, the used and missing terms are the sources of the goal.

use super::card::{Card, Lack, Rule, Rung};
use super::heads::Heads;
use super::model::{Entry, Sheet};
use super::notes::{counted, left_out, missing_notes, notes, undrawn};
use super::short::{columns, cut};

#[derive(Clone, Debug, PartialEq)]
pub enum Kind {
    // A public atom, also where it was heard.
    Public,
    // The places in the order heard, from 1.
    Heard(Vec<usize>),
    // The rung's place in the ladder, from 1.
    Rung(usize, Rule),
    // A term that was gained by rungs that aren't drawn.
    Gained,
    // A term that stands in an earlier part, and its tag there.
    Again(String),
    // A missing term; the goal, where it is missing itself.
    Missing,
    // A goal that isn't gained, and not said to be missing.
    Missed,
}

#[derive(Clone, Debug)]
pub struct Node {
    pub kind: Kind,
    // The entry whose name the node bears; a rung's is the one on the card.
    pub entry: usize,
    pub label: String,
    pub term: String,
    // The term with its names cut to fit a box.
    pub short: String,
    // Other names of the same term, under which neighbours know it.
    pub same: Vec<String>,
    pub goal: bool,
    // The goal is this node or is gained from it.
    pub needed: bool,
}

#[derive(Clone, Copy, Debug)]
pub struct Edge {
    pub from: usize,
    pub to: usize,
    // The source is used as a key.
    pub key: bool,
    pub needed: bool,
}

// Public atoms come first, in the order of their entries, then heard messages in the order heard, then the rungs in theirs. Edges are in
// the order of the rungs. Where the goal is out of reach, other used terms, missing ones and the goal stand in place of the rungs.
#[derive(Clone, Debug, Default)]
pub struct Graph {
    pub nodes: Vec<Node>,
    pub edges: Vec<Edge>,
    // The whole title, and one with the goal's name cut.
    pub title: String,
    pub heading: String,
    pub notes: Vec<String>,
    pub reached: bool,
}

pub const LONGEST_TERM: usize = 36;
const LONGEST_GOAL: usize = 40;

// The entry's term, one level deep, with its names as `label` writes them.
fn term(sheet: &Sheet, entry: usize, label: impl Fn(&usize) -> String) -> String {
    let entry = &sheet.entries[entry];
    match entry {
        Entry::Zero => "zero".to_string(),
        Entry::Atom { .. } | Entry::Half(_) => entry.numbered().unwrap_or_default(),
        Entry::Pair(left, right) => format!("({}, {})", label(left), label(right)),
        Entry::Seal(message, key) => format!("{} sealed under {}", label(message), label(key)),
        Entry::Lock(message, key) => format!("{} locked under {}", label(message), label(key)),
        Entry::Sum(items) if items.is_empty() => "sum of nothing".to_string(),
        Entry::Sum(items) => items.iter().map(label).collect::<Vec<_>>().join(" ⊕ "),
    }
}

// The same for a box: names are cut in the middle where the whole is too long.
fn short_term(sheet: &Sheet, entry: usize) -> String {
    let whole = term(sheet, entry, |e| sheet.label(*e));
    let most = if let Entry::Seal(..) | Entry::Lock(..) = sheet.entries[entry] { 11 } else { 15 };
    if columns(&whole) <= LONGEST_TERM { whole } else { term(sheet, entry, |e| cut(&sheet.label(*e), most)) }
}

struct Maker<'a> {
    sheet: &'a Sheet,
    heads: &'a Heads,
    nodes: Vec<Node>,
    // The node that gains each head.
    node_of: Vec<Option<usize>>,
}

impl Maker<'_> {
    // A node for an entry; `entry` is the one of the same term whose label it bears.
    fn node(&mut self, kind: Kind, entry: usize) {
        let (sheet, head) = (self.sheet, self.heads.head[entry]);
        let goal = self.heads.head[sheet.goal] == head;
        let other = if goal && sheet.goal != entry { sheet.goal } else { head };
        let same = if other == entry { vec![] } else { vec![sheet.heading(other)] };
        let (label, whole) = (sheet.heading(entry), term(sheet, entry, |e| sheet.label(*e)));
        self.node_of[head] = Some(self.nodes.len());
        self.nodes.push(Node { kind, entry, label, term: whole, short: short_term(sheet, entry), same, goal, needed: goal });
    }

    // The nodes of a rung and its sources bear every name under which one of their records knows them.
    fn name(&mut self, rung: &Rung) {
        let heads: Vec<usize> = rung.sources.iter().copied().chain([rung.head]).collect();
        let group: Vec<usize> = heads.iter().filter_map(|head| self.node_of[*head]).collect();
        let named: Vec<usize> = group.iter().flat_map(|node| self.sheet.entries[self.nodes[*node].entry].parts()).collect();
        for entry in named {
            let node = self.node_of[self.heads.head[entry]].filter(|node| group.contains(node));
            let name = self.sheet.heading(entry);
            match node.map(|node| &mut self.nodes[node]) {
                Some(node) if node.label != name && !node.same.contains(&name) => node.same.push(name),
                _ => (),
            }
        }
    }

    // A node for each public atom that is wanted.
    fn public(&mut self, wanted: impl Fn(usize) -> bool) {
        self.sheet.public().into_iter().filter(|head| wanted(*head)).for_each(|head| self.node(Kind::Public, head));
    }

    // A node for each different heard message before the cut that is wanted and has none yet.
    fn hear(&mut self, cut: usize, wanted: impl Fn(usize) -> bool) {
        let heard: Vec<usize> = self.sheet.heard.iter().take(cut).copied().collect();
        for (i, entry) in heard.iter().enumerate() {
            let head = self.heads.head[*entry];
            if !wanted(head) {
                continue;
            }
            match self.node_of[head] {
                None => self.node(Kind::Heard(vec![i + 1]), *entry),
                Some(node) => {
                    if let Kind::Heard(places) = &mut self.nodes[node].kind {
                        places.push(i + 1);
                    }
                }
            }
        }
    }
}

// Marks what the goal is gained from. Edges are in the order of the rungs, so one pass from the last is enough.
fn mark(nodes: &mut [Node], edges: &mut [Edge]) {
    for edge in edges.iter_mut().rev() {
        if nodes[edge.to].needed {
            edge.needed = true;
            nodes[edge.from].needed = true;
        }
    }
}

fn edges(rule: Rule, sources: &[usize], to: usize, node_of: &[Option<usize>]) -> Vec<Edge> {
    let mut list: Vec<Edge> = Vec::new();
    for (i, source) in sources.iter().enumerate() {
        match node_of[*source] {
            Some(from) if !list.iter().any(|edge| edge.from == from) => {
                let key = i == 1 && matches!(rule, Rule::Open | Rule::Seal | Rule::Unlock | Rule::Lock);
                list.push(Edge { from, to, key, needed: false });
            }
            _ => (),
        }
    }
    list
}

// The graph with these nodes alone, in this order.
pub fn restrict(graph: &Graph, kept: &[usize]) -> Graph {
    let mut place = vec![None; graph.nodes.len()];
    kept.iter().enumerate().for_each(|(i, node)| place[*node] = Some(i));
    let edges = graph.edges.iter().filter_map(|edge| Some(Edge { from: place[edge.from]?, to: place[edge.to]?, ..*edge }));
    Graph { nodes: kept.iter().map(|node| graph.nodes[*node].clone()).collect(), edges: edges.collect(), ..graph.clone() }
}

// Leaves out what the goal doesn't need, and says how much that is. Without a ladder everything stays.
pub fn needed(graph: Graph) -> Graph {
    let kept: Vec<usize> = (0..graph.nodes.len()).filter(|node| graph.nodes[*node].needed).collect();
    if !graph.reached || kept.len() == graph.nodes.len() {
        return graph;
    }
    Graph { notes: left_out(&graph.nodes, &graph.notes), ..restrict(&graph, &kept) }
}

// The verdict, then the goal, then how it came.
fn titles(sheet: &Sheet, verdict: &str, rest: &str) -> (String, String) {
    let goal = sheet.heading(sheet.goal);
    (format!("{verdict}: {goal} {rest}"), format!("{verdict}: {} {rest}", cut(&goal, LONGEST_GOAL)))
}

fn reached(mut maker: Maker, cut: usize, rungs: &[Rung]) -> Graph {
    let (sheet, heads) = (maker.sheet, maker.heads);
    let goal = heads.head[sheet.goal];
    let used = |head: usize| head == goal || rungs.iter().any(|rung| rung.sources.contains(&head));
    maker.public(used);
    maker.hear(cut, used);
    let mut list = Vec::new();
    for (i, rung) in rungs.iter().enumerate() {
        maker.node(Kind::Rung(i + 1, rung.rule), rung.head);
        maker.name(rung);
        list.extend(edges(rung.rule, &rung.sources, maker.nodes.len() - 1, &maker.node_of));
    }
    let mut nodes = maker.nodes;
    mark(&mut nodes, &mut list);
    let notes = notes(&nodes, &list, &undrawn(sheet, heads, cut, used));
    let heard = counted(cut, "heard message", "heard messages");
    let (title, heading) = titles(sheet, "reached", &format!("after {heard}, in {}", counted(rungs.len(), "rung", "rungs")));
    Graph { nodes, edges: list, title, heading, notes, reached: true }
}

// All that is public or was heard, and the goal.
fn apart(mut maker: Maker, goal: Kind) -> Graph {
    let sheet = maker.sheet;
    maker.public(|_| true);
    maker.hear(sheet.heard.len(), |_| true);
    maker.node(goal, sheet.goal);
    Graph { nodes: maker.nodes, ..Graph::default() }
}

// The sum that would gain the goal, drawn as a rung: used terms, missing ones, and the goal.
fn summed(mut maker: Maker, lack: &Lack) -> Graph {
    let (sheet, heads) = (maker.sheet, maker.heads);
    let all = sheet.heard.len();
    let used = |head: usize| lack.used.contains(&head);
    maker.public(used);
    maker.hear(all, used);
    let gained: Vec<usize> = lack.used.iter().copied().filter(|head| maker.node_of[*head].is_none()).collect();
    gained.into_iter().for_each(|head| maker.node(Kind::Gained, head));
    lack.missing.iter().for_each(|head| maker.node(Kind::Missing, *head));
    maker.node(Kind::Missed, sheet.goal);
    let sources = lack.used.iter().chain(&lack.missing).copied().collect();
    let rung = Rung { head: heads.head[sheet.goal], rule: Rule::Sum, sources };
    maker.name(&rung);
    let mut list = edges(rung.rule, &rung.sources, maker.nodes.len() - 1, &maker.node_of);
    let mut nodes = maker.nodes;
    mark(&mut nodes, &mut list);
    let notes = missing_notes(lack.missing.len(), &undrawn(sheet, heads, all, used));
    Graph { nodes, edges: list, notes, ..Graph::default() }
}

fn missed(maker: Maker, known: usize, lack: Option<&Lack>) -> Graph {
    let (sheet, heads) = (maker.sheet, maker.heads);
    let heard = counted(sheet.heard.len(), "heard message", "heard messages");
    let (title, heading) = titles(sheet, "out of reach", &format!("after {heard}"));
    let terms = counted(heads.count(), "different term", "different terms");
    let graph = match lack {
        None => apart(maker, Kind::Missed),
        Some(lack) if lack.missing == [heads.head[sheet.goal]] => apart(maker, Kind::Missing),
        Some(lack) => summed(maker, lack),
    };
    let notes = [vec![format!("Known: {known} of the sheet's {terms}.")], graph.notes].concat();
    Graph { title, heading, notes, ..graph }
}

pub fn graph(sheet: &Sheet, heads: &Heads, card: &Card) -> Graph {
    let maker = Maker { sheet, heads, nodes: Vec::new(), node_of: vec![None; sheet.entries.len()] };
    match card {
        Card::Reached { cut, rungs } => reached(maker, *cut, rungs),
        Card::OutOfReach { known, lack } => missed(maker, *known, lack.as_ref()),
    }
}
