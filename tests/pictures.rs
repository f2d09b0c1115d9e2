// The tool's pictures: a box a rung and a line a source, nothing over anything, no wider than a browser's window, public atoms and heard
// messages in order and beside their first use; used and missing terms of a goal that is out of reach; cards that are wrong or damaged give
// none. The tool's path is the first argument.

mod cards;
mod shapes;
#[allow(dead_code)] // each test uses a part
mod sheets;
mod simple;
mod tally;

#[path = "../tools/sheet/boxes.rs"]
mod boxes;
#[allow(dead_code)]
#[path = "../tools/sheet/bytes.rs"]
mod bytes;
#[path = "../tools/sheet/card.rs"]
mod card;
#[path = "../tools/sheet/dot.rs"]
mod dot;
#[path = "../tools/sheet/graph.rs"]
mod graph;
#[path = "../tools/sheet/heads.rs"]
mod heads;
#[path = "../tools/sheet/lack.rs"]
mod lack;
#[path = "../tools/sheet/layout.rs"]
mod layout;
#[allow(dead_code)]
#[path = "../tools/sheet/model.rs"]
mod model;
#[path = "../tools/sheet/notes.rs"]
mod notes;
#[path = "../tools/sheet/rows.rs"]
mod rows;
#[path = "../tools/sheet/short.rs"]
mod short;
#[path = "../tools/sheet/svg.rs"]
mod svg;
#[path = "../tools/sheet/words.rs"]
mod words;

use cards::{card_of, large, random_sheet};
use shapes::{apart, areas, box_of, boxes_of, clear, lines_of, well_formed};
use sheets::{damage, sheet, Entry, Random, FRONT};
use std::collections::BTreeSet;
use std::io::Write;
use std::path::PathBuf;
use std::process::{Command, Stdio};
use tally::Tally;

const MOST_WIDTH: f64 = 1280.0;

struct Checks {
    tool: PathBuf,
    tally: Tally,
}

impl Checks {
    fn check(&mut self, what: &str, holds: bool) {
        self.tally.check(what, holds);
    }

    // What the tool prints for a sheet on its standard input; nothing if it fails.
    fn draws(&self, words: &[&str], input: &[u8]) -> String {
        let mut command = Command::new(&self.tool);
        command.arg("draw").args(words).stdin(Stdio::piped()).stdout(Stdio::piped()).stderr(Stdio::null());
        let mut child = command.spawn().expect("the tool starts");
        let _ = child.stdin.take().map(|mut stdin| stdin.write_all(input));
        let done = child.wait_with_output().expect("the tool ends");
        if done.status.success() { String::from_utf8_lossy(&done.stdout).into_owned() } else { String::new() }
    }
}

const TEXT_A: &str = "key atom 1007\nmask atom 1009\nmasked sum key mask\nsession atom 1012\nbox seal session key\nheard masked box mask\ngoal session\n";

fn graph_of(bytes: &[u8], card: &str) -> Result<graph::Graph, String> {
    let sheet = bytes::decode(bytes).map_err(|n| n.to_string())?;
    let heads = heads::Heads::of(&sheet);
    let card = card::parse(card.as_bytes(), &sheet, &heads).map_err(|fault| fault.message)?;
    Ok(graph::graph(&sheet, &heads, &card))
}

fn pictured(bytes: &[u8], card: &str) -> Result<(String, String), String> {
    graph_of(bytes, card).map(|graph| (svg::svg(&graph), dot::dot(&graph)))
}

// The picture without what the goal doesn't need has the other boxes.
fn shows_needed(c: &mut Checks, whole: &str, bytes: &[u8], card: &str) {
    let few = graph_of(bytes, card).map_or(String::new(), |graph| svg::svg(&graph::needed(graph)));
    let rungs = |picture: &str, more: &str| picture.matches(&format!("<g class=\"rung{more}")).count();
    c.check("needed boxes stay", rungs(&few, "") == rungs(whole, "") - rungs(whole, " pale") && rungs(&few, " pale") == 0);
    c.check("a needed picture is well formed", well_formed(&few) && apart(&areas(&few)) && few.matches(">GOAL</text>").count() == 1);
}

// A picture has a box a rung, names each rung's head, and no boxes overlap.
fn shows(c: &mut Checks, picture: &str, card: &str) {
    let rungs: Vec<&str> = card.lines().filter_map(|line| line.strip_prefix("rung ")).collect();
    c.check("a picture is well formed", well_formed(picture));
    c.check("a box a rung", picture.matches("<g class=\"rung").count() == rungs.len());
    for (i, rung) in rungs.iter().enumerate() {
        let head = rung.split(' ').next().unwrap_or("");
        let rule = rung.split(' ').nth(1).unwrap_or("").replace("left", "split left").replace("right", "split right");
        let start = format!("<title>step {} · rung {head} {rule}: entry {head} ", i + 1);
        c.check(&format!("rung {rung} is named"), picture.contains(&start));
    }
    c.check("one goal", picture.matches(">GOAL</text>").count() == 1);
    c.check("boxes are apart", apart(&areas(picture)));
    let (out, reached) = (picture.contains(">out of reach: entry "), picture.contains(">reached: entry "));
    c.check("the title begins with the verdict", reached == card.contains("reached") && out != reached);
    c.check("out of reach is said", picture.contains(">out of reach</text>") == out);
    c.check("a card says nothing of what is missing", !picture.contains("missing"));
    c.check("a line a source", picture.matches("<path class=\"tip").count() == sources(card));
    narrow(c, picture);
    start_boxes(c, picture, &rungs);
}

fn narrow(c: &mut Checks, picture: &str) {
    let width = picture.split(" width=\"").nth(1).and_then(|rest| rest.split('"').next()?.parse::<f64>().ok());
    c.check(&format!("{width:?} is no wider than a window"), width.map_or(false, |width| width <= MOST_WIDTH));
}

// The heads that are public, by another way than the tool's: a list of the numbers seen so far. Then the different heads that were heard
// before the cut and aren't public. For each only what a picture draws: what a rung uses and the goal, or everything where it is out of reach.
fn starts(bytes: &[u8], card: &str) -> (Vec<usize>, Vec<usize>) {
    let sheet = bytes::decode(bytes).expect("a good sheet");
    let heads = heads::Heads::of(&sheet).head;
    let mut seen: Vec<u32> = vec![];
    let mut first = |entry: &model::Entry| match entry {
        model::Entry::Atom { number, .. } if *number < 256 && !seen.contains(number) => {
            seen.push(*number);
            true
        }
        _ => false,
    };
    let public: Vec<usize> = (0..heads.len()).filter(|i| first(&sheet.entries[*i])).collect();
    let reached = card.contains(" reached ");
    let rungs = card.lines().filter(|line| line.starts_with("rung "));
    let sources: BTreeSet<usize> = rungs.flat_map(|line| line.split(' ').skip(3)).filter_map(|word| word.parse().ok()).collect();
    let drawn = |head: &usize| !reached || *head == heads[sheet.goal] || sources.contains(head);
    let cut = card.matches("cut ").count() - 1;
    let heard: BTreeSet<usize> = sheet.heard.iter().take(cut).map(|entry| heads[*entry]).filter(|head| !public.contains(head) && drawn(head)).collect();
    (public.into_iter().filter(|head| drawn(head)).collect(), heard.into_iter().collect())
}

// A public atom has one box, which says so, also where it was heard; a heard message that isn't public has another.
fn shows_starts(c: &mut Checks, svg: &str, dot: &str, bytes: &[u8], card: &str) -> usize {
    let (public, heard) = starts(bytes, card);
    c.check(&format!("{public:?} are public in\n{svg}"), svg.matches("<g class=\"public").count() == public.len());
    c.check(&format!("{heard:?} were heard"), svg.matches("<g class=\"heard").count() == heard.len());
    for (i, head) in public.iter().enumerate() {
        c.check("a public atom's box", svg.matches(&format!("<title>on the hull label: entry {head} ")).count() == 1);
        let line = dot.lines().find(|line| line.starts_with(&format!("  n{i} [")));
        let parts = ["[label=\"on the hull label".to_string(), format!("\\nentry {head}\\n"), "style=filled,".to_string()];
        c.check(&format!("a public atom's node comes first: {line:?}"), line.map_or(false, |line| parts.iter().all(|part| line.contains(part))));
    }
    c.check("no other node is public", dot.matches("[label=\"on the hull label").count() == public.len());
    c.check("the style of public atoms", svg.contains("\n.public rect{") != public.is_empty());
    public.len()
}

// In a column, public atoms stand in the order of their entries, and heard messages after them in the order heard; and each stands just
// before the first column that uses it.
fn start_boxes(c: &mut Checks, picture: &str, rungs: &[&str]) {
    let heard = |told: &str| told.strip_prefix("heard ")?.split([',', ':', ' ']).next()?.parse::<usize>().ok().filter(|_| !told.contains(" times"));
    let public = |told: &str| told.strip_prefix("on the hull label: entry ")?.split([' ', ':']).next()?.parse::<usize>().ok();
    let place = |told: &str| public(told).map(|entry| (0, entry)).or_else(|| heard(told).map(|place| (1, place)));
    let entry = |told: &str| told.split("entry ").nth(1).and_then(|rest| rest.split([' ', ':']).next()).map(str::to_string);
    let segments: Vec<&str> = picture.split("<rect class=\"panel\"").collect();
    for part in segments {
        let boxes = boxes_of(part);
        let whole = boxes.iter().filter(|one| !one.0.contains(", earlier:"));
        let starts: Vec<((u8, usize), f64, f64)> = whole.filter_map(|one| Some((place(&one.0)?, one.1, one.2))).collect();
        let ordered = starts.iter().all(|a| starts.iter().all(|b| a.1 != b.1 || (a.0 < b.0) == (a.2 < b.2)));
        c.check("public atoms and heard messages are in order", ordered);
        let mut columns: Vec<i64> = boxes.iter().map(|one| one.1 as i64).collect();
        columns.sort_unstable();
        columns.dedup();
        let column = |x: f64| columns.iter().position(|left| *left == x as i64);
        let start = |told: &str| told.starts_with("heard ") || told.starts_with("on the hull label");
        for one in boxes.iter().filter(|one| start(&one.0) && !one.0.contains(", earlier:") && !one.0.contains("same as")) {
            let uses = |rung: &&str| entry(&one.0).map_or(false, |own| rung.split(' ').skip(2).any(|source| source == own));
            let users = (0..rungs.len()).filter(|step| uses(&rungs[*step])).map(|step| format!("step {} · ", step + 1));
            let first = users.filter_map(|start| column(boxes.iter().find(|other| other.0.starts_with(&start))?.1)).min();
            c.check(&format!("{} stands before its first use", one.0), first.map_or(rungs.is_empty(), |first| column(one.1).map(|at| at + 1) == Some(first)));
        }
    }
}

// The different sources of each rung, counted over the card.
fn sources(card: &str) -> usize {
    let rungs = card.lines().filter(|line| line.starts_with("rung "));
    rungs.map(|line| line.split(' ').skip(3).collect::<BTreeSet<_>>().len()).sum()
}

// Used and missing entries where the goal is out of reach with all messages heard, by the simple verdict.
fn lack_of(bytes: &[u8]) -> Option<card::Lack> {
    let mut buffer = vec![0; FRONT + 40 * 256];
    let answer = simple::verdict(bytes, u32::from(bytes[6]) * 256 + u32::from(bytes[7]), 256, &mut buffer);
    let members = |set: &[u8]| (0..256).filter(|e| set[e / 8] >> (e % 8) & 1 == 1).collect::<Vec<usize>>();
    let sets: Vec<Vec<usize>> = buffer[..FRONT].chunks(32).map(members).collect();
    (answer / 1000 == 2).then(|| card::Lack { used: sets[1].clone(), missing: sets[2].clone() })
}

// A box for each used term and each missing one, a line from each, and nothing over anything.
fn shows_sum(c: &mut Checks, svg: &str, dot: &str, lack: &card::Lack) {
    let (boxes, areas, lines) = (boxes_of(svg), areas(svg), lines_of(svg));
    let count = |class: &str| svg.matches(&format!("<g class=\"{class}\">")).count();
    c.check("a box a missing term", count("missing") == lack.missing.len() && count("missed goal") == 1);
    c.check("a box a used term", count("public") + count("heard") + count("gained") == lack.used.len() && count("rung") == 0);
    let number = |rest: &str| rest.split(|c: char| !c.is_ascii_digit()).next().and_then(|digits| digits.parse::<usize>().ok());
    let named = |told: &str, e: usize| told.split("entry ").skip(1).any(|rest| number(rest) == Some(e));
    let is = |told: &str, missing: bool| told.starts_with("missing: ") == missing && !told.starts_with("not gained: ");
    let has = |e: &usize, missing: bool| boxes.iter().any(|one| is(&one.0, missing) && named(&one.0, *e));
    c.check(&format!("{lack:?} by name in\n{svg}"), lack.used.iter().all(|e| has(e, false)) && lack.missing.iter().all(|e| has(e, true)));
    let from = |area: &[f64; 4], missing: bool| {
        let near = |point: &(f64, f64)| (point.0 - area[2]).abs() < 0.2 && (point.1 - (area[1] + area[3]) / 2.0).abs() < 0.2;
        lines.iter().any(|(dashed, points)| *dashed == missing && points.first().map_or(false, near))
    };
    let mut sources = areas.iter().zip(&boxes).filter(|(_, one)| !one.0.starts_with("not gained: "));
    c.check("a line from each term", sources.all(|(area, one)| from(area, one.0.starts_with("missing: "))));
    c.check("no other line", lines.len() == lack.used.len() + lack.missing.len());
    c.check(&format!("no line runs over a box in\n{svg}"), clear(&lines, &areas));
    c.check("a wall beside used terms", svg.contains("<path class=\"wall\"") != lack.used.is_empty());
    c.check("an edge a term in dot", dot.matches(" -> ").count() == lines.len());
    let dashed = [" [style=dashed, color=\"#c0392b\"];", "[label=\"missing\\n"].map(|part| dot.matches(part).count());
    c.check(&format!("missing terms are dashed in\n{dot}"), dashed == [lack.missing.len(); 2]);
}

// The goal alone is missing: its box says so, and everything that was heard is drawn, as for the card.
fn shows_goal_missing(c: &mut Checks, svg: &str, dot: &str, card_picture: &str) {
    let told = |picture: &str| boxes_of(picture).into_iter().map(|one| one.0).collect::<Vec<_>>();
    let as_missing: Vec<String> = told(card_picture).iter().map(|told| told.replace("not gained: ", "missing: ")).collect();
    c.check("the boxes of the card's picture", told(svg) == as_missing && svg.matches(">missing</text>").count() == 1);
    c.check("nothing leads to the goal", lines_of(svg).is_empty() && !dot.contains(" -> ") && dot.matches("[label=\"missing (goal)\\n").count() == 1);
}

// The picture of a goal that is out of reach as the library's answer gives it. Answers whether used and missing terms are drawn.
fn shows_lack(c: &mut Checks, bytes: &[u8], card: &str, lack: &card::Lack) -> bool {
    let sheet = bytes::decode(bytes).expect("a good sheet");
    let heads = heads::Heads::of(&sheet);
    let known = card.lines().last().and_then(|line| line.split(' ').last()?.parse().ok()).unwrap_or(0);
    let graph = graph::graph(&sheet, &heads, &card::Card::OutOfReach { known, lack: Some(lack.clone()) });
    let (svg, dot, goal) = (svg::svg(&graph), dot::dot(&graph), lack.missing == [heads.head[sheet.goal]]);
    c.check("out of reach is well formed", well_formed(&svg) && apart(&areas(&svg)) && svg.matches(">GOAL</text>").count() == 1);
    c.check("its verdict", svg.contains(">out of reach: entry ") && svg.contains(">out of reach</text>") && svg.contains(&format!(">Known: {known} of ")));
    narrow(c, &svg);
    c.check("the style of missing terms", svg.contains("\n.missing rect{") != goal);
    if goal {
        let drawn = pictured(bytes, card).map_or(String::new(), |(svg, _)| svg);
        shows_goal_missing(c, &svg, &dot, &drawn);
    } else {
        shows_sum(c, &svg, &dot, lack);
    }
    !goal
}

// A sheet of atoms, seals and sums, of which some are heard, so that much is used and missing.
fn sums(r: &mut Random) -> Vec<u8> {
    let n = 4 + r.below(60);
    let first = 2 + r.below(n / 2);
    let entry = |r: &mut Random, i: u64| match (i < first, r.below(8)) {
        (true, 0) => Entry::Atom(i as u32),
        (true, _) => Entry::Atom(1000 + i as u32),
        (false, 0) => Entry::Seal(r.below(i) as u16, r.below(i) as u16),
        _ => Entry::Sum((0..2 + r.below(8)).map(|_| r.below(i) as u16).collect()),
    };
    let entries: Vec<Entry> = (0..n).map(|i| entry(r, i)).collect();
    let heard: Vec<u16> = (0..r.below(n / 2)).map(|_| r.below(n) as u16).collect();
    sheet(&entries, &heard, r.below(n) as u16)
}

fn sums_with_missing_terms(c: &mut Checks) {
    let mut r = Random(0x8f1bbcdcbfa53e0b);
    let (mut summed, mut used, mut several) = (0, 0, 0);
    for _ in 0..400 {
        let bytes = sums(&mut r);
        if let Some(lack) = lack_of(&bytes) {
            summed += usize::from(shows_lack(c, &bytes, &card_of(&bytes), &lack));
            used += usize::from(!lack.used.is_empty());
            several += usize::from(lack.missing.len() > 1);
        }
    }
    let drawn = format!("{summed} sums with missing terms, {used} with a used term, {several} with several missing");
    c.check(&drawn, summed > 60 && used > 60 && several > 60);
}

fn pictures(c: &mut Checks) {
    let mut r = Random(0xd1b54a32d192ed03);
    let mut public = 0;
    for i in 0..600 {
        let bytes = if i % 100 == 0 { large(&mut r) } else { random_sheet(&mut r) };
        let card = card_of(&bytes);
        match pictured(&bytes, &card) {
            Ok((svg, dot)) => {
                shows(c, &svg, &card);
                shows_needed(c, &svg, &bytes, &card);
                public += shows_starts(c, &svg, &dot, &bytes, &card);
                c.check("a node a rung in dot", dot.matches("[label=\"step ").count() == card.matches("rung ").count());
                c.check("an edge a source in dot", dot.matches(" -> ").count() == sources(&card));
                if let Some(lack) = lack_of(&bytes) {
                    shows_lack(c, &bytes, &card, &lack);
                }
            }
            Err(message) => c.check(&format!("{card}: {message}"), false),
        }
    }
    c.check(&format!("{public} public atoms are drawn"), public > 100);
    // The longest ladder: pairs on pairs on zero.
    let chain: Vec<Entry> = (0..256u16).map(|i| if i == 0 { Entry::Zero } else { Entry::Pair(i - 1, i.saturating_sub(9)) }).collect();
    let bytes = sheet(&chain, &[], 255);
    let card = card_of(&bytes);
    c.check("256 rungs", card.contains("rungs 256"));
    match pictured(&bytes, &card) {
        Ok((svg, _)) => shows(c, &svg, &card),
        Err(message) => c.check(&message, false),
    }
}

fn pictures_by_the_tool(c: &mut Checks) {
    let text = c.draws(&["-"], TEXT_A.as_bytes());
    c.check("sheet A is drawn", well_formed(&text) && text.matches("<g class=\"rung").count() == 2);
    let wanted = [
        "reached: session after 3 heard messages, in 2 rungs",
        "step 1 · rung 0 sum: key = atom 1007",
        "step 2 · rung 3 open: session (goal) = atom 1012",
        "<g class=\"rung goal\">",
    ];
    wanted.iter().for_each(|part| c.check(part, text.contains(part)));
    let dot = c.draws(&["--dot", "-"], TEXT_A.as_bytes());
    let named = dot.contains("step 2 · rung 3 open (goal)\\nsession\\natom 1012");
    c.check("dot", dot.starts_with("digraph") && dot.matches(" -> ").count() == 4 && named);
    let text = c.draws(&["-"], b"a atom 1001\ns seal a a\nheard s\ngoal a\n");
    let said = text.contains(">out of reach</text>") && text.contains("Known: 1 of the sheet&#39;s 2 different terms");
    c.check("out of reach is drawn", well_formed(&text) && said && text.contains(">out of reach: a after 1 heard message<"));
}

// A term with two names bears both where a line comes from one and the other box says the other.
fn names(c: &mut Checks) {
    let text = "m atom\nk atom\nz zero\nk2 sum k z\nm2 sum m z\ns seal m2 k2\nspare sum z k\nheard s k\ngoal m\n";
    let picture = c.draws(&["-"], text.as_bytes());
    let (key, message) = (box_of(&picture, "k"), box_of(&picture, "m"));
    c.check("a key's other name", key.contains(">same as k2</text>") && key.contains("the same as k2</title>"));
    c.check("a message's other name", message.contains(">same as m2</text>"));
    c.check("a seal has one name", !box_of(&picture, "s").contains("same as") && !picture.contains("spare"));
    let long = format!("{}1", "frequency_hopping_".repeat(4));
    let text = format!("{long} atom\n{long}2 atom\ns seal {long} {long}2\nheard s {long}2\ngoal {long}\n");
    let picture = c.draws(&["-"], text.as_bytes());
    c.check("a title with a long name", picture.contains(">reached: frequency_hopping_fr…frequency_hopping_1 after 2 heard messages, in 1 rung</text>"));
    c.check("a long name's end is seen", picture.contains(">frequency_hopp…cy_hopping_12</text>"));
    c.check("both names of a seal are seen", picture.contains(">frequ…ing_1 sealed under frequ…ng_12</text>"));
    c.check("the whole name is told", picture.contains(&format!("<title id=\"title\">reached: {long} after")));
    let cuts = [("abcdef", 6, "abcdef"), ("abcdefg", 6, "abc…fg"), ("abcdefg", 5, "ab…fg"), ("鍵鍵鍵鍵", 6, "鍵…鍵"), ("", 4, "")];
    cuts.iter().for_each(|(text, most, wanted)| c.check(&format!("{text} cut to {most}"), short::cut(text, *most) == *wanted));
}

// What the goal doesn't need is left out when that is asked for, and counted.
fn needed(c: &mut Checks) {
    let atoms: String = (0..=100).map(|i| format!("a{i} atom\n")).collect();
    let pairs: String = (2..=100).map(|i| format!("p{i} pair p{} a{i}\n", i - 1)).collect();
    let text = format!("{atoms}p1 pair a0 a1\n{pairs}spare atom\nheard spare p100\ngoal a0\n");
    let (all, few) = (c.draws(&["-"], text.as_bytes()), c.draws(&["--needed", "-"], text.as_bytes()));
    let rungs = |picture: &str| picture.matches("<g class=\"rung").count();
    c.check(&format!("{} and {} rungs", rungs(&all), rungs(&few)), rungs(&all) == 199 && rungs(&few) == 100);
    c.check("pale rungs are counted", all.contains(">Pale: 99 rungs that the goal doesn&#39;t need.<") && !all.contains("Left out"));
    c.check("left out rungs are counted", few.contains(">Left out: 99 rungs that the goal doesn&#39;t need.<") && !few.contains("Pale"));
    c.check("the title has all rungs", few.contains(">reached: a0 after 2 heard messages, in 199 rungs<"));
    c.check("steps keep their numbers", few.contains("<title>step 199 · rung 0 split left: a0 (goal)") && well_formed(&few));
    c.check("boxes are apart", apart(&areas(&all)) && apart(&areas(&few)));
    let heard = c.draws(&["--needed", "-"], b"a atom\nb atom\ns seal b a\nheard b s\ngoal s\n");
    c.check("a goal that was heard", rungs(&heard) == 0 && heard.contains("<g class=\"heard goal\">"));
    let text = "b atom\nc atom\na atom\np pair b c\ng pair a a\nheard p a\ngoal g\n";
    let few = c.draws(&["--needed", "-"], text.as_bytes());
    c.check("a heard message is left out too", few.contains("Left out: 2 rungs and 1 heard message that") && few.matches("<g class=\"heard").count() == 1);
    let dot = c.draws(&["--needed", "--dot", "-"], text.as_bytes());
    c.check("dot", dot.matches("[label=\"step ").count() == 1 && dot.contains("Left out: 2 rungs"));
    let out = "a atom\nb atom\ns seal a b\nheard s\ngoal a\n";
    c.check("out of reach is whole", c.draws(&["--needed", "-"], out.as_bytes()) == c.draws(&["-"], out.as_bytes()));
}

// Long ladders and long heard lists: no wider than a window, and every part has its caption.
fn long(c: &mut Checks) {
    let key = |i: u16| if i == 0 { 0 } else { 2 * i - 1 };
    let seal = |i: u16| (i > 0).then(|| Entry::Seal(key(i), key(i - 1)));
    let opens: Vec<Entry> = (0..=100u16).flat_map(|i| [Some(Entry::Atom(1000 + u32::from(i))), seal(i)]).flatten().collect();
    let heard: Vec<u16> = (1..=100).map(|i| 2 * i).chain([0]).collect();
    let bytes = sheet(&opens, &heard, key(100));
    let card = card_of(&bytes);
    c.check("100 opens", card.contains("reached rungs 100"));
    match pictured(&bytes, &card) {
        Ok((svg, _)) => {
            shows(c, &svg, &card);
            let captions = svg.matches(">steps ").count() + svg.matches(">step 100<").count();
            c.check("parts have captions", captions == svg.matches("class=\"panel\"").count() && svg.contains(">steps 1 to ") && captions > 10);
        }
        Err(message) => c.check(&message, false),
    }
    let locked: Vec<Entry> = (0..256u16).map(|i| if i == 0 { Entry::Atom(1000) } else { Entry::Seal(i - 1, 0) }).collect();
    let bytes = sheet(&locked, &(1..=255).collect::<Vec<u16>>(), 0);
    let card = card_of(&bytes);
    c.check("255 heard seals and no key", card.ends_with("cut 255 out of reach known 255\n"));
    match pictured(&bytes, &card) {
        Ok((svg, _)) => shows(c, &svg, &card),
        Err(message) => c.check(&message, false),
    }
}

// The boxes of a picture by class: public atoms, heard messages, rungs.
fn counts(picture: &str) -> [usize; 3] {
    ["public", "heard", "rung"].map(|class| picture.matches(&format!("<g class=\"{class}")).count())
}

// Names on the hull label, drawn: which have a box, what it says, and how many have none.
fn public_pictures(c: &mut Checks) {
    let text = "key atom\nname atom 255\nother atom 0\nmasked sum key name\nheard other masked name\ngoal key\n";
    let picture = c.draws(&["-"], text.as_bytes());
    c.check("a public atom that is used, and was heard later", counts(&picture) == [1, 1, 1] && well_formed(&picture));
    c.check("its box", box_of(&picture, "name").contains(">on the hull label</text>") && box_of(&picture, "name").contains(" rx=\"0\"/>"));
    c.check("the other one is counted", picture.contains(">Not drawn: 1 atom on the hull label that no rung uses.<"));
    c.check("it doesn't count as heard too", !picture.contains("heard message that no rung uses") && picture.contains(">Not drawn: 1 message heard later.<"));
    let heard = c.draws(&["-"], text.replace("heard other", "heard name other").as_bytes());
    c.check("a public atom that was heard first", counts(&heard) == [1, 1, 1] && heard.contains("<title>on the hull label: name = atom 255</title>"));
    let secret = c.draws(&["-"], text.replace("255", "256").replace("heard other", "heard name other").as_bytes());
    c.check("atom 256 isn't public", counts(&secret) == [0, 2, 1] && secret.contains("<title>heard 1: name = atom 256</title>"));
    let plain = c.draws(&["-"], TEXT_A.as_bytes());
    c.check("a picture without public atoms says nothing of them", !plain.contains("public") && !plain.contains("hull"));
    let goal = c.draws(&["-"], b"name atom 5\nother atom 6\ntwo atom 7\ngoal name\n");
    c.check("a public goal", counts(&goal) == [1, 0, 0] && goal.contains("<g class=\"public goal\">"));
    c.check("its title", goal.contains(">reached: name after 0 heard messages, in 0 rungs<"));
    c.check("two are counted", goal.contains(">Not drawn: 2 atoms on the hull label that no rung uses.<"));
    let goal = c.draws(&["--dot", "-"], b"name atom 5\nz zero\ng sum z name\ngoal g\n");
    let said = "[label=\"on the hull label (goal)\\nname\\natom 5\\nsame as g\", style=filled, fillcolor=\"#fff2c2\"";
    c.check("a goal that is a public atom", goal.contains(said));
}

// A public atom stands above the heard messages of its column, also where fewer lines would cross with it between them.
fn public_order(c: &mut Checks) {
    let text = "h1 atom\nname atom 9\nh2 atom\na pair h1 name\nb pair name h2\ng pair a b\nheard h1 h2\ngoal g\n";
    let boxes = boxes_of(&c.draws(&["-"], text.as_bytes()));
    let starts = ["on the hull label: name ", "heard 1: h1 ", "heard 2: h2 "].map(|start| boxes.iter().find(|one| one.0.starts_with(start)));
    let holds = matches!(starts, [Some(name), Some(h1), Some(h2)] if name.1 == h1.1 && h1.1 == h2.1 && name.2 < h1.2 && h1.2 < h2.2);
    c.check(&format!("a public atom comes first in its column: {boxes:?}"), holds);
}

fn public_out_of_reach(c: &mut Checks) {
    let text = "key atom\nname atom 5\nother atom 6\n3 atom 5\nbox seal key key\nheard other box\ngoal key\n";
    let picture = c.draws(&["-"], text.as_bytes());
    c.check("every public atom is drawn once", counts(&picture) == [2, 1, 0] && well_formed(&picture) && apart(&areas(&picture)));
    c.check("how many are known", picture.contains("Known: 3 of the sheet&#39;s 4 different terms"));
    let dot = c.draws(&["--dot", "-"], text.as_bytes());
    let nodes = ["on the hull label\\nname\\n", "on the hull label\\nother\\n", "heard 2\\nbox\\n", "missing (goal)\\nkey\\n"];
    let starts: Vec<usize> = nodes.iter().filter_map(|part| dot.find(part)).collect();
    c.check(&format!("public atoms, heard messages, the goal: {starts:?} in\n{dot}"), starts.len() == 4 && starts.windows(2).all(|two| two[0] < two[1]));
    let few = c.draws(&["-"], b"key atom\nname atom 5\ngoal key\n");
    c.check("a public atom and nothing heard", counts(&few) == [1, 0, 0] && !few.contains(">nothing heard<"));
    c.check("nothing at all", c.draws(&["-"], b"key atom\ngoal key\n").contains(">nothing heard<"));
}

// The pad is listed above the key that it masks, and the masked key is heard, or gained by opening a seal.
const MASKED: &str = "pad atom 1009\nkey atom 1007\nmasked sum key pad\nother atom 1012\nname atom 5\nheard masked other\ngoal key\n";
const OPENED: &str = "pad atom\nkey atom\nk atom\nmasked sum key pad\nbox seal masked k\nheard box k\ngoal key\n";

// What is missing, drawn by the tool.
fn missing_pictures(c: &mut Checks) {
    let picture = c.draws(&["-"], MASKED.as_bytes());
    let pad = box_of(&picture, "pad");
    c.check("a missing term", pad.starts_with("\"missing\">") && pad.contains("<title>missing: pad = atom 1009</title>") && pad.contains(">missing</text>"));
    let goal = box_of(&picture, "key");
    c.check("a goal that isn't gained", goal.starts_with("\"missed goal\">") && goal.contains(">not gained</text>"));
    c.check("a used term", box_of(&picture, "masked").starts_with("\"heard\">") && counts(&picture) == [0, 1, 0]);
    let notes = [
        ">out of reach: key after 2 heard messages<",
        ">Known: 3 of the sheet&#39;s 5 different terms.<",
        ">With the missing term a listener gains the goal.<",
        ">Not drawn: 1 atom on the hull label outside the sum.<",
        ">Not drawn: 1 heard message outside the sum.<",
    ];
    notes.iter().for_each(|note| c.check(note, picture.contains(note)));
    c.check("everything stays with --needed", c.draws(&["--needed", "-"], MASKED.as_bytes()) == picture);
    let dot = c.draws(&["--dot", "-"], MASKED.as_bytes());
    let nodes = ["n0 [label=\"heard 1\\nmasked\\n", "n1 [label=\"missing\\npad\\n", "n2 [label=\"not gained (goal)\\nkey\\n"];
    let edges = ["n0 -> n2 [color=", "n1 -> n2 [style=dashed, "];
    nodes.iter().chain(&edges).for_each(|part| c.check(&format!("{part} in\n{dot}"), dot.contains(part)));
    let opened = c.draws(&["-"], OPENED.as_bytes());
    let gained = box_of(&opened, "masked");
    c.check("a term that was gained by steps", gained.starts_with("\"gained\">") && gained.contains(">gained</text>") && counts(&opened) == [0, 0, 0]);
    let public = c.draws(&["-"], MASKED.replace("1009\n", "1009\nsign atom 7\n").replace("key pad", "key pad sign").as_bytes());
    c.check("a name that is used", counts(&public) == [1, 1, 0] && box_of(&public, "sign").contains(">on the hull label</text>"));
    let goal = c.draws(&["-"], MASKED.replace("heard masked", "heard").as_bytes());
    c.check("a goal that is missing itself", box_of(&goal, "key").contains(">missing</text>") && counts(&goal) == [1, 1, 0] && !goal.contains(">not gained<"));
    let names = "pad atom\nkey atom\npad2 sum pad\nmasked sum key pad2\nkey2 sum key\nsame sum masked\nheard same masked\ngoal key2\n";
    let picture = c.draws(&["-"], names.replace("heard same", "heard").as_bytes());
    let same = |picture: &str, name: &str, other: &str| box_of(picture, name).contains(&format!(">same as {other}</text>"));
    c.check("other names of what is missing and of the goal", same(&picture, "pad", "pad2") && same(&picture, "key2", "key"));
    let heard = c.draws(&["-"], names.as_bytes());
    c.check("another name of a used term", same(&heard, "same", "masked") && heard.contains("<title>heard 1, 2: same = masked, the same as masked</title>"));
}

// Many used and missing terms, with short names and with long ones.
fn many_missing(c: &mut Checks) {
    for (missing, used, name) in [(1, 9, "x"), (2, 8, "x"), (9, 0, "x"), (30, 60, "x"), (110, 120, "x"), (20, 31, "frequency_hopping_frequency_hopping_")] {
        let atoms: String = (0..missing + used).map(|i| format!("{name}{i} atom\n")).collect();
        let items: Vec<String> = (0..missing + used).map(|i| format!("{name}{i}")).collect();
        let sums: String = items.chunks(60).enumerate().map(|(i, part)| format!("s{i} sum {}\n", part.join(" "))).collect();
        let whole: Vec<String> = (0..items.chunks(60).len()).map(|i| format!("s{i}")).collect();
        let text = format!("{atoms}{sums}{name}goal sum {}\nheard {}\ngoal {name}goal\n", whole.join(" "), items[missing..].join(" "));
        let picture = c.draws(&["-"], text.as_bytes());
        let what = format!("{missing} missing, {used} used, {name}");
        let (areas, lines) = (areas(&picture), lines_of(&picture));
        c.check(&what, picture.matches("<g class=\"missing\">").count() == missing && counts(&picture) == [0, used, 0]);
        c.check(&format!("{what}: nothing over anything"), well_formed(&picture) && apart(&areas) && clear(&lines, &areas) && lines.len() == missing + used);
        let right = areas.iter().map(|area| area[2]).fold(0.0, f64::max);
        let columns: BTreeSet<i64> = areas.iter().map(|area| area[0] as i64).collect();
        c.check(&format!("{what}: {right}, {columns:?}"), right <= MOST_WIDTH && (columns.len() > 2) == (missing + used > 9));
        let sum = if missing == 1 { "missing term" } else { "sum of the missing terms" };
        c.check(&format!("{what}: the note"), picture.contains(&format!(">With the {sum} a listener gains the goal.<")));
        narrow(c, &picture);
    }
}

// What the goal doesn't need may be public; and a long ladder names a public atom of an earlier part.
fn public_needed(c: &mut Checks) {
    let cases = [
        ("b atom 1\nc atom 2\na atom\np pair b c\ng pair a a\nheard a\ngoal g\n", [2, 1, 2], "Left out: 1 rung and 2 atoms on the hull label that"),
        ("b atom 1\nd atom\na atom\np pair b d\ng pair a a\nheard d a\ngoal g\n", [1, 2, 2], "Left out: 1 rung, 1 atom on the hull label and 1 heard message that"),
    ];
    for (text, all, note) in cases {
        let (whole, few) = (c.draws(&["-"], text.as_bytes()), c.draws(&["--needed", "-"], text.as_bytes()));
        c.check(&format!("{text:?} with {note}"), counts(&whole) == all && counts(&few) == [0, 1, 1] && few.contains(note) && !few.contains("Pale"));
        c.check("pale public atoms", whole.matches("<g class=\"public pale\">").count() == all[0] && whole.contains(">Pale: 1 rung that"));
    }
    let seals: String = (1..=100).map(|i| format!("s{i} seal s{} name\n", i - 1)).collect();
    let long = c.draws(&["-"], format!("s0 atom\nname atom 9\n{seals}heard s100\ngoal s0\n").as_bytes());
    c.check("a public key for 100 seals", counts(&long) == [1, 1, 100] && apart(&areas(&long)));
    let parts = long.matches("class=\"panel\"").count();
    c.check("it is named in every later part", parts > 10 && long.matches(">on the hull label, earlier</text>").count() == parts - 1);
}

// A rung with other sources or another rule doesn't follow.
fn wrong_rungs(c: &mut Checks) {
    use Entry::*;
    let bytes = sheet(&[Atom(1001), Atom(1002), Pair(1, 0), Pair(2, 2), Seal(3, 0), Sum(vec![0, 1]), Pair(4, 5), Seal(6, 1)], &[4, 0], 7);
    let card = card_of(&bytes);
    c.check("a card with each rule", pictured(&bytes, &card).is_ok());
    let edits = [
        ("3 open 4 0", "3 open 4 4"),
        ("3 open 4 0", "3 open 0 4"),
        ("3 open 4 0", "3 open 4"),
        ("2 left 3", "2 left 4"),
        ("2 left 3", "2 left 3 3"),
        ("1 left 2", "1 right 2"),
        ("5 sum 0 1", "5 sum 1 0"),
        ("5 sum 0 1", "5 sum 0 1 2"),
        ("5 sum 0 1", "5 sum"),
        ("6 join 4 5", "6 join 5 4"),
        ("6 join 4 5", "6 seal 4 5"),
        ("7 seal 6 1", "7 seal 6 0"),
        ("7 seal 6 1", "7 seal 5 1"),
        ("7 seal 6 1", "7 join 6 1"),
    ];
    for (right, wrong) in edits {
        let refused = pictured(&bytes, &card.replace(right, wrong)).map_or_else(|message| message.contains("doesn't follow by"), |_| false);
        c.check(&format!("rung {wrong} in place of {right}"), card.contains(right) && refused);
    }
    c.check("XML is escaped", boxes::escape("<a & \"b\" 'c'>") == "&lt;a &amp; &quot;b&quot; &#39;c&#39;&gt;");
}

// Every beginning of a card is cut short; cards with changed bytes are drawn or refused, never a crash.
fn hurt_cards(c: &mut Checks) {
    let mut r = Random(0x2545f4914f6cdd1d);
    for _ in 0..60 {
        let bytes = random_sheet(&mut r);
        let card = card_of(&bytes);
        let refused = (0..card.len()).all(|end| pictured(&bytes, &card[..end]).is_err());
        c.check(&format!("every beginning is refused of\n{card}"), refused);
        for _ in 0..40 {
            let hurt = String::from_utf8_lossy(&damage(&mut r, card.clone().into_bytes())).into_owned();
            let fine = pictured(&bytes, &hurt).map_or(true, |(svg, _)| well_formed(&svg));
            c.check("a hurt card", fine);
        }
    }
}

fn main() {
    let tool = std::env::args_os().nth(1).map(PathBuf::from).and_then(|path| path.canonicalize().ok()).expect("the tool's path");
    let mut c = Checks { tool, tally: Tally::default() };
    pictures(&mut c);
    sums_with_missing_terms(&mut c);
    pictures_by_the_tool(&mut c);
    names(&mut c);
    needed(&mut c);
    long(&mut c);
    public_pictures(&mut c);
    public_order(&mut c);
    public_out_of_reach(&mut c);
    public_needed(&mut c);
    missing_pictures(&mut c);
    many_missing(&mut c);
    wrong_rungs(&mut c);
    hurt_cards(&mut c);
    c.tally.end("pictures");
}
