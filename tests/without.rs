// The tool's option --without: a listener who is without some of the rules (document 02, request E11). Verdicts, rungs and what is missing on
// random sheets and for every setting of the switches, by a plain reading of the documents; the words of the option and their faults; what is said
// without sum; pictures; the cheap receiver of the examples. Arguments: the tool, and the repository's folder.

#[allow(dead_code)] // each test uses a part
mod checks;
mod ran;
#[allow(dead_code)]
mod shapes;
#[allow(dead_code)]
mod sheets;
mod tally;

use checks::Checks;
use shapes::well_formed;
use sheets::{random_entries, sheet, Entry, Random};
use std::path::{Path, PathBuf};
use tally::Tally;
use Entry::*;

const RULES: [&str; 8] = ["left", "right", "open", "join", "seal", "sum", "unlock", "lock"];
const SUM: usize = 5;

// The words of the rules that this byte switches off.
fn off(rules: u8) -> Vec<&'static str> {
    (0..8).filter(|i| rules >> i & 1 == 0).map(|i| RULES[i]).collect()
}

// A list in a sentence.
fn sentence(words: &[&str]) -> String {
    match words {
        [one] => one.to_string(),
        [first @ .., last] => format!("{} and {last}", first.join(", ")),
        [] => String::new(),
    }
}

// A small sheet: each entry's set of standard entries as bits, and its head.
struct Read<'a> {
    entries: &'a [Entry],
    sets: Vec<u32>,
    head: Vec<usize>,
}

fn read(entries: &[Entry]) -> Read<'_> {
    let mut r = Read { entries, sets: vec![], head: vec![] };
    let mut keys: Vec<Option<(u8, u32, u32)>> = vec![];
    for (i, entry) in entries.iter().enumerate() {
        let part = |e: &u16| r.head[usize::from(*e)] as u32;
        let key = match entry {
            Atom(a) | Long(a) => Some((1, *a, 0)),
            Pair(x, y) => Some((2, part(x), part(y))),
            Seal(x, y) => Some((3, part(x), part(y))),
            Private(a) => Some((5, u32::from(*a), 0)),
            Public(a) => Some((6, u32::from(*a), 0)),
            Lock(x, y) => Some((7, part(x), part(y))),
            _ => None,
        };
        let set = match (entry, key) {
            (Sum(items), _) => items.iter().fold(0, |sum, item| sum ^ r.sets[usize::from(*item)]),
            (_, None) => 0,
            (_, key) => keys.iter().position(|k| *k == key).map_or(1 << i, |j| r.sets[j]),
        };
        keys.push(key);
        r.head.push(r.sets.iter().position(|s| *s == set).unwrap_or(i));
        r.sets.push(set);
    }
    r
}

#[derive(Default)]
struct State {
    gained: Vec<usize>,
    // Those that were not, when gained, a sum of those gained earlier.
    drawn: Vec<usize>,
}

fn members(set: u32) -> Vec<usize> {
    (0..32).filter(|e| set >> e & 1 == 1).collect()
}

impl State {
    // Every subset of the terms that a sum draws on, with its sum.
    fn sums<'a>(&'a self, r: &'a Read) -> impl Iterator<Item = (Vec<usize>, u32)> + 'a {
        (0u32..1 << self.drawn.len()).map(move |some| {
            let list: Vec<usize> = members(some).iter().map(|i| self.drawn[*i]).collect();
            let sum = list.iter().fold(0, |sum, e| sum ^ r.sets[*e]);
            (list, sum)
        })
    }

    fn has(&self, r: &Read, entry: u16) -> bool {
        self.gained.contains(&r.head[usize::from(entry)])
    }

    fn gain(&mut self, r: &Read, head: usize) {
        if self.gained.contains(&head) {
            return;
        }
        if !self.sums(r).any(|(_, sum)| sum == r.sets[head]) {
            self.drawn.push(head);
        }
        self.gained.push(head);
    }

    // The sources of the lowest rung that gains this head by this rule.
    fn sources(&self, r: &Read, head: usize, rule: usize) -> Option<Vec<usize>> {
        let whole = |e: u16| r.head[usize::from(e)];
        let of = |e: usize| self.gained.contains(&e).then(|| &r.entries[e]);
        let from = |f: &dyn Fn(usize) -> Option<Vec<usize>>| (0..r.entries.len()).find_map(f);
        let two = |x: u16, y: u16| (self.has(r, x) && self.has(r, y)).then(|| vec![whole(x), whole(y)]);
        let opposite = |key: u16, e: &Entry| match (&r.entries[usize::from(key)], e) {
            (Private(a), Public(b)) | (Public(a), Private(b)) => a == b,
            _ => false,
        };
        match (rule, &r.entries[head]) {
            (0, _) => from(&|p| matches!(of(p), Some(Pair(x, _)) if whole(*x) == head).then(|| vec![p])),
            (1, _) => from(&|p| matches!(of(p), Some(Pair(_, y)) if whole(*y) == head).then(|| vec![p])),
            (2, _) => from(&|s| match of(s) {
                Some(Seal(m, k)) if whole(*m) == head && self.has(r, *k) => Some(vec![s, whole(*k)]),
                _ => None,
            }),
            (3, Pair(x, y)) | (4, Seal(x, y)) | (7, Lock(x, y)) => two(*x, *y),
            (5, _) => self.sums(r).find(|(_, sum)| *sum == r.sets[head]).map(|(list, _)| list),
            (6, _) => from(&|c| match of(c) {
                Some(Lock(m, k)) if whole(*m) == head => {
                    self.gained.iter().find(|half| opposite(*k, &r.entries[**half])).map(|half| vec![c, *half])
                }
                _ => None,
            }),
            _ => None,
        }
    }
}

enum Verdict {
    Reached(Vec<(usize, usize, Vec<usize>)>),
    Out { known: usize, used: Vec<usize>, missing: Vec<usize> },
}

fn public(r: &Read) -> Vec<usize> {
    (0..r.entries.len()).filter(|e| r.head[*e] == *e && matches!(r.entries[*e], Atom(a) | Long(a) if a < 256)).collect()
}

// The verdict on a listener with these rules who heard these messages.
fn verdict(r: &Read, heard: &[u16], goal: u16, rules: u8) -> Verdict {
    let mut state = State::default();
    let start = public(r).into_iter().chain(heard.iter().map(|e| r.head[usize::from(*e)]));
    start.for_each(|head| state.gain(r, head));
    let on: Vec<usize> = (0..8).filter(|i| rules >> i & 1 == 1).collect();
    let mut rungs = vec![];
    while !state.has(r, goal) {
        let heads = (0..r.entries.len()).filter(|e| r.head[*e] == *e && !state.gained.contains(e));
        let mut ways = heads.flat_map(|head| on.iter().map(move |rule| (head, *rule)));
        let next = ways.find_map(|(head, rule)| Some((head, rule, state.sources(r, head, rule)?)));
        let Some(rung) = next else {
            let own = r.sets[usize::from(goal)];
            let least = state.sums(r).min_by_key(|(_, sum)| own ^ sum).unwrap_or_default();
            let (mut used, sum) = if on.contains(&SUM) { least } else { (vec![], 0) };
            used.sort();
            return Verdict::Out { known: state.gained.len(), used, missing: members(own ^ sum) };
        };
        state.gain(r, rung.0);
        rungs.push(rung);
    }
    Verdict::Reached(rungs)
}

fn counted(n: usize, word: &str) -> String {
    format!("{n} {word}{}", if n == 1 { "" } else { "s" })
}

fn joined(list: &[usize], word: &str) -> String {
    list.iter().map(|e| format!("{word}{e}")).collect::<Vec<_>>().join(", ")
}

fn rung_line((head, rule, sources): &(usize, usize, Vec<usize>)) -> String {
    let mut sources = sources.clone();
    if *rule == SUM {
        sources.sort();
    }
    let words = ["split left", "split right", "open", "join", "seal", "sum of", "unlock", "lock"][*rule];
    let between = [", ", ", ", " with ", ", ", " under ", ", ", " with ", " under "][*rule];
    let list = sources.iter().map(usize::to_string).collect::<Vec<_>>().join(between);
    format!("{head} {words} {}", if list.is_empty() { "nothing" } else { &list })
}

fn last_lines(verdict: &Verdict, goal: u16, rules: u8) -> Vec<String> {
    let Verdict::Out { used, missing, .. } = verdict else {
        let Verdict::Reached(rungs) = verdict else { return vec![] };
        return rungs.iter().map(rung_line).collect();
    };
    let first = match missing.len() {
        0 => "missing: the sum of nothing, which is zero".to_string(),
        1 => format!("missing: entry {}", missing[0]),
        _ => format!("missing: the sum of {}", joined(missing, "entry ")),
    };
    let second = match (rules >> SUM & 1, used.is_empty()) {
        (0, _) => format!("without sum no known term is used: entry {goal} itself is missing"),
        (_, true) => return vec![first],
        _ => format!("entry {goal} is the sum of what is missing and {}", joined(used, "entry ")),
    };
    vec![first, second]
}

// What the tool should say of these cuts, behind the first line and without the lines on one term's names.
fn wanted(r: &Read, heard: &[u16], goal: u16, rules: u8, cut: Option<usize>) -> (bool, Vec<String>) {
    let names = joined(&public(r), "entry ");
    let mut lines = vec![format!("the listener is without: {}", off(rules).join(", "))];
    lines.extend((!names.is_empty()).then(|| format!("on the hull label: {names}")));
    let cuts = cut.map_or(0..=heard.len(), |cut| cut..=cut);
    for cut in cuts.clone() {
        let place = if cut == 0 { "before any message".to_string() } else { format!("after entry {}", heard[cut - 1]) };
        let found = verdict(r, &heard[..cut], goal, rules);
        lines.push(match &found {
            Verdict::Reached(rungs) => format!("cut {cut} {place}: reached, {}", counted(rungs.len(), "step")),
            Verdict::Out { known, .. } => format!("cut {cut} {place}: out of reach, {known} known"),
        });
        let reached = matches!(found, Verdict::Reached(_));
        if reached || cut == *cuts.end() {
            lines.extend(last_lines(&found, goal, rules));
            return (reached, lines);
        }
    }
    (false, lines)
}

// Judges a sheet without the rules of a byte, given in some order, and compares.
fn judges(c: &mut Checks, entries: &[Entry], heard: &[u16], goal: u16, rules: u8, turn: usize, cut: Option<usize>) -> bool {
    let mut words = off(rules);
    let turns = turn % words.len();
    words.rotate_left(turns);
    let (list, at) = (words.join(","), cut.map(|cut| cut.to_string()));
    let option = ["judge", "--without", &list];
    let line: Vec<&str> = option.into_iter().chain(at.iter().flat_map(|cut| ["--cut", cut])).collect();
    let run = c.run(&line, &sheet(entries, heard, goal));
    let (reached, wanted) = wanted(&read(entries), heard, goal, rules, cut);
    let text = run.text();
    let found: Vec<&str> = text.lines().skip(1).filter(|line| !line.contains(" is the same term as ")).collect();
    let limit = format!("out of reach: without {} no row of steps from ", sentence(&off(rules)));
    let first = if reached { "reached: a listener who heard " } else { &limit };
    let names_goal = |line: &str| [" gains ", " has "].iter().any(|word| line.contains(&format!("{word}entry {goal}")));
    let begins = text.starts_with(first) && text.lines().next().map_or(false, names_goal);
    let holds = run.status == if reached { 3 } else { 0 } && run.err.is_empty() && begins && found == wanted;
    let asked = format!("{line:?} of {entries:?}, heard {heard:?}, goal {goal}");
    c.check(&format!("{asked}: status {} {}\n{text}wanted\n{}", run.status, run.err, wanted.join("\n")), holds);
    reached
}

fn random_sheets(c: &mut Checks) {
    let mut r = Random(0x0e11_0e11_0e11);
    let (mut reached, mut out) = (0, 0);
    for turn in 0..1200 {
        let (entries, heard, goal) = random_entries(&mut r, 10);
        // Most rules stay on: each is off in one sheet of four.
        let rules = r.next() as u8 | r.next() as u8;
        let rules = if rules == 255 { 255 - (1 << r.below(8)) } else { rules };
        let cut = (r.below(2) == 0).then(|| r.below(heard.len() as u64 + 1) as usize);
        let found = judges(c, &entries, &heard, goal, rules, turn, cut);
        *(if found { &mut reached } else { &mut out }) += 1;
    }
    c.check(&format!("{reached} sheets reached, {out} not"), reached > 300 && out > 300);
}

// A sheet whose goal takes a rung by each rule: without any one of them it is out of reach. Zero stands on it too, and a sum of known terms.
fn every_setting(c: &mut Checks) {
    let first = [Atom(1000), Atom(1001), Atom(1002), Atom(1003), Atom(1004), Sum(vec![2, 3]), Public(7), Private(7), Pair(0, 1), Seal(2, 0)];
    let entries = [&first[..], &[Lock(4, 6), Pair(3, 0), Seal(11, 4), Pair(12, 1), Lock(13, 7), Zero, Sum(vec![0, 1])]].concat();
    let heard = [8, 9, 5, 10, 7];
    for rules in 0..255 {
        let reached = judges(c, &entries, &heard, 14, rules, 0, Some(5));
        c.check(&format!("switches {rules:08b}: reached"), !reached);
        [15, 16].iter().for_each(|goal| {
            judges(c, &entries, &heard, *goal, rules, 1, Some(5));
        });
    }
    let whole = c.run(&["judge"], &sheet(&entries, &heard, 14)).text();
    let first = "reached: a listener who heard the first 5 of 5 messages gains entry 14 in 9 steps\n";
    c.check(&whole, whole.starts_with(first) && !whole.contains("without"));
}

const TEXT: &str = "a atom\nb atom\ns sum a b\np pair a b\nz zero\nheard a b\n";

// The goal, the rules left out, and the whole text.
const TOLD: [(&str, &str, i32, &str); 7] = [
    (
        "s",
        "sum",
        0,
        "out of reach: without sum no row of steps from the 2 heard messages gains s, through terms of any size\nthe listener is without: sum\n\
         cut 0 before any message: out of reach, 0 known\ncut 1 after a: out of reach, 1 known\ncut 2 after b: out of reach, 3 known\n\
         missing: the sum of a, b\nwithout sum no known term is used: s itself is missing\n",
    ),
    (
        "z",
        "sum,join",
        0,
        "out of reach: without join and sum no row of steps from the 2 heard messages gains z, through terms of any size\n\
         the listener is without: join, sum\n\
         cut 0 before any message: out of reach, 0 known\ncut 1 after a: out of reach, 1 known\ncut 2 after b: out of reach, 2 known\n\
         missing: the sum of nothing, which is zero\nwithout sum no known term is used: z itself is missing\n",
    ),
    (
        "z",
        "join",
        3,
        "reached: a listener who heard none of the 2 messages gains z in 1 step\nthe listener is without: join\n\
         cut 0 before any message: reached, 1 step\nz sum of nothing\n",
    ),
    (
        "p",
        "join",
        0,
        "out of reach: without join no row of steps from the 2 heard messages gains p, through terms of any size\nthe listener is without: join\n\
         cut 0 before any message: out of reach, 1 known\ncut 1 after a: out of reach, 2 known\ncut 2 after b: out of reach, 4 known\nmissing: p\n",
    ),
    (
        "p",
        "sum",
        3,
        "reached: a listener who heard the first 2 of 2 messages gains p in 1 step\nthe listener is without: sum\n\
         cut 0 before any message: out of reach, 0 known\ncut 1 after a: out of reach, 1 known\ncut 2 after b: reached, 1 step\np join a, b\n",
    ),
    (
        "a",
        "left,right,open,join,seal,sum,unlock,lock",
        3,
        "reached: a listener who heard the first 1 of 2 messages has a without a step, since it was heard\n\
         the listener is without: left, right, open, join, seal, sum, unlock, lock\n\
         cut 0 before any message: out of reach, 0 known\ncut 1 after a: reached, 0 steps\n",
    ),
    (
        "s",
        "lock,unlock,seal",
        3,
        "reached: a listener who heard the first 2 of 2 messages gains s in 1 step\nthe listener is without: seal, unlock, lock\n\
         cut 0 before any message: out of reach, 1 known\ncut 1 after a: out of reach, 2 known\ncut 2 after b: reached, 1 step\ns sum of a, b\n",
    ),
];

fn told(c: &mut Checks) {
    for (goal, rules, status, wanted) in TOLD {
        let text = format!("{TEXT}goal {goal}\n");
        for words in [["judge", "--without", rules, "-"], ["judge", "-", "--without", rules]] {
            let run = c.run(&words, text.as_bytes());
            c.check(&format!("{words:?}, goal {goal}:\n{}", run.text()), run.status == status && run.err.is_empty() && run.text() == wanted);
        }
    }
    // The names of one term are told of a limited listener too, and of a goal that is zero.
    let zero = c.run(&["judge", "--without", "sum"], b"z zero\ny sum z\ngoal y\n").text();
    let end = "missing: the sum of nothing, which is zero\nwithout sum no known term is used: y itself is missing\ny is the same term as z\n";
    c.check(&zero, zero.ends_with(end));
    let file = c.dir.join("verdict");
    let run = c.run(&["judge", "-o", &file.to_string_lossy(), "--without", "sum", "--cut", "1"], format!("{TEXT}goal s\n").as_bytes());
    let written = std::fs::read_to_string(&file).unwrap_or_default();
    let first = "out of reach: without sum no row of steps from the first 1 of 2 heard messages gains s, through terms of any size\n";
    c.check(&written, run.status == 0 && run.out.is_empty() && written.starts_with(first) && written.matches("\ncut ").count() == 1);
}

const ONE: &str = "expected left, right, open, join, seal, sum, unlock or lock";

fn faults(c: &mut Checks) {
    let unknown = |list: &str, word: &str| format!("--without {list}: unknown rule \"{word}\", {ONE}");
    let lists = [
        ("foo", "foo"), ("join,foo", "foo"), ("foo,bar", "foo"), ("", ""), ("sum,", ""), (",sum", ""), ("join,,sum", ""), ("Sum", "Sum"),
        ("sum join", "sum join"), ("join, sum", " sum"), ("split", "split"), ("1", "1"), ("all", "all"), ("--cut", "--cut"), ("sum,-o", "-o"),
        ("\tsum", "\tsum"),
    ];
    let escaped = |word: &str| word.escape_debug().to_string();
    let one = |(list, word): &(&'static str, &str)| (vec!["judge", "--without", *list], unknown(&escaped(list), &escaped(word)));
    let mut cases: Vec<(Vec<&str>, String)> = lists.iter().map(one).collect();
    let twice = "--without is given twice, expected once".to_string();
    let card = "found --without and CARD, expected one of them: a card is of a listener with every rule".to_string();
    cases.extend([
        (vec!["judge", "--without", "sum,sum"], "--without sum,sum: sum stands there twice, expected each rule once".to_string()),
        (vec!["judge", "--without", "lock,join,lock"], "--without lock,join,lock: lock stands there twice, expected each rule once".to_string()),
        (vec!["judge", "--without"], "--without is the last word, expected rules after it".to_string()),
        (vec!["judge", "--without", "sum", "--without", "join"], twice.clone()),
        (vec!["judge", "--without", "sum", "--without", "sum"], twice.clone()),
        (vec!["judge", "--without=sum"], "unknown option --without=sum".to_string()),
        (vec!["draw", "--without", "foo", "-"], unknown("foo", "foo")),
        (vec!["draw", "-", "--without"], "--without is the last word, expected rules after it".to_string()),
        (vec!["draw", "--without", "sum", "--without", "sum", "-"], twice),
        (vec!["draw", "--without", "sum", "-", "card"], card),
        (vec!["assemble", "--without", "sum"], "unknown option --without".to_string()),
        (vec!["disassemble", "--without", "sum"], "unknown option --without".to_string()),
    ]);
    for (words, message) in cases {
        let run = c.run(&words, format!("{TEXT}goal s\n").as_bytes());
        let wanted = format!("sheet: {message} (sheet --help tells more)\n");
        c.check(&format!("{words:?}: status {}, {}wanted {wanted}", run.status, run.err), run.status == 2 && run.out.is_empty() && run.err == wanted);
    }
    // What is refused is refused alike.
    let past = c.run(&["judge", "--cut", "3", "--without", "sum"], format!("{TEXT}goal s\n").as_bytes());
    c.check(&past.err, past.status == 1 && past.err == "<stdin>: refused 8 (past the log): --cut 3, and 2 messages were heard\n");
    let bad = c.run(&["judge", "--without", "sum"], b"SHT1");
    c.check(&bad.err, bad.status == 1 && bad.out.is_empty() && bad.err == c.run(&["judge"], b"SHT1").err);
}

fn sheets_of(root: &Path) -> Vec<PathBuf> {
    let files = std::fs::read_dir(root.join("examples")).expect("the examples are there").filter_map(|file| Some(file.ok()?.path()));
    let mut list: Vec<PathBuf> = files.filter(|path| path.extension().map_or(false, |end| end == "sheet")).collect();
    list.sort();
    list
}

// An example judged without rules that its steps don't take: the same verdict, and where it is reached the same steps.
fn examples(c: &mut Checks, root: &Path) {
    let mut same = 0;
    for path in sheets_of(root) {
        let name = path.to_string_lossy().into_owned();
        let locks = std::fs::read_to_string(&path).unwrap_or_default().contains(" lock ");
        let whole = c.run(&["judge", &name], b"");
        let limited = c.run(&["judge", &name, "--without", "unlock,lock"], b"");
        if locks {
            continue;
        }
        same += 1;
        let cleaned = limited.text().replacen("the listener is without: unlock, lock\n", "", 1).replacen("without unlock and lock ", "", 1);
        c.check(&format!("{name}:\n{}", limited.text()), cleaned == whole.text() && limited.text() != cleaned && limited.status == whole.status);
    }
    c.check(&format!("{same} examples without locks"), same >= 30);
}

// What examples/README.md and README.md show of the cheap receiver is what their commands print.
fn cheap_receiver(c: &mut Checks, root: &Path) {
    let readme = std::fs::read_to_string(root.join("examples/README.md")).unwrap_or_default();
    let part = readme.split("\n## Rules that a listener is without\n").nth(1).and_then(|rest| rest.split("\n## ").next()).unwrap_or("").to_string();
    let command = "target/tools/sheet judge examples/cheap-receiver.sheet --without sum";
    c.check("the command of the cheap receiver", part.contains(&format!("```sh\n{command}\n```\n")));
    let path = |name: &str| root.join(format!("examples/{name}.sheet")).to_string_lossy().into_owned();
    let run = c.run(&["judge", &path("cheap-receiver"), "--without", "sum"], b"");
    let block = part.split("```text\n").nth(1).and_then(|rest| rest.split("```").next()).unwrap_or("");
    c.check(&format!("examples/README.md shows\n{block}"), run.status == 0 && run.text() == block);
    // The table of verdicts.
    let lines = part.lines().filter(|line| line.starts_with("| "));
    let rows: Vec<Vec<&str>> = lines.map(|line| line.trim_matches(['|', ' ']).split(" | ").collect()).collect();
    c.check(&format!("{rows:?}"), rows.len() == 6 && rows[0] == ["without", "`cheap-receiver`", "`cheap-receiver-sealed`"]);
    for row in rows.iter().skip(1) {
        for (name, said) in ["cheap-receiver", "cheap-receiver-sealed"].iter().zip(row.iter().skip(1)) {
            let (path, rules) = (path(name), row[0].trim_matches('`'));
            let words = if rules == "nothing" { vec!["judge", &path] } else { vec!["judge", &path, "--without", rules] };
            let text = c.run(&words, b"").text();
            let found = if text.starts_with("reached: ") { "reached, 3 steps" } else { "out of reach" };
            c.check(&format!("{words:?}:\n{text}{said}"), found == *said && text.contains(&format!(": {found}")));
        }
    }
    let start = "label_key join call_sign, board_name\npad open pad_frame with label_key\n";
    let [summed, opened] = ["flight_key sum of pad, masked_key\n", "flight_key open key_frame with pad\n"].map(|end| format!("{start}{end}"));
    let cases = [
        ("cheap-receiver", "join", 0, "missing: pad\nflight_key is the sum of what is missing and masked_key\n"),
        ("cheap-receiver", "join,sum", 0, "missing: flight_key\nwithout sum no known term is used: flight_key itself is missing\n"),
        ("cheap-receiver", "seal", 3, &summed),
        ("cheap-receiver-sealed", "sum", 3, &opened),
    ];
    for (name, rules, status, end) in cases {
        let run = c.run(&["judge", &path(name), "--without", rules], b"");
        c.check(&format!("{name} without {rules}:\n{}", run.text()), run.status == status && run.text().ends_with(end));
    }
    let rows = ["`cheap-receiver`", "`cheap-receiver-sealed`"].iter().all(|name| readme.contains(&format!("\n| {name} |")));
    c.check("the cheap receiver in the table of examples", rows);
}

// A picture is of the limited listener, and its title says so. Without sum the goal itself is missing.
fn pictures(c: &mut Checks, root: &Path) {
    let path = root.join("examples/cheap-receiver.sheet").to_string_lossy().into_owned();
    let whole = c.run(&["draw", &path], b"").text();
    let seal = c.run(&["draw", &path, "--without", "seal"], b"");
    let title = "reached: flight_key after 3 heard messages, in 3 rungs";
    c.check(&seal.text(), whole.contains(title) && seal.status == 0 && seal.text().replace(", without seal", "") == whole && seal.text() != whole);
    let join = c.run(&["draw", "--without", "join", "--needed", &path], b"").text();
    let titles = [">out of reach: flight_key after 3 heard messages, without join</text>", "<title>missing: pad = atom 1009</title>"];
    c.check(&join, titles.iter().all(|part| join.contains(part)));
    let sum = c.run(&["draw", "--without", "sum,join", &path], b"").text();
    let missing = ["<title>missing: flight_key (goal) = atom 1007</title>", "out of reach: flight_key after 3 heard messages, without join and sum"];
    c.check(&sum, missing.iter().all(|part| sum.contains(part)) && sum.matches(">missing</text>").count() == 1 && well_formed(&sum));
    let dot = c.run(&["draw", "--dot", "--without", "sum", &path], b"").text();
    c.check(&dot, dot.contains("out of reach: flight_key after 3 heard messages, without sum"));
    for (goal, term) in [("s", "a ⊕ b"), ("z", "zero")] {
        let picture = c.run(&["draw", "--without", "sum", "-"], format!("{TEXT}goal {goal}\n").as_bytes()).text();
        let title = format!("<title>missing: {goal} (goal) = {term}</title>");
        let one = picture.matches(">missing</text>").count() == 1 && !picture.contains("sum of the missing");
        c.check(&picture, picture.contains(&title) && one && well_formed(&picture));
    }
}

fn main() {
    let arguments: Vec<PathBuf> = std::env::args_os().skip(1).map(PathBuf::from).collect();
    let whole = |i: usize| arguments.get(i).and_then(|path| path.canonicalize().ok()).expect("arguments: the tool, and the repository");
    let dir = std::env::temp_dir().join(format!("sheet-without-test-{}", std::process::id()));
    std::fs::create_dir_all(&dir).expect("a folder for the test");
    let (mut c, root) = (Checks { tool: whole(0), dir, tally: Tally::default() }, whole(1));
    told(&mut c);
    faults(&mut c);
    every_setting(&mut c);
    random_sheets(&mut c);
    examples(&mut c, &root);
    cheap_receiver(&mut c, &root);
    pictures(&mut c, &root);
    let _ = std::fs::remove_dir_all(&c.dir);
    c.tally.end("without");
}
