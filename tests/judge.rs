// The tool's verdicts in names. Every example is judged both ways, by the program's card and by `sheet judge`, and the two agree once
// names are numbers again; the same on random sheets by the simple verdict, which also has what is missing. A verdict that lies is told apart.
// The names on the hull label are told, and don't spoil which names are one term.
// Arguments: the tool, the program, and the repository's folder.

#[allow(dead_code)] // each test uses a part
mod sheets;
mod simple;
mod tally;

use sheets::{damage, random_entries, refusal, sheet, Entry, Random, FRONT};
use std::collections::{BTreeSet, HashMap};
use std::fs;
use std::io::Write;
use std::path::{Path, PathBuf};
use std::process::{Command, Stdio};
use tally::Tally;

struct Run {
    status: i32,
    out: String,
    err: String,
}

fn run(program: &Path, words: &[&str], input: &[u8]) -> Run {
    let mut command = Command::new(program);
    command.args(words).stdin(Stdio::piped()).stdout(Stdio::piped()).stderr(Stdio::piped());
    let mut child = command.spawn().expect("the program starts");
    let _ = child.stdin.take().map(|mut stdin| stdin.write_all(input));
    let done = child.wait_with_output().expect("the program ends");
    let text = |bytes: Vec<u8>| String::from_utf8_lossy(&bytes).into_owned();
    Run { status: done.status.code().unwrap_or(-1), out: text(done.stdout), err: text(done.stderr) }
}

// What both ways say: a verdict a cut, as the card has it (`known` or the number of rungs), and the rungs as numbers. Of a goal that is out of
// reach the used entries and the missing ones; the card doesn't have them.
#[derive(Clone, Debug, Default, PartialEq)]
struct Said {
    cuts: Vec<(usize, bool, usize)>,
    rungs: Vec<Vec<usize>>,
    used: Vec<usize>,
    missing: Vec<usize>,
}

const RULES: [&str; 8] = ["left", "right", "open", "join", "seal", "sum", "unlock", "lock"];

fn number(word: Option<&str>) -> Option<usize> {
    word?.parse().ok()
}

// A card read: a rung is its head, its rule's number and its sources.
fn from_card(card: &str) -> Option<Said> {
    let mut said = Said::default();
    for line in card.lines().skip(1) {
        let words: Vec<&str> = line.split(' ').collect();
        match words[..] {
            ["cut", cut, "out", "of", "reach", "known", known] => said.cuts.push((number(Some(cut))?, false, number(Some(known))?)),
            ["cut", cut, "reached", "rungs", rungs] => said.cuts.push((number(Some(cut))?, true, number(Some(rungs))?)),
            ["rung", head, rule, ..] => {
                let rule = RULES.iter().position(|word| *word == rule)?.to_string();
                let rung = [head, &rule].into_iter().chain(words[3..].iter().copied());
                said.rungs.push(rung.map(|word| number(Some(word))).collect::<Option<_>>()?);
            }
            _ => return None,
        }
    }
    Some(said)
}

// The names of a text's entries with their numbers; every number stands for itself.
fn names(text: &str) -> HashMap<String, usize> {
    let lines = text.lines().filter_map(|line| line.split('#').next().unwrap_or("").split_whitespace().next());
    let labels: Vec<&str> = lines.filter(|word| *word != "heard" && *word != "goal").collect();
    let own = labels.iter().enumerate().map(|(i, label)| (label.to_string(), i));
    own.chain((0..labels.len()).map(|i| (i.to_string(), i))).collect()
}

// A rung's line in names: its head, its rule's number and its sources.
fn named_rung(line: &str, names: &HashMap<String, usize>) -> Option<Vec<usize>> {
    let (head, rest) = line.split_once(' ')?;
    let parts = [("split left ", ""), ("split right ", ""), ("open ", " with "), ("join ", ", "), ("seal ", " under "), ("sum of ", ", ")];
    let forms = [&parts[..], &[("unlock ", " with "), ("lock ", " under ")]].concat();
    let (rule, sources) = forms.iter().enumerate().find_map(|(i, (start, _))| Some((i, rest.strip_prefix(start)?)))?;
    let mut rung = vec![*names.get(head)?, rule];
    // Also where an entry has this name: a sum of one term gains nothing new, so no rung is one.
    if (rule, sources) == (5, "nothing") {
        return Some(rung);
    }
    let parts: Vec<&str> = if rule < 2 { vec![sources] } else { sources.split(forms[rule].1).collect() };
    for part in &parts {
        rung.push(*names.get(*part)?);
    }
    let right = match rule {
        0 | 1 => parts.len() == 1,
        5 => parts.len() > 1,
        _ => parts.len() == 2,
    };
    right.then_some(rung)
}

// A cut's line: the message named is the one heard last.
fn named_cut(line: &str, names: &HashMap<String, usize>, heard: &[usize]) -> Option<(usize, bool, usize)> {
    let (place, verdict) = line.strip_prefix("cut ")?.split_once(": ")?;
    let (cut, after) = place.split_once(' ')?;
    let cut = number(Some(cut))?;
    let message = after.strip_prefix("after ").map(|name| names.get(name.strip_prefix("entry ").unwrap_or(name)).copied());
    let right = if cut == 0 { after == "before any message" } else { message? == heard.get(cut - 1).copied() };
    let known = verdict.strip_prefix("out of reach, ").and_then(|rest| rest.strip_suffix(" known"));
    let steps = verdict.strip_prefix("reached, ").and_then(|rest| rest.strip_suffix(" steps").or_else(|| rest.strip_suffix(" step")));
    match (right, known, steps) {
        (true, Some(known), None) => Some((cut, false, number(Some(known))?)),
        (true, None, Some(steps)) => Some((cut, true, number(Some(steps))?)),
        _ => None,
    }
}

// A sheet as the test sees it: the numbers of its names, the heard list, the goal's name, and the public atoms' names.
struct Asked {
    names: HashMap<String, usize>,
    heard: Vec<usize>,
    goal: String,
    public: Vec<String>,
    goal_public: bool,
}

const AND: &str = " is the sum of what is missing and ";

// The entries of a list of names in a sentence.
fn named_list(list: &str, names: &HashMap<String, usize>) -> Option<Vec<usize>> {
    list.split(", ").map(|name| names.get(name.strip_prefix("entry ").unwrap_or(name)).copied()).collect()
}

// The two lines on what is missing. A sum is said where there are several terms, and the goal where a known term is used.
fn named_lack(lines: &[&str], asked: &Asked) -> Option<(Vec<usize>, Vec<usize>)> {
    let list = lines.first()?.strip_prefix("missing: ")?;
    let sum = list.strip_prefix("the sum of ");
    let missing = named_list(sum.unwrap_or(list), &asked.names)?;
    let used = match lines.get(1).map(|line| line.split_once(AND)) {
        None => vec![],
        Some(Some((goal, list))) if goal == asked.goal => named_list(list, &asked.names)?,
        _ => return None,
    };
    (sum.is_some() == (missing.len() > 1) && lines.len() <= 2).then_some((used, missing))
}

// What `judge` said, after its first lines. Lines that say which names are one term are left out.
fn from_judge(lines: &[&str], asked: &Asked) -> Option<Said> {
    let mut said = Said::default();
    let lines: Vec<&str> = lines.iter().copied().filter(|line| !line.contains(" is the same term as ")).collect();
    let end = lines.iter().position(|line| line.starts_with("missing: ")).unwrap_or(lines.len());
    if end < lines.len() {
        (said.used, said.missing) = named_lack(&lines[end..], asked)?;
    }
    for line in &lines[..end] {
        match line.strip_prefix("cut ") {
            Some(_) if said.rungs.is_empty() && line.contains(": ") => said.cuts.push(named_cut(line, &asked.names, &asked.heard)?),
            _ => said.rungs.push(named_rung(line, &asked.names)?),
        }
    }
    Some(said)
}

// The first line that the card's verdict asks for.
fn first_line(said: &Said, asked: &Asked) -> String {
    let (cut, reached, count) = said.cuts.last().copied().unwrap_or((0, false, 0));
    let (goal, heard) = (&asked.goal, asked.heard.len());
    let from = match cut {
        0 => "nothing heard".to_string(),
        1 if heard == 1 => "the 1 heard message".to_string(),
        _ if cut == heard => format!("the {cut} heard messages"),
        _ => format!("the first {cut} of {heard} heard messages"),
    };
    let who = match cut {
        0 if heard == 0 => "a listener who heard nothing".to_string(),
        0 => format!("a listener who heard none of the {heard} messages"),
        _ => format!("a listener who heard the first {cut} of {heard} messages"),
    };
    match (reached, count, asked.public.len()) {
        (false, _, 0) => format!("out of reach: no row of steps from {from} gains {goal}, through terms of any size"),
        (false, _, 1) => format!("out of reach: no row of steps from the 1 atom on the hull label and {from} gains {goal}, through terms of any size"),
        (false, _, n) => format!("out of reach: no row of steps from the {n} atoms on the hull label and {from} gains {goal}, through terms of any size"),
        (true, 0, _) if asked.goal_public => format!("reached: {who} has {goal} without a step, since it is on the hull label"),
        (true, 0, _) => format!("reached: {who} has {goal} without a step, since it was heard"),
        (true, 1, _) => format!("reached: {who} gains {goal} in 1 step"),
        (true, _, _) => format!("reached: {who} gains {goal} in {count} steps"),
    }
}

// The lines that come before the cuts: the verdict, and the public atoms where there are any.
fn first_lines(said: &Said, asked: &Asked) -> Vec<String> {
    let public = (!asked.public.is_empty()).then(|| format!("on the hull label: {}", asked.public.join(", ")));
    std::iter::once(first_line(said, asked)).chain(public).collect()
}

// Does a run of `judge` say what the card says, and end with its status? Its first line alone begins with a verdict.
fn agrees(run: &Run, said: &Said, asked: &Asked) -> bool {
    let reached = said.cuts.last().map_or(false, |cut| cut.1);
    let (lines, first) = (run.out.lines().collect::<Vec<_>>(), first_lines(said, asked));
    let verdict = |line: &&str| line.starts_with("reached:") || line.starts_with("out of reach:");
    let one = lines.iter().filter(|line| verdict(line)).count() == 1;
    let whole = run.out.ends_with('\n') && run.err.is_empty() && one && lines.len() >= first.len() && lines[..first.len()] == first;
    whole && run.status == if reached { 3 } else { 0 } && from_judge(&lines[first.len()..], asked).as_ref() == Some(said)
}

// Lies about a verdict that is told truly: each changes the text or the status.
fn lies(run: &Run) -> Vec<(&'static str, Run)> {
    let lines: Vec<&str> = run.out.lines().collect();
    let told = |lines: Vec<&str>| Run { out: lines.join("\n") + "\n", err: String::new(), status: run.status };
    let starts = |line: &str| ["cut ", "on the hull label: ", "missing: "].iter().any(|start| line.starts_with(start));
    let no_rung = |line: &str| starts(line) || line.contains(AND) || line.contains(" is the same ");
    let rungs: Vec<usize> = (1..lines.len()).filter(|i| !no_rung(lines[*i])).collect();
    let without = |start: &str| {
        let left_out = lines.iter().position(|line| line.starts_with(start));
        told(lines.iter().enumerate().filter(|(i, _)| Some(*i) != left_out).map(|(_, line)| *line).collect())
    };
    let mut list = vec![
        ("another status", Run { out: run.out.clone(), err: String::new(), status: 3 - run.status }),
        ("a cut left out", without("cut ")),
        ("the hull label left out", without("on the hull label: ")),
        ("another name on the hull label", Run { out: run.out.replacen(" label: ", " label: not_", 1), err: String::new(), status: run.status }),
        ("another known", Run { out: run.out.replacen(" known", "1 known", 1), err: String::new(), status: run.status }),
        ("another message", Run { out: run.out.replacen(" after ", " after not_", 1), err: String::new(), status: run.status }),
        ("the other verdict", Run { out: run.out.replacen("reached: ", "out of reach: ", 1), err: String::new(), status: run.status }),
        ("what is missing left out", without("missing: ")),
        ("another missing term", Run { out: run.out.replacen("missing: ", "missing: not_", 1), err: String::new(), status: run.status }),
        ("a used term left out", told(lines.iter().copied().filter(|line| !line.contains(AND)).collect())),
        ("another used term", Run { out: run.out.replacen(AND, &format!("{AND}not_"), 1), err: String::new(), status: run.status }),
        ("another goal", Run { out: run.out.replacen(AND, &format!("1{AND}"), 1), err: String::new(), status: run.status }),
    ];
    if let [.., one, other] = rungs[..] {
        let mut swapped = lines.clone();
        swapped.swap(one, other);
        list.push(("two rungs swapped", told(swapped)));
        list.push(("a rung left out", told(lines.iter().enumerate().filter(|(i, _)| *i != one).map(|(_, line)| *line).collect())));
    }
    list.into_iter().filter(|(_, lie)| lie.out != run.out || lie.status != run.status).collect()
}

struct Paths {
    tool: PathBuf,
    program: PathBuf,
    root: PathBuf,
    dir: PathBuf,
}

// The sheet as its text has it. No atom of an example stands there twice, and a goal that is public is an atom itself.
fn asked(text: &str) -> Asked {
    let names = names(text);
    let mut asked = Asked { names, heard: vec![], goal: String::new(), public: vec![], goal_public: false };
    let heading = |name: &str| if number(Some(name)).is_some() { format!("entry {name}") } else { name.to_string() };
    for line in text.lines() {
        let words: Vec<&str> = line.split('#').next().unwrap_or("").split_whitespace().collect();
        match words[..] {
            ["heard", ..] => asked.heard.extend(words[1..].iter().filter_map(|name| asked.names.get(*name))),
            ["goal", name] => asked.goal = heading(name),
            [name, "atom", atom, ..] if number(Some(atom)).map_or(false, |atom| atom < 256) => asked.public.push(heading(name)),
            _ => (),
        }
    }
    asked.goal_public = asked.public.contains(&asked.goal);
    asked
}

fn example(c: &mut Tally, p: &Paths, path: &Path) {
    let name = path.to_string_lossy();
    let text = fs::read_to_string(path).unwrap_or_default();
    let assembled = p.dir.join("example");
    let made = run(&p.tool, &["assemble", &name, "-o", &assembled.to_string_lossy()], b"");
    c.check(&format!("{name} assembles without a note: {}", made.err), made.status == 0 && made.err.is_empty());
    let bytes = fs::read(&assembled).unwrap_or_default();
    let card = run(&p.program, &[], &bytes).out;
    let asked = asked(&text);
    let said = from_card(&card).unwrap_or_default();
    c.check(&format!("{name} has a card"), !said.cuts.is_empty() && said.rungs.len() == said.cuts.last().map_or(0, |cut| if cut.1 { cut.2 } else { 0 }));
    let (cut, reached, _) = said.cuts.last().copied().unwrap_or((0, false, 0));
    let Said { used, missing, .. } = simply(&bytes, cut as u32);
    let said = Said { used, missing, ..said };
    let judged = run(&p.tool, &["judge", &name], b"");
    c.check(&format!("{name}, judged:\n{}the card:\n{card}", judged.out), agrees(&judged, &said, &asked));
    for (lie, told) in lies(&judged) {
        c.check(&format!("{name}, a lie that passes: {lie}\n{}", told.out), !agrees(&told, &said, &asked));
    }
    let piped = run(&p.tool, &["judge"], text.as_bytes());
    c.check(&format!("{name} from standard input"), piped.out == judged.out && piped.status == judged.status);
    let card_file = p.dir.join("example.card");
    fs::write(&card_file, &card).expect("the test's folder can be written");
    let drawn = [run(&p.tool, &["draw", &name], b"").out, run(&p.tool, &["draw", &name, &card_file.to_string_lossy()], b"").out];
    let says_missing = drawn.each_ref().map(|picture| picture.contains(">missing</text>"));
    c.check(&format!("{name} is drawn with and without its card"), drawn.iter().all(|picture| picture.starts_with("<svg")));
    c.check(&format!("{name} is drawn alike if it is reached"), (drawn[0] == drawn[1]) == reached && says_missing == [!reached, false]);
}

fn examples(c: &mut Tally, p: &Paths) {
    let files = fs::read_dir(p.root.join("examples")).expect("the examples are there").filter_map(|file| Some(file.ok()?.path()));
    let mut sheets: Vec<PathBuf> = files.filter(|path| path.extension().map_or(false, |end| end == "sheet")).collect();
    sheets.sort();
    c.check("the examples are there", sheets.len() >= 44);
    sheets.iter().for_each(|path| example(c, p, path));
}

// One cut of a sheet by the simple verdict.
fn simply(bytes: &[u8], cut: u32) -> Said {
    let mut buffer = vec![0; FRONT + 40 * 256];
    let answer = simple::verdict(bytes, cut, 256, &mut buffer);
    let members = |set: &[u8]| (0..256).filter(|e| set[e / 8] >> (e % 8) & 1 == 1).collect::<Vec<usize>>();
    let sets: Vec<Vec<usize>> = buffer[..FRONT].chunks(32).map(members).collect();
    let (known, used, missing) = (sets[0].len(), sets[1].clone(), sets[2].clone());
    if answer >= 2000 {
        return Said { cuts: vec![(cut as usize, false, known)], rungs: vec![], used, missing };
    }
    let made = answer as usize - 1000;
    let rung = |bytes: &[u8]| {
        let number = |at: usize| usize::from(u16::from_be_bytes([bytes[at], bytes[at + 1]]));
        let sources = match number(2) {
            1 | 2 => vec![number(4)],
            6 => members(&bytes[8..]),
            _ => vec![number(4), number(6)],
        };
        [vec![number(0), number(2) - 1], sources].concat()
    };
    Said { cuts: vec![(cut as usize, true, made)], rungs: buffer[FRONT..].chunks(40).take(made).map(rung).collect(), used, missing }
}

// An atom's number, in either record.
fn atom_number(entry: &Entry) -> Option<u32> {
    if let Entry::Atom(number) | Entry::Long(number) = entry { Some(*number) } else { None }
}

fn is_public(entry: &Entry) -> bool {
    atom_number(entry).map_or(false, |number| number < 256)
}

// The head of each entry, by the simple verdict on a sheet whose atoms are over 255: the lowest entry that a listener who heard the one has
// without a step.
fn heads(entries: &[Entry]) -> Vec<usize> {
    let numbers: BTreeSet<u32> = entries.iter().filter_map(atom_number).collect();
    let place = |number: u32| numbers.range(..number).count() as u32;
    let raise = |entry: &Entry| atom_number(entry).map_or(entry.clone(), |number| Entry::Atom(5000 - place(number)));
    let raised: Vec<Entry> = entries.iter().map(raise).collect();
    let same = |one: u16, other: u16| simple::verdict(&sheet(&raised, &[one], other), 1, 0, &mut [0; FRONT]) == 1000;
    (0..entries.len() as u16).map(|one| usize::from((0..=one).find(|other| same(one, *other)).unwrap_or(one))).collect()
}

// The lines that say which names are one term: for public atoms, messages before the cut, the goal and the parts of what the lines before
// name, where the head is a public atom, the goal's, or named in those lines. They are the steps, or what is used and missing of the goal.
fn same_lines(entries: &[Entry], heads: &[usize], before: &[usize], goal: usize, said: &Said) -> Vec<String> {
    let parts = |entry: &usize| match &entries[*entry] {
        Entry::Pair(one, other) | Entry::Seal(one, other) | Entry::Lock(one, other) => vec![usize::from(*one), usize::from(*other)],
        Entry::Sum(items) => items.iter().map(|item| usize::from(*item)).collect(),
        _ => vec![],
    };
    let in_steps = said.rungs.iter().flat_map(|rung| rung[2..].iter().copied().chain([rung[0]]));
    let lacked = said.used.iter().chain(&said.missing).copied().chain((!said.missing.is_empty()).then_some(goal));
    let told: BTreeSet<usize> = in_steps.chain(lacked).collect();
    let public: Vec<usize> = (0..entries.len()).filter(|i| is_public(&entries[*i])).collect();
    let named: BTreeSet<usize> = told.iter().flat_map(parts).chain(before.iter().copied()).chain(public.iter().copied()).chain([goal]).collect();
    let shown = |head: usize| told.contains(&head) || public.contains(&head) || head == heads[goal];
    let other = named.into_iter().filter(|entry| heads[*entry] != *entry && shown(heads[*entry]));
    other.map(|entry| format!("{entry} is the same term as {}", heads[entry])).collect()
}

// Sheets as bytes with public atoms and others, each at each cut, and the refusals of damaged ones.
fn random_sheets(c: &mut Tally, p: &Paths) {
    let mut r = Random(0x6a09e667f3bcc909);
    let (mut same, mut public, mut no_step, mut used, mut several) = (0, 0, 0, 0, 0);
    for _ in 0..400 {
        let (entries, heard, goal) = random_entries(&mut r, 24);
        let (bytes, heads) = (sheet(&entries, &heard, goal), heads(&entries));
        let names: HashMap<String, usize> = (0..entries.len()).map(|i| (i.to_string(), i)).collect();
        let heard: Vec<usize> = heard.iter().map(|entry| usize::from(*entry)).collect();
        let goal = usize::from(goal);
        let first: Vec<usize> = (0..entries.len()).filter(|i| heads[*i] == *i && is_public(&entries[*i])).collect();
        let (goal_public, list) = (first.contains(&heads[goal]), first.iter().map(|entry| format!("entry {entry}")).collect());
        let asked = Asked { names, heard, goal: format!("entry {goal}"), public: list, goal_public };
        for cut in 0..=asked.heard.len() {
            let judged = run(&p.tool, &["judge", "-", "--cut", &cut.to_string()], &bytes);
            let said = simply(&bytes, cut as u32);
            c.check(&format!("{entries:?} at cut {cut}:\n{}", judged.out), agrees(&judged, &said, &asked));
            let lines: Vec<&str> = judged.out.lines().filter(|line| line.contains(" is the same term as ")).collect();
            let wanted = same_lines(&entries, &heads, &asked.heard[..cut], goal, &said);
            c.check(&format!("{entries:?} at cut {cut}, names of one term: {lines:?}, wanted {wanted:?}"), lines == wanted);
            same += lines.len();
            used += usize::from(!said.used.is_empty());
            several += usize::from(said.missing.len() > 1);
        }
        public += asked.public.len();
        no_step += usize::from(goal_public);
        let hurt = damage(&mut r, bytes);
        if hurt.starts_with(b"SHT1") && refusal(&hurt) > 0 {
            let judged = run(&p.tool, &["judge"], &hurt);
            let said = judged.err.starts_with(&format!("<stdin>: refused {} (", refusal(&hurt)));
            c.check(&format!("a refused sheet: {}", judged.err), judged.status == 1 && judged.out.is_empty() && said);
        }
    }
    c.check(&format!("{same} names of one term, {public} public atoms, {no_step} public goals"), same > 100 && public > 30 && no_step > 3);
    c.check(&format!("{used} times a term is used where the goal is out of reach, {several} times several are missing"), used > 10 && several > 5);
}

// What is said of the names on the hull label, word for word.
fn public_lines(c: &mut Tally, p: &Paths) {
    let two = "k atom\nboard atom 255\nsign atom 0\nbox seal k k\nheard box box box\ngoal k\n";
    let one = two.replace("255", "256");
    let (near, far, size) = ("reached: a listener who", "out of reach: no row of steps from", "gains k, through terms of any size");
    let (on, free, first) = ("on the hull label", "without a step, since it", "the first 1 of 2 messages");
    let cases: [(&str, u32, String, &str, &str); 6] = [
        ("name atom 5\ngoal name\n", 0, format!("{near} heard nothing has name {free} is {on}"), "name", "before any message: reached, 0 steps"),
        ("0 atom 5\nheard 0 0\ngoal 0\n", 1, format!("{near} heard {first} has entry 0 {free} is {on}"), "entry 0", "after entry 0: reached, 0 steps"),
        ("a atom 256\nb atom 255\nheard a b\ngoal a\n", 1, format!("{near} heard {first} has a {free} was heard"), "b", "after a: reached, 0 steps"),
        (two, 0, format!("{far} the 2 atoms {on} and nothing heard {size}"), "board, sign", "before any message: out of reach, 2 known"),
        (two, 1, format!("{far} the 2 atoms {on} and the first 1 of 3 heard messages {size}"), "board, sign", "after box: out of reach, 3 known"),
        (&one, 3, format!("{far} the 1 atom {on} and the 3 heard messages {size}"), "sign", "after box: out of reach, 2 known"),
    ];
    for (text, cut, first, names, then) in cases {
        let judged = run(&p.tool, &["judge", "--cut", &cut.to_string()], text.as_bytes());
        let (status, missing) = if first.starts_with("reached") { (3, "") } else { (0, "missing: k\n") };
        let wanted = format!("{first}\non the hull label: {names}\ncut {cut} {then}\n{missing}");
        c.check(&format!("{text:?} at cut {cut}:\n{}wanted\n{wanted}", judged.out), judged.out == wanted && judged.status == status && judged.err.is_empty());
    }
    let plain = run(&p.tool, &["judge"], two.replace("255", "256").replace("atom 0", "atom 1000").as_bytes());
    c.check("a sheet without them says nothing of them", !plain.out.contains("hull") && plain.out.starts_with(&format!("{far} the 3 heard messages {size}\n")));
}

// A key masked with a name on the hull label, in every order of the messages. The steps are the same, and so are the names of one term.
fn public_orders(c: &mut Tally, p: &Paths) {
    let text = "key atom 1007\nsign atom 18\nplan atom 1012\nmasked sum key sign\nframe seal plan key\n5 atom 18\n6 sum 5 plan plan\nheard HEARD\ngoal plan\n";
    let steps = "key sum of sign, masked\nplan open frame with key\n5 is the same term as sign\n6 is the same term as sign\n";
    for order in ["masked frame 6", "masked 6 frame", "frame masked 6", "frame 6 masked", "6 masked frame", "6 frame masked"] {
        let judged = run(&p.tool, &["judge", "--cut", "3"], text.replace("HEARD", order).as_bytes());
        let last = order.split(' ').last().map(|name| if name == "6" { "entry 6" } else { name }).unwrap_or("");
        let first = "reached: a listener who heard the first 3 of 3 messages gains plan in 2 steps";
        let wanted = format!("{first}\non the hull label: sign\ncut 3 after {last}: reached, 2 steps\n{steps}");
        c.check(&format!("heard {order}:\n{}wanted\n{wanted}", judged.out), judged.out == wanted && judged.status == 3);
    }
}

// Which names are one term, on sheets with atoms at both ends of both ranges.
fn public_heads(c: &mut Tally, p: &Paths) {
    let atoms = "a atom 0\nb atom 255\nc atom 256\nd atom 1000\ne atom 65535\n5 atom 255\n6 atom 1000\n7 atom 65535\n8 atom 0\nz zero\n";
    let text = format!("{atoms}s sum 5 z\nt sum 6 z\nu sum 7 z\nv sum 8 c c\nheard s t c v\n");
    let public = ["5 is the same term as b", "8 is the same term as a"];
    let (s, t, v) = ("s is the same term as b", "t is the same term as d", "v is the same term as a");
    let cases: [(&str, &str, Vec<&str>); 6] = [
        ("c", "4", vec![public[0], public[1], s, v]),
        ("e", "4", vec![public[0], public[1], s, v]),
        ("u", "4", vec![public[0], "7 is the same term as e", public[1], s, "u is the same term as e", v]),
        ("t", "2", vec![public[0], public[1], s, t]),
        ("v", "0", vec![public[0], public[1], v]),
        ("6", "2", vec![public[0], "6 is the same term as d", public[1], s, t]),
    ];
    for (goal, cut, wanted) in cases {
        let judged = run(&p.tool, &["judge", "--cut", cut], format!("{text}goal {goal}\n").as_bytes());
        let lines: Vec<&str> = judged.out.lines().filter(|line| line.contains(" is the same term as ")).collect();
        let label = judged.out.lines().nth(1) == Some("on the hull label: a, b");
        c.check(&format!("goal {goal} at cut {cut}:\n{}wanted {wanted:?}", judged.out), lines == wanted && label);
    }
}

// What is said of what is missing, word for word: the text, the cut, and the lines after the cut's.
const LACKS: [(&str, &str, &str); 10] = [
    ("pad atom\nkey atom\nmasked sum key pad\nheard masked\ngoal key\n", "1", "missing: pad\nkey is the sum of what is missing and masked\n"),
    ("pad atom\nkey atom\nmasked sum key pad\nheard masked\ngoal key\n", "0", "missing: key\n"),
    ("key atom\npad atom\nmasked sum key pad\nheard masked\ngoal key\n", "1", "missing: key\n"),
    ("0 atom 1000\n1 atom 1001\n2 sum 0 1\nheard 2\ngoal 1\n", "1", "missing: entry 0\nentry 1 is the sum of what is missing and entry 2\n"),
    ("a atom\nb atom\nc atom\ns sum c b a b b\nheard\ngoal s\n", "0", "missing: the sum of a, b, c\n"),
    (
        "a atom\n1 atom\nx atom\ny atom\ns sum a 1\n5 sum s x y\nheard y x\ngoal 5\n",
        "2",
        "missing: the sum of a, entry 1\nentry 5 is the sum of what is missing and x, y\n",
    ),
    // A name on the hull label is used too.
    (
        "pad atom\nkey atom\nsign atom 7\nmasked sum key pad sign\nheard masked\ngoal key\n",
        "1",
        "missing: pad\nkey is the sum of what is missing and sign, masked\n",
    ),
    // A used term that was gained by a step.
    (
        "pad atom\nkey atom\nmasked sum key pad\nk atom\nbox seal masked k\nheard box k\ngoal key\n",
        "2",
        "missing: pad\nkey is the sum of what is missing and masked\n",
    ),
    // A pair and a seal are missing as a whole.
    ("a atom\np pair a a\nq seal a a\ng sum p q\nheard\ngoal g\n", "0", "missing: the sum of p, q\n"),
    // Each name here has another one: of what is missing, of what is used, of the goal.
    (
        "pad atom\nkey atom\nz zero\npad2 sum pad z\nmasked sum key pad2\nmasked2 sum z masked\nkey2 sum key\nz2 sum key key2\nheard masked2\ngoal key2\n",
        "1",
        "missing: pad\nkey2 is the sum of what is missing and masked\n\
         pad2 is the same term as pad\nmasked2 is the same term as masked\nkey2 is the same term as key\n",
    ),
];

fn missing_lines(c: &mut Tally, p: &Paths) {
    for (text, cut, wanted) in LACKS {
        let judged = run(&p.tool, &["judge", "--cut", cut], text.as_bytes());
        let lines = judged.out.lines().skip_while(|line| !line.starts_with("cut ")).skip(1);
        let found: String = lines.map(|line| format!("{line}\n")).collect();
        c.check(&format!("{text:?} at cut {cut}:\n{}wanted\n{wanted}", judged.out), found == wanted && judged.status == 0 && judged.err.is_empty());
    }
    // All cuts are judged, and the lines are about the last.
    let (text, _, wanted) = LACKS[0];
    let judged = run(&p.tool, &["judge"], text.as_bytes());
    let last = judged.out.ends_with(&format!("cut 1 after masked: out of reach, 1 known\n{wanted}"));
    c.check(&judged.out, last && judged.out.matches("missing").count() == 2);
    let reached = run(&p.tool, &["judge"], text.replace("heard masked", "heard masked pad").as_bytes());
    c.check("a reached goal lacks nothing", reached.status == 3 && !reached.out.contains("missing"));
}

fn statuses(c: &mut Tally, p: &Paths) {
    let text = "k atom 1007\nm atom 1009\nbox seal m k\nagain pair m k\nother pair m k\nheard box k other\ngoal m\n";
    let cases: [(&[&str], &str, i32, &str, &str); 9] = [
        (&["judge"], text, 3, "reached: a listener who heard the first 2 of 3 messages gains m in 1 step\n", ""),
        (&["judge", "--cut", "1"], text, 0, "out of reach: no row of steps from the first 1 of 3 heard messages gains m, ", ""),
        (&["judge", "--cut", "3"], text, 3, "reached: a listener who heard the first 3 of 3 messages gains m in 1 step\n", ""),
        (&["judge", "--cut", "4"], text, 1, "", "<stdin>: refused 8 (past the log): --cut 4, and 3 messages were heard\n"),
        (&["judge", "--cut", "4294967295"], text, 1, "", "<stdin>: refused 8 (past the log)"),
        (&["judge"], "k atom 1007\ngoal q\n", 1, "", "<stdin>:2:6: "),
        (&["judge", "--cut", "-1"], text, 2, "", "sheet: --cut -1: expected a number"),
        (&["judge", "--cut"], text, 2, "", "sheet: --cut is the last word"),
        (&["judge", "--cut", "1", "--cut", "1"], text, 2, "", "sheet: --cut is given twice"),
    ];
    for (words, input, status, out, err) in cases {
        let judged = run(&p.tool, words, input.as_bytes());
        let quiet = judged.out.is_empty() == out.is_empty() && judged.err.is_empty() == err.is_empty();
        let holds = judged.status == status && judged.out.starts_with(out) && judged.err.starts_with(err) && quiet;
        c.check(&format!("{words:?}: status {}\n{}{}", judged.status, judged.out, judged.err), holds);
    }
    let judged = run(&p.tool, &["judge", "--cut", "3"], text.replace("goal m", "goal other").as_bytes());
    c.check("names of one term", judged.out.contains("\nother is the same term as again\n") && judged.status == 3);
    let file = p.dir.join("verdict");
    let judged = run(&p.tool, &["judge", "-o", &file.to_string_lossy()], text.as_bytes());
    let written = fs::read_to_string(&file).unwrap_or_default();
    c.check("a verdict in a file", judged.status == 3 && judged.out.is_empty() && written.starts_with("reached: "));
}

// Every form of a rung's line.
fn forms(c: &mut Tally, p: &Paths) {
    use Entry::*;
    let first = [Atom(1001), Atom(1002), Pair(1, 0), Pair(2, 2), Seal(3, 0), Sum(vec![0, 1]), Pair(4, 5), Seal(6, 1)];
    let bytes = sheet(&[&first[..], &[Zero, Pair(0, 0), Pair(9, 8), Pair(10, 7)]].concat(), &[4, 0], 11);
    let judged = run(&p.tool, &["judge", "--cut", "2"], &bytes);
    let wanted = ["3 open 4 with 0", "2 split left 3", "1 split left 2", "5 sum of 0, 1", "6 join 4, 5", "7 seal 6 under 1", "8 sum of nothing", "9 join 0, 0"];
    wanted.iter().for_each(|line| c.check(&format!("{line} in\n{}", judged.out), judged.out.lines().any(|found| found == *line)));
    let right = run(&p.tool, &["judge"], b"a atom\nb atom\np pair a b\nheard p\ngoal b\n");
    c.check(&right.out, right.out.ends_with("\nb split right p\n"));
}

// What examples/README.md shows is what is printed and drawn.
fn shown(c: &mut Tally, p: &Paths) {
    let readme = fs::read_to_string(p.root.join("examples/README.md")).unwrap_or_default();
    for (i, name) in ["nsl-xor-calls", "hull-label", "flight-link-missing", "flight-signed"].iter().enumerate() {
        let block = readme.split("```text\n").nth(i + 1).and_then(|rest| rest.split("```").next()).unwrap_or("");
        let judged = run(&p.tool, &["judge", &p.root.join(format!("examples/{name}.sheet")).to_string_lossy()], b"");
        c.check(&format!("examples/README.md shows for {name}\n{block}"), judged.out == block);
    }
    for name in ["flight-link-missing", "flight-signed"] {
        let picture = fs::read_to_string(p.root.join(format!("examples/{name}.svg"))).unwrap_or_default();
        let drawn = run(&p.tool, &["draw", &p.root.join(format!("examples/{name}.sheet")).to_string_lossy()], b"");
        c.check(&format!("examples/{name}.svg"), drawn.out == picture && readme.contains(&format!("({name}.svg)")));
    }
}

// The version is the C header's, where the header has one.
fn version(c: &mut Tally, p: &Paths) {
    let header = fs::read_to_string(p.root.join("include/zuwendryk.h")).unwrap_or_default();
    let part = |name: &str| header.lines().find_map(|line| line.strip_prefix(&format!("#define ZUWENDRYK_VERSION_{name} "))?.split(' ').next());
    let said = run(&p.tool, &["--version"], b"");
    c.check("a version", said.status == 0 && said.out.starts_with("sheet ") && said.out.matches('.').count() == 2);
    if header.contains("ZUWENDRYK_VERSION_") {
        let parts = ["MAJOR", "MINOR", "PATCH"].map(|name| part(name).unwrap_or("missing").trim());
        c.check(&format!("{}the header: {parts:?}", said.out), said.out == format!("sheet {}\n", parts.join(".")));
    }
}

fn main() {
    let arguments: Vec<PathBuf> = std::env::args_os().skip(1).map(PathBuf::from).collect();
    let whole = |i: usize| arguments.get(i).and_then(|path| path.canonicalize().ok()).expect("arguments: the tool, the program, the repository");
    let dir = std::env::temp_dir().join(format!("sheet-judge-test-{}", std::process::id()));
    fs::create_dir_all(&dir).expect("a folder for the test");
    let p = Paths { tool: whole(0), program: whole(1), root: whole(2), dir };
    let mut c = Tally::default();
    examples(&mut c, &p);
    random_sheets(&mut c, &p);
    public_lines(&mut c, &p);
    public_orders(&mut c, &p);
    public_heads(&mut c, &p);
    missing_lines(&mut c, &p);
    statuses(&mut c, &p);
    forms(&mut c, &p);
    shown(&mut c, &p);
    version(&mut c, &p);
    let _ = fs::remove_dir_all(&p.dir);
    c.end("judge");
}
