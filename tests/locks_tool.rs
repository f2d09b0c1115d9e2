// The tool's key pairs and locks: their bytes and text, names that are the new words, faults with their places, notes, refusals, verdicts by name,
// cards and pictures. A half is opened by its opposite alone, and no half is on the hull label. The tool's path is the first argument.

#[allow(dead_code)] // each test uses a part
mod cards;
mod checks;
mod ran;
#[allow(dead_code)]
mod shapes;
#[allow(dead_code)]
mod sheets;
mod simple;
mod tally;

use cards::card_of;
use checks::Checks;
use ran::Run;
use shapes::{apart, areas, box_of, well_formed};
use sheets::{damage, refusal, sheet, Entry, Random, FRONT};
use std::path::PathBuf;
use tally::Tally;
use Entry::*;

impl Checks {
    // The sheet in a file, and a card of it: drawn, or refused with these words.
    fn draws_card(&self, bytes: &[u8], card: &str) -> Run {
        std::fs::write(self.dir.join("sheet"), bytes).expect("the test's folder can be written");
        self.run(&["draw", "sheet", "-"], card.as_bytes())
    }
}

// A half as written, its record, and its short form in a comment.
const HALVES: [(&str, &[u8], &str); 10] = [
    ("private 0", &[5, 0, 0], "priv0"),
    ("public 0", &[6, 0, 0], "pub0"),
    ("private 7", &[5, 0, 7], "priv7"),
    ("public 7", &[6, 0, 7], "pub7"),
    ("public 255", &[6, 0, 255], "pub255"),
    ("private 256", &[5, 1, 0], "priv256"),
    ("public 258", &[6, 1, 2], "pub258"),
    ("private 1007", &[5, 3, 239], "priv1007"),
    ("private 65535", &[5, 255, 255], "priv65535"),
    ("public 65535", &[6, 255, 255], "pub65535"),
];

// Each alone on a sheet as the goal, and then with a lock under it. Nobody has a half without hearing it.
fn records(c: &mut Checks) {
    for (written, record, short) in HALVES {
        let bytes = sheet(&[Raw(record.to_vec())], &[], 0);
        c.assembles(&format!("h {written}\ngoal h\n"), &bytes, "");
        let text = c.run(&["disassemble"], &bytes).text();
        c.check(&text, text.lines().nth(1) == Some(&format!("0 {written}")) && text.lines().count() == 4);
        c.assembles(&text, &bytes, "");
        let judged = c.run(&["judge"], &bytes);
        c.check(&judged.text(), judged.status == 0 && judged.text().ends_with("out of reach, 0 known\nmissing: entry 0\n") && !judged.text().contains("hull"));
        let drawn = c.run(&["draw", "-"], &bytes).text();
        c.check(&drawn, drawn.contains(&format!("<title>missing: entry 0 (goal) = {written}</title>")) && !drawn.contains("hull"));
        let locked = sheet(&[Raw(record.to_vec()), Atom(7), Raw(vec![7, 0, 1, 0, 0])], &[], 2);
        c.assembles(&format!("h {written}\na atom 7\nl lock a h\ngoal l\n"), &locked, "");
        let text = c.run(&["disassemble"], &locked).text();
        let line = format!("{:<20} # [a7]{short}", "2 lock 1 0");
        c.check(&format!("{line:?} in\n{text}"), text.lines().nth(3) == Some(&line));
        c.assembles(&text, &locked, "");
    }
}

const LEGEND: &str = "# In comments: a7 atom 7, (l, r) a pair, {m}k m sealed under k, x + y a sum, #5 entry 5.";
const LEGEND_LOCKS: &str =
    "# In comments: a7 atom 7, (l, r) a pair, {m}k m sealed under k, pub7 public 7, priv7 private 7, [m]k m locked under k, x + y a sum, #5 entry 5.";

// The comments tell halves and locks inside other terms. The first line tells of them only where there are any.
fn comments(c: &mut Checks) {
    let entries = [Public(3), Private(3), Atom(1000), Sum(vec![0, 2]), Lock(3, 1), Seal(4, 0), Pair(5, 1), Lock(6, 0), Sum(vec![7, 0]), Sum(vec![1])];
    let text = c.run(&["disassemble"], &sheet(&entries, &[], 0)).text();
    let wanted = [
        LEGEND_LOCKS,
        "0 public 3",
        "1 private 3",
        "2 atom 1000",
        "3 sum 0 2            # pub3 + a1000",
        "4 lock 3 1           # [pub3 + a1000]priv3",
        "5 seal 4 0           # {[pub3 + a1000]priv3}pub3",
        "6 pair 5 1           # ({[pub3 + a1000]priv3}pub3, priv3)",
        "7 lock 6 0           # [({[pub3 + a1000]priv3}pub3, priv3)]pub3",
        "8 sum 7 0            # [({[pub3 + a1000]priv3}pub3, priv3)]pub3 + pub3",
        "9 sum 1              # priv3",
    ];
    c.check(&format!("the comments of\n{text}"), text.lines().take(11).eq(wanted));
    let deep: Vec<Entry> = [Public(3)].into_iter().chain((1..30).map(|i| Lock(i - 1, 0))).collect();
    let text = c.run(&["disassemble"], &sheet(&deep, &[], 0)).text();
    c.check(&text, text.lines().all(|line| line.len() < 80 || line == LEGEND_LOCKS) && text.contains("\n29 lock 28 0         # [[[[[[#23]pub3]pub3]pub3]pub3]pub3]pub3\n"));
    for (entries, first) in [(vec![Atom(7)], LEGEND), (vec![Private(7)], LEGEND_LOCKS), (vec![Zero, Atom(1), Seal(0, 1)], LEGEND)] {
        let text = c.run(&["disassemble"], &sheet(&entries, &[], 0)).text();
        c.check(&text, text.lines().next() == Some(first));
    }
}

// The new words are no reserved ones: entries may have these names, beside the words and in every place of a name.
fn names(c: &mut Checks) {
    let bytes = sheet(&[Private(3), Public(3), Lock(0, 1), Pair(2, 0), Sum(vec![1, 2]), Seal(1, 2), Lock(2, 0)], &[2, 0, 1], 2);
    let own = "private private 3\npublic public 3\nlock lock private public\np pair lock private\ns sum public lock\nq seal public lock\nr lock lock private\n";
    c.assembles(&format!("{own}heard lock private public\ngoal lock\n"), &bytes, "");
    c.assembles(&format!("{}heard 2 private 1\ngoal 2", own.replace("lock private public", "\tlock 0 public#lock")), &bytes, "");
    // An older text, whose names are the new words.
    let older = sheet(&[Atom(1000), Atom(7), Pair(0, 1), Seal(2, 0), Sum(vec![0, 1, 2])], &[3, 0], 1);
    c.assembles("private atom\npublic atom 7\nlock pair private public\nunlock seal lock private\n4 sum private public lock\nheard unlock private\ngoal public\n", &older, "");
    let judged = c.run(&["judge"], format!("{own}heard lock private public\ngoal private\n").as_bytes()).text();
    let end = "cut 2 after private: reached, 0 steps\n";
    c.check(&judged, judged.starts_with("reached: ") && judged.ends_with(end));
    let judged = c.run(&["judge"], b"private private 3\nm atom\nlock lock m private\npublic public 3\nunlock lock m public\nheard lock public\ngoal unlock\n").text();
    c.check(&judged, judged.ends_with("cut 2 after public: reached, 2 steps\nm unlock lock with public\nunlock lock m under public\n"));
}

const KINDS: &str = "expected zero, atom, pair, seal, sum, private, public or lock";
const NO_HALF: &str = "isn't a half, expected an entry whose own line is private or public";

// A line that is at fault, the column, and the message. `z`, `k`, `p`, `s`, `t`, `h`, `same` and `l` stand above.
fn fault_lines() -> Vec<(&'static str, usize, String)> {
    let wrong = |key: &str| format!("wrong half: the key \"{key}\" {NO_HALF}");
    let range = "expected 0 to 65535";
    let number = "expected a number from 0 to 65535";
    vec![
        ("a lock k z", 10, wrong("z")),
        ("a lock k k", 10, wrong("k")),
        ("a lock k p", 10, wrong("p")),
        ("a lock h s", 10, wrong("s")),
        ("a lock k t", 10, wrong("t")),
        ("a lock k same", 10, wrong("same")),
        ("a lock k  6", 11, wrong("6")),
        ("\ta  lock h l", 12, wrong("l")),
        ("a lock k x", 10, "entry \"x\" isn't declared above, expected the number or name of an entry declared above".to_string()),
        ("a lock k a", 10, "entry \"a\" isn't declared above, expected the number or name of an entry declared above".to_string()),
        ("a lock 8 h", 8, "entry 8 isn't declared above, expected an entry declared above: 0 to 7".to_string()),
        ("a lock", 7, "found the line's end, expected the message".to_string()),
        ("a lock k", 9, "found the line's end, expected the key".to_string()),
        ("a lock k h h", 12, "found \"h\", expected the line's end after the two entries of a lock".to_string()),
        ("a lock k k h", 12, "found \"h\", expected the line's end after the two entries of a lock".to_string()),
        ("a private", 10, "found the line's end, expected the key pair's number".to_string()),
        ("a public # 3", 9, "found the line's end, expected the key pair's number".to_string()),
        ("a private 65536", 11, format!("the number 65536 is out of range, {range}")),
        ("a public 70000", 10, format!("the number 70000 is out of range, {range}")),
        ("a public 18446744073709551616", 10, format!("the number 18446744073709551616 is out of range, {range}")),
        ("a private -1", 11, format!("found \"-1\", {number}")),
        ("a public k", 10, format!("found \"k\", {number}")),
        ("a private 3 long", 13, "found \"long\", expected the line's end after the key pair's number".to_string()),
        ("a public 3 4", 12, "found \"4\", expected the line's end after the key pair's number".to_string()),
        ("a Public 3", 3, format!("unknown word \"Public\", {KINDS}")),
        ("a unlock k h", 3, format!("unknown word \"unlock\", {KINDS}")),
        ("a locks k h", 3, format!("unknown word \"locks\", {KINDS}")),
        // Without a label the word is one.
        ("lock k h", 6, format!("unknown word \"k\", {KINDS}")),
        ("private 3", 9, format!("unknown word \"3\", {KINDS}")),
        ("public", 7, format!("found the line's end, {KINDS} after the label")),
    ]
}

fn faults(c: &mut Checks) {
    let above = "z zero\nk atom 7\np pair k k\ns seal k k\nt sum k z\nh public 3\nsame sum h\nl lock k h\n";
    for (line, column, said) in fault_lines() {
        for command in ["assemble", "judge", "draw"] {
            let words: &[&str] = if command == "draw" { &["draw", "-"] } else { &[command] };
            let run = c.run(words, format!("{above}{line}\ngoal k\n").as_bytes());
            let wanted = format!("<stdin>:9:{column}: {said}\n");
            c.check(&format!("{line}: {}wanted {wanted}", run.err), run.status == 1 && run.out.is_empty() && run.err == wanted);
        }
    }
    let label = c.run(&["assemble"], b"a public 3\na private 3\ngoal a\n");
    c.check(&label.err, label.err == "<stdin>:2:1: the name \"a\" is used twice: it stands for entry 0 (line 1), expected another name\n");
}

// Two names of one half are noted. The halves of a pair aren't one term, nor are halves of other pairs, nor an atom of the same number.
fn notes(c: &mut Checks) {
    let note = |line: usize, name: &str, first: &str, half: &str| format!("<stdin>:{line}:1: note: \"{name}\" and \"{first}\" (line 1) are one term, since both are {half}\n");
    let twice = sheet(&[Public(3), Public(3), Private(3), Public(3)], &[], 0);
    c.assembles("a public 3\nb public 3\nc private 3\nd public 003\ngoal a\n", &twice, &(note(2, "b", "a", "public 3") + &note(4, "d", "a", "public 3")));
    c.assembles("a private 9\nb private 9\ngoal a\n", &sheet(&[Private(9), Private(9)], &[], 0), &note(2, "b", "a", "private 9"));
    c.assembles("a private 9\n1 private 9\ngoal a\n", &sheet(&[Private(9), Private(9)], &[], 0), "");
    let apart = sheet(&[Public(7), Private(7), Atom(7), Public(8), Private(1800), Atom(1000), Public(1000), Atom(1001)], &[], 0);
    c.assembles("a public 7\nb private 7\nc atom 7\nd public 8\ne private 1800\nf atom\ng public 1000\nh atom\ngoal a\n", &apart, "");
}

// Damaged records, in the table's order: three commands refuse them alike.
fn refusals(c: &mut Checks) {
    let half = |kind: u8, length: usize| Raw([vec![kind], vec![0; length - 1]].concat());
    let mut cases: Vec<(Vec<u8>, &str)> = vec![];
    for kind in [5, 6] {
        cases.extend([1, 2, 4, 5, 7].map(|length| (sheet(&[half(kind, length)], &[], 0), "5 (bad record)")));
    }
    cases.extend([1, 2, 3, 4, 6, 7].map(|length| (sheet(&[Public(1), half(7, length)], &[], 0), "5 (bad record)")));
    cases.extend([1, 3, 5].map(|length| (sheet(&[Public(1), half(8, length)], &[], 0), "5 (bad record)")));
    cases.extend([
        (sheet(&[Public(1), Lock(1, 0)], &[], 0), "6 (forward)"),
        (sheet(&[Public(1), Lock(0, 1)], &[], 0), "6 (forward)"),
        (sheet(&[Atom(7), Lock(1, 0)], &[], 0), "6 (forward)"),
        (sheet(&[Atom(7), Lock(0, 0)], &[], 0), "12 (wrong half)"),
        (sheet(&[Zero, Lock(0, 0)], &[], 0), "12 (wrong half)"),
        (sheet(&[Public(1), Sum(vec![0]), Lock(0, 1)], &[], 0), "12 (wrong half)"),
        (sheet(&[Public(1), Lock(0, 0), Lock(0, 1)], &[], 0), "12 (wrong half)"),
        // A 12 in one record comes before a 5 or a 6 in the next, and before 7; a 5 or a 6 in an earlier one comes before it.
        (sheet(&[Atom(7), Lock(0, 0), Raw(vec![9])], &[], 0), "12 (wrong half)"),
        (sheet(&[Atom(7), Lock(0, 0), Pair(2, 2)], &[], 0), "12 (wrong half)"),
        (sheet(&[Atom(7), Lock(0, 0)], &[9], 0), "12 (wrong half)"),
        (sheet(&[Atom(7), Raw(vec![9]), Lock(0, 0)], &[], 0), "5 (bad record)"),
        (sheet(&[Atom(7), Pair(1, 1), Lock(0, 0)], &[], 0), "6 (forward)"),
        (sheet(&[Public(1), Lock(0, 0)], &[9], 0), "7 (not listed)"),
    ]);
    for (bytes, said) in cases {
        for words in [["disassemble", "-"], ["judge", "-"], ["draw", "-"]] {
            let run = c.run(&words, &bytes);
            c.check(&format!("{bytes:?}, {words:?}: {}", run.err), run.status == 1 && run.out.is_empty() && run.err == format!("<stdin>: refused {said}\n"));
        }
    }
    let run = c.draws_card(&sheet(&[Public(1)], &[], 0), "refused 12\n");
    c.check(&run.err, run.err.contains("found refused 12 (wrong half), expected a card of this sheet"));
    let run = c.draws_card(&sheet(&[Public(1)], &[], 0), "refused 11\n");
    c.check(&run.err, run.err.contains("found refused 11 (no such refusal), expected a card of this sheet"));
}

// What is said word for word after the last cut's line: a text, and the lines.
const JUDGED: [(&str, &str); 13] = [
    ("h public 3\no private 3\nm atom\nl lock m h\nheard l o\ngoal m\n", "m unlock l with o\n"),
    ("h private 3\no public 3\nm atom\nl lock m h\nheard l o\ngoal m\n", "m unlock l with o\n"),
    // The half itself, another pair's half, and an atom of the same number don't unlock.
    ("h public 3\no private 3\nm atom\nl lock m h\nheard l h\ngoal m\n", "missing: m\n"),
    ("h public 3\no private 4\nm atom\nl lock m h\nheard l o\ngoal m\n", "missing: m\n"),
    ("h public 3\no private 259\nm atom\nl lock m h\nheard l o\ngoal m\n", "missing: m\n"),
    ("h public 300\no atom 300\nm atom\nl lock m h\nheard l o\ngoal m\n", "missing: m\n"),
    // The opposite half has no entry.
    ("h public 3\nm atom\nl lock m h\nheard l h\ngoal m\n", "missing: m\n"),
    ("h public 3\nm atom\nl lock m h\nheard m h\ngoal l\n", "l lock m under h\n"),
    ("h public 3\no private 3\nm atom\nl lock m h\nheard m o\ngoal l\n", "missing: l\n"),
    // A half is missing, and another is used.
    ("o private 3\nh public 3\nx sum h o\nheard x\ngoal h\n", "missing: o\nh is the sum of what is missing and x\n"),
    // A lock is missing as a whole, and stays whole in a sum.
    (
        "h public 3\no private 3\nm atom\nl lock m h\nx sum l m\nheard x o\ngoal l\n",
        "missing: m\nl is the sum of what is missing and x\n",
    ),
    // Another name of the half, under which the lock's own line knows it.
    ("h public 3\nm atom\nh2 public 3\nl lock m h2\nheard m h\ngoal l\n", "l lock m under h\nh2 is the same term as h\n"),
    // Other names: of the message, of the half that unlocks, of the lock.
    (
        "h public 3\no private 3\nm atom\nm2 sum m\nl lock m2 h\no2 private 3\nh2 public 3\nl2 lock m h2\nheard l2 o2\ngoal m2\n",
        "m unlock l with o\nm2 is the same term as m\no2 is the same term as o\nl2 is the same term as l\n",
    ),
];

fn verdicts(c: &mut Checks) {
    for (text, wanted) in JUDGED {
        let judged = c.run(&["judge", "--cut", if text.contains("\nheard x\n") { "1" } else { "2" }], text.as_bytes());
        let found: String = judged.text().lines().skip_while(|line| !line.starts_with("cut ")).skip(1).map(|line| format!("{line}\n")).collect();
        let status = if wanted.starts_with("missing") { 0 } else { 3 };
        c.check(&format!("{text:?}:\n{}wanted\n{wanted}", judged.text()), found == wanted && judged.status == status && !judged.text().contains("hull"));
    }
}

// What `judge` says of a sheet without names, as its card, and what it says is missing: used entries and missing ones.
fn as_card(bytes: &[u8], judged: &str) -> Option<(String, Vec<usize>, Vec<usize>)> {
    let number = |at: usize| u16::from_be_bytes([bytes[at], bytes[at + 1]]);
    let (mut card, mut used, mut missing) = (format!("goal {} heard {}\n", number(8), number(6)), vec![], vec![]);
    let list = |names: &str| names.split(", ").map(|name| name.strip_prefix("entry ")?.parse().ok()).collect::<Option<Vec<usize>>>();
    for line in judged.lines().skip(1).filter(|line| !line.starts_with("on the hull label: ") && !line.contains(" is the same term as ")) {
        if let Some(names) = line.strip_prefix("missing: ") {
            missing = list(names.strip_prefix("the sum of ").unwrap_or(names))?;
        } else if let Some((_, names)) = line.split_once(" is the sum of what is missing and ") {
            used = list(names)?;
        } else if let Some((place, verdict)) = line.strip_prefix("cut ").and_then(|rest| rest.split_once(": ")) {
            let cut = place.split(' ').next()?;
            let count = verdict.split(' ').find(|word| word.parse::<usize>().is_ok())?;
            card += &if verdict.starts_with("reached") { format!("cut {cut} reached rungs {count}\n") } else { format!("cut {cut} out of reach known {count}\n") };
        } else {
            let plain = line.replace(" split ", " ").replace(" with ", " ").replace(" under ", " ").replace(" of nothing", "").replace(" of ", " ").replace(',', "");
            card += &format!("rung {plain}\n");
        }
    }
    Some((card, used, missing))
}

// A good sheet of up to so many entries in which halves, locks and equal terms are common.
fn random_locks(r: &mut Random, most: u64) -> (Vec<Entry>, Vec<u16>, u16) {
    let n = 2 + r.below(most);
    let mut halves: Vec<u16> = vec![];
    let entries: Vec<Entry> = (0..n)
        .map(|i| {
            let any = |r: &mut Random| r.below(i.max(1)) as u16;
            let number = [0, 7, 300][r.below(3) as usize];
            let entry = match if i == 0 { 0 } else { r.below(14) } {
                0..=2 if r.below(2) == 0 => Private(number),
                0..=2 => Public(number),
                3..=5 => Atom([7, 300, 1000, 70000][r.below(4) as usize] + r.below(3) as u32),
                6..=9 if !halves.is_empty() => Lock(any(r), halves[r.below(halves.len() as u64) as usize]),
                6..=10 => Pair(any(r), any(r)),
                11 => Seal(any(r), any(r)),
                _ => Sum((0..r.below(4)).map(|_| any(r)).collect()),
            };
            if matches!(entry, Private(_) | Public(_)) {
                halves.push(i as u16);
            }
            entry
        })
        .collect();
    // Among the messages are locks, and halves that unlock them or don't. Many goals are messages of locks.
    let of = |kind: fn(&Entry) -> bool| (0..n as u16).filter(|i| kind(&entries[usize::from(*i)])).collect::<Vec<u16>>();
    let (keys, locks) = (of(|entry| matches!(entry, Private(_) | Public(_))), of(|entry| matches!(entry, Lock(..))));
    let one = |r: &mut Random, list: &[u16]| if list.is_empty() { r.below(n) as u16 } else { list[r.below(list.len() as u64) as usize] };
    let mut heard = vec![one(r, &locks), one(r, &keys), one(r, &keys), one(r, &locks), one(r, &keys), one(r, &[])];
    heard.truncate(r.below(7) as usize);
    let goal = match heard.first().map(|first| &entries[usize::from(*first)]) {
        Some(Lock(message, _)) if r.below(3) > 0 => *message,
        _ => one(r, &[]),
    };
    (entries, heard, goal)
}

// The sheet with another key in one of its locks, or damaged otherwise.
fn hurt(r: &mut Random, (entries, heard, goal): &(Vec<Entry>, Vec<u16>, u16)) -> Vec<u8> {
    let mut entries = entries.clone();
    let lock = (0..entries.len()).filter(|i| matches!(entries[*i], Lock(..))).last().filter(|_| r.below(2) == 0);
    match lock.map(|i| (i, entries[i].clone())) {
        Some((i, Lock(message, _))) => entries[i] = Lock(message, r.below(i as u64 + 1) as u16),
        _ => return damage(r, sheet(&entries, heard, *goal)),
    }
    sheet(&entries, heard, *goal)
}

// Used and missing entries with all messages heard, by the simple verdict; none where the goal is reached.
fn lack_of(bytes: &[u8]) -> (Vec<usize>, Vec<usize>) {
    let mut buffer = vec![0; FRONT + 40 * 256];
    simple::verdict(bytes, u32::from(bytes[6]) * 256 + u32::from(bytes[7]), 256, &mut buffer);
    let members = |set: &[u8]| (0..256).filter(|e| set[e / 8] >> (e % 8) & 1 == 1).collect::<Vec<usize>>();
    (members(&buffer[32..64]), members(&buffer[64..96]))
}

// The picture of a ladder: a box a rung with its words, its style where it needs one, and a dashed line for each key.
fn shows(c: &mut Checks, svg: &str, dot: &str, card: &str) {
    let rungs: Vec<Vec<&str>> = card.lines().filter_map(|line| line.strip_prefix("rung ")).map(|rest| rest.split(' ').collect()).collect();
    c.check("a picture is well formed", well_formed(svg) && apart(&areas(svg)) && svg.matches("<g class=\"rung").count() == rungs.len());
    for (i, rung) in rungs.iter().enumerate().filter(|(_, rung)| rung[1].ends_with("lock")) {
        let start = format!("<title>step {} · rung {} {}: entry {} ", i + 1, rung[0], rung[1], rung[0]);
        c.check(&format!("{start} in\n{svg}"), svg.contains(&start));
    }
    for rule in ["unlock", "lock"] {
        let count = rungs.iter().filter(|rung| rung[1] == rule).count();
        c.check("the colour of a step", svg.matches(&format!("class=\"bar {rule}-ink\"")).count() == count);
        c.check("a style where it is used", svg.contains(&format!("\ntext.{rule}-ink{{")) == (count > 0));
    }
    let keyed = rungs.iter().filter(|rung| ["open", "seal", "unlock", "lock"].contains(&rung[1]) && rung[2] != rung[3]).count();
    c.check(&format!("{keyed} keys in\n{card}{dot}"), dot.matches(" [style=dashed, color=").count() == keyed);
}

fn random_sheets(c: &mut Checks) {
    let mut r = Random(0x243f6a8885a308d3);
    let mut seen = [0usize; 5]; // rungs that unlock, rungs that lock, goals out of reach, with a used term, refused with 12
    for i in 0..600 {
        let made = random_locks(&mut r, if i % 60 == 0 { 200 } else { 30 });
        let bytes = sheet(&made.0, &made.1, made.2);
        let text = c.run(&["disassemble"], &bytes).text();
        c.assembles(&text, &bytes, "");
        let (card, lack) = (card_of(&bytes), lack_of(&bytes));
        let judged = c.run(&["judge"], &bytes);
        let said = as_card(&bytes, &judged.text());
        c.check(&format!("{text}judged\n{}the card\n{card}{lack:?}", judged.text()), said.map_or(false, |said| said.0 == card && (said.1, said.2) == lack));
        let drawn = [c.run(&["draw", "-"], &bytes), c.run(&["draw", "--dot", "-"], &bytes)].map(|run| run.text());
        if card.contains(" reached ") {
            shows(c, &drawn[0], &drawn[1], &card);
        }
        let by_card = c.draws_card(&bytes, &card);
        c.check(&format!("{text}{card}{}", by_card.err), by_card.status == 0 && (by_card.text() == drawn[0]) == card.contains(" reached "));
        let hurt = hurt(&mut r, &made);
        let number = refusal(&hurt);
        if hurt.starts_with(b"SHT1") {
            let run = c.run(&["disassemble"], &hurt);
            c.check(&format!("{hurt:?}: {}", run.err), if number == 0 { run.status == 0 } else { run.err.starts_with(&format!("<stdin>: refused {number} (")) });
        }
        let other = [!card.contains(" reached "), !lack.0.is_empty(), number == 12].map(usize::from);
        let more = [" unlock ", " lock "].map(|word| card.matches(word).count()).into_iter().chain(other);
        seen.iter_mut().zip(more).for_each(|(sum, more)| *sum += more);
    }
    let enough = seen.iter().zip([30, 30, 100, 3, 50]).all(|(n, least)| *n > least);
    c.check(&format!("{seen:?} steps that unlock and lock, goals out of reach, with a used term, wrong halves"), enough);
}

// A rung with other sources or another rule doesn't follow.
fn wrong_rungs(c: &mut Checks) {
    let atoms = [Atom(1000), Public(3), Private(3), Public(4), Private(4)];
    let bytes = sheet(&[&atoms[..], &[Lock(0, 1), Lock(0, 2), Seal(0, 2), Pair(6, 0)]].concat(), &[5, 2, 3, 4, 1], 8);
    let card = "goal 8 heard 5\ncut 0 out of reach known 0\ncut 1 out of reach known 1\ncut 2 reached rungs 4\n\
                rung 0 unlock 5 2\nrung 6 lock 0 2\nrung 7 seal 0 2\nrung 8 join 6 0\n";
    c.check(&card_of(&bytes), card_of(&bytes) == card && c.draws_card(&bytes, card).status == 0);
    // All halves are gained here, and 5 and 6.
    let open = sheet(&[&atoms[..], &[Lock(0, 1), Lock(0, 2), Seal(0, 2), Pair(6, 0)]].concat(), &[1, 2, 3, 4, 5, 6, 7], 0);
    let start = |rung: &str| {
        let outs: String = (0..=4).map(|cut| format!("cut {cut} out of reach known {cut}\n")).collect();
        format!("goal 0 heard 7\n{outs}cut 5 reached rungs 1\nrung {rung}\n")
    };
    c.check(&card_of(&open), card_of(&open) == start("0 unlock 5 2") && c.draws_card(&open, &start("0 unlock 5 2")).status == 0);
    for rung in ["0 unlock 5 1", "0 unlock 5 3", "0 unlock 5 4", "0 unlock 5 5", "0 unlock 2 5", "0 unlock 5", "0 unlock 5 2 2", "0 open 5 2", "0 lock 5 2", "0 unlock 1 2"] {
        let run = c.draws_card(&open, &start(rung));
        c.check(&format!("rung {rung}: {}", run.err), run.status == 1 && run.err.starts_with("<stdin>:8:6: entry 0 doesn't follow by "));
    }
    let run = c.draws_card(&open, &start("8 unlock 5 2"));
    c.check(&format!("another entry is gained: {}", run.err), run.status == 1 && run.err.starts_with("<stdin>:8:6: entry 8 doesn't follow by unlock"));
    for wrong in ["6 lock 2 0", "6 seal 0 2", "6 unlock 0 2", "6 lock 0", "6 lock 5 2", "6 lock 0 5", "7 lock 0 2"] {
        let right = if wrong.starts_with('6') { "6 lock 0 2" } else { "7 seal 0 2" };
        let run = c.draws_card(&bytes, &card.replace(right, wrong));
        c.check(&format!("rung {wrong}: {}", run.err), run.status == 1 && run.err.contains("doesn't follow by "));
    }
}

// Names, terms and tags in boxes.
fn pictures(c: &mut Checks) {
    let text = "pub public 3\npriv private 3\nm atom\nl lock m pub\ncopy lock m priv\nheard l priv\ngoal copy\n";
    let svg = c.run(&["draw", "-"], text.as_bytes()).text();
    let parts = [
        ("l", "<title>heard 1: l = m locked under pub</title>", ">m locked under pub</text>"),
        ("priv", "<title>heard 2: priv = private 3</title>", ">private 3</text>"),
        ("m", "<title>step 1 · rung 2 unlock: m = atom 1000</title>", ">step 1 · rung 2 unlock</text>"),
        ("copy", "<title>step 2 · rung 4 lock: copy (goal) = m locked under priv</title>", ">m locked under priv</text>"),
    ];
    parts.iter().for_each(|(name, told, shown)| c.check(&format!("{told} in\n{svg}"), box_of(&svg, name).contains(told) && box_of(&svg, name).contains(shown)));
    let lines = ["<path class=\"line key\"", "<path class=\"tip"].map(|start| svg.matches(start).count());
    c.check("keys are dashed", lines == [2, 4] && svg.contains(">A dashed line brings a key.<"));
    let long = format!("{}1", "frequency_hopping_".repeat(3));
    let svg = c.run(&["draw", "-"], format!("{long} public 3\nm{long} atom\nl lock m{long} {long}\nheard l\ngoal l\n").as_bytes()).text();
    c.check(&svg, svg.contains(">mfreq…ing_1 locked under frequ…ing_1</text>"));
    let other = c.run(&["draw", "-"], b"h public 3\nm atom\nh2 public 3\nl lock m h2\nheard m h\ngoal l\n").text();
    c.check(&other, box_of(&other, "h").contains(">same as h2</text>"));
    let lacks = c.run(&["draw", "-"], b"o private 3\nh public 3\nx sum h o\nheard x\ngoal h\n").text();
    c.check(&lacks, box_of(&lacks, "o").contains("<title>missing: o = private 3</title>") && box_of(&lacks, "h").contains(">public 3</text>"));
    let plain = c.run(&["draw", "-"], b"k atom\nm atom\nb seal m k\nheard b k\ngoal m\n").text();
    c.check("a picture without locks says nothing of them", plain.contains("open-ink") && !plain.contains("lock"));
}

fn main() {
    let tool = std::env::args_os().nth(1).map(PathBuf::from).and_then(|path| path.canonicalize().ok()).expect("the tool's path");
    let dir = std::env::temp_dir().join(format!("sheet-locks-test-{}", std::process::id()));
    std::fs::create_dir_all(&dir).expect("a folder for the test");
    let mut c = Checks { tool, dir: dir.clone(), tally: Tally::default() };
    for test in [records, comments, names, faults, notes, refusals, verdicts, random_sheets, wrong_rungs, pictures] {
        test(&mut c);
    }
    let _ = std::fs::remove_dir_all(&dir);
    c.tally.end("locks of the tool");
}
