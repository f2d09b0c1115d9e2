// The tool `sheet`: round trips, every message with its place, nothing written on bad input, damaged cards, and the names on the hull label.
// The tool's path is the first argument. Most round trips run in this process, the rest through the tool.

mod cards;
mod ran;
#[allow(dead_code)] // each test uses a part
mod sheets;
mod simple;
mod tally;

#[allow(dead_code)]
#[path = "../tools/sheet/bytes.rs"]
mod bytes;
#[allow(dead_code)]
#[path = "../tools/sheet/model.rs"]
mod model;
#[path = "../tools/sheet/print.rs"]
mod print;
#[allow(dead_code)]
#[path = "../tools/sheet/text.rs"]
mod text;
#[path = "../tools/sheet/words.rs"]
mod words;

use cards::{card_of, large, random_sheet};
use ran::Run;
use sheets::{damage, refusal, sheet, Entry, Random};
use std::fs;
use std::path::{Path, PathBuf};
use tally::Tally;

struct Checks {
    tool: String,
    dir: PathBuf,
    tally: Tally,
}

impl Checks {
    fn check(&mut self, what: &str, holds: bool) {
        self.tally.check(what, holds);
    }

    fn run(&self, words: &[&str], input: &[u8]) -> Run {
        ran::run(Path::new(&self.tool), &self.dir, words, input)
    }

    // A run that fails: this status, one line on standard error with these parts, nothing on standard output.
    fn fails(&mut self, words: &[&str], input: &[u8], status: i32, start: &str, parts: &[&str]) {
        let run = self.run(words, input);
        let one_line = run.err.ends_with('\n') && run.err.matches('\n').count() == 1;
        let said = run.err.starts_with(start) && parts.iter().all(|part| run.err.contains(part));
        let holds = run.status == status && one_line && said && run.out.is_empty();
        let input = String::from_utf8_lossy(input);
        self.check(&format!("{words:?} on {input:?}: status {}, {:?}, wanted {status}, {start:?} {parts:?}", run.status, run.err), holds);
    }

    fn file(&self, name: &str, content: &[u8]) {
        fs::write(self.dir.join(name), content).expect("the test's directory can be written");
    }

    fn content(&self, name: &str) -> Option<Vec<u8>> {
        fs::read(self.dir.join(name)).ok()
    }
}

const TEXT_A: &str = "key atom 1007\nmask atom 1009\nmasked sum key mask\nsession atom 1012\nbox seal session key\nheard masked box mask\ngoal session\n";

fn sheet_a() -> Vec<u8> {
    use Entry::*;
    sheet(&[Atom(1007), Atom(1009), Sum(vec![0, 1]), Atom(1012), Seal(3, 0)], &[2, 4, 1], 3)
}

fn round_trips(c: &mut Checks) {
    let mut r = Random(0x9e3779b97f4a7c15);
    let mut long = 0;
    for i in 0..3000 {
        let bytes = if i % 50 == 0 { large(&mut r) } else { random_sheet(&mut r) };
        let printed = bytes::decode(&bytes).map_or(String::new(), |sheet| print::print(&sheet));
        let back = text::parse(printed.as_bytes()).ok().map(|text| bytes::encode(&text.sheet));
        c.check("a sheet comes back from its text", back.as_deref() == Some(&bytes[..]));
        long += printed.matches(" long").count();
        let hurt = damage(&mut r, bytes);
        c.check("a damaged sheet gets its refusal", bytes::decode(&hurt).err().unwrap_or(0) == refusal(&hurt));
    }
    c.check(&format!("{long} long records of numbers that fit the short one"), long > 1000);
    for i in 0..48 {
        let bytes = if i % 8 == 0 { large(&mut r) } else { random_sheet(&mut r) };
        let text = c.run(&["disassemble"], &bytes);
        let back = c.run(&["assemble", "-"], &text.out);
        let silent = text.err.is_empty() && back.err.is_empty();
        c.check("a sheet comes back through the tool", text.status == 0 && back.status == 0 && back.out == bytes && silent);
    }
}

fn good_texts(c: &mut Checks) {
    let same = [
        TEXT_A.to_string(),
        TEXT_A.trim_end().to_string(),
        TEXT_A.replace('\n', "\r\n"),
        TEXT_A.replace(' ', " \t "),
        TEXT_A.replace('\n', " # a comment\n\n"),
        TEXT_A.replace("key mask", "0 mask").replace("goal session", "goal 3"),
        TEXT_A.replace("heard masked box mask", "heard\nheard masked\nheard box mask"),
        TEXT_A.replace("key", "clé").replace("session", "k-1_x'"),
        "0 atom 1007\n1 atom 1009\n2 sum 0 1\n3 atom 1012\ngoal 3\n4 seal 3 0\nheard 2 4 1".to_string(),
    ];
    for text in same {
        let run = c.run(&["assemble"], text.as_bytes());
        c.check(&format!("sheet A from {text:?}: {}", run.err), run.status == 0 && run.out == sheet_a());
    }
    c.file("a.sheet", TEXT_A.as_bytes());
    let run = c.run(&["assemble", "a.sheet", "-o", "a.bytes"], b"");
    let written = c.content("a.bytes");
    c.check("assemble writes its file", run.status == 0 && run.out.is_empty() && written == Some(sheet_a()));
    let run = c.run(&["disassemble", "a.bytes", "-o", "back.sheet"], b"");
    let written = c.content("back.sheet").unwrap_or_default();
    c.check("disassemble writes its file", run.status == 0 && text::parse(&written).map(|text| bytes::encode(&text.sheet)) == Ok(sheet_a()));
    let entries = |n: usize, last: &str| (0..n).map(|i| format!("{i} zero\n")).collect::<String>() + last;
    let most = format!("{}{}\nheard{}\ngoal 0\n", entries(255, "255 sum"), " 1".repeat(64), " 0".repeat(256));
    c.check("the most of everything", c.run(&["assemble"], most.as_bytes()).status == 0);
}

// Bad texts: the text, the place of its fault, and words of the message.
fn bad_texts() -> Vec<(String, &'static str, Vec<&'static str>)> {
    let entries = |n: usize| (0..n).map(|i| format!("e{i} zero\n")).collect::<String>();
    let list: Vec<(&str, &str, Vec<&str>)> = vec![
        ("k atom 1\nm  seel k k\n", "2:4", vec!["unknown word \"seel\"", "expected zero, atom, pair, seal, sum, private, public or lock"]),
        ("0 zero\n2 zero\n", "2:1", vec!["label 2 isn't the entry's place", "expected 1 or a name"]),
        ("0 zero\n 99999999999999999999999 zero\n", "2:2", vec!["isn't the entry's place"]),
        ("a zero\nb zero\n\ta atom 4\n", "3:2", vec!["\"a\" is used twice", "entry 0 (line 1)", "expected another name"]),
        ("atom 5\n", "1:1", vec!["\"atom\" is reserved", "expected a label, heard or goal"]),
        ("9x zero\n", "1:1", vec!["\"9x\"", "expected heard, goal, the label 0 or a name"]),
        ("k.1 zero\n", "1:1", vec!["\"k.1\"", "a letter, then letters, digits"]),
        ("a zero\nb pair a c\n", "2:10", vec!["\"c\" isn't declared above"]),
        ("é zero\nä-b pair é ö # ü\n", "2:12", vec!["\"ö\" isn't declared above"]),
        ("a zero\nb pair 0 1\n", "2:10", vec!["entry 1 isn't declared above", "0 to 0"]),
        ("a sum a\n", "1:7", vec!["\"a\" isn't declared above"]),
        ("heard 0\n", "1:7", vec!["entry 0 isn't declared above", "there is none"]),
        ("a zero\nb pair a  # short\n", "2:9", vec!["found the line's end", "expected the right entry"]),
        ("a zero\nb seal\n", "2:7", vec!["found the line's end", "expected the message"]),
        ("a atom  # no goal\n", "2:1", vec!["found no goal"]),
        ("a atom b\n", "1:8", vec!["found \"b\"", "expected a number from 0 to 4294967295"]),
        ("a\n", "1:2", vec!["expected zero, atom, pair, seal, sum, private, public or lock"]),
        ("a zero\ngoal\n", "2:5", vec!["expected the goal's entry"]),
        ("a zero b\n", "1:8", vec!["found \"b\"", "expected the line's end after zero"]),
        ("a atom 1 2\n", "1:10", vec!["found \"2\"", "expected long or the line's end after the atom's number"]),
        ("a zero\nb pair a a a\n", "2:12", vec!["found \"a\"", "expected the line's end"]),
        ("a zero\ngoal a a\n", "2:8", vec!["found \"a\"", "expected the line's end"]),
        ("a atom 4294967296\n", "1:8", vec!["4294967296 is out of range", "expected 0 to 4294967295"]),
        ("a atom -1\n", "1:8", vec!["found \"-1\"", "expected a number from 0 to 4294967295"]),
        ("a zero\ngoal a\n\ngoal a\n", "4:1", vec!["second goal", "line 2"]),
        ("a zero\nheard a\n", "3:1", vec!["found no goal", "expected one line: goal ENTRY"]),
        ("a zero # no goal", "1:17", vec!["found no goal"]),
        ("# nothing\n", "2:1", vec!["found no entries", "expected 1 to 256"]),
        ("", "1:1", vec!["found no entries"]),
    ];
    let mut list: Vec<_> = list.into_iter().map(|(text, place, parts)| (text.to_string(), place, parts)).collect();
    list.push((format!("a zero\ns sum{}\n", " a".repeat(65)), "2:135", vec!["found 65 items", "expected at most 64"]));
    list.push((format!("{}goal 0\n", entries(257)), "257:1", vec!["entry line 257", "expected at most 256"]));
    list.push((format!("a zero\nheard{}\nheard a\n", " a".repeat(256)), "3:7", vec!["heard message 257", "expected at most 256"]));
    list
}

fn text_faults(c: &mut Checks) {
    for (text, place, parts) in bad_texts() {
        c.fails(&["assemble"], text.as_bytes(), 1, &format!("<stdin>:{place}: "), &parts);
        c.file("bad.sheet", text.as_bytes());
        c.file("kept", b"kept bytes");
        c.fails(&["assemble", "bad.sheet", "-o", "kept"], b"", 1, &format!("bad.sheet:{place}: "), &parts);
        c.fails(&["assemble", "bad.sheet", "-o", "new"], b"", 1, "bad.sheet:", &[]);
        c.fails(&["draw", "bad.sheet", "-", "-o", "kept"], b"", 1, &format!("bad.sheet:{place}: "), &parts);
        let (kept, new) = (c.content("kept"), c.content("new"));
        c.check("an earlier output keeps its bytes, and none is made", kept.as_deref() == Some(b"kept bytes") && new.is_none());
    }
    c.fails(&["assemble"], b"a zero\nb\xc3\xa9 \xff atom 1\n", 1, "<stdin>:2:4: ", &["0xff", "expected UTF-8"]);
    c.fails(&["assemble"], &sheet_a(), 1, "<stdin>:1:", &[]);
}

fn refused_sheets(c: &mut Checks) {
    use Entry::*;
    let zero = |bytes: Vec<u8>| sheet(&[Raw(bytes)], &[], 0);
    let mut short = sheet_a();
    short.truncate(30);
    let cases: Vec<(Vec<u8>, &str)> = vec![
        (vec![], "refused 1 (no sheet)"),
        (b"hello, world\n".to_vec(), "refused 1 (no sheet)"),
        (sheet(&[Zero], &[], 1), "refused 2 (bad count)"),
        (short, "refused 3 (short list)"),
        ([sheet_a(), vec![0]].concat(), "refused 4 (bad pair)"),
        ([sheet_a(), vec![0; 200_000]].concat(), "refused 1 (no sheet)"),
        (zero(vec![5]), "refused 5 (bad record)"),
        (sheet(&[Zero, Sum(vec![1])], &[], 0), "refused 6 (forward)"),
        (zero(vec![8, 0, 0]), "refused 5 (bad record)"),
        (sheet(&[Zero], &[1], 0), "refused 7 (not listed)"),
        (sheet(&[Public(3), Sum(vec![0]), Lock(0, 1)], &[3], 0), "refused 12 (wrong half)"),
    ];
    for (bytes, said) in cases {
        c.file("bad.bytes", &bytes);
        c.file("kept", b"kept bytes");
        c.fails(&["disassemble"], &bytes, 1, &format!("<stdin>: {said}\n"), &[]);
        c.fails(&["disassemble", "bad.bytes", "-o", "kept"], b"", 1, &format!("bad.bytes: {said}\n"), &[]);
        if bytes.starts_with(b"SHT1") {
            let refused = format!("{}\n", said.split(" (").next().unwrap_or(""));
            c.fails(&["draw", "bad.bytes", "-", "-o", "kept"], refused.as_bytes(), 1, &format!("bad.bytes: {said}\n"), &[]);
        }
        let kept = c.content("kept");
        c.check("a refused sheet writes nothing", kept.as_deref() == Some(b"kept bytes"));
    }
}

fn usage(c: &mut Checks) {
    let told: [(&[&str], &str); 7] = [
        (&["--help"], "sheet - "),
        (&["judge", "--help"], "usage: sheet judge "),
        (&["-h"], "sheet - "),
        (&["assemble", "--help"], "usage: sheet assemble "),
        (&["disassemble", "-h"], "usage: sheet disassemble "),
        (&["draw", "x", "--help"], "usage: sheet draw "),
        (&["--version"], "sheet 5."),
    ];
    for (words, start) in told {
        let run = c.run(words, b"");
        c.check(&format!("{words:?}"), run.status == 0 && run.err.is_empty() && run.out.starts_with(start.as_bytes()));
    }
    let wrong: [(&[&str], &str); 11] = [
        (&[], "no command"),
        (&["fold"], "unknown command fold"),
        (&["assemble", "a", "b"], "found also b"),
        (&["assemble", "--svg"], "unknown option --svg"),
        (&["disassemble", "-x"], "unknown option -x"),
        (&["assemble", "-o"], "expected a file name"),
        (&["assemble", "-o", "a", "-o", "b"], "-o is given twice"),
        (&["draw"], "found 0"),
        (&["draw", "a", "b", "c"], "found 3"),
        (&["draw", "-", "-"], "can't both be standard input"),
        (&["draw", "--svg", "--dot", "a", "b"], "two formats"),
    ];
    for (words, said) in wrong {
        c.fails(words, b"", 2, "sheet: ", &[said]);
    }
    c.fails(&["assemble", "missing.sheet"], b"", 1, "missing.sheet: can't be read", &[]);
    c.fails(&["disassemble", "."], b"", 1, ".: can't be read", &[]);
    c.fails(&["assemble", "-o", "no/such/place"], TEXT_A.as_bytes(), 1, "no/such/place: can't be written", &[]);
}

fn bad_cards(c: &mut Checks) {
    let card = card_of(&sheet_a());
    c.file("a.sheet", TEXT_A.as_bytes());
    c.file("kept", b"kept bytes");
    let cases: Vec<(String, &str, &str)> = vec![
        (String::new(), "1:1", "cut short"),
        ("hello\n".to_string(), "1:1", "expected \"goal\""),
        ("refused 4\n".to_string(), "1:1", "refused 4 (bad pair)"),
        (card.replace("goal 3", "goal 2"), "1:6", "another sheet"),
        (card.replace("heard 3", "heard 4"), "1:14", "another sheet"),
        (card.replace("cut 1", "cut 2"), "3:5", "expected \"1\""),
        (card.replace("known 2", "known 9"), "4:26", "expected 2 to 4"),
        (card.replace("rungs 2", "rungs 1"), "5:21", "don't gain the goal"),
        (card.replace("rungs 2", "rungs 3"), "8:1", "cut short"),
        (card.replace("rung 0 sum 1 2", "rung 0 sum 1 4"), "6:6", "doesn't follow by sum"),
        (card.replace("rung 0 sum 1 2", "rung 0 sum 1 3"), "6:14", "isn't gained yet"),
        (card.replace("open", "opens"), "7:8", "unknown word \"opens\", expected left, right, open, join, seal, sum, unlock or lock"),
        (card.replace("open", "unlock"), "7:6", "doesn't follow by unlock"),
        (card.replace("rung 0 sum 1 2", "rung 4 sum 4"), "6:6", "can't gain entry 4"),
        (format!("{card}rung 3 open 4 0\n"), "8:1", "expected the card's end"),
        (card.trim_end().to_string(), "7:16", "cut short"),
    ];
    for (text, place, said) in cases {
        c.fails(&["draw", "a.sheet", "-", "-o", "kept"], text.as_bytes(), 1, &format!("<stdin>:{place}: "), &[said]);
        let kept = c.content("kept");
        c.check("a bad card writes nothing", kept.as_deref() == Some(b"kept bytes"));
    }
    c.fails(&["draw", "a.sheet", "-"], b"goal \xff\n", 1, "<stdin>:1:6: ", &["UTF-8"]);
    c.fails(&["draw", "a.sheet", "missing.card"], b"", 1, "missing.card: can't be read", &[]);
}

// The text of a sheet says which atoms are on the hull label: 0 to 255, each time that one stands there. 65,791 is 65,536 + 255.
fn public_comments(c: &mut Checks) {
    use Entry::*;
    let terms = [Zero, Sum(vec![1]), Pair(1, 4), Sum(vec![3, 4])];
    let bytes = sheet(&[&[Atom(0), Atom(255), Atom(256), Atom(65535), Atom(65791), Long(255)], &terms[..]].concat(), &[], 4);
    let [first, second, fifth] = ["0 atom 0", "1 atom 255", "5 atom 255 long"].map(|line| format!("{line:<20} # on the hull label"));
    let wanted = [&first, &second, "2 atom 256", "3 atom 65535", "4 atom 65791", &fifth, "6 zero"];
    let text = String::from_utf8_lossy(&c.run(&["disassemble"], &bytes).out).into_owned();
    let lines: Vec<&str> = text.lines().skip(1).take(7).collect();
    let short = "\n7 sum 1              # a255\n8 pair 1 4           # (a255, a65791)\n9 sum 3 4            # a65535 + a65791\n";
    c.check(&format!("the comments of\n{text}"), lines == wanted && text.contains(short));
    let back = c.run(&["assemble"], text.as_bytes());
    c.check("a sheet with public atoms comes back", back.status == 0 && back.err.is_empty() && back.out == bytes);
}

// The key is masked with a name on the hull label that stands twice on the sheet; another name isn't used.
const TEXT_PUBLIC: &str = "\
key atom 1007\nname atom 255\n2 atom 255\nspare atom 0\nmasked sum key name\nplan atom 1012\nbox seal plan key\nheard box masked\ngoal plan\n";
const CARD_PUBLIC: &str = "\
goal 5 heard 2\ncut 0 out of reach known 2\ncut 1 out of reach known 3\ncut 2 reached rungs 2\nrung 0 sum 1 4\nrung 5 open 6 0\n";

// A card is replayed from the public atoms and the heard messages together. One that leaves the public atoms out is refused.
fn public_cards(c: &mut Checks) {
    let (heard, no_rung) = ("goal 0 heard 1\ncut 0 out of reach known 0\ncut 1 reached rungs 0\n", "goal 0 heard 1\ncut 0 reached rungs 0\n");
    let (out, sum) = ("goal 0 heard 1\ncut 0 out of reach known 0\ncut 1 out of reach known 1\n", "goal 2 heard 0\ncut 0 reached rungs 0\n");
    let goal = |number: &str| format!("name atom {number}\nheard name\ngoal name\n");
    let same_goal = "name atom 9\nnothing zero\nsame sum name nothing\ngoal same\n".to_string();
    let (card, own) = (CARD_PUBLIC.to_string(), TEXT_PUBLIC.to_string());
    let right = [(&own, CARD_PUBLIC), (&goal("0"), no_rung), (&goal("255"), no_rung), (&goal("256"), heard), (&same_goal, sum)];
    for (text, card) in right {
        c.file("p.sheet", text.as_bytes());
        let run = c.run(&["draw", "p.sheet", "-"], card.as_bytes());
        let own = text::parse(text.as_bytes()).map(|text| card_of(&bytes::encode(&text.sheet)));
        c.check(&format!("{text:?} with {card:?}: {}", run.err), run.status == 0 && run.out.starts_with(b"<svg") && own.as_deref() == Ok(card));
    }
    let old = "goal 5 heard 2\ncut 0 out of reach known 0\ncut 1 out of reach known 1\ncut 2 out of reach known 2\n".to_string();
    let wrong = [
        (&own, old, "2:26", "found known 0, expected 2 to 5: the card is of another sheet, or leaves out what is on the hull label"),
        (&own, card.replace("known 2", "known 1"), "2:26", "found known 1, expected 2 to 5"),
        (&own, card.replace("known 3", "known 2"), "3:26", "found known 2, expected 3 to 5: the card is of another sheet\n"),
        (&own, card.replace("rung 0 sum 1 4", "rung 1 sum"), "5:6", "can't gain entry 1 here"),
        (&own, card.replace("sum 1 4", "sum 2 4"), "5:12", "the source 2 isn't gained yet"),
        (&own.replace("255", "256"), card.clone(), "5:12", "the source 1 isn't gained yet"),
        (&goal("255"), out.to_string(), "2:7", "found out of reach, but the goal is on the hull label"),
        (&goal("256"), out.to_string(), "3:7", "found out of reach, but the goal was heard before this cut"),
        (&goal("256"), no_rung.to_string(), "2:21", "don't gain the goal"),
    ];
    for (text, card, place, said) in wrong {
        c.file("p.sheet", text.as_bytes());
        c.fails(&["draw", "p.sheet", "-"], card.as_bytes(), 1, &format!("<stdin>:{place}: "), &[said]);
    }
}

fn main() {
    let tool = std::env::args().nth(1).expect("the tool's path");
    let tool = Path::new(&tool).canonicalize().expect("the tool is there").to_string_lossy().into_owned();
    let dir = std::env::temp_dir().join(format!("sheet-tool-test-{}", std::process::id()));
    fs::create_dir_all(&dir).expect("a directory for the test");
    let mut c = Checks { tool, dir: dir.clone(), tally: Tally::default() };
    round_trips(&mut c);
    good_texts(&mut c);
    text_faults(&mut c);
    refused_sheets(&mut c);
    usage(&mut c);
    bad_cards(&mut c);
    public_comments(&mut c);
    public_cards(&mut c);
    let _ = fs::remove_dir_all(&dir);
    c.tally.end("tools");
}
