// The tool's atoms of 32 bits, in short records (2 bytes of number) and long ones (4 bytes): their bytes and text, faults, notes, verdicts and
// pictures. The same number in either record is one term everywhere; numbers that share 16 bits aren't. The tool's path is the first argument.

#[allow(dead_code)] // each test uses a part
mod cards;
mod checks;
mod ran;
#[allow(dead_code)]
mod sheets;
mod simple;
mod tally;

use cards::card_of;
use checks::Checks;
use sheets::{entries_over, sheet, Entry, Random};
use std::path::PathBuf;
use tally::Tally;

impl Checks {
    // Three commands refuse the bytes with these words.
    fn refuses(&mut self, what: &str, bytes: &[u8], said: &str) {
        for words in [["disassemble", "-"], ["judge", "-"], ["draw", "-"]] {
            let run = self.run(&words, bytes);
            self.check(&format!("{what}, {words:?}: {}", run.err), run.status == 1 && run.out.is_empty() && run.err == format!("<stdin>: {said}\n"));
        }
    }
}

// An atom as written, its record, and how it is written back.
const RECORDS: [(&str, &[u8], &str); 18] = [
    ("0", &[1, 0, 0], "0"),
    ("0 long", &[1, 0, 0, 0, 0], "0 long"),
    ("7", &[1, 0, 7], "7"),
    ("7 long", &[1, 0, 0, 0, 7], "7 long"),
    ("0000000007", &[1, 0, 7], "7"),
    ("255 long", &[1, 0, 0, 0, 255], "255 long"),
    ("256", &[1, 1, 0], "256"),
    ("256 long", &[1, 0, 0, 1, 0], "256 long"),
    ("1007 long", &[1, 0, 0, 3, 239], "1007 long"),
    ("65535", &[1, 255, 255], "65535"),
    ("65535 long", &[1, 0, 0, 255, 255], "65535 long"),
    ("65536", &[1, 0, 1, 0, 0], "65536"),
    ("65536 long", &[1, 0, 1, 0, 0], "65536"),
    ("65543", &[1, 0, 1, 0, 7], "65543"),
    ("458752", &[1, 0, 7, 0, 0], "458752"),
    ("16909060", &[1, 1, 2, 3, 4], "16909060"),
    ("2147483648", &[1, 128, 0, 0, 0], "2147483648"),
    ("4294967295", &[1, 255, 255, 255, 255], "4294967295"),
];

// Each alone on a sheet as the goal: a listener has it if it is on the hull label, in either record, and otherwise not.
fn records(c: &mut Checks) {
    for (written, record, back) in RECORDS {
        let bytes = [&b"SHT1\0\x01\0\0\0\0\0\x0e\0"[..], &[record.len() as u8], record].concat();
        c.assembles(&format!("k atom {written}\ngoal k\n"), &bytes, "");
        let text = c.run(&["disassemble"], &bytes).text();
        let public = matches!(record[1..], [0, _] | [0, 0, 0, _]);
        let line = format!("0 atom {back}");
        let wanted = if public { format!("{line:<20} # on the hull label") } else { line };
        c.check(&format!("{wanted:?} in\n{text}"), text.lines().nth(1) == Some(&wanted));
        c.assembles(&text, &bytes, "");
        let judged = c.run(&["judge"], &bytes);
        c.check(&format!("atom {written}:\n{}", judged.text()), judged.status == if public { 3 } else { 0 });
        let drawn = c.run(&["draw", "-"], &bytes).text();
        let number = back.trim_end_matches(" long");
        c.check(&format!("atom {written}, drawn"), drawn.contains(&format!("entry 0 (goal) = atom {number}</title>")) && drawn.contains("hull") == public);
    }
}

// `long` is no reserved word: an entry may have this name, beside the word.
fn an_entry_named_long(c: &mut Checks) {
    use Entry::*;
    let bytes = sheet(&[Long(1007), Atom(70000), Pair(0, 1), Sum(vec![0, 2, 0]), Seal(0, 0)], &[0, 4], 0);
    c.assembles("long atom 1007 long\nx atom 70000\np pair long x\ns sum long p long\nb seal long long\nheard long b\ngoal long\n", &bytes, "");
    c.assembles("long atom 1007  \tlong#long\n1 atom 70000 long\n2 pair long 1\n3 sum 0 2 long\n4 seal 0 long\nheard long 4\ngoal long", &bytes, "");
    let judged = c.run(&["judge"], b"long atom\nheard long\ngoal long\n").text();
    c.check(&judged, judged.starts_with("reached: ") && judged.contains("cut 1 after long: reached, 0 steps\n"));
}

// A line that is at fault, the column, and the message. `k` stands above.
const FAULTS: [(&str, usize, &str); 14] = [
    ("a atom long", 8, "found \"long\", expected a number from 0 to 4294967295"),
    ("long atom long", 11, "found \"long\", expected a number from 0 to 4294967295"),
    ("a atom long 7", 8, "found \"long\", expected a number from 0 to 4294967295"),
    ("a atom 7 long long", 15, "found \"long\", expected the line's end after long"),
    ("a atom 70000 long 7", 19, "found \"7\", expected the line's end after long"),
    ("a atom 7 Long", 10, "found \"Long\", expected long or the line's end after the atom's number"),
    ("a atom 7 short", 10, "found \"short\", expected long or the line's end after the atom's number"),
    ("a zero long", 8, "found \"long\", expected the line's end after zero"),
    ("a pair k k long", 12, "found \"long\", expected the line's end after the two entries of a pair"),
    ("a sum k long", 9, "entry \"long\" isn't declared above, expected the number or name of an entry declared above"),
    ("a long 7", 3, "unknown word \"long\", expected zero, atom, pair, seal, sum, private, public or lock"),
    ("long", 5, "found the line's end, expected zero, atom, pair, seal, sum, private, public or lock after the label"),
    ("a atom 4294967296", 8, "the number 4294967296 is out of range, expected 0 to 4294967295"),
    ("a atom 18446744073709551617 long", 8, "the number 18446744073709551617 is out of range, expected 0 to 4294967295"),
];

fn faults(c: &mut Checks) {
    for (line, column, said) in FAULTS {
        for command in ["assemble", "judge"] {
            let run = c.run(&[command], format!("k atom 7 long\n{line}\ngoal k\n").as_bytes());
            let wanted = format!("<stdin>:2:{column}: {said}\n");
            c.check(&format!("{line}: {}wanted {wanted}", run.err), run.status == 1 && run.out.is_empty() && run.err == wanted);
        }
    }
}

// Two names of one number are noted, whichever records they stand in. Numbers that share their low or high half aren't one term.
fn notes(c: &mut Checks) {
    use Entry::*;
    let note = |line: usize, name: &str, number: u32| {
        let both = format!("note: \"{name}\" and \"old\" (line 1) are one term, since both are atom {number}");
        format!("<stdin>:{line}:1: {both}; without a number an atom is like no other\n")
    };
    let both = note(2, "new", 1007) + &note(3, "third", 1007);
    c.assembles("old atom 1007\nnew atom 1007 long\nthird atom 1007\ngoal old\n", &sheet(&[Atom(1007), Long(1007), Atom(1007)], &[], 0), &both);
    c.assembles("old atom 1007 long\nnew atom 1007\ngoal old\n", &sheet(&[Long(1007), Atom(1007)], &[], 0), &note(2, "new", 1007));
    c.assembles("old atom 70000\nnew atom 70000 long\ngoal new\n", &sheet(&[Long(70000), Long(70000)], &[], 1), &note(2, "new", 70000));
    let apart = [7, 65543, 458752, 131079, 7 << 24];
    let text: String = apart.iter().enumerate().map(|(i, number)| format!("n{i} atom {number}\n")).collect();
    c.assembles(&format!("{text}goal n0\n"), &sheet(&apart.map(Atom), &[], 0), "");
}

// A waypoint sealed under the key in one record; the key is heard in the other, at the first place or the last.
fn one_key(c: &mut Checks) {
    let text = "k atom KEY\nm atom 1012\nbox seal m k\n3 atom OTHER\nheard box 3\ngoal m\n";
    let cases = [
        ("1007", "1007 long", true),
        ("1007 long", "1007", true),
        ("70000", "70000 long", true),
        ("65543", "65543", true),
        ("1007", "66543", false),
        ("66543", "1007 long", false),
        ("65543", "7", false),
        ("65543", "458752", false),
        ("4294967295", "65535 long", false),
    ];
    for (key, other, same) in cases {
        let text = text.replace("KEY", key).replace("OTHER", other);
        let judged = c.run(&["judge"], text.as_bytes());
        let end = if same { "cut 2 after entry 3: reached, 1 step\nm open box with k\n3 is the same term as k\n" } else { "missing: m\n" };
        c.check(&format!("{text:?}:\n{}", judged.text()), judged.text().ends_with(end) && judged.status == if same { 3 } else { 0 } && judged.err.is_empty());
        let drawn = c.run(&["draw", "-"], text.as_bytes()).text();
        let wanted = if same { "the same as k</title>" } else { "out of reach" };
        c.check(&format!("{text:?}, drawn:\n{drawn}"), drawn.contains(wanted) && drawn.contains("<g class=\"rung") == same);
    }
}

// A name on the hull label in both records is one name, and one box.
fn one_name(c: &mut Checks) {
    let text = "key atom\nsign atom 7 long\n2 atom 7\n3 atom 65543\nmasked sum key 2\nheard masked 2\ngoal key\n";
    let judged = c.run(&["judge"], text.as_bytes()).text();
    let (start, end) = ("on the hull label: sign\ncut 0 before any message: out of reach, 1 known\n", "key sum of sign, masked\n2 is the same term as sign\n");
    c.check(&judged, judged.starts_with("reached: ") && judged.contains(start) && judged.ends_with(end));
    let drawn = c.run(&["draw", "-"], text.as_bytes()).text();
    c.check(&drawn, drawn.matches("<g class=\"public").count() == 1 && drawn.contains("on the hull label: sign = atom 7, the same as entry 2</title>"));
}

// An atom of a number that fits has the other record.
fn flipped(entry: &Entry) -> Entry {
    match entry {
        Entry::Atom(number @ 0..=65535) => Entry::Long(*number),
        Entry::Long(number @ 0..=65535) => Entry::Atom(*number),
        other => other.clone(),
    }
}

// Random sheets over numbers that share bytes. They come back from their text. With some records flipped, verdict and picture are the same
// byte for byte, and the text but for its words `long`. Cards are replayed.
fn random_sheets(c: &mut Checks) {
    let mut r = Random(0x5851f42d4c957f2d);
    let (mut changed, mut reached) = (0, 0);
    for _ in 0..120 {
        let (entries, heard, goal) = entries_over(&mut r, 30, &[7, 1007, 1008, 65543, 66543]);
        let other: Vec<Entry> = entries.iter().map(|entry| if r.below(3) > 0 { flipped(entry) } else { entry.clone() }).collect();
        let [one, two] = [&entries, &other].map(|entries| sheet(entries, &heard, goal));
        let [text, second] = [&one, &two].map(|bytes| c.run(&["disassemble"], bytes).text());
        c.assembles(&text, &one, "");
        c.assembles(&second, &two, "");
        let lines = |text: &str| text.replace(" long", "").split_whitespace().map(str::to_string).collect::<Vec<_>>();
        c.check(&format!("{text}and\n{second}differ by long alone"), lines(&text) == lines(&second) && (text != second) == (one != two));
        for words in [["judge", "-"], ["draw", "-"]] {
            let [first, second] = [&one, &two].map(|bytes| c.run(&words, bytes));
            c.check(&format!("{text}{words:?}:\n{}and\n{}", first.text(), second.text()), first == second && !first.out.is_empty());
        }
        std::fs::write(c.dir.join("sheet"), &two).expect("the test's folder can be written");
        let (card, drawn) = (card_of(&one), c.run(&["draw", "sheet", "-"], card_of(&two).as_bytes()));
        c.check(&format!("{text}with the card\n{card}: {}", drawn.err), drawn.status == 0 && card == card_of(&two));
        changed += usize::from(one != two);
        reached += usize::from(card.contains(" reached "));
    }
    c.check(&format!("{changed} sheets have other records, {reached} are reached"), changed > 80 && reached > 20 && reached < 110);
}

// The longest good sheet has a long record and 255 sums of 64 items. Other lengths of an atom's record are bad ones.
fn lengths(c: &mut Checks) {
    let sums: String = (1..256).map(|i| format!("{i} sum{}\n", " 0".repeat(64))).collect();
    let text = |atom: &str| format!("0 atom {atom}\n{sums}heard{}\ngoal 0\n", " 0".repeat(256));
    let [longest, short] = ["7 long", "7"].map(|atom| c.run(&["assemble"], text(atom).as_bytes()).out);
    c.check(&format!("{} and {} bytes", longest.len(), short.len()), longest.len() == 34446 && short.len() == 34444);
    let back = c.run(&["disassemble"], &longest);
    c.assembles(&back.text(), &longest, "");
    c.check("the longest sheet is judged and drawn", c.run(&["judge"], &longest).status == 3 && c.run(&["draw", "-"], &longest).status == 0);
    c.refuses("a byte over the longest", &[&longest[..], &[0]].concat(), "refused 1 (no sheet)");
    c.refuses("34,445 bytes", &[&short[..], &[0]].concat(), "refused 4 (bad pair)");
    c.refuses("34,446 bytes", &[&short[..], &[0, 0]].concat(), "refused 4 (bad pair)");
    c.refuses("34,447 bytes", &[&short[..], &[0, 0, 0]].concat(), "refused 1 (no sheet)");
    for length in [1, 2, 4, 6, 7, 9, 129] {
        let record = [vec![1], vec![0; length - 1]].concat();
        c.refuses(&format!("a record of {length} bytes"), &sheet(&[Entry::Raw(record)], &[], 0), "refused 5 (bad record)");
    }
}

fn main() {
    let tool = std::env::args_os().nth(1).map(PathBuf::from).and_then(|path| path.canonicalize().ok()).expect("the tool's path");
    let dir = std::env::temp_dir().join(format!("sheet-atoms-test-{}", std::process::id()));
    std::fs::create_dir_all(&dir).expect("a folder for the test");
    let mut c = Checks { tool, dir: dir.clone(), tally: Tally::default() };
    records(&mut c);
    an_entry_named_long(&mut c);
    faults(&mut c);
    notes(&mut c);
    one_key(&mut c);
    one_name(&mut c);
    random_sheets(&mut c);
    lengths(&mut c);
    let _ = std::fs::remove_dir_all(&dir);
    c.tally.end("atoms");
}
