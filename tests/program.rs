// The program, run on sheets and compared with their cards: those of the flight card and each kind of line, long atom records, key pairs and locks, the
// longest sheet, refused input, and random small sheets whose card is made from the reading of documents 01 and 02. A stated card is compared with the
// reading's too. Standard error has the hint for text, or nothing. The program's path is the first argument.

#[allow(dead_code)] // each test uses a part
mod sheets;
#[allow(dead_code)]
mod reading;
use reading::{read, work, Answer};
use sheets::{damage, full_sheet, random_entries, refusal, sheet, Entry, Random, LONGEST};
use std::io::Write;
use std::process::{Command, Stdio};

// What the program prints on standard output, and on standard error.
fn run(program: &str, input: &[u8]) -> (String, String) {
    let mut child = Command::new(program).stdin(Stdio::piped()).stdout(Stdio::piped()).stderr(Stdio::piped()).spawn().expect("the program starts");
    let mut stdin = child.stdin.take().unwrap();
    // The program reads no further than it needs, so a broken pipe is no fault.
    let _ = stdin.write_all(input);
    drop(stdin);
    let out = child.wait_with_output().unwrap();
    assert!(out.status.success());
    (String::from_utf8(out.stdout).expect("the card is text"), String::from_utf8(out.stderr).expect("a message is text"))
}

// The hint, where the input isn't empty, begins with other letters than a sheet's, and its first 64 bytes can stand in text.
fn hint(s: &[u8]) -> &'static str {
    let text = s.iter().take(64).all(|b| matches!(b, 9 | 10 | 13 | 32..=126 | 128..=247));
    if s.is_empty() || s.starts_with(b"SHT1") || !text {
        return "";
    }
    "zuwendryk: the input looks like text; a text sheet is assembled first: sheet assemble FILE -o SHEET\n"
}

// The card by the reading.
fn card(s: &[u8]) -> String {
    let refused = refusal(s);
    if refused != 0 {
        return format!("refused {refused}\n");
    }
    let sheet = read(s);
    let words = ["", "left", "right", "open", "join", "seal", "sum", "unlock", "lock"];
    let mut text = format!("goal {} heard {}\n", sheet.goal, sheet.heard.len());
    for cut in 0..=sheet.heard.len() {
        let (answer, rungs, w) = work(&sheet, cut, 256);
        match answer {
            Answer::OutOfReach => text += &format!("cut {cut} out of reach known {}\n", w.gained.len()),
            Answer::Stopped => unreachable!("256 rungs are enough"),
            Answer::Reached => {
                text += &format!("cut {cut} reached rungs {}\n", rungs.len());
                for r in rungs {
                    text += &format!("rung {} {}", r.head, words[r.rule]);
                    let sources: Vec<usize> = match r.rule {
                        1 | 2 => vec![r.first],
                        3..=5 | 7 | 8 => vec![r.first, r.second],
                        _ => r.set.into_iter().collect(),
                    };
                    for source in sources {
                        text += &format!(" {source}");
                    }
                    text += "\n";
                }
                break;
            }
        }
    }
    text
}

struct Checks {
    program: String,
    passed: u32,
    failed: u32,
}

impl Checks {
    fn check(&mut self, what: &str, input: &[u8], want: &str) {
        let (got, said) = run(&self.program, input);
        let read = card(input);
        if got == want && said == hint(input) && read == want {
            self.passed += 1;
        } else {
            self.failed += 1;
            println!("{what}: printed\n{got}wanted\n{want}and said {said:?}; by the reading\n{read}");
        }
    }
}

// The flight card's sheet A.
fn sheet_a() -> Vec<u8> {
    use Entry::*;
    sheet(&[Atom(1007), Atom(1009), Sum(vec![0, 1]), Atom(1012), Seal(3, 0)], &[2, 4, 1], 3)
}

fn cards(c: &mut Checks) {
    use Entry::*;
    c.check(
        "sheet A",
        &sheet_a(),
        "goal 3 heard 3\ncut 0 out of reach known 0\ncut 1 out of reach known 1\ncut 2 out of reach known 2\ncut 3 reached rungs 2\nrung 0 sum 1 2\nrung 3 open 4 0\n",
    );
    c.check("a sum of nothing", &sheet(&[Zero], &[], 0), "goal 0 heard 0\ncut 0 reached rungs 1\nrung 0 sum\n");
    c.check("never reached", &sheet(&[Atom(1001), Seal(0, 0)], &[1], 0), "goal 0 heard 1\ncut 0 out of reach known 0\ncut 1 out of reach known 1\n");
    c.check("the goal's own entry is printed", &sheet(&[Atom(1001), Sum(vec![0])], &[0], 1), "goal 1 heard 1\ncut 0 out of reach known 0\ncut 1 reached rungs 0\n");
    c.check(
        "each rule",
        // k, m, p = (m, k), q = (p, p), s = seal of q under k, goal = (s, sum of m and k), heard: the seal and the key, then the parts come out
        &sheet(&[Atom(1001), Atom(1002), Pair(1, 0), Pair(2, 2), Seal(3, 0), Sum(vec![0, 1]), Pair(4, 5), Seal(6, 1)], &[4, 0], 7),
        "goal 7 heard 2\ncut 0 out of reach known 0\ncut 1 out of reach known 1\ncut 2 reached rungs 6\nrung 3 open 4 0\nrung 2 left 3\nrung 1 left 2\nrung 5 sum 0 1\nrung 6 join 4 5\nrung 7 seal 6 1\n",
    );
    c.check(
        "the right of a pair",
        &sheet(&[Atom(1001), Atom(1002), Pair(0, 1)], &[2], 1),
        "goal 1 heard 1\ncut 0 out of reach known 0\ncut 1 reached rungs 2\nrung 0 left 2\nrung 1 right 2\n",
    );
    c.check("a name on the hull label", &sheet(&[Atom(1000), Atom(255)], &[0], 1), "goal 1 heard 1\ncut 0 reached rungs 0\n");
    c.check(
        "a sum that draws on the hull label",
        &sheet(&[Atom(1000), Atom(0), Atom(0), Sum(vec![0, 2])], &[3], 0),
        "goal 0 heard 1\ncut 0 out of reach known 1\ncut 1 reached rungs 1\nrung 0 sum 1 3\n",
    );
}

// Atoms in the long record (document 02, E10).
fn long_records(c: &mut Checks) {
    use Entry::*;
    let both = [Atom(1000), Long(1000), Sum(vec![0, 1])];
    c.check("heard in the short record, the goal in the long one", &sheet(&both, &[0], 1), "goal 1 heard 1\ncut 0 out of reach known 1\ncut 1 reached rungs 0\n");
    c.check("heard in the long record, the goal in the short one", &sheet(&both[..2], &[1], 0), "goal 0 heard 1\ncut 0 out of reach known 0\ncut 1 reached rungs 0\n");
    c.check("the sum of both records is zero", &sheet(&both, &[], 2), "goal 2 heard 0\ncut 0 reached rungs 1\nrung 2 sum\n");
    c.check("7 in the long record is on the label", &sheet(&[Long(7)], &[], 0), "goal 0 heard 0\ncut 0 reached rungs 0\n");
    c.check("65,543 isn't", &sheet(&[Long(65543)], &[], 0), "goal 0 heard 0\ncut 0 out of reach known 0\n");
    c.check(
        "65,543 masked with 7",
        &sheet(&[Long(7), Long(65543), Sum(vec![0, 1])], &[2], 1),
        "goal 1 heard 1\ncut 0 out of reach known 1\ncut 1 reached rungs 1\nrung 1 sum 0 2\n",
    );
    c.check(
        "a seal under 4,294,967,295 isn't opened by 65,535",
        &sheet(&[Atom(1000), Long(4294967295), Atom(65535), Seal(0, 1)], &[3, 2, 1], 0),
        "goal 0 heard 3\ncut 0 out of reach known 0\ncut 1 out of reach known 1\ncut 2 out of reach known 2\ncut 3 reached rungs 1\nrung 0 open 3 1\n",
    );
    for length in [1, 2, 4, 6, 7] {
        c.check("an atom of another length", &sheet(&[Raw(vec![1; length])], &[], 0), "refused 5\n");
    }
}

// Key pairs and locks (document 02, E6): the rules that print `unlock` and `lock`.
fn locks(c: &mut Checks) {
    use Entry::*;
    let e = [Atom(1000), Public(7), Private(7), Lock(0, 1)];
    let out = |cuts: &[u32]| cuts.iter().enumerate().map(|(cut, known)| format!("cut {cut} out of reach known {known}\n")).collect::<String>();
    c.check("a lock opened", &sheet(&e, &[3, 2], 0), &format!("goal 0 heard 2\n{}cut 2 reached rungs 1\nrung 0 unlock 3 2\n", out(&[0, 1])));
    c.check("a message locked", &sheet(&e, &[1, 0], 3), &format!("goal 3 heard 2\n{}cut 2 reached rungs 1\nrung 3 lock 0 1\n", out(&[0, 1])));
    c.check("the same half opens nothing", &sheet(&e, &[3, 1], 0), &format!("goal 0 heard 2\n{}", out(&[0, 1, 2])));
    c.check(
        "sum before unlock",
        // the last message is the pair of the mask of entry 3 and of the half that opens its lock
        &sheet(&[Atom(1001), Private(7), Public(7), Atom(1000), Lock(3, 2), Sum(vec![3, 0]), Pair(0, 1)], &[4, 5, 6], 3),
        &format!("goal 3 heard 3\n{}cut 3 reached rungs 3\nrung 0 left 6\nrung 1 right 6\nrung 3 sum 0 5\n", out(&[0, 1, 2])),
    );
    c.check("a half is no name", &sheet(&[Public(7), Private(0)], &[], 0), &format!("goal 0 heard 0\n{}", out(&[0])));
    c.check(
        "opened and locked again",
        // a lock under a private half, above which the public one stands; its message is locked under that
        &sheet(&[Atom(1000), Private(65535), Lock(0, 1), Public(65535), Lock(0, 3), Public(65535)], &[2, 5], 4),
        &format!("goal 4 heard 2\n{}cut 2 reached rungs 2\nrung 0 unlock 2 3\nrung 4 lock 0 3\n", out(&[0, 1])),
    );
    c.check("a lock of a half under an atom", &sheet(&[Atom(1000), Public(7), Lock(1, 0)], &[0, 1], 2), "refused 12\n");
    c.check("a lock under a sum that is a half", &sheet(&[Public(7), Sum(vec![0]), Lock(0, 1)], &[], 0), "refused 12\n");
    c.check("a lock under itself", &sheet(&[Public(7), Lock(0, 1)], &[], 0), "refused 6\n");
    c.check("kind 8", &sheet(&[Public(7), Raw(vec![8, 0, 0, 0, 0])], &[], 0), "refused 5\n");
    c.check("a half of length 5", &sheet(&[Raw(vec![5, 0, 0, 0, 7])], &[], 0), "refused 5\n");
    c.check("a lock of length 3", &sheet(&[Public(7), Raw(vec![7, 0, 0])], &[], 0), "refused 5\n");
}

// The longest sheet, of 34,446 bytes, and one byte more or fewer. Its messages are zero and its atom in turn, or zero alone.
fn longest(c: &mut Checks) {
    let full = |first: Entry, heard: [u16; 2]| full_sheet(first, heard, 0);
    let (long, short) = (full(Entry::Long(65536 + 1000), [255, 254]), full(Entry::Atom(1000), [255, 254]));
    assert_eq!(long.len(), LONGEST);
    let want = "goal 0 heard 256\ncut 0 out of reach known 1\ncut 1 out of reach known 1\ncut 2 reached rungs 0\n";
    c.check("the longest sheet", &long, want);
    c.check("the longest with a short record", &short, want);
    c.check("the longest sheet, a name", &full(Entry::Long(7), [255, 254]), "goal 0 heard 256\ncut 0 reached rungs 0\n");
    let every_cut: String = (0..=256).map(|cut| format!("cut {cut} out of reach known 1\n")).collect();
    c.check("the longest sheet, never reached", &full(Entry::Long(65536 + 1000), [255, 255]), &format!("goal 0 heard 256\n{every_cut}"));
    c.check("the longest sheet and one byte", &[&long[..], &[0]].concat(), "refused 1\n");
    c.check("the longest sheet and a second one", &[&long[..], &long[..]].concat(), "refused 1\n");
    c.check("the longest sheet without its last byte", &long[..34445], "refused 4\n");
    c.check("34,445 bytes with one left over", &[&short[..], &[0]].concat(), "refused 4\n");
    c.check("34,446 bytes with two left over", &[&short[..], &[0, 0]].concat(), "refused 4\n");
    c.check("34,447 bytes with three left over", &[&short[..], &[0, 0, 0]].concat(), "refused 1\n");
}

fn refused(c: &mut Checks) {
    use Entry::*;
    let a = sheet_a();
    c.check("no input", &[], "refused 1\n");
    c.check("another file", b"hello, world\n", "refused 1\n");
    c.check("a trailing byte", &[a.clone(), vec![0]].concat(), "refused 4\n");
    c.check("an item equal to its own entry", &sheet(&[Zero, Sum(vec![1])], &[], 0), "refused 6\n");
    c.check("far too long", &[a, vec![0; 100_000]].concat(), "refused 1\n");
}

fn random_sheets(c: &mut Checks) {
    let mut r = Random(0x853c49e6748fea9b);
    for _ in 0..400 {
        let (entries, heard, goal) = random_entries(&mut r, 9);
        let whole = sheet(&entries, &heard, goal);
        let s = if r.below(4) == 0 { damage(&mut r, whole) } else { whole };
        c.check("a random sheet", &s, &card(&s));
    }
}

fn main() {
    let mut c = Checks { program: std::env::args().nth(1).expect("the program's path"), passed: 0, failed: 0 };
    cards(&mut c);
    long_records(&mut c);
    locks(&mut c);
    longest(&mut c);
    refused(&mut c);
    random_sheets(&mut c);
    println!("program: {} passed, {} failed", c.passed, c.failed);
    if c.failed > 0 {
        std::process::exit(1);
    }
}
