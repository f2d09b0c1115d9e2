// The library beside Maude, a rewriting engine, on the same question: can the goal be derived? Each sheet becomes one Maude module; the
// verdicts must agree wherever Maude answers. Three forms of the question are asked:
//   search     reachability, breadth first, over sets of known entries; a sum is found by a search of its own
//   rewrite    the same rules, but any order of steps will do, so that one path is followed to its end
//   eliminate  as rewrite, with the sum test by elimination, written as equations
// Needs `maude` on the path. Not part of the gate: it measures, and fails only when verdicts differ.

#[allow(dead_code)]
mod sheets;
#[allow(dead_code)]
mod kinds;
use kinds::Parts;
use sheets::{random_entries, sheet, Entry, Random, FRONT};
use std::collections::BTreeSet;
use std::fs::{create_dir_all, write};
use std::io::Read;
use std::process::{Child, Command, Stdio};
use std::time::{Duration, Instant};

extern "C" {
    fn zuwendryk_verdict(sheet: *const u8, sheet_len: usize, cut: u32, budget: u32, buffer: *mut u8, buffer_len: usize) -> u32;
}

const LIMIT: Duration = Duration::from_secs(10);
const FOLDER: &str = "target/maude";
const FORMS: [&str; 3] = ["search", "rewrite", "eliminate"];

// Terms, sets of terms, and the rules but for sums. `st(K, W, G)`: the known terms, the sheet's terms not known yet, and the goal. At the start the
// public atoms and the heard messages are known. Each rule moves a term from W to K. A sum is flat and has no zero in it, because zero is the
// identity; Maude applies B + B = zero to any two of its parts.
const RULES: &str = "
  sorts Base Term Set State KeyPair .
  subsorts Base < Term < Set .
  op zero : -> Term [ctor] .
  ops pair seal lock : Term Term -> Base [ctor] .
  ops priv publ : KeyPair -> Base [ctor] .
  op _+_ : Term Term -> Term [ctor assoc comm id: zero prec 30] .
  op none : -> Set [ctor] .
  op _;_ : Set Set -> Set [ctor assoc comm id: none prec 40] .
  op st : Set Set Term -> State .
  op reached : -> State [ctor] .
  vars X Y G : Term . vars K W : Set . var B : Base . var P : KeyPair .
  eq B + B = zero .
  eq X ; X = X .
  eq st(K ; G, W, G) = reached .
  eq st(K ; X, W ; X, G) = st(K ; X, W, G) .
  rl [left] : st(K ; pair(X, Y), W ; X, G) => st(K ; pair(X, Y) ; X, W, G) .
  rl [right] : st(K ; pair(X, Y), W ; Y, G) => st(K ; pair(X, Y) ; Y, W, G) .
  rl [open] : st(K ; seal(X, Y) ; Y, W ; X, G) => st(K ; seal(X, Y) ; Y ; X, W, G) .
  rl [join] : st(K ; X ; Y, W ; pair(X, Y), G) => st(K ; X ; Y ; pair(X, Y), W, G) .
  rl [join-same] : st(K ; X, W ; pair(X, X), G) => st(K ; X ; pair(X, X), W, G) .
  rl [seal] : st(K ; X ; Y, W ; seal(X, Y), G) => st(K ; X ; Y ; seal(X, Y), W, G) .
  rl [seal-same] : st(K ; X, W ; seal(X, X), G) => st(K ; X ; seal(X, X), W, G) .
  rl [unlock-priv] : st(K ; lock(X, publ(P)) ; priv(P), W ; X, G) => st(K ; lock(X, publ(P)) ; priv(P) ; X, W, G) .
  rl [unlock-publ] : st(K ; lock(X, priv(P)) ; publ(P), W ; X, G) => st(K ; lock(X, priv(P)) ; publ(P) ; X, W, G) .
  rl [lock] : st(K ; X ; Y, W ; lock(X, Y), G) => st(K ; X ; Y ; lock(X, Y), W, G) .
  rl [lock-same] : st(K ; X, W ; lock(X, X), G) => st(K ; X ; lock(X, X), W, G) .
";

// A term is a sum of known terms when adding known terms to it, one at a time, can lead to zero. The terms met on the way may be off the sheet;
// there are at most 2 to the power of the number of known terms, so the search ends.
const SUM_BY_SEARCH: &str = "
  op need : Term Set -> State .
  rl [use] : need(X, K ; Y) => need(X + Y, K ; Y) .
  crl [sum] : st(K, W ; X, G) => st(K ; X, W, G) if need(X, K) => need(zero, K) .
";

// The same test by elimination: take a known term with a part B, and add it to every other term that has B.
const SUM_BY_ELIMINATION: &str = "
  op clear : Base Term Term -> Term .
  eq clear(B, Y, B + X) = B + X + Y .
  eq clear(B, Y, X) = X [owise] .
  op clears : Base Term Set -> Set .
  eq clears(B, Y, none) = none .
  eq clears(B, Y, X ; K) = clear(B, Y, X) ; clears(B, Y, K) .
  op spans : Term Set -> Bool .
  eq spans(zero, K) = true .
  eq spans(X, zero ; K) = spans(X, K) .
  eq spans(X, (B + Y) ; K) = spans(clear(B, B + Y, X), clears(B, B + Y, K)) .
  eq spans(X, K) = false [owise] .
  crl [sum] : st(K, W ; X, G) => st(K ; X, W, G) if spans(X, K) .
";

fn list(entries: &[u16], between: &str, empty: &str) -> String {
    let names: Vec<String> = entries.iter().map(|e| format!("e{e}")).collect();
    if names.is_empty() { empty.to_string() } else { names.join(between) }
}

// One constant an atom, one a key pair and one an entry. An entry's term is made once and shared (memo).
fn declarations(entries: &[Entry]) -> String {
    let constants: BTreeSet<String> = entries
        .iter()
        .filter_map(|e| match e {
            Entry::Atom(a) | Entry::Long(a) => Some(format!("  op a{a} : -> Base [ctor] .\n")),
            Entry::Private(p) | Entry::Public(p) => Some(format!("  op k{p} : -> KeyPair [ctor] .\n")),
            _ => None,
        })
        .collect();
    let mut text: String = constants.into_iter().collect();
    for (i, e) in entries.iter().enumerate() {
        let term = match e {
            Entry::Zero => "zero".to_string(),
            Entry::Atom(a) | Entry::Long(a) => format!("a{a}"),
            Entry::Pair(l, r) => format!("pair(e{l}, e{r})"),
            Entry::Seal(m, k) => format!("seal(e{m}, e{k})"),
            Entry::Sum(items) => list(items, " + ", "zero"),
            Entry::Private(p) => format!("priv(k{p})"),
            Entry::Public(p) => format!("publ(k{p})"),
            Entry::Lock(m, k) => format!("lock(e{m}, e{k})"),
            Entry::Raw(_) => panic!("a raw entry has no term"),
        };
        text += &format!("  op e{i} : -> Term [memo] .\n  eq e{i} = {term} .\n");
    }
    text
}

fn module((entries, heard, goal): &Parts, form: &str) -> String {
    let sum = if form == "eliminate" { SUM_BY_ELIMINATION } else { SUM_BY_SEARCH };
    let all: Vec<u16> = (0..entries.len() as u16).collect();
    let public = all.iter().copied().filter(|e| matches!(entries[usize::from(*e)], Entry::Atom(0..=255) | Entry::Long(0..=255)));
    let known: Vec<u16> = public.chain(heard.iter().copied()).collect();
    let start = format!("st({}, {}, e{goal})", list(&known, " ; ", "none"), list(&all, " ; ", "none"));
    let question = if form == "search" { format!("search [1] {start} =>* reached .") } else { format!("rewrite {start} .") };
    let head = "set print conceal on .\nmod SHEET is";
    format!("{head}{RULES}{sum}{}endm\nprint conceal st .\n{question}\nquit\n", declarations(entries))
}

fn finished(child: &mut Child, begin: Instant) -> bool {
    loop {
        if child.try_wait().expect("maude can be waited for").is_some() {
            return true;
        }
        if begin.elapsed() > LIMIT {
            child.kill().expect("maude can be stopped");
            child.wait().expect("maude can be waited for");
            return false;
        }
        std::thread::sleep(Duration::from_micros(200));
    }
}

// The text that Maude prints and the whole process's milliseconds; nothing after LIMIT.
fn run(file: &str) -> Option<(String, f64)> {
    let begin = Instant::now();
    let mut maude = Command::new("maude");
    maude.args(["-no-banner", "-batch", file]).stdin(Stdio::null()).stdout(Stdio::piped()).stderr(Stdio::piped());
    let mut child = maude.spawn().expect("maude is on the path");
    let done = finished(&mut child, begin);
    let whole = begin.elapsed().as_secs_f64() * 1e3;
    let (mut said, mut warned) = (String::new(), String::new());
    child.stdout.take().unwrap().read_to_string(&mut said).expect("maude prints text");
    child.stderr.take().unwrap().read_to_string(&mut warned).expect("maude prints text");
    assert!(warned.is_empty(), "maude warns about {file}: {warned}");
    if done { Some((said, whole)) } else { None }
}

struct Reply {
    reached: bool,
    whole: f64,
    own: f64,
}

// Maude's own time is the `real` figure of the line "rewrites: 95 in 0ms cpu (0ms real)": whole milliseconds, without start and parsing.
fn parse(said: &str) -> Option<(bool, f64)> {
    let reached = said.contains("Solution 1") || said.contains("result State: reached");
    let out_of_reach = said.contains("No solution.") || said.contains("result State: st(...)");
    let own = said.split("ms cpu (").nth(1)?.split("ms real").next()?.parse().ok()?;
    if reached != out_of_reach { Some((reached, own)) } else { None }
}

fn ask(parts: &Parts, form: &str, name: &str) -> Option<Reply> {
    let file = format!("{FOLDER}/{name}-{form}.maude");
    write(&file, module(parts, form)).expect("the module can be written");
    let (said, whole) = run(&file)?;
    let (reached, own) = parse(&said).unwrap_or_else(|| panic!("no verdict in maude's answer to {file}: {said}"));
    Some(Reply { reached, whole, own })
}

// The middle of three runs, or the first if it takes over a second.
fn ask_thrice(parts: &Parts, form: &str, name: &str) -> Option<Reply> {
    let first = ask(parts, form, name)?;
    if first.whole > 1000.0 {
        return Some(first);
    }
    let mut replies = vec![first, ask(parts, form, name)?, ask(parts, form, name)?];
    replies.sort_by(|a, b| a.whole.partial_cmp(&b.whole).unwrap());
    Some(replies.swap_remove(1))
}

// The library's answer and the median of 200 calls in microseconds.
fn library((entries, heard, goal): &Parts) -> (u32, f64) {
    let (s, mut out) = (sheet(entries, heard, *goal), vec![0u8; FRONT + 40 * 256]);
    let mut times = vec![];
    let mut answer = 0;
    for _ in 0..200 {
        let begin = Instant::now();
        // Both areas are slices, so neither pointer is null and they don't overlap.
        answer = unsafe { zuwendryk_verdict(s.as_ptr(), s.len(), heard.len() as u32, 256, out.as_mut_ptr(), out.len()) };
        times.push(begin.elapsed().as_secs_f64() * 1e6);
    }
    times.sort_by(|a, b| a.partial_cmp(b).unwrap());
    assert!((1000..3000).contains(&answer), "the library refuses the sheet or stops: {answer}");
    (answer, times[100])
}

fn differ(name: &str, form: &str, answer: u32, reply: &Reply) -> bool {
    let differs = (answer < 2000) != reply.reached;
    if differs {
        println!("DISAGREEMENT: {name}: the library answers {answer}, maude ({form}) says {}", if reply.reached { "reached" } else { "out of reach" });
    }
    differs
}

// One line of the table. A form that had no answer in time on a smaller sheet of this kind is not asked again (`-`).
fn row(kind: &str, parts: &Parts, late: &mut [bool; 3]) -> usize {
    let (n, (answer, us)) = (parts.0.len(), library(parts));
    let name = format!("{}-{n}", kind.replace(' ', "-"));
    let verdict = format!("{} {}", if answer < 2000 { "reached" } else { "out" }, answer % 1000);
    let (mut line, mut wrong) = (format!("{kind:10} {n:4} {verdict:>12} {us:11.1}"), vec![]);
    for (form, late) in FORMS.iter().zip(late) {
        let reply = if *late { None } else { ask_thrice(parts, form, &name) };
        match &reply {
            Some(r) => line += &format!(" {:10.1} {:7.0}", r.whole, r.own),
            None => line += &format!(" {:>10} {:>7}", if *late { "-" } else { "timeout" }, "-"),
        }
        *late = reply.is_none();
        wrong.extend(reply.filter(|r| differ(&name, form, answer, r)));
    }
    println!("{line}");
    wrong.len()
}

// Small random sheets, not timed: every form must agree with the library.
fn agreement(sheets: usize) -> usize {
    let (mut r, mut reached, mut late, mut wrong) = (Random(2026), 0, 0, 0);
    for i in 0..sheets {
        let parts = random_entries(&mut r, 10);
        let (answer, _) = library(&parts);
        reached += (answer < 2000) as usize;
        for form in FORMS {
            match ask(&parts, form, "small") {
                Some(reply) => wrong += differ(&format!("small sheet {i}: {parts:?}"), form, answer, &reply) as usize,
                None => late += 1,
            }
        }
    }
    println!("{sheets} small random sheets, 3 forms each: {reached} reached, {late} timeouts, {wrong} disagreements");
    wrong
}

// Maude's time to start, read an empty module and end: the middle of 11 runs.
fn start_up() -> f64 {
    let file = format!("{FOLDER}/empty.maude");
    write(&file, "mod EMPTY is\nendm\nquit\n").expect("the module can be written");
    let mut times: Vec<f64> = (0..11).map(|_| run(&file).expect("an empty module takes no time").1).collect();
    times.sort_by(|a, b| a.partial_cmp(b).unwrap());
    times[5]
}

fn main() {
    create_dir_all(FOLDER).expect("the folder can be made");
    println!("maude starts and ends in {:.1} ms; timeout {} s", start_up(), LIMIT.as_secs());
    println!("{:39}{:>19}{:>18}{:>18}", "", "search ms", "rewrite ms", "eliminate ms");
    println!("{:10} {:>4} {:>12} {:>11}{}", "sheet", "n", "verdict", "library us", "      whole     own".repeat(3));
    let kinds: [(&str, fn(usize) -> Parts); 12] = [
        ("joins", kinds::joins),
        ("chain", kinds::chain),
        ("sums", kinds::sums),
        ("seals", kinds::seals),
        ("mixed", kinds::mixed),
        ("stuck", kinds::stuck),
        ("serials", kinds::serials),
        ("random", kinds::random),
        ("locks", kinds::locks),
        ("locked", |n| kinds::locked(n, 1)),
        ("random b", |n| kinds::drawn(n, 2)),
        ("random c", |n| kinds::drawn(n, 3)),
    ];
    let mut wrong = 0;
    for (name, make) in kinds {
        let mut late = [false; 3];
        for n in [8, 12, 16, 24, 32, 64] {
            wrong += row(name, &make(n), &mut late);
        }
    }
    wrong += agreement(100);
    std::process::exit((wrong > 0) as i32);
}
