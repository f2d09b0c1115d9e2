// The library as it stands and that of an earlier revision, whose symbols are renamed: every answer and every byte is compared, on sheets
// good and damaged, small and large. Then the benchmarks of both revisions, each over its own archive, are run in turn. Built by tests/compare; not
// part of the gate, since it needs the earlier archive.

mod failures;
#[allow(dead_code)]
mod sheets;
#[allow(dead_code)]
mod kinds;
use failures::Failures;
use kinds::Parts;
use sheets::{damage, full_sheet, lock_entries, random_entries, refusal, sheet, Entry, Random, FRONT};
use std::process::Command;

extern "C" {
    fn zuwendryk_verdict(sheet: *const u8, sheet_len: usize, cut: u32, budget: u32, buffer: *mut u8, buffer_len: usize) -> u32;
    fn zuwendryk_validate(sheet: *const u8, sheet_len: usize) -> u32;
    fn zuwendryk_limited_verdict(sheet: *const u8, sheet_len: usize, cut: u32, budget: u32, rules: u8, buffer: *mut u8, buffer_len: usize) -> u32;
    fn zuwendryk_quick_verdict(sheet: *const u8, sheet_len: usize, cut: u32, budget: u32, buffer: *mut u8, buffer_len: usize) -> u32;
    fn earlier_limited_verdict(sheet: *const u8, sheet_len: usize, cut: u32, budget: u32, rules: u8, buffer: *mut u8, buffer_len: usize) -> u32;
    fn earlier_verdict(sheet: *const u8, sheet_len: usize, cut: u32, budget: u32, buffer: *mut u8, buffer_len: usize) -> u32;
    fn earlier_validate(sheet: *const u8, sheet_len: usize) -> u32;
}

// In each call both areas are slices, so neither pointer is null and they don't overlap.
fn now(s: &[u8], cut: u32, budget: u32, out: &mut [u8]) -> u32 {
    unsafe { zuwendryk_verdict(s.as_ptr(), s.len(), cut, budget, out.as_mut_ptr(), out.len()) }
}

fn earlier(s: &[u8], cut: u32, budget: u32, out: &mut [u8]) -> u32 {
    unsafe { earlier_verdict(s.as_ptr(), s.len(), cut, budget, out.as_mut_ptr(), out.len()) }
}

fn quick(s: &[u8], cut: u32, budget: u32, out: &mut [u8]) -> u32 {
    unsafe { zuwendryk_quick_verdict(s.as_ptr(), s.len(), cut, budget, out.as_mut_ptr(), out.len()) }
}

fn limited_now(s: &[u8], cut: u32, budget: u32, rules: u8, out: &mut [u8]) -> u32 {
    unsafe { zuwendryk_limited_verdict(s.as_ptr(), s.len(), cut, budget, rules, out.as_mut_ptr(), out.len()) }
}

fn limited_earlier(s: &[u8], cut: u32, budget: u32, rules: u8, out: &mut [u8]) -> u32 {
    unsafe { earlier_limited_verdict(s.as_ptr(), s.len(), cut, budget, rules, out.as_mut_ptr(), out.len()) }
}

// ---- answers and bytes

// What the change leaves alone, to be said anew for each change. The faster run moves no answer and no byte. So no sheet is left out: the calls answer as they
// did, with the same bytes, and the quick one answers as the full verdict did with every budget of at most 64.
const QUICK_LIMIT: u32 = 64;

// Has the sheet, good or not, a record of kind 5 to 7 in a place that is on the sheet?
fn has_locks(s: &[u8]) -> bool {
    let number = |at: usize| usize::from(u16::from_be_bytes([s[at], s[at + 1]]));
    !matches!(refusal(s), 1..=4) && (0..number(4)).any(|i| matches!(s[number(10 + 4 * i)], 5..=7))
}

#[derive(Default)]
struct Tally {
    verdicts: [u64; 4], // refused, reached, out of reach, stopped
    locks: [u64; 4],    // those of sheets with halves or locks
    sheets: u64,
    good: u64,
    failures: Failures,
}

impl Tally {
    // One call of each, with the same bytes in its buffer: the verdict and the quick one beside the earlier verdict, and the verdict with a setting beside the
    // earlier one.
    fn call(&mut self, s: &[u8], cut: u32, budget: u32, rules: u8, length: usize) {
        let before: Vec<u8> = (0..length).map(|i| (i * 37 + 11) as u8).collect();
        let called = |call: &dyn Fn(&mut [u8]) -> u32| {
            let mut out = before.clone();
            (call(&mut out), out)
        };
        let [new, old, fast] = [now, earlier, quick].map(|call| called(&|out| call(s, cut, budget, out)));
        let [new_limited, old_limited] = [limited_now, limited_earlier].map(|call| called(&|out| call(s, cut, budget, rules, out)));
        let verdict = (new.0 / 1000).min(3) as usize;
        self.verdicts[verdict] += 1;
        self.locks[verdict] += u64::from(has_locks(s));
        let kept = new.0 >= 1000 || new.1 == before;
        let refused = matches!(old.0, 1..=8 | 12);
        let same = [new == old, new_limited == old_limited, fast == if budget <= QUICK_LIMIT || refused { old } else { (9, before.clone()) }];
        if same != [true; 3] || !kept {
            self.failures.add(&format!("sheet {s:?} cut {cut} budget {budget}, {length} bytes, setting {rules}: same: {same:?}, kept where refused: {kept}"));
        }
    }

    // One sheet: whether it is good, and verdicts at several cuts, budgets and lengths.
    fn sheet(&mut self, s: &[u8], r: &mut Random) {
        self.sheets += 1;
        let (validated, table) = (unsafe { [zuwendryk_validate(s.as_ptr(), s.len()), earlier_validate(s.as_ptr(), s.len())] }, refusal(s));
        self.good += u64::from(table == 0);
        if validated != [table; 2] {
            self.failures.add(&format!("sheet {s:?}: validate now and earlier {validated:?}, by the table {table}"));
        }
        let h = if s.len() >= 8 { u32::from(u16::from_be_bytes([s[6], s[7]])).min(256) } else { 0 };
        for cut in [0, h / 3, h, h + 1] {
            for budget in [0, 1 + r.below(8) as u32, r.below(256) as u32, 64, 65, 256, 257] {
                let (enough, rules) = (FRONT + 40 * budget.min(256) as usize, r.below(256) as u8);
                self.call(s, cut, budget, rules, if r.below(8) == 0 { enough - 1 } else { enough + r.below(50) as usize });
            }
        }
    }

    // A good sheet; the same with halves and locks in more places, some of them refused; and a damaged one of each.
    fn all(&mut self, good: Vec<u8>, r: &mut Random) {
        self.sheet(&good, r);
        if refusal(&good) != 0 {
            self.failures.add(&format!("sheet {good:?} is refused"));
        }
        let locked = with_locks(&good);
        self.sheet(&locked, r);
        for s in [good, locked] {
            let bad = damage(r, s);
            self.sheet(&bad, r);
        }
    }
}

// The good sheet with halves for some of its atoms in short records, locks for its seals, and of its sums of one item some are halves too. So some locks
// have a half for their key, and others don't.
fn with_locks(s: &[u8]) -> Vec<u8> {
    let number = |at: usize| usize::from(u16::from_be_bytes([s[at], s[at + 1]]));
    let mut t = s.to_vec();
    for i in 0..number(4) {
        let (at, length) = (number(10 + 4 * i), number(12 + 4 * i));
        t[at] = match (s[at], length, i % 4) {
            (1 | 4, 3, 0) => 5,
            (1 | 4, 3, 1) => 6,
            (3, ..) => 7,
            (kind, ..) => kind,
        };
    }
    t
}

fn made((entries, heard, goal): Parts) -> Vec<u8> {
    sheet(&entries, &heard, goal)
}

fn answers(t: &mut Tally) {
    let mut r = Random(0x9e3779b97f4a7c15);
    for i in 0..5000 {
        let parts = if i % 3 == 0 { lock_entries(&mut r) } else { random_entries(&mut r, 12) };
        t.all(made(parts), &mut r);
    }
    for seed in 0..2400 {
        let n = 8 + r.below(249) as usize;
        t.all(made([kinds::drawn, kinds::labelled, kinds::lacking, kinds::locked][seed as usize % 4](n, seed)), &mut r);
    }
    for kind in kinds::BY_NAME.into_iter().map(|(_, kind)| kind).chain([kinds::longest as fn(usize) -> Parts]) {
        for n in (32..=256).step_by(2) {
            t.all(made(kind(n)), &mut r);
        }
    }
    // of 34,446 bytes and of two fewer
    for i in 0..50 {
        t.all(full_sheet(Entry::Long(65536 + 1001), [255, 254], i), &mut r);
        t.all(full_sheet(Entry::Atom(1001), [255, 254], i), &mut r);
    }
}

// ---- time

// A row of the benchmark: kind and size of the sheet, the library's microseconds, and their ratio to those of the simple verdict by value in the same run.
struct Row {
    sheet: String,
    time: f64,
    ratio: f64,
}

fn row(line: &str) -> Option<Row> {
    let words: Vec<&str> = line.split_whitespace().collect();
    let number = |i: usize| words.get(i)?.parse::<f64>().ok();
    let (n, time, simple) = (words.get(1)?.parse::<usize>().ok()?, number(2)?, number(3)?);
    Some(Row { sheet: format!("{:8} {n:4}", words[0]), time, ratio: time / simple })
}

fn run(bench: &str) -> Vec<Row> {
    let output = Command::new(bench).output().expect("the benchmark runs");
    assert!(output.status.success(), "the benchmark fails: {bench}");
    String::from_utf8(output.stdout).expect("the benchmark prints text").lines().filter_map(row).collect()
}

fn sorted(values: impl Iterator<Item = f64>) -> Vec<f64> {
    let mut all: Vec<f64> = values.collect();
    all.sort_by(|a, b| a.partial_cmp(b).unwrap());
    all
}

// The benchmarks of both revisions, ten runs each, in turn. The machine's speed may change between two runs; the ratio to the simple verdict by value, whose
// calls are made in turn with the library's, then changes less than the time. A revision that has no tests/simple.rs has that verdict in tests/plain.rs, and
// its benchmark prints it in the same place.
fn times(benches: &[String]) {
    let mut runs: [Vec<Vec<Row>>; 2] = [vec![], vec![]];
    for k in 0..20 {
        let i = (k + k / 2) % 2;
        runs[i].push(run(&benches[i]));
    }
    println!("                 least us         to the simple verdict of the same run: least, middle, most of ten");
    println!("sheet       n       now   earlier   now                    earlier");
    let in_both = |row: &&Row| runs[1][0].iter().any(|other| other.sheet == row.sheet);
    for Row { sheet, .. } in runs[0][0].iter().filter(in_both) {
        let rows = |w: usize| runs[w].iter().flatten().filter(|row| row.sheet == *sheet);
        let [(now, a), (earlier, b)] = [0, 1].map(|w| (sorted(rows(w).map(|r| r.time))[0], sorted(rows(w).map(|r| r.ratio))));
        println!("{sheet} {now:9.1} {earlier:9.1}   {:.2}   {:.2}   {:.2}     {:.2}   {:.2}   {:.2}", a[0], a[5], a[9], b[0], b[5], b[9]);
    }
}

fn main() {
    let mut t = Tally::default();
    answers(&mut t);
    let [refused, reached, out, stopped] = t.verdicts;
    let calls = refused + reached + out + stopped;
    println!("compare: {} sheets, {} of them good; none is left out", t.sheets, t.good);
    println!("compare: with halves or locks {} reached, {} out of reach, {} stopped, {} refused", t.locks[1], t.locks[2], t.locks[3], t.locks[0]);
    println!("compare: {calls} calls, {reached} reached, {out} out of reach, {stopped} stopped, {refused} refused; {} failed", t.failures.count);
    if t.failures.count > 0 || t.verdicts.iter().chain(&t.locks).any(|&v| v < 10_000) {
        std::process::exit(1);
    }
    times(&std::env::args().skip(1).collect::<Vec<String>>());
}
