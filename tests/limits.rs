// Document 02, E7: the quick call. "There refusal 9 is given for a budget over 64. Otherwise its answer and bytes are the full call's at the same budget; its
// reached and out of reach agree with the full call at any budget where that is neither refused nor stopped." On small sheets, good and damaged, both calls are
// compared with the documents' text (reading.rs) at budgets around both limits; on these and on larger ones the quick call is compared with the full one.

#[allow(dead_code)] // each test uses a part
mod sheets;
#[allow(dead_code)]
mod calls;
mod failures;
#[allow(dead_code)]
mod kinds;
#[allow(dead_code)]
mod reading;
use calls::{quick, verdict};
use failures::Failures;
use kinds::Parts;
use reading::{expected, FULL, QUICK};
use sheets::{damage, full_sheet, lock_entries, random_entries, sheet, Entry, Random, FRONT};

type Call = fn(&[u8], u32, u32, &mut [u8]) -> u32;

const BUDGETS: [u32; 6] = [0, 1, 63, 64, 65, 256];

// A buffer's bytes before a call, with guard bytes on both sides.
const GUARD: usize = 16;

fn pattern(length: usize) -> Vec<u8> {
    (0..length + 2 * GUARD).map(|i| (i * 37 + 11) as u8).collect()
}

// One call on a buffer of so many bytes: its number, and all bytes after it, guards included.
fn called(call: Call, s: &[u8], cut: u32, budget: u32, length: usize) -> (u32, Vec<u8>) {
    let mut area = pattern(length);
    let number = call(s, cut, budget, &mut area[GUARD..GUARD + length]);
    (number, area)
}

fn heard(s: &[u8]) -> u32 {
    if s.len() >= 8 { u32::from(u16::from_be_bytes([s[6], s[7]])).min(256) } else { 0 }
}

fn room(budget: u32) -> usize {
    FRONT + 40 * budget.min(FULL) as usize
}

#[derive(Default)]
struct Tally {
    calls: u64,
    failures: Failures,
    verdicts: [u64; 4],  // of the quick call: refused, reached, out of reach, stopped
    refusals: [u64; 13], // those of the quick call, by their numbers
    at_limit: [u64; 3],  // reached, out of reach and stopped with exactly 64 rungs
    agreed: [u64; 2],    // calls with two budgets, both reached, both out of reach
    settled_later: u64,  // stopped in the quick call, and not in the full one with another budget
}

impl Tally {
    fn wrong(&mut self, what: &str, s: &[u8], cut: u32, budget: u32, length: usize) {
        let shown = if s.len() < 200 { format!("{s:?}") } else { format!("of {} bytes", s.len()) };
        self.failures.add(&format!("{what}; cut {cut} budget {budget} length {length} sheet {shown}"));
    }

    fn count(&mut self, number: u32) {
        self.calls += 1;
        self.verdicts[(number / 1000) as usize] += 1;
        match number {
            0..=12 => self.refusals[number as usize] += 1,
            1064 | 2064 | 3064 => self.at_limit[(number / 1000 - 1) as usize] += 1,
            _ => {}
        }
    }

    // Both calls, as the documents say.
    fn as_read(&mut self, what: &str, s: &[u8], cut: u32, budget: u32, length: usize) {
        let before = pattern(length);
        self.calls += 2;
        for (call, limit) in [(quick as Call, QUICK), (verdict, FULL)] {
            let (number, area) = called(call, s, cut, budget, length);
            let (want, buffer) = expected(limit, s, cut, budget, &before[GUARD..GUARD + length]);
            let wanted = [&before[..GUARD], &buffer, &before[GUARD + length..]].concat();
            if (number, &area) != (want, &wanted) {
                self.wrong(&format!("{what}, limit {limit}: {number}, and the text says {want}, the same bytes: {}", area == wanted), s, cut, budget, length);
            }
        }
    }

    // The quick call beside the full one with the same budget: the same, or a refusal for the budget, unless there is one that comes before it.
    fn beside(&mut self, what: &str, s: &[u8], cut: u32, budget: u32, length: usize) {
        let [(number, area), (full, bytes)] = [quick as Call, verdict].map(|call| called(call, s, cut, budget, length));
        self.count(number);
        let before_9 = matches!(full, 1..=8 | 12);
        let same = if budget <= QUICK || before_9 { (number, &area) == (full, &bytes) } else { (number, &area) == (9, &pattern(length)) };
        if !same {
            self.wrong(&format!("{what}: {number} beside {full}, the same bytes: {}", area == bytes), s, cut, budget, length);
        }
    }

    // The quick call with one budget and the full one with another: where neither is refused nor stopped they agree, in the number and in every byte written.
    fn agree(&mut self, what: &str, s: &[u8], cut: u32, budget: u32, other: u32) {
        let [(number, area), (full, bytes)] = [(quick as Call, budget), (verdict, other)].map(|(call, budget)| called(call, s, cut, budget, room(budget)));
        self.calls += 1;
        let settled = |number: u32| matches!(number / 1000, 1 | 2);
        self.settled_later += u64::from(number >= 3000 && settled(full));
        if !settled(number) || !settled(full) {
            return;
        }
        let end = GUARD + FRONT + 40 * (number as usize % 1000);
        if number != full || area[..end] != bytes[..end] {
            self.wrong(&format!("{what}: {number}, and {full} with budget {other}"), s, cut, budget, room(budget));
        }
        self.agreed[(number / 1000 - 1) as usize] += 1;
    }

    // A number that is stated.
    fn stated(&mut self, what: &str, parts: &Parts, cut: u32, budget: u32, length: usize, want: u32) {
        let s = sheet(&parts.0, &parts.1, parts.2);
        let (number, _) = called(quick, &s, cut, budget, length);
        self.count(number);
        if number != want {
            self.wrong(&format!("{what}: {number}, wanted {want}"), &s, cut, budget, length);
        }
        self.beside(what, &s, cut, budget, length);
    }
}

// Budgets around both limits, and others: those of the issue, and some that are large.
fn budget(r: &mut Random) -> u32 {
    let others = [2, 3, 7, 62, 66, 128, 255, 257, 320, 65536, 65536 + 64, u32::MAX - 63, u32::MAX];
    match r.below(3) {
        0 => others[r.below(others.len() as u64) as usize],
        _ => BUDGETS[r.below(6) as usize],
    }
}

// The length of a buffer: enough for the budget or for the limit, a byte too few, or more.
fn length(r: &mut Random, budget: u32) -> usize {
    match r.below(8) {
        0 => room(budget) - 1,
        1 => room(budget) - 1 - r.below(FRONT as u64) as usize,
        2 => room(budget) + r.below(50) as usize,
        3 => room(QUICK),
        4 => room(FULL),
        _ => room(budget),
    }
}

// Small sheets, good and damaged: every budget of the list at every cut by the text, other budgets beside the full call.
fn small_sheets(t: &mut Tally, r: &mut Random) {
    for i in 0..6000 {
        let (entries, heard_list, goal) = if i % 3 == 0 { lock_entries(r) } else { random_entries(r, 8) };
        let good = sheet(&entries, &heard_list, goal);
        let s = if i % 4 == 3 { damage(r, good) } else { good };
        for cut in 0..=heard(&s).min(6) + 1 {
            for budget in BUDGETS {
                let length = length(r, budget);
                t.as_read("a small sheet", &s, cut, budget, length);
                t.beside("a small sheet", &s, cut, budget, length);
            }
            let other = budget(r);
            t.beside("a small sheet", &s, cut, other, length(r, other));
            t.agree("a small sheet", &s, cut, r.below(65) as u32, r.below(257) as u32);
        }
    }
}

// Larger sheets of every kind, at every budget of the list and others.
fn larger_sheets(t: &mut Tally, r: &mut Random) {
    let drawn = [kinds::drawn, kinds::labelled, kinds::locked, kinds::lacking];
    for i in 0..1200u64 {
        let n = 16 + 8 * r.below(31) as usize;
        let parts = if i % 2 == 0 { drawn[(i / 2 % 4) as usize](n, i) } else { (kinds::BY_NAME[i as usize / 2 % kinds::BY_NAME.len()].1)(n) };
        let s = sheet(&parts.0, &parts.1, parts.2);
        let last = parts.1.len() as u64;
        for cut in [last, last / 2, r.below(last + 2)] {
            for budget in BUDGETS {
                t.beside("a larger sheet", &s, cut as u32, budget, length(r, budget));
            }
            let other = budget(r);
            t.beside("a larger sheet", &s, cut as u32, other, length(r, other));
            for _ in 0..4 {
                t.agree("a larger sheet", &s, cut as u32, r.below(65) as u32, r.below(257) as u32);
            }
            t.agree("a larger sheet", &s, cut as u32, QUICK, FULL);
        }
    }
}

// A chain of joins on zero, of this many rungs; then an atom that nothing gains.
fn rungs(k: u16, out_of_reach: bool) -> Parts {
    let (mut entries, heard, goal) = kinds::joins(k.into());
    entries.push(Entry::Atom(1000));
    (entries, heard, if out_of_reach { k } else { goal })
}

// Work of 1 to 130 rungs beside the limit: with k rungs to make, a budget of k is enough, and one of k - 1 is not.
fn at_the_limit(t: &mut Tally) {
    for k in 1..=130u16 {
        for (out_of_reach, code) in [(false, 1000), (true, 2000)] {
            let parts = rungs(k, out_of_reach);
            for budget in [0, 1, 62, 63, 64] {
                let want = if u32::from(k) <= budget { code + u32::from(k) } else { 3000 + budget };
                t.stated(&format!("{k} rungs"), &parts, 0, budget, room(budget), want);
            }
            for budget in [65, 66, 255, 256, 257, u32::MAX] {
                t.stated(&format!("{k} rungs"), &parts, 0, budget, room(budget), 9);
            }
        }
    }
}

// "9 from 65 on", whatever the sheet's length; after 1 to 8 and 12, ahead of 10, which goes by the budget given.
fn refused(t: &mut Tally) {
    use Entry::*;
    let good: Parts = (vec![Atom(1000), Atom(1001)], vec![0], 1);
    for budget in 0..=300 {
        let (want, short) = if budget > QUICK { (9, 9) } else { (2000, 10) };
        t.stated("each budget", &good, 1, budget, room(budget), want);
        t.stated("each budget, a byte short", &good, 1, budget, FRONT + 40 * budget as usize - 1, short);
        t.stated("each budget, the cut past the log", &good, 2, budget, 0, 8);
        t.stated("each budget, room for 256 rungs", &good, 1, budget, room(FULL), want);
    }
    for (want, entries, heard, goal) in [
        (2, vec![Atom(1000); 257], vec![], 0),
        (5, vec![Atom(1000), Raw(vec![8])], vec![], 0),
        (6, vec![Atom(1000), Pair(1, 0)], vec![], 0),
        (7, vec![Atom(1000)], vec![1], 0),
        (12, vec![Atom(1000), Lock(0, 0)], vec![], 0),
    ] {
        let parts: Parts = (entries, heard, goal);
        BUDGETS.into_iter().for_each(|budget| t.stated("a refused sheet", &parts, 0, budget, room(budget), want));
    }
    let longest = full_sheet(Long(65536), [255, 254], 0);
    for budget in BUDGETS {
        t.beside("one of the longest sheets", &longest, 0, budget, room(budget));
        t.beside("a byte more", &[&longest[..], &[0]].concat(), 0, budget, room(budget));
        t.beside("no bytes", &[], 0, budget, room(budget));
    }
}

fn main() {
    let mut t = Tally::default();
    let mut r = Random(0x6a09e667f3bcc909);
    refused(&mut t);
    at_the_limit(&mut t);
    small_sheets(&mut t, &mut r);
    larger_sheets(&mut t, &mut r);
    let [refused, reached, out, stopped] = t.verdicts;
    println!("limits: {} calls, {reached} reached, {out} out of reach, {stopped} stopped, {refused} refused: {:?}", t.calls, &t.refusals[1..]);
    println!("with exactly 64 rungs: {:?} reached, out of reach and stopped; with two budgets {:?} agree, {} stopped in the quick call alone", t.at_limit, t.agreed, t.settled_later);
    println!("limits: {} passed, {} failed", t.calls - t.failures.count.min(t.calls), t.failures.count);
    let seen = t.verdicts.into_iter().chain(t.agreed).chain([t.settled_later, t.refusals[8], t.refusals[9], t.refusals[10]]).min() >= Some(1000);
    if t.failures.count > 0 {
        std::process::exit(1);
    }
    if !seen || t.at_limit.into_iter().min() < Some(3) {
        println!("limits: too few of some calls");
        std::process::exit(2);
    }
}
