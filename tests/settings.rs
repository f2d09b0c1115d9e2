// Document 02, E11, by brute force: the verdict with a setting, a byte that says which rules the stranger has. Answer and buffer are compared with those of
// the reading (reading.rs), in every setting on small sheets and in many on larger ones. The rungs replay and use no rule that is switched off. With every
// rule on the call is the full verdict, and refusals are the full verdict's in each setting. What is said of turning a switch on is tried on the calls
// themselves, and out of reach against everything that can be made off the sheet up to a size.

#[allow(dead_code)] // each test uses a part
mod sheets;
#[allow(dead_code)]
mod calls;
#[allow(dead_code)]
mod cards;
mod eliminated;
mod failures;
#[allow(dead_code)]
mod kinds;
mod larger;
#[allow(dead_code)]
mod off;
mod plain;
#[allow(dead_code)]
mod reading;
mod settings_larger;
mod settings_refused;
mod settings_small;
mod settings_stated;
mod simple;
use calls::{limited, verdict};
use failures::Failures;
use reading::{judged, members, read, refused, replay, uses_only, Setting, Sheet, FULL};
use sheets::{refusal, sheet, Entry, Random, FRONT};

// The length of a buffer for 256 rungs, and that of the guards on both sides of it.
const ROOM: usize = FRONT + 40 * 256;
const GUARD: usize = 16;

// The bytes of sum's switch and of all others.
const SUM: u8 = 32;
const NO_SUM: u8 = 255 - SUM;

// A sheet's bytes, and what the reading makes of them where they aren't refused.
struct Subject {
    bytes: Vec<u8>,
    read: Option<Sheet>,
}

impl Subject {
    fn new(entries: &[Entry], heard: &[u16], goal: u16) -> Subject {
        Subject::of(sheet(entries, heard, goal))
    }

    fn of(bytes: Vec<u8>) -> Subject {
        let read = (refusal(&bytes) == 0).then(|| read(&bytes));
        Subject { bytes, read }
    }

    // How many messages there are; 0 of a refused sheet.
    fn heard(&self) -> u32 {
        self.read.as_ref().map_or(0, |sheet| sheet.heard.len() as u32)
    }
}

// One call of the library.
#[derive(Clone)]
struct Called {
    rules: u8,
    cut: u32,
    budget: u32,
    answer: u32,
    buffer: Vec<u8>,
}

impl Called {
    // The bytes of the rungs, none where the buffer is too short for the number.
    fn rungs(&self) -> &[u8] {
        self.buffer.get(FRONT..FRONT + 40 * (self.answer as usize % 1000)).unwrap_or(&[])
    }
}

struct Tally {
    calls: u64,
    failures: Failures,
    verdicts: [[u64; 4]; 2], // without sum and with it: refused, reached, out of reach, stopped
    rules: [u64; 9],         // rungs by each rule, in settings other than the full one
    settings: [u64; 256],    // verdicts in each setting
    refusals: [u64; 13],
    zero_goals: u64,        // out of reach without sum, the goal zero
    several: u64,           // out of reach without sum, the remainder of several entries
    zeros: u64,             // rungs that gain zero by another rule than sum
    full: u64,              // calls with every rule on, beside the full verdict
    pairs: u64,             // pairs of settings, one of them in the other, on one sheet
    grown: u64,             // those where the goal stays out of reach and more is gained
    off: [u64; 2],          // tried off the sheet, and how often the goal was gained there
    larger: [u64; 4],       // verdicts on larger sheets
    larger_rules: [u64; 9], // and rungs by each rule
    pattern: Vec<u8>,
}

impl Tally {
    // One call between guards. Number and bytes are the reading's, whatever stood in the buffer; the rungs replay; with every rule on the full verdict
    // answers the same.
    fn call(&mut self, what: &str, on: &Subject, rules: u8, cut: u32, budget: u32, length: usize) -> Called {
        let (called, guarded) = self.made(on, rules, cut, budget, length);
        let before = &self.pattern[GUARD..GUARD + length];
        let (number, buffer) = match (refused(FULL, &on.bytes, cut, budget, length), &on.read) {
            (0, Some(sheet)) => judged(Setting(rules), sheet, cut as usize, budget as usize, before),
            (refused, _) => (refused, before.to_vec()),
        };
        if called.answer != number || called.buffer != buffer || !guarded {
            let places = (0..length).filter(|&i| called.buffer[i] != buffer[i]).take(4).collect::<Vec<usize>>();
            self.wrong(what, on, &called, &format!("text {number}, bytes differ at {places:?}, guards kept: {guarded}"));
        }
        self.beside_full(what, on, &called);
        match &on.read {
            Some(sheet) if called.answer >= 1000 => self.replayed(what, on, sheet, &called),
            _ => {}
        }
        self.counted(&called);
        called
    }

    // The call alone, and whether its guards kept their bytes.
    fn made(&mut self, on: &Subject, rules: u8, cut: u32, budget: u32, length: usize) -> (Called, bool) {
        let mut area = self.pattern[..length + 2 * GUARD].to_vec();
        let answer = limited(&on.bytes, cut, budget, rules, &mut area[GUARD..GUARD + length]);
        let guarded = (0..GUARD).chain(GUARD + length..length + 2 * GUARD).all(|i| area[i] == self.pattern[i]);
        self.calls += 1;
        (Called { rules, cut, budget, answer, buffer: area[GUARD..GUARD + length].to_vec() }, guarded)
    }

    fn wrong(&mut self, what: &str, on: &Subject, called: &Called, why: &str) {
        let sheet = if on.bytes.len() < 300 { format!("{:?}", on.bytes) } else { format!("of {} bytes", on.bytes.len()) };
        let Called { rules, cut, budget, answer, buffer } = called;
        let length = buffer.len();
        self.failures.add(&format!("{what}: setting {rules} answer {answer}: {why}; cut {cut} budget {budget} length {length} sheet {sheet}"));
    }

    // "all other calls have every rule on": with every rule on number and bytes are the full verdict's.
    fn beside_full(&mut self, what: &str, on: &Subject, called: &Called) {
        if called.rules != 255 {
            return;
        }
        let mut buffer = self.pattern[GUARD..GUARD + called.buffer.len()].to_vec();
        let answer = verdict(&on.bytes, called.cut, called.budget, &mut buffer);
        self.full += 1;
        if answer != called.answer || buffer != called.buffer {
            self.wrong(what, on, called, &format!("the full verdict {answer}, same bytes: {}", buffer == called.buffer));
        }
    }

    // The library's rungs use only rules that are switched on, they replay, and they gain the goal exactly where it is reached.
    fn replayed(&mut self, what: &str, on: &Subject, sheet: &Sheet, called: &Called) {
        let (rungs, reached) = (called.rungs(), called.answer / 1000 == 1);
        let state = replay(sheet, called.cut as usize, rungs);
        let right = matches!(state, Ok(state) if state.contains(&sheet.terms[sheet.goal]) == reached);
        if !right || !uses_only(Setting(called.rules), rungs) || rungs.len() != 40 * (called.answer as usize % 1000) {
            self.wrong(what, on, called, "the rungs don't replay or use a rule that is off");
        }
        let zero = |rung: &&[u8]| sheet.terms.get(usize::from(rung[0]) * 256 + usize::from(rung[1])).is_some_and(|t| t.is_empty()) && rung[3] != 6;
        self.zeros += rungs.chunks(40).filter(zero).count() as u64;
    }

    fn counted(&mut self, called: &Called) {
        let with_sum = usize::from(called.rules & SUM != 0);
        let verdict = (called.answer / 1000).min(3) as usize;
        self.verdicts[with_sum][verdict] += 1;
        if verdict == 0 {
            self.refusals[(called.answer as usize).min(12)] += 1;
            return;
        }
        self.settings[usize::from(called.rules)] += 1;
        if called.rules != 255 {
            called.rungs().chunks(40).for_each(|rung| self.rules[usize::from(rung[3]).min(8)] += 1);
        }
        if (with_sum, verdict) == (0, 2) {
            let remainder = members(&called.buffer[64..FRONT]).len();
            self.zero_goals += u64::from(remainder == 0);
            self.several += u64::from(remainder > 1);
        }
    }

    // The sheet in every setting at one cut and budget.
    fn every_setting(&mut self, what: &str, on: &Subject, cut: u32, budget: u32) -> Vec<Called> {
        (0..=255).map(|rules| self.call(what, on, rules, cut, budget, FRONT + 40 * budget.min(256) as usize)).collect()
    }

    // Has everything been tried often enough?
    fn seen(&self) -> bool {
        let verdicts = self.verdicts.iter().flatten().chain(&self.rules[1..]).min() >= Some(&1000);
        let refusals = (1..=12).filter(|number| *number != 11).all(|number| self.refusals[number] >= 100);
        let larger = self.larger[1..].iter().chain(&self.larger_rules[1..]).min() >= Some(&200);
        let rare = [self.zero_goals, self.several, self.zeros, self.full, self.grown, self.off[0], self.off[1]].iter().min() >= Some(&500);
        verdicts && refusals && rare && larger && self.settings.iter().min() >= Some(&500) && self.pairs >= 1_000_000
    }

    fn end(&self) {
        let [refused, reached, out, stopped] = [0, 1, 2, 3].map(|k| self.verdicts[0][k] + self.verdicts[1][k]);
        println!("settings: rungs by rules 1 to 8: {:?}; refusals 1 to 12: {:?}", &self.rules[1..], &self.refusals[1..]);
        println!("settings: on larger sheets {:?} reached, out of reach, stopped; rungs {:?}", &self.larger[1..], &self.larger_rules[1..]);
        println!("settings: without sum {} reached, {} out of reach, of these {} with the goal zero and {} with several missing", self.verdicts[0][1],
            self.verdicts[0][2], self.zero_goals, self.several);
        println!("settings: zero by another rule {}; beside the full verdict {}; pairs of settings {}, more gained {}; off the sheet {} tried, {} gained",
            self.zeros, self.full, self.pairs, self.grown, self.off[0], self.off[1]);
        println!("settings: {} calls, {reached} reached, {out} out of reach, {stopped} stopped, {refused} refused, {} failed", self.calls, self.failures.count);
        if self.failures.count > 0 || !self.seen() {
            std::process::exit(1);
        }
    }
}

fn main() {
    let mut t = Tally {
        calls: 0,
        failures: Failures::default(),
        verdicts: [[0; 4]; 2],
        rules: [0; 9],
        settings: [0; 256],
        refusals: [0; 13],
        zero_goals: 0,
        several: 0,
        zeros: 0,
        full: 0,
        pairs: 0,
        grown: 0,
        off: [0; 2],
        larger: [0; 4],
        larger_rules: [0; 9],
        pattern: (0..ROOM + 2 * GUARD + 64).map(|i| (i * 37 + 11) as u8).collect(),
    };
    let mut r = Random(0x2545f4914f6cdd1d);
    settings_stated::cases(&mut t);
    settings_refused::calls(&mut t, &mut r);
    settings_small::sheets(&mut t, &mut r);
    settings_small::off_the_sheet(&mut t, &mut r);
    settings_larger::sheets(&mut t, &mut r);
    t.end();
}
