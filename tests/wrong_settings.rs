// Request E11 in the libraries that are wrong on purpose: the verdict with a setting, by the simple verdict with a fault in what it makes of the setting.

use super::fault;
use super::sheets::FRONT;
use super::simple::{self, has, single, Choices, Limited, Right, Set, State, Tables, NO_STEP};

const LEFT: u8 = 1;
const RIGHT: u8 = 2;
const OPEN: u8 = 4;
const JOIN: u8 = 8;
const SEAL: u8 = 16;
const SUM: u8 = 32;
const UNLOCK: u8 = 64;
const LOCK: u8 = 128;

// ---- the byte

// With the switch `to` as `from` stands.
fn copied(rules: u8, from: u8, to: u8) -> u8 {
    if rules & from != 0 { rules | to } else { rules & !to }
}

// With the switch `to` on where `from` is, too.
fn joined(rules: u8, from: u8, to: u8) -> u8 {
    if rules & from != 0 { rules | to } else { rules }
}

// With the switch `to` off where `from` is off, too.
fn needing(rules: u8, from: u8, to: u8) -> u8 {
    if rules & from == 0 { rules & !to } else { rules }
}

// The byte as a library takes it that reads other bits.
fn other_bits(rules: u8) -> u8 {
    match fault() {
        "each switch for the next rule" => rules << 1,
        "each switch for the rule before" => rules >> 1,
        "each switch for the next rule, the last for the first" => rules.rotate_left(1),
        "each switch for the rule before, the first for the last" => rules.rotate_right(1),
        "the highest bit for rule 1" => rules.reverse_bits(),
        "the halves of the byte exchanged" => rules.rotate_left(4),
        "the setting ignored" => 255,
        "a bit that is set switches off" => !rules,
        "only the low four bits read, the others off" => rules & 15,
        "only the low four bits read, the others on" => rules | 240,
        "only the low six bits read, the others on" => rules | 192,
        "only the low seven bits read, the last off" => rules & 127,
        "only the low seven bits read, the last on" => rules | 128,
        "a byte over 127 taken for 0" if rules > 127 => 0,
        "a byte over 127 taken for every rule" if rules > 127 => 255,
        "0 taken for every rule" if rules == 0 => 255,
        "a byte other than 0 taken for every rule" if rules > 0 => 255,
        _ => rules,
    }
}

// The byte as a library takes it in which a rule hangs on another rule's switch.
fn other_switch(rules: u8) -> u8 {
    match fault() {
        "unlock by the switch of open" => copied(rules, OPEN, UNLOCK),
        "lock by the switch of seal" => copied(rules, SEAL, LOCK),
        "right by the switch of left" => copied(rules, LEFT, RIGHT),
        "seal by the switch of join" => copied(rules, JOIN, SEAL),
        "unlock on when open is on" => joined(rules, OPEN, UNLOCK),
        "lock on when seal is on" => joined(rules, SEAL, LOCK),
        "open on when unlock is on" => joined(rules, UNLOCK, OPEN),
        "seal on when lock is on" => joined(rules, LOCK, SEAL),
        "right on when left is on" => joined(rules, LEFT, RIGHT),
        "sum on when join is on" => joined(rules, JOIN, SUM),
        "unlock off when open is off" => needing(rules, OPEN, UNLOCK),
        "lock off when seal is off" => needing(rules, SEAL, LOCK),
        "right off when left is off" => needing(rules, LEFT, RIGHT),
        "lock off when sum is off" => needing(rules, SUM, LOCK),
        "unlock and lock exchanged" => rules & !(UNLOCK | LOCK) | (rules & UNLOCK) << 1 | (rules & LOCK) >> 1,
        "open and unlock exchanged" => rules & !(OPEN | UNLOCK) | (rules & OPEN) << 4 | (rules & UNLOCK) >> 4,
        _ => rules,
    }
}

// ---- the choices

const NAMES: [&str; 9] = ["", "left", "right", "open", "join", "seal", "sum", "unlock", "lock"];

// The setting as it was given, and as it was read.
struct Wrong {
    given: u8,
    read: u8,
}

impl Wrong {
    fn off(&self, switch: u8) -> bool {
        self.given & switch == 0
    }

    // The rule that makes a term of this kind.
    fn maker(kind: u64) -> u32 {
        [6, 0, 4, 5, 6, 0, 0, 8][kind as usize]
    }
}

impl Choices for Wrong {
    fn part(&self, t: &Tables, _kind: u64, entry: usize) -> u64 {
        match fault() {
            "parts told apart by entry numbers without sum" if self.off(SUM) => entry as u64,
            "parts told apart by entry numbers without join" if self.off(JOIN) => entry as u64,
            _ => t.reps[entry].into(),
        }
    }

    fn public(&self, t: &Tables, i: usize) -> bool {
        match fault() {
            "no names unless every rule is on" => Right.public(t, i) && self.given == 255,
            "no names without any rule" => Right.public(t, i) && self.given != 0,
            "zero known at the start without sum" if self.off(SUM) => Right.public(t, i) || t.sets[i] == [0; 4],
            _ => Right.public(t, i),
        }
    }

    fn made(&self, t: &Tables, s: &State, i: usize, parts: [u8; 2]) -> bool {
        match fault() {
            "made of its first part alone without sum" if self.off(SUM) => has(&s.known, parts[0]),
            _ => Right.made(t, s, i, parts),
        }
    }

    fn on(&self, rule: u32) -> bool {
        let (name, on) = (NAMES[rule as usize], Limited(self.read).on(rule));
        match fault().split_once(' ') {
            Some((rule, "used though off")) if rule == name => true,
            Some((rule, "used only with every rule on")) if rule == name => self.given == 255,
            Some((rule, "used with one rule off")) if rule == name => on || self.given.count_ones() == 7,
            _ => on || fault() == "the work ends where the least step is off",
        }
    }

    fn head_of_sum(&self, i: usize, same: usize) -> usize {
        match fault() {
            "sums told apart without sum" if self.off(SUM) => i,
            "sums told apart without join" if self.off(JOIN) => i,
            "sums told apart without any rule" if self.given == 0 => i,
            _ => same,
        }
    }

    fn heard(&self, t: &Tables, i: usize) -> bool {
        let kind = |e: usize| t.keys[e] >> 32;
        match (fault(), Wrong::maker(kind(t.reps[i].into()))) {
            ("a message heard only where its rule is on", rule) if rule > 0 => self.on(rule),
            ("a sum heard only where sum is on", _) => kind(i) != 0 || !self.off(SUM),
            ("zero heard only where sum is on", _) => t.sets[i] != [0; 4] || !self.off(SUM),
            ("nothing heard without any rule", _) => self.given != 0,
            _ => true,
        }
    }

    fn summed(&self, t: &Tables, s: &State, i: usize) -> bool {
        let (zero, rule) = (t.sets[i] == [0; 4], Wrong::maker(t.keys[i] >> 32));
        let parts = [(t.keys[i] / 256 % 256) as u8, (t.keys[i] % 256) as u8];
        match fault() {
            "zero free without sum" => self.on(6) || zero,
            "zero free where a rule is on" => self.on(6) || zero && self.given != 0,
            "zero gained only where every rule is on" if zero => self.given == 255,
            "no sum of a pair, seal or lock whose own rule is off" if rule != 6 && rule != 0 => self.on(6) && self.on(rule),
            "no sum where a rule that is off would do" if rule != 6 && rule != 0 => self.on(6) && (self.on(rule) || !Right.made(t, s, i, parts)),
            _ => self.on(6),
        }
    }

    fn chosen(&self, least: u32) -> u32 {
        let off = least != NO_STEP && !Limited(self.read).on(least >> 8 & 255);
        if off && fault() == "the work ends where the least step is off" { NO_STEP } else { least }
    }

    fn order(&self, rule: u32, first: u8) -> (u32, u8) {
        let exchange = |a: u32, b: u32| (if rule == a { b } else if rule == b { a } else { rule }, first);
        match fault() {
            "sum before join when open is off" if self.off(OPEN) => exchange(4, 6),
            "unlock before sum when left is off" if self.off(LEFT) => exchange(6, 7),
            "lock before sum when right is off" if self.off(RIGHT) => exchange(6, 8),
            "right before left when sum is off" if self.off(SUM) => exchange(1, 2),
            "unlock before open when sum is off" if self.off(SUM) => exchange(3, 7),
            "the highest first source when sum is off" if self.off(SUM) && rule != 6 => (rule, 255 - first),
            _ => (rule, first),
        }
    }

    fn missing(&self, t: &Tables, s: &State, goal: usize, answer: u32) -> [Set; 2] {
        missing(self, t, s, goal, answer)
    }
}

// The used set and the remainder as a faulty library hands them back.
fn missing(c: &Wrong, t: &Tables, s: &State, goal: usize, answer: u32) -> [Set; 2] {
    let (own, (remainder, used)) = (t.sets[goal], s.reduce(&t.sets[goal]));
    let each = |keep: fn(u64, u64) -> u64| [0, 1, 2, 3].map(|w| keep(own[w], s.known[w]));
    match (answer / 1000, c.read & SUM == 0, fault()) {
        (1, true, "written at reached without sum") | (3, true, "written at stopped without sum") => [[0; 4], own],
        (1 | 3, ..) => [[0; 4]; 2],
        (_, true, "the remainder reduced without sum") => [[0; 4], remainder],
        (_, true, "the used set not empty without sum") => [used, own],
        (_, true, "used set and remainder as with sum") => [used, remainder],
        (_, true, "the remainder empty without sum") => [[0; 4]; 2],
        (_, true, "the goal's head for its own set") => [[0; 4], single(t.reps[goal])],
        (_, true, "the goal's number for its own set") => [[0; 4], single(goal as u8)],
        (_, true, "gained entries taken off the goal's own set") => [[0; 4], each(|own, known| own & !known)],
        (_, true, "gained entries of the goal's own set used") => [each(|own, known| own & known), each(|own, known| own & !known)],
        (_, false, "the goal's own set unless every rule is on") if c.given != 255 => [[0; 4], own],
        (_, false, "the goal's own set when left is off") if c.off(LEFT) => [[0; 4], own],
        (_, true, _) => [[0; 4], own],
        _ => [used, remainder],
    }
}

// ---- the whole call

// The rungs of an answer.
fn made(answer: u32) -> usize {
    answer as usize % 1000
}

fn rule_of(rung: &[u8]) -> u32 {
    u32::from(rung[3])
}

// The full verdict, and of its rungs those by rules that are switched on.
fn left_out(s: &[u8], cut: u32, budget: u32, rules: u8, out: &mut [u8]) -> u32 {
    let before = out.to_vec();
    let answer = simple::verdict(s, cut, budget, out);
    if answer < 1000 {
        return answer;
    }
    let rungs: Vec<Vec<u8>> = out[FRONT..].chunks(40).take(made(answer)).map(<[u8]>::to_vec).collect();
    let kept: Vec<u8> = rungs.iter().filter(|rung| Limited(rules).on(rule_of(rung))).flatten().copied().collect();
    out[FRONT..].copy_from_slice(&before[FRONT..]);
    out[FRONT..FRONT + kept.len()].copy_from_slice(&kept);
    answer / 1000 * 1000 + kept.len() as u32 / 40
}

// Out of reach without a rung wherever the full verdict's ladder has one by a rule that is switched off.
fn all_or_nothing(s: &[u8], cut: u32, budget: u32, rules: u8, out: &mut [u8]) -> u32 {
    let mut full = out.to_vec();
    let answer = simple::verdict(s, cut, budget, &mut full);
    if answer >= 1000 && full[FRONT..].chunks(40).take(made(answer)).any(|rung| !Limited(rules).on(rule_of(rung))) {
        return simple::limited(s, cut, budget, 0, out);
    }
    simple::limited(s, cut, budget, rules, out)
}

fn judged(s: &[u8], cut: u32, budget: u32, rules: u8, out: &mut [u8]) -> u32 {
    let wrong = Wrong { given: rules, read: other_switch(other_bits(rules)) };
    match fault() {
        "the full ladder with rungs left out" => left_out(s, cut, budget, rules, out),
        "out of reach where the full ladder needs a rule that is off" => all_or_nothing(s, cut, budget, rules, out),
        "a cut past the log let through" if simple::limited(s, cut, budget, rules, out) == 8 => simple::limited(s, 0, budget, rules, out),
        "budget 257 let through" if budget == 257 => simple::verdict_by(s, cut, 256, out, &wrong),
        "refusal 10 below 256 rungs" if out.len() < FRONT + 40 * 256 && simple::limited(s, cut, 0, rules, &mut out.to_vec()) >= 1000 => 10,
        _ => simple::verdict_by(s, cut, budget, out, &wrong),
    }
}

// The number of a library that refuses a setting, or takes another answer for it.
fn answered(rules: u8, budget: u32, answer: u32) -> u32 {
    match fault() {
        "setting 0 refused" if rules == 0 => 9,
        "setting 255 refused" if rules == 255 => 9,
        "setting 128 refused" if rules == 128 => 1,
        "a setting without sum refused" if rules & SUM == 0 => 9,
        "refusals in setting 0 only the first" if rules == 0 && answer < 1000 => 1,
        "an invented count in a setting" if answer >= 1000 && rules != 255 => answer + 1,
        "reached for out of reach in setting 0" if rules == 0 && answer / 1000 == 2 => answer - 1000,
        "out of reach for reached without sum" if rules & SUM == 0 && answer / 1000 == 1 => answer + 1000,
        "stopped where the budget is used up" if answer == 2000 + budget && rules != 255 => answer + 1000,
        "out of reach for stopped in a setting" if answer / 1000 == 3 && rules != 255 => answer - 1000,
        _ => answer,
    }
}

// The bytes as a library with a faulty writer would leave them, after a call that isn't refused.
fn write(rules: u8, out: &mut [u8], answer: u32) {
    let end = FRONT + 40 * made(answer);
    match fault() {
        "later bytes cleared in a setting" if rules != 255 => out[end..].fill(0),
        "a rung's switch for its rule" if rules != 255 => out[FRONT..end].chunks_mut(40).for_each(|rung| rung[3] = 1 << (rung[3] - 1)),
        "rules counted among those switched on" => {
            let place = |rule: u8| (0..rule).map(|k| rules >> k & 1).sum();
            out[FRONT..end].chunks_mut(40).for_each(|rung| rung[3] = place(rung[3]));
        }
        "the setting in the first byte of later ones" if end < out.len() => out[end] = rules,
        _ => {}
    }
}

pub fn verdict(s: &[u8], cut: u32, budget: u32, rules: u8, out: &mut [u8]) -> u32 {
    let before = out.to_vec();
    let answer = judged(s, cut, budget, rules, out);
    if answer >= 1000 {
        write(rules, out, answer);
    }
    let told = answered(rules, budget, answer);
    if told < 1000 {
        out.copy_from_slice(&before);
    }
    if answer < 1000 && fault() == "a refused call clears the buffer in setting 0" && rules == 0 {
        out.fill(0);
    }
    told
}
