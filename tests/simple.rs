// The verdict in plain Rust as one writes it first: tables of keys, sets, representatives and openers, each found by going through the entries, a basis with
// kept remainders, and a least number over all steps that follow, gone through anew for each step. The tests compare the library with it, and the
// benchmark measures it. A term is heard in one of two forms: the state is lent, or it is taken by value and handed back. `Choices` are the places in which
// the libraries that are wrong on purpose choose otherwise; the right one makes none of its own.

#![allow(dead_code)] // the tests use one form, the benchmark the other

use super::sheets::FRONT;

pub const NO_STEP: u32 = 1 << 24;

pub type Set = [u64; 4];

pub fn has(s: &Set, e: u8) -> bool {
    s[(e / 64) as usize] >> (e % 64) & 1 == 1
}

pub fn add(a: &Set, b: &Set) -> Set {
    [a[0] ^ b[0], a[1] ^ b[1], a[2] ^ b[2], a[3] ^ b[3]]
}

pub fn single(e: u8) -> Set {
    let mut s = [0; 4];
    s[(e / 64) as usize] = 1 << (e % 64);
    s
}

pub fn leading(s: &Set) -> u8 {
    for w in (0..4).rev() {
        if s[w] != 0 {
            return (64 * w as u32 + 63 - s[w].leading_zeros()) as u8;
        }
    }
    0
}

pub struct Tables {
    n: usize,
    pub keys: [u64; 256], // the kind above 32 bits, and below them a number or two representatives; 0 for zero and sums
    pub sets: [Set; 256],
    pub reps: [u8; 256],
    pub openers: [u16; 256], // for a lock the representative of the half that opens it, or 256
}

// What a library chooses, rule by rule. These are the right choices.
pub trait Choices {
    // The kind by which terms are told apart.
    fn kind(&self, kind: u64) -> u64 {
        kind
    }
    // What stands in a key for a part of a pair, a seal or a lock.
    fn part(&self, t: &Tables, _kind: u64, entry: usize) -> u64 {
        t.reps[entry] as u64
    }
    // The entry that opens this lock, given the entry of the opposite half or 256.
    fn opener(&self, _t: &Tables, _lock: usize, opposite: u16) -> u16 {
        opposite
    }
    // Is this entry known at the start without being heard?
    fn public(&self, t: &Tables, i: usize) -> bool {
        t.keys[i] >> 8 == 1 << 24
    }
    // Can a pair, a seal or a lock be made of its two parts?
    fn made(&self, _t: &Tables, s: &State, _i: usize, [first, second]: [u8; 2]) -> bool {
        has(&s.known, first) && has(&s.known, second)
    }
    // Has the stranger this rule?
    fn on(&self, _rule: u32) -> bool {
        true
    }
    // The head of a sum, given the lowest entry that is the same term.
    fn head_of_sum(&self, _i: usize, same: usize) -> usize {
        same
    }
    // Is this heard message gained at the start?
    fn heard(&self, _t: &Tables, _i: usize) -> bool {
        true
    }
    // Is this entry, a sum of gained terms or zero, gained by sum?
    fn summed(&self, _t: &Tables, _s: &State, _i: usize) -> bool {
        self.on(6)
    }
    // The step that is made, given the least number over all that follow.
    fn chosen(&self, least: u32) -> u32 {
        least
    }
    // The place of a rule and a first source in the order of the steps to one entry. Done twice, it changes nothing.
    fn order(&self, rule: u32, first: u8) -> (u32, u8) {
        (rule, first)
    }
    // The used set and the remainder of the goal at this answer.
    fn missing(&self, t: &Tables, s: &State, goal: usize, answer: u32) -> [Set; 2] {
        if answer / 1000 != 2 {
            return [[0; 4]; 2];
        }
        if !self.on(6) {
            return [[0; 4], t.sets[goal]];
        }
        let (remainder, used) = s.reduce(&t.sets[goal]);
        [used, remainder]
    }
}

pub struct Right;

impl Choices for Right {}

// The right choices by the rules that are switched on: the lowest bit for rule 1.
pub struct Limited(pub u8);

impl Choices for Limited {
    fn on(&self, rule: u32) -> bool {
        self.0 >> (rule - 1) & 1 == 1
    }
}

fn tables(s: &[u8], c: &impl Choices) -> Tables {
    let number = |i: usize| (s[i] as usize) * 256 + s[i + 1] as usize;
    let n = number(4);
    let mut t = Tables { n, keys: [0; 256], sets: [[0; 4]; 256], reps: [0; 256], openers: [256; 256] };
    for i in 0..n {
        let (at, len) = (number(10 + 4 * i), number(12 + 4 * i));
        let kind = s[at] as u64;
        let tag = c.kind(kind) << 32;
        let key = match kind {
            1 if len == 5 => tag + (number(at + 1) as u64) * 65536 + number(at + 3) as u64,
            1 | 5 | 6 => tag + number(at + 1) as u64,
            2 | 3 | 7 => tag + c.part(&t, kind, number(at + 1)) * 256 + c.part(&t, kind, number(at + 3)),
            _ => 0,
        };
        let (set, rep) = if key == 0 {
            let mut set = [0; 4];
            for p in (at + 1..at + len).step_by(2) {
                set = add(&set, &t.sets[number(p)]);
            }
            (set, c.head_of_sum(i, (0..i).find(|&j| t.sets[j] == set).unwrap_or(i)))
        } else {
            match (0..i).find(|&j| t.keys[j] == key) {
                Some(j) => (t.sets[j], j),
                None => (single(i as u8), i),
            }
        };
        t.keys[i] = key;
        t.sets[i] = set;
        t.reps[i] = rep as u8;
    }
    find_openers(&mut t, c);
    t
}

// The opposite half of a lock's key has the kind 6 where the key has 5, and 5 where it has 6, and the same number. It may stand above the lock.
fn find_openers(t: &mut Tables, c: &impl Choices) {
    for i in 0..t.n {
        if t.keys[i] >> 32 == 7 {
            let half = t.keys[(t.keys[i] % 256) as usize];
            let opposite = ((11 - (half >> 32)) << 32) + half % (1 << 32);
            let found = (0..t.n).find(|&j| t.keys[j] == opposite).unwrap_or(256) as u16;
            t.openers[i] = c.opener(t, i, found);
        }
    }
}

// What is known, with its basis.
pub struct State {
    pub known: Set,
    pub vectors: [Set; 256],
    pub uses: [Set; 256],
    pub len: usize,
}

impl State {
    fn new() -> State {
        State { known: [0; 4], vectors: [[0; 4]; 256], uses: [[0; 4]; 256], len: 0 }
    }

    // What is left of the set when the rows are taken off it, and the gained terms used for that.
    pub fn reduce(&self, set: &Set) -> (Set, Set) {
        let (mut v, mut used) = (*set, [0; 4]);
        for i in 0..self.len {
            if has(&v, leading(&self.vectors[i])) {
                v = add(&v, &self.vectors[i]);
                used = add(&used, &self.uses[i]);
            }
        }
        (v, used)
    }

    fn learn(&mut self, e: u8, set: &Set) {
        if has(&self.known, e) {
            return;
        }
        self.known = add(&self.known, &single(e));
        let (v, used) = self.reduce(set);
        if v == [0; 4] {
            return;
        }
        self.vectors[self.len] = v;
        self.uses[self.len] = add(&used, &single(e));
        self.len += 1;
    }

    fn hear(mut self, e: u8, set: &Set) -> State {
        self.learn(e, set);
        self
    }

    // Takes a row that was added since off the remainders.
    fn sweep_added(&self, before: usize, remainders: &mut [Set]) {
        if self.len == before {
            return;
        }
        let v = self.vectors[before];
        let pivot = leading(&v);
        for r in remainders {
            if has(r, pivot) {
                *r = add(r, &v);
            }
        }
    }
}

fn next(t: &Tables, s: &State, remainders: &[Set; 256], c: &impl Choices) -> u32 {
    let number = |head: u8, rule: u32, first: u8| {
        let (rule, first) = c.order(rule, first);
        (head as u32) * 65536 + rule * 256 + first as u32
    };
    let mut best = NO_STEP;
    for i in 0..t.n {
        if t.reps[i] as usize != i {
            continue;
        }
        let (key, e) = (t.keys[i], i as u8);
        let (kind, l, r) = (key >> 32, (key / 256 % 256) as u8, (key % 256) as u8);
        let offer = |h: u8, rule: u32| if has(&s.known, h) || !c.on(rule) { NO_STEP } else { number(h, rule, e) };
        let x = if has(&s.known, e) {
            match kind {
                2 => offer(l, 1).min(offer(r, 2)),
                3 if has(&s.known, r) => offer(l, 3),
                7 if t.openers[i] < 256 && has(&s.known, t.openers[i] as u8) => offer(l, 7),
                _ => NO_STEP,
            }
        } else {
            let rule = [0, 0, 4, 5, 0, 0, 0, 8][kind as usize];
            let made = if rule != 0 && c.on(rule) && c.made(t, s, i, [l, r]) { number(e, rule, l) } else { NO_STEP };
            if remainders[i] == [0; 4] && c.summed(t, s, i) { made.min(number(e, 6, 0)) } else { made }
        };
        best = best.min(x);
    }
    best
}

fn put_set(out: &mut [u8], set: &Set) {
    for (w, chunk) in set.iter().zip(out.chunks_exact_mut(8)) {
        chunk.copy_from_slice(&w.to_le_bytes());
    }
}

fn put_rung(out: &mut [u8], t: &Tables, s: &State, x: u32, c: &impl Choices) {
    let head = (x >> 16) as u8;
    let (rule, first) = c.order(x >> 8 & 255, x as u8);
    let (first, second, set) = match rule {
        1 | 2 => (first as u16, 65535, [0; 4]),
        3 => (first as u16, (t.keys[first as usize] % 256) as u16, [0; 4]),
        4 | 5 | 8 => (first as u16, (t.keys[head as usize] % 256) as u16, [0; 4]),
        7 => (first as u16, t.openers[first as usize], [0; 4]),
        _ => (65535, 65535, s.reduce(&t.sets[head as usize]).1),
    };
    for (i, n) in [head as u16, rule as u16, first, second].iter().enumerate() {
        out[2 * i..2 * i + 2].copy_from_slice(&n.to_be_bytes());
    }
    put_set(&mut out[8..40], &set);
}

// The run from a state: the verdict's thousand and the number of rungs.
fn run(t: &Tables, s: &mut State, remainders: &mut [Set; 256], goal: u8, budget: u32, out: &mut [u8], c: &impl Choices) -> u32 {
    let mut made = 0;
    loop {
        if has(&s.known, goal) {
            return 1000 + made;
        }
        let x = c.chosen(next(t, s, remainders, c));
        if x == NO_STEP {
            return 2000 + made;
        }
        if made == budget {
            return 3000 + made;
        }
        put_rung(&mut out[FRONT + 40 * made as usize..], t, s, x, c);
        let (before, head) = (s.len, (x >> 16) as u8);
        s.learn(head, &t.sets[head as usize]);
        s.sweep_added(before, &mut remainders[..t.n]);
        made += 1;
    }
}

fn judge<const BY_VALUE: bool>(sheet: &[u8], cut: u32, budget: u32, out: &mut [u8], c: &impl Choices) -> u32 {
    let refused = super::sheets::refusal(sheet);
    if refused != 0 {
        return refused;
    }
    let at = |i: usize| (sheet[i] as usize) * 256 + sheet[i + 1] as usize;
    if cut as usize > at(6) {
        return 8;
    }
    if budget > 256 {
        return 9;
    }
    if out.len() < FRONT + 40 * budget as usize {
        return 10;
    }
    let t = tables(sheet, c);
    let (mut s, mut remainders) = (State::new(), t.sets);
    let public = (0..t.n).filter(|&i| t.reps[i] as usize == i && c.public(&t, i));
    let heard = (0..cut as usize).map(|k| at(10 + 4 * t.n + 2 * k)).filter(|&i| c.heard(&t, i));
    for i in public.chain(heard) {
        let (before, e) = (s.len, t.reps[i]);
        if has(&s.known, e) {
            continue;
        }
        if BY_VALUE {
            s = s.hear(e, &t.sets[e as usize]);
        } else {
            s.learn(e, &t.sets[e as usize]);
        }
        s.sweep_added(before, &mut remainders[..t.n]);
    }
    let answer = run(&t, &mut s, &mut remainders, t.reps[at(8)], budget, out, c);
    let [used, remainder] = c.missing(&t, &s, at(8), answer);
    for (set, place) in [s.known, used, remainder].iter().zip(out[..FRONT].chunks_exact_mut(32)) {
        put_set(place, set);
    }
    answer
}

// The state is lent to each term heard.
pub fn verdict(sheet: &[u8], cut: u32, budget: u32, out: &mut [u8]) -> u32 {
    judge::<false>(sheet, cut, budget, out, &Right)
}

// The same by other choices.
pub fn verdict_by(sheet: &[u8], cut: u32, budget: u32, out: &mut [u8], choices: &impl Choices) -> u32 {
    judge::<false>(sheet, cut, budget, out, choices)
}

// The verdict with a setting.
pub fn limited(sheet: &[u8], cut: u32, budget: u32, rules: u8, out: &mut [u8]) -> u32 {
    judge::<false>(sheet, cut, budget, out, &Limited(rules))
}

// The state is taken by each term heard, and handed back.
pub fn verdict_by_value(sheet: &[u8], cut: u32, budget: u32, out: &mut [u8]) -> u32 {
    judge::<true>(sheet, cut, budget, out, &Right)
}
