// Documents 01 and 02 read a second time, word by word: terms as nested sets, sums over all subsets, the whole answer and buffer of a call, the replay
// of a ladder. It shares no code with the library.

use super::sheets::{refusal, FRONT};
use std::collections::{BTreeMap, BTreeSet};
use std::rc::Rc;

// ---- terms: a set of pieces is their sum

#[derive(Clone, PartialEq, Eq, PartialOrd, Ord, Debug)]
pub enum Piece {
    Atom(u32),
    Pair(Term, Term),
    Seal(Term, Term),
    Half(Half),
    Lock(Term, Half),
}

// Document 02, E6: "the private half" or "the public half of the key pair with the 2-byte number that follows".
#[derive(Clone, Copy, PartialEq, Eq, PartialOrd, Ord, Debug)]
pub struct Half {
    pub public: bool,
    pub pair: u32,
}

impl Half {
    // The other half of the same key pair.
    pub fn opposite(self) -> Half {
        Half { public: !self.public, pair: self.pair }
    }

    pub fn term(self) -> Term {
        one(Piece::Half(self))
    }
}

pub type Term = Rc<BTreeSet<Piece>>;

pub fn one(p: Piece) -> Term {
    Rc::new(BTreeSet::from([p]))
}

pub fn add(a: &Term, b: &Term) -> Term {
    Rc::new(a.symmetric_difference(b).cloned().collect())
}

pub fn single(t: &Term) -> Option<&Piece> {
    if t.len() == 1 {
        t.iter().next()
    } else {
        None
    }
}

pub fn size(t: &Term) -> usize {
    t.iter()
        .map(|p| match p {
            Piece::Atom(_) | Piece::Half(_) => 1,
            Piece::Pair(a, b) | Piece::Seal(a, b) => 1 + size(a) + size(b),
            Piece::Lock(m, _) => 2 + size(m),
        })
        .sum()
}

// ---- a sheet read back from its bytes

pub struct Sheet {
    pub kinds: Vec<u8>,
    pub terms: Vec<Term>,
    // the atoms 0 to 255 on the sheet, in rising entry order
    pub label: Vec<usize>,
    pub heard: Vec<usize>,
    pub goal: usize,
}

// The number of an atom (document 02, E10) or of a half's key pair (E6): all bytes that the record has after its kind, "high byte first".
fn own_number(record: &[u8]) -> u32 {
    record[1..].iter().fold(0, |number, byte| number * 256 + u32::from(*byte))
}

// E6: "Kind 5 is the private half and kind 6 the public half".
fn half(record: &[u8]) -> Half {
    assert!(matches!(record[0], 5 | 6), "a half of another kind");
    Half { public: record[0] == 6, pair: own_number(record) }
}

pub fn read(s: &[u8]) -> Sheet {
    let number = |i: usize| (s[i] as usize) * 256 + s[i + 1] as usize;
    let (n, h, goal) = (number(4), number(6), number(8));
    let record = |i: usize| &s[number(10 + 4 * i)..number(10 + 4 * i) + number(12 + 4 * i)];
    let mut terms: Vec<Term> = Vec::new();
    for i in 0..n {
        let (at, len) = (number(10 + 4 * i), number(12 + 4 * i));
        let t = |p: usize| terms[number(p)].clone();
        let new = match s[at] {
            0 => Rc::new(BTreeSet::new()),
            1 => one(Piece::Atom(own_number(record(i)))),
            2 => one(Piece::Pair(t(at + 1), t(at + 3))),
            3 => one(Piece::Seal(t(at + 1), t(at + 3))),
            5 | 6 => half(record(i)).term(),
            7 => one(Piece::Lock(t(at + 1), half(record(number(at + 3))))), // "message entry, then key entry"
            _ => (at + 1..at + len).step_by(2).fold(Rc::new(BTreeSet::new()), |sum, p| add(&sum, &t(p))),
        };
        terms.push(new);
    }
    let kinds = (0..n).map(|i| record(i)[0]).collect();
    let label = (0..n).filter(|&i| record(i)[0] == 1 && own_number(record(i)) <= 255).collect();
    Sheet { kinds, terms, label, heard: (0..h).map(|k| number(10 + 4 * n + 2 * k)).collect(), goal }
}

// ---- document 02, E11: the setting

// "A byte of eight switches, the lowest bit for rule 1, says which rules the stranger has."
#[derive(Clone, Copy, Debug, PartialEq)]
pub struct Setting(pub u8);

// "all other calls have every rule on"
pub const EVERY_RULE: Setting = Setting(255);

const SUM: usize = 6;

impl Setting {
    pub fn has(self, rule: usize) -> bool {
        matches!(rule, 1..=8) && usize::from(self.0) / 2usize.pow(rule as u32 - 1) % 2 == 1
    }

    pub fn has_sum(self) -> bool {
        self.has(SUM)
    }
}

// ---- document 01, "Rungs", word by word

#[derive(Clone, Debug, PartialEq)]
pub struct Rung {
    pub head: usize,
    pub rule: usize,
    pub first: usize,
    pub second: usize,
    pub set: Set,
}

pub struct Work {
    pub setting: Setting,
    pub heads: Vec<usize>,  // each entry's head
    pub gained: Vec<usize>, // gained heads, in order
    pub drawn: Vec<usize>,  // those that were not, when gained, a sum of those gained earlier
}

fn sum_of<'a>(sheet: &Sheet, set: impl IntoIterator<Item = &'a usize>) -> Term {
    set.into_iter().fold(Rc::new(BTreeSet::new()), |t, &i| add(&t, &sheet.terms[i]))
}

// The one set of `from` whose sum is t, found by trying them all.
fn subset(sheet: &Sheet, from: &[usize], t: &Term) -> Option<Set> {
    assert!(from.len() <= 12);
    let mut found = None;
    for bits in 0u32..1 << from.len() {
        let set: Vec<usize> = (0..from.len()).filter(|b| bits >> b & 1 == 1).map(|b| from[b]).collect();
        if sum_of(sheet, &set) == *t {
            assert!(found.is_none(), "two sets of drawn terms with one sum");
            found = Some(set.into_iter().collect());
        }
    }
    found
}

impl Work {
    fn gain(&mut self, sheet: &Sheet, head: usize) {
        if self.gained.contains(&head) {
            return;
        }
        if subset(sheet, &self.drawn, &sheet.terms[head]).is_none() {
            self.drawn.push(head);
        }
        self.gained.push(head);
    }

    // Each way in which head follows by one rule other than sum, switched on or off: the rule and its sources.
    fn ways(&self, sheet: &Sheet, head: usize) -> Vec<(usize, usize, usize)> {
        let t = &sheet.terms[head];
        let gained = |u: &Term| self.gained.iter().copied().find(|&i| sheet.terms[i] == *u);
        let mut ways = vec![];
        let mut way = |rule, first: Option<usize>, second: Option<usize>| {
            if let (Some(first), Some(second)) = (first, second) {
                ways.push((rule, first, second));
            }
        };
        for &i in &self.gained {
            match single(&sheet.terms[i]) {
                Some(Piece::Pair(l, r)) => {
                    way(1, (l == t).then_some(i), Some(65535));
                    way(2, (r == t).then_some(i), Some(65535));
                }
                Some(Piece::Seal(m, k)) if m == t => way(3, Some(i), gained(k)),
                Some(Piece::Lock(m, k)) if m == t => way(7, Some(i), gained(&k.opposite().term())),
                _ => {}
            }
        }
        match single(t) {
            Some(Piece::Pair(l, r)) => way(4, gained(l), gained(r)),
            Some(Piece::Seal(m, k)) => way(5, gained(m), gained(k)),
            Some(Piece::Lock(m, k)) => way(8, gained(m), gained(&k.term())),
            _ => {}
        }
        ways
    }

    // How head follows by sum, where the stranger has it.
    fn by_sum(&self, sheet: &Sheet, head: usize) -> Option<Rung> {
        let set = if self.setting.has_sum() { subset(sheet, &self.drawn, &sheet.terms[head]) } else { None };
        set.map(|set| Rung { head, rule: SUM, first: 65535, second: 65535, set })
    }

    // How head follows by one rule that the stranger has: "The lowest rule number is used, then the lowest first source."
    fn follows(&self, sheet: &Sheet, head: usize) -> Option<Rung> {
        let ways = self.ways(sheet, head).into_iter().filter(|(rule, ..)| self.setting.has(*rule));
        let least = ways.min().map(|(rule, first, second)| Rung { head, rule, first, second, set: Set::new() });
        match least {
            Some(rung) if rung.rule < SUM => Some(rung),
            _ => self.by_sum(sheet, head).or(least),
        }
    }

    fn next(&self, sheet: &Sheet) -> Option<Rung> {
        (0..sheet.terms.len())
            .filter(|&h| self.heads[h] == h && !self.gained.contains(&h))
            .find_map(|h| self.follows(sheet, h))
    }
}

pub enum Answer {
    Reached,
    OutOfReach,
    Stopped,
}

// What is gained at the start (document 02, E2): "Every such atom on the sheet .. in rising entry order, ahead of the heard messages and also at cut 0".
pub fn start(sheet: &Sheet, cut: usize) -> Vec<usize> {
    sheet.label.iter().chain(&sheet.heard[..cut]).copied().collect()
}

// Each entry's head: "the lowest-numbered entry that is the same term".
pub fn heads(sheet: &Sheet) -> Vec<usize> {
    (0..sheet.terms.len()).map(|i| (0..=i).find(|&j| sheet.terms[j] == sheet.terms[i]).unwrap()).collect()
}

pub fn work(sheet: &Sheet, cut: usize, budget: usize) -> (Answer, Vec<Rung>, Work) {
    work_with(EVERY_RULE, sheet, cut, budget)
}

// The start, the heads and the sameness are one for all settings: E11, "Sameness keeps the four laws in each setting."
pub fn work_with(setting: Setting, sheet: &Sheet, cut: usize, budget: usize) -> (Answer, Vec<Rung>, Work) {
    let mut w = Work { setting, heads: heads(sheet), gained: vec![], drawn: vec![] };
    for i in start(sheet, cut) {
        let head = w.heads[i];
        w.gain(sheet, head);
    }
    let goal = w.heads[sheet.goal];
    let mut rungs = vec![];
    loop {
        if w.gained.contains(&goal) {
            return (Answer::Reached, rungs, w);
        }
        let rung = match w.next(sheet) {
            Some(rung) => rung,
            None => return (Answer::OutOfReach, rungs, w),
        };
        if rungs.len() == budget {
            return (Answer::Stopped, rungs, w);
        }
        w.gain(sheet, rung.head);
        rungs.push(rung);
    }
}

// ---- document 02, E5, word by word

pub type Set = BTreeSet<usize>;

// "A standard entry is a head of kind 1, 2 or 3" (document 01), and kinds 5, 6 and 7: "All three are standard" (document 02, E6).
pub fn is_standard(sheet: &Sheet, heads: &[usize], i: usize) -> bool {
    heads[i] == i && matches!(sheet.kinds[i], 1 | 2 | 3 | 5 | 6 | 7)
}

// The standard entries, each by its term's one piece.
pub fn standard<'a>(sheet: &'a Sheet, heads: &[usize]) -> BTreeMap<&'a Piece, usize> {
    let standard = (0..heads.len()).filter(|&i| is_standard(sheet, heads, i));
    standard.map(|i| (single(&sheet.terms[i]).expect("a standard entry's term is one piece"), i)).collect()
}

// The set of standard entries whose sum this term is: "Every entry's term is the sum of exactly one set of standard entries, possibly none".
pub fn standard_set(standard: &BTreeMap<&Piece, usize>, t: &Term) -> Set {
    t.iter().map(|p| standard[p]).collect()
}

// Every set of these entries, and the sum of its terms.
pub fn all_sums(sheet: &Sheet, from: &[usize]) -> Vec<(Set, Term)> {
    assert!(from.len() <= 12);
    let mut all = vec![(Set::new(), Rc::new(BTreeSet::new()))];
    for &e in from {
        let with: Vec<(Set, Term)> = all.iter().map(|(set, sum)| (set | &Set::from([e]), add(sum, &sheet.terms[e]))).collect();
        all.extend(with);
    }
    all
}

// Each "standard entry that is the highest-numbered one in some sum of gained terms". A term that is added twice falls out of a sum, so all sums are
// those over the sets of gained terms.
pub fn highest(sheet: &Sheet, w: &Work) -> Set {
    let standard = standard(sheet, &w.heads);
    all_sums(sheet, &w.gained).iter().filter_map(|(_, sum)| standard_set(&standard, sum).last().copied()).collect()
}

// The used set and the remainder: "used terms and remainder sum to the goal. The remainder holds no standard entry that is the highest-numbered one in
// some sum of gained terms, which makes it unique. The used set draws on the same gained terms as a sum rung." Each used set is tried. What is then left
// of the goal is the sum of one set of standard entries, so no other can be the remainder.
//
// E11, without sum: "the used set is then empty and the remainder is the goal's own set".
pub fn missing_part(sheet: &Sheet, w: &Work) -> (Set, Set) {
    let standard = standard(sheet, &w.heads);
    if !w.setting.has_sum() {
        return (Set::new(), standard_set(&standard, &sheet.terms[sheet.goal]));
    }
    let highest = highest(sheet, w);
    let mut found = all_sums(sheet, &w.drawn).into_iter().filter_map(|(used, sum)| {
        let remainder = standard_set(&standard, &add(&sheet.terms[sheet.goal], &sum));
        remainder.is_disjoint(&highest).then_some((used, remainder))
    });
    let pair = found.next().expect("no used set with a remainder");
    assert!(found.next().is_none(), "two used sets with a remainder");
    assert!(!pair.1.is_empty(), "a goal out of reach that is a sum of gained terms");
    pair
}

// ---- a call's number and buffer

pub fn set_bytes(set: impl IntoIterator<Item = usize>) -> [u8; 32] {
    let mut b = [0u8; 32];
    for e in set {
        b[e / 8] |= 1 << (e % 8);
    }
    b
}

// "gained head, rule, first source, second source (2 bytes each) and a 32-byte set of summed sources"
pub fn rung_bytes(rung: &Rung) -> Vec<u8> {
    let numbers = [rung.head, rung.rule, rung.first, rung.second].map(|n| (n as u16).to_be_bytes()).concat();
    [&numbers[..], &set_bytes(rung.set.iter().copied())].concat()
}

// The members of a set's 32 bytes.
pub fn members(bytes: &[u8]) -> Set {
    (0..256).filter(|e| bytes[e / 8] >> (e % 8) & 1 == 1).collect()
}

// "a quick entry point of at most 64 rungs beside the full one of 256" (document 02, E7)
pub const FULL: u32 = 256;
pub const QUICK: u32 = 64;

// The refusal of a call with this limit and a buffer of this length, or 0.
pub fn refused(limit: u32, s: &[u8], cut: u32, budget: u32, length: usize) -> u32 {
    match refusal(s) {
        0 if cut > u32::from(s[6]) * 256 + u32::from(s[7]) => 8,
        0 if budget > limit => 9,
        0 if length < FRONT + 40 * budget as usize => 10,
        refused => refused,
    }
}

// The number and the buffer that the documents ask for of a call with this limit.
pub fn expected(limit: u32, s: &[u8], cut: u32, budget: u32, buffer: &[u8]) -> (u32, Vec<u8>) {
    match refused(limit, s, cut, budget, buffer.len()) {
        0 => judged(EVERY_RULE, &read(s), cut as usize, budget as usize, buffer),
        refused => (refused, buffer.to_vec()),
    }
}

// The same of a call that isn't refused, in a setting.
pub fn judged(setting: Setting, sheet: &Sheet, cut: usize, budget: usize, buffer: &[u8]) -> (u32, Vec<u8>) {
    let (answer, rungs, w) = work_with(setting, sheet, cut, budget);
    // E5: "They are zero for the other verdicts."
    let (used, remainder) = if let Answer::OutOfReach = answer { missing_part(sheet, &w) } else { (Set::new(), Set::new()) };
    let mut after = [set_bytes(w.gained.iter().copied()), set_bytes(used), set_bytes(remainder)].concat();
    rungs.iter().for_each(|rung| after.extend(rung_bytes(rung)));
    after.extend(&buffer[after.len()..]);
    let code = match answer {
        Answer::Reached => 1000,
        Answer::OutOfReach => 2000,
        Answer::Stopped => 3000,
    };
    (code + rungs.len() as u32, after)
}

// ---- document 01, "Ladders and their replay", with the cases of document 02, E6, and E11's "a ladder returned uses no other"

// Is each rung's rule switched on?
pub fn uses_only(setting: Setting, rungs: &[u8]) -> bool {
    rungs.chunks(40).all(|rung| setting.has(usize::from(rung[2]) * 256 + usize::from(rung[3])))
}

// Is this rung of 40 bytes right in this state?
fn right(sheet: &Sheet, state: &[Term], rung: &[u8]) -> bool {
    let [head, rule, first, second] = [0, 2, 4, 6].map(|at| usize::from(rung[at]) * 256 + usize::from(rung[at + 1]));
    let set = members(&rung[8..40]);
    // "unused fields hold their fixed values"; "a rule number without a case is wrong"
    let (used, fixed) = match rule {
        1 | 2 => (vec![first], second == 65535 && set.is_empty()),
        3 | 4 | 5 | 7 | 8 => (vec![first, second], set.is_empty()),
        6 => (set.iter().copied().collect(), first == 65535 && second == 65535),
        _ => return false,
    };
    // "its gained head, used sources and summed entries are below n, each used source and summed entry is in the state"
    let in_state = |&e: &usize| e < sheet.terms.len() && state.contains(&sheet.terms[e]);
    fixed && head < sheet.terms.len() && used.iter().all(in_state) && case(sheet, rule, head, &used)
}

// The case of the rule, with entries that are all there.
fn case(sheet: &Sheet, rule: usize, head: usize, used: &[usize]) -> bool {
    let gained = &sheet.terms[head];
    let source = |k: usize| &sheet.terms[used[k]];
    match rule {
        1 => matches!(single(source(0)), Some(Piece::Pair(l, _)) if l == gained),
        2 => matches!(single(source(0)), Some(Piece::Pair(_, r)) if r == gained),
        3 => matches!(single(source(0)), Some(Piece::Seal(m, k)) if k == source(1) && m == gained),
        4 => matches!(single(gained), Some(Piece::Pair(l, r)) if l == source(0) && r == source(1)),
        5 => matches!(single(gained), Some(Piece::Seal(m, k)) if m == source(0) && k == source(1)),
        6 => *gained == sum_of(sheet, used),
        // "the first source is a lock, the second the opposite half of its key, the gained head its message"
        7 => matches!(single(source(0)), Some(Piece::Lock(m, k)) if k.opposite().term() == *source(1) && m == gained),
        // "the gained head is the lock of the first under the second"
        _ => matches!(single(gained), Some(Piece::Lock(m, k)) if m == source(0) && k.term() == *source(1)),
    }
}

// The state at the end, or the number of the first wrong rung, which ends the replay. "The goal is gained when its term is in the state at the end."
pub fn replay(sheet: &Sheet, cut: usize, rungs: &[u8]) -> Result<Vec<Term>, usize> {
    let mut state: Vec<Term> = start(sheet, cut).iter().map(|&i| sheet.terms[i].clone()).collect();
    for (number, rung) in rungs.chunks(40).enumerate() {
        if !right(sheet, &state, rung) {
            return Err(number);
        }
        state.push(sheet.terms[usize::from(rung[0]) * 256 + usize::from(rung[1])].clone());
    }
    Ok(state)
}
