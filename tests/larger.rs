// What the documents say of a call's answer and bytes, checked of a sheet on which sums can't be tried one by one: by the reading's terms where one sum is
// meant, by ranks where every sum is. The rungs replay, nothing follows where the goal is out of reach, and used set and remainder are those of document
// 02, E5, all by the rules that the setting of E11 has. It shares no code with the library.

use super::reading::{add, heads, is_standard, members, read, replay, single, standard, standard_set, start, uses_only, Piece, Set, Setting, Sheet, Term};
use super::sheets::FRONT;
use std::collections::BTreeSet;
use std::rc::Rc;

type Bits = [u128; 2];

fn bits<'a>(set: impl IntoIterator<Item = &'a usize>) -> Bits {
    let mut b = [0; 2];
    set.into_iter().for_each(|e| b[e / 128] |= 1 << (e % 128));
    b
}

fn lowest(b: &Bits) -> Option<u32> {
    (0..2).find(|&w| b[w] != 0).map(|w| 128 * w as u32 + b[w].trailing_zeros())
}

// What is left of the set when rows are taken off by their lowest members.
fn rest(rows: &[Option<Bits>], set: &Bits) -> Bits {
    let mut rest = *set;
    while let Some(row) = lowest(&rest).and_then(|low| rows[low as usize]) {
        rest = [rest[0] ^ row[0], rest[1] ^ row[1]];
    }
    rest
}

// The sets with each that is a sum of those before it left out, as rows by their lowest members.
fn rows(sets: &[Bits]) -> Vec<Option<Bits>> {
    let mut rows: Vec<Option<Bits>> = vec![None; 256];
    for set in sets {
        let rest = rest(&rows, set);
        if let Some(low) = lowest(&rest) {
            rows[low as usize] = Some(rest);
        }
    }
    rows
}

fn rank(sets: &[Bits]) -> usize {
    rows(sets).iter().flatten().count()
}

// A sheet on which sums can't be tried one by one, with each entry's set of standard entries.
pub struct Larger {
    sheet: Sheet,
    heads: Vec<usize>,
    sets: Vec<Set>,
}

impl Larger {
    pub fn new(s: &[u8]) -> Larger {
        let sheet = read(s);
        let heads = heads(&sheet);
        let standard = standard(&sheet, &heads);
        let sets = sheet.terms.iter().map(|t| standard_set(&standard, t)).collect();
        Larger { heads, sets, sheet }
    }

    // The gained heads in their order: the start, then each rung's head.
    fn gained(&self, cut: usize, rungs: &[u8], made: usize) -> Vec<usize> {
        let climbed = rungs.chunks_exact(40).take(made).map(|rung| usize::from(u16::from_be_bytes([rung[0], rung[1]])));
        start(&self.sheet, cut).into_iter().map(|e| self.heads[e]).chain(climbed).collect()
    }

    // Is this the highest-numbered entry in some sum of gained terms? Then of the terms' entries above it fewer sets are left than with it.
    fn highest(&self, gained: &[usize], e: usize) -> bool {
        let from = |least: usize| rank(&gained.iter().map(|&g| bits(self.sets[g].range(least..))).collect::<Vec<Bits>>());
        from(e) > from(e + 1)
    }

    // Was this, when gained, no sum of those gained earlier?
    fn drawn(&self, gained: &[usize], e: usize) -> bool {
        let sets: Vec<Bits> = gained.iter().map(|&g| bits(&self.sets[g])).collect();
        gained.iter().position(|&g| g == e).is_some_and(|k| rank(&sets[..=k]) > rank(&sets[..k]))
    }

    // The request's sentences: used terms and remainder sum to the goal, the remainder holds standard entries and none that is the highest, and the
    // used set draws on the same gained terms as a sum rung.
    fn missing_part(&self, gained: &[usize], used: &Set, remainder: &Set) -> bool {
        let sum = used.iter().chain(remainder).fold(Rc::new(BTreeSet::new()), |sum: Term, &e| add(&sum, &self.sheet.terms[e]));
        sum == self.sheet.terms[self.sheet.goal]
            && remainder.iter().all(|&e| is_standard(&self.sheet, &self.heads, e) && !self.highest(gained, e))
            && used.iter().all(|&e| self.drawn(gained, e))
    }

    // Does a rung follow by a rule other than sum from these terms?
    fn follows(&self, setting: Setting, gained: &BTreeSet<Term>) -> bool {
        let (has, on) = (|t: &Term| gained.contains(t), |rule: usize| setting.has(rule));
        self.sheet.terms.iter().filter_map(|t| Some((has(t), single(t)?))).any(|(known, piece)| match (known, piece) {
            (true, Piece::Pair(l, r)) => (on(1) && !has(l)) || (on(2) && !has(r)),
            (true, Piece::Seal(m, k)) => on(3) && has(k) && !has(m),
            (true, Piece::Lock(m, k)) => on(7) && has(&k.opposite().term()) && !has(m),
            (false, Piece::Pair(l, r)) => on(4) && has(l) && has(r),
            (false, Piece::Seal(m, k)) => on(5) && has(m) && has(k),
            (false, Piece::Lock(m, k)) => on(8) && has(m) && has(&k.term()),
            _ => false,
        })
    }

    // The same by sum.
    fn sum_follows(&self, gained: &[usize]) -> bool {
        let rows = rows(&gained.iter().map(|&g| bits(&self.sets[g])).collect::<Vec<Bits>>());
        (0..self.sets.len()).any(|e| !gained.contains(&self.heads[e]) && rest(&rows, &bits(&self.sets[e])) == [0; 2])
    }

    // Is the verdict that of its rungs? They replay, by rules that the setting has; the goal is gained at their end exactly where it is reached; otherwise
    // another rung follows exactly where the call stopped.
    pub fn judged(&self, setting: Setting, cut: usize, answer: u32, buffer: &[u8]) -> bool {
        let (rungs, made) = (&buffer[FRONT..], answer as usize % 1000);
        let gained = self.gained(cut, rungs, made);
        let Some(Ok(state)) = rungs.get(..40 * made).map(|rungs| replay(&self.sheet, cut, rungs)) else { return false };
        if !uses_only(setting, &rungs[..40 * made]) {
            return false;
        }
        let reached = state.contains(&self.sheet.terms[self.sheet.goal]);
        let more = || self.follows(setting, &state.into_iter().collect()) || (setting.has_sum() && self.sum_follows(&gained));
        match answer / 1000 {
            1 => reached,
            2 => !reached && !more(),
            _ => !reached && more(),
        }
    }

    // Are a call's three sets those of its rungs and its verdict? Without sum "the used set is then empty and the remainder is the goal's own set".
    pub fn holds(&self, setting: Setting, cut: usize, answer: u32, buffer: &[u8]) -> bool {
        let gained = self.gained(cut, &buffer[FRONT..], answer as usize % 1000);
        let [known, used, remainder] = [0..32, 32..64, 64..FRONT].map(|place| members(&buffer[place]));
        gained.iter().chain(&used).chain(&remainder).all(|&e| e < self.heads.len())
            && known == gained.iter().copied().collect()
            && match answer / 1000 {
                2 if !setting.has_sum() => used.is_empty() && remainder == self.sets[self.sheet.goal],
                2 => !remainder.is_empty() && self.missing_part(&gained, &used, &remainder),
                _ => used.is_empty() && remainder.is_empty(),
            }
    }
}
