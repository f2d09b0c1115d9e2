// The reading's rungs on larger sheets, where sums can't be tried one by one: the same words as in reading.rs, but each term is its head's number, and the one
// set that gives a sum is found by elimination. It shares no code with the library.

use super::reading::{heads, members, single, standard, standard_set, start, Piece, Rung, Set, Setting, Sheet, Term};
use std::collections::BTreeMap;

// A set of entries.
type Bits = [u128; 2];

fn bits<'a>(set: impl IntoIterator<Item = &'a usize>) -> Bits {
    let mut b = [0; 2];
    set.into_iter().for_each(|e| b[e / 128] ^= 1 << (e % 128));
    b
}

fn plus(a: Bits, b: Bits) -> Bits {
    [a[0] ^ b[0], a[1] ^ b[1]]
}

fn lowest(b: Bits) -> Option<usize> {
    (0..2).find(|&w| b[w] != 0).map(|w| 128 * w + b[w].trailing_zeros() as usize)
}

// A pair, seal or lock by the heads of its parts; a lock also by that of the half that opens it, where it has an entry.
#[derive(Clone, Copy)]
enum Shape {
    Pair(usize, usize),
    Seal(usize, usize),
    Lock(usize, usize, Option<usize>),
    Other,
}

pub struct Eliminated<'a> {
    sheet: &'a Sheet,
    heads: Vec<usize>,
    shapes: Vec<Shape>,
    sets: Vec<Bits>, // of standard entries
}

// What is gained. The rows are sums of drawn terms: the standard entries of the sum, and the drawn terms, by the sum's lowest standard entry.
struct State {
    gained: Vec<bool>,
    rows: Vec<Option<(Bits, Bits)>>,
}

impl State {
    // What is left of a sum when rows are taken off it, and the drawn terms of those.
    fn reduce(&self, set: Bits) -> (Bits, Bits) {
        let (mut rest, mut used) = (set, [0; 2]);
        while let Some((row, by)) = lowest(rest).and_then(|low| self.rows[low]) {
            (rest, used) = (plus(rest, row), plus(used, by));
        }
        (rest, used)
    }

    fn gain(&mut self, head: usize, set: Bits) {
        let (rest, used) = self.reduce(set);
        match lowest(rest) {
            Some(low) if !self.gained[head] => self.rows[low] = Some((rest, plus(used, bits(&[head])))),
            _ => {}
        }
        self.gained[head] = true;
    }
}

impl Eliminated<'_> {
    pub fn new(sheet: &Sheet) -> Eliminated<'_> {
        let heads = heads(sheet);
        let by_term: BTreeMap<&Term, usize> = heads.iter().map(|&h| (&sheet.terms[h], h)).collect();
        let shape = |t: &Term| match single(t) {
            Some(Piece::Pair(l, r)) => Shape::Pair(by_term[l], by_term[r]),
            Some(Piece::Seal(m, k)) => Shape::Seal(by_term[m], by_term[k]),
            Some(Piece::Lock(m, k)) => Shape::Lock(by_term[m], by_term[&k.term()], by_term.get(&k.opposite().term()).copied()),
            _ => Shape::Other,
        };
        let (shapes, standard) = (sheet.terms.iter().map(shape).collect(), standard(sheet, &heads));
        let sets = sheet.terms.iter().map(|t| bits(&standard_set(&standard, t))).collect();
        Eliminated { sheet, heads, shapes, sets }
    }

    // How the head follows by a gained term: the rule, and its sources.
    fn out_of(&self, s: &State, setting: Setting, head: usize, first: usize) -> Option<(usize, usize, usize)> {
        let has = |h: usize| s.gained[h];
        match self.shapes[first] {
            Shape::Pair(l, _) if l == head && setting.has(1) => Some((1, first, 65535)),
            Shape::Pair(_, r) if r == head && setting.has(2) => Some((2, first, 65535)),
            Shape::Seal(m, k) if m == head && has(k) && setting.has(3) => Some((3, first, k)),
            Shape::Lock(m, _, Some(opener)) if m == head && has(opener) && setting.has(7) => Some((7, first, opener)),
            _ => None,
        }
    }

    // How the head follows by its own parts.
    fn of_parts(&self, s: &State, setting: Setting, head: usize) -> Option<(usize, usize, usize)> {
        let made = match self.shapes[head] {
            Shape::Pair(l, r) => (4, l, r),
            Shape::Seal(m, k) => (5, m, k),
            Shape::Lock(m, k, _) => (8, m, k),
            Shape::Other => return None,
        };
        (s.gained[made.1] && s.gained[made.2] && setting.has(made.0)).then_some(made)
    }

    fn follows(&self, s: &State, setting: Setting, head: usize) -> Option<Rung> {
        let parts = (0..self.heads.len()).filter(|&e| s.gained[e]).filter_map(|e| self.out_of(s, setting, head, e));
        let least = parts.chain(self.of_parts(s, setting, head)).min();
        let (rest, used) = s.reduce(self.sets[head]);
        match least {
            Some((7.., ..)) | None if setting.has_sum() && rest == [0; 2] => Some(Rung { head, rule: 6, first: 65535, second: 65535, set: set_of(used) }),
            least => least.map(|(rule, first, second)| Rung { head, rule, first, second, set: Set::new() }),
        }
    }

    // The number of a call that isn't refused, and its rungs.
    pub fn judged(&self, setting: Setting, cut: usize, budget: usize) -> (u32, Vec<Rung>) {
        let n = self.heads.len();
        let mut s = State { gained: vec![false; n], rows: vec![None; n] };
        start(self.sheet, cut).iter().map(|&i| self.heads[i]).for_each(|h| s.gain(h, self.sets[h]));
        let (goal, mut rungs) = (self.heads[self.sheet.goal], vec![]);
        while !s.gained[goal] {
            let next = (0..n).filter(|&h| self.heads[h] == h && !s.gained[h]).find_map(|h| self.follows(&s, setting, h));
            match next {
                None => return (2000 + rungs.len() as u32, rungs),
                Some(_) if rungs.len() == budget => return (3000 + rungs.len() as u32, rungs),
                Some(rung) => {
                    s.gain(rung.head, self.sets[rung.head]);
                    rungs.push(rung);
                }
            }
        }
        (1000 + rungs.len() as u32, rungs)
    }
}

fn set_of(b: Bits) -> Set {
    members(&b.map(u128::to_le_bytes).concat())
}
