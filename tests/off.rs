// Out of reach, tried against everything that can be made off the sheet up to a size, by the rules that a setting has. For the brute-force test and for that
// of the settings.

use super::reading::{add, one, read, single, size, start, work, Answer, Half, Piece, Setting, Sheet, Term, EVERY_RULE};
use super::sheets::{lock_entries, random_entries, sheet, Random};
use std::collections::BTreeSet;
use std::rc::Rc;

// The largest term that is made, and how many are kept.
const LARGEST: usize = 7;
const MOST: usize = 120;

fn as_half(t: &Term) -> Option<Half> {
    match single(t) {
        Some(Piece::Half(k)) => Some(*k),
        _ => None,
    }
}

// What one rule gives from known terms: the parts of each, the sum of each two, and pairs, seals and locks where they are small.
fn one_rule_further(setting: Setting, known: &BTreeSet<Term>) -> Vec<Term> {
    let mut new: Vec<Term> = vec![];
    let mut by = |rule: usize, t: &dyn Fn() -> Term| if setting.has(rule) { new.push(t()) };
    for a in known {
        match single(a) {
            Some(Piece::Pair(l, r)) => {
                by(1, &|| l.clone());
                by(2, &|| r.clone());
            }
            Some(Piece::Seal(m, k)) if known.contains(k) => by(3, &|| m.clone()),
            Some(Piece::Lock(m, k)) if known.contains(&k.opposite().term()) => by(7, &|| m.clone()),
            _ => {}
        }
        for b in known {
            by(6, &|| add(a, b));
            if size(a) + size(b) < LARGEST {
                by(4, &|| one(Piece::Pair(a.clone(), b.clone())));
                by(5, &|| one(Piece::Seal(a.clone(), b.clone())));
                as_half(b).into_iter().for_each(|k| by(8, &|| one(Piece::Lock(a.clone(), k))));
            }
        }
    }
    new
}

// Does a listener with these terms get the goal, when terms are added as long as they are small? What is found is gained for certain; what isn't, only
// up to the size. Zero is the sum of no terms.
pub fn gains(setting: Setting, start: &[Term], goal: &Term) -> bool {
    let mut known: BTreeSet<Term> = start.iter().cloned().collect();
    if setting.has_sum() {
        known.insert(Rc::new(BTreeSet::new()));
    }
    loop {
        if known.contains(goal) {
            return true;
        }
        let before = known.len();
        for t in one_rule_further(setting, &known) {
            if known.len() < MOST && size(&t) <= LARGEST {
                known.insert(t);
            }
        }
        if known.len() == before {
            return known.contains(goal);
        }
    }
}

// The terms at the start, unless one of them is too large.
pub fn small_start(sheet: &Sheet, cut: usize) -> Option<Vec<Term>> {
    let start: Vec<Term> = start(sheet, cut).iter().map(|&i| sheet.terms[i].clone()).collect();
    start.iter().all(|t| size(t) <= LARGEST).then_some(start)
}

// How many sheets were tried, every second of them with locks and halves heard, and on how many of them the goal is gained although the reading says
// otherwise.
pub fn tried(r: &mut Random) -> (u64, u64) {
    let (mut tried, mut failed) = (0, 0);
    while tried < 800 {
        let (entries, heard, _) = if tried % 2 == 0 { random_entries(r, 5) } else { lock_entries(r) };
        let goal = r.below(entries.len() as u64) as u16;
        let read = read(&sheet(&entries, &heard, goal));
        let cut = read.heard.len();
        let (answer, _, _) = work(&read, cut, 256);
        let Some(start) = small_start(&read, cut) else { continue };
        tried += 1;
        if gains(EVERY_RULE, &start, &read.terms[read.goal]) && !matches!(answer, Answer::Reached) {
            failed += 1;
            println!("off the sheet the goal is gained: {entries:?} heard {heard:?} goal {goal}");
        }
    }
    (tried, failed)
}
