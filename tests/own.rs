// Document 02, E14, on calls: "a goal out of reach stays so when the stranger also starts with any finite set of atoms that occur in no entry of the sheet,
// public numbers included". A sheet gets such atoms as entries after all others, heard ahead of all messages: with every rule on and in other settings the
// verdict stays, and at out of reach the gained set has the same of the old entries. On small sheets, whatever is made of them off the sheet up to a size
// gains no goal that is out of reach. What else might be let in does help, on many sheets: an atom of the sheet, a pair of an own atom and an entry's term,
// a half that no entry is, one message more.

#[allow(dead_code)] // each test uses a part
mod sheets;
#[allow(dead_code)]
mod calls;
mod failures;
#[allow(dead_code)]
mod kinds;
#[allow(dead_code)]
mod off;
#[allow(dead_code)]
mod reading;
use calls::{limited, verdict};
use failures::Failures;
use kinds::Parts;
use reading::{members, one, read, Half, Piece, Set, Setting, Sheet, Term};
use sheets::{lock_entries, random_entries, sheet, Entry, Random, FRONT};
use std::collections::BTreeSet;

// A call at budget 256, of the full verdict where every rule is on: reached (1) or out of reach (2), and the gained set.
fn judged(s: &[u8], cut: usize, rules: u8) -> (u32, Set) {
    let mut buffer = vec![0; FRONT + 40 * 256];
    let answer = match rules {
        255 => verdict(s, cut as u32, 256, &mut buffer),
        _ => limited(s, cut as u32, 256, rules, &mut buffer),
    };
    (answer / 1000, members(&buffer[..32]))
}

// The numbers of the atoms and of the key pairs that stand somewhere in a term.
fn numbers(t: &Term, atoms: &mut BTreeSet<u32>, pairs: &mut BTreeSet<Half>) {
    for piece in t.iter() {
        match piece {
            Piece::Atom(a) => drop(atoms.insert(*a)),
            Piece::Half(k) => drop(pairs.insert(*k)),
            Piece::Pair(x, y) | Piece::Seal(x, y) => [x, y].into_iter().for_each(|part| numbers(part, atoms, pairs)),
            Piece::Lock(m, k) => {
                numbers(m, atoms, pairs);
                pairs.insert(*k);
            }
        }
    }
}

// Those in the terms of some entries.
fn occurring(terms: &[Term]) -> (BTreeSet<u32>, BTreeSet<Half>) {
    let (mut atoms, mut pairs) = Default::default();
    terms.iter().for_each(|t| numbers(t, &mut atoms, &mut pairs));
    (atoms, pairs)
}

fn any<T: Copy>(r: &mut Random, of: &BTreeSet<T>) -> Option<T> {
    let place = r.below(of.len().max(1) as u64) as usize;
    of.iter().nth(place).copied()
}

// A number for an own atom: a public one, one with bits or bytes of an atom on the sheet, that of a key pair on the sheet, or any.
fn number(r: &mut Random, atoms: &BTreeSet<u32>, pairs: &BTreeSet<Half>) -> u32 {
    let near = any(r, atoms).unwrap_or(0);
    let pair = any(r, pairs).map_or(0, |k| k.pair);
    match r.below(8) {
        0 => r.below(256) as u32,
        1 => near ^ 1 << r.below(32),
        2 => near << 16 | near >> 16,
        3 => near & 0xffff,
        4 => near & 0xff,
        5 => near | 0xffff_0000,
        6 => pair << (16 * r.below(2)),
        _ => r.next() as u32,
    }
}

// A sheet and entries behind its own, of which the last are heard ahead of all messages; None where there is no room.
fn beside(parts: &Parts, more: &[Entry], heard: usize) -> Option<Vec<u8>> {
    let n = parts.0.len() + more.len();
    let first = (n - heard..n).map(|i| i as u16).chain(parts.1.iter().copied()).collect::<Vec<u16>>();
    (n <= 256 && first.len() <= 256).then(|| sheet(&[&parts.0[..], more].concat(), &first, parts.2))
}

#[derive(Default)]
struct Tally {
    calls: u64,
    failures: Failures,
    verdicts: [u64; 2], // reached and out of reach, with every rule on
    limited: [u64; 2],  // and in other settings
    public: u64,        // own atoms that are public numbers, on the sheet or not
    on_sheet: u64,      // those of them that are on the sheet
    of_pairs: u64,      // own atoms with the number of a key pair on the sheet
    off: u64,           // sheets tried off the sheet, out of reach
}

impl Tally {
    // Own atoms for a sheet: "atoms that occur in no entry of the sheet, public numbers included".
    fn own(&mut self, r: &mut Random, read: &Sheet, count: usize) -> Vec<u32> {
        let (atoms, pairs) = occurring(&read.terms);
        let mut own = vec![];
        while own.len() < count {
            let a = number(r, &atoms, &pairs);
            if a < 256 || !atoms.contains(&a) {
                self.public += u64::from(a < 256);
                self.on_sheet += u64::from(atoms.contains(&a));
                self.of_pairs += u64::from(pairs.iter().any(|k| k.pair == a));
                own.push(a);
            }
        }
        own
    }

    // One sheet with own atoms and without, at one cut and in one setting.
    fn stays(&mut self, r: &mut Random, parts: &Parts, most: u64) {
        let plain = sheet(&parts.0, &parts.1, parts.2);
        let count = 1 + r.below(most) as usize;
        let own = self.own(r, &read(&plain), count);
        let entries: Vec<Entry> = own.iter().map(|a| if r.below(3) == 0 { Entry::Long(*a) } else { Entry::Atom(*a) }).collect();
        let Some(with) = beside(parts, &entries, count) else { return };
        let cut = r.below(parts.1.len() as u64 + 1) as usize;
        let rules = if r.below(2) == 0 { 255 } else { r.below(256) as u8 };
        let [(before, gained), (after, more)] = [judged(&plain, cut, rules), judged(&with, cut + count, rules)];
        self.calls += 2;
        let old: Set = more.into_iter().filter(|e| *e < parts.0.len()).collect();
        let same = before == after && (before == 1 || old == gained);
        if !matches!(before, 1 | 2) || !same {
            self.failures.add(&format!("own atoms {own:?}: {before} and {after}, gained {gained:?} and {old:?}; setting {rules} cut {cut} of {parts:?}"));
        }
        let verdicts = if rules == 255 { &mut self.verdicts } else { &mut self.limited };
        verdicts[usize::from(before == 2)] += 1;
    }

    // A goal out of reach, and everything that can be made off the sheet of the start and own atoms.
    fn off_the_sheet(&mut self, r: &mut Random, parts: &Parts) {
        let plain = sheet(&parts.0, &parts.1, parts.2);
        let (read, cut) = (read(&plain), parts.1.len());
        if judged(&plain, cut, 255).0 != 2 {
            return;
        }
        let Some(mut start) = off::small_start(&read, cut) else { return };
        let count = 1 + r.below(2) as usize;
        let own = self.own(r, &read, count);
        start.extend(own.iter().map(|a| one(Piece::Atom(*a))));
        self.off += 1;
        if off::gains(Setting(255), &start, &read.terms[read.goal]) {
            self.failures.add(&format!("off the sheet the goal is gained with own atoms {own:?} of {parts:?}"));
        }
    }
}

// What isn't an own atom, for a sheet and a cut: entries behind the sheet's own, how many of the last of them are heard, and how much later the cut is.
type LetIn = fn(&mut Random, &Sheet, &Parts) -> Option<(Vec<Entry>, usize, usize)>;

const HELPS: [(&str, LetIn); 6] = [
    ("an atom of the sheet", |r, read, _| Some((vec![Entry::Atom(any(r, &occurring(&read.terms).0)?)], 1, 0))),
    ("atom 256 for a public one", |_, read, _| occurring(&read.terms).0.contains(&256).then(|| (vec![Entry::Atom(256)], 1, 0))),
    ("an atom that occurs from the goal's entry on", |r, read, _| {
        let (below, _) = occurring(&read.terms[..read.goal]);
        let later = occurring(&read.terms).0.into_iter().filter(|a| !below.contains(a)).collect();
        Some((vec![Entry::Atom(any(r, &later)?)], 1, 0))
    }),
    ("a pair of an own atom and an entry's term", |r, read, parts| {
        let own = (1000..).find(|a| !occurring(&read.terms).0.contains(a))?;
        let n = parts.0.len();
        Some((vec![Entry::Atom(own), Entry::Pair(n as u16, r.below(n as u64) as u16)], 1, 0))
    }),
    ("a half that no entry is", |r, read, _| {
        let entries: BTreeSet<Half> = occurring(&read.terms).1.into_iter().filter(|k| read.terms.contains(&k.term())).collect();
        let half = any(r, &entries)?.opposite();
        let new = if half.public { Entry::Public(half.pair as u16) } else { Entry::Private(half.pair as u16) };
        (!entries.contains(&half)).then_some((vec![new], 1, 0))
    }),
    ("one message more", |_, _, _| Some((vec![], 0, 1))),
];

// On how many sheets each of these turns out of reach into reached; and on how many a goal that is reached isn't with an own atom alone, without the messages.
fn helps(r: &mut Random) -> ([u64; HELPS.len()], u64) {
    let (mut turned, mut lost) = ([0; HELPS.len()], 0);
    for i in 0..8000 {
        let parts = if i % 2 == 0 { random_entries(r, 8) } else { lock_entries(r) };
        let plain = sheet(&parts.0, &parts.1, parts.2);
        let cut = r.below(parts.1.len() as u64 + 1) as usize;
        if judged(&plain, cut, 255).0 != 2 {
            lost += u64::from(beside(&parts, &[Entry::Atom(1 << 20)], 1).is_some_and(|with| judged(&with, 1, 255).0 == 2));
            continue;
        }
        let read = read(&plain);
        for (count, (_, what)) in turned.iter_mut().zip(HELPS) {
            let Some((more, heard, later)) = what(r, &read, &parts) else { continue };
            let Some(with) = beside(&parts, &more, heard).filter(|_| cut + later <= parts.1.len()) else { continue };
            *count += u64::from(judged(&with, cut + heard + later, 255).0 == 1);
        }
    }
    (turned, lost)
}

fn main() {
    let mut t = Tally::default();
    let mut r = Random(0x9e3779b97f4a7c15);
    for i in 0..60_000 {
        let parts = if i % 3 == 0 { lock_entries(&mut r) } else { random_entries(&mut r, 8) };
        t.stays(&mut r, &parts, 4);
    }
    for seed in 0..600 {
        let kind = [kinds::drawn, kinds::labelled, kinds::locked, kinds::lacking][seed as usize % 4];
        let parts = kind(20 + 10 * (seed as usize % 24), seed);
        t.stays(&mut r, &parts, 20);
    }
    for i in 0..450 {
        let parts = if i % 2 == 0 { random_entries(&mut r, 5) } else { lock_entries(&mut r) };
        t.off_the_sheet(&mut r, &parts);
    }
    println!("own atoms: {} calls; every rule on: {:?} reached and out of reach, other settings: {:?}", t.calls, t.verdicts, t.limited);
    println!("public numbers {}, {} of them on the sheet; numbers of key pairs {}; off the sheet {}", t.public, t.on_sheet, t.of_pairs, t.off);
    let (helps, lost) = helps(&mut r);
    HELPS.iter().zip(helps).for_each(|((what, _), sheets)| println!("helps on {sheets} sheets: {what}"));
    println!("reached on {lost} sheets, and not with an own atom alone");
    let tried = t.calls / 2 + t.off;
    println!("own: {} passed, {} failed", tried - t.failures.count.min(tried), t.failures.count);
    let seen = [t.public, t.on_sheet, t.of_pairs].into_iter().chain(t.verdicts).chain(t.limited).all(|count| count >= 1000);
    if t.failures.count > 0 || !seen || t.off < 200 || helps.into_iter().chain([lost]).any(|sheets| sheets < 100) {
        std::process::exit(1);
    }
}
