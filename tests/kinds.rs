// Kinds of sheets for the benchmarks: each takes a number of entries and gives entries, heard messages and goal. The cut is the number of messages.
// Atoms have short records, but for those of `serials`, and numbers from 1,000 on, but for those of `names`, `serials`, `labelled` and `lacking`. Key
// pairs and locks stand in `locks`, `openers` and `locked` alone.

use super::sheets::{Entry, Random};

pub type Parts = (Vec<Entry>, Vec<u16>, u16);

// The kinds that the benchmarks go through. `serials` is `names` with every atom in the long record of request E10. `locks` and `openers` have the key pairs
// of request E6: `locks` is the work of `seals` by rule 7, and in `openers` the half that opens a lock is to be found above it.
// The last four are the worst for one table each: `users` for that of the users of each entry, `bucket` and `atoms` for that in which equal keys are found,
// `sweeps` for what is left of each entry and the columns over it. `atoms` has nothing to hear and nothing to gain.
pub const BY_NAME: [(&str, fn(usize) -> Parts); 14] = [
    ("joins", joins),
    ("sums", sums),
    ("seals", seals),
    ("mixed", mixed),
    ("stuck", stuck),
    ("random", random),
    ("names", names),
    ("serials", serials),
    ("locks", locks),
    ("openers", openers),
    ("users", users),
    ("bucket", bucket),
    ("sweeps", sweeps),
    ("atoms", atoms),
];

// The atom with this number and 1,000.
fn atom(i: u16) -> Entry {
    Entry::Atom(1000 + u32::from(i))
}

// A chain of pairs over zero: one new term a step, n steps.
pub fn joins(n: usize) -> Parts {
    let entries = (0..n as u16).map(|i| if i == 0 { Entry::Zero } else { Entry::Pair(i - 1, i - 1) }).collect();
    (entries, vec![], n as u16 - 1)
}

// As joins, but the right of each pair is zero, so that a term written out as a tree grows by two and doesn't double.
pub fn chain(n: usize) -> Parts {
    let entries = (0..n as u16).map(|i| if i == 0 { Entry::Zero } else { Entry::Pair(i - 1, 0) }).collect();
    (entries, vec![], n as u16 - 1)
}

// Half atoms, half sums of up to 64 of them, all sums heard: a full basis, and each atom a sum step.
pub fn sums(n: usize) -> Parts {
    let half = n as u16 / 2;
    let mut entries: Vec<Entry> = (0..half).map(atom).collect();
    entries.extend((0..half).map(|i| Entry::Sum((0..=i.min(63)).map(|k| i - k).collect())));
    (entries, (half..2 * half).collect(), half - 1)
}

// An atom sealed again and again under one key; the outermost seal and the key heard: n steps inwards.
pub fn seals(n: usize) -> Parts {
    let entries = (0..n as u16).map(|i| if i < 2 { atom(i) } else { Entry::Seal(if i == 2 { 0 } else { i - 1 }, 1) }).collect();
    (entries, vec![n as u16 - 1, 1], 0)
}

// An atom locked again and again under one public half; the outermost lock and the private half heard: n steps inwards.
pub fn locks(n: usize) -> Parts {
    let entry = |i: u16| match i {
        0 => atom(0),
        1 => Entry::Public(1000),
        2 => Entry::Private(1000),
        3 => Entry::Lock(0, 1),
        _ => Entry::Lock(i - 1, 1),
    };
    ((0..n as u16).map(entry).collect(), vec![n as u16 - 1, 2], 0)
}

// A third public halves, a third locks of one message under them, and a third the private halves, above all locks. The locks and the private halves but
// for the last are heard, from above. So every lock but the last could be opened, the lowest is, and the run ends by finding nothing.
pub fn openers(n: usize) -> Parts {
    let third = (n as u16 - 1) / 3;
    let mut entries = vec![atom(0)];
    entries.extend((0..third).map(Entry::Public));
    entries.extend((0..third).map(|i| Entry::Lock(0, 1 + i)));
    entries.extend((0..third).map(Entry::Private));
    entries.extend((entries.len()..n).map(|i| atom(i as u16)));
    (entries, (1 + third..3 * third).rev().collect(), 3 * third)
}

// Everything at once, and 256 heard messages over the upper half of the entries, so that the lower half is left to the steps. Nothing
// holds the goal, so that the run ends by finding nothing.
pub fn mixed(n: usize) -> Parts {
    let mut r = Random(n as u64 + 77);
    let mut part = |i: u64| 1 + r.below(i - 1) as u16;
    let entries = (0..n as u64)
        .map(|i| match (i, i % 4) {
            (0..=7, _) => atom(i as u16),
            (_, 0) => Entry::Pair(part(i), part(i)),
            (_, 1) => Entry::Seal(part(i), part(i)),
            _ => Entry::Sum((0..64).map(|_| part(i)).collect()),
        })
        .collect();
    let heard = (0..256).map(|k| (n - 1 - (k * 7) % (n / 2)) as u16).collect();
    (entries, heard, 0)
}

// Out of reach: every entry known but the goal, so that the run ends by finding nothing.
pub fn stuck(n: usize) -> Parts {
    let entries = (0..n as u16).map(atom).collect();
    (entries, (1..n as u16).collect(), 0)
}

// Half of the entries on the hull label, then sums of one of them with a secret, all heard: each secret is a sum step that draws on the label.
pub fn names(n: usize) -> Parts {
    let (half, quarter) = (n as u16 / 2, n as u16 / 4);
    let mut entries: Vec<Entry> = (0..half).map(|i| Entry::Atom(u32::from(i))).collect();
    entries.extend((0..quarter).map(atom));
    entries.extend((0..quarter).map(|i| Entry::Sum(vec![i, half + i])));
    (entries, (half + quarter..half + 2 * quarter).collect(), half + quarter - 1)
}

// As names, but every atom has the long record, and the secrets' numbers differ in their high halves alone.
pub fn serials(n: usize) -> Parts {
    let (entries, heard, goal) = names(n);
    let long = |e: Entry| match e {
        Entry::Atom(a) if a < 256 => Entry::Long(a),
        Entry::Atom(a) => Entry::Long(a << 16),
        _ => e,
    };
    (entries.into_iter().map(long).collect(), heard, goal)
}

// All other entries are users of the first: pairs with it, each of the entry before. The second is heard, so that the first step gains the first entry and
// looks at every user, and each later step makes a pair.
pub fn users(n: usize) -> Parts {
    let entries = (0..n as u16).map(|i| if i == 0 { atom(0) } else { Entry::Pair(i - 1, 0) }).collect();
    (entries, vec![1], n as u16 - 1)
}

// Atoms whose keys leave the same remainder by 251, and so fall into one bucket. Nothing is heard and nothing is gained: reading and comparing is all the work.
pub fn atoms(n: usize) -> Parts {
    ((0..n as u16).map(|i| atom(251 * i)).collect(), vec![], 0)
}

// Half such atoms, all heard, and above them pairs and seals whose keys fall into the same bucket: each is a step, and the last is the goal. The first part of
// each is as high as the bucket allows. Where no pair or seal is left, as on small sheets, one more atom stands and is heard.
pub fn bucket(n: usize) -> Parts {
    let half = (n as u16).div_ceil(2);
    let mut entries: Vec<Entry> = (0..half).map(|i| atom(251 * i)).collect();
    let mut made: Vec<(u64, u16, u16)> = vec![];
    let (mut heard, mut goal): (Vec<u16>, u16) = ((0..half).collect(), 0);
    for i in half..n as u16 {
        let all = (0..i).rev().flat_map(|l| (0..i).flat_map(move |r| [(2, l, r), (3, l, r)]));
        let falls = |&(kind, l, r): &(u64, u16, u16)| (kind << 32 | u64::from(l) << 8 | u64::from(r)) % 251 == (1 << 32 | 1000) % 251;
        let next = all.filter(falls).find(|one| !made.contains(one));
        made.extend(next);
        entries.push(match next {
            Some((2, l, r)) => Entry::Pair(l, r),
            Some((_, l, r)) => Entry::Seal(l, r),
            None => atom(251 * i),
        });
        if next.is_some() { goal = i } else { heard.push(i) }
    }
    (entries, heard, goal)
}

// Half atoms, and sums of the highest of them with each other one but the lowest, all heard from above. Every new row is the sum of two neighbours, and its
// leading entry is in what is left of each sum not yet heard and of each atom from it upwards. In the end all atoms but the lowest two lack entry 1.
pub fn sweeps(n: usize) -> Parts {
    let (top, all) = (n as u16 / 2, n as u16);
    let mut entries: Vec<Entry> = (0..=top).map(atom).collect();
    entries.extend((1..all - top).rev().map(|i| Entry::Sum(vec![top, i])));
    (entries, (top + 1..all).collect(), top)
}

// Entries of every kind drawn at random, half as many messages as entries, and a goal that is none of them.
pub fn random(n: usize) -> Parts {
    drawn(n, 1)
}

// The same, with a number that chooses the sheet.
pub fn drawn(n: usize, seed: u64) -> Parts {
    let mut r = Random((n as u64) << 32 | seed << 16 | 0x5eed);
    let entries: Vec<Entry> = (0..n as u64)
        .map(|i| {
            let (kind, a, b) = (r.below(8), r.below(i.max(1)) as u16, r.below(i.max(1)) as u16);
            match kind {
                _ if i < 4 => atom(i as u16),
                0 => atom(i as u16),
                1..=2 => Entry::Pair(a, b),
                3..=4 => Entry::Seal(a, b),
                _ => Entry::Sum((0..2 + r.below(4)).map(|_| r.below(i) as u16).collect()),
            }
        })
        .collect();
    let heard: Vec<u16> = (0..n / 2).map(|_| r.below(n as u64) as u16).collect();
    let goals: Vec<u16> = (0..n as u16).filter(|e| !heard.contains(e)).collect();
    let goal = goals[r.below(goals.len() as u64) as usize];
    (entries, heard, goal)
}

// The same, with names on the hull label in the places of some atoms.
pub fn labelled(n: usize, seed: u64) -> Parts {
    let (mut entries, heard, goal) = drawn(n, seed);
    for i in (0..n).step_by(3) {
        if let Entry::Atom(a) = &mut entries[i] {
            *a = i as u32 % 16;
        }
    }
    (entries, heard, goal)
}

// As drawn, with halves of a few key pairs in the places of some entries, and locks in the places of some pairs and seals.
pub fn locked(n: usize, seed: u64) -> Parts {
    let (mut entries, heard, goal) = drawn(n, seed);
    let mut r = Random((n as u64) << 32 | seed << 16 | 0x10c5);
    let mut halves: Vec<u16> = vec![];
    for (i, entry) in entries.iter_mut().enumerate() {
        let pair = [0, 7, 256, 65535][r.below(4) as usize];
        match (i, r.below(6), &*entry) {
            (0, _, _) | (_, 0, _) => *entry = if r.below(2) == 0 { Entry::Private(pair) } else { Entry::Public(pair) },
            (_, 1..=3, Entry::Pair(a, _) | Entry::Seal(a, _)) => *entry = Entry::Lock(*a, halves[r.below(halves.len() as u64) as usize]),
            _ => {}
        }
        if matches!(entry, Entry::Private(_) | Entry::Public(_)) {
            halves.push(i as u16);
        }
    }
    (entries, heard, goal)
}

// Half atoms, some of them on the hull label, and half sums of a few of them, of which some are heard. The goal is any entry: mostly it is out of
// reach, often with a used set.
pub fn lacking(n: usize, seed: u64) -> Parts {
    let mut r = Random((n as u64) << 32 | seed << 16 | 0x5eed);
    let (half, all) = (n as u64 / 2, n as u64);
    let mut entries: Vec<Entry> = (0..half as u16).map(|i| if r.below(8) == 0 { Entry::Atom(u32::from(i)) } else { atom(i) }).collect();
    entries.extend((half..all).map(|_| Entry::Sum((0..2 + r.below(4)).map(|_| r.below(half) as u16).collect())));
    let heard = (0..n / 3).map(|_| (half + r.below(all - half)) as u16).collect();
    (entries, heard, r.below(all) as u16)
}

// A chain of pairs over zero beside an atom that nothing gains: at every cut the whole chain is climbed, and the card has its longest work.
pub fn longest(n: usize) -> Parts {
    let entries = (0..n as u16)
        .map(|i| match i {
            0 => Entry::Zero,
            _ if i as usize == n - 1 => atom(0),
            _ => Entry::Pair(i - 1, i - 1),
        })
        .collect();
    (entries, vec![0; 256], n as u16 - 1)
}
