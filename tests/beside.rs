// The library beside two other verdicts in Rust, in the brute-force test: the simple one (simple.rs), and the plain one (plain.rs) in both its forms. Answer
// and bytes are the same on larger sheets, on which the reading can't try sums one by one, on the kinds of the benchmark, on sheets whose terms share a bucket
// of a table with 251 buckets, and where a call is refused.

use super::kinds::{self, Parts};
use super::locks::any_key;
use super::sheets::{damage, full_sheet, lock_entries, random_entries, sheet, Entry, Random, FRONT};
use super::{plain, simple, verdict, Tally};

type Call = fn(&[u8], u32, u32, &mut [u8]) -> u32;

const CALLS: [Call; 4] = [verdict, simple::verdict, plain::verdict, plain::verdict_by_value];

// One call of each, with a buffer of this length.
fn called(t: &mut Tally, s: &[u8], cut: usize, budget: usize, length: usize) {
    let [library, others @ ..] = CALLS.map(|call| {
        let mut out = vec![0xa5; length];
        (call(s, cut as u32, budget as u32, &mut out), out)
    });
    t.calls += 1;
    if others.iter().any(|other| *other != library) {
        let answers: Vec<(u32, bool)> = others.iter().map(|(answer, out)| (*answer, *out == library.1)).collect();
        let call = format!("cut {cut} budget {budget} length {length} sheet {s:?}");
        t.failures.add(&format!("library {}, the simple verdict and the plain ones, each with the same bytes or not: {answers:?}; {call}", library.0));
    }
}

// A good sheet at several cuts and budgets.
fn good(t: &mut Tally, (entries, heard, goal): Parts) {
    let s = sheet(&entries, &heard, goal);
    for cut in [0, heard.len() / 3, heard.len()] {
        for budget in [0, 5, 256] {
            called(t, &s, cut, budget, FRONT + 40 * budget);
        }
    }
}

// Every term twice, and the later ones heard from above: each is to be found among those in the same bucket.
fn twice(mut entries: Vec<Entry>) -> Parts {
    let n = entries.len() as u16;
    entries.extend(entries.clone());
    (entries, (n..2 * n).rev().step_by(2).collect(), 2 * n - 2)
}

// Locks under halves that share a bucket, each with its opener above; the openers share one too.
fn shared_openers(n: u16) -> Parts {
    let mut entries: Vec<Entry> = (0..n).map(|i| Entry::Public(251 * i)).collect();
    entries.extend((0..n).map(|i| Entry::Lock(n - 1 - i, i)));
    entries.extend((0..n).rev().map(|i| Entry::Private(251 * i)));
    (entries, (n..3 * n).rev().step_by(2).collect(), 0)
}

// Sums of three of 60 atoms, each sum twice. Their sets, as numbers by their bits, leave the same remainder by 251.
fn shared_sets(remainder: u64) -> Parts {
    let mut entries: Vec<Entry> = (0..60).map(|i| Entry::Atom(1000 + i)).collect();
    let sums = (0..60).flat_map(|a| (0..a).flat_map(move |b| (0..b).map(move |c| [a, b, c])));
    let sums = sums.filter(|sum| sum.iter().map(|i| 1u64 << i).sum::<u64>() % 251 == remainder);
    let shared: Vec<Entry> = sums.map(|sum| Entry::Sum(sum.to_vec())).take(90).collect();
    entries.extend(shared.iter().chain(&shared).cloned());
    let n = entries.len() as u16;
    (entries, (60..n).rev().step_by(3).collect(), n - 1)
}

fn shared_buckets(t: &mut Tally) {
    for n in [5, 9, 20, 60, 128] {
        good(t, twice(kinds::atoms(n).0));
    }
    [4, 12, 30, 85].into_iter().for_each(|n| good(t, shared_openers(n)));
    (0..20).for_each(|remainder| good(t, shared_sets(remainder)));
}

// A sheet that may be damaged, with cuts and budgets that are good and too large, and with room for the rungs or one byte less.
fn refused(t: &mut Tally, s: &[u8], heard: usize) {
    for (cut, budget) in [(0, 2), (heard, 256), (heard + 1, 2), (heard + 1, 257), (heard, 257)] {
        for less in [0, 1] {
            called(t, s, cut, budget, FRONT + 40 * budget - less);
        }
    }
}

pub fn sheets(t: &mut Tally) {
    for seed in 0..300 {
        good(t, kinds::locked(20 + (seed as usize * 31) % 237, seed));
    }
    for (_, make) in kinds::BY_NAME {
        [8, 33, 64, 150, 256].into_iter().for_each(|n| good(t, make(n)));
    }
    shared_buckets(t);
    let mut r = Random(0x94d049bb133111eb);
    for i in 0..2000 {
        let (entries, heard, goal) = match i % 3 {
            0 => lock_entries(&mut r),
            1 => any_key(&mut r),
            _ => random_entries(&mut r, 20),
        };
        let s = sheet(&entries, &heard, goal);
        refused(t, &s, heard.len());
        refused(t, &damage(&mut r, s), heard.len());
    }
    let longest = full_sheet(Entry::Long(65536 + 1001), [255, 254], 255);
    refused(t, &longest, 256);
    refused(t, &[longest, vec![0]].concat(), 256);
}
