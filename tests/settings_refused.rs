// Refusals with a setting: document 02, E11 names no refusal of its own, so no value of the byte is refused, and none changes a refusal. The number is the
// full verdict's, and no byte of the buffer changes.

use super::sheets::{damage, full_sheet, lock_entries, random_entries, sheet, Entry, Random, FRONT};
use super::{verdict, Subject, Tally, GUARD, ROOM};
use Entry::*;

// One refused call beside the full verdict's.
fn beside_full(t: &mut Tally, on: &Subject, rules: u8, cut: u32, budget: u32, length: usize) -> u32 {
    let called = t.call("a call that may be refused", on, rules, cut, budget, length);
    let before = t.pattern[GUARD..GUARD + length].to_vec();
    let full = verdict(&on.bytes, cut, budget, &mut before.clone());
    let agree = if full < 1000 { called.answer == full && called.buffer == before } else { called.answer >= 1000 };
    if !agree {
        t.wrong("a call that may be refused", on, &called, &format!("the full verdict {full}"));
    }
    called.answer
}

// For each refusal a call, in every setting.
fn each_refusal(t: &mut Tally) {
    let good = [Atom(1000), Public(7), Lock(0, 1), Sum(vec![0, 2]), Zero];
    let bytes = sheet(&good, &[2, 3], 0);
    let with = |at: usize, number: u8| [&bytes[..at], &[number], &bytes[at + 1..]].concat();
    let longer = full_sheet(Long(65536), [255, 254], 0);
    let calls: [(u32, Vec<u8>, u32, u32, usize); 21] = [
        (1, vec![], 0, 0, FRONT),
        (1, with(3, b'2'), 2, 256, ROOM),
        (1, bytes[..9].to_vec(), 0, 0, FRONT),
        (1, [longer, vec![0]].concat(), 0, 0, FRONT),
        (2, with(5, 0), 0, 0, FRONT),
        (2, with(9, 5), 0, 0, FRONT),
        (3, bytes[..33].to_vec(), 0, 0, FRONT),
        (4, [&bytes[..], &[0]].concat(), 0, 0, FRONT),
        (4, with(13, 0), 0, 0, FRONT),
        (5, with(bytes.len() - 1, 8), 0, 0, FRONT),
        (5, with(bytes.len() - 1, 5), 2, 256, ROOM),
        (6, sheet(&[Atom(1000), Pair(1, 0)], &[], 0), 0, 0, FRONT),
        (7, sheet(&good, &[2, 5], 0), 0, 0, FRONT),
        (8, bytes.clone(), 3, 0, FRONT),
        (8, bytes.clone(), u32::MAX, 257, 0),
        (9, bytes.clone(), 2, 257, ROOM + 40),
        (9, bytes.clone(), 0, u32::MAX, ROOM),
        (10, bytes.clone(), 2, 0, FRONT - 1),
        (10, bytes.clone(), 2, 256, ROOM - 1),
        (10, bytes.clone(), 0, 1, 0),
        (12, sheet(&[Atom(1000), Lock(0, 0), Raw(vec![8])], &[9], 0), 1, 257, 0),
    ];
    for (want, bytes, cut, budget, length) in calls {
        let on = Subject::of(bytes);
        for rules in 0..=255 {
            let answer = beside_full(t, &on, rules, cut, budget, length);
            if answer != want {
                t.failures.add(&format!("setting {rules}: {answer}, wanted refusal {want}; sheet {:?}", on.bytes));
            }
        }
    }
}

// Sheets at random, most of them damaged, with cuts, budgets and lengths that may be refused.
fn at_random(t: &mut Tally, r: &mut Random) {
    for i in 0..3000 {
        let (entries, heard, goal) = if i % 2 == 0 { random_entries(r, 8) } else { lock_entries(r) };
        let good = sheet(&entries, &heard, goal);
        let on = Subject::of(if i % 4 == 3 { good } else { damage(r, good) });
        for _ in 0..6 {
            let (cut, budget) = (r.below(u64::from(on.heard()) + 2) as u32, [0, 1, 5, 256, 257, 65536][r.below(6) as usize]);
            let room = FRONT + 40 * budget.min(256) as usize;
            let length = [room, room, room - 1, room + r.below(50) as usize, room - 1 - r.below(FRONT as u64) as usize][r.below(5) as usize];
            let rules = [0, 255, 1 << r.below(8), !(1 << r.below(8)), r.below(256) as u8][r.below(5) as usize];
            beside_full(t, &on, rules, cut, budget, length);
        }
    }
}

// Lengths of the buffer at each budget: enough bytes and one too few.
fn lengths(t: &mut Tally, r: &mut Random) {
    let on = Subject::new(&[Atom(1000), Atom(1001), Pair(0, 1), Sum(vec![0, 1])], &[2], 3);
    for budget in 0..=256u32 {
        let room = FRONT + 40 * budget as usize;
        for rules in [0, 255, r.below(256) as u8] {
            let short = beside_full(t, &on, rules, 1, budget, room - 1);
            if short != 10 || beside_full(t, &on, rules, 1, budget, room) < 1000 {
                t.failures.add(&format!("setting {rules}, budget {budget}: {short} with {} bytes", room - 1));
            }
        }
    }
}

pub fn calls(t: &mut Tally, r: &mut Random) {
    each_refusal(t);
    at_random(t, r);
    lengths(t, r);
}
