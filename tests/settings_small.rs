// Small sheets in every setting: beside the reading at several cuts and budgets, what is said of turning a switch on, and out of reach tried off the sheet.

use super::off::{gains, small_start};
use super::reading::Setting;
use super::sheets::{lock_entries, random_entries, Entry, Random};
use super::{Called, Subject, Tally, ROOM, SUM};

// An entry that is the same term as this one, or zero.
fn alias(r: &mut Random, e: u16, n: u64) -> Entry {
    let x = r.below(n) as u16;
    match r.below(5) {
        0 => Entry::Sum(vec![e]),
        1 => Entry::Sum(vec![x, e, x]),
        2 => Entry::Sum(vec![e, e, e]),
        3 => Entry::Sum(vec![x, x]),
        _ => Entry::Zero,
    }
}

// Two halves, two atoms and zero in some order, pairs, seals and locks of them, then sums that are the same as these, and more above. Mostly sums are heard,
// and the goal is any entry.
fn aliased_entries(r: &mut Random) -> (Vec<Entry>, Vec<u16>, u16) {
    let mut entries = vec![Entry::Private(7), Entry::Public(7), Entry::Atom(1000), Entry::Atom([7, 1001][r.below(2) as usize]), Entry::Zero];
    let place = 2 + r.below(3) as usize;
    entries.swap(place, 4);
    let first = entries.len() as u64;
    for i in first..first + 5 + r.below(3) {
        let (a, b) = (r.below(i) as u16, r.below(i) as u16);
        entries.push(match r.below(9) {
            0 => Entry::Pair(a, b),
            1 => Entry::Seal(a, b),
            2 => Entry::Lock(a, r.below(2) as u16),
            3 => Entry::Sum(vec![a, b]),
            _ => alias(r, a.max(b), i),
        });
    }
    let n = entries.len() as u64;
    let heard = (0..1 + r.below(4)).map(|_| (if r.below(4) == 0 { r.below(n) } else { first + r.below(n - first) }) as u16).collect();
    (entries, heard, r.below(n) as u16)
}

// Atoms and sums of them, of which some are heard. Without sum nothing follows; with it there is often a used set.
fn summed_entries(r: &mut Random) -> (Vec<Entry>, Vec<u16>, u16) {
    let (atoms, sums) = (2 + r.below(3), 2 + r.below(3));
    let mut entries: Vec<Entry> = (0..atoms).map(|i| Entry::Atom(if r.below(5) == 0 { 7 } else { 1000 + i as u32 })).collect();
    entries.extend((0..sums).map(|_| Entry::Sum((0..2 + r.below(3)).map(|_| r.below(atoms) as u16).collect())));
    entries.push(Entry::Pair(r.below(atoms + sums) as u16, (atoms + r.below(sums)) as u16));
    let heard = (0..1 + r.below(3)).map(|_| (atoms + r.below(sums + 1)) as u16).collect();
    (entries, heard, r.below(atoms + sums) as u16)
}

fn small_entries(r: &mut Random, i: u64) -> (Vec<Entry>, Vec<u16>, u16) {
    match i % 4 {
        0 => random_entries(r, 8),
        1 => lock_entries(r),
        2 => aliased_entries(r),
        _ => summed_entries(r),
    }
}

// "At budget 256, turning a switch on never turns reached into out of reach, and where the goal stays out of reach no gained term is lost." For every two
// settings of which one is in the other.
fn switched_on(t: &mut Tally, on: &Subject, calls: &[Called]) {
    let lost = |few: &Called, more: &Called| (0..32).any(|k| few.buffer[k] & !more.buffer[k] != 0);
    for more in calls {
        for few in calls.iter().filter(|few| few.rules != more.rules && few.rules & !more.rules == 0) {
            t.pairs += 1;
            let out = more.answer / 1000 == 2;
            if out && (few.answer / 1000 != 2 || lost(few, more)) {
                t.wrong("a switch turned on", on, more, &format!("setting {} gives {}, gained {:?}", few.rules, few.answer, &few.buffer[..32]));
            }
            t.grown += u64::from(out && few.buffer[..32] != more.buffer[..32]);
        }
    }
}

pub fn sheets(t: &mut Tally, r: &mut Random) {
    for i in 0..800 {
        let (entries, heard, goal) = small_entries(r, i);
        let on = Subject::new(&entries, &heard, goal);
        let calls = t.every_setting("a small sheet", &on, on.heard(), 256);
        switched_on(t, &on, &calls);
        let cut = r.below(u64::from(on.heard()) + 1) as u32;
        t.every_setting("a small sheet", &on, cut, [0, 1, 2, 3, 8][r.below(5) as usize]);
    }
}

// "out of reach stays exact for ladders made of the rules switched on", through terms off the sheet too: a goal that some ladder gains is reached.
pub fn off_the_sheet(t: &mut Tally, r: &mut Random) {
    for i in 0..700 {
        let (entries, heard, goal) = small_entries(r, i);
        let on = Subject::new(&entries, &heard, goal);
        let Some(sheet) = &on.read else { continue };
        let Some(start) = small_start(sheet, heard.len()) else { continue };
        for rules in [r.below(256) as u8, r.below(256) as u8 & !SUM, r.below(256) as u8 | r.below(256) as u8] {
            let answer = t.call("off the sheet", &on, rules, on.heard(), 256, ROOM).answer;
            let gained = gains(Setting(rules), &start, &sheet.terms[sheet.goal]);
            t.off[0] += 1;
            t.off[1] += u64::from(gained);
            if gained && answer / 1000 != 1 {
                t.failures.add(&format!("off the sheet the goal is gained: {entries:?} heard {heard:?} goal {goal} setting {rules}: {answer}"));
            }
        }
    }
}
