// Larger sheets, up to 256 entries, in settings at random: beside the simple verdict and the plain one, whose bytes are all compared, and by what the
// documents say of a call's rungs (eliminated.rs) and sets (larger.rs). Switches are turned on one after the other.

use super::cards::large;
use super::kinds;
use super::larger::Larger;
use super::eliminated::Eliminated;
use super::reading::{members, read, rung_bytes, Setting};
use super::sheets::{full_sheet, sheet, Entry, Random, FRONT};
use super::{limited, plain, simple, verdict, Called, Tally, SUM};

// A call of the library, of the simple verdict and of the plain one: answer and bytes are the same, and with every rule on those of the full verdict.
fn beside_others(t: &mut Tally, s: &[u8], rules: u8, cut: usize, budget: usize) -> Called {
    let [(answer, buffer), others @ ..] = [limited, simple::limited, plain::limited].map(|call| {
        let mut out = t.pattern[..FRONT + 40 * budget + 7].to_vec();
        (call(s, cut as u32, budget as u32, rules, &mut out), out)
    });
    t.calls += 1;
    for (other, out) in &others {
        if *other != answer || *out != buffer {
            t.failures.add(&format!("setting {rules} cut {cut} budget {budget}: {answer} and {other}, same bytes: {}; sheet {s:?}", *out == buffer));
        }
    }
    if rules == 255 {
        t.full += 1;
        let mut out = t.pattern[..buffer.len()].to_vec();
        if verdict(s, cut as u32, budget as u32, &mut out) != answer || out != buffer {
            t.failures.add(&format!("cut {cut} budget {budget}: {answer}, and the full verdict differs; sheet {s:?}"));
        }
    }
    let called = Called { rules, cut: cut as u32, budget: budget as u32, answer, buffer };
    t.counted(&called);
    t.larger[(called.answer / 1000).min(3) as usize] += 1;
    called.rungs().chunks(40).for_each(|rung| t.larger_rules[usize::from(rung[3]).min(8)] += 1);
    called
}

// A setting with most switches on, with few, or any; a third of them without sum.
fn any_setting(r: &mut Random) -> u8 {
    let [a, b] = [r.below(256) as u8, r.below(256) as u8];
    let rules = [a | b, a & b, a, !(1 << (a % 8))][r.below(4) as usize];
    if r.below(3) == 0 { rules & !SUM } else { rules }
}

// What the documents say of the call holds of the library's bytes.
fn judged(t: &mut Tally, s: &[u8], heard: usize, r: &mut Random) {
    let (larger, sheet) = (Larger::new(s), read(s));
    let eliminated = Eliminated::new(&sheet);
    for cut in [0, heard / 2, heard] {
        for budget in [r.below(9) as usize, 256, 256] {
            let rules = any_setting(r);
            let Called { answer, buffer, .. } = beside_others(t, s, rules, cut, budget);
            let setting = Setting(rules);
            let (number, rungs) = eliminated.judged(setting, cut, budget);
            let after = [rungs.iter().flat_map(rung_bytes).collect(), t.pattern[FRONT + 40 * rungs.len()..buffer.len()].to_vec()].concat();
            let same = answer == number && buffer[FRONT..] == after;
            if !same || !larger.judged(setting, cut, answer, &buffer) || !larger.holds(setting, cut, answer, &buffer) {
                let sets = [0..32, 32..64, 64..FRONT].map(|place| members(&buffer[place]));
                let call = format!("setting {rules} cut {cut} budget {budget}: {answer}");
                t.failures.add(&format!("{call}, text {number}, same rungs: {same}, gained, used and remainder {sets:?}; sheet {s:?}"));
            }
        }
    }
}

// The switches turned on one after the other, in an order at random: reached stays reached, and where the goal stays out of reach nothing gained is lost.
fn turned_on(t: &mut Tally, s: &[u8], heard: usize, r: &mut Random) {
    let (mut rules, mut before) = (0, beside_others(t, s, 0, heard, 256));
    while rules != 255 {
        rules |= 1 << r.below(8);
        let now = beside_others(t, s, rules, heard, 256);
        let lost = (0..32).any(|k| before.buffer[k] & !now.buffer[k] != 0);
        t.pairs += 1;
        if now.answer / 1000 == 2 && (before.answer / 1000 != 2 || lost) {
            t.failures.add(&format!("setting {rules} gives {}, with a switch less {}, a term lost: {lost}; sheet {s:?}", now.answer, before.answer));
        }
        t.grown += u64::from(now.answer / 1000 == 2 && before.buffer[..32] != now.buffer[..32]);
        before = now;
    }
}

// Every setting on the sheets of the benchmark, and on the longest one.
fn every_setting(t: &mut Tally) {
    for (_, kind) in kinds::BY_NAME {
        let (entries, heard, goal) = kind(40);
        let s = sheet(&entries, &heard, goal);
        (0..=255).for_each(|rules| drop(beside_others(t, &s, rules, heard.len(), 256)));
    }
    let s = full_sheet(Entry::Long(65536 + 1001), [254, 253], 255);
    for rules in 0..=255u8 {
        // the first message is entry 0's term, the second is zero
        let want = [if rules & SUM != 0 { 1001 } else { 2000 }, 1000];
        for cut in [1, 2] {
            let answer = beside_others(t, &s, rules, cut as usize, 256).answer;
            if answer != want[cut as usize - 1] {
                t.failures.add(&format!("the longest sheet, setting {rules} cut {cut}: {answer}, wanted {want:?}"));
            }
        }
    }
}

pub fn sheets(t: &mut Tally, r: &mut Random) {
    every_setting(t);
    for seed in 0..240 {
        let n = 20 + (seed as usize * 31) % 237;
        let (entries, heard, goal) = [kinds::drawn, kinds::labelled, kinds::lacking, kinds::locked][seed as usize % 4](n, seed);
        let s = sheet(&entries, &heard, goal);
        judged(t, &s, heard.len(), r);
        turned_on(t, &s, heard.len(), r);
    }
    for _ in 0..60 {
        let s = large(r);
        let heard = usize::from(u16::from_be_bytes([s[6], s[7]]));
        turned_on(t, &s, heard, r);
    }
}
