// The library's verdict calls, and their output buffer read. The numbers of the buffer's layout stand in this file alone.

use super::card::{Card, Lack, Rule, Rung};
use super::rules::Rules;

const SET_BYTES: usize = 32;
// The sets that stand before the rungs, in this order.
const GAINED: usize = 0;
const USED: usize = 1;
const REMAINDER: usize = 2;
// Where the rungs begin.
const FRONT: usize = 3 * SET_BYTES;
const RUNG_BYTES: usize = 40;
// With this budget no sheet's work is stopped.
const BUDGET: u32 = 256;
// The most steps that the quick call makes, and its answer when another follows them.
pub const QUICK_BUDGET: u32 = 64;
pub const QUICK_STOPPED: u32 = 3000 + QUICK_BUDGET;

extern "C" {
    fn zuwendryk_verdict(sheet: *const u8, sheet_len: usize, cut: u32, budget: u32, buffer: *mut u8, buffer_len: usize) -> u32;
    fn zuwendryk_quick_verdict(sheet: *const u8, sheet_len: usize, cut: u32, budget: u32, buffer: *mut u8, buffer_len: usize) -> u32;
    fn zuwendryk_limited_verdict(sheet: *const u8, sheet_len: usize, cut: u32, budget: u32, rules: u8, buffer: *mut u8, buffer_len: usize) -> u32;
}

#[derive(Clone, Debug, PartialEq)]
pub enum Verdict {
    Reached(Vec<Rung>),
    OutOfReach { known: usize, lack: Lack },
}

// The answer's number, and the buffer behind it.
fn call(sheet: &[u8], cut: u32, budget: u32, rules: Rules) -> (u32, Vec<u8>) {
    let mut buffer = vec![0; FRONT + RUNG_BYTES * budget as usize];
    let (bytes, len, space) = (sheet.as_ptr(), sheet.len(), buffer.len());
    // Both areas are slices, so neither pointer is null and they don't overlap.
    let answer = match rules {
        Rules::EVERY => unsafe { zuwendryk_verdict(bytes, len, cut, budget, buffer.as_mut_ptr(), space) },
        _ => unsafe { zuwendryk_limited_verdict(bytes, len, cut, budget, rules.byte(), buffer.as_mut_ptr(), space) },
    };
    (answer, buffer)
}

// The entries of a set, in rising order.
fn members(set: &[u8]) -> Vec<usize> {
    (0..8 * set.len()).filter(|e| set[e / 8] >> (e % 8) & 1 == 1).collect()
}

// The entries of one of the sets before the rungs.
fn front(buffer: &[u8], set: usize) -> Vec<usize> {
    members(&buffer[SET_BYTES * set..][..SET_BYTES])
}

fn rung(bytes: &[u8]) -> Option<Rung> {
    let number = |at: usize| usize::from(bytes[at]) * 256 + usize::from(bytes[at + 1]);
    let (rule, sources) = match number(2) {
        1 => (Rule::Left, vec![number(4)]),
        2 => (Rule::Right, vec![number(4)]),
        3 => (Rule::Open, vec![number(4), number(6)]),
        4 => (Rule::Join, vec![number(4), number(6)]),
        5 => (Rule::Seal, vec![number(4), number(6)]),
        6 => (Rule::Sum, members(&bytes[8..RUNG_BYTES])),
        7 => (Rule::Unlock, vec![number(4), number(6)]),
        8 => (Rule::Lock, vec![number(4), number(6)]),
        _ => return None,
    };
    Some(Rung { head: number(0), rule, sources })
}

// The verdict of an answer and the buffer behind it, or the number that came back instead of one.
fn read(answer: u32, buffer: &[u8]) -> Result<Verdict, u32> {
    let made = answer as usize % 1000;
    match answer {
        1000..=1256 => {
            let rungs = buffer[FRONT..].chunks(RUNG_BYTES).take(made).map(rung).collect::<Option<Vec<_>>>();
            rungs.map(Verdict::Reached).ok_or(answer)
        }
        2000..=2256 => {
            let lack = Lack { used: front(buffer, USED), missing: front(buffer, REMAINDER) };
            Ok(Verdict::OutOfReach { known: front(buffer, GAINED).len(), lack })
        }
        _ => Err(answer),
    }
}

// The verdict on a listener with these rules after the first `cut` messages.
pub fn verdict(sheet: &[u8], cut: u32, rules: Rules) -> Result<Verdict, u32> {
    let (answer, buffer) = call(sheet, cut, BUDGET, rules);
    read(answer, &buffer)
}

// The same of a listener with every rule by the quick call, which may be stopped.
pub fn quick(sheet: &[u8], cut: u32) -> Result<Verdict, u32> {
    let mut buffer = [0; FRONT + RUNG_BYTES * QUICK_BUDGET as usize];
    // Both areas are slices, so neither pointer is null and they don't overlap.
    let answer = unsafe { zuwendryk_quick_verdict(sheet.as_ptr(), sheet.len(), cut, QUICK_BUDGET, buffer.as_mut_ptr(), buffer.len()) };
    read(answer, &buffer)
}

// What a listener has gained who heard nothing and made no step: the public atoms, each as its head, in rising order.
pub fn gained_at_start(sheet: &[u8]) -> Vec<usize> {
    let (answer, buffer) = call(sheet, 0, 0, Rules::EVERY);
    if answer < 1000 { vec![] } else { front(&buffer, GAINED) }
}

// The lowest-numbered entry of the same term as the first heard message: what a listener has gained who heard it and made no step. The
// sheet has no public atom; such an atom would be gained too.
pub fn head_of_first(sheet: &[u8]) -> Option<usize> {
    let (answer, buffer) = call(sheet, 1, 0, Rules::EVERY);
    if answer < 1000 { None } else { front(&buffer, GAINED).first().copied() }
}

// The verdicts at each cut up to the first that is reached, as the program's card has them of a listener with every rule.
pub fn verdicts(sheet: &[u8], heard: usize, rules: Rules) -> Result<Vec<Verdict>, u32> {
    let mut list = Vec::new();
    for cut in 0..=heard as u32 {
        list.push(verdict(sheet, cut, rules)?);
        if let Some(Verdict::Reached(_)) = list.last() {
            break;
        }
    }
    Ok(list)
}

// The card that these verdicts make. Without sum it is the goal itself that is missing, given here as its head.
pub fn card(list: &[Verdict], rules: Rules, goal: usize) -> Card {
    match list.last() {
        Some(Verdict::OutOfReach { known, .. }) if !rules.have(Rule::Sum) => {
            Card::OutOfReach { known: *known, lack: Some(Lack { used: vec![], missing: vec![goal] }) }
        }
        Some(Verdict::Reached(rungs)) => Card::Reached { cut: list.len() - 1, rungs: rungs.clone() },
        Some(Verdict::OutOfReach { known, lack }) => Card::OutOfReach { known: *known, lack: Some(lack.clone()) },
        None => Card::OutOfReach { known: 0, lack: None },
    }
}
