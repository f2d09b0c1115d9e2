// Quick calls that are wrong on purpose, by the simple verdict with a fault put in: the test of the limits has to fail on each.

use super::sheets::FRONT;
use super::{fault, number, simple};

// The call with this limit: refusal 9 for a budget over it, after 1 to 8 and 12 and ahead of 10.
pub fn with_limit(limit: u32, s: &[u8], cut: u32, budget: u32, out: &mut [u8]) -> u32 {
    match simple::verdict(s, cut, 0, &mut [0; FRONT]) {
        refused @ 1..=12 => refused,
        _ if budget > limit => 9,
        _ => simple::verdict(s, cut, budget, out),
    }
}

// The limit of a faulty library.
fn limit(s: &[u8]) -> u32 {
    match fault() {
        "a quick budget of 64 refused" => 63,
        "a quick budget of 65 let through" => 65,
        "a quick budget of 128 let through" => 128,
        "no limit on the quick call" => 256,
        "the limit taken from the entries" if s.len() >= 6 => number(s, 4).into(),
        "the limit taken from the entries where these are fewer" if s.len() >= 6 => u32::from(number(s, 4)).min(64),
        "the limit taken from the messages" if s.len() >= 8 => number(s, 6).into(),
        _ => 64,
    }
}

// The budget that a faulty library works with.
fn budget_of(budget: u32) -> u32 {
    match fault() {
        "a budget over 64 taken for 64" => budget.min(64),
        "the budget modulo 64" => budget % 64,
        "the low byte of the budget" => budget % 256,
        "the low half of the budget" => budget % 65536,
        "the quick call with no budget at all" => 0,
        _ => budget,
    }
}

// One rung fewer than the budget allows, in a call that isn't refused.
fn one_fewer(s: &[u8], cut: u32, budget: u32, out: &mut [u8]) -> u32 {
    let answer = with_limit(64, s, cut, budget, &mut out.to_vec());
    let fewer = if answer >= 1000 { budget.saturating_sub(1) } else { budget };
    with_limit(64, s, cut, fewer, out)
}

fn judged(s: &[u8], cut: u32, budget: u32, out: &mut [u8]) -> u32 {
    match fault() {
        "9 ahead of all other refusals" if budget > 64 => 9,
        "9 ahead of 8" if budget > 64 && simple::verdict(s, 0, 0, &mut [0; FRONT]) >= 1000 => 9,
        "10 ahead of 9" if out.len() < FRONT + 40 * budget as usize && with_limit(64, s, cut, budget, &mut out.to_vec()) == 9 => 10,
        "8 for 9" if with_limit(64, s, cut, budget, &mut out.to_vec()) == 9 => 8,
        "room for 64 rungs whatever the budget" if out.len() < FRONT + 40 * 64 && with_limit(64, s, cut, budget, &mut out.to_vec()) >= 1000 => 10,
        "a rung fewer than the budget" => one_fewer(s, cut, budget, out),
        "the quick call without unlock and lock" if with_limit(64, s, cut, budget, &mut out.to_vec()) >= 1000 => simple::limited(s, cut, budget, 63, out),
        "the quick call at the whole log" if with_limit(64, s, cut, budget, &mut out.to_vec()) >= 1000 => with_limit(64, s, number(s, 6).into(), budget, out),
        _ => with_limit(limit(s), s, cut, budget_of(budget), out),
    }
}

// The number that a faulty library gives in place of another.
fn answered(budget: u32, answer: u32) -> u32 {
    match fault() {
        "stopped for out of reach where the budget is used up" if answer == 2000 + budget => answer + 1000,
        "stopped for out of reach with 64 rungs" if answer == 2064 => 3064,
        "stopped for reached where the budget is used up" if answer == 1000 + budget => answer + 2000,
        "out of reach for stopped" if answer >= 3000 => answer - 1000,
        "out of reach for stopped with 64 rungs" if answer == 3064 => 2064,
        "stopped for every out of reach" if answer / 1000 == 2 => answer + 1000,
        "no count in the quick call" if answer >= 1000 => answer / 1000 * 1000,
        "the budget for the count" if answer >= 1000 => answer / 1000 * 1000 + budget,
        _ => answer,
    }
}

// The bytes as a faulty library leaves them.
fn write(before: &[u8], out: &mut [u8], answer: u32) {
    let end = FRONT + 40 * (answer as usize % 1000);
    match (fault(), answer) {
        ("later bytes cleared in the quick call", 1000..) => out[end..].fill(0),
        ("the quick call writes nothing", 1000..) => out.copy_from_slice(before),
        ("the quick call writes no rungs", 1000..) => out[FRONT..end].copy_from_slice(&before[FRONT..end]),
        ("the quick call leaves used set and remainder", 1000..) => out[32..FRONT].copy_from_slice(&before[32..FRONT]),
        ("a refused quick call clears the buffer", ..=12) => out.fill(0),
        ("a quick call refused by its budget clears the buffer", 9) => out.fill(0),
        _ => {}
    }
}

pub fn verdict(s: &[u8], cut: u32, budget: u32, out: &mut [u8]) -> u32 {
    let before = out.to_vec();
    let answer = judged(s, cut, budget, out);
    write(&before, out, answer);
    answered(budget, answer)
}
