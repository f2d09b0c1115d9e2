// A verdict in names: the first line says it in plain words, then the rules that the listener is without and the public atoms if there are
// any, a line a cut, the rungs or what is missing, and which names are one term. All of it comes from the library's calls.

use super::bytes::{encode, refusal_word};
use super::card::{Lack, Rule, Rung};
use super::model::{Sheet, ON_HULL_LABEL};
use super::notes::{counted, listed, public_atoms};
use super::rules::Rules;
use super::verdict::{gained_at_start, head_of_first, verdict, verdicts, Verdict};
use std::collections::BTreeSet;

pub struct Judged {
    pub text: String,
    pub reached: bool,
}

// The number that came back in place of a verdict, in words.
pub fn refused(number: u32) -> String {
    match refusal_word(number) {
        Some(word) => format!("refused {number} ({word})"),
        None => format!("the library answered {number}, which is no verdict"),
    }
}

fn out_of_reach_line(sheet: &Sheet, public: &[usize], cut: usize, rules: Rules) -> String {
    let (goal, all) = (sheet.heading(sheet.goal), sheet.heard.len());
    let names = if public.is_empty() { String::new() } else { format!("the {} and ", public_atoms(public.len())) };
    let heard = match cut {
        0 => "nothing heard".to_string(),
        _ if cut < all => format!("the first {cut} of {all} heard messages"),
        _ => format!("the {}", counted(all, "heard message", "heard messages")),
    };
    let limit = if rules == Rules::EVERY { String::new() } else { format!("without {} ", listed(&rules.lacking())) };
    format!("out of reach: {limit}no row of steps from {names}{heard} gains {goal}, through terms of any size\n")
}

fn reached_line(sheet: &Sheet, public: &[usize], cut: usize, rungs: usize) -> String {
    let (goal, all) = (sheet.heading(sheet.goal), sheet.heard.len());
    let who = match cut {
        0 if all == 0 => "who heard nothing".to_string(),
        0 => format!("who heard none of the {all} messages"),
        _ => format!("who heard the first {cut} of {all} messages"),
    };
    if rungs > 0 {
        return format!("reached: a listener {who} gains {goal} in {}\n", counted(rungs, "step", "steps"));
    }
    let shown = public.contains(&head(&sheet.without_public(), sheet.goal));
    let why = if shown { format!("is {ON_HULL_LABEL}") } else { "was heard".to_string() };
    format!("reached: a listener {who} has {goal} without a step, since it {why}\n")
}

// The verdict of one cut in plain words.
fn first_line(sheet: &Sheet, public: &[usize], cut: usize, verdict: &Verdict, rules: Rules) -> String {
    match verdict {
        Verdict::OutOfReach { .. } => out_of_reach_line(sheet, public, cut, rules),
        Verdict::Reached(rungs) => reached_line(sheet, public, cut, rungs.len()),
    }
}

// The rules that the listener is without; nothing where he has every one.
fn rules_line(rules: Rules) -> String {
    if rules == Rules::EVERY { String::new() } else { format!("the listener is without: {}\n", rules.lacking().join(", ")) }
}

// The public atoms by name; nothing where the sheet has none.
fn public_line(sheet: &Sheet, public: &[usize]) -> String {
    let names: Vec<String> = public.iter().map(|entry| sheet.heading(*entry)).collect();
    if names.is_empty() { String::new() } else { format!("{ON_HULL_LABEL}: {}\n", names.join(", ")) }
}

fn cut_line(sheet: &Sheet, cut: usize, verdict: &Verdict) -> String {
    let place = match cut {
        0 => "before any message".to_string(),
        _ => format!("after {}", sheet.heading(sheet.heard[cut - 1])),
    };
    match verdict {
        Verdict::Reached(rungs) => format!("cut {cut} {place}: reached, {}\n", counted(rungs.len(), "step", "steps")),
        Verdict::OutOfReach { known, .. } => format!("cut {cut} {place}: out of reach, {known} known\n"),
    }
}

fn rung_line(sheet: &Sheet, rung: &Rung) -> String {
    let names: Vec<String> = rung.sources.iter().map(|source| sheet.label(*source)).collect();
    let (words, between) = match rung.rule {
        Rule::Left => ("split left", ""),
        Rule::Right => ("split right", ""),
        Rule::Open => ("open", " with "),
        Rule::Join => ("join", ", "),
        Rule::Seal => ("seal", " under "),
        Rule::Sum if names.is_empty() => ("sum of nothing", ""),
        Rule::Sum => ("sum of", ", "),
        Rule::Unlock => ("unlock", " with "),
        Rule::Lock => ("lock", " under "),
    };
    let space = if names.is_empty() { "" } else { " " };
    format!("{} {words}{space}{}\n", sheet.label(rung.head), names.join(between))
}

// What is missing of the goal, and the known terms that are used with it. Without sum it is the goal itself, which may be zero.
fn lack_lines(sheet: &Sheet, lack: &Lack, rules: Rules) -> String {
    let names = |list: &[usize]| list.iter().map(|entry| sheet.heading(*entry)).collect::<Vec<_>>().join(", ");
    let goal = sheet.heading(sheet.goal);
    let text = match lack.missing.len() {
        0 => "missing: the sum of nothing, which is zero\n".to_string(),
        1 => format!("missing: {}\n", names(&lack.missing)),
        _ => format!("missing: the sum of {}\n", names(&lack.missing)),
    };
    if !rules.have(Rule::Sum) {
        return text + &format!("without sum no known term is used: {goal} itself is missing\n");
    }
    if lack.used.is_empty() {
        return text;
    }
    text + &format!("{goal} is the sum of what is missing and {}\n", names(&lack.used))
}

// The entries that the lines behind the cuts name.
fn told(sheet: &Sheet, verdict: &Verdict) -> BTreeSet<usize> {
    match verdict {
        Verdict::Reached(rungs) => rungs.iter().flat_map(|rung| rung.sources.iter().copied().chain([rung.head])).collect(),
        Verdict::OutOfReach { lack, .. } => lack.used.iter().chain(&lack.missing).copied().chain([sheet.goal]).collect(),
    }
}

// The lowest-numbered entry of the same term, in a sheet without public atoms.
fn head(asked: &Sheet, entry: usize) -> usize {
    let alone = Sheet { heard: vec![entry], ..asked.clone() };
    head_of_first(&encode(&alone)).unwrap_or(entry)
}

// Steps, used and missing terms and public atoms are known under one name each. A line for each other name of theirs and the goal's: among
// public atoms, heard messages, the parts of the entries that the lines before name, and the goal.
fn same_lines(sheet: &Sheet, public: &[usize], cut: usize, verdict: &Verdict) -> String {
    let asked = sheet.without_public();
    let mut shown = told(sheet, verdict);
    let parts: Vec<usize> = shown.iter().filter_map(|entry| sheet.entries.get(*entry)).flat_map(|entry| entry.parts()).collect();
    shown.insert(head(&asked, sheet.goal));
    shown.extend(public);
    let numbers: Vec<u32> = public.iter().filter_map(|head| sheet.entries.get(*head)?.number()).collect();
    let again = (0..sheet.entries.len()).filter(|entry| sheet.entries[*entry].number().map_or(false, |number| numbers.contains(&number)));
    let named: BTreeSet<usize> = again.chain(sheet.heard.iter().take(cut).copied()).chain([sheet.goal]).chain(parts).collect();
    let mut text = String::new();
    for entry in named {
        let head = head(&asked, entry);
        if head != entry && shown.contains(&head) {
            text += &format!("{} is the same term as {}\n", sheet.label(entry), sheet.label(head));
        }
    }
    text
}

// What is said of the verdict at one cut: the verdict, what the listener has and lacks before he hears anything, `cuts`, and the rungs or what is missing.
pub fn told_at(bytes: &[u8], sheet: &Sheet, cut: usize, verdict: &Verdict, rules: Rules, cuts: &str) -> String {
    let public = gained_at_start(bytes);
    let mut text = first_line(sheet, &public, cut, verdict, rules) + &rules_line(rules) + &public_line(sheet, &public) + cuts;
    match verdict {
        Verdict::Reached(rungs) => rungs.iter().for_each(|rung| text += &rung_line(sheet, rung)),
        Verdict::OutOfReach { lack, .. } => text += &lack_lines(sheet, lack, rules),
    }
    text + &same_lines(sheet, &public, cut, verdict)
}

// A cut past the heard messages is said with their number.
fn refused_cut(number: u32, sheet: &Sheet, cut: Option<u32>) -> String {
    match cut {
        Some(cut) if number == 8 => format!("{}: --cut {cut}, and {} heard", refused(number), counted(sheet.heard.len(), "message was", "messages were")),
        _ => refused(number),
    }
}

// Judges a sheet's bytes after one cut, or after each up to the first reached, by these rules. `sheet` has the names.
pub fn judge(bytes: &[u8], sheet: &Sheet, cut: Option<u32>, rules: Rules) -> Result<Judged, String> {
    let asked = match cut {
        Some(cut) => verdict(bytes, cut, rules).map(|answer| (cut as usize, vec![answer])),
        None => verdicts(bytes, sheet.heard.len(), rules).map(|list| (0, list)),
    };
    let (first, list) = asked.map_err(|number| refused_cut(number, sheet, cut))?;
    let cut = first + list.len() - 1;
    let last = list.last().cloned().unwrap_or(Verdict::OutOfReach { known: 0, lack: Lack::default() });
    let cuts: String = list.iter().enumerate().map(|(i, verdict)| cut_line(sheet, first + i, verdict)).collect();
    Ok(Judged { text: told_at(bytes, sheet, cut, &last, rules, &cuts), reached: matches!(last, Verdict::Reached(_)) })
}
