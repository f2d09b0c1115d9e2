// A sheet as text: numbers as labels, and as a comment each compound term in short, or that an atom is public.

use super::model::{Entry, Sheet, ON_HULL_LABEL};

const COMMENT_WIDTH: usize = 56;
const HEARD_A_LINE: usize = 16;

fn numbers(list: &[usize]) -> String {
    list.iter().map(|n| format!(" {n}")).collect()
}

fn statement(entry: &Entry) -> String {
    match entry {
        Entry::Zero => "zero".to_string(),
        Entry::Atom { .. } | Entry::Half(_) => entry.numbered().unwrap_or_default() + if entry.says_long() { " long" } else { "" },
        Entry::Pair(left, right) => format!("pair {left} {right}"),
        Entry::Seal(message, key) => format!("seal {message} {key}"),
        Entry::Sum(items) => format!("sum{}", numbers(items)),
        Entry::Lock(message, key) => format!("lock {message} {key}"),
    }
}

// Writes a term with at most `depth` levels opened. False when it would be wider than a comment.
fn write_term(sheet: &Sheet, entry: usize, depth: usize, inner: bool, out: &mut String) -> bool {
    let mut parts = |before: &str, list: &[usize], between: &str, after: &str, inner: bool| {
        out.push_str(before);
        for (i, part) in list.iter().enumerate() {
            if i > 0 {
                out.push_str(between);
            }
            if out.len() > COMMENT_WIDTH || !write_term(sheet, *part, depth.saturating_sub(1), inner, out) {
                return false;
            }
        }
        out.push_str(after);
        out.len() <= COMMENT_WIDTH
    };
    match sheet.entries.get(entry) {
        Some(Entry::Zero) | None => out.push('0'),
        Some(Entry::Atom { number, .. }) => out.push_str(&format!("a{number}")),
        Some(Entry::Half(half)) => out.push_str(&format!("{}{}", if half.private { "priv" } else { "pub" }, half.number)),
        Some(_) if depth == 0 => out.push_str(&format!("#{entry}")),
        Some(Entry::Pair(left, right)) => return parts("(", &[*left, *right], ", ", ")", false),
        Some(Entry::Seal(message, key)) => return parts("{", &[*message], "", "}", false) && parts("", &[*key], "", "", true),
        Some(Entry::Lock(message, key)) => return parts("[", &[*message], "", "]", false) && parts("", &[*key], "", "", true),
        Some(Entry::Sum(items)) if items.is_empty() => out.push('0'),
        Some(Entry::Sum(items)) if inner && items.len() > 1 => return parts("(", items, " + ", ")", false),
        Some(Entry::Sum(items)) => return parts("", items, " + ", "", inner),
    }
    true
}

// The term in short, as deep as fits; nothing where the statement alone says as much.
fn comment(sheet: &Sheet, entry: usize) -> Option<String> {
    match sheet.entries.get(entry)? {
        atom if atom.is_public() => return Some(ON_HULL_LABEL.to_string()),
        Entry::Zero | Entry::Atom { .. } | Entry::Half(_) => return None,
        Entry::Sum(items) if items.is_empty() => return None,
        _ => (),
    }
    (1..=6).rev().find_map(|depth| {
        let mut out = String::new();
        write_term(sheet, entry, depth, false, &mut out).then_some(out)
    })
}

fn entry_lines(sheet: &Sheet) -> String {
    let mut text = String::new();
    for (i, entry) in sheet.entries.iter().enumerate() {
        let line = format!("{i} {}", statement(entry));
        match comment(sheet, i) {
            Some(term) => text.push_str(&format!("{line:<20} # {term}\n")),
            None => text.push_str(&format!("{line}\n")),
        }
    }
    text
}

// What the comments mean. Halves and locks are left out where the sheet has none.
fn legend(sheet: &Sheet) -> String {
    let more = sheet.entries.iter().any(|entry| matches!(entry, Entry::Half(_) | Entry::Lock(..)));
    let locks = if more { " pub7 public 7, priv7 private 7, [m]k m locked under k," } else { "" };
    format!("# In comments: a7 atom 7, (l, r) a pair, {{m}}k m sealed under k,{locks} x + y a sum, #5 entry 5.\n")
}

pub fn print(sheet: &Sheet) -> String {
    let mut text = legend(sheet);
    text.push_str(&entry_lines(sheet));
    if sheet.heard.is_empty() {
        text.push_str("heard\n");
    }
    for part in sheet.heard.chunks(HEARD_A_LINE) {
        text.push_str(&format!("heard{}\n", numbers(part)));
    }
    text.push_str(&format!("goal {}\n", sheet.goal));
    text
}
