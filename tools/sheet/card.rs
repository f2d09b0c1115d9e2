// The program's card, read and replayed on its sheet: a card that could not be this sheet's is a fault with its place.

use super::bytes::refusal_word;
use super::heads::{add, Heads};
use super::model::{Entry, Half, Sheet, ON_HULL_LABEL};
use super::words::{decimal, end_of, fault, line, quoted, utf8, Fault, Line, Place, Word};

// In the order of the rules' numbers, from 1.
#[derive(Clone, Copy, Debug, PartialEq)]
pub enum Rule {
    Left,
    Right,
    Open,
    Join,
    Seal,
    Sum,
    Unlock,
    Lock,
}

// The rules with their words on a card.
pub const RULES: [(&str, Rule); 8] = [
    ("left", Rule::Left),
    ("right", Rule::Right),
    ("open", Rule::Open),
    ("join", Rule::Join),
    ("seal", Rule::Seal),
    ("sum", Rule::Sum),
    ("unlock", Rule::Unlock),
    ("lock", Rule::Lock),
];

pub const ONE_RULE: &str = "left, right, open, join, seal, sum, unlock or lock";

impl Rule {
    // The rule of a word on a card.
    pub fn of(word: &str) -> Option<Rule> {
        RULES.into_iter().find(|(name, _)| *name == word).map(|(_, rule)| rule)
    }

    // The rule in the words of documents 01 and 02.
    pub fn words(self) -> &'static str {
        match self {
            Rule::Left => "split left",
            Rule::Right => "split right",
            Rule::Open => "open",
            Rule::Join => "join",
            Rule::Seal => "seal",
            Rule::Sum => "sum",
            Rule::Unlock => "unlock",
            Rule::Lock => "lock",
        }
    }
}

#[derive(Clone, Debug, PartialEq)]
pub struct Rung {
    pub head: usize,
    pub rule: Rule,
    pub sources: Vec<usize>,
}

// What is missing of a goal that is out of reach. The used terms are known; they and the missing ones sum to the goal.
#[derive(Clone, Debug, Default, PartialEq)]
pub struct Lack {
    pub used: Vec<usize>,
    pub missing: Vec<usize>,
}

#[derive(Clone, Debug, PartialEq)]
pub enum Card {
    Reached { cut: usize, rungs: Vec<Rung> },
    // A printed card says nothing of what is missing.
    OutOfReach { known: usize, lack: Option<Lack> },
}

// The number at a position of the line.
fn number(line: &Line, position: usize, what: &str) -> Result<(usize, Place), Fault> {
    match line.words.get(position) {
        None => fault(line.end, format!("found the line's end, expected {what}")),
        Some(word) => match decimal(word.text) {
            Some(n) => Ok((n, word.place)),
            None => fault(word.place, format!("found {}, expected {what}", quoted(word.text))),
        },
    }
}

// These words stand at the line's positions from `from` on.
fn words(line: &Line, from: usize, expected: &str) -> Result<(), Fault> {
    for (i, want) in expected.split(' ').enumerate() {
        match line.words.get(from + i) {
            Some(word) if word.text == want => (),
            Some(word) => return fault(word.place, format!("found {}, expected \"{want}\"", quoted(word.text))),
            None => return fault(line.end, format!("found the line's end, expected \"{want}\"")),
        }
    }
    Ok(())
}

fn ends(line: &Line, position: usize) -> Result<(), Fault> {
    match line.words.get(position) {
        Some(word) => fault(word.place, format!("found {}, expected the line's end", quoted(word.text))),
        None => Ok(()),
    }
}

// A number that differs from the sheet's.
fn agree(what: &str, (found, place): (usize, Place), sheets: usize) -> Result<(), Fault> {
    if found == sheets {
        return Ok(());
    }
    fault(place, format!("found {what} {found}, expected the sheet's {sheets}: the card is of another sheet"))
}

struct Replay<'a> {
    sheet: &'a Sheet,
    heads: &'a Heads,
    public: Vec<usize>,
    gained: Vec<bool>,
}

impl<'a> Replay<'a> {
    // Before the first message the public atoms are gained.
    fn start(sheet: &'a Sheet, heads: &'a Heads) -> Replay<'a> {
        let public = sheet.public();
        let gained = (0..sheet.entries.len()).map(|entry| public.contains(&entry)).collect();
        Replay { sheet, heads, public, gained }
    }

    fn hear(&mut self, cut: usize) {
        for entry in self.sheet.heard.iter().take(cut) {
            self.gained[self.heads.head[*entry]] = true;
        }
    }

    fn goal_gained(&self) -> bool {
        self.gained[self.heads.head[self.sheet.goal]]
    }

    fn goal_public(&self) -> bool {
        self.public.contains(&self.heads.head[self.sheet.goal])
    }

    fn known(&self) -> usize {
        self.gained.iter().filter(|gained| **gained).count()
    }

    // The rule's case of the replay holds.
    fn right(&self, rung: &Rung) -> bool {
        let head = |entry: &usize| self.heads.head[*entry];
        let entry = |number: usize| &self.sheet.entries[number];
        let opposite = |key: &usize| entry(*key).half().map(Half::opposite);
        match (rung.rule, rung.sources.as_slice()) {
            (Rule::Left, [pair]) => matches!(entry(*pair), Entry::Pair(left, _) if head(left) == rung.head),
            (Rule::Right, [pair]) => matches!(entry(*pair), Entry::Pair(_, right) if head(right) == rung.head),
            (Rule::Open, [seal, key]) => matches!(entry(*seal), Entry::Seal(m, k) if head(k) == *key && head(m) == rung.head),
            (Rule::Join, [left, right]) => matches!(entry(rung.head), Entry::Pair(l, r) if head(l) == *left && head(r) == *right),
            (Rule::Seal, [message, key]) => matches!(entry(rung.head), Entry::Seal(m, k) if head(m) == *message && head(k) == *key),
            (Rule::Sum, items) => {
                let rising = items.windows(2).all(|two| two[0] < two[1]);
                rising && items.iter().fold([0; 4], |sum, item| add(sum, self.heads.sets[*item])) == self.heads.sets[rung.head]
            }
            (Rule::Unlock, [lock, half]) => matches!(entry(*lock), Entry::Lock(m, k) if opposite(k) == entry(*half).half() && head(m) == rung.head),
            (Rule::Lock, [message, key]) => matches!(entry(rung.head), Entry::Lock(m, k) if head(m) == *message && head(k) == *key),
            _ => false,
        }
    }

    // Reads a rung's line and takes the rung.
    fn rung(&mut self, line: &Line) -> Result<Rung, Fault> {
        words(line, 0, "rung")?;
        let (head, place) = number(line, 1, "the gained entry")?;
        let rule = match line.words.get(2) {
            None => return fault(line.end, format!("found the line's end, expected a rule: {ONE_RULE}")),
            Some(word) => match Rule::of(word.text) {
                None => return fault(word.place, format!("unknown word {}, expected {ONE_RULE}", quoted(word.text))),
                Some(rule) => rule,
            },
        };
        if self.heads.head.get(head) != Some(&head) || self.gained[head] || self.goal_gained() {
            return fault(place, format!("a rung can't gain entry {head} here, expected a head not gained before: the card is of another sheet"));
        }
        let sources = (3..line.words.len()).map(|at| self.source(line, at)).collect::<Result<Vec<_>, _>>()?;
        let rung = Rung { head, rule, sources };
        if !self.right(&rung) {
            let found = format!("entry {head} doesn't follow by {} from these sources", rule.words());
            return fault(place, format!("{found}, expected a right rung: the card is of another sheet or damaged"));
        }
        self.gained[head] = true;
        Ok(rung)
    }

    fn source(&self, line: &Line, at: usize) -> Result<usize, Fault> {
        let (source, place) = number(line, at, "a source's entry number")?;
        match self.gained.get(source) {
            Some(true) => Ok(source),
            _ => fault(place, format!("the source {source} isn't gained yet, expected a gained head: the card is of another sheet or damaged")),
        }
    }
}

// The lines of a card, taken one after the other.
struct Lines<'a> {
    lines: std::iter::Enumerate<std::str::Lines<'a>>,
    end: Place,
}

impl<'a> Lines<'a> {
    fn next(&mut self, expected: &str) -> Result<Line<'a>, Fault> {
        match self.lines.next() {
            Some((i, text)) => Ok(line(text, i + 1)),
            None => fault(self.end, format!("the card is cut short: found its end, expected {expected}")),
        }
    }

    fn finish(&mut self) -> Result<(), Fault> {
        match self.lines.next() {
            Some((i, text)) => fault(Place { line: i + 1, column: 1 }, format!("found {}, expected the card's end", quoted(text))),
            None => Ok(()),
        }
    }
}

fn first_line(line: &Line, sheet: &Sheet) -> Result<(), Fault> {
    if let Some(Word { text: "refused", place }) = line.words.first().copied() {
        let (n, _) = number(line, 1, "the refusal's number")?;
        let word = u32::try_from(n).ok().and_then(refusal_word).unwrap_or("no such refusal");
        return fault(place, format!("found refused {n} ({word}), expected a card of this sheet, which is good: the card is of another sheet"));
    }
    words(line, 0, "goal")?;
    agree("goal", number(line, 1, "the goal's entry")?, sheet.goal)?;
    words(line, 2, "heard")?;
    agree("heard", number(line, 3, "the number of heard messages")?, sheet.heard.len())?;
    ends(line, 4)
}

// The number known in an out-of-reach line. It is at least what is public or was heard, and at least what was known before.
fn out_of_reach(line: &Line, replay: &Replay, before: usize) -> Result<usize, Fault> {
    words(line, 2, "out of reach known")?;
    let (known, place) = number(line, 6, "the number known")?;
    ends(line, 7)?;
    let (least, most) = (replay.known().max(before), replay.heads.count().saturating_sub(1));
    if replay.goal_gained() {
        let how = if replay.goal_public() { format!("is {ON_HULL_LABEL}") } else { "was heard before this cut".to_string() };
        return fault(line.words[2].place, format!("found out of reach, but the goal {how}: the card is of another sheet"));
    }
    if known < least || known > most {
        let less = if known < replay.public.len() { format!(", or leaves out what is {ON_HULL_LABEL}") } else { String::new() };
        return fault(place, format!("found known {known}, expected {least} to {most}: the card is of another sheet{less}"));
    }
    Ok(known)
}

fn reached(line: &Line, lines: &mut Lines, replay: &mut Replay) -> Result<Vec<Rung>, Fault> {
    words(line, 2, "reached rungs")?;
    let (count, place) = number(line, 4, "the number of rungs")?;
    ends(line, 5)?;
    let mut rungs = Vec::new();
    for made in 0..count {
        let next = lines.next(&format!("rung line {} of {count}", made + 1))?;
        rungs.push(replay.rung(&next)?);
    }
    if !replay.goal_gained() {
        return fault(place, format!("found reached, but the {count} rungs don't gain the goal: the card is of another sheet"));
    }
    lines.finish()?;
    Ok(rungs)
}

// The card of a sheet.
pub fn parse(bytes: &[u8], sheet: &Sheet, heads: &Heads) -> Result<Card, Fault> {
    let text = utf8(bytes)?;
    let end = end_of(text);
    let mut lines = Lines { lines: text.lines().enumerate(), end };
    first_line(&lines.next("a line: goal ENTRY heard COUNT")?, sheet)?;
    let mut replay = Replay::start(sheet, heads);
    let mut known = 0;
    for cut in 0..=sheet.heard.len() {
        replay.hear(cut);
        let line = lines.next(&format!("a line for cut {cut}"))?;
        words(&line, 0, "cut")?;
        words(&line, 1, &cut.to_string())?;
        if line.words.get(2).map(|word| word.text) == Some("reached") {
            let rungs = reached(&line, &mut lines, &mut replay)?;
            return whole(text, end).map(|()| Card::Reached { cut, rungs });
        }
        known = out_of_reach(&line, &replay, known)?;
    }
    lines.finish()?;
    whole(text, end).map(|()| Card::OutOfReach { known, lack: None })
}

// The last line has its end.
fn whole(text: &str, end: Place) -> Result<(), Fault> {
    if text.ends_with('\n') {
        return Ok(());
    }
    fault(end, "the card is cut short: found its end, expected the line's end".to_string())
}
