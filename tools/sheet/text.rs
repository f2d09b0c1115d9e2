// The text notation of a sheet, read: one statement a line, every fault with its place.

use super::model::{Entry, Half, Sheet, MOST_ENTRIES, MOST_HEARD, MOST_ITEMS};
use super::words::{decimal, end_of, fault, line, quoted, utf8, Fault, Line, Place, Word};
use std::collections::HashMap;

// private, public, lock and long aren't reserved: they stand only where no name can, so that older texts with these names stay good.
const RESERVED: [&str; 7] = ["zero", "atom", "pair", "seal", "sum", "heard", "goal"];
const KINDS: &str = "zero, atom, pair, seal, sum, private, public or lock";

// The least number that an atom without one gets.
const LEAST_OWN: u32 = 1000;

// A text's sheet, and what its writer may not have meant.
#[derive(Clone, Debug)]
pub struct Text {
    pub sheet: Sheet,
    pub notes: Vec<Fault>,
}

// What has been read so far. `named` gives a name's entry and line; `goal` the goal and its line. `numbered` has the name with which
// each atom and half that is written with its number first stands; `unnumbered` the atoms that get a number at the end.
#[derive(Default)]
struct Reader {
    entries: Vec<Entry>,
    names: Vec<Option<String>>,
    named: HashMap<String, (usize, usize)>,
    numbered: HashMap<String, Option<String>>,
    unnumbered: Vec<usize>,
    notes: Vec<Fault>,
    heard: Vec<usize>,
    goal: Option<(usize, usize)>,
}

fn is_name(word: &str) -> bool {
    let mut letters = word.chars();
    let first = letters.next().map_or(false, char::is_alphabetic);
    first && letters.all(|c| c.is_alphabetic() || c.is_ascii_digit() || matches!(c, '_' | '-' | '\''))
}

// The word at a position of the line, or a fault at the line's end that says what was expected there.
fn word<'a>(line: &Line<'a>, position: usize, what: &str) -> Result<Word<'a>, Fault> {
    match line.words.get(position) {
        Some(word) => Ok(*word),
        None => fault(line.end, format!("found the line's end, expected {what}")),
    }
}

// No word may stand at this position or after it.
fn ends(line: &Line, position: usize, what: &str) -> Result<(), Fault> {
    match line.words.get(position) {
        Some(word) => fault(word.place, format!("found {}, expected the line's end after {what}", quoted(word.text))),
        None => Ok(()),
    }
}

// The number of an atom or a key pair, which is at most `most`.
fn own_number<T: TryFrom<usize> + std::fmt::Display>(word: Word, most: T) -> Result<T, Fault> {
    match decimal(word.text).map(T::try_from) {
        Some(Ok(number)) => Ok(number),
        Some(Err(_)) => fault(word.place, format!("the number {} is out of range, expected 0 to {most}", shown_number(word.text))),
        None => fault(word.place, format!("found {}, expected a number from 0 to {most}", quoted(word.text))),
    }
}

// The atom of a line that has its number: in the long record where long stands behind the number, or where the number needs it.
fn atom(line: &Line) -> Result<Entry, Fault> {
    let number = own_number(word(line, 2, "the atom's number")?, u32::MAX)?;
    match line.words.get(3) {
        None => Ok(Entry::atom(number)),
        Some(word) if word.text == "long" => ends(line, 4, "long").map(|()| Entry::Atom { number, long: true }),
        Some(word) => fault(word.place, format!("found {}, expected long or the line's end after the atom's number", quoted(word.text))),
    }
}

// The half of a line, whose number is the key pair's.
fn half(line: &Line, private: bool) -> Result<Entry, Fault> {
    let number = own_number(word(line, 2, "the key pair's number")?, u16::MAX)?;
    ends(line, 3, "the key pair's number").map(|()| Entry::Half(Half { private, number }))
}

// The digits of a number as written, cut when there are many.
fn shown_number(digits: &str) -> String {
    if digits.len() > 20 { format!("{}...", &digits[..20]) } else { digits.to_string() }
}

impl Reader {
    // The entry that a word names. Its line stands above.
    fn entry(&self, word: Word) -> Result<usize, Fault> {
        let declared = self.entries.len();
        if let Some(number) = decimal(word.text) {
            if number < declared {
                return Ok(number);
            }
            let range = match declared {
                0 => "an entry declared above, and there is none".to_string(),
                _ => format!("an entry declared above: 0 to {}", declared - 1),
            };
            return fault(word.place, format!("entry {} isn't declared above, expected {range}", shown_number(word.text)));
        }
        match self.named.get(word.text) {
            Some((entry, _)) => Ok(*entry),
            None => fault(word.place, format!("entry {} isn't declared above, expected the number or name of an entry declared above", quoted(word.text))),
        }
    }

    // The label of the next entry: none if it is its number, or its name.
    fn label(&self, word: Word) -> Result<Option<String>, Fault> {
        let place = self.entries.len();
        if let Some(number) = decimal(word.text) {
            if number == place {
                return Ok(None);
            }
            return fault(word.place, format!("the label {} isn't the entry's place, expected {place} or a name", shown_number(word.text)));
        }
        if RESERVED.contains(&word.text) {
            return fault(word.place, format!("{} is reserved and can't be a name, expected a label, heard or goal", quoted(word.text)));
        }
        if !is_name(word.text) {
            let rule = "a name (a letter, then letters, digits, _, - or ')";
            return fault(word.place, format!("found {}, expected heard, goal, the label {place} or {rule}", quoted(word.text)));
        }
        match self.named.get(word.text) {
            Some((entry, line)) => {
                let found = format!("the name {} is used twice: it stands for entry {entry} (line {line})", quoted(word.text));
                fault(word.place, format!("{found}, expected another name"))
            }
            None => Ok(Some(word.text.to_string())),
        }
    }

    // The two entries behind a kind's word.
    fn two(&self, line: &Line, kind: &str, first: &str, second: &str) -> Result<(usize, usize), Fault> {
        let one = self.entry(word(line, 2, first)?)?;
        let other = self.entry(word(line, 3, second)?)?;
        ends(line, 4, &format!("the two entries of a {kind}"))?;
        Ok((one, other))
    }

    // The message and the key of a lock. The key's own line is private or public; a sum that is the same term won't do.
    fn lock(&self, line: &Line) -> Result<Entry, Fault> {
        let (message, key) = self.two(line, "lock", "the message", "the key")?;
        if self.entries[key].half().is_some() {
            return Ok(Entry::Lock(message, key));
        }
        let found = word(line, 3, "the key")?;
        fault(found.place, format!("wrong half: the key {} isn't a half, expected an entry whose own line is private or public", quoted(found.text)))
    }

    fn items(&self, words: &[Word]) -> Result<Vec<usize>, Fault> {
        if let Some(word) = words.get(MOST_ITEMS) {
            return fault(word.place, format!("found {} items in a sum, expected at most {MOST_ITEMS}", words.len()));
        }
        words.iter().map(|word| self.entry(*word)).collect()
    }

    // The term of an entry's line.
    fn term(&self, line: &Line) -> Result<Entry, Fault> {
        let kind = word(line, 1, &format!("{KINDS} after the label"))?;
        match kind.text {
            "zero" => ends(line, 2, "zero").map(|()| Entry::Zero),
            "atom" if line.words.len() == 2 => Ok(Entry::atom(LEAST_OWN)),
            "atom" => atom(line),
            "pair" => self.two(line, "pair", "the left entry", "the right entry").map(|(l, r)| Entry::Pair(l, r)),
            "seal" => self.two(line, "seal", "the message", "the key").map(|(m, k)| Entry::Seal(m, k)),
            "sum" => self.items(line.words.get(2..).unwrap_or(&[])).map(Entry::Sum),
            "private" | "public" => half(line, kind.text == "private"),
            "lock" => self.lock(line),
            other => fault(kind.place, format!("unknown word {}, expected {KINDS}", quoted(other))),
        }
    }

    // Takes an atom or a half as written, and notes a second name for it.
    fn note(&mut self, written: &str, name: Option<&String>, place: Place) {
        let first = self.numbered.entry(written.to_string()).or_insert_with(|| name.cloned());
        match (first, name) {
            (Some(first), Some(name)) if first != name => {
                let line = self.named.get(first).map_or(0, |(_, line)| *line);
                let both = format!("{} and {} (line {line})", quoted(name), quoted(first));
                let other = if written.starts_with("atom") { "; without a number an atom is like no other" } else { "" };
                self.notes.push(Fault { place, message: format!("note: {both} are one term, since both are {written}{other}") });
            }
            (first, _) => *first = first.take().or_else(|| name.cloned()),
        }
    }

    // Gives each atom without a number the least one from 1000 on that no other has.
    fn number_atoms(&mut self) {
        let taken = |atom: &Entry| atom.numbered().map_or(false, |written| self.numbered.contains_key(&written));
        let free = (LEAST_OWN..).map(Entry::atom).filter(|atom| !taken(atom));
        for (entry, atom) in self.unnumbered.iter().zip(free) {
            self.entries[*entry] = atom;
        }
    }

    fn declare(&mut self, line: &Line, first: Word) -> Result<(), Fault> {
        let number = self.entries.len();
        let name = self.label(first)?;
        let term = self.term(line)?;
        if number == MOST_ENTRIES {
            return fault(first.place, format!("found entry line {}, expected at most {MOST_ENTRIES}", number + 1));
        }
        match term.numbered() {
            Some(_) if line.words.len() == 2 => self.unnumbered.push(number),
            Some(written) => self.note(&written, name.as_ref(), first.place),
            None => (),
        }
        if let Some(name) = &name {
            self.named.insert(name.clone(), (number, first.place.line));
        }
        self.names.push(name);
        self.entries.push(term);
        Ok(())
    }

    fn hear(&mut self, words: &[Word]) -> Result<(), Fault> {
        for word in words {
            let entry = self.entry(*word)?;
            if self.heard.len() == MOST_HEARD {
                return fault(word.place, format!("found heard message {}, expected at most {MOST_HEARD}", MOST_HEARD + 1));
            }
            self.heard.push(entry);
        }
        Ok(())
    }

    fn aim(&mut self, line: &Line, first: Word) -> Result<(), Fault> {
        if let Some((_, earlier)) = self.goal {
            return fault(first.place, format!("found a second goal, expected one: the first is on line {earlier}"));
        }
        let entry = self.entry(word(line, 1, "the goal's entry")?)?;
        ends(line, 2, "the goal's entry")?;
        self.goal = Some((entry, first.place.line));
        Ok(())
    }

    fn statement(&mut self, line: &Line) -> Result<(), Fault> {
        match line.words.first().copied() {
            None => Ok(()),
            Some(first) if first.text == "heard" => self.hear(&line.words[1..]),
            Some(first) if first.text == "goal" => self.aim(line, first),
            Some(first) => self.declare(line, first),
        }
    }

    fn finish(mut self, end: Place) -> Result<Text, Fault> {
        self.number_atoms();
        if self.entries.is_empty() {
            return fault(end, format!("found no entries, expected 1 to {MOST_ENTRIES} entry lines"));
        }
        match self.goal {
            None => fault(end, "found no goal, expected one line: goal ENTRY".to_string()),
            Some((goal, _)) => {
                let sheet = Sheet { entries: self.entries, names: self.names, heard: self.heard, goal };
                Ok(Text { sheet, notes: self.notes })
            }
        }
    }
}

// The sheet of a text with its notes, or its first fault.
pub fn parse(bytes: &[u8]) -> Result<Text, Fault> {
    let text = utf8(bytes)?;
    let mut reader = Reader::default();
    for (i, one) in text.lines().enumerate() {
        reader.statement(&line(one, i + 1))?;
    }
    reader.finish(end_of(text))
}
