// A sheet as a value: entries with their names, the heard messages, the goal. Document 01's limits stand here.

pub const MOST_ENTRIES: usize = 256;
pub const MOST_HEARD: usize = 256;
pub const MOST_ITEMS: usize = 64;

// Atoms up to this number are public: they are the board's names on the hull label, and a listener has them without hearing anything.
const LAST_PUBLIC: u32 = 255;

// Atoms up to this number fit the short record.
const LAST_SHORT: u32 = 65_535;

// What is said of a public atom.
pub const ON_HULL_LABEL: &str = "on the hull label";

// A half of the key pair with this number. Nobody has it without hearing or gaining it, whatever the number.
#[derive(Clone, Copy, Debug, PartialEq)]
pub struct Half {
    pub private: bool,
    pub number: u16,
}

impl Half {
    // The other half of the same pair.
    pub fn opposite(self) -> Half {
        Half { private: !self.private, ..self }
    }
}

// Entries can't be compared: an atom's record may be short or long, and its number alone makes the term.
#[derive(Clone, Debug)]
pub enum Entry {
    Zero,
    // `long` says which record it stands in. A number that doesn't fit the short one stands in the long one.
    Atom { number: u32, long: bool },
    Pair(usize, usize),
    Seal(usize, usize),
    Sum(Vec<usize>),
    Half(Half),
    // A message under a half, which the opposite half unlocks.
    Lock(usize, usize),
}

#[derive(Clone, Debug)]
pub struct Sheet {
    pub entries: Vec<Entry>,
    // One for each entry; none for an entry that has only its number.
    pub names: Vec<Option<String>>,
    pub heard: Vec<usize>,
    pub goal: usize,
}

impl Entry {
    // An atom in the short record where its number fits, else in the long one.
    pub fn atom(number: u32) -> Entry {
        Entry::Atom { number, long: number > LAST_SHORT }
    }

    // An atom's number. Atoms of one number are one term, in whichever record.
    pub fn number(&self) -> Option<u32> {
        if let Entry::Atom { number, .. } = self { Some(*number) } else { None }
    }

    // An atom in the long record whose number would fit the short one: its text says so.
    pub fn says_long(&self) -> bool {
        matches!(self, Entry::Atom { number, long: true } if *number <= LAST_SHORT)
    }

    pub fn half(&self) -> Option<Half> {
        if let Entry::Half(half) = self { Some(*half) } else { None }
    }

    // The word and the number of an atom or a half: they make its term.
    pub fn numbered(&self) -> Option<String> {
        match self {
            Entry::Atom { number, .. } => Some(format!("atom {number}")),
            Entry::Half(Half { private, number }) => Some(format!("{} {number}", if *private { "private" } else { "public" })),
            _ => None,
        }
    }

    // The entries that the record names.
    pub fn parts(&self) -> Vec<usize> {
        match self {
            Entry::Zero | Entry::Atom { .. } | Entry::Half(_) => vec![],
            Entry::Pair(one, other) | Entry::Seal(one, other) | Entry::Lock(one, other) => vec![*one, *other],
            Entry::Sum(items) => items.clone(),
        }
    }

    pub fn is_public(&self) -> bool {
        self.number().map_or(false, |number| number <= LAST_PUBLIC)
    }
}

impl Sheet {
    // The entry's name, or its number.
    pub fn label(&self, entry: usize) -> String {
        match self.names.get(entry) {
            Some(Some(name)) => name.clone(),
            _ => entry.to_string(),
        }
    }

    // The same in a sentence: a number has a word before it.
    pub fn heading(&self, entry: usize) -> String {
        match self.names.get(entry) {
            Some(Some(name)) => name.clone(),
            _ => format!("entry {entry}"),
        }
    }

    // The first atom with this number. It is the head: a sum that is an atom stands behind that atom.
    fn first_atom(&self, number: u32) -> usize {
        self.entries.iter().position(|entry| entry.number() == Some(number)).unwrap_or(0)
    }

    // The public atoms, each once, as its head, in rising order.
    pub fn public(&self) -> Vec<usize> {
        let first = |i: &usize| self.entries[*i].number().map(|number| self.first_atom(number)) == Some(*i);
        (0..self.entries.len()).filter(|i| self.entries[*i].is_public() && first(i)).collect()
    }

    // The sheet with other numbers for its atoms, so that none is public. Atoms that were the same are the same, and no others.
    pub fn without_public(&self) -> Sheet {
        let renumbered = |entry: &Entry| match entry {
            Entry::Atom { number, .. } => Entry::atom(LAST_PUBLIC + 1 + self.first_atom(*number) as u32),
            other => other.clone(),
        };
        Sheet { entries: self.entries.iter().map(renumbered).collect(), ..self.clone() }
    }
}
