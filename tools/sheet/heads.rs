// Sameness of entries: each entry's set of standard entries, and its head, by document 01.

use super::model::{Entry, Sheet};
use std::collections::HashMap;

pub type Set = [u64; 4];

pub struct Heads {
    pub sets: Vec<Set>,
    pub head: Vec<usize>,
}

pub fn add(a: Set, b: Set) -> Set {
    [a[0] ^ b[0], a[1] ^ b[1], a[2] ^ b[2], a[3] ^ b[3]]
}

fn single(entry: usize) -> Set {
    let mut set = [0; 4];
    set[entry >> 6 & 3] = 1 << (entry & 63);
    set
}

impl Heads {
    pub fn of(sheet: &Sheet) -> Heads {
        let mut heads = Heads { sets: Vec::new(), head: Vec::new() };
        // The standard entry of each atom, pair, seal, half and lock; the head of each set.
        let mut standard: HashMap<Key, usize> = HashMap::new();
        let mut first: HashMap<Set, usize> = HashMap::new();
        for (i, entry) in sheet.entries.iter().enumerate() {
            let mut set_of = |key| single(*standard.entry(key).or_insert(i));
            let set = match entry {
                Entry::Zero => [0; 4],
                Entry::Atom { number, .. } => set_of((1, *number as usize, 0)),
                Entry::Pair(left, right) => set_of((2, heads.head[*left], heads.head[*right])),
                Entry::Seal(message, key) => set_of((3, heads.head[*message], heads.head[*key])),
                Entry::Half(half) => set_of((if half.private { 5 } else { 6 }, usize::from(half.number), 0)),
                Entry::Lock(message, key) => set_of((7, heads.head[*message], heads.head[*key])),
                Entry::Sum(items) => items.iter().fold([0; 4], |sum, item| add(sum, heads.sets[*item])),
            };
            heads.sets.push(set);
            heads.head.push(*first.entry(set).or_insert(i));
        }
        heads
    }

    // How many different terms the sheet has.
    pub fn count(&self) -> usize {
        self.head.iter().enumerate().filter(|(i, head)| i == *head).count()
    }
}

// A kind with two numbers: that of the atom or the key pair, or the heads of the two parts.
type Key = (u8, usize, usize);
