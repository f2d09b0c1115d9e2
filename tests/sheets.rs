// Sheets as bytes, and a generator of random ones. Shared by the tests; it knows the formats of documents 01 and 02 and nothing of the library.

// The bytes of a call's buffer before its first rung: the gained set, the used set and the remainder, 32 bytes each (document 02, E5).
pub const FRONT: usize = 96;

#[derive(Clone, Debug)]
pub enum Entry {
    Zero,
    Atom(u32), // in the short record where the number fits
    Long(u32), // an atom in the long record, whatever its number
    Pair(u16, u16),
    Seal(u16, u16),
    Sum(Vec<u16>),
    Private(u16), // the private half of the key pair with this number
    Public(u16),
    Lock(u16, u16), // message entry, key entry
    Raw(Vec<u8>),
}

pub fn record(e: &Entry) -> Vec<u8> {
    let numbers = |kind: u8, ns: &[u16]| {
        let mut r = vec![kind];
        for n in ns {
            r.extend(n.to_be_bytes());
        }
        r
    };
    match e {
        Entry::Zero => vec![0],
        Entry::Atom(a) if *a < 65536 => numbers(1, &[*a as u16]),
        Entry::Atom(a) | Entry::Long(a) => numbers(1, &[(*a >> 16) as u16, *a as u16]),
        Entry::Pair(l, r) => numbers(2, &[*l, *r]),
        Entry::Seal(m, k) => numbers(3, &[*m, *k]),
        Entry::Sum(items) => numbers(4, items),
        Entry::Private(a) => numbers(5, &[*a]),
        Entry::Public(a) => numbers(6, &[*a]),
        Entry::Lock(m, k) => numbers(7, &[*m, *k]),
        Entry::Raw(bytes) => bytes.clone(),
    }
}

pub fn sheet(entries: &[Entry], heard: &[u16], goal: u16) -> Vec<u8> {
    let records: Vec<Vec<u8>> = entries.iter().map(record).collect();
    let mut s = b"SHT1".to_vec();
    for n in [entries.len() as u16, heard.len() as u16, goal] {
        s.extend(n.to_be_bytes());
    }
    let mut at = 10 + 4 * entries.len() + 2 * heard.len();
    for r in &records {
        s.extend((at as u16).to_be_bytes());
        s.extend((r.len() as u16).to_be_bytes());
        at += r.len();
    }
    for h in heard {
        s.extend(h.to_be_bytes());
    }
    for r in &records {
        s.extend(r);
    }
    s
}

// A small generator (xorshift), so that every run tries the same sheets.
pub struct Random(pub u64);

impl Random {
    pub fn next(&mut self) -> u64 {
        self.0 ^= self.0 << 13;
        self.0 ^= self.0 >> 7;
        self.0 ^= self.0 << 17;
        self.0
    }
    pub fn below(&mut self, n: u64) -> u64 {
        self.next() % n
    }
}

// A few atom numbers: two of atoms on the hull label, 0 and 255, and others that have bytes of these: 256, 65,280 and 65,536. The last two that fit
// a short record or a long one, and two more.
pub const ATOMS: [u32; 9] = [0, 255, 256, 65280, 1000, 1001, 65535, 65536, 4294967295];

// A few numbers of key pairs. The first three are numbers of atoms on the hull label too, and the last three share bytes.
pub const KEY_PAIRS: [u16; 5] = [0, 1, 255, 256, 65535];

// A good sheet's entries and trace: at most `most` entries over a few atoms, so that equal terms and cancelling sums are common.
pub fn random_entries(r: &mut Random, most: u64) -> (Vec<Entry>, Vec<u16>, u16) {
    entries_over(r, most, &ATOMS)
}

// The same over these atoms. One sheet in three has no key pair; the others have one or two, so that opposite halves are common.
pub fn entries_over(r: &mut Random, most: u64, atoms: &[u32]) -> (Vec<Entry>, Vec<u16>, u16) {
    let pairs: Vec<u16> = (0..r.below(3)).map(|_| KEY_PAIRS[r.below(5) as usize]).collect();
    let n = 1 + r.below(most);
    let first = match r.below(4) {
        0 => Entry::Zero,
        1 if !pairs.is_empty() => random_half(r, &pairs),
        _ => random_atom(r, atoms),
    };
    let mut entries = vec![first];
    for _ in 1..n {
        let entry = random_entry(r, atoms, &pairs, &entries);
        entries.push(entry);
    }
    let heard = (0..r.below(5)).map(|_| r.below(n) as u16).collect();
    (entries, heard, r.below(n) as u16)
}

fn random_atom(r: &mut Random, atoms: &[u32]) -> Entry {
    let number = atoms[r.below(atoms.len() as u64) as usize];
    if r.below(3) == 0 { Entry::Long(number) } else { Entry::Atom(number) }
}

fn random_half(r: &mut Random, pairs: &[u16]) -> Entry {
    let number = pairs[r.below(pairs.len() as u64) as usize];
    if r.below(2) == 0 { Entry::Private(number) } else { Entry::Public(number) }
}

// An entry that may stand after these. A lock's key is one of the halves before it, so there is no lock where none stands.
fn random_entry(r: &mut Random, atoms: &[u32], pairs: &[u16], before: &[Entry]) -> Entry {
    let i = before.len() as u64;
    let (a, b) = (r.below(i) as u16, r.below(i) as u16);
    let halves: Vec<u16> = (0..i as u16).filter(|e| matches!(before[usize::from(*e)], Entry::Private(_) | Entry::Public(_))).collect();
    match r.below(if pairs.is_empty() { 10 } else { 17 }) {
        0 => Entry::Zero,
        1..=2 => random_atom(r, atoms),
        3..=4 => Entry::Pair(a, b),
        5..=6 => Entry::Seal(a, b),
        7..=9 => Entry::Sum((0..r.below(5)).map(|_| r.below(i) as u16).collect()),
        10..=13 if !halves.is_empty() => Entry::Lock(a, halves[r.below(halves.len() as u64) as usize]),
        _ => random_half(r, pairs),
    }
}

fn halves_in(entries: &[Entry]) -> Vec<u16> {
    (0..entries.len() as u16).filter(|i| matches!(entries[usize::from(*i)], Entry::Private(_) | Entry::Public(_))).collect()
}

// Both halves of a key pair or two, atoms, and above them locks, pairs, seals, sums and halves again. What is heard are locks and halves,
// and the goal is an atom.
pub fn lock_entries(r: &mut Random) -> (Vec<Entry>, Vec<u16>, u16) {
    let pairs: Vec<u16> = (0..1 + r.below(2)).map(|_| KEY_PAIRS[r.below(5) as usize]).collect();
    let mut entries: Vec<Entry> = pairs.iter().flat_map(|p| [Entry::Private(*p), Entry::Public(*p)]).collect();
    if r.below(2) == 0 {
        entries.swap_remove(r.below(2) as usize);
    }
    entries.extend((0..1 + r.below(2)).map(|i| Entry::Atom(1000 + i as u32)));
    for _ in 0..2 + r.below(5) {
        let (i, halves) = (entries.len() as u64, halves_in(&entries));
        let (a, b) = (r.below(i) as u16, r.below(i) as u16);
        entries.push(match r.below(10) {
            0 => Entry::Pair(a, b),
            1 => Entry::Seal(a, b),
            2..=3 => Entry::Sum((0..1 + r.below(3)).map(|_| r.below(i) as u16).collect()),
            4..=5 => [Entry::Private, Entry::Public][r.below(2) as usize](pairs[0]),
            _ => Entry::Lock(a, halves[r.below(halves.len() as u64) as usize]),
        });
    }
    let (n, halves) = (entries.len() as u64, halves_in(&entries));
    let of_kind = |kind: fn(&Entry) -> bool| (0..n as u16).filter(|i| kind(&entries[usize::from(*i)])).collect::<Vec<u16>>();
    let (locks, atoms) = (of_kind(|e| matches!(e, Entry::Lock(_, _))), of_kind(|e| matches!(e, Entry::Atom(_))));
    let mut one_of = |from: &[u16]| from.get(r.below(from.len().max(1) as u64) as usize).copied();
    let heard = [one_of(&locks), one_of(&halves), one_of(&locks), one_of(&halves), one_of(&[locks, halves.clone()].concat()), one_of(&halves)];
    let goal = one_of(&atoms);
    let from = r.below(3) as usize;
    (entries, heard[from..].iter().flatten().copied().collect(), goal.unwrap_or(0))
}

// A few bytes changed, cut off or put in.
pub fn damage(r: &mut Random, mut s: Vec<u8>) -> Vec<u8> {
    for _ in 0..1 + r.below(3) {
        if s.is_empty() {
            break;
        }
        let at = r.below(s.len() as u64) as usize;
        match r.below(5) {
            0 => s[at] = r.below(256) as u8,
            1 => s[at] = s[at].wrapping_add(1),
            2 => s[at] = r.below(9) as u8, // a kind, or the first that is none
            3 => s.truncate(at),
            _ => s.insert(at, r.below(3) as u8),
        }
    }
    s
}

// The longest sheet there can be, with this entry 0: 256 entries, of which all others are sums of 64 items, and 256 messages. A sum has entry 0 once and
// the entry before its own 63 times, so the even entries are the same term as entry 0 and the odd ones are zero. The two entries are heard in turn.
pub fn full_sheet(first: Entry, heard: [u16; 2], goal: u16) -> Vec<u8> {
    let mut entries = vec![first];
    entries.extend((1..256).map(|i| Entry::Sum([vec![0], vec![i - 1; 63]].concat())));
    let heard: Vec<u16> = (0..256).map(|k| heard[k % 2]).collect();
    sheet(&entries, &heard, goal)
}

// The longest sheet and the lengths of an atom's record, as document 02's E10 has them, and the last kind, as its E6 has it.
pub const LONGEST: usize = 34446;
pub const ATOM_LENGTHS: [usize; 2] = [3, 5];
pub const LAST_KIND: u8 = 7;

// The table's rows 1 to 7 and 12, read a second time: row by row, with early answers and 64-bit numbers.
pub fn refusal(s: &[u8]) -> u32 {
    refusal_by(s, LONGEST, &ATOM_LENGTHS, LAST_KIND)
}

// The same with another longest sheet, other lengths of an atom's record and another last kind. Document 01 has 34,444, 3 alone, and 4.
pub fn refusal_by(s: &[u8], longest: usize, atom_lengths: &[usize], last_kind: u8) -> u32 {
    let number = |i: usize| (s[i] as usize) * 256 + s[i + 1] as usize;
    if s.len() < 10 || s.len() > longest || &s[..4] != b"SHT1" {
        return 1;
    }
    let (n, h, goal) = (number(4), number(6), number(8));
    if n < 1 || n > 256 || h > 256 || goal >= n {
        return 2;
    }
    let records = 10 + 4 * n + 2 * h;
    if s.len() < records {
        return 3;
    }
    let mut at = records;
    for i in 0..n {
        let (offset, len) = (number(10 + 4 * i), number(12 + 4 * i));
        if len == 0 || offset != at || offset + len > s.len() {
            return 4;
        }
        at = offset + len;
    }
    if at < s.len() {
        return 4;
    }
    for i in 0..n {
        let offset = number(10 + 4 * i);
        let refused = bad_record(&s[offset..offset + number(12 + 4 * i)], i, atom_lengths, last_kind);
        if refused != 0 {
            return refused;
        }
        if wrong_half(s, offset) {
            return 12;
        }
    }
    if (0..h).any(|k| number(10 + 4 * n + 2 * k) >= n) {
        return 7;
    }
    0
}

// Row 12 for the record at this offset, in which rows 5 and 6 find nothing: a lock whose key entry is not itself of kind 5 or 6. The key entry stands
// before the lock, so its record is good too.
fn wrong_half(s: &[u8], offset: usize) -> bool {
    let number = |i: usize| (s[i] as usize) * 256 + s[i + 1] as usize;
    s[offset] == 7 && !matches!(s[number(10 + 4 * number(offset + 3))], 5 | 6)
}

// Rows 5 and 6 for the record of entry i.
pub fn bad_record(record: &[u8], i: usize, atom_lengths: &[usize], last_kind: u8) -> u32 {
    let len = record.len();
    let good = match record[0] {
        kind if kind > last_kind => false,
        0 => len == 1,
        1 => atom_lengths.contains(&len),
        2 | 3 => len == 5,
        4 => len % 2 == 1 && (len - 1) / 2 <= 64,
        5 | 6 => len == 3,
        7 => len == 5,
        _ => false,
    };
    if !good {
        return 5;
    }
    let forward = |pair: &[u8]| pair[0] as usize * 256 + pair[1] as usize >= i;
    if matches!(record[0], 2 | 3 | 4 | 7) && record[1..].chunks(2).any(forward) {
        return 6;
    }
    0
}
