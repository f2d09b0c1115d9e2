// The verdict in plain Rust, made to be fast: the benchmark measures the library beside it, and the tests compare it with the library and with
// tests/simple.rs. It is safe Rust and takes nothing but the standard library. The entries are read once, and equal keys and equal sets are found in buckets.
// What is heard gives rows, each kept by its leading entry. Then every head that isn't known has a line, what the rows leave of its set, and every entry a
// column, the heads whose lines have it: a row that a rung adds is taken off the lines in one column alone. What a new term offers is found by its users.
// A message is heard in one of two forms: the state is lent, or it is taken by value and handed back, as document 01 asks.

#![allow(dead_code)] // each test uses a part

use super::sheets::{FRONT, LONGEST};

// A set of entries. An entry is a number below 256, and every table by entries has 256 places.
type Set = [u64; 4];

const EMPTY: Set = [0; 4];

fn has(set: &Set, e: u8) -> bool {
    set[usize::from(e >> 6)] >> (e & 63) & 1 == 1
}

fn put(set: &mut Set, e: u8) {
    set[usize::from(e >> 6)] |= 1 << (e & 63);
}

fn take(set: &mut Set, e: u8) {
    set[usize::from(e >> 6)] &= !(1 << (e & 63));
}

// Adds the other set by exclusive or.
fn add(set: &mut Set, other: &Set) {
    (0..4).for_each(|w| set[w] ^= other[w]);
}

fn both(set: &Set, other: &Set) -> Set {
    [set[0] & other[0], set[1] & other[1], set[2] & other[2], set[3] & other[3]]
}

fn without(set: &Set, other: &Set) -> Set {
    [set[0] & !other[0], set[1] & !other[1], set[2] & !other[2], set[3] & !other[3]]
}

fn is_empty(set: &Set) -> bool {
    set[0] | set[1] | set[2] | set[3] == 0
}

fn lowest(set: &Set) -> Option<u8> {
    (0..4).find(|&w| set[w] != 0).map(|w| 64 * w as u8 + set[w].trailing_zeros() as u8)
}

// The highest member, and 0 of the empty set.
fn leading(set: &Set) -> u8 {
    (0..4).rev().find(|&w| set[w] != 0).map_or(0, |w| 64 * w as u8 + 63 - set[w].leading_zeros() as u8)
}

// Visits the members in rising order.
fn each(set: &Set, mut visit: impl FnMut(u8)) {
    for w in 0..4 {
        let mut left = set[w];
        while left != 0 {
            visit(64 * w as u8 + left.trailing_zeros() as u8);
            left &= left - 1;
        }
    }
}

// The bytes of a set, the lowest members first.
fn write_set(set: &Set, bytes: &mut [u8]) {
    set.iter().zip(bytes.chunks_exact_mut(8)).for_each(|(word, place)| place.copy_from_slice(&word.to_le_bytes()));
}

// ---- the sheet

// The number of the first two bytes.
fn number(bytes: &[u8]) -> usize {
    u16::from_be_bytes([bytes[0], bytes[1]]).into()
}

struct Sheet<'a> {
    goal: usize,
    directory: &'a [u8], // four bytes an entry
    heard: &'a [u8],     // two bytes a message
    records: &'a [u8],
}

// The sheet's parts, or the refusal by rows 1 to 4 of the table.
fn parts(bytes: &[u8]) -> Result<Sheet<'_>, u32> {
    let &[b'S', b'H', b'T', b'1', a, b, c, d, e, f, ref rest @ ..] = bytes else { return Err(1) };
    if bytes.len() > LONGEST {
        return Err(1);
    }
    let (n, h, goal) = (number(&[a, b]), number(&[c, d]), number(&[e, f]));
    if n < 1 || n > 256 || h > 256 || goal >= n {
        return Err(2);
    }
    if rest.len() < 4 * n + 2 * h {
        return Err(3);
    }
    let (directory, rest) = rest.split_at(4 * n);
    let (heard, records) = rest.split_at(2 * h);
    let mut at = bytes.len() - records.len();
    for pair in directory.chunks_exact(4) {
        let length = number(&pair[2..]);
        if number(pair) != at || length == 0 || at + length > bytes.len() {
            return Err(4);
        }
        at += length;
    }
    if at < bytes.len() { Err(4) } else { Ok(Sheet { goal, directory, heard, records }) }
}

// ---- the terms

// What the rows leave of a head's set, and the learnt entries used for that. At first it is the set itself.
#[derive(Clone, Copy)]
struct Line {
    remainder: Set,
    used: Set,
}

const BUCKETS: usize = 251;

struct Terms {
    keys: [u64; 256], // the kind above 32 bits, and below them a number or the heads of two parts; 0 for zero and sums
    heads: [u8; 256], // for each entry the lowest one that is the same term
    lines: [Line; 256],
    last: [u16; BUCKETS], // for each bucket the last head that fell into it, plus 1, or 0
    before: [u16; 256],   // for each head the one that fell into its bucket before it, plus 1, or 0
    all: Set,             // the heads
    public: Set,          // those of atoms on the hull label
    made: Set,            // those of pairs, seals and locks
}

impl Terms {
    fn new() -> Terms {
        let lines = [Line { remainder: EMPTY, used: EMPTY }; 256];
        Terms { keys: [0; 256], heads: [0; 256], lines, last: [0; BUCKETS], before: [0; 256], all: EMPTY, public: EMPTY, made: EMPTY }
    }

    // The head in this number's bucket that passes; there is at most one. After four others it is faster to go through all entries below a given one.
    fn find(&self, number: u64, below: usize, passes: impl Fn(usize) -> bool) -> Option<u8> {
        let mut place = self.last[(number % BUCKETS as u64) as usize];
        for _ in 0..4 {
            let e = place.checked_sub(1)? as u8;
            if passes(e.into()) {
                return Some(e);
            }
            place = self.before[usize::from(e)];
        }
        (0..below).find(|&e| passes(e)).map(|e| e as u8)
    }

    // The head of entry i: the head in this number's bucket that is the same term, or the entry itself, which then falls into the bucket.
    fn head(&mut self, i: u8, number: u64, same: impl Fn(&Terms, usize) -> bool) -> u8 {
        let head = self.find(number, i.into(), |e| same(self, e)).unwrap_or(i);
        if head == i {
            let last = &mut self.last[(number % BUCKETS as u64) as usize];
            self.before[usize::from(i)] = *last;
            *last = u16::from(i) + 1;
            put(&mut self.all, i);
        }
        head
    }

    // Entry i is the term with this key.
    fn add_standard(&mut self, i: u8, key: u64) {
        let head = self.head(i, key, |terms, e| terms.keys[e] == key);
        self.keys[usize::from(i)] = key;
        self.heads[usize::from(i)] = head;
        put(&mut self.lines[usize::from(i)].remainder, head);
        match key >> 32 {
            1 if head == i && key as u32 <= 255 => put(&mut self.public, i),
            2 | 3 | 7 if head == i => put(&mut self.made, i),
            _ => {}
        }
    }

    // Entry i is the sum of these items. A set of one standard entry is that entry's term.
    fn add_sum(&mut self, i: u8, items: &[u8]) {
        let mut set = EMPTY;
        items.chunks_exact(2).for_each(|item| add(&mut set, &self.lines[usize::from(item[1])].remainder));
        self.lines[usize::from(i)].remainder = set;
        let (highest, mut alone) = (leading(&set), EMPTY);
        put(&mut alone, highest);
        let mixed = set[0] ^ set[1].rotate_left(16) ^ set[2].rotate_left(32) ^ set[3].rotate_left(48);
        let head = if set == alone { highest } else { self.head(i, mixed, |terms, e| terms.lines[e].remainder == set) };
        self.heads[usize::from(i)] = head;
    }

    // Reads the record of entry i, or refuses it by rows 5, 6 and 12 of the table.
    fn read(&mut self, i: u8, record: &[u8]) -> Result<(), u32> {
        let forward = |items: &[u8]| items.chunks_exact(2).fold(false, |any, item| any | (number(item) >= usize::from(i)));
        let head = |e: u8| u64::from(self.heads[usize::from(e)]);
        let below = match *record {
            [0] => 0,
            [4, ref items @ ..] if items.len() % 2 == 0 && items.len() <= 128 => 0,
            [1, a, b] | [5 | 6, a, b] => u64::from(u16::from_be_bytes([a, b])),
            [1, a, b, c, d] => u64::from(u32::from_be_bytes([a, b, c, d])),
            [2 | 3 | 7, _, _, _, _] if forward(&record[1..]) => return Err(6),
            [7, _, _, _, key] if !matches!(self.keys[usize::from(key)] >> 32, 5 | 6) => return Err(12),
            [2 | 3 | 7, _, left, _, right] => head(left) << 8 | head(right),
            _ => return Err(5),
        };
        let items = &record[1..];
        match record[0] {
            0 | 4 if forward(items) => return Err(6),
            0 | 4 => self.add_sum(i, items),
            kind => self.add_standard(i, u64::from(kind) << 32 | below),
        }
        Ok(())
    }

    // Reads every record, in order, and the numbers of the heard messages.
    fn read_all(&mut self, sheet: &Sheet) -> Result<(), u32> {
        let mut rest = sheet.records;
        for (i, pair) in sheet.directory.chunks_exact(4).enumerate() {
            let (record, later) = rest.split_at(number(&pair[2..]));
            self.read(i as u8, record)?;
            rest = later;
        }
        if sheet.heard.chunks_exact(2).any(|message| 4 * number(message) >= sheet.directory.len()) { Err(7) } else { Ok(()) }
    }

    // The half that opens the lock with this key, or 256 where no entry is that half. The opposite of kind 5 is 6, and that of 6 is 5.
    fn opener(&self, key: u64) -> u16 {
        let opposite = self.keys[usize::from(key as u8)] ^ 3 << 32;
        self.find(opposite, 256, |e| self.keys[e] == opposite).map_or(256, u16::from)
    }
}

// ---- what is heard

// The listener's state: what is known, and a basis of it. A row is kept by its leading entry, and no other row has that entry.
struct State {
    known: Set,
    pivots: Set, // the leading entries
    tails: Set,  // the other entries that a row may have
    rows: [Set; 256],
}

impl State {
    // Takes the rows off a line. Each row is the sum of the entries that it uses.
    fn reduce(&self, uses: &[Set; 256], line: &mut Line) {
        let Line { mut remainder, mut used } = *line;
        each(&both(&line.remainder, &self.pivots), |pivot| {
            add(&mut remainder, &self.rows[usize::from(pivot)]);
            add(&mut used, &uses[usize::from(pivot)]);
        });
        *line = Line { remainder, used };
    }

    // Entry e is known from now on. What the rows leave of it is a new row, which is taken off the others.
    fn learn(&mut self, e: u8, line: &Line, uses: &mut [Set; 256]) {
        put(&mut self.known, e);
        if is_empty(&line.remainder) {
            return;
        }
        let (pivot, Line { remainder, mut used }) = (leading(&line.remainder), *line);
        put(&mut used, e);
        if has(&self.tails, pivot) {
            each(&self.pivots, |other| {
                if has(&self.rows[usize::from(other)], pivot) {
                    add(&mut self.rows[usize::from(other)], &remainder);
                    add(&mut uses[usize::from(other)], &used);
                }
            });
        }
        self.rows[usize::from(pivot)] = remainder;
        uses[usize::from(pivot)] = used;
        put(&mut self.pivots, pivot);
        (0..4).for_each(|w| self.tails[w] |= remainder[w]);
        take(&mut self.tails, pivot);
    }

    // The same by value.
    fn hear(mut self, e: u8, line: &Line, uses: &mut [Set; 256]) -> State {
        self.learn(e, line, uses);
        self
    }
}

// ---- the run

// The switch of the sum rule.
const SUM: u8 = 32;

struct Run<'a> {
    terms: &'a mut Terms,
    rules: u8,
    known: Set,
    columns: [Set; 256], // for each entry the heads whose lines have it; heads that are known no longer count
    users: [Set; 256],   // for each head the pairs, seals and locks of which it is a part, and the locks that it opens
    openers: [u16; 256], // for each lock the half that opens it, or 256
    best: [u16; 256],    // for each head the least rule * 256 + first source that was offered
    offered: Set,        // the heads that have an offer and aren't known
}

impl Run<'_> {
    fn new(terms: &mut Terms, rules: u8, known: Set) -> Run<'_> {
        let (openers, best) = ([256; 256], [u16::MAX; 256]);
        Run { terms, rules, known, columns: [EMPTY; 256], users: [EMPTY; 256], openers, best, offered: EMPTY }
    }

    // The rule gains this head from this first source, if the stranger has the rule.
    fn offer(&mut self, head: u8, rule: u8, first: u8) {
        let (offer, best) = (u16::from_be_bytes([rule, first]), &mut self.best[usize::from(head)]);
        if offer < *best && self.rules >> (rule - 1) & 1 == 1 && !has(&self.known, head) {
            *best = offer;
            put(&mut self.offered, head);
        }
    }

    // What an entry offers that is known, or that is a pair, a seal or a lock: its parts where it is known, else itself.
    fn offers(&mut self, e: u8) {
        let (key, opener) = (self.terms.keys[usize::from(e)], self.openers[usize::from(e)]);
        let (kind, left, right) = (key >> 32, (key >> 8) as u8, key as u8);
        if !has(&self.known, e) {
            if has(&self.known, left) && has(&self.known, right) {
                self.offer(e, [0, 0, 4, 5, 0, 0, 0, 8][kind as usize & 7], left);
            }
            return;
        }
        match kind {
            2 => {
                self.offer(left, 1, e);
                self.offer(right, 2, e);
            }
            3 if has(&self.known, right) => self.offer(left, 3, e),
            7 if opener < 256 && has(&self.known, opener as u8) => self.offer(left, 7, e),
            _ => {}
        }
    }

    // The users of each head, and what is offered at the start.
    fn first_offers(&mut self) {
        let made = self.terms.made;
        each(&made, |e| {
            let key = self.terms.keys[usize::from(e)];
            put(&mut self.users[usize::from((key >> 8) as u8)], e);
            put(&mut self.users[usize::from(key as u8)], e);
            if key >> 32 == 7 {
                let opener = self.terms.opener(key);
                self.openers[usize::from(e)] = opener;
                if opener < 256 {
                    put(&mut self.users[usize::from(opener)], e);
                }
            }
            self.offers(e);
        });
    }

    // The lines of the heads that aren't known, their columns, and the sums at the start.
    fn first_lines(&mut self, state: &State, uses: &[Set; 256]) {
        let unknown = without(&self.terms.all, &self.known);
        each(&unknown, |e| {
            let line = &mut self.terms.lines[usize::from(e)];
            state.reduce(uses, line);
            each(&line.remainder, |q| put(&mut self.columns[usize::from(q)], e));
            if is_empty(&line.remainder) {
                self.offer(e, 6, 0);
            }
        });
    }

    // Takes what is left of a new entry, a row, off the lines that have the row's leading entry.
    fn sweep(&mut self, e: u8) {
        let Line { remainder: row, mut used } = self.terms.lines[usize::from(e)];
        let column = without(&self.columns[usize::from(leading(&row))], &self.known);
        if is_empty(&row) || is_empty(&column) {
            return;
        }
        put(&mut used, e);
        each(&row, |q| add(&mut self.columns[usize::from(q)], &column));
        each(&column, |head| {
            let line = &mut self.terms.lines[usize::from(head)];
            add(&mut line.remainder, &row);
            add(&mut line.used, &used);
            if is_empty(&line.remainder) {
                self.offer(head, 6, 0);
            }
        });
    }

    // The head is known from now on.
    fn learn(&mut self, e: u8) {
        put(&mut self.known, e);
        take(&mut self.offered, e);
        if self.rules & SUM != 0 {
            self.sweep(e);
        }
        self.offers(e);
        let users = self.users[usize::from(e)];
        each(&users, |user| self.offers(user));
    }

    // The rung by which the best offer gains the head.
    fn write(&self, head: u8, rung: &mut [u8]) {
        let [rule, source] = self.best[usize::from(head)].to_be_bytes();
        let right = |e: u8| self.terms.keys[usize::from(e)] & 255;
        let (first, second, set) = match rule {
            6 => (65535, 65535, &self.terms.lines[usize::from(head)].used),
            1 | 2 => (source.into(), 65535, &EMPTY),
            3 => (source.into(), right(source), &EMPTY),
            7 => (source.into(), self.openers[usize::from(source)].into(), &EMPTY),
            _ => (source.into(), right(head), &EMPTY),
        };
        let numbers: u64 = u64::from(head) << 48 | u64::from(rule) << 32 | first << 16 | second;
        rung[..8].copy_from_slice(&numbers.to_be_bytes());
        write_set(set, &mut rung[8..]);
    }

    // Makes rungs until the goal is known, nothing is offered or the budget is used up: the verdict's thousand and the number of rungs.
    fn climb(&mut self, goal: u8, places: &mut [u8]) -> u32 {
        let (mut made, mut places) = (0, places.chunks_exact_mut(40));
        while !has(&self.known, goal) {
            let Some(head) = lowest(&self.offered) else { return 2000 + made };
            let Some(rung) = places.next() else { return 3000 + made };
            self.write(head, rung);
            self.learn(head);
            made += 1;
        }
        1000 + made
    }
}

// ---- the call

// The heads known at the start, in order: the public atoms, then the messages before the cut.
fn start<'a>(terms: &Terms, heard: &[u8], list: &'a mut [u8; 512]) -> &'a [u8] {
    let mut length = 0;
    let mut push = |head: u8| {
        list[length] = head;
        length += 1;
    };
    each(&terms.public, &mut push);
    heard.chunks_exact(2).for_each(|message| push(terms.heads[usize::from(message[1])]));
    &list[..length]
}

// Hears these heads in order, and makes rungs: the answer with its bytes. Without the sum rule every head keeps its own set.
fn work<const BY_VALUE: bool>(terms: &mut Terms, start: &[u8], goal: u8, rules: u8, front: &mut [u8], places: &mut [u8]) -> u32 {
    let mut state = State { known: EMPTY, pivots: EMPTY, tails: EMPTY, rows: [EMPTY; 256] };
    let mut uses = [EMPTY; 256];
    for &e in start {
        let line = &mut terms.lines[usize::from(e)];
        if has(&state.known, e) {
            continue;
        }
        state.reduce(&uses, line);
        if BY_VALUE {
            state = state.hear(e, line, &mut uses);
        } else {
            state.learn(e, line, &mut uses);
        }
    }
    let mut run = Run::new(terms, rules, state.known);
    run.first_offers();
    if rules & SUM != 0 {
        run.first_lines(&state, &uses);
    }
    let answer = run.climb(goal, places);
    let line = &run.terms.lines[usize::from(goal)];
    let [used, remainder] = if answer / 1000 == 2 { [&line.used, &line.remainder] } else { [&EMPTY; 2] };
    [&run.known, used, remainder].iter().zip(front.chunks_mut(32)).for_each(|(set, place)| write_set(set, place));
    answer
}

// The answer, or the refusal.
fn judge<const BY_VALUE: bool>(bytes: &[u8], cut: u32, budget: u32, rules: u8, out: &mut [u8]) -> Result<u32, u32> {
    let sheet = parts(bytes)?;
    let mut terms = Terms::new();
    terms.read_all(&sheet)?;
    let heard = sheet.heard.get(..2 * cut as usize).ok_or(8u32)?;
    if budget > 256 {
        return Err(9);
    }
    let (front, places) = out.get_mut(..FRONT + 40 * budget as usize).ok_or(10u32)?.split_at_mut(FRONT);
    let (goal, mut list) = (terms.heads[sheet.goal], [0; 512]);
    let start = start(&terms, heard, &mut list);
    Ok(work::<BY_VALUE>(&mut terms, start, goal, rules, front, places))
}

// The state is lent to each term heard.
pub fn verdict(sheet: &[u8], cut: u32, budget: u32, out: &mut [u8]) -> u32 {
    judge::<false>(sheet, cut, budget, 255, out).unwrap_or_else(|refusal| refusal)
}

// The verdict with a setting.
pub fn limited(sheet: &[u8], cut: u32, budget: u32, rules: u8, out: &mut [u8]) -> u32 {
    judge::<false>(sheet, cut, budget, rules, out).unwrap_or_else(|refusal| refusal)
}

// The state is taken by each term heard, and handed back.
pub fn verdict_by_value(sheet: &[u8], cut: u32, budget: u32, out: &mut [u8]) -> u32 {
    judge::<true>(sheet, cut, budget, 255, out).unwrap_or_else(|refusal| refusal)
}
