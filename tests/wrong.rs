// Libraries that are wrong on purpose, by the simple verdict with a fault put in: the brute-force test has to fail on each of them, the test of the
// refusals on those with a fault in the table, the test of the settings on those with a fault in the setting (wrong_settings.rs), the test of own atoms on those
// that take an own atom for something on the sheet, the test of the limits on those with a fault in the quick call (wrong_quick.rs), and each has to pass on the
// one without a fault. The environment variable FAULT chooses the fault.

#[allow(dead_code)]
mod sheets;
mod simple;
mod wrong_quick;
mod wrong_settings;
use simple::{add, has, leading, single, Choices, Right, Set, State, Tables};
use sheets::{bad_record, refusal, refusal_by, ATOM_LENGTHS, FRONT, LAST_KIND, LONGEST};
use std::sync::OnceLock;

fn fault() -> &'static str {
    static FAULT: OnceLock<String> = OnceLock::new();
    FAULT.get_or_init(|| std::env::var("FAULT").unwrap_or_default())
}

fn number(s: &[u8], at: usize) -> u16 {
    u16::from_be_bytes([s[at], s[at + 1]])
}

// An entry's record.
fn record(s: &[u8], i: u16) -> &[u8] {
    let [offset, length] = [10, 12].map(|at| usize::from(number(s, at + 4 * usize::from(i))));
    &s[offset..offset + length]
}

fn is_atom(s: &[u8], i: u16) -> bool {
    record(s, i)[0] == 1
}

// The bytes as one number, high byte first.
fn joined(bytes: &[u8]) -> u32 {
    bytes.iter().fold(0, |number, byte| number << 8 | u32::from(*byte))
}

fn atom(s: &[u8], i: u16) -> u32 {
    joined(&record(s, i)[1..])
}

// The good sheet with other numbers for its atoms, each in the record that is there; `new` is told the record.
fn with_numbers(s: &[u8], mut new: impl FnMut(&[u8]) -> u32) -> Vec<u8> {
    let mut t = s.to_vec();
    for i in (0..number(s, 4)).filter(|&i| is_atom(s, i)) {
        let (old, at) = (record(s, i), usize::from(number(s, 10 + 4 * usize::from(i))));
        t[at + 1..at + old.len()].copy_from_slice(&new(old).to_be_bytes()[5 - old.len()..]);
    }
    t
}

fn renumbered(s: &[u8], new: impl Fn(u32) -> u32) -> Vec<u8> {
    with_numbers(s, |old| new(joined(&old[1..])))
}

// A number that isn't on the hull label, for one that is.
fn hidden(a: u32) -> u32 {
    if a < 256 { 30000 + a } else { a }
}

// The good sheet with nothing on the hull label, and with the entries that stood there heard after the messages before the cut.
fn heard_late(s: &[u8], cut: u32) -> Vec<u8> {
    let (n, h) = (number(s, 4), number(s, 6));
    let places = 10 + 4 * usize::from(n);
    let names: Vec<u16> = (0..n).filter(|&i| is_atom(s, i) && atom(s, i) < 256).collect();
    let heard: Vec<u16> = (0..cut as usize).map(|k| number(s, places + 2 * k)).chain(names).take(256).collect();
    let t = renumbered(s, hidden);
    let mut late = t[..places].to_vec();
    late[6..8].copy_from_slice(&(heard.len() as u16).to_be_bytes());
    for i in 0..usize::from(n) {
        let offset = number(s, 10 + 4 * i) + 2 * heard.len() as u16 - 2 * h;
        late[10 + 4 * i..12 + 4 * i].copy_from_slice(&offset.to_be_bytes());
    }
    heard.iter().for_each(|e| late.extend(e.to_be_bytes()));
    late.extend(&t[places + 2 * usize::from(h)..]);
    late
}

// ---- E5: the used set and the remainder

// Rows are taken off the goal only as long as the highest entry of what is left is a row's.
fn only_at_top(s: &State, goal: &Set) -> [Set; 2] {
    let [mut used, mut rest] = [[0; 4], *goal];
    while let Some(i) = (0..s.len).find(|&i| rest != [0; 4] && leading(&s.vectors[i]) == leading(&rest)) {
        rest = add(&rest, &s.vectors[i]);
        used = add(&used, &s.uses[i]);
    }
    [used, rest]
}

// Each row has its lowest entry taken off, and not its highest.
fn from_below(s: &State, goal: &Set) -> [Set; 2] {
    let lowest = |row: &Set| (0..=255).find(|&e| has(row, e)).expect("a row isn't empty");
    let mut rows: Vec<[Set; 2]> = vec![];
    for (used, set) in s.uses.iter().zip(&s.vectors).take(s.len).chain([(&[0; 4], goal)]) {
        let reduced = rows.iter().fold([*used, *set], |[used, rest], [by, row]| {
            if has(&rest, lowest(row)) { [add(&used, by), add(&rest, row)] } else { [used, rest] }
        });
        rows.push(reduced);
    }
    rows[s.len]
}

// Another used set with the same sum, if there is a gained term that was a sum of used ones when gained: this term, in their place.
fn from_all_gained(t: &Tables, s: &State, used: &Set) -> Set {
    let drawn = |e: u8| s.uses[..s.len].iter().any(|by| has(by, e));
    let within = |by: &Set| *by != [0; 4] && (0..4).all(|w| by[w] & !used[w] == 0);
    let mut sums = (0..=255).filter(|&e| has(&s.known, e) && !drawn(e)).map(|e| (e, s.reduce(&t.sets[usize::from(e)]).1));
    match sums.find(|(_, by)| within(by)) {
        Some((e, by)) => add(&add(used, &by), &single(e)),
        None => *used,
    }
}

// The two sets as a library with a faulty sum test would hand them back.
fn missing(t: &Tables, s: &State, goal: usize, answer: u32) -> [Set; 2] {
    let (remainder, used) = s.reduce(&t.sets[goal]);
    match (answer / 1000, fault()) {
        (1, "written at reached too") | (3, "written at stopped too") => [used, remainder],
        (1 | 3, _) => [[0; 4]; 2],
        (_, "used and remainder exchanged") => [remainder, used],
        (_, "the goal for the remainder") => [[0; 4], t.sets[goal]],
        (_, "the remainder reduced only at its top") => only_at_top(s, &t.sets[goal]),
        (_, "the lowest entry for the highest") => from_below(s, &t.sets[goal]),
        (_, "used from all gained terms") => [from_all_gained(t, s, &used), remainder],
        _ => [used, remainder],
    }
}

// The verdict of a library that takes a buffer of 32 + 40b bytes: what fits is written.
fn with_shorter_buffer(s: &[u8], cut: u32, budget: u32, out: &mut [u8]) -> u32 {
    let mut longer = out.to_vec();
    longer.resize(out.len() + FRONT - 32, 0);
    let answer = simple::verdict(s, cut, budget, &mut longer);
    out.copy_from_slice(&longer[..out.len()]);
    answer
}

// ---- E10: atoms of 32 bits

// The number that a faulty reader takes from the bytes after the kind. 2 to the power 32 and more is no atom's number.
fn read_wrong(bytes: &[u8]) -> u64 {
    let number = u64::from(joined(bytes));
    match (fault(), bytes) {
        ("the high half dropped", _) => number % 65536,
        ("the first two bytes alone", _) => u64::from(joined(&bytes[..2])),
        ("the high half kept to 8 bits", _) => number % (1 << 24),
        ("the high half kept to 15 bits", _) => number % (1 << 31),
        ("the low half kept to 8 bits", [_, _, _, _]) => number & !0xff00,
        ("the low half first", &[a, b, c, d]) => joined(&[c, d, a, b]).into(),
        ("low byte first in a long record", &[a, b, c, d]) => joined(&[d, c, b, a]).into(),
        ("low byte first in each half", &[a, b, c, d]) => joined(&[b, a, d, c]).into(),
        ("the high half moved by 8 bits", _) => (number >> 16 << 8) + number % 65536,
        ("the halves summed", _) => (number >> 16) + number % 65536,
        ("a short number with its sign", &[_, _]) => u64::from(number as u16 as i16 as u32),
        ("long and short of one number different terms", [_, _, _, _]) => number + (1 << 32),
        _ => number,
    }
}

// The label test of a faulty library, on the bytes after the kind. A reader that is wrong is wrong here too.
fn public_wrong(bytes: &[u8]) -> bool {
    match (fault(), bytes) {
        ("the label test on the low 16 bits", _) => joined(bytes) % 65536 < 256,
        ("the label test on the first two bytes", _) => joined(&bytes[..2]) < 256,
        ("the label test on a signed number", _) => (joined(bytes) as i32) < 256,
        ("no name in a long record", [_, _, _, _]) => false,
        ("long and short of one number different terms", _) => joined(bytes) < 256,
        _ => read_wrong(bytes) < 256,
    }
}

// The good sheet as a library with this reader and this label test takes it. Atoms are the same where the numbers read are, and the first of them is tested;
// each gets a number of its own below 512. A sheet in whose atoms nothing is mistaken stays as it is.
fn misread(s: &[u8]) -> Vec<u8> {
    let mistaken = |i: u16| {
        let (bytes, number) = (&record(s, i)[1..], atom(s, i));
        read_wrong(bytes) != u64::from(number) || public_wrong(bytes) != (number < 256)
    };
    if !(0..number(s, 4)).any(|i| is_atom(s, i) && mistaken(i)) {
        return s.to_vec();
    }
    let mut seen: Vec<(u64, u32)> = vec![];
    with_numbers(s, |old| {
        let number = read_wrong(&old[1..]);
        if let Some((_, new)) = seen.iter().find(|(other, _)| *other == number) {
            return *new;
        }
        let new = seen.len() as u32 + if public_wrong(&old[1..]) { 0 } else { 256 };
        seen.push((number, new));
        new
    })
}

// The good sheet as a library takes it that has an atom's kind 16 bits above its number: atom 65,536 + 256 · l + r is then the pair of entries l and r,
// and with 131,072 it is their seal.
fn kind_over_16_bits(s: &[u8]) -> Vec<u8> {
    let mut t = s.to_vec();
    for i in 0..number(s, 4) {
        let at = usize::from(number(s, 10 + 4 * usize::from(i)));
        if let &[1, 0, high @ 1..=2, left, right] = record(s, i) {
            if u16::from(left.max(right)) < i {
                t[at..at + 5].copy_from_slice(&[1 + high, 0, left, 0, right]);
            }
        }
    }
    t
}

// The sheet with good records where a faulty table let bad ones through. An atom that isn't in a short record gets a long one: its last four bytes, or
// zeros and those that there are. A half has its first two bytes or zeros, a lock under another term is a seal, a forward lock and kind 8 are zero. Its
// places are good.
fn mended(s: &[u8]) -> Vec<u8> {
    let (n, h) = (number(s, 4), number(s, 6));
    let records: Vec<Vec<u8>> = (0..n)
        .map(|i| match record(s, i) {
            [1, bytes @ ..] if bytes.len() != 2 => [&[1][..], &joined(bytes).to_be_bytes()].concat(),
            [kind @ 5..=6, bytes @ ..] if bytes.len() != 2 => [&[*kind][..], bytes, &[0, 0]].concat()[..3].to_vec(),
            [8, ..] => vec![0],
            [7, parts @ ..] if number(parts, 0).max(number(parts, 2)) >= i => vec![0],
            [7, parts @ ..] => [&[if is_half(s, number(parts, 2)) { 7 } else { 3 }], &parts[..4]].concat(),
            other => other.to_vec(),
        })
        .collect();
    let lists = 10 + 4 * usize::from(n);
    let (mut t, mut at) = (s[..lists + 2 * usize::from(h)].to_vec(), lists + 2 * usize::from(h));
    for (i, new) in records.iter().enumerate() {
        t[10 + 4 * i..12 + 4 * i].copy_from_slice(&(at as u16).to_be_bytes());
        t[12 + 4 * i..14 + 4 * i].copy_from_slice(&(new.len() as u16).to_be_bytes());
        at += new.len();
    }
    [t, records.concat()].concat()
}

// Rows 1 to 7 where the two halves of a long record's number are taken for entry numbers.
fn halves_as_entries(s: &[u8]) -> u32 {
    let refused = refusal(s);
    if matches!(refused, 1..=4) {
        return refused;
    }
    let mut t = s.to_vec();
    for i in (0..number(s, 4)).filter(|&i| is_atom(s, i) && record(s, i).len() == 5) {
        t[usize::from(number(s, 10 + 4 * usize::from(i)))] = 2;
    }
    refusal(&t)
}

// Rows 1 to 7 and 12 as a faulty table has them.
fn table(s: &[u8]) -> u32 {
    let odd: Vec<usize> = (1..130).step_by(2).collect();
    match fault() {
        "34,444 kept" => refusal_by(s, 34444, &ATOM_LENGTHS, LAST_KIND),
        "34,445 the longest" => refusal_by(s, 34445, &ATOM_LENGTHS, LAST_KIND),
        "34,447 the longest" => refusal_by(s, 34447, &ATOM_LENGTHS, LAST_KIND),
        "length 5 refused" => refusal_by(s, LONGEST, &[3], LAST_KIND),
        "length 3 refused" => refusal_by(s, LONGEST, &[5], LAST_KIND),
        "length 4 let through" => refusal_by(s, LONGEST, &[3, 4, 5], LAST_KIND),
        "length 6 let through" => refusal_by(s, LONGEST, &[3, 5, 6], LAST_KIND),
        "every odd length let through" => refusal_by(s, LONGEST, &odd, LAST_KIND),
        "a long number taken for entry numbers" => halves_as_entries(s),
        "refusal 5 still at kind 5" => refusal_by(s, LONGEST, &ATOM_LENGTHS, 4),
        "kind 7 refused" => refusal_by(s, LONGEST, &ATOM_LENGTHS, 6),
        _ => table_of_locks(s),
    }
}

// ---- E6: key pairs and locks

fn is_half(s: &[u8], i: u16) -> bool {
    i < number(s, 4) && matches!(record(s, i)[0], 5 | 6)
}

// The sum of one item that is a half, or of several that leave one: a half by its term, not by its record.
fn is_half_by_term(s: &[u8], i: u16) -> bool {
    let mut left: Vec<&[u8]> = vec![];
    match record(s, i) {
        [4, items @ ..] => items.chunks(2).map(|item| record(s, number(item, 0))).for_each(|item| match left.iter().position(|other| *other == item) {
            Some(place) => drop(left.remove(place)),
            None => left.push(item),
        }),
        other => left.push(other),
    }
    left.len() == 1 && matches!(left[0][0], 5 | 6)
}

// Rows 5 and 6 of a record as a faulty table has them.
fn rows_5_and_6(s: &[u8], i: u16) -> u32 {
    let own = record(s, i);
    let right = |own: &[u8]| bad_record(own, i.into(), &ATOM_LENGTHS, LAST_KIND);
    match (fault(), own[0], own.len()) {
        ("kind 8 let through", 8, 5) | ("a half with length 5 let through", 5 | 6, 5) => 0,
        ("a half with length 4 let through", 5 | 6, 4) | ("a half with length 1 let through", 5 | 6, 1) => 0,
        ("a private half with length 3 refused", 5, 3) | ("a public half with length 3 refused", 6, 3) => 5,
        ("a lock with length 7 let through", 7, 7) => right(&own[..5]),
        ("a lock with length 5 refused", 7, 5) => 5,
        ("the number of a half taken for an entry number", 5 | 6, 3) if number(own, 1) >= i => 6,
        ("the message of a lock not looked at", 7, 5) if number(own, 3) < i => 0,
        ("the key of a lock not looked at", 7, 5) if number(own, 1) < i && is_half(s, number(own, 3)) => 0,
        ("a lock of its own number let through", 7, 5) if number(own, 1) == i && number(own, 3) < i => 0,
        _ => right(own),
    }
}

// Row 12 of a record, as a faulty table has it.
fn row_12(s: &[u8], i: u16) -> u32 {
    let own = record(s, i);
    if own[0] != 7 || own.len() < 5 {
        return 0;
    }
    let key = number(own, 3);
    let kind = if key < number(s, 4) { record(s, key)[0] } else { 255 };
    let good = match fault() {
        "12 never given" => true,
        "a key entry judged by its term" => key < i && is_half_by_term(s, key),
        "an atom let through as a key" => matches!(kind, 1 | 5 | 6),
        "a lock let through as a key" => matches!(kind, 5..=7),
        "a sum let through as a key" => matches!(kind, 4..=6),
        "a private half refused as a key" => kind == 6,
        "a public half refused as a key" => kind == 5,
        "the message entry judged for the key entry" => is_half(s, number(own, 1)),
        _ => matches!(kind, 5 | 6),
    };
    if good { 0 } else { 12 }
}

// Rows 1 to 7 and 12, entry by entry.
fn table_of_locks(s: &[u8]) -> u32 {
    let rows = refusal(s);
    if matches!(rows, 1..=4) {
        return rows;
    }
    let (n, h) = (number(s, 4), number(s, 6));
    let any = |row: &dyn Fn(u16) -> u32| (0..n).map(row).find(|refused| *refused != 0);
    let (early, late) = (|i| rows_5_and_6(s, i), |i| row_12(s, i));
    let listed = if (0..h).all(|k| number(s, 10 + 4 * usize::from(n) + 2 * usize::from(k)) < n) { 0 } else { 7 };
    let refused = match fault() {
        "12 before 6" => any(&|i| if early(i) == 5 { 5 } else { early(i).max(late(i)) }).unwrap_or(listed),
        "12 after all records" => any(&early).or(any(&late)).unwrap_or(listed),
        "12 after 7" => any(&early).or((listed == 7).then_some(7)).or(any(&late)).unwrap_or(0),
        "12 before all records" => any(&late).or(any(&early)).unwrap_or(listed),
        _ => any(&|i| if early(i) != 0 { early(i) } else { late(i) }).unwrap_or(listed),
    };
    if refused == 12 && fault() == "11 for 12" { 11 } else { refused }
}

// The good sheet with other bytes in its halves; `new` is told the record.
fn with_halves(s: &[u8], new: impl Fn(&[u8]) -> [u8; 3]) -> Vec<u8> {
    let mut t = s.to_vec();
    for i in (0..number(s, 4)).filter(|&i| is_half(s, i)) {
        let at = usize::from(number(s, 10 + 4 * usize::from(i)));
        t[at..at + 3].copy_from_slice(&new(record(s, i)));
    }
    t
}

// The good sheet as a library takes it that reads the numbers of key pairs wrong.
fn misread_halves(s: &[u8]) -> Vec<u8> {
    match fault() {
        "the number of a half cut to 8 bits" => with_halves(s, |r| [r[0], 0, r[2]]),
        "the high byte of a half alone" => with_halves(s, |r| [r[0], r[1], 0]),
        "the number of a half cut to 15 bits" => with_halves(s, |r| [r[0], r[1] & 127, r[2]]),
        "every number one key pair" => with_halves(s, |r| [r[0], 0, 0]),
        _ => s.to_vec(),
    }
}

// The choices of a library with a fault in its sum test or in what it does with halves and locks.
struct Wrong;

impl Choices for Wrong {
    fn kind(&self, kind: u64) -> u64 {
        match (fault(), kind) {
            ("private and public taken for the same", 6) => 5,
            ("a private half taken for an atom", 5) | ("a public half taken for an atom", 6) => 1,
            ("locks and seals taken for the same", 7) => 3,
            ("locks and pairs taken for the same", 7) => 2,
            _ => kind,
        }
    }

    fn part(&self, t: &Tables, kind: u64, entry: usize) -> u64 {
        if fault() == "locks told apart by entry numbers" && kind == 7 { entry as u64 } else { t.reps[entry].into() }
    }

    fn opener(&self, t: &Tables, lock: usize, opposite: u16) -> u16 {
        let key = t.keys[lock] % 256;
        let kind = t.keys[key as usize] >> 32;
        let half = |kind: u64| (0..256).find(|&j| t.keys[usize::from(j)] >> 32 == kind).unwrap_or(256);
        let last_atom = || (0..256).rev().find(|&j| t.keys[usize::from(j)] >> 32 == 1).unwrap_or(256);
        match fault() {
            "the same half opens" => key as u16,
            "the opposite half of another number opens" => half(11 - kind),
            "only the private half opens" if kind == 5 => 256,
            "only the public half opens" if kind == 6 => 256,
            "an opposite half without an entry is free" if opposite == 256 => lock as u16,
            "a lock opens by itself" => lock as u16,
            "the last atom opens a lock" => last_atom(),
            "an opposite half above the lock not found" if usize::from(opposite) > lock => 256,
            "an opposite half below the lock not found" if usize::from(opposite) < lock => 256,
            _ => opposite,
        }
    }

    fn public(&self, t: &Tables, i: usize) -> bool {
        let (kind, number) = (t.keys[i] >> 32, t.keys[i] % (1 << 32));
        Right.public(t, i)
            || match fault() {
                "a half gained for nothing" => matches!(kind, 5 | 6),
                "public halves gained at the start" => kind == 6,
                "halves below 256 on the label" => matches!(kind, 5 | 6) && number < 256,
                _ => false,
            }
    }

    fn made(&self, t: &Tables, s: &State, i: usize, parts: [u8; 2]) -> bool {
        let is_lock = t.keys[i] >> 32 == 7;
        let any_atom = || (0..=255).any(|j| has(&s.known, j) && t.keys[usize::from(j)] >> 32 == 1);
        match fault() {
            "locked without the half" if is_lock => has(&s.known, parts[0]),
            "locked without the message" if is_lock => has(&s.known, parts[1]),
            "locked with the opposite half" if is_lock => has(&s.known, parts[0]) && t.openers[i] < 256 && has(&s.known, t.openers[i] as u8),
            "never locked" if is_lock => false,
            "any known atom for the first part" => any_atom() && has(&s.known, parts[1]),
            "any known atom for the second part" => any_atom() && has(&s.known, parts[0]),
            _ => Right.made(t, s, i, parts),
        }
    }

    fn order(&self, rule: u32, first: u8) -> (u32, u8) {
        let exchange = |a: u32, b: u32| (if rule == a { b } else if rule == b { a } else { rule }, first);
        match fault() {
            "unlock before sum" => exchange(6, 7),
            "lock before sum" => exchange(6, 8),
            "lock before unlock" => exchange(7, 8),
            "unlock before open" => exchange(3, 7),
            "rule 7 from the highest lock" if rule == 7 => (7, 255 - first),
            _ => (rule, first),
        }
    }

    fn missing(&self, t: &Tables, s: &State, goal: usize, answer: u32) -> [Set; 2] {
        missing(t, s, goal, answer)
    }
}

// ---- the whole call

// The verdict on a good sheet as a library with a faulty start, sum test or reader of atoms would take it.
fn judged(s: &[u8], cut: u32, budget: u32, out: &mut [u8]) -> u32 {
    match fault() {
        "one name too few" => simple::verdict(&renumbered(s, |a| if a == 255 { 30000 } else { a }), cut, budget, out),
        "one name too many" => simple::verdict(&renumbered(s, |a| if a == 256 { 128 } else { a }), cut, budget, out),
        "names not at cut 0" if cut == 0 => simple::verdict(&renumbered(s, hidden), cut, budget, out),
        "names after the messages" => {
            let late = heard_late(s, cut);
            simple::verdict(&late, number(&late, 6).into(), budget, out)
        }
        "refusal 10 still at 32" => with_shorter_buffer(s, cut, budget, out),
        "the kind 16 bits above the number" => simple::verdict(&kind_over_16_bits(s), cut, budget, out),
        _ => simple::verdict_by(&misread_halves(&misread(s)), cut, budget, out, &Wrong),
    }
}

fn verdict(s: &[u8], cut: u32, budget: u32, out: &mut [u8]) -> u32 {
    let refused = table(s);
    if refused != 0 {
        return refused;
    }
    let s = mended(s);
    if cut > u32::from(number(&s, 6)) {
        return 8;
    }
    judged(&s, cut, budget, out)
}

// The second and the third word of a set's 32 bytes.
fn exchange_words(set: &mut [u8]) {
    for i in 8..16 {
        set.swap(i, i + 8);
    }
}

// The rungs by rules 7 and 8 as a faulty writer would leave them.
fn write_locks(s: &[u8], rungs: &mut [u8]) {
    for rung in rungs.chunks_mut(40).filter(|rung| matches!(rung[3], 7 | 8)) {
        let (rule, first, second) = (rung[3], number(rung, 4), number(rung, 6));
        let last = |i: u16| (0..number(s, 4)).rev().find(|&j| record(s, j) == record(s, i)).unwrap_or(i);
        let put = |place: &mut [u8], n: u16| place.copy_from_slice(&n.to_be_bytes());
        match (fault(), rule) {
            ("message and key exchanged in the sources of lock", 8) | ("lock and half exchanged in the sources of unlock", 7) => {
                put(&mut rung[4..6], second);
                put(&mut rung[6..8], first);
            }
            ("the key for the second source of unlock", 7) => put(&mut rung[6..8], number(record(s, first), 3)),
            ("the second source of unlock not the head", 7) | ("the second source of lock not the head", 8) => put(&mut rung[6..8], last(second)),
            ("the first source of unlock not the head", 7) => put(&mut rung[4..6], last(first)),
            ("unlock without a second source", 7) => put(&mut rung[6..8], 65535),
            ("the set of unlock not zero", 7) | ("the set of lock not zero", 8) => rung[8 + usize::from(second / 8)] |= 1 << (second % 8),
            ("the numbers of unlock and lock exchanged", _) => rung[3] = 15 - rule,
            ("unlock written as open", 7) => rung[3] = 3,
            ("lock written as seal", 8) => rung[3] = 5,
            _ => {}
        }
    }
}

// The bytes as a library with a faulty writer would leave them, after a call that isn't refused.
fn write(s: &[u8], before: &[u8], out: &mut [u8], answer: u32) {
    let rungs = (answer % 1000) as usize;
    if let Some(rungs) = out.get_mut(FRONT..FRONT + 40 * rungs) {
        write_locks(s, rungs);
    }
    match fault() {
        "the first rung copied" if rungs > 1 => out.copy_within(FRONT..FRONT + 40, FRONT + 40),
        "a later byte changed" if out.len() > FRONT + 40 * rungs => out[FRONT + 40 * rungs] ^= 1,
        "two words exchanged" => exchange_words(&mut out[..32]),
        "two words of the used set exchanged" => exchange_words(&mut out[32..64]),
        "two words of the remainder exchanged" => exchange_words(&mut out[64..FRONT]),
        "used and remainder not written" => out[32..FRONT].copy_from_slice(&before[32..FRONT]),
        "not zero for the other verdicts" if answer / 1000 != 2 => out[32..FRONT].copy_from_slice(&before[32..FRONT]),
        "rungs still from byte 32" => {
            let made = out[FRONT..FRONT + 40 * rungs].to_vec();
            out[FRONT..].copy_from_slice(&before[FRONT..]);
            out[32..32 + made.len()].copy_from_slice(&made);
        }
        "names by their own numbers" => {
            for i in (0..number(s, 4)).filter(|&i| is_atom(s, i) && atom(s, i) < 256) {
                out[usize::from(i / 8)] |= 1 << (i % 8);
            }
        }
        _ => {}
    }
}

#[no_mangle]
pub unsafe extern "C" fn zuwendryk_verdict(sheet: *const u8, sheet_len: usize, cut: u32, budget: u32, buffer: *mut u8, buffer_len: usize) -> u32 {
    let s = std::slice::from_raw_parts(sheet, sheet_len);
    let out = std::slice::from_raw_parts_mut(buffer, buffer_len);
    let before = out.to_vec();
    let answer = match fault() {
        "the full verdict without unlock and lock" => simple::limited(s, cut, budget, 63, out),
        "the limit of 64 on the full call too" => wrong_quick::with_limit(64, s, cut, budget, out),
        _ => verdict(s, cut, budget, out),
    };
    if answer >= 1000 {
        write(s, &before, out, answer);
    }
    match fault() {
        "an invented count" if answer >= 1000 => answer + 1,
        "always out of reach" if answer / 1000 == 1 => answer + 1000,
        "always reached" if answer / 1000 == 2 => answer - 1000,
        "stopped with none made" if answer / 1000 == 3 => 3000,
        "nothing written" => {
            out.copy_from_slice(&before);
            answer
        }
        "every sheet refused" => {
            out.copy_from_slice(&before);
            1
        }
        _ => answer,
    }
}

#[no_mangle]
pub unsafe extern "C" fn zuwendryk_quick_verdict(sheet: *const u8, len: usize, cut: u32, budget: u32, buffer: *mut u8, buffer_len: usize) -> u32 {
    let s = std::slice::from_raw_parts(sheet, len);
    wrong_quick::verdict(s, cut, budget, std::slice::from_raw_parts_mut(buffer, buffer_len))
}

#[no_mangle]
pub unsafe extern "C" fn zuwendryk_limited_verdict(sheet: *const u8, len: usize, cut: u32, budget: u32, rules: u8, buffer: *mut u8, buffer_len: usize) -> u32 {
    let s = std::slice::from_raw_parts(sheet, len);
    wrong_settings::verdict(s, cut, budget, rules, std::slice::from_raw_parts_mut(buffer, buffer_len))
}

#[no_mangle]
pub unsafe extern "C" fn zuwendryk_validate(sheet: *const u8, len: usize) -> u32 {
    table(std::slice::from_raw_parts(sheet, len))
}
