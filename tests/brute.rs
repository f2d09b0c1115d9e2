// The verdict, by brute force: the whole answer and buffer recomputed from the documents' text (reading.rs) and compared with the library, the rungs
// replayed, and on the smallest sheets the claim "out of reach" tried against everything that can be made off the sheet up to a size. On larger sheets,
// where sums can't be tried one by one, what the text says of verdict, used set and remainder is checked of the library's bytes, and they are compared with
// those of two other verdicts in Rust (beside.rs).

#[allow(dead_code)] // each test uses a part
mod sheets;
mod beside;
#[allow(dead_code)]
mod calls;
#[allow(dead_code)]
mod cards;
mod failures;
#[allow(dead_code)]
mod kinds;
mod larger;
mod locks;
mod off;
mod plain;
#[allow(dead_code)]
mod reading;
mod records;
mod simple;
use calls::verdict;
use failures::Failures;
use larger::Larger;
use reading::{add, all_sums, expected, highest, members, missing_part, read, replay, set_bytes, standard, work, Answer, Set, Term, EVERY_RULE, FULL};
use sheets::{damage, random_entries, sheet, Entry, Random, ATOMS, FRONT};

// The length of a buffer for 256 rungs.
const ROOM: usize = FRONT + 40 * 256;

// ---- the comparison

struct Tally {
    calls: u64,
    failures: Failures,
    reached: u64,
    out: u64,
    used: u64, // out of reach, with a used set that isn't empty
    stopped: u64,
    refused: u64,
    rules: [u64; 9],     // rungs by each rule
    refusals: [u64; 13], // calls refused by each number
}

impl Tally {
    // One call, with guard bytes on both sides of the buffer.
    fn call(&mut self, what: &str, s: &[u8], cut: u32, budget: u32, length: usize) {
        let pattern = |i: usize| (i * 37 + 11) as u8;
        let mut area: Vec<u8> = (0..length + 32).map(pattern).collect();
        let got = verdict(s, cut, budget, &mut area[16..16 + length]);
        let (number, buffer) = expected(FULL, s, cut, budget, &(16..16 + length).map(pattern).collect::<Vec<u8>>());
        let guarded = (0..16).chain(16 + length..length + 32).all(|i| area[i] == pattern(i));
        self.calls += 1;
        match number / 1000 {
            0 => self.refused += 1,
            1 => self.reached += 1,
            2 => self.out += 1,
            _ => self.stopped += 1,
        }
        self.used += u64::from(number / 1000 == 2 && buffer[32..64] != [0; 32]);
        if number >= 1000 {
            buffer[FRONT..].chunks(40).take(number as usize % 1000).for_each(|rung| self.rules[usize::from(rung[3])] += 1);
            self.replayed(what, s, cut as usize, got, &area[16..16 + length]);
        } else {
            self.refusals[number as usize] += 1;
        }
        if got != number || area[16..16 + length] != buffer[..] || !guarded {
            let places = (0..length).filter(|&i| area[16 + i] != buffer[i]).take(4).collect::<Vec<usize>>();
            let sheet = if s.len() < 200 { format!("{s:?}") } else { format!("of {} bytes", s.len()) };
            let call = format!("cut {cut} budget {budget} length {length} sheet {sheet}");
            self.failures.add(&format!("{what}: library {got}, text {number}, bytes differ at {places:?}, guards kept: {guarded}; {call}"));
        }
    }

    // The library's rungs replay, and they gain the goal exactly where it is reached.
    fn replayed(&mut self, what: &str, s: &[u8], cut: usize, answer: u32, buffer: &[u8]) {
        let (sheet, rungs) = (read(s), 40 * (answer as usize % 1000));
        let replayed = buffer.get(FRONT..FRONT + rungs).map(|rungs| replay(&sheet, cut, rungs));
        if !matches!(replayed, Some(Ok(state)) if state.contains(&sheet.terms[sheet.goal]) == (answer / 1000 == 1)) {
            self.failures.add(&format!("{what}: the rungs of {answer} at cut {cut} don't replay; sheet {s:?}"));
        }
    }

    // One call whose number is stated.
    fn number(&mut self, what: &str, s: &[u8], cut: u32, budget: u32, length: usize, want: u32) {
        let got = verdict(s, cut, budget, &mut vec![0; length]);
        self.calls += 1;
        if got != want {
            self.failures.add(&format!("{what}: {got}, wanted {want}"));
        }
    }

    // The same, and its number and buffer are compared with the reading's.
    fn case(&mut self, what: &str, s: &[u8], cut: u32, budget: u32, length: usize, want: u32) {
        self.number(what, s, cut, budget, length, want);
        self.call(what, s, cut, budget, length);
    }

    // One call with budget 0 whose number and gained set are stated.
    fn gained(&mut self, what: &str, s: &[u8], cut: u32, want: u32, gained: &[usize]) {
        self.case(what, s, cut, 0, FRONT, want);
        let mut buffer = vec![0xa5; FRONT];
        verdict(s, cut, 0, &mut buffer);
        self.calls += 1;
        if buffer[..32] != set_bytes(gained.iter().copied()) {
            self.failures.add(&format!("{what}: gained {:?}, wanted {gained:?}", members(&buffer[..32])));
        }
    }

    // A call of each sheet at its cut, neither of which is refused: number and bytes are the same.
    fn same(&mut self, what: &str, sheets: [&[u8]; 2], cuts: [usize; 2], budget: usize) {
        let mut outs = [(); 2].map(|_| vec![0xa5u8; FRONT + 40 * budget]);
        let answers = [0, 1].map(|i| verdict(sheets[i], cuts[i] as u32, budget as u32, &mut outs[i]));
        self.calls += 1;
        if answers[0] < 1000 || answers[0] != answers[1] || outs[0] != outs[1] {
            self.failures.add(&format!("{what}: {answers:?} at cuts {cuts:?}, budget {budget}, same bytes: {}, sheets {sheets:?}", outs[0] == outs[1]));
        }
    }

    // One call whose number, used set and remainder are stated.
    fn stated(&mut self, what: &str, s: &[u8], cut: usize, budget: usize, number: u32, used: &[u16], remainder: &[u16]) {
        let mut buffer = vec![0xa5; FRONT + 40 * budget];
        let got = verdict(s, cut as u32, budget as u32, &mut buffer);
        self.calls += 1;
        let sets = [used, remainder].map(|set| set_bytes(set.iter().map(|e| usize::from(*e)))).concat();
        if got != number || buffer[32..FRONT] != sets[..] {
            let [used, remainder] = [32..64, 64..FRONT].map(|place| members(&buffer[place]));
            self.failures.add(&format!("{what}: {got}, used {used:?}, remainder {remainder:?}"));
        }
    }

    fn every_cut(&mut self, what: &str, s: &[u8], r: &mut Random) {
        let h = if s.len() >= 8 { u16::from_be_bytes([s[6], s[7]]).min(6) as u32 } else { 0 };
        for cut in 0..=h + 1 {
            for budget in [0, 1, 2, 3, 8, 256, 257, 65536] {
                let room = FRONT + 40 * budget.min(256) as usize;
                let length = match r.below(8) {
                    0 => room - 1,
                    1 => room - 1 - r.below(FRONT as u64) as usize,
                    2..=3 => room + r.below(50) as usize,
                    _ => room,
                };
                self.call(what, s, cut, budget, length);
            }
        }
        self.call(what, s, 65536, 0, FRONT);
    }
}

fn small_sheets(t: &mut Tally, r: &mut Random) {
    for _ in 0..20_000 {
        let (entries, heard, goal) = random_entries(r, 8);
        let good = sheet(&entries, &heard, goal);
        t.every_cut("a small sheet", &good, r);
        if r.below(2) == 0 {
            let bad = damage(r, good);
            t.every_cut("a damaged sheet", &bad, r);
        }
    }
}

// An atom with the number drawn, in the short record where it fits, or in the long one.
fn either(r: &mut Random, number: impl Fn(&mut Random) -> u32) -> Entry {
    let number = number(r);
    if r.below(2) == 0 { Entry::Long(number) } else { Entry::Atom(number) }
}

// Atoms of both ranges and sums of them, which are heard: which of the gained terms a sum draws on depends on the order in which names and messages
// are gained.
fn heard_sums(t: &mut Tally, r: &mut Random) {
    for _ in 0..2000 {
        let atoms = 2 + r.below(3);
        let sums = 2 + r.below(4);
        let mut entries: Vec<Entry> = (0..atoms).map(|_| either(r, |r| ATOMS[r.below(ATOMS.len() as u64) as usize])).collect();
        entries.extend((0..sums).map(|_| Entry::Sum((0..2 + r.below(2)).map(|_| r.below(atoms) as u16).collect())));
        let heard: Vec<u16> = (0..sums).map(|_| r.below(atoms + sums) as u16).collect();
        let s = sheet(&entries, &heard, r.below(atoms) as u16);
        t.every_cut("heard sums", &s, r);
    }
}

// Atoms, pairs and seals, and sums of them, some of which are heard; the goal is any entry. Where it is out of reach there is often a used set.
fn lacking_entries(r: &mut Random) -> kinds::Parts {
    let (parts, sums) = (3 + r.below(4), 2 + r.below(4));
    let part = |i: u64, r: &mut Random| match (i, r.below(8)) {
        (2.., 0) => Entry::Pair(r.below(i) as u16, r.below(i) as u16),
        (2.., 1) => Entry::Seal(r.below(i) as u16, r.below(i) as u16),
        (_, 2) => either(r, |r| r.below(256) as u32),
        _ => either(r, |r| 1000 + i as u32 + 65536 * r.below(2) as u32),
    };
    let mut entries: Vec<Entry> = (0..parts).map(|i| part(i, r)).collect();
    entries.extend((0..sums).map(|_| Entry::Sum((0..2 + r.below(3)).map(|_| r.below(parts) as u16).collect())));
    let heard = (1..sums).map(|_| (parts + r.below(sums)) as u16).collect();
    (entries, heard, r.below(parts + sums) as u16)
}

fn lacking_sums(t: &mut Tally, r: &mut Random) {
    for _ in 0..2000 {
        let (entries, heard, goal) = lacking_entries(r);
        t.every_cut("sums out of reach", &sheet(&entries, &heard, goal), r);
    }
}

// The entries with other atoms: each number's new entry in its places.
fn with_atoms(entries: &[Entry], mut new: impl FnMut(u32) -> Entry) -> Vec<Entry> {
    let atom = |e: &Entry| if let Entry::Atom(a) | Entry::Long(a) = e { new(*a) } else { e.clone() };
    entries.iter().map(atom).collect()
}

// A larger sheet. On every second one the odd atom numbers from 256 on are moved into the high half, and odd public atoms have the long record.
fn larger_sheet(kind: fn(usize, u64) -> kinds::Parts, seed: u64) -> kinds::Parts {
    let (entries, heard, goal) = kind(20 + 10 * (seed as usize % 16), seed);
    let moved = |a: u32| match (a % 2, a) {
        (0, _) => Entry::Atom(a),
        (_, 0..=255) => Entry::Long(a),
        _ => Entry::Atom(a << 16),
    };
    (if seed / 3 % 2 == 0 { with_atoms(&entries, moved) } else { entries }, heard, goal)
}

// Larger sheets, on which sums can't be tried one by one: with names on the hull label the answer and every byte are those of the sheet that has
// other atoms in their places, heard ahead of all messages.
fn names_as_heard(t: &mut Tally) {
    for seed in 0..300 {
        let (named, heard, goal) = larger_sheet(kinds::labelled, seed);
        let names: Vec<u16> = (0..named.len() as u16).filter(|i| matches!(named[usize::from(*i)], Entry::Atom(0..=255) | Entry::Long(0..=255))).collect();
        let hidden = with_atoms(&named, |a| Entry::Atom(if a < 256 { 2000 + a } else { a }));
        let names_first = [names.clone(), heard.clone()].concat();
        let sheets = [sheet(&named, &heard, goal), sheet(&hidden, &names_first, goal)];
        for cut in [0, heard.len() / 2, heard.len()] {
            for budget in [0, 7, 256] {
                t.same("names on the label, and the same heard first", [&sheets[0], &sheets[1]], [cut, cut + names.len()], budget);
            }
        }
    }
}

// ---- used set and remainder by other ways than the reading's

// The reading takes one remainder for each used set. Here, on smaller sheets, every pair of a used set and a set of standard entries is tried.
fn every_pair(t: &mut Tally, r: &mut Random) -> u64 {
    let mut tried = 0;
    while tried < 2000 {
        let (entries, heard, goal) = if r.below(2) == 0 { random_entries(r, 8) } else { lacking_entries(r) };
        let sheet = read(&sheet(&entries, &heard, goal));
        let (answer, _, w) = work(&sheet, sheet.heard.len(), 256);
        if !matches!(answer, Answer::OutOfReach) {
            continue;
        }
        tried += 1;
        let highest = highest(&sheet, &w);
        let allowed: Vec<usize> = standard(&sheet, &w.heads).into_values().filter(|e| !highest.contains(e)).collect();
        let remainders = all_sums(&sheet, &allowed);
        let mut pairs = vec![];
        for (used, sum) in all_sums(&sheet, &w.drawn) {
            let fits = |(_, rest): &&(Set, Term)| add(&sum, rest) == sheet.terms[sheet.goal];
            pairs.extend(remainders.iter().filter(fits).map(|(remainder, _)| (used.clone(), remainder.clone())));
        }
        if pairs != [missing_part(&sheet, &w)] {
            t.failures.add(&format!("{entries:?} heard {heard:?} goal {goal}: {pairs:?}"));
        }
    }
    tried
}

// Larger sheets: what the documents say of the verdict and its rungs, and of the pair of used set and remainder, of which there is one, holds of the
// library's bytes.
fn larger_sheets(t: &mut Tally) {
    for seed in 0..600 {
        let (entries, heard, goal) = larger_sheet([kinds::drawn, kinds::labelled, kinds::lacking, kinds::locked][seed as usize % 4], seed);
        let s = sheet(&entries, &heard, goal);
        let larger = Larger::new(&s);
        for cut in [0, heard.len() / 4, heard.len() / 2, heard.len()] {
            for budget in [0, 7, 256] {
                let mut buffer = vec![0xa5; FRONT + 40 * budget];
                let answer = verdict(&s, cut as u32, budget as u32, &mut buffer);
                t.calls += 1;
                if !larger.judged(EVERY_RULE, cut, answer, &buffer) || !larger.holds(EVERY_RULE, cut, answer, &buffer) {
                    let sets = [0..32, 32..64, 64..FRONT].map(|place| members(&buffer[place]));
                    t.failures.add(&format!("{entries:?} heard {heard:?} goal {goal} cut {cut} budget {budget}: {answer}, gained, used and remainder {sets:?}"));
                }
            }
        }
    }
}

// The flight card's cases, each atom with 1,000 and its old number, but for case 9.
fn flight_card(t: &mut Tally) {
    use Entry::*;
    let mut case = |what: &str, entries: &[Entry], heard: &[u16], goal: u16, cut: u32, budget: u32, want: u32| {
        t.case(what, &sheet(entries, heard, goal), cut, budget, FRONT + 40 * budget as usize, want);
    };
    let a = [Atom(1007), Atom(1009), Sum(vec![0, 1]), Atom(1012), Seal(3, 0)];
    case("case 1", &a, &[2, 4, 1], 3, 3, 256, 1002);
    case("case 2", &a, &[2, 4, 1], 3, 2, 0, 2000);
    case("case 3, budget 0", &a, &[2, 4, 1], 3, 3, 0, 3000);
    case("case 3, budget 1", &a, &[2, 4, 1], 3, 3, 1, 3001);
    case("case 3, budget 2", &a, &[2, 4, 1], 3, 3, 2, 1002);
    case("case 4", &[Zero], &[], 0, 0, 256, 1001);
    case("case 5", &[Zero, Pair(0, 0)], &[], 1, 0, 256, 1002);
    case("case 6", &[Atom(1001), Sum(vec![0, 0]), Sum(vec![0, 1])], &[2], 0, 1, 256, 1000);
    case("case 7", &[Atom(1001), Seal(0, 0)], &[1], 0, 1, 256, 2000);
    case("case 8", &[Atom(1001), Atom(1002), Seal(0, 1), Sum(vec![2, 0])], &[3, 1], 0, 2, 256, 2000);
}

// The edges of case 9, and lengths of the buffer.
fn edges(t: &mut Tally) {
    use Entry::*;
    let mut case = |what: &str, entries: &[Entry], heard: &[u16], goal: u16, cut: u32, budget: u32, length: usize, want: u32| {
        t.case(what, &sheet(entries, heard, goal), cut, budget, length, want);
    };
    let atoms: Vec<Entry> = (0..256).map(|i| Atom(1000 + i)).collect();
    let more: Vec<Entry> = (0..257).map(|i| Atom(1000 + i)).collect();
    case("n 256", &atoms, &[255], 255, 1, 256, ROOM, 1000);
    case("n 257", &more, &[255], 255, 1, 256, ROOM, 2);
    case("64 items", &[Atom(1001), Sum(vec![0; 64])], &[1], 1, 1, 256, ROOM, 1000);
    case("65 items", &[Atom(1001), Sum(vec![0; 65])], &[1], 1, 1, 256, ROOM, 5);
    case("an item equal to its own entry", &[Atom(1001), Sum(vec![1])], &[1], 1, 1, 256, ROOM, 6);
    case("cut h", &[Atom(1001)], &[0], 0, 1, 0, FRONT, 1000);
    case("cut h + 1", &[Atom(1001)], &[0], 0, 2, 0, FRONT, 8);
    case("budget 256", &[Atom(1001)], &[0], 0, 1, 256, ROOM, 1000);
    case("budget 257", &[Atom(1001)], &[0], 0, 1, 257, 65536, 9);
    case("96 bytes at budget 0", &[Atom(1001)], &[0], 0, 1, 0, FRONT, 1000);
    case("95 bytes at budget 0", &[Atom(1001)], &[0], 0, 1, 0, FRONT - 1, 10);
    case("32 bytes at budget 0, enough before E5", &[Atom(1001)], &[0], 0, 1, 0, 32, 10);
    case("no bytes at budget 0", &[Atom(1001)], &[0], 0, 1, 0, 0, 10);
    case("one byte short at budget 256", &[Atom(1001)], &[0], 0, 1, 256, ROOM - 1, 10);
}

// Document 02, E2: names on the hull label.
fn names(t: &mut Tally) {
    use Entry::*;
    let mut case = |what: &str, entries: &[Entry], heard: &[u16], goal: u16, cut: u32, budget: u32, want: u32| {
        t.case(what, &sheet(entries, heard, goal), cut, budget, FRONT + 40 * budget as usize, want);
    };
    case("the first name", &[Atom(0)], &[], 0, 0, 0, 1000);
    case("the last name", &[Atom(255)], &[], 0, 0, 0, 1000);
    case("no name", &[Atom(256)], &[], 0, 0, 0, 2000);
    case("zero is no name", &[Zero, Atom(0)], &[], 0, 0, 256, 1001);
    case("a name twice", &[Atom(9), Atom(9)], &[], 1, 0, 0, 1000);
    let masked = [Atom(1000), Atom(7), Sum(vec![0, 1]), Atom(1001), Sum(vec![1, 3])];
    case("masked with a name, nothing heard", &masked, &[0, 2, 4], 3, 0, 256, 2000);
    case("masked with a name", &masked, &[0, 2, 4], 3, 3, 256, 1001);
    case("masked with a name, heard in another order", &masked, &[4, 2, 0], 3, 1, 256, 1001);
}

// Document 02, E5: used sets and remainders that are stated, at the whole list and budget 256. Each call's buffer is compared with the reading's too.
fn missing_parts(t: &mut Tally) {
    use Entry::*;
    let mut case = |what: &str, entries: &[Entry], heard: &[u16], goal: u16, number: u32, used: &[u16], remainder: &[u16]| {
        let s = sheet(entries, heard, goal);
        t.call(what, &s, heard.len() as u32, 256, ROOM);
        t.stated(what, &s, heard.len(), 256, number, used, remainder);
    };
    // a, b, their sum, c, the sum of b and c; then two entries that are no heads, and the sum of a and c
    let sums = [Atom(1000), Atom(1001), Sum(vec![0, 1]), Atom(1002), Sum(vec![1, 3]), Atom(1001), Sum(vec![3, 5]), Sum(vec![3, 0])];
    case("nothing heard", &sums, &[], 1, 2000, &[], &[1]);
    case("the higher item of a sum", &sums, &[2], 1, 2000, &[2], &[0]);
    case("the lower item of a sum", &sums, &[2], 0, 2000, &[], &[0]);
    case("the highest entry stays, a lower one goes", &sums, &[2], 4, 2000, &[2], &[0, 3]);
    case("two sums heard", &sums, &[2, 4], 3, 2001, &[2, 4], &[0]);
    case("the highest entry of a sum of two gained terms", &sums, &[4, 7], 1, 2001, &[4, 7], &[0]);
    case("an atom that is no head", &sums, &[2], 5, 2000, &[2], &[0]);
    case("a sum that is no head", &sums, &[2], 6, 2000, &[2], &[0, 3]);
    case("a message that is no head", &sums, &[6], 3, 2000, &[4], &[1]);
    let names = [Atom(0), Atom(255), Atom(256), Sum(vec![0, 1, 2]), Atom(0), Sum(vec![2, 4])];
    case("two names used", &names, &[], 3, 2000, &[0, 1], &[2]);
    case("a name used, which is no head", &names, &[], 5, 2000, &[0], &[2]);
    case("names and a message give the goal", &names, &[5], 3, 1002, &[], &[]);
    let split = [Atom(1000), Atom(1001), Pair(0, 1), Atom(1002), Sum(vec![0, 3]), Sum(vec![0, 1])];
    case("a term used that a rung gained", &split, &[2], 4, 2003, &[0], &[3]);
    case("a term gained by a sum, and thus not used", &split, &[5, 1], 4, 2002, &[1, 5], &[3]);
    case("a pair lacks itself", &split, &[0], 2, 2000, &[], &[2]);
    let sealed = [Atom(1001), Atom(1002), Seal(0, 1), Sum(vec![2, 0])];
    case("case 8", &sealed, &[3, 1], 0, 2000, &[], &[0]);
    case("the seal of case 8", &sealed, &[3, 1], 2, 2000, &[3], &[0]);
}

// Which gained terms are used depends on the order in which they were gained: one that was a sum of those gained earlier isn't.
fn orders(t: &mut Tally) {
    use Entry::*;
    let mut case = |entries: &[Entry], heard: &[u16], goal: u16, number: u32, used: &[u16], remainder: &[u16]| {
        let s = sheet(entries, heard, goal);
        let what = format!("heard in the order {heard:?}");
        t.call(&what, &s, heard.len() as u32, 256, ROOM);
        t.stated(&what, &s, heard.len(), 256, number, used, remainder);
    };
    // the sums of each two of a, b and c, and as goal that of c and d
    let sums = [Atom(1000), Atom(1001), Atom(1002), Atom(1003), Sum(vec![0, 1]), Sum(vec![1, 2]), Sum(vec![0, 2]), Sum(vec![2, 3])];
    for heard in [[4, 5, 6], [5, 4, 6]] {
        case(&sums, &heard, 7, 2000, &[4, 5], &[0, 3]);
    }
    for heard in [[4, 6, 5], [6, 4, 5], [5, 6, 4], [6, 5, 4]] {
        case(&sums, &heard, 7, 2000, &[6], &[0, 3]);
    }
    // a name is gained ahead of both messages
    let named = [Atom(1000), Atom(7), Sum(vec![0, 1]), Atom(1001), Sum(vec![0, 3])];
    case(&named, &[2, 0], 4, 2000, &[1, 2], &[3]);
    case(&named, &[0, 2], 4, 2000, &[0], &[3]);
}

// "They are zero for the other verdicts", here where a sum test of the goal hands back other sets.
fn zero_otherwise(t: &mut Tally) {
    use Entry::*;
    let a = sheet(&[Atom(1007), Atom(1009), Sum(vec![0, 1]), Atom(1012), Seal(3, 0)], &[2, 4, 1], 3);
    t.stated("sheet A out of reach", &a, 2, 256, 2000, &[], &[3]);
    t.stated("sheet A stopped, none made", &a, 3, 0, 3000, &[], &[]);
    t.stated("sheet A stopped, one made", &a, 3, 1, 3001, &[], &[]);
    t.stated("sheet A reached", &a, 3, 2, 1002, &[], &[]);
    let b = sheet(&[Atom(1000), Zero, Atom(1001), Sum(vec![0, 2])], &[3], 2);
    t.stated("stopped, with a used set and a remainder", &b, 1, 0, 3000, &[], &[]);
    t.stated("the same sheet out of reach", &b, 1, 1, 2001, &[3], &[0]);
    t.stated("reached by hearing", &sheet(&[Atom(1000)], &[0], 0), 1, 0, 1000, &[], &[]);
    t.stated("reached by a name", &sheet(&[Atom(7)], &[], 0), 0, 0, 1000, &[], &[]);
}

// Large sheets, whose answers are known by their build.
fn large(t: &mut Tally) {
    use Entry::*;
    let mut want = |what: &str, s: &[u8], cut: u32, budget: u32, number: u32| t.number(what, s, cut, budget, FRONT + 40 * budget as usize, number);
    // a chain of pairs over zero: every entry is one step, 256 in all
    let chain: Vec<Entry> = (0..256u16).map(|i| if i == 0 { Zero } else { Pair(i - 1, i - 1) }).collect();
    let s = sheet(&chain, &[], 255);
    want("a ladder of 256 rungs", &s, 0, 256, 1256);
    want("one rung short", &s, 0, 255, 3255);
    // 256 atoms heard, in a row: 256 basis rows, and nothing follows; the same where the numbers differ in their high halves alone
    let heard: Vec<u16> = (0..256).collect();
    for shift in [0, 16] {
        let s = sheet(&(1000..1256).map(|i| Atom(i << shift)).collect::<Vec<Entry>>(), &heard, 255);
        want("256 basis rows", &s, 256, 256, 1000);
        want("255 basis rows", &s, 255, 256, 2000);
    }
    // 256 names: as many basis rows, and nothing heard; heard again, nothing is added
    for name in [Atom, Long] {
        let s = sheet(&(0..256).map(name).collect::<Vec<Entry>>(), &heard, 255);
        want("256 names", &s, 0, 0, 1000);
        want("256 names heard", &s, 256, 0, 1000);
    }
    // sums of neighbours unwind to the last atom; the first sum is an atom itself
    let mut sums: Vec<Entry> = (0..128).map(|i| Atom(1000 + i)).collect();
    sums.extend((0..128u16).map(|i| Sum((0..=i.min(63)).map(|k| i - k).collect())));
    let heard: Vec<u16> = (128..256).collect();
    want("128 dense sums", &sheet(&sums, &heard, 127), 128, 256, 1127);
}

// Large sheets, whose used sets and remainders are known by their build.
fn large_missing_parts(t: &mut Tally) {
    use Entry::*;
    // 85 times two atoms and their sum, which is heard; the goal is the sum of 64 upper atoms, so that it lacks as many lower ones
    let mut triples: Vec<Entry> = (0..85).flat_map(|i| [Atom(1000 + 2 * u32::from(i)), Atom(1001 + 2 * u32::from(i)), Sum(vec![3 * i, 3 * i + 1])]).collect();
    triples.push(Sum((21..85).map(|i| 3 * i + 1).collect()));
    let heard: Vec<u16> = (0..85).map(|i| 3 * i + 2).collect();
    let [lower, sums] = [0, 2].map(|k| (21..85).map(|i| 3 * i + k).collect::<Vec<u16>>());
    t.stated("64 sums used", &sheet(&triples, &heard, 255), 85, 256, 2000, &sums, &lower);
    // sums of neighbours: from the last atom all of them lead to the first
    let mut chain: Vec<Entry> = (0..128).map(|i| Atom(1000 + i)).collect();
    chain.extend((0..127).map(|i| Sum(vec![i, i + 1])));
    let heard: Vec<u16> = (128..255).rev().collect();
    t.stated("127 sums used", &sheet(&chain, &heard, 127), 127, 256, 2000, &(128..255).collect::<Vec<u16>>(), &[0]);
    // 192 names and 63 other atoms; the goal is the sum of 48 names and 16 others
    let mut named: Vec<Entry> = (0..192).map(Atom).collect();
    named.extend((192..255).map(|i| Atom(1000 + i)));
    named.push(Sum((0..64).map(|k| 4 * k + 2).collect()));
    let [used, lacking]: [Vec<u16>; 2] = [(0..48).map(|k| 4 * k + 2).collect(), (48..64).map(|k| 4 * k + 2).collect()];
    t.stated("names used", &sheet(&named, &[], 255), 0, 0, 2000, &used, &lacking);
}

// ---- every entry number

// Each entry number in its own byte and bit, on sheets of 256 entries. Of 256 atoms one is heard, or is on the hull label, each with each of the 256
// numbers of names once in each record; and a sum of two atoms and the second of them are heard, by which a sum and a join gain the first and the pair of
// both.
fn every_entry(t: &mut Tally) {
    let atoms: Vec<Entry> = (0..256).map(|i| Entry::Atom(1000 + i)).collect();
    for e in 0..256 {
        t.call(&format!("entry {e} heard"), &sheet(&atoms, &[e], e), 1, 0, FRONT);
        for name in [Entry::Atom, Entry::Long] {
            let mut named = atoms.clone();
            named[usize::from(e)] = name(u32::from(255 - e));
            t.call(&format!("entry {e} a name"), &sheet(&named, &[], e), 0, 0, FRONT);
        }
    }
    for e in 0..254 {
        let f = (e + 61) % 254;
        let mut entries = atoms[..254].to_vec();
        entries.extend([Entry::Sum(vec![e, f]), Entry::Pair(e, f)]);
        t.call(&format!("entries {e} and {f} by a sum and a join"), &sheet(&entries, &[254, f], 255), 2, 2, FRONT + 80);
    }
}

// Each entry number alone in the remainder and alone in the used set, in its own byte and bit, on sheets of 256 entries.
fn every_entry_missing(t: &mut Tally) {
    let atoms: Vec<Entry> = (0..256).map(|i| Entry::Atom(1000 + i)).collect();
    for e in 0..256 {
        let alone = sheet(&atoms, &[], e);
        t.call("an atom lacks itself", &alone, 0, 0, FRONT);
        t.stated("an atom lacks itself", &alone, 0, 0, 2000, &[], &[e]);
        // an entry that can be a sum is one of two atoms, and its higher item is the goal; the first two entries are items of the goal
        let mut entries = atoms.clone();
        let (place, items, goal, lacking) = if e < 2 { (255, [e, 2], 255, 2) } else { (e, [(e - 1) / 2, e - 1], e - 1, (e - 1) / 2) };
        entries[usize::from(place)] = Entry::Sum(items.to_vec());
        let heard = sheet(&entries, &[e], goal);
        t.call("one entry used", &heard, 1, 0, FRONT);
        t.stated("one entry used", &heard, 1, 0, 2000, &[e], &[lacking]);
    }
}

// What is stated case by case.
fn stated_cases(t: &mut Tally) {
    flight_card(t);
    edges(t);
    names(t);
    missing_parts(t);
    orders(t);
    zero_otherwise(t);
    records::stated_cases(t);
    locks::stated_cases(t);
    large(t);
    large_missing_parts(t);
    every_entry(t);
    every_entry_missing(t);
}

fn main() {
    let failures = Failures::default();
    let mut t = Tally { calls: 0, failures, reached: 0, out: 0, used: 0, stopped: 0, refused: 0, rules: [0; 9], refusals: [0; 13] };
    let mut r = Random(0x2545f4914f6cdd1d);
    stated_cases(&mut t);
    small_sheets(&mut t, &mut r);
    heard_sums(&mut t, &mut r);
    lacking_sums(&mut t, &mut r);
    names_as_heard(&mut t);
    larger_sheets(&mut t);
    records::random_sheets(&mut t, &mut r);
    locks::random_sheets(&mut t, &mut r);
    // Not on a library that is wrong on purpose, which is made from one of these verdicts: there the reading has to find the fault.
    if std::env::args().len() == 1 {
        beside::sheets(&mut t);
    }
    let pairs = every_pair(&mut t, &mut r);
    let (tried, failed) = off::tried(&mut r);
    println!("brute force: {} calls, {} reached, {} out of reach, {} of them with a used set, {} stopped, {} refused", t.calls, t.reached, t.out, t.used, t.stopped, t.refused);
    println!("rungs by rules 1 to 8: {:?}; refusals 1 to 12: {:?}", &t.rules[1..], &t.refusals[1..]);
    println!("off the sheet: {tried} tried; every pair of used set and remainder: {pairs} sheets");
    let bad = t.failures.count + failed;
    println!("brute: {} passed, {} failed", t.calls + tried - bad.min(t.calls + tried), bad);
    let seen = [t.reached, t.out, t.used, t.stopped, t.refused, t.refusals[12]].into_iter().chain(t.rules[1..].iter().copied());
    if bad > 0 || seen.min() < Some(1000) {
        std::process::exit(1);
    }
}
