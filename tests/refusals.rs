// The refusals, on the built library: each row of the grounding table and row 12 with its neighbours on both sides, several faults at once to show the
// order, and many damaged sheets against a second reading of the table. A refused verdict keeps every byte of the buffer and around it.

mod failures;
#[allow(dead_code)] // each test uses a part
mod sheets;
use failures::Failures;
use sheets::{damage, full_sheet, random_entries, refusal, sheet, Entry, Random, FRONT, LONGEST};

extern "C" {
    fn zuwendryk_validate(sheet: *const u8, len: usize) -> u32;
    fn zuwendryk_verdict(sheet: *const u8, sheet_len: usize, cut: u32, budget: u32, buffer: *mut u8, buffer_len: usize) -> u32;
}

fn validate(sheet: &[u8]) -> u32 {
    // A slice's pointer is never null, and the library reads no further than its length.
    unsafe { zuwendryk_validate(sheet.as_ptr(), sheet.len()) }
}

fn verdict(s: &[u8], cut: u32, budget: u32, buffer: &mut [u8]) -> u32 {
    // Both areas are slices, so neither pointer is null and they don't overlap.
    unsafe { zuwendryk_verdict(s.as_ptr(), s.len(), cut, budget, buffer.as_mut_ptr(), buffer.len()) }
}

struct Count {
    passed: u32,
    failures: Failures,
    numbers: [u32; 13], // sheets by the refusal wanted
}

impl Count {
    // A sheet's refusal, or 0: of the sheet alone, of a verdict, and of a verdict with faults in all that is checked later.
    fn check(&mut self, what: &str, s: &[u8], want: u32) {
        self.numbers[want as usize] += 1;
        let got = validate(s);
        if got == want && refusal(s) == want {
            self.passed += 1;
        } else {
            self.failures.add(&format!("{what}: library {got}, reading {}, wanted {want}", refusal(s)));
        }
        self.call(what, s, 0, 0, FRONT, want);
        self.call(what, s, u32::MAX, u32::MAX, 0, if want == 0 { 8 } else { want });
    }

    // A verdict's refusal, or 0 for any of the three verdicts. A refusal keeps every byte, a verdict those around the buffer.
    fn call(&mut self, what: &str, s: &[u8], cut: u32, budget: u32, length: usize, want: u32) {
        let pattern = |i: usize| (i * 37 + 11) as u8;
        let mut area: Vec<u8> = (0..length + 32).map(pattern).collect();
        let got = verdict(s, cut, budget, &mut area[16..16 + length]);
        let kept = (0..length + 32).all(|i| area[i] == pattern(i) || want == 0 && (16..16 + length).contains(&i));
        if kept && (got == want || want == 0 && (1000..4000).contains(&got)) {
            self.passed += 1;
        } else {
            self.failures.add(&format!("{what}: verdict {got} at cut {cut}, budget {budget} and {length} bytes, wanted {want}, bytes kept: {kept}"));
        }
    }
}

fn with_number(mut s: Vec<u8>, at: usize, n: u16) -> Vec<u8> {
    s[at..at + 2].copy_from_slice(&n.to_be_bytes());
    s
}

fn atoms(n: u32) -> Vec<Entry> {
    (1000..1000 + n).map(Entry::Atom).collect()
}

// Document 01's sheet A, of 55 bytes.
fn sheet_a() -> Vec<u8> {
    use Entry::*;
    sheet(&[Atom(1007), Atom(1009), Sum(vec![0, 1]), Atom(1012), Seal(3, 0)], &[2, 4, 1], 3)
}

fn row_1(c: &mut Count) {
    let a = sheet_a();
    assert_eq!(a.len(), 55);
    c.check("sheet A", &a, 0);
    c.check("empty", &[], 1);
    c.check("9 bytes", &b"SHT1\0\x01\0\0\0"[..], 1);
    c.check("10 bytes are looked at", &b"SHT1\0\x01\0\0\0\0"[..], 3);
    for i in 0..4 {
        let mut s = a.clone();
        s[i] ^= 1;
        c.check("a letter differs", &s, 1);
    }
}

// The longest sheet: entry 0 can be no longer than an atom in the long record, every other one is a sum of 64 items.
fn longest(c: &mut Count) {
    use Entry::*;
    let full = |first: Entry| full_sheet(first, [255, 254], 255);
    let (long, short, zero) = (full(Long(65536 + 1001)), full(Atom(1001)), full(Zero));
    assert_eq!([long.len(), short.len(), zero.len()], [LONGEST, 34444, 34442]);
    let and = |s: &[u8], more: usize| [s.to_vec(), vec![0; more]].concat();
    c.check("34,446 bytes", &long, 0);
    c.check("34,446 bytes with a number that fits the short record", &full(Long(1001)), 0);
    c.check("34,444 bytes", &short, 0);
    c.check("34,442 bytes", &zero, 0);
    c.check("34,447 bytes, the longest sheet and one", &and(&long, 1), 1);
    c.check("34,448 bytes, the longest sheet and two", &and(&long, 2), 1);
    c.check("34,447 bytes with three left over", &and(&short, 3), 1);
    c.check("34,446 bytes with two left over", &and(&short, 2), 4);
    c.check("34,445 bytes with one left over", &and(&short, 1), 4);
    c.check("34,446 bytes with four left over", &and(&zero, 4), 4);
    c.check("34,445 bytes, the longest sheet without its last", &long[..34445], 4);
    c.check("34,445 bytes, an atom of length 4", &full(Raw(vec![1; 4])), 5);
    c.check("34,447 bytes, an atom of length 6", &full(Raw(vec![1; 6])), 1);
    for more in [34447, 34448, 65535, 65536, 65536 + 34446, 131072 + 55] {
        c.check("sheet A and zeros up to over 34,446 bytes", &and(&sheet_a(), more - 55), 1);
    }
    for length in [34444, 34445, 34446] {
        c.check("sheet A and zeros up to 34,446 bytes or fewer", &and(&sheet_a(), length - 55), 4);
    }
}

// The longest sheet gets each number that a sheet of its length can get; one byte more, and it is 1.
fn longest_refused(c: &mut Count) {
    let long = full_sheet(Entry::Long(65536 + 1001), [255, 254], 255);
    let (lists, records) = (10 + 4 * 256, 10 + 4 * 256 + 2 * 256);
    let mut faults = vec![("n 257", with_number(long.clone(), 4, 257), 2), ("goal 256", with_number(long.clone(), 8, 256), 2)];
    faults.push(("an offset one late", with_number(long.clone(), 14, records as u16 + 6), 4));
    faults.push(("a last length one less", with_number(long.clone(), 12 + 4 * 255, 128), 4));
    faults.push(("a forward item at the end", with_number(long.clone(), long.len() - 2, 255), 6));
    faults.push(("a last message of 256", with_number(long.clone(), records - 2, 256), 7));
    faults.push(("a first message of 256", with_number(long.clone(), lists, 256), 7));
    let with_kind = |kind: u8| [&long[..records], &[kind], &long[records + 1..]].concat();
    faults.push(("zero of length 5", with_kind(0), 5));
    faults.push(("a pair for the atom", with_kind(2), 6));
    faults.push(("a sum for the atom", with_kind(4), 6));
    faults.push(("a half of length 5 for the atom", with_kind(5), 5));
    faults.push(("a lock for the atom", with_kind(7), 6));
    faults.push(("kind 8 for the atom", with_kind(8), 5));
    for (what, s, want) in faults {
        assert_eq!(s.len(), LONGEST);
        c.check(&format!("34,446 bytes, {what}"), &s, want);
        c.check(&format!("34,447 bytes, {what}"), &[s, vec![0]].concat(), 1);
    }
}

fn rows_2_to_4(c: &mut Count) {
    let a = sheet_a();
    c.check("n 0", &with_number(a.clone(), 4, 0), 2);
    c.check("n 1", &sheet(&atoms(1), &[], 0), 0);
    c.check("n 256", &sheet(&atoms(256), &[], 255), 0);
    c.check("n 257", &sheet(&atoms(257), &[], 0), 2);
    c.check("h 256", &sheet(&atoms(1), &[0; 256], 0), 0);
    c.check("h 257", &sheet(&atoms(1), &[0; 257], 0), 2);
    c.check("goal n - 1", &sheet(&atoms(3), &[], 2), 0);
    c.check("goal n", &sheet(&atoms(3), &[], 3), 2);

    let lists = 10 + 4 * 5 + 2 * 3;
    c.check("one byte short of the lists", &a[..lists - 1], 3);
    c.check("the lists and no record", &a[..lists], 4);

    c.check("a length of 0", &with_number(a.clone(), 12, 0), 4);
    c.check("an offset one early", &with_number(a.clone(), 10, lists as u16 - 1), 4);
    c.check("an offset one late", &with_number(a.clone(), 10, lists as u16 + 1), 4);
    c.check("an end past the sheet", &a[..a.len() - 1], 4);
    c.check("a trailing byte", &[a.clone(), vec![0]].concat(), 4);
    let last = 12 + 4 * 4;
    c.check("an end that wraps at 16 bits", &with_number(a.clone(), last, 65535), 4);
    let long = sheet(&[Entry::Long(65536)], &[], 0);
    c.check("a long record that ends past the sheet", &long[..long.len() - 1], 4);
    c.check("a long record with a length of 3", &with_number(long.clone(), 12, 3), 4);
    c.check("a long record and a byte", &[long, vec![0]].concat(), 4);
}

fn row_5(c: &mut Count) {
    use Entry::*;
    for kind in 8..=255u8 {
        for length in 1..=7 {
            let other = Raw([vec![kind], vec![0; length - 1]].concat());
            c.check("kind over 7", &sheet(&[other.clone()], &[], 0), 5);
            c.check("kind over 7, after a half", &sheet(&[Private(7), other], &[], 0), 5);
        }
    }
    for (what, bytes) in [
        ("zero with a length of 3", vec![0, 0, 0]),
        ("zero with a length of 5", vec![0, 0, 0, 0, 0]),
        ("pair with a length of 3", vec![2, 0, 0]),
        ("pair with a length of 7", vec![2, 0, 0, 0, 0, 0, 0]),
        ("seal with a length of 3", vec![3, 0, 0]),
        ("seal with a length of 4", vec![3, 0, 0, 0]),
        ("a sum of even length", vec![4, 0]),
    ] {
        c.check(what, &sheet(&[Zero, Raw(bytes)], &[], 0), 5);
    }
    c.check("no items", &sheet(&[Sum(vec![])], &[], 0), 0);
    c.check("64 items", &sheet(&[Zero, Sum(vec![0; 64])], &[], 0), 0);
    c.check("65 items", &sheet(&[Zero, Sum(vec![0; 65])], &[], 0), 5);
}

// Kinds 5 and 6 have the length 3 and kind 7 the length 5, whatever the bytes are. The two entries before are a half and a lock of it.
fn half_and_lock_lengths(c: &mut Count) {
    use Entry::*;
    for length in (1..=131).chain([255, 256, 257, 259, 261]) {
        for byte in [0, 1, 255] {
            let half = |kind: u8| Raw([vec![kind], vec![byte; length - 1]].concat());
            for kind in [5, 6] {
                let want = if length == 3 { 0 } else { 5 };
                let what = format!("kind {kind} with a length of {length}");
                c.check(&what, &sheet(&[half(kind)], &[0], 0), want);
                c.check(&what, &sheet(&[Public(7), Lock(0, 0), half(kind)], &[], 0), want);
                c.check(&what, &sheet(&[half(kind), Atom(7), Lock(1, 0)], &[2, 0], 0), want);
            }
        }
        let want = if length == 5 { 0 } else { 5 };
        let lock = Raw([vec![7], vec![0; length - 1]].concat());
        c.check(&format!("kind 7 with a length of {length}"), &sheet(&[Private(7), lock.clone()], &[1], 1), want);
        c.check(&format!("kind 7 with a length of {length}, not last"), &sheet(&[Public(65535), lock, Pair(1, 1)], &[2], 0), want);
    }
    // each kind with the other's length, and the first kind that is none
    c.check("a private half with a lock's length", &sheet(&[Public(7), Raw(vec![5, 0, 0, 0, 0])], &[], 0), 5);
    c.check("a public half with a lock's length", &sheet(&[Public(7), Raw(vec![6, 0, 0, 0, 0])], &[], 0), 5);
    c.check("a lock with a half's length", &sheet(&[Public(7), Raw(vec![7, 0, 0])], &[], 0), 5);
    c.check("kind 7", &sheet(&[Public(7), Raw(vec![7, 0, 0, 0, 0])], &[], 0), 0);
    c.check("kind 8", &sheet(&[Public(7), Raw(vec![8, 0, 0, 0, 0])], &[], 0), 5);
    c.check("kind 135, which is 7 and the high bit", &sheet(&[Public(7), Raw(vec![135, 0, 0, 0, 0])], &[], 0), 5);
}

// A half's number is no entry number: it may be any.
fn half_numbers(c: &mut Count) {
    use Entry::*;
    for number in (0..=300).chain([1000, 0x7fff, 0x8000, 0xff00, 65534, 65535]) {
        for half in [Private, Public] {
            c.check("a half's number is any", &sheet(&[half(number)], &[0], 0), 0);
            c.check("nor in a later record", &sheet(&[Zero, half(number), Lock(0, 1), half(number), Lock(2, 3)], &[], 0), 0);
        }
    }
}

// Row 6 of a lock: message and key below its own number, both sides of it, and past all entries.
fn forward_locks(c: &mut Count) {
    use Entry::*;
    let before = [Public(7), Private(7), Public(8)];
    let with = |lock: Entry, after: &[Entry]| sheet(&[&before[..], &[lock], after].concat(), &[], 0);
    for after in [&[][..], &[Public(9), Private(9)]] {
        c.check("a message one below", &with(Lock(2, 0), after), 0);
        c.check("a key one below", &with(Lock(0, 2), after), 0);
        c.check("message and key one below", &with(Lock(2, 2), after), 0);
        for number in [3, 4, 5, 255, 256, 257, 65535] {
            c.check("a message that isn't below", &with(Lock(number, 0), after), 6);
            c.check("a key that isn't below", &with(Lock(0, number), after), 6);
            c.check("neither is below", &with(Lock(number, number), after), 6);
        }
    }
    c.check("a lock of itself", &sheet(&[Lock(0, 0)], &[], 0), 6);
    c.check("a half's bytes as entry numbers", &sheet(&[Private(65535), Lock(0, 0)], &[], 0), 0);
}

// Row 12: a lock's key entry "is not itself of kind 5 or 6". Entry 0 is an atom, 1 and 2 are the halves of a pair, the others are each of another kind.
fn row_12(c: &mut Count) {
    use Entry::*;
    let mut keys = vec![Atom(1000), Private(7), Public(7), Zero, Long(1000), Pair(1, 2), Seal(0, 1), Lock(0, 1)];
    keys.extend([vec![1], vec![2], vec![1, 3], vec![1, 0, 0]].map(Sum));
    for key in 0..keys.len() as u16 {
        let want = if key == 1 || key == 2 { 0 } else { 12 };
        let what = format!("a lock under {:?}", keys[usize::from(key)]);
        for message in 0..keys.len() as u16 {
            c.check(&what, &sheet(&[&keys[..], &[Lock(message, key)]].concat(), &[12], 12), want);
        }
        c.check(&format!("{what}, not last"), &sheet(&[&keys[..], &[Lock(0, key), Atom(1001), Pair(12, 13)]].concat(), &[14], 14), want);
        c.check(&format!("{what}, after a good lock"), &sheet(&[&keys[..], &[Lock(0, 1), Lock(12, key)]].concat(), &[], 0), want);
        c.check(&format!("{what}, before a good lock"), &sheet(&[&keys[..], &[Lock(0, key), Lock(12, 2)]].concat(), &[], 0), want);
    }
    for number in [5u16, 6, 0x0500, 0x0600, 0x0506] {
        c.check("an atom whose number has a half's kind", &sheet(&[Atom(number.into()), Lock(0, 0)], &[], 0), 12);
        c.check("the same in a long record", &sheet(&[Long(u32::from(number) << 16), Lock(0, 0)], &[], 0), 12);
    }
    c.check("an even sum of a half, which is zero", &sheet(&[Public(7), Sum(vec![0, 0]), Lock(0, 1)], &[], 0), 12);
    c.check("a half again, which is no head", &sheet(&[Public(7), Public(7), Lock(0, 1)], &[], 0), 0);
    c.check("a half after a sum that is the same", &sheet(&[Public(7), Sum(vec![0]), Public(7), Lock(1, 2)], &[], 0), 0);
}

// Row 12 comes after 6 in the same record, and records are taken entry by entry.
fn order_of_12(c: &mut Count) {
    use Entry::*;
    let wrong = || Lock(0, 0); // entry 0 is an atom
    let bad = |kind: u8| Raw(vec![kind; 2]);
    let mut check = |what: &str, entries: &[Entry], heard: &[u16], want: u32| c.check(what, &sheet(&[&[Atom(1000)], entries].concat(), heard, 0), want);
    check("6 by the message before 12 in one record", &[Lock(1, 0)], &[], 6);
    check("6 by the message, an entry that comes later, before 12", &[Lock(2, 0), Public(7)], &[], 6);
    check("6 by the key before 12: a later half", &[Lock(0, 2), Public(7)], &[], 6);
    check("6 by the key before 12: a later atom", &[Lock(0, 2), Atom(7)], &[], 6);
    check("6 by the key before 12: itself", &[Lock(0, 1)], &[], 6);
    check("5 before 12 in one record", &[Raw(vec![7, 0, 0, 0, 0, 0, 0])], &[], 5);
    for kind in [0, 1, 2, 3, 4, 5, 6, 7, 8, 9] {
        check("12 in entry 1 before 5 in entry 2", &[wrong(), bad(kind)], &[], 12);
        check("5 in entry 1 before 12 in entry 2", &[bad(kind), wrong()], &[], 5);
    }
    for forward in [Pair(9, 0), Seal(0, 9), Sum(vec![9]), Lock(9, 0)] {
        check("12 in entry 1 before 6 in entry 2", &[wrong(), forward.clone()], &[], 12);
        check("6 in entry 1 before 12 in entry 2", &[forward, wrong()], &[], 6);
    }
    check("12 before 7", &[wrong()], &[9], 12);
    check("12 in the last entry before 7", &[Public(7), Lock(0, 1), wrong()], &[0, 9], 12);
    check("12, then 5, then 6, and 7", &[wrong(), bad(8), Pair(9, 9)], &[9], 12);
    check("7 after a good lock", &[Public(7), Lock(0, 1)], &[3], 7);
    check("the last entry heard after a good lock", &[Public(7), Lock(0, 1)], &[2], 0);
    let s = sheet(&[Atom(1000), wrong()], &[], 0);
    c.check("4 before 12", &[&s[..], &[0]].concat(), 4);
    c.check("3 before 12", &s[..17], 3);
    c.check("2 before 12", &with_number(s.clone(), 8, 2), 2);
    c.call("12 before 8, 9 and 10", &s, 1, 257, 0, 12);
    c.call("12 before 9 and 10", &s, 0, 257, 0, 12);
    c.call("12 before 10", &s, 0, 0, FRONT - 1, 12);
}

// Kind 1 has the lengths 3 and 5, in the first record, in the last and between, whatever the number's bytes are.
fn atom_lengths(c: &mut Count) {
    use Entry::*;
    for length in (1..=260).chain([511, 512, 513, 515, 517, 65535 - 100]) {
        let want = if length == 3 || length == 5 { 0 } else { 5 };
        let what = format!("an atom with a length of {length}");
        for byte in [0, 1, 255] {
            let atom = Raw([vec![1], vec![byte; length - 1]].concat());
            let s = sheet(&[atom.clone()], &[], 0);
            // a sheet that is too long isn't looked at any further
            let want = if s.len() > LONGEST { 1 } else { want };
            c.check(&what, &s, want);
            c.check(&what, &sheet(&[Zero, atom.clone(), Pair(0, 1)], &[1], 1), want);
            c.check(&what, &sheet(&[Long(65536), Atom(7), Pair(1, 0), atom], &[], 3), want);
        }
    }
}

fn rows_6_and_7(c: &mut Count) {
    use Entry::*;
    c.check("an item equal to its own entry", &sheet(&[Zero, Sum(vec![0, 1])], &[], 0), 6);
    c.check("an item one below its own entry", &sheet(&[Zero, Zero, Sum(vec![0, 1])], &[], 0), 0);
    c.check("a left equal to its own entry", &sheet(&[Zero, Pair(1, 0)], &[], 0), 6);
    c.check("a right equal to its own entry", &sheet(&[Zero, Pair(0, 1)], &[], 0), 6);
    c.check("a key past all entries", &sheet(&[Zero, Seal(0, 65535)], &[], 0), 6);
    c.check("an atom's number is no entry number", &sheet(&[Atom(65535)], &[], 0), 0);
    for number in [0, 1, 2, 65535, 65536, 0x0001_0001, 0x0002_0001, 0x7fff_ffff, 0x8000_0000, 0xffff_0000, 0xffff_ffff] {
        c.check("a long record's number is no entry number", &sheet(&[Long(number)], &[], 0), 0);
        c.check("nor in a later record", &sheet(&[Zero, Zero, Long(number), Pair(2, 2)], &[], 0), 0);
    }

    c.check("a heard number n - 1", &sheet(&atoms(4), &[3], 0), 0);
    c.check("a heard number n", &sheet(&atoms(4), &[4], 0), 7);
    c.check("the last heard number n", &sheet(&atoms(4), &[0, 1, 4], 0), 7);
    c.check("the first heard number n", &sheet(&atoms(4), &[4, 1, 0], 0), 7);
    c.check("a heard number n, after a long record", &sheet(&[Long(65536)], &[0, 1], 0), 7);
}

fn order(c: &mut Count) {
    use Entry::*;
    c.check("2 before 7", &with_number(sheet(&atoms(2), &[9], 0), 8, 2), 2);
    c.check("4 in the last pair before 5 in the first record", &with_number(sheet(&[Raw(vec![9]), Zero], &[], 0), 16, 0), 4);
    c.check("6 in entry 1 before 5 in entry 2", &sheet(&[Zero, Pair(1, 1), Raw(vec![9])], &[], 0), 6);
    c.check("5 in entry 1 before 6 in entry 2", &sheet(&[Zero, Raw(vec![9]), Pair(2, 2)], &[], 0), 5);
    c.check("5 before 6 in one record", &sheet(&[Zero, Raw(vec![2, 0, 1])], &[], 0), 5);
    c.check("6 before 7", &sheet(&[Zero, Pair(1, 1)], &[9], 0), 6);
    for length in [1, 2, 4, 6, 7, 129] {
        let bad = Raw(vec![1; length]);
        c.check("an atom's length in entry 1 before 6 in entry 2", &sheet(&[Zero, bad.clone(), Pair(2, 2)], &[], 0), 5);
        c.check("6 in entry 1 before an atom's length in entry 2", &sheet(&[Zero, Pair(1, 1), bad.clone()], &[], 0), 6);
        c.check("an atom's length before 7", &sheet(&[Zero, bad.clone()], &[9], 0), 5);
        c.check("4 before an atom's length", &[sheet(&[bad, Zero], &[], 0), vec![0]].concat(), 4);
    }
    c.check("a long record, then 6", &sheet(&[Long(0xffff_ffff), Pair(1, 1)], &[], 0), 6);
    c.check("a long record, then 5", &sheet(&[Long(0xffff_ffff), Raw(vec![9])], &[], 0), 5);
}

// Rows 8 to 10, of sheet A, which is out of reach at cut 2, and stopped or reached at cut 3.
fn call_edges(c: &mut Count) {
    use Entry::*;
    let entries = [Atom(1007), Atom(1009), Sum(vec![0, 1]), Atom(1012), Seal(3, 0)];
    let a = sheet_a();
    let room = |budget: usize| FRONT + 40 * budget;

    // row 8
    c.call("cut h", &a, 3, 0, room(0), 0);
    for cut in [4, 256, 257, 65535, 65536, 65536 + 3, u32::MAX] {
        c.call("cut over h", &a, cut, 0, room(0), 8);
    }
    c.call("cut 0, nothing heard", &sheet(&entries, &[], 3), 0, 0, room(0), 0);
    c.call("cut 1, nothing heard", &sheet(&entries, &[], 3), 1, 0, room(0), 8);

    // row 9
    c.call("budget 256", &a, 3, 256, room(256), 0);
    for budget in [257, 512, 65535, 65536, 65536 + 256, u32::MAX] {
        c.call("budget over 256", &a, 3, budget, room(1000), 9);
    }

    // row 10; before request E5, 64 bytes less were enough
    for budget in 0..=256 {
        let enough = room(budget);
        for cut in [2, 3] {
            c.call("enough space", &a, cut, budget as u32, enough, 0);
            for length in [enough - 1, enough - 64, enough - 65, 0] {
                c.call("no space", &a, cut, budget as u32, length, 10);
            }
        }
    }

    // the order
    c.call("7 before 8", &sheet(&entries, &[5], 3), 2, 0, room(0), 7);
    c.call("8 before 9", &a, 4, 257, room(257), 8);
    c.call("8 before 10", &a, 4, 0, room(0) - 1, 8);
    c.call("9 before 10", &a, 3, 257, room(0) - 1, 9);
}

fn damaged(c: &mut Count) {
    let mut r = Random(0x9e3779b97f4a7c15);
    for _ in 0..200_000 {
        let (entries, heard, goal) = random_entries(&mut r, 8);
        let whole = sheet(&entries, &heard, goal);
        let s = if r.below(8) == 0 { whole } else { damage(&mut r, whole) };
        c.check("a damaged sheet", &s, refusal(&s));
    }
}

// Small sheets of halves, locks and atoms with a fault in some record: another key or message, kind or length.
fn damaged_locks(c: &mut Count) {
    use Entry::*;
    let mut r = Random(0x2545f4914f6cdd1d);
    for _ in 0..50_000 {
        let n = 2 + r.below(5);
        // one in eight sheets may have a forward message, one in eight a heard number that isn't listed
        let [forward, unlisted] = [(); 2].map(|_| u64::from(r.below(8) == 0));
        let mut entry = |i: u64| match r.below(20) {
            0..=4 => Private(r.below(4) as u16),
            5..=7 => Public(256 * r.below(4) as u16),
            8..=9 => Atom(r.below(2000) as u32),
            10 => Sum(vec![r.below(i + 1) as u16]),
            11 => Raw([vec![r.below(9) as u8], vec![0; r.below(7) as usize]].concat()),
            _ => Lock(r.below(i + forward) as u16, r.below(i) as u16),
        };
        let entries: Vec<Entry> = (0..n).map(|i| if i == 0 { Public(7) } else { entry(i) }).collect();
        let heard: Vec<u16> = (0..r.below(3)).map(|_| r.below(n + unlisted) as u16).collect();
        let s = sheet(&entries, &heard, r.below(n) as u16);
        c.check("a sheet of locks", &s, refusal(&s));
    }
}

fn main() {
    let mut c = Count { passed: 0, failures: Failures::default(), numbers: [0; 13] };
    row_1(&mut c);
    longest(&mut c);
    longest_refused(&mut c);
    rows_2_to_4(&mut c);
    row_5(&mut c);
    atom_lengths(&mut c);
    half_and_lock_lengths(&mut c);
    half_numbers(&mut c);
    rows_6_and_7(&mut c);
    forward_locks(&mut c);
    row_12(&mut c);
    order(&mut c);
    order_of_12(&mut c);
    call_edges(&mut c);
    damaged(&mut c);
    damaged_locks(&mut c);
    println!("refusals by number, 0 for none: {:?}", c.numbers);
    println!("refusals: {} passed, {} failed", c.passed, c.failures.count);
    if c.failures.count > 0 || (0..8).chain([12]).any(|number| c.numbers[number] < 1000) {
        std::process::exit(1);
    }
}
