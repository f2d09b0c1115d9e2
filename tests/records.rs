// Document 02, E10, in the brute-force test: atoms of 32 bits in short records and long ones. Cases by name, and what may change on a sheet without
// changing an answer or a byte.

use super::kinds;
use super::sheets::{entries_over, full_sheet, sheet, Entry, Random, FRONT, LONGEST};
use super::{either, larger_sheet, with_atoms, Tally, ROOM};
use std::collections::{BTreeMap, BTreeSet};

// "The same number in either length is the same term", for numbers that fit both records and are not on the label.
fn either_record(t: &mut Tally, a: u32) {
    use Entry::*;
    let mut case = |what: &str, entries: &[Entry], heard: &[u16], goal: u16, want: u32| {
        t.case(&format!("{what}, {a}"), &sheet(entries, heard, goal), heard.len() as u32, 256, ROOM, want);
    };
    case("heard in the short record, the goal in the long one", &[Atom(a), Long(a)], &[0], 1, 1000);
    case("heard in the long record, the goal in the short one", &[Atom(a), Long(a)], &[1], 0, 1000);
    case("the long record first, and heard", &[Long(a), Atom(a)], &[0], 1, 1000);
    case("the long record first, and the goal", &[Long(a), Atom(a)], &[1], 0, 1000);
    case("the sum of both records is zero", &[Atom(a), Long(a), Sum(vec![0, 1])], &[], 2, 1001);
    case("three times the atom is the atom", &[Atom(a), Long(a), Sum(vec![0, 1, 1])], &[2], 1, 1000);
    case("the pair of both is the pair of one", &[Atom(a), Long(a), Pair(0, 0), Pair(0, 1)], &[2], 3, 1000);
    case("sealed under the long record, opened by the short one", &[Atom(99999), Long(a), Atom(a), Seal(0, 1)], &[3, 2], 0, 1001);
    case("sealed under the short record, opened by the long one", &[Atom(99999), Atom(a), Long(a), Seal(0, 1)], &[3, 2], 0, 1001);
    case("sealed under the long record, which stands last", &[Atom(99999), Atom(a), Long(a), Seal(0, 2)], &[3, 1], 0, 1001);
    case("masked with the long record, the short one heard", &[Atom(99999), Long(a), Sum(vec![0, 1]), Atom(a)], &[2, 3], 0, 1001);
    case("masked with the short record, the long one heard", &[Atom(99999), Atom(a), Sum(vec![0, 1]), Long(a)], &[2, 3], 0, 1001);
}

// An atom in the records that its number fits.
fn records_of(a: u32) -> Vec<Entry> {
    if a < 65536 { vec![Entry::Atom(a), Entry::Long(a)] } else { vec![Entry::Long(a)] }
}

// Two numbers that are different atoms, in all records that they fit and in both places: with one heard the other is out of reach and lacks itself, their
// sum isn't zero, and a seal under the one isn't opened by the other. Neither is on the label.
fn apart(t: &mut Tally, what: &str, a: u32, b: u32) {
    let what = format!("{what}, {a:#x} and {b:#x}");
    for (x, y) in [(a, b), (b, a)] {
        for [x, y] in records_of(x).iter().flat_map(|x| records_of(y).into_iter().map(|y| [x.clone(), y])) {
            let two = [x, y, Entry::Sum(vec![0, 1]), Entry::Seal(2, 0)];
            t.case(&what, &sheet(&two[..2], &[0], 1), 1, 0, FRONT, 2000);
            t.stated(&what, &sheet(&two[..2], &[0], 1), 1, 0, 2000, &[], &[1]);
            t.case(&format!("the sum of {what}"), &sheet(&two[..3], &[], 2), 0, 0, FRONT, 2000);
            t.case(&format!("a seal under the first of {what}"), &sheet(&two, &[3, 1], 2), 2, 0, FRONT, 2000);
        }
    }
}

// "All stored atom numbers become 32 bits wide and none is cut": each half and each bit counts.
fn whole_numbers(t: &mut Tally) {
    apart(t, "a number and its low half", 0x07d0_03e8, 0x03e8);
    apart(t, "a number and its high half", 0x07d0_03e8, 0x07d0);
    apart(t, "halves exchanged", 0x07d0_03e8, 0x03e8_07d0);
    apart(t, "bytes in the other order", 0x0102_0304, 0x0403_0201);
    apart(t, "bytes of each half exchanged", 0x0102_0304, 0x0201_0403);
    for bit in 0..32 {
        for a in [0x0301, 65536 + 1000, 0x1234_5678, 0x5a5a_5a5a] {
            apart(t, &format!("bit {bit} differs"), a, a ^ 1 << bit);
        }
    }
}

// Numbers at the ends of the short and the long record, and those that a reader may mix up with a short one.
fn edge_numbers(t: &mut Tally) {
    for a in [256, 1000, 65535, 65536, 65537, 16777216, 2147483647, 2147483648, 4294967295] {
        for atom in records_of(a) {
            t.case(&format!("{a} heard"), &sheet(&[atom.clone()], &[0], 0), 1, 0, FRONT, 1000);
            t.case(&format!("{a} not heard"), &sheet(&[atom], &[0], 0), 0, 0, FRONT, 2000);
        }
    }
    apart(t, "65,536 more", 1000, 65536 + 1000);
    apart(t, "small halves exchanged", 0x0001_0002, 0x0002_0001);
    apart(t, "in the low and in the high half", 1000, 1000 * 65536);
    apart(t, "a short number and its bytes in the other order", 0x03e8, 0xe803_0000);
    apart(t, "a short number and its two bytes exchanged", 0x03e8, 0xe803);
    apart(t, "the last that fits the short record and the next", 65535, 65536);
    apart(t, "the last of each record", 65535, 4294967295);
    apart(t, "a half in the place of a byte", 0x0001_0000, 0x0100);
    apart(t, "signed and not", 0xff00, 0xffff_ff00);
}

// "Atoms 0 to 255" are the names, in either record, and each is gained once, as its head.
fn names_in_either_record(t: &mut Tally) {
    use Entry::*;
    for a in 0..256 {
        t.case(&format!("the name {a} in the long record"), &sheet(&[Long(a)], &[], 0), 0, 0, FRONT, 1000);
    }
    for a in [256, 65536, 65536 + 7, 7 * 65536, 7 << 24, 255 << 16, 0x00ff_00ff, 4294967295 - 255, 4294967295 - 255 + 7, 4294967295] {
        t.case(&format!("no name, {a}"), &sheet(&[Long(a)], &[], 0), 0, 0, FRONT, 2000);
    }
    for bit in 8..32 {
        for a in [0, 7, 255] {
            t.case(&format!("the name {a} with bit {bit} is none"), &sheet(&[Long(a | 1 << bit)], &[], 0), 0, 0, FRONT, 2000);
        }
    }
    t.gained("a name short, then long", &sheet(&[Atom(7), Long(7), Atom(1000)], &[], 2), 0, 2000, &[0]);
    t.gained("a name long, then short", &sheet(&[Long(7), Atom(7), Atom(1000)], &[], 2), 0, 2000, &[0]);
    t.gained("a name in both records, heard too", &sheet(&[Long(7), Atom(7), Atom(1000)], &[1, 0], 2), 2, 2000, &[0]);
    t.gained("two names in both records", &sheet(&[Atom(1000), Long(255), Atom(0), Long(0), Atom(255)], &[], 0), 0, 2000, &[1, 2]);
    t.gained("a name beside numbers that end in it", &sheet(&[Long(65536 + 7), Long(7), Atom(1000), Long(7 << 24 | 7)], &[], 2), 0, 2000, &[1]);
    let masked = [Atom(1000), Long(7), Sum(vec![0, 1]), Long(65536 + 7), Sum(vec![0, 3])];
    t.case("masked with a name in the long record", &sheet(&masked, &[2], 0), 1, 256, ROOM, 1001);
    t.case("masked with a number that ends in a name", &sheet(&masked, &[4], 0), 1, 256, ROOM, 2000);
}

// A long record has the length of a pair's and a seal's, and its number may be as large as what tells them apart: it is an atom all the same.
fn no_other_kind(t: &mut Tally) {
    use Entry::*;
    let mut case = |what: &str, entries: &[Entry], heard: &[u16], goal: u16, want: u32| {
        t.case(what, &sheet(entries, heard, goal), heard.len() as u32, 256, ROOM, want);
    };
    for high in [1, 2, 0x0100, 0x0200, 0xffff] {
        let a = high << 16 | 1;
        let entries = [Atom(1000), Atom(1001), Long(a), Pair(0, 1), Seal(0, 1)];
        case(&format!("{a:#x} isn't split"), &entries, &[2], 0, 2000);
        case(&format!("{a:#x} isn't split right"), &entries, &[2], 1, 2000);
        case(&format!("{a:#x} isn't opened"), &entries, &[2, 1], 0, 2000);
        case(&format!("{a:#x} isn't joined or sealed"), &entries, &[0, 1], 2, 2002);
        case(&format!("{a:#x} isn't the pair"), &entries, &[2], 3, 2000);
        case(&format!("{a:#x} isn't the seal"), &entries, &[2], 4, 2000);
    }
    case("the bytes of a pair of entries 1 and 0", &[Atom(1000), Atom(1001), Long(1 << 16)], &[2], 0, 2000);
    case("the bytes of a pair of entries 0 and 1, of a name", &[Atom(1000), Atom(1001), Long(1)], &[], 0, 2000);
    for a in [1 << 16, 3 << 16, 4 << 16, 1 << 24, 3 << 24, 4 << 24, 0xffff_0000, 0xfffd_0000, 0xfffc_0000, 0xff00_0000, 1 << 31] {
        case(&format!("{a:#x} isn't zero"), &[Long(a)], &[], 0, 2000);
        case(&format!("{a:#x} isn't zero, which stands beside it"), &[Zero, Long(a), Sum(vec![0])], &[], 1, 2001);
    }
    case("number 0 in the long record", &[Long(0)], &[], 0, 1000);
    for a in [0x0000_ffff, 0x0001_0000, 0x0001_0001, 0x0100_0100, 0x7fff_ffff, 0xffff_0000, 0xffff_ffff] {
        case(&format!("{a:#x} has no entry numbers"), &[Long(a)], &[0], 0, 1000);
        case(&format!("{a:#x} has no entry numbers, in a later record"), &[Zero, Long(a), Pair(0, 1)], &[2], 1, 1002);
    }
}

// Kind 1 has the lengths 3 and 5 and no other.
fn atom_lengths(t: &mut Tally) {
    use Entry::*;
    let atom = |length: usize| Raw([vec![1], vec![0; length - 2], vec![9]].concat());
    t.case("an atom of length 1", &sheet(&[Raw(vec![1])], &[], 0), 0, 0, FRONT, 5);
    for length in 2..=300 {
        let want = if length == 3 || length == 5 { 1000 } else { 5 };
        t.case(&format!("an atom of length {length}"), &sheet(&[atom(length)], &[0], 0), 1, 0, FRONT, want);
    }
    for length in [1, 2, 4, 6, 7, 129] {
        let bad = Raw(vec![1; length]);
        let what = |place: &str| format!("an atom of length {length}, {place}");
        t.case(&what("last"), &sheet(&[Atom(1000), Long(1000), bad.clone()], &[0], 0), 1, 0, FRONT, 5);
        t.case(&what("before a pair of itself"), &sheet(&[Atom(1000), bad.clone(), Pair(2, 2)], &[0], 0), 1, 0, FRONT, 5);
        t.case(&what("after a pair of itself"), &sheet(&[Atom(1000), Pair(1, 1), bad], &[0], 0), 1, 0, FRONT, 6);
    }
    t.case("a long record before a pair of itself", &sheet(&[Long(4294967295), Pair(1, 1)], &[0], 0), 1, 0, FRONT, 6);
}

// Sheets of 34,446 bytes and of one more or fewer, whose entry 0 is an atom. Message 1 is zero and message 2 the atom.
fn longest(t: &mut Tally) {
    let full = |number: Entry, goal: u16| full_sheet(number, [255, 254], goal);
    let (long, short) = (full(Entry::Long(65536 + 1000), 0), full(Entry::Atom(1000), 0));
    assert_eq!([long.len(), short.len()], [LONGEST, 34444]);
    for (what, s) in [("the longest sheet", &long), ("the longest with a short record", &short)] {
        t.case(&format!("{what}, nothing heard"), s, 0, 256, ROOM, 2001);
        t.case(&format!("{what}, zero heard"), s, 1, 256, ROOM, 2000);
        t.case(&format!("{what}, its atom heard"), s, 2, 256, ROOM, 1000);
        t.case(&format!("{what}, all heard"), s, 256, 0, FRONT, 1000);
        t.case(&format!("{what}, past the log"), s, 257, 0, FRONT, 8);
    }
    t.case("the longest sheet, zero heard 256 times", &full_sheet(Entry::Long(65536 + 1000), [255, 255], 0), 256, 256, ROOM, 2000);
    t.case("the longest sheet, a name", &full(Entry::Long(7), 0), 0, 0, FRONT, 1000);
    t.case("the longest sheet, a name for the goal's head", &full(Entry::Long(7), 254), 0, 0, FRONT, 1000);
    t.case("the longest sheet and one byte", &[&long[..], &[0]].concat(), 2, 0, FRONT, 1);
    t.case("34,446 bytes, of which two are left over", &[&short[..], &[0, 0]].concat(), 2, 0, FRONT, 4);
    t.case("34,445 bytes, of which one is left over", &[&short[..], &[0]].concat(), 2, 0, FRONT, 4);
    t.case("34,445 bytes, one too few", &long[..34445], 2, 0, FRONT, 4);
    t.case("34,445 bytes, with an atom of length 4", &full(Entry::Raw(vec![1, 0, 0, 9]), 0), 2, 0, FRONT, 5);
    t.case("34,447 bytes, with an atom of length 6", &full(Entry::Raw(vec![1, 0, 0, 0, 0, 9]), 0), 2, 0, FRONT, 1);
    t.case("34,446 bytes, with a pair for the atom", &full(Entry::Pair(0, 0), 0), 2, 0, FRONT, 6);
}

// A number whose halves are among a few, so that numbers share halves and bytes.
fn few_halves(r: &mut Random) -> u32 {
    let mut half = || [0, 0, 0, 1, 7, 256, 0x8000, 65535][r.below(8) as usize];
    half() << 16 | half()
}

// Small sheets over four numbers that share halves and bytes, in both records.
fn shared_halves(t: &mut Tally, r: &mut Random) {
    for _ in 0..3000 {
        let atoms = [(); 4].map(|_| few_halves(r));
        let (entries, heard, goal) = entries_over(r, 8, &atoms);
        t.every_cut("numbers that share halves", &sheet(&entries, &heard, goal), r);
    }
}

// Every second time a small sheet with numbers that share halves, otherwise a larger one.
fn any_sheet(r: &mut Random, seed: u64) -> kinds::Parts {
    if seed % 2 == 0 {
        let atoms = [(); 5].map(|_| few_halves(r));
        return entries_over(r, 16, &atoms);
    }
    larger_sheet([kinds::drawn, kinds::labelled, kinds::lacking, kinds::locked][seed as usize / 2 % 4], seed / 2)
}

// These entries in the places of the sheet's own: at each cut and budget answer and bytes are the same.
pub fn same_everywhere(t: &mut Tally, what: &str, (entries, heard, goal): &kinds::Parts, others: &[Entry]) {
    let sheets = [sheet(entries, heard, *goal), sheet(others, heard, *goal)];
    for cut in [0, heard.len() / 2, heard.len()] {
        for budget in [0, 3, 256] {
            t.same(what, [&sheets[0], &sheets[1]], [cut, cut], budget);
        }
    }
}

// The record that an atom's number stands in changes neither answer nor bytes: all long, short where they fit, each in its other one.
fn other_records(t: &mut Tally, r: &mut Random) {
    for seed in 0..400 {
        let parts = any_sheet(r, seed);
        let exchanged = |e: &Entry| match e {
            Entry::Atom(a) => Entry::Long(*a),
            Entry::Long(a) => Entry::Atom(*a),
            _ => e.clone(),
        };
        same_everywhere(t, "every atom in the long record", &parts, &with_atoms(&parts.0, Entry::Long));
        same_everywhere(t, "every atom in the short record, where it fits", &parts, &with_atoms(&parts.0, Entry::Atom));
        same_everywhere(t, "every atom in its other record", &parts, &parts.0.iter().map(exchanged).collect::<Vec<Entry>>());
    }
}

// Other numbers for the atoms, different ones for different ones, names for names and none for others: neither answer nor bytes change.
fn other_numbers(t: &mut Tally, r: &mut Random) {
    for seed in 0..400 {
        let parts = any_sheet(r, seed);
        let (mask, mut new, mut taken) = (r.below(256) as u32, BTreeMap::new(), BTreeSet::new());
        let mut fresh = |r: &mut Random| loop {
            let number = if r.below(4) == 0 { r.next() as u32 } else { few_halves(r) ^ few_halves(r).rotate_left(8) };
            if number > 255 && taken.insert(number) {
                return number;
            }
        };
        let renamed = with_atoms(&parts.0, |a| {
            let number = if a < 256 { a ^ mask } else { *new.entry(a).or_insert_with(|| fresh(r)) };
            either(r, |_| number)
        });
        same_everywhere(t, "other numbers", &parts, &renamed);
    }
}

// What is stated case by case.
pub fn stated_cases(t: &mut Tally) {
    whole_numbers(t);
    for a in [256, 1000, 65535] {
        either_record(t, a);
    }
    names_in_either_record(t);
    edge_numbers(t);
    no_other_kind(t);
    atom_lengths(t);
    longest(t);
}

pub fn random_sheets(t: &mut Tally, r: &mut Random) {
    shared_halves(t, r);
    other_records(t, r);
    other_numbers(t, r);
}
