// Document 02, E6, in the brute-force test: key pairs and locks. Cases by name, rungs as the card prints them, and what may change on a sheet without
// changing an answer or a byte.

use super::cards::rung_line;
use super::kinds::{self, Parts};
use super::reading::{read, replay, set_bytes};
use super::records::same_everywhere;
use super::sheets::{lock_entries, sheet, Entry, Random, FRONT};
use super::{larger_sheet, verdict, Tally, ROOM};
use Entry::*;

// The call at the whole list and budget 256: its number, and its rungs without the word rung. The bytes are compared with the reading's there, at each
// earlier cut, and with each smaller budget.
fn rungs(t: &mut Tally, what: &str, entries: &[Entry], heard: &[u16], goal: u16, want: u32, lines: &[&str]) {
    let s = sheet(entries, heard, goal);
    t.case(what, &s, heard.len() as u32, 256, ROOM, want);
    (0..heard.len() as u32).for_each(|cut| t.call(what, &s, cut, 256, ROOM));
    (0..lines.len()).for_each(|budget| t.call(what, &s, heard.len() as u32, budget as u32, FRONT + 40 * budget));
    let mut buffer = vec![0; ROOM];
    let made = verdict(&s, heard.len() as u32, 256, &mut buffer) as usize % 1000;
    let printed: String = buffer[FRONT..].chunks(40).take(made).map(rung_line).collect();
    t.calls += 1;
    if printed != lines.iter().map(|line| format!("rung {line}\n")).collect::<String>() {
        t.failures.add(&format!("{what}: rungs\n{printed}wanted {lines:?}"));
    }
}

// The two ways to lock and open: under the public half and with the private one, or under the private half and with the public one. Entry 0 is the
// message, 1 the key, 2 the half that opens, 3 the lock.
const WAYS: [[fn(u16) -> Entry; 2]; 2] = [[Public, Private], [Private, Public]];

fn one_lock([key, opener]: [fn(u16) -> Entry; 2], pair: u16) -> [Entry; 4] {
    [Atom(1000), key(pair), opener(pair), Lock(0, 1)]
}

// Rule 7 takes the lock and the opposite half of its key; rule 8 takes message and half.
fn both_rules(t: &mut Tally) {
    for way in WAYS {
        for pair in [0, 1, 255, 256, 1000, 65535] {
            let e = one_lock(way, pair);
            let what = |w: &str| format!("{w}, {e:?}");
            rungs(t, &what("the opposite half opens"), &e, &[3, 2], 0, 1001, &["0 unlock 3 2"]);
            rungs(t, &what("heard in the other order"), &e, &[2, 3], 0, 1001, &["0 unlock 3 2"]);
            rungs(t, &what("the same half doesn't open"), &e, &[3, 1], 0, 2000, &[]);
            rungs(t, &what("the lock alone"), &e, &[3], 0, 2000, &[]);
            rungs(t, &what("the half that would open alone"), &e, &[2], 0, 2000, &[]);
            rungs(t, &what("opening gives no half"), &e, &[3, 2], 1, 2001, &["0 unlock 3 2"]);
            rungs(t, &what("message and half"), &e, &[0, 1], 3, 1001, &["3 lock 0 1"]);
            rungs(t, &what("message and opposite half"), &e, &[0, 2], 3, 2000, &[]);
            rungs(t, &what("message alone"), &e, &[0], 3, 2000, &[]);
            rungs(t, &what("half alone"), &e, &[1], 3, 2000, &[]);
            rungs(t, &what("both halves and no message"), &e, &[1, 2], 3, 2000, &[]);
            rungs(t, &what("a half gives no other"), &e, &[1], 2, 2000, &[]);
            rungs(t, &what("the lock and its message give no half"), &e, &[3, 0], 1, 2000, &[]);
        }
    }
}

// "An opposite half without an entry can't be gained", and only the same number is the same key pair: no bit of it is left out.
fn other_numbers(t: &mut Tally) {
    for way in WAYS {
        let e = one_lock(way, 7);
        rungs(t, "the opposite half has no entry", &[e[0].clone(), e[1].clone(), Lock(0, 1)], &[2, 1], 0, 2000, &[]);
        rungs(t, "the same half twice", &[e[0].clone(), e[1].clone(), e[1].clone(), Lock(0, 1)], &[3, 2], 0, 2000, &[]);
        for pair in [0u16, 7, 255, 256, 0x5a5a, 65535] {
            for other in (0..16).map(|bit| pair ^ 1 << bit).chain([!pair, pair ^ 0x0101]) {
                let [m, key, _, lock] = one_lock(way, pair);
                let what = format!("numbers {pair} and {other}");
                let e = [m, key.clone(), way[1](other), lock, way[0](other), Sum(vec![1, 4])];
                rungs(t, &what, &e, &[3, 2], 0, 2000, &[]);
                rungs(t, &format!("{what}, locked"), &e, &[0, 4], 3, 2000, &[]);
                rungs(t, &format!("{what}, summed"), &e, &[], 5, 2000, &[]);
            }
        }
    }
}

// "Neither is public knowledge", whatever its number, also where an atom with this number is on the hull label.
fn no_half_for_nothing(t: &mut Tally) {
    for number in (0..=257).chain([1000, 65535]) {
        for half in [Private, Public] {
            t.gained("a half alone", &sheet(&[half(number)], &[], 0), 0, 2000, &[]);
        }
        let label: &[usize] = if number < 256 { &[1] } else { &[] };
        t.gained("halves beside an atom", &sheet(&[Private(number), Atom(number.into()), Public(number)], &[], 0), 0, 2000, label);
    }
    t.gained("both halves, one heard", &sheet(&[Private(7), Public(7)], &[1], 0), 1, 2000, &[1]);
    t.gained("a lock heard", &sheet(&[Atom(1000), Public(7), Private(7), Lock(0, 1)], &[3], 0), 1, 2000, &[3]);
}

// Where the halves stand, and which of several entries is the source: the head, whichever was heard.
fn places(t: &mut Tally) {
    rungs(t, "the opposite half above the lock", &[Atom(1000), Public(7), Lock(0, 1), Private(7)], &[2, 3], 0, 1001, &["0 unlock 2 3"]);
    rungs(t, "the opposite half below all", &[Private(7), Atom(1000), Public(7), Lock(1, 2)], &[3, 0], 1, 1001, &["1 unlock 3 0"]);
    rungs(t, "the message above the key", &[Public(7), Atom(1000), Lock(1, 0), Private(7)], &[2, 3], 1, 1001, &["1 unlock 2 3"]);
    rungs(t, "locked, the message above the key", &[Public(7), Atom(1000), Lock(1, 0)], &[0, 1], 2, 1001, &["2 lock 1 0"]);
    let twice = [Atom(1000), Public(7), Private(7), Lock(0, 1), Private(7), Sum(vec![4])];
    rungs(t, "the opposite half twice, the second heard", &twice, &[3, 4], 0, 1001, &["0 unlock 3 2"]);
    rungs(t, "the opposite half as a sum", &twice, &[3, 5], 0, 1001, &["0 unlock 3 2"]);
    let above = [Atom(1000), Public(7), Lock(0, 1), Private(7), Private(7)];
    rungs(t, "the opposite half twice above the lock", &above, &[2, 4], 0, 1001, &["0 unlock 2 3"]);
    let locks = [Atom(1000), Public(7), Public(7), Private(7), Lock(0, 2), Lock(0, 1), Atom(1000), Lock(6, 2)];
    rungs(t, "one lock three times, the second heard", &locks, &[5, 3], 0, 1001, &["0 unlock 4 3"]);
    rungs(t, "one lock three times, the third heard", &locks, &[7, 3], 6, 1001, &["0 unlock 4 3"]);
    let record = [Atom(1000), Public(7), Private(7), Lock(0, 1), Lock(0, 1)];
    rungs(t, "one record of a lock twice, the second heard", &record, &[4, 2], 0, 1001, &["0 unlock 3 2"]);
    rungs(t, "locked under the second entry of the half", &locks, &[6, 2], 7, 1001, &["4 lock 0 1"]);
    rungs(t, "of three entries of one lock one is gained", &locks, &[0, 1], 3, 2001, &["4 lock 0 1"]);
    rungs(t, "a half locked under itself", &[Public(7), Lock(0, 0)], &[0], 1, 1001, &["1 lock 0 0"]);
    rungs(t, "a half locked under itself, and opened", &[Public(7), Lock(0, 0), Private(7)], &[1, 2], 0, 1001, &["0 unlock 1 2"]);
    rungs(t, "a private half under its public half", &[Private(7), Public(7), Lock(0, 1)], &[2, 1], 0, 2000, &[]);
    rungs(t, "a private half under its public half, locked", &[Private(7), Public(7), Lock(0, 1)], &[0, 1], 2, 1001, &["2 lock 0 1"]);
    rungs(t, "zero locked", &[Zero, Public(7), Lock(0, 1)], &[1], 2, 1002, &["0 sum", "2 lock 0 1"]);
    rungs(t, "a name locked", &[Atom(7), Public(7), Lock(0, 1)], &[1], 2, 1001, &["2 lock 0 1"]);
}

// Rules 7 and 8 come after sum, and sum after 1 to 5; of one rule the lowest first source is used.
fn rule_order(t: &mut Tally) {
    let masked = [Atom(1000), Public(7), Private(7), Lock(0, 1), Atom(1001), Sum(vec![0, 4]), Sum(vec![3, 4])];
    rungs(t, "by sum and by unlock", &masked, &[3, 2, 5, 4], 0, 1001, &["0 sum 4 5"]);
    rungs(t, "by unlock, before the mask is heard", &masked, &[3, 2, 5], 0, 1001, &["0 unlock 3 2"]);
    rungs(t, "by sum and by lock", &masked, &[0, 1, 6, 4], 3, 1001, &["3 sum 4 6"]);
    rungs(t, "by lock, before the mask is heard", &masked, &[0, 1, 6], 3, 1001, &["3 lock 0 1"]);
    let inside = [Atom(1000), Public(7), Lock(0, 1), Public(8), Private(8), Lock(2, 3), Atom(1001), Sum(vec![2, 6])];
    rungs(t, "by unlock and by lock", &inside, &[5, 4, 0, 1], 2, 1001, &["2 unlock 5 4"]);
    rungs(t, "by lock, the outer lock not heard", &inside, &[4, 0, 1], 2, 1001, &["2 lock 0 1"]);
    rungs(t, "by sum, by unlock and by lock", &inside, &[5, 4, 0, 1, 7, 6], 2, 1001, &["2 sum 6 7"]);
    let parts = [Atom(1000), Public(7), Private(7), Lock(0, 1), Atom(1001), Seal(0, 4), Pair(0, 4), Pair(4, 0)];
    rungs(t, "by left and by unlock", &parts, &[3, 2, 6], 0, 1001, &["0 left 6"]);
    rungs(t, "by right and by unlock", &parts, &[3, 2, 7], 0, 1001, &["0 right 7"]);
    rungs(t, "by open and by unlock", &parts, &[3, 2, 5, 4], 0, 1001, &["0 open 5 4"]);
    for (made, line) in [(Pair(0, 1), "2 join 0 1"), (Seal(0, 1), "2 seal 0 1")] {
        let e = [Atom(1000), Atom(1001), made, Public(7), Private(7), Lock(2, 3)];
        rungs(t, "by a rule before sum and by unlock", &e, &[5, 4, 0, 1], 2, 1001, &[line]);
    }
    let two = [Atom(1000), Public(1), Public(2), Private(2), Private(1), Lock(0, 1), Lock(0, 2), Lock(0, 4)];
    rungs(t, "two locks of one message", &two, &[6, 5, 4, 3], 0, 1001, &["0 unlock 5 4"]);
    rungs(t, "two locks, the lower one can't be opened", &two, &[6, 5, 3], 0, 1001, &["0 unlock 6 3"]);
    rungs(t, "two locks, the lower one not heard", &two, &[6, 4, 3], 0, 1001, &["0 unlock 6 3"]);
    rungs(t, "locks under both halves of a pair", &two, &[7, 5, 4, 1], 0, 1001, &["0 unlock 5 4"]);
    rungs(t, "locks under both halves, one half heard", &two, &[7, 5, 1], 0, 1001, &["0 unlock 7 1"]);
    // the lowest head comes first, whatever its rule
    let heads = [Atom(1000), Public(7), Private(7), Lock(0, 1), Atom(1001), Lock(4, 1), Pair(0, 4), Lock(6, 2)];
    rungs(t, "the lowest head first", &heads, &[5, 3, 2], 7, 1004, &["0 unlock 3 2", "4 unlock 5 2", "6 join 0 4", "7 lock 6 2"]);
}

// A lock in a sum stays shut until the sum is resolved, and a half in a sum opens nothing and locks nothing.
fn in_sums(t: &mut Tally) {
    let e = [Atom(1000), Public(7), Private(7), Lock(0, 1), Atom(1001), Sum(vec![3, 4]), Sum(vec![2, 4]), Sum(vec![3, 0]), Sum(vec![1, 4])];
    rungs(t, "a lock in a sum", &e, &[5, 2], 0, 2000, &[]);
    rungs(t, "a lock in a sum, its mask heard", &e, &[5, 2, 4], 0, 1002, &["3 sum 4 5", "0 unlock 3 2"]);
    rungs(t, "a lock summed with its message", &e, &[7, 2], 0, 2000, &[]);
    rungs(t, "the opposite half in a sum", &e, &[3, 6], 0, 2000, &[]);
    rungs(t, "the opposite half in a sum, its mask heard", &e, &[3, 6, 4], 0, 1002, &["2 sum 4 6", "0 unlock 3 2"]);
    rungs(t, "the lock and the half under one mask", &e, &[5, 6], 0, 2000, &[]);
    rungs(t, "the half in a sum, and the message", &e, &[0, 8], 3, 2000, &[]);
    rungs(t, "the half in a sum, its mask and the message", &e, &[0, 8, 4], 3, 1002, &["1 sum 4 8", "3 lock 0 1"]);
    let both = [Atom(1000), Public(7), Private(7), Lock(0, 1), Sum(vec![1, 2])];
    rungs(t, "a sum of the halves opens nothing", &both, &[3, 4], 0, 2000, &[]);
    rungs(t, "a sum of the halves, and one of them", &both, &[3, 4, 1], 0, 1002, &["2 sum 1 4", "0 unlock 3 2"]);
    let sum = [Atom(1000), Atom(1001), Sum(vec![0, 1]), Public(7), Lock(2, 3), Private(7)];
    rungs(t, "a sum locked", &sum, &[0, 1, 3], 4, 1002, &["2 sum 0 1", "4 lock 2 3"]);
    rungs(t, "a sum in a lock", &sum, &[4, 5, 1], 0, 1002, &["2 unlock 4 5", "0 sum 1 2"]);
}

// A message that is a lock: from the outside in, each by its own half.
fn nested(t: &mut Tally) {
    let e = [Atom(1000), Public(1), Private(1), Lock(0, 1), Public(2), Private(2), Lock(3, 4)];
    rungs(t, "a lock in a lock", &e, &[6, 5, 2], 0, 1002, &["3 unlock 6 5", "0 unlock 3 2"]);
    rungs(t, "a lock in a lock, the outer half missing", &e, &[6, 2], 0, 2000, &[]);
    rungs(t, "a lock in a lock, the inner half missing", &e, &[6, 5], 0, 2001, &["3 unlock 6 5"]);
    rungs(t, "a lock locked", &e, &[0, 1, 4], 6, 1002, &["3 lock 0 1", "6 lock 3 4"]);
    let signed = [Atom(1000), Private(1), Public(1), Lock(0, 1), Lock(3, 2)];
    rungs(t, "under the private half, then under the public one", &signed, &[4, 1, 2], 0, 1002, &["3 unlock 4 1", "0 unlock 3 2"]);
    rungs(t, "under both halves, one of them heard", &signed, &[4, 1], 0, 2001, &["3 unlock 4 1"]);
    let same = [Atom(1000), Public(1), Private(1), Lock(0, 1), Lock(3, 1)];
    rungs(t, "twice under one half", &same, &[4, 2], 0, 1002, &["3 unlock 4 2", "0 unlock 3 2"]);
    let keys = [Atom(1000), Public(1), Private(1), Public(2), Private(2), Lock(0, 1), Lock(2, 3)];
    rungs(t, "the half that opens in another lock", &keys, &[5, 6, 4], 0, 1002, &["2 unlock 6 4", "0 unlock 5 2"]);
    rungs(t, "the half that opens in its own pair's lock", &[Atom(1000), Public(1), Private(1), Lock(2, 1), Lock(0, 1)], &[3, 4, 1], 0, 2000, &[]);
    let mixed = [Atom(1000), Public(7), Private(7), Pair(0, 2), Lock(3, 1), Atom(1001), Seal(4, 5)];
    rungs(t, "a lock in a seal, a pair in the lock", &mixed, &[6, 5, 2], 0, 1003, &["4 open 6 5", "3 unlock 4 2", "0 left 3"]);
}

// "Sameness is kept inside locks too, and no kind among 1, 2, 3, 5, 6, 7 is the same as another".
fn sameness(t: &mut Tally) {
    let mut same = |what: &str, entries: &[Entry], heard: u16, goal: u16, want: u32| rungs(t, what, entries, &[heard], goal, want, &[]);
    let sums = [Atom(1000), Atom(1001), Sum(vec![0, 1]), Sum(vec![1, 0, 1, 1]), Public(7), Lock(2, 4), Lock(3, 4), Public(7), Lock(2, 7), Lock(0, 4)];
    same("sums of one value locked", &sums, 6, 5, 1000);
    same("the same, the other one heard", &sums, 5, 6, 1000);
    same("under another entry of the half", &sums, 8, 6, 1000);
    same("another message", &sums, 5, 9, 2000);
    let deep = [Atom(1000), Sum(vec![0]), Public(7), Lock(0, 2), Lock(1, 2), Lock(3, 2), Lock(4, 2), Pair(5, 3), Pair(6, 4), Seal(3, 5), Seal(4, 6)];
    same("a lock in a lock", &deep, 6, 5, 1000);
    same("locks in a seal", &deep, 10, 9, 1000);
    // each of these heard, each other one the goal: nothing follows, but from the pair
    let kinds = [Private(3), Public(3), Atom(3 << 16), Atom(1003), Private(1003), Public(1003)];
    let made = [Atom(1000), Public(7), Private(7), Pair(0, 1), Seal(0, 1), Lock(0, 1), Lock(0, 2), Lock(1, 1), Lock(2, 1), Seal(0, 2)];
    for (entries, first, pair) in [(&kinds[..], 0, 99), (&made[..], 3, 3)] {
        let all = entries.len() as u16;
        for (heard, goal) in (first..all).flat_map(|h| (0..all).map(move |g| (h, g))).filter(|(h, g)| h != g && *h != pair) {
            same(&format!("entries {heard} and {goal} are different terms"), entries, heard, goal, 2000);
        }
    }
    rungs(t, "the halves of a pair don't cancel out", &[Private(7), Public(7), Sum(vec![0, 1])], &[], 2, 2000, &[]);
    rungs(t, "a half and itself do", &[Private(7), Private(7), Sum(vec![0, 1])], &[], 2, 1001, &["2 sum"]);
    rungs(t, "a lock and itself do", &[Atom(1000), Public(7), Lock(0, 1), Lock(0, 1), Sum(vec![2, 3])], &[], 4, 1001, &["4 sum"]);
    // a half as the key of a seal is a key like any other
    let seal = [Atom(1000), Public(7), Private(7), Seal(0, 1), Lock(0, 1)];
    rungs(t, "a seal under a half", &seal, &[3, 1], 0, 1001, &["0 open 3 1"]);
    rungs(t, "a seal under a half, the opposite one heard", &seal, &[3, 2], 0, 2000, &[]);
    rungs(t, "sealed under a half", &seal, &[0, 1], 4, 1002, &["3 seal 0 1", "4 lock 0 1"]);
}

// Used set and remainder: halves and locks are standard entries, and what is inside a lock isn't one of its own set.
fn missing_parts(t: &mut Tally) {
    let mut case = |what: &str, entries: &[Entry], heard: &[u16], goal: u16, number: u32, used: &[u16], remainder: &[u16]| {
        let s = sheet(entries, heard, goal);
        t.call(what, &s, heard.len() as u32, 256, ROOM);
        t.stated(what, &s, heard.len(), 256, number, used, remainder);
    };
    let halves = [Private(7), Public(7), Sum(vec![0, 1]), Private(8), Sum(vec![1, 3]), Public(7), Sum(vec![3, 0])];
    case("a half lacks itself", &halves, &[], 1, 2000, &[], &[1]);
    case("the higher half of a sum", &halves, &[2], 1, 2000, &[2], &[0]);
    case("the lower half of a sum", &halves, &[2], 0, 2000, &[], &[0]);
    case("a half that is no head", &halves, &[2], 5, 2000, &[2], &[0]);
    case("the highest half stays, a lower one goes", &halves, &[2], 4, 2000, &[2], &[0, 3]);
    case("two sums of halves", &halves, &[2, 4], 3, 2001, &[2, 4], &[0]);
    let locks = [Atom(1000), Public(7), Lock(0, 1), Atom(1001), Sum(vec![2, 3]), Sum(vec![0, 2]), Lock(3, 1), Sum(vec![2, 6]), Private(7)];
    case("a lock lacks itself", &locks, &[], 2, 2000, &[], &[2]);
    case("a lock as the rest of a mask", &locks, &[4], 3, 2000, &[4], &[2]);
    case("a lock summed with its message", &locks, &[5], 2, 2000, &[5], &[0]);
    case("the message in a lock lacks itself", &locks, &[2], 0, 2000, &[], &[0]);
    case("two locks under one half, summed", &locks, &[7], 6, 2000, &[7], &[2]);
    case("two locks, one of them heard", &locks, &[2], 7, 2000, &[2], &[6]);
    case("a term gained by unlock is used", &locks, &[2, 8], 5, 1002, &[], &[]);
    case("a term gained by unlock is used, another lacks", &locks, &[6, 8], 4, 2001, &[3], &[2]);
    case("a term gained by lock is used", &locks, &[0, 1], 7, 2002, &[2], &[6]);
    case("of one gained by lock and one by sum the first is used", &locks, &[0, 1], 4, 2002, &[2], &[3]);
}

// The replay's cases, of the reading itself: these rungs are right, and each other one here is wrong.
fn replays(t: &mut Tally) {
    let e = [Atom(1000), Public(7), Private(7), Lock(0, 1), Atom(1001), Private(8), Lock(4, 1), Sum(vec![2]), Sum(vec![3, 4])];
    let unlock = read(&sheet(&e, &[3, 2, 1, 4, 5, 7, 8], 0));
    let lock = read(&sheet(&e, &[0, 1, 2, 5], 3));
    let mut check = |what: &str, s, cut: usize, fields: [u16; 4], set: &[usize], right: bool| {
        let rung = [fields.map(u16::to_be_bytes).concat(), set_bytes(set.iter().copied()).to_vec()].concat();
        t.calls += 1;
        if replay(s, cut, &rung).is_ok() != right {
            t.failures.add(&format!("the replay of {what}: {fields:?} and {set:?}"));
        }
    };
    check("unlock", &unlock, 7, [0, 7, 3, 2], &[], true);
    check("unlock by another entry of the half", &unlock, 7, [0, 7, 3, 7], &[], true);
    check("unlock before the half is heard", &unlock, 1, [0, 7, 3, 2], &[], false);
    check("unlock before the lock is heard", &unlock, 0, [0, 7, 3, 2], &[], false);
    for fields in [[0, 7, 3, 1], [0, 7, 3, 5], [0, 7, 2, 3], [4, 7, 3, 2], [3, 7, 3, 2], [0, 7, 8, 2], [0, 7, 6, 2], [0, 7, 3, 3]] {
        check("unlock with other entries", &unlock, 7, fields, &[], false);
    }
    for fields in [[9, 7, 3, 2], [0, 7, 9, 2], [0, 7, 3, 9], [0, 7, 3, 65535], [0, 7, 65535, 2], [0, 7, 65535, 65535]] {
        check("unlock with a number that is no entry", &unlock, 7, fields, &[], false);
    }
    for rule in [0, 1, 2, 3, 4, 5, 6, 8, 9, 256 + 7, 65535] {
        check("unlock by another rule", &unlock, 7, [0, rule, 3, 2], &[], false);
    }
    check("unlock with a set", &unlock, 7, [0, 7, 3, 2], &[2, 3], false);
    check("lock", &lock, 4, [3, 8, 0, 1], &[], true);
    check("lock before the half is heard", &lock, 1, [3, 8, 0, 1], &[], false);
    for fields in [[3, 8, 1, 0], [3, 8, 0, 2], [3, 8, 0, 5], [6, 8, 0, 1], [0, 8, 0, 1], [3, 8, 0, 65535], [3, 8, 65535, 1], [9, 8, 0, 1]] {
        check("lock with other entries", &lock, 4, fields, &[], false);
    }
    for rule in [0, 1, 2, 3, 4, 5, 6, 7, 9, 256 + 8] {
        check("lock by another rule", &lock, 4, [3, rule, 0, 1], &[], false);
    }
    check("lock with a set", &lock, 4, [3, 8, 0, 1], &[0, 1], false);
}

// The records of halves and locks, and row 12: "when a lock's key entry is not itself of kind 5 or 6; checked after 6 in the same record". The test of
// the refusals has more of these.
fn refused(t: &mut Tally) {
    let mut case = |what: &str, entries: &[Entry], want: u32| t.case(what, &sheet(entries, &[0], 0), 1, 0, FRONT, want);
    for length in 1..=9 {
        let record = |kind: u8| Raw([vec![kind], vec![0; length - 1]].concat());
        for kind in [5, 6] {
            case(&format!("kind {kind} of length {length}"), &[Atom(1000), record(kind)], if length == 3 { 1000 } else { 5 });
        }
        case(&format!("kind 7 of length {length}"), &[Public(7), record(7)], if length == 5 { 1000 } else { 5 });
        case(&format!("kind 8 of length {length}"), &[Public(7), record(8)], 5);
    }
    for pair in [0, 1, 2, 255, 256, 65535] {
        case("a half's number is no entry number", &[Public(pair), Private(pair)], 1000);
    }
    let keys = [Atom(1000), Private(7), Public(7), Zero, Long(1000), Pair(1, 2), Seal(0, 1), Lock(0, 1), Sum(vec![1]), Sum(vec![2, 3]), Atom(5), Atom(6)];
    for key in 0..14 {
        let want = match key {
            1 | 2 => 1000,
            12.. => 6,
            _ => 12,
        };
        for message in [0, 1, 7, 11] {
            case(&format!("a lock under entry {key}"), &[&keys[..], &[Lock(message, key), Public(7)]].concat(), want);
        }
        case(&format!("a forward lock under entry {key}"), &[&keys[..], &[Lock(12, key), Public(7)]].concat(), 6);
        case(&format!("a lock of a later entry under entry {key}"), &[&keys[..], &[Lock(13, key), Public(7)]].concat(), 6);
    }
    let (wrong, bad, forward) = (Lock(0, 0), Raw(vec![8]), Pair(9, 9));
    case("12, then 5", &[Atom(1000), wrong.clone(), bad.clone()], 12);
    case("5, then 12", &[Atom(1000), bad, wrong.clone()], 5);
    case("12, then 6", &[Atom(1000), wrong.clone(), forward.clone()], 12);
    case("6, then 12", &[Atom(1000), forward, wrong.clone()], 6);
    t.case("12 before 7", &sheet(&[Atom(1000), wrong.clone()], &[2], 0), 0, 0, FRONT, 12);
    t.case("12 before 8, 9 and 10", &sheet(&[Atom(1000), wrong], &[], 0), 1, 257, 0, 12);
}

// Large sheets, whose answers are known by their build.
fn large(t: &mut Tally) {
    let mut want = |what: &str, (entries, heard, goal): &Parts, budget: u32, number: u32| {
        t.number(what, &sheet(entries, heard, *goal), heard.len() as u32, budget, FRONT + 40 * budget as usize, number);
    };
    let deep = kinds::locks(256);
    want("253 locks opened", &deep, 256, 1253);
    want("253 locks, one rung short", &deep, 252, 3252);
    let mut shut = deep.clone();
    shut.0[2] = Private(1001);
    want("253 locks, another pair's half", &shut, 256, 2000);
    want("253 locks made", &(deep.0.clone(), vec![0, 1], 255), 256, 1253);
    want("253 locks, the wrong half", &(deep.0, vec![0, 2], 255), 256, 2000);
    let many = kinds::openers(256);
    want("85 locks of one message", &many, 256, 2001);
    let s = sheet(&many.0, &many.1, many.2);
    t.stated("85 locks of one message", &s, many.1.len(), 256, 2001, &[], &[255]);
    // 255 halves: each number once
    let halves: Vec<Entry> = (0..256).map(|i| if i % 2 == 0 { Private(i) } else { Public(i) }).collect();
    t.stated("256 halves, one not heard", &sheet(&halves, &(0..255).collect::<Vec<u16>>(), 255), 255, 256, 2000, &[], &[255]);
}

// Each entry number as gained head and as source of either rule, in its own byte and bit, on sheets of 256 entries.
fn every_entry(t: &mut Tally) {
    let atoms: Vec<Entry> = (0..256).map(|i| Atom(1000 + i)).collect();
    let mut call = |places: &[(u16, Entry)], heard: &[u16], goal: u16, want: u32| {
        let mut entries = atoms.clone();
        places.iter().for_each(|(place, e)| entries[usize::from(*place)] = e.clone());
        t.case(&format!("{places:?} heard {heard:?} goal {goal}"), &sheet(&entries, heard, goal), heard.len() as u32, 3, FRONT + 120, want);
    };
    for e in 0..256 {
        let (key, opener) = ((e + 61) % 256, (e + 101) % 256);
        let halves = [(key, Public(e)), (opener, Private(e))];
        // a lock of entry e, where it can stand
        if let Some(lock) = (e.max(key) + 1..256).find(|lock| *lock != opener) {
            let places = [&halves[..], &[(lock, Lock(e, key))]].concat();
            call(&places, &[lock, opener], e, 1001);
            call(&places, &[e, key], lock, 1001);
        }
        // the lock in the place e, of entry 0 or 1 under the half in the other one
        if e > 1 {
            let (message, key) = (e % 2, 1 - e % 2);
            let opener = if opener > 1 && opener != e { opener } else { (e + 37) % 253 + 2 };
            let places = [(key, Private(e)), (opener, Public(e)), (e, Lock(message, key))];
            call(&places, &[opener, e], message, 1001);
            call(&places, &[key, message], e, 1001);
        }
    }
}

// ---- sheets at random

// A sheet with locks, and any entry for the key of some of them: refused with 12, unless it is a half by chance, and 6 where it is forward.
pub fn any_key(r: &mut Random) -> Parts {
    let (mut entries, heard, goal) = lock_entries(r);
    for (i, e) in entries.iter_mut().enumerate() {
        let forward = u64::from(r.below(8) == 0);
        match e {
            Lock(_, key) if r.below(2) == 0 => *key = r.below(i as u64 + forward) as u16,
            _ => {}
        }
    }
    (entries, heard, goal)
}

// The sheet with private and public exchanged: neither answer nor bytes change.
fn exchanged(entries: &[Entry]) -> Vec<Entry> {
    let other = |e: &Entry| match e {
        Private(a) => Public(*a),
        Public(a) => Private(*a),
        _ => e.clone(),
    };
    entries.iter().map(other).collect()
}

// The sheet with other numbers for its key pairs, different ones for different ones: neither answer nor bytes change.
fn renumbered(entries: &[Entry], r: &mut Random) -> Vec<Entry> {
    let (mask, turn) = (r.next() as u16, r.below(16) as u32);
    let new = |a: u16| (a ^ mask).rotate_left(turn);
    let other = |e: &Entry| match e {
        Private(a) => Private(new(*a)),
        Public(a) => Public(new(*a)),
        _ => e.clone(),
    };
    entries.iter().map(other).collect()
}

fn other_halves(t: &mut Tally, r: &mut Random) {
    for seed in 0..600 {
        let parts = if seed % 2 == 0 { lock_entries(r) } else { larger_sheet(kinds::locked, seed / 2) };
        same_everywhere(t, "private and public exchanged", &parts, &exchanged(&parts.0));
        same_everywhere(t, "other numbers of key pairs", &parts, &renumbered(&parts.0, r));
    }
}

// What is stated case by case.
pub fn stated_cases(t: &mut Tally) {
    both_rules(t);
    other_numbers(t);
    no_half_for_nothing(t);
    places(t);
    rule_order(t);
    in_sums(t);
    nested(t);
    sameness(t);
    missing_parts(t);
    replays(t);
    refused(t);
    large(t);
    every_entry(t);
}

pub fn random_sheets(t: &mut Tally, r: &mut Random) {
    for i in 0..5000 {
        let (entries, heard, goal) = if i % 5 == 0 { any_key(r) } else { lock_entries(r) };
        t.every_cut("locks", &sheet(&entries, &heard, goal), r);
    }
    other_halves(t, r);
}
