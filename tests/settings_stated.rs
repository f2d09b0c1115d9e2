// Settings case by case: numbers, rungs and sets that are stated, at the whole list and budget 256. Each case's sheet is compared with the reading in every
// setting too, at each cut.

use super::cards::rung_line;
use super::reading::{members, set_bytes};
use super::sheets::{Entry, FRONT};
use super::{Subject, Tally, NO_SUM, ROOM, SUM};
use Entry::*;

// A rule's switch.
fn switch(rule: usize) -> u8 {
    1 << (rule - 1)
}

// The sheet in every setting, at each cut with budget 256 and with fewer rungs.
fn everywhere(t: &mut Tally, what: &str, on: &Subject) {
    (0..=on.heard()).for_each(|cut| drop(t.every_setting(what, on, cut, 256)));
    (0..3).for_each(|budget| drop(t.every_setting(what, on, on.heard(), budget)));
}

// One call whose number and rungs are stated, the rungs without the word rung.
fn rungs(t: &mut Tally, what: &str, on: &Subject, rules: u8, want: u32, lines: &[&str]) {
    let called = t.call(what, on, rules, on.heard(), 256, ROOM);
    let printed: String = called.rungs().chunks(40).map(rung_line).collect();
    if called.answer != want || printed != lines.iter().map(|line| format!("rung {line}\n")).collect::<String>() {
        t.wrong(what, on, &called, &format!("wanted {want} and {lines:?}, rungs\n{printed}"));
    }
}

// One call whose number, used set and remainder are stated.
fn sets(t: &mut Tally, what: &str, on: &Subject, rules: u8, want: u32, used: &[usize], remainder: &[usize]) {
    let called = t.call(what, on, rules, on.heard(), 256, ROOM);
    let stated = [used, remainder].map(|set| set_bytes(set.iter().copied())).concat();
    if called.answer != want || called.buffer[32..FRONT] != stated[..] {
        let found = [32..64, 64..FRONT].map(|place| members(&called.buffer[place]));
        t.wrong(what, on, &called, &format!("wanted {want}, {used:?} and {remainder:?}, found {found:?}"));
    }
}

// For each rule a sheet whose goal is gained by one rung of it and in no other way. In each setting the goal is reached where the rule is switched on, and is
// out of reach where it isn't.
fn each_rule(t: &mut Tally) {
    let pair = [Atom(1000), Atom(1001), Pair(0, 1)];
    let seal = [Atom(1000), Atom(1001), Seal(0, 1)];
    let sum = [Atom(1000), Atom(1001), Sum(vec![0, 1])];
    let lock = [Atom(1000), Public(7), Private(7), Lock(0, 1)];
    let cases: [(usize, &[Entry], &[u16], u16, &str); 10] = [
        (1, &pair, &[2], 0, "0 left 2"),
        (2, &pair, &[2], 1, "1 right 2"),
        (3, &seal, &[2, 1], 0, "0 open 2 1"),
        (4, &pair, &[0, 1], 2, "2 join 0 1"),
        (5, &seal, &[0, 1], 2, "2 seal 0 1"),
        (6, &sum, &[2, 1], 0, "0 sum 1 2"),
        (6, &sum, &[0, 1], 2, "2 sum 0 1"),
        (6, &[Zero], &[], 0, "0 sum"),
        (7, &lock, &[3, 2], 0, "0 unlock 3 2"),
        (8, &lock, &[0, 1], 3, "3 lock 0 1"),
    ];
    for (rule, entries, heard, goal, line) in cases {
        let on = Subject::new(entries, heard, goal);
        for called in t.every_setting(line, &on, heard.len() as u32, 256) {
            let printed: Vec<String> = called.rungs().chunks(40).map(rung_line).collect();
            let reached = called.answer / 1000 == 1 && printed.last() == Some(&format!("rung {line}\n"));
            if reached != (called.rules & switch(rule) != 0) || (!reached && called.answer / 1000 != 2) {
                t.wrong(line, &on, &called, "reached exactly where the rule is on");
            }
        }
        rungs(t, line, &on, switch(rule), 1001, &[line]);
        rungs(t, line, &on, 0, 2000, &[]);
    }
}

// "Without sum, zero isn't free and is gained only like other terms".
fn zero(t: &mut Tally) {
    let mut case = |what: &str, entries: &[Entry], heard: &[u16], goal: u16, rules: u8, want: u32, lines: &[&str]| {
        let on = Subject::new(entries, heard, goal);
        everywhere(t, what, &on);
        rungs(t, what, &on, rules, want, lines);
    };
    case("zero alone", &[Zero], &[], 0, NO_SUM, 2000, &[]);
    case("zero by sum alone", &[Zero], &[], 0, SUM, 1001, &["0 sum"]);
    case("zero heard", &[Zero], &[0], 0, 0, 1000, &[]);
    case("the sum of nothing", &[Sum(vec![])], &[], 0, NO_SUM, 2000, &[]);
    case("a term summed with itself", &[Atom(7), Sum(vec![0, 0])], &[0], 1, NO_SUM, 2000, &[]);
    case("a term summed with itself, by sum", &[Atom(7), Sum(vec![0, 0])], &[0], 1, SUM, 1001, &["1 sum"]);
    case("a heard sum that is zero", &[Atom(7), Zero, Sum(vec![0, 0])], &[2], 1, 0, 1000, &[]);
    case("zero by left", &[Zero, Atom(1000), Pair(0, 1)], &[2], 0, NO_SUM, 1001, &["0 left 2"]);
    case("zero by right", &[Atom(1000), Sum(vec![0, 0]), Pair(0, 1)], &[2], 1, switch(2), 1001, &["1 right 2"]);
    case("zero by open", &[Zero, Atom(7), Seal(0, 1)], &[2], 0, switch(3), 1001, &["0 open 2 1"]);
    case("zero by unlock", &[Zero, Public(7), Private(7), Lock(0, 1)], &[3, 2], 0, switch(7), 1001, &["0 unlock 3 2"]);
    case("zero for a key", &[Zero, Atom(1000), Seal(1, 0)], &[2], 1, NO_SUM, 2000, &[]);
    case("zero for a key, by sum", &[Zero, Atom(1000), Seal(1, 0)], &[2], 1, SUM | switch(3), 1002, &["0 sum", "1 open 2 0"]);
    case("case 5", &[Zero, Pair(0, 0)], &[], 1, NO_SUM, 2000, &[]);
    case("case 5, zero heard", &[Zero, Pair(0, 0)], &[0], 1, switch(4), 1001, &["1 join 0 0"]);
    case("case 5, the pair heard", &[Zero, Pair(0, 0)], &[1], 0, switch(2), 1001, &["0 right 1"]);
    case("a chain over zero", &[Zero, Seal(0, 0), Pair(0, 1)], &[0], 2, NO_SUM, 1002, &["1 seal 0 0", "2 join 0 1"]);
}

// Out of reach without sum: "the used set is then empty and the remainder is the goal's own set". With sum both are as in the full verdict.
fn missing_parts(t: &mut Tally) {
    let mut case = |what: &str, entries: &[Entry], heard: &[u16], goal: u16, [number, with]: [u32; 2], used: &[usize], rest: &[usize], own: &[usize]| {
        let on = Subject::new(entries, heard, goal);
        everywhere(t, what, &on);
        sets(t, what, &on, SUM, with, used, rest);
        sets(t, what, &on, 0, number, &[], own);
    };
    let sums = [Atom(1000), Atom(1001), Sum(vec![0, 1]), Atom(1002), Sum(vec![1, 3]), Atom(1001), Sum(vec![3, 5]), Sum(vec![0, 2, 3]), Sum(vec![3, 3])];
    case("an atom", &sums, &[2], 1, [2000, 2001], &[2], &[0], &[1]);
    case("an atom that is no head", &sums, &[2], 5, [2000, 2001], &[2], &[0], &[1]);
    case("a sum of which an item is gained", &sums, &[1], 4, [2000, 2001], &[1], &[3], &[1, 3]);
    case("a sum that is no head", &sums, &[1], 6, [2000, 2001], &[1], &[3], &[1, 3]);
    case("a sum of a sum", &sums, &[2], 7, [2000, 2001], &[2], &[0, 3], &[1, 3]);
    case("a sum of two gained terms", &sums, &[0, 1], 2, [2000, 1001], &[], &[], &[0, 1]);
    case("a sum of two gained sums", &sums, &[2, 7], 3, [2000, 2001], &[2, 4], &[0], &[3]);
    case("a sum that is zero", &sums, &[0], 8, [2000, 1001], &[], &[], &[]);
    let parts = [Atom(7), Atom(1000), Pair(0, 1), Public(7), Lock(1, 3), Seal(1, 0), Sum(vec![2, 4, 5, 0]), Sum(vec![6, 0, 2])];
    case("a sum of a name, a pair, a lock and a seal", &parts, &[2], 6, [2000, 2000], &[0, 2], &[4, 5], &[0, 2, 4, 5]);
    case("a lock and a seal", &parts, &[6], 7, [2000, 2000], &[0, 6], &[2], &[4, 5]);
    case("a name is no part of the used set", &parts, &[], 6, [2000, 2000], &[0], &[2, 4, 5], &[0, 2, 4, 5]);
    let halves = [Private(7), Public(7), Sum(vec![0, 1]), Sum(vec![2, 0])];
    case("a half", &halves, &[2], 1, [2000, 2000], &[2], &[0], &[1]);
    case("a half that is no head", &halves, &[2], 3, [2000, 2000], &[2], &[0], &[1]);
}

// "Sameness keeps the four laws in each setting": a heard sum is the term that it is the same as, whichever rules there are.
fn sameness(t: &mut Tally) {
    let mut case = |what: &str, entries: &[Entry], heard: &[u16], goal: u16, rules: u8, want: u32, lines: &[&str]| {
        let on = Subject::new(entries, heard, goal);
        everywhere(t, what, &on);
        rungs(t, what, &on, rules, want, lines);
    };
    let parts = [Atom(1000), Atom(1001), Pair(0, 1), Sum(vec![2]), Sum(vec![0, 2, 0]), Seal(0, 1), Sum(vec![5, 1, 1]), Sum(vec![1]), Zero, Sum(vec![7, 8])];
    case("a sum of a pair, split", &parts, &[3], 0, switch(1), 1001, &["0 left 2"]);
    case("a sum that leaves a pair, split", &parts, &[4], 1, switch(2), 1001, &["1 right 2"]);
    case("a sum that leaves a seal, its key a sum", &parts, &[6, 9], 0, switch(3), 1001, &["0 open 5 1"]);
    case("a sum joined", &parts, &[0, 9], 2, switch(4), 1001, &["2 join 0 1"]);
    case("a sum sealed", &parts, &[0, 7], 6, switch(5), 1001, &["5 seal 0 1"]);
    case("a sum that is an atom", &parts, &[9], 1, 0, 1000, &[]);
    case("a sum that is a sum", &parts, &[7], 9, 0, 1000, &[]);
    case("case 6", &[Atom(1001), Sum(vec![0, 0]), Sum(vec![0, 1])], &[2], 0, 0, 1000, &[]);
    let locks = [Atom(1000), Public(7), Private(7), Lock(0, 1), Sum(vec![3]), Sum(vec![2, 0, 0]), Sum(vec![1, 1, 1]), Sum(vec![0]), Lock(7, 1)];
    case("a sum that is a lock, unlocked by a sum", &locks, &[4, 5], 0, switch(7), 1001, &["0 unlock 3 2"]);
    case("a sum locked under a sum", &locks, &[7, 6], 8, switch(8), 1001, &["3 lock 0 1"]);
    case("a lock of a sum", &locks, &[8], 4, 0, 1000, &[]);
    let deep = [Atom(1000), Atom(1001), Sum(vec![0, 1]), Sum(vec![1, 0]), Pair(2, 0), Pair(3, 0), Seal(4, 2), Seal(5, 3), Atom(1002), Sum(vec![2, 8, 8])];
    case("sums of one value in pairs", &deep, &[5], 4, 0, 1000, &[]);
    case("and in seals", &deep, &[6], 7, 0, 1000, &[]);
    case("and in the key", &deep, &[7, 9], 5, switch(3), 1001, &["4 open 6 2"]);
    case("a sum inside a pair", &deep, &[5], 3, switch(1), 1001, &["2 left 4"]);
    case("a sum is no item of its own", &deep, &[2], 0, NO_SUM, 2000, &[]);
}

// Where the lowest rule is off, the next way that is on is taken; a head without another way is passed over, and the work goes on with the next head.
fn other_ways(t: &mut Tally) {
    let both = Subject::new(&[Atom(1000), Pair(0, 0)], &[1], 0);
    rungs(t, "left before right", &both, 3, 1001, &["0 left 1"]);
    rungs(t, "right without left", &both, 2, 1001, &["0 right 1"]);
    let ways = [Atom(1000), Atom(1001), Pair(0, 1), Atom(1002), Sum(vec![2, 3]), Public(7), Private(7), Lock(2, 5), Seal(2, 3), Pair(2, 3), Pair(3, 2)];
    let on = Subject::new(&ways, &[0, 1, 3, 4, 6, 7, 8, 9, 10], 2);
    everywhere(t, "a pair in six ways", &on);
    let lines = ["2 left 9", "2 right 10", "2 open 8 3", "2 join 0 1", "2 seal 0 1", "2 sum 3 4", "2 unlock 7 6"];
    for rule in [1, 2, 3, 4, 6, 7] {
        // every rule from this one on, and this one alone
        rungs(t, "the lowest rule that is on", &on, 255 << (rule - 1), 1001, &[lines[rule - 1]]);
        rungs(t, "one rule alone", &on, switch(rule), 1001, &[lines[rule - 1]]);
    }
    rungs(t, "neither way", &on, switch(5) | switch(8), 2000, &[]);
    let heads = [Atom(1000), Atom(1001), Pair(0, 1), Atom(1002), Seal(3, 1), Public(7), Lock(3, 5)];
    let on = Subject::new(&heads, &[2, 3, 1, 5], 6);
    everywhere(t, "the lower heads passed over", &on);
    rungs(t, "every rule", &on, 255, 1003, &["0 left 2", "4 seal 3 1", "6 lock 3 5"]);
    rungs(t, "no left", &on, 254, 1002, &["4 seal 3 1", "6 lock 3 5"]);
    rungs(t, "no seal", &on, 255 - switch(5), 1002, &["0 left 2", "6 lock 3 5"]);
    rungs(t, "lock alone", &on, switch(8), 1001, &["6 lock 3 5"]);
    rungs(t, "no lock", &on, 127, 2002, &["0 left 2", "4 seal 3 1"]);
}

// "then the lowest first source", with other rules on or off.
fn first_sources(t: &mut Tally) {
    let e = [Atom(1000), Atom(1001), Public(7), Private(7), Pair(0, 1), Pair(0, 0), Seal(0, 2), Seal(0, 1), Lock(0, 2), Lock(0, 3), Pair(1, 0)];
    let mut case = |heard: &[u16], rule: usize, line: &str| {
        let on = Subject::new(&e, heard, 0);
        everywhere(t, "two ways by one rule", &on);
        rungs(t, "two ways by one rule", &on, switch(rule), 1001, &[line]);
    };
    case(&[5, 4], 1, "0 left 4");
    case(&[10, 5], 2, "0 right 5");
    case(&[7, 6, 2, 1], 3, "0 open 6 2");
    case(&[9, 8, 2, 3], 7, "0 unlock 8 3");
}

// Rules that are alike have switches of their own: what one opens the other doesn't.
fn alike(t: &mut Tally) {
    let e = [Atom(1000), Public(7), Private(7), Lock(0, 1), Seal(0, 1), Pair(0, 1), Lock(0, 2)];
    let mut case = |what: &str, heard: &[u16], goal: u16, rule: usize, line: &str| {
        let on = Subject::new(&e, heard, goal);
        everywhere(t, what, &on);
        rungs(t, what, &on, switch(rule), 1001, &[line]);
        let others = 255 - switch(rule);
        let called = t.call(what, &on, others, on.heard(), 256, ROOM);
        if called.answer / 1000 != 2 {
            t.wrong(what, &on, &called, "wanted out of reach by every other rule");
        }
    };
    case("unlock isn't open", &[3, 2], 0, 7, "0 unlock 3 2");
    case("open isn't unlock", &[4, 1], 0, 3, "0 open 4 1");
    case("lock isn't seal", &[0, 1], 3, 8, "3 lock 0 1");
    case("seal isn't lock", &[0, 1], 4, 5, "4 seal 0 1");
    case("join isn't seal", &[0, 1], 5, 4, "5 join 0 1");
    case("left isn't right", &[5], 0, 1, "0 left 5");
    case("right isn't left", &[5], 1, 2, "1 right 5");
}

// Names and heard messages are gained at the start in each setting, of whatever kind they are.
fn starts(t: &mut Tally) {
    let e = [Zero, Atom(7), Atom(1000), Pair(1, 2), Seal(2, 1), Sum(vec![2, 3]), Private(7), Public(7), Lock(2, 7), Atom(9), Atom(1001)];
    let all: Vec<u16> = (0..9).collect();
    let on = Subject::new(&e, &all, 10);
    let want = set_bytes(0..10);
    for called in t.every_setting("everything heard", &on, 9, 0) {
        if called.answer != 2000 || called.buffer[..32] != want {
            t.wrong("everything heard", &on, &called, "wanted all of them gained");
        }
    }
    for message in 0..9 {
        let on = Subject::new(&e, &[message], message);
        for called in t.every_setting("one entry heard", &on, 1, 0) {
            if called.answer != 1000 || called.buffer[..32] != set_bytes([1, 9, usize::from(message)]) {
                t.wrong("one entry heard", &on, &called, &format!("gained {:?}", members(&called.buffer[..32])));
            }
        }
    }
}

// "exact for ladders made of the rules switched on", where a rung more would do: stopped is given only where a rule that is on makes it.
fn stops(t: &mut Tally) {
    let on = Subject::new(&[Atom(1000), Atom(1001), Pair(0, 1), Pair(2, 2), Seal(3, 2), Pair(4, 4)], &[0, 1], 5);
    everywhere(t, "joins and a seal", &on);
    let mut case = |rules: u8, budget: u32, want: u32| {
        let called = t.call("joins and a seal", &on, rules, 2, budget, FRONT + 40 * budget as usize);
        if called.answer != want {
            t.wrong("joins and a seal", &on, &called, &format!("wanted {want}"));
        }
    };
    for (budget, want) in [(0, 3000), (1, 3001), (2, 3002), (3, 3003), (4, 1004), (256, 1004)] {
        case(255, budget, want);
        case(switch(4) | switch(5), budget, want);
    }
    for (budget, want) in [(0, 3000), (1, 3001), (2, 2002), (3, 2002), (256, 2002)] {
        case(switch(4), budget, want);
        case(255 - switch(5), budget, want);
    }
    case(switch(5), 0, 2000);
    case(0, 0, 2000);
    case(NO_SUM - switch(4), 0, 2000);
}

pub fn cases(t: &mut Tally) {
    each_rule(t);
    zero(t);
    missing_parts(t);
    sameness(t);
    other_ways(t);
    first_sources(t);
    alike(t);
    starts(t);
    stops(t);
}
