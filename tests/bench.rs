// The library beside plain Rust, on the worst sheets and on random ones: interleaved in one run, the median of many calls each, and the exponent by which the
// time grows with the number of entries. Plain Rust that is made to be fast (plain.rs) is measured in two forms: a heard message takes the state by value and
// hands it back, as in the library, or the state is lent. The simple verdict (simple.rs), which has the library's earlier algorithm, is measured by value. The
// library's verdict with a setting is measured beside its full verdict, with every rule on. Then the library alone on small sheets. Not part of the gate: it
// measures, and judges nothing.

#[allow(dead_code)]
mod sheets;
#[allow(dead_code)]
mod kinds;
mod plain;
mod simple;
use kinds::Parts;
use sheets::{sheet, FRONT};
use std::io::Write;
use std::process::{Command, Stdio};
use std::time::Instant;

extern "C" {
    fn zuwendryk_verdict(sheet: *const u8, sheet_len: usize, cut: u32, budget: u32, buffer: *mut u8, buffer_len: usize) -> u32;
    fn zuwendryk_limited_verdict(sheet: *const u8, sheet_len: usize, cut: u32, budget: u32, rules: u8, buffer: *mut u8, buffer_len: usize) -> u32;
}

fn library(s: &[u8], cut: u32, budget: u32, out: &mut [u8]) -> u32 {
    // Both areas are slices, so neither pointer is null and they don't overlap.
    unsafe { zuwendryk_verdict(s.as_ptr(), s.len(), cut, budget, out.as_mut_ptr(), out.len()) }
}

// The verdict with a setting that has every rule.
fn with_every_rule(s: &[u8], cut: u32, budget: u32, out: &mut [u8]) -> u32 {
    unsafe { zuwendryk_limited_verdict(s.as_ptr(), s.len(), cut, budget, 255, out.as_mut_ptr(), out.len()) }
}

fn median(mut times: Vec<f64>) -> f64 {
    times.sort_by(|a, b| a.partial_cmp(b).unwrap());
    times[times.len() / 2]
}

type Call = fn(&[u8], u32, u32, &mut [u8]) -> u32;

// A call's answer and its microseconds.
fn timed(call: impl FnOnce() -> u32) -> (u32, f64) {
    let begin = Instant::now();
    (call(), begin.elapsed().as_secs_f64() * 1e6)
}

// The answer, and the microseconds of the library, of plain Rust by value, of the verdict with every rule on by its switches, of plain Rust lent, and of the
// simple verdict by value.
fn measure(s: &[u8], cut: u32) -> (u32, [f64; 5]) {
    // Each call of the library follows one of plain Rust or of the simple verdict, so that neither finds what the other left in the caches.
    let calls: [Call; 5] = [library, plain::verdict_by_value, with_every_rule, plain::verdict, simple::verdict_by_value];
    let mut answers = [0; 5];
    let mut outs = [(); 5].map(|_| vec![0u8; FRONT + 40 * 256]);
    let mut times = [(); 5].map(|_| vec![]);
    for _ in 0..200 {
        for (i, call) in calls.iter().enumerate() {
            let (answer, time) = timed(|| call(s, cut, 256, &mut outs[i]));
            answers[i] = answer;
            times[i].push(time);
        }
        assert!((1..5).all(|i| answers[i] == answers[0] && outs[i] == outs[0]), "the library, plain Rust and the simple verdict differ");
    }
    (answers[0], times.map(median))
}

// The library's microseconds, without other calls between.
fn alone((entries, heard, goal): Parts) -> f64 {
    let (s, mut out) = (sheet(&entries, &heard, goal), vec![0u8; FRONT + 40 * 256]);
    median((0..1000).map(|_| timed(|| library(&s, heard.len() as u32, 256, &mut out)).1).collect())
}

// The program's milliseconds from its start to its end, the sheet on its standard input.
fn program(path: &str, s: &[u8]) -> f64 {
    let begin = Instant::now();
    let mut child = Command::new(path).stdin(Stdio::piped()).stdout(Stdio::piped()).spawn().expect("the program starts");
    child.stdin.take().unwrap().write_all(s).expect("the program reads");
    let output = child.wait_with_output().expect("the program ends");
    let time = begin.elapsed().as_secs_f64() * 1e3;
    assert!(output.stdout.starts_with(b"goal "), "the program prints no card");
    time
}

// All cuts from 0 on, as the card asks them when the goal is never reached; the program too, if its path is given.
fn card(name: &str, (entries, heard, goal): Parts) {
    let s = sheet(&entries, &heard, goal);
    let mut out = vec![0u8; FRONT + 40 * 256];
    let mut times = vec![];
    for _ in 0..9 {
        let begin = Instant::now();
        for cut in 0..=heard.len() as u32 {
            library(&s, cut, 256, &mut out);
        }
        times.push(begin.elapsed().as_secs_f64() * 1e3);
    }
    println!("all {} cuts of the {name} sheet: {:.1} ms", heard.len() + 1, median(times));
    if let Some(path) = std::env::args().nth(1) {
        let times = (0..9).map(|_| program(&path, &s)).collect();
        println!("the program over the {name} sheet, start and printing included: {:.1} ms", median(times));
    }
}

// A row for each size of a kind, and how the library's time grows.
fn rows(name: &str, make: fn(usize) -> Parts) {
    let mut times = vec![];
    for n in [32, 64, 128, 256] {
        let (entries, heard, goal) = make(n);
        let (answer, [ours, by_value, set, lent, simple]) = measure(&sheet(&entries, &heard, goal), heard.len() as u32);
        let verdict = if answer < 2000 { "reached" } else { "out of reach" };
        let ratios = format!("{:17.2} {:10.2} {:8.2}", ours / simple, ours / by_value, ours / lent);
        let setting = format!("{set:8.1} {:16.2}", set / ours);
        println!("{name:8} {n:4} {ours:12.1} {simple:10.1} {by_value:10.1} {lent:8.1} {ratios} {setting}   {verdict} {}", answer % 1000);
        times.push(ours);
    }
    println!("{name:8} grows with n to the power {:.2} from 64 to 256", (times[3] / times[1]).ln() / 4f64.ln());
}

fn main() {
    // `mixed` and `stuck` end out of reach, and so does every cut of the two cards.
    println!("                           simple, us      plain Rust, us   ratio to simple       to plain Rust   with a setting, ratio");
    println!("sheet       n   library us   by value   by value     lent          by value   by value     lent       us   to the verdict   verdict and rungs");
    kinds::BY_NAME.into_iter().for_each(|(name, make)| rows(name, make));
    println!("the library alone on small sheets, us");
    println!("sheet       n = 4       8      16");
    for (name, make) in kinds::BY_NAME {
        let [four, eight, sixteen] = [4, 8, 16].map(|n| alone(make(n)));
        println!("{name:8} {four:8.2} {eight:7.2} {sixteen:7.2}");
    }
    card("mixed", kinds::mixed(256));
    card("longest", kinds::longest(256));
}
