// The program's standard streams: input that can't be read or comes late, output that fails or isn't ready, and text where a sheet is asked for.
// The first argument is the program's path, the second that of tests/faults.c as a shared library. Every run that isn't ended by a signal has
// status 0.

#[allow(dead_code)] // each test uses a part
mod sheets;
use sheets::{sheet, Entry};
use std::fs::File;
use std::io::{Read, Write};
use std::os::unix::io::FromRawFd;
use std::process::{Child, Command, ExitStatus, Stdio};
use std::thread::{sleep, spawn};
use std::time::Duration;

extern "C" {
    fn pipe(ends: *mut i32) -> i32;
    fn fcntl(fd: i32, command: i32, ...) -> i32;
    fn kill(process: i32, signal: i32) -> i32;
}
const F_SETFL: i32 = 4;
const F_SETFD: i32 = 2;
const FD_CLOEXEC: i32 = 1;
const O_NONBLOCK: i32 = 0o4000;
const SIGCONT: i32 = 18;
const SIGSTOP: i32 = 19;

const CARD: &str = "goal 3 heard 3\ncut 0 out of reach known 0\ncut 1 out of reach known 1\ncut 2 out of reach known 2\ncut 3 reached rungs 2\nrung 0 sum 1 2\nrung 3 open 4 0\n";
const HINT: &str = "zuwendryk: the input looks like text; a text sheet is assembled first: sheet assemble FILE -o SHEET\n";

// What a run left behind.
struct Seen {
    out: Vec<u8>,
    err: String,
    status: ExitStatus,
}

struct Test {
    program: String,
    faults: String,
    sheet: Vec<u8>,
    passed: usize,
    failed: usize,
}

// The ends of a new pipe, the reading one first. An end that isn't ready answers so at once where its flag is set.
fn new_pipe(reading: bool, writing: bool) -> (File, File) {
    let mut ends = [0; 2];
    unsafe {
        assert_eq!(pipe(ends.as_mut_ptr()), 0);
        for (end, flag) in [(ends[0], reading), (ends[1], writing)] {
            assert_eq!(fcntl(end, F_SETFD, FD_CLOEXEC), 0);
            assert_eq!(fcntl(end, F_SETFL, if flag { O_NONBLOCK } else { 0 }), 0);
        }
        (File::from_raw_fd(ends[0]), File::from_raw_fd(ends[1]))
    }
}

fn bytes_of(mut from: impl Read) -> Vec<u8> {
    let mut bytes = Vec::new();
    from.read_to_end(&mut bytes).unwrap();
    bytes
}

// Long enough for the program to come to its first read or write.
fn a_while() {
    sleep(Duration::from_millis(300));
}

// Writes the input, in pieces of the given size, and waits for the end. The program reads no further than it needs, so a broken pipe is no fault.
fn finish(mut child: Child, input: &[u8], piece: usize) -> Seen {
    let (stdin, input) = (child.stdin.take(), input.to_vec());
    let writer = spawn(move || {
        if let Some(mut stdin) = stdin {
            for part in input.chunks(piece) {
                let _ = stdin.write_all(part);
            }
        }
    });
    let got = child.wait_with_output().unwrap();
    writer.join().unwrap();
    Seen { out: got.stdout, err: String::from_utf8_lossy(&got.stderr).into_owned(), status: got.status }
}

impl Test {
    // The program with all three streams piped.
    fn command(&self) -> Command {
        let mut command = Command::new(&self.program);
        command.stdin(Stdio::piped()).stdout(Stdio::piped()).stderr(Stdio::piped());
        command
    }

    // The program, started by a shell that first changes its streams or signals.
    fn shell(&self, before: &str, after: &str) -> Command {
        let mut command = Command::new("sh");
        command.arg("-c").arg(format!("{before} exec \"$0\" {after}")).arg(&self.program);
        command.stdin(Stdio::piped()).stdout(Stdio::piped()).stderr(Stdio::piped());
        command
    }

    fn run(&self, mut command: Command, input: &[u8]) -> Seen {
        finish(command.spawn().expect("the program starts"), input, input.len().max(1))
    }

    fn say(&mut self, what: &str, good: bool, seen: &Seen) {
        if good {
            self.passed += 1;
        } else {
            self.failed += 1;
            println!("{what}: {} with output {:?} and error {:?}", seen.status, String::from_utf8_lossy(&seen.out), seen.err);
        }
    }

    // The run ended by itself with this output and this on standard error.
    fn check(&mut self, what: &str, seen: Seen, out: &str, err: &str) {
        let good = seen.status.success() && seen.out == out.as_bytes() && seen.err == err;
        self.say(what, good, &seen);
    }

    // The program with faults in its calls, and how often it paused.
    fn faulty(&self, reads: &str, writes: &str) -> (Seen, String) {
        let count = format!("{}.pauses", self.faults);
        let _ = std::fs::remove_file(&count);
        let mut command = self.command();
        command.env("LD_PRELOAD", &self.faults).env("READ_FAULTS", reads).env("WRITE_FAULTS", writes).env("PAUSES", &count);
        let seen = self.run(command, &self.sheet);
        (seen, std::fs::read_to_string(&count).unwrap_or_default())
    }

    // The same, with what must be seen.
    fn check_faulty(&mut self, what: &str, reads: &str, writes: &str, out: &str, err: &str, pauses: usize) {
        let (seen, paused) = self.faulty(reads, writes);
        let good = seen.status.success() && seen.out == out.as_bytes() && seen.err == err && paused == pauses.to_string();
        if paused != pauses.to_string() {
            println!("{what}: paused {paused} times, not {pauses}");
        }
        self.say(what, good, &seen);
    }
}

fn input(t: &mut Test) {
    let sheet = t.sheet.clone();
    let seen = t.run(t.command(), &sheet);
    t.check("a sheet", seen, CARD, "");
    let seen = finish(t.command().spawn().unwrap(), &sheet, 1);
    t.check("a sheet in pieces of one byte", seen, CARD, "");
    let mut command = t.command();
    command.stdin(File::open("/").unwrap());
    let seen = t.run(command, &[]);
    t.check("a directory", seen, "", "zuwendryk: standard input: Is a directory\n");
    let seen = t.run(t.shell("", "<&-"), &[]);
    t.check("closed input", seen, "", "zuwendryk: standard input: Bad file descriptor\n");
    let seen = t.run(t.shell("", "0>/dev/null"), &[]);
    t.check("input open for writing", seen, "", "zuwendryk: standard input: Bad file descriptor\n");
    let child = t.command().spawn().unwrap();
    a_while();
    unsafe { kill(child.id() as i32, SIGSTOP) };
    a_while();
    unsafe { kill(child.id() as i32, SIGCONT) };
    let seen = finish(child, &sheet, sheet.len());
    t.check("stopped and continued while it reads", seen, CARD, "");
    late_input(t);
}

// A pipe that isn't ready when the program first reads, nor after the first part.
fn late_input(t: &mut Test) {
    let (reading, mut writing) = new_pipe(true, false);
    let mut command = t.command();
    command.stdin(reading);
    let child = command.spawn().unwrap();
    drop(command); // with its copy of the reading end
    a_while();
    let _ = writing.write_all(&t.sheet[..20]);
    a_while();
    let _ = writing.write_all(&t.sheet[20..]);
    drop(writing);
    let seen = finish(child, &[], 1);
    t.check("input that comes late", seen, CARD, "");
}

fn output(t: &mut Test) {
    let sheet = t.sheet.clone();
    let mut command = t.command();
    command.stdout(File::create("/dev/full").unwrap());
    let seen = t.run(command, &sheet);
    t.check("a full device", seen, "", "zuwendryk: standard output: No space left on device\n");
    let seen = t.run(t.shell("", ">&-"), &sheet);
    t.check("closed output", seen, "", "zuwendryk: standard output: Bad file descriptor\n");
    let seen = t.run(t.shell("", "1</dev/null"), &sheet);
    t.check("output open for reading", seen, "", "zuwendryk: standard output: Bad file descriptor\n");
    let seen = t.run(t.shell("", ">&-"), b"hello\n");
    t.check("text, and closed output", seen, "", "zuwendryk: standard output: Bad file descriptor\n");
    // No reader is left. Whatever the signal was set to, the program ignores it and says so.
    for before in ["", "trap '' PIPE;"] {
        let (reading, writing) = new_pipe(false, false);
        drop(reading);
        let mut command = t.shell(before, "");
        command.stdout(writing);
        let seen = t.run(command, &sheet);
        let good = seen.status.success() && seen.out.is_empty() && seen.err == "zuwendryk: standard output: Broken pipe\n";
        t.say(&format!("no reader, {before:?}"), good, &seen);
    }
    late_reader(t);
}

// A pipe that is full when the program first writes.
fn late_reader(t: &mut Test) {
    let (reading, mut writing) = new_pipe(false, true);
    let mut filler = 0;
    while let Ok(n) = writing.write(&[b'x'; 4096]) {
        filler += n;
    }
    let mut command = t.command();
    command.stdout(writing);
    let mut child = command.spawn().unwrap();
    drop(command); // with its copy of the writing end
    let _ = child.stdin.take().unwrap().write_all(&t.sheet);
    a_while();
    let out = bytes_of(reading);
    let mut seen = finish(child, &[], 1);
    seen.out = out[filler..].to_vec();
    t.check("output that is read late", seen, CARD, "");
}

fn faults(t: &mut Test) {
    let (again, late, broken) = ("Interrupted system call", "Resource temporarily unavailable", "Input/output error");
    let read = |why: &str| format!("zuwendryk: standard input: {why}\n");
    let write = |why: &str| format!("zuwendryk: standard output: {why}\n");
    t.check_faulty("no fault", "", "", CARD, "", 0);
    t.check_faulty("interrupted reads", "3xe4 20 2xe4", "", CARD, "", 5);
    t.check_faulty("input not ready", "30xe11 1 2 e11 30 4xe11", "", CARD, "", 35);
    t.check_faulty("a read that fails", "e5", "", "", &read(broken), 0);
    t.check_faulty("a read that fails after a part", "20 e11 5 e5", "", "", &read(broken), 1);
    t.check_faulty("input that is never ready", "e*11", "", "", &read(late), 6000);
    t.check_faulty("reads that are always interrupted", "54 e*4", "", "", &read(again), 6000);
    t.check_faulty("input ready at the last try", "6000xe11", "", CARD, "", 6000);
    t.check_faulty("input that is late twice", "6000xe11 7 6000xe11", "", CARD, "", 12000);
    t.check_faulty("interrupted writes", "", "2xe4 9 e4", CARD, "", 3);
    t.check_faulty("output not ready", "", "5xe11 1 3xe11 50", CARD, "", 8);
    t.check_faulty("a write that fails", "", "e28", "", &write("No space left on device"), 0);
    t.check_faulty("a write that fails after a part", "", "15 e5", "goal 3 heard 3\n", &write(broken), 0);
    t.check_faulty("output that is never ready", "", "e*11", "", &write(late), 6000);
    // A write that takes nothing has no error to name.
    let (seen, paused) = t.faulty("", "0");
    let good = seen.out.is_empty() && seen.err.starts_with("zuwendryk: standard output: ") && seen.err.matches('\n').count() == 1 && paused == "0";
    t.say("a write that takes nothing", good, &seen);
}

fn text(t: &mut Test) {
    let long = [vec![b'a'; 64], vec![0; 40_000]].concat();
    let hinted: Vec<(&str, Vec<u8>)> = vec![
        ("a text sheet", b"# the goal\nk atom 7\ngoal k\n".to_vec()),
        ("one letter", b"x".to_vec()),
        ("one end of a line", b"\n".to_vec()),
        ("text with tabs and carriage returns", b"0\tzero\r\ngoal 0\r\n".to_vec()),
        ("text in UTF-8", "\u{feff}# für Ωmega\n".as_bytes().to_vec()),
        ("letters in another case", b"sht1 and so on".to_vec()),
        ("three of the letters", b"SHT".to_vec()),
        ("64 bytes of text, then others", long),
    ];
    let plain: Vec<(&str, Vec<u8>)> = vec![
        ("no input", vec![]),
        ("a byte that is no text", vec![0]),
        ("63 bytes of text, then another", [vec![b'a'; 63], vec![0; 9]].concat()),
        ("an escape character", b"\x1b[31mred".to_vec()),
        ("a delete character", b"some\x7ftext".to_vec()),
        ("bytes that UTF-8 lacks", vec![0xff; 30]),
        ("the four letters and text", b"SHT1 and so on, as text".to_vec()[..9].to_vec()),
        ("a sheet that is too long", [t.sheet.clone(), vec![b'a'; 100_000]].concat()),
        ("four letters of an archive", b"PK\x03\x04 and so on".to_vec()),
    ];
    for (inputs, err) in [(hinted, HINT), (plain, "")] {
        for (what, input) in inputs {
            let seen = t.run(t.command(), &input);
            t.check(what, seen, "refused 1\n", err);
        }
    }
    // Another refusal is no matter of text.
    let seen = t.run(t.command(), b"SHT1 and so on, as text");
    t.check("a sheet with a bad count", seen, "refused 2\n", "");
}

fn main() {
    use Entry::*;
    let mut arguments = std::env::args().skip(1);
    let program = arguments.next().expect("the program's path");
    let faults_path = arguments.next().expect("the path of the library with faults");
    let a = sheet(&[Atom(1007), Atom(1009), Sum(vec![0, 1]), Atom(1012), Seal(3, 0)], &[2, 4, 1], 3);
    let faults_path = std::fs::canonicalize(faults_path).expect("the library with faults").to_string_lossy().into_owned();
    let mut t = Test { program, faults: faults_path, sheet: a, passed: 0, failed: 0 };
    input(&mut t);
    output(&mut t);
    faults(&mut t);
    text(&mut t);
    println!("streams: {} passed, {} failed", t.passed, t.failed);
    if t.failed > 0 {
        std::process::exit(1);
    }
}
