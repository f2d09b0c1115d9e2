// `sheet watch`: what it shows of a sheet is what `sheet judge` says of it without the lines of the cuts; a bad text's fault with its line; where the quick call
// is stopped, that it is, and the full call's verdict. On a terminal: one screen, drawn again when the file changes and not otherwise in a way that could be seen,
// without flicker, in any size; the terminal as it was after an interrupt. Arguments: the tool and the repository's folder.

#[allow(dead_code)] // a part is used
mod checks;
mod ran;
mod tally;
mod terminal;

use checks::Checks;
use std::fs;
use std::path::PathBuf;
use std::os::unix::process::CommandExt;
use std::process::{Child, Command, Stdio};
use std::time::Duration;
use terminal::{waited, Terminal};

extern "C" {
    fn kill(process: i32, number: i32) -> i32;
    fn setsid() -> i32;
    fn ioctl(descriptor: i32, request: u64, ...) -> i32;
    fn signal(number: i32, handler: usize) -> usize;
}

const SIGHUP: i32 = 1;
const SIGINT: i32 = 2;
const SIGQUIT: i32 = 3;
const SIGTERM: i32 = 15;
const SIGCONT: i32 = 18;
const SIGTSTP: i32 = 20;
const SIG_DFL: usize = 0;
const TIOCSCTTY: u64 = 0x540e;

// No signal is ignored, also where this test runs in the background, with interrupts ignored.
fn with_signals(command: &mut Command) {
    let all = || {
        for number in [SIGHUP, SIGINT, SIGQUIT, SIGTERM, SIGTSTP] {
            unsafe { signal(number, SIG_DFL) };
        }
        Ok(())
    };
    unsafe { command.pre_exec(all) };
}

fn pause() {
    std::thread::sleep(Duration::from_millis(10));
}

// What judge says, without the lines of the cuts.
fn without_cuts(text: &str) -> String {
    text.lines().filter(|line| !line.starts_with("cut ")).map(|line| format!("{line}\n")).collect()
}

// A chain of joins on zero: each entry takes one step more. `more` are lines behind it.
fn chain(steps: usize, more: &str) -> String {
    let pairs: String = (1..steps).map(|i| format!("{i} pair {} {}\n", i - 1, i - 1)).collect();
    format!("0 zero\n{pairs}{more}")
}

impl Checks {
    // The file with this content, in place of the one that was there.
    fn file(&self, name: &str, content: &str) {
        let (new, old) = (self.dir.join(format!("{name}.new")), self.dir.join(name));
        fs::write(&new, content).and_then(|()| fs::rename(new, old)).expect("the test's folder can be written");
    }

    // One look at this text shows this, with this status.
    fn shows(&mut self, what: &str, text: &str, shown: &str, status: i32) {
        self.file("a.sheet", text);
        let run = self.run(&["watch", "--once", "a.sheet"], b"");
        self.check(&format!("{what}: {} {:?} {}", run.status, run.text(), run.err), run.status == status && run.text() == shown && run.err.is_empty());
    }

    // It shows what judge says, after these lines, and then the notes that judge has on standard error.
    fn as_judged(&mut self, what: &str, text: &str, before: &str) {
        self.file("b.sheet", text);
        let run = self.run(&["judge", "b.sheet"], b"");
        let notes = run.err.replace("b.sheet", "a.sheet");
        self.shows(what, text, &(before.to_string() + &without_cuts(&run.text()) + &notes), run.status);
    }

    fn wrong_usage(&mut self, words: &[&str], part: &str) {
        let run = self.run(words, b"");
        let holds = run.status == 2 && run.out.is_empty() && run.err.matches('\n').count() == 1 && run.err.contains(part);
        self.check(&format!("{words:?}: status {}, {}", run.status, run.err), holds);
    }

    // The tool watching a file in the test's folder.
    fn watching(&self, name: &str, out: Stdio) -> Child {
        self.command(name, out).spawn().expect("the tool starts")
    }

    fn command(&self, name: &str, out: Stdio) -> Command {
        let mut command = Command::new(&self.tool);
        command.args(["watch", name]).env("TERM", "xterm").current_dir(&self.dir).stdin(Stdio::null()).stdout(out).stderr(Stdio::piped());
        with_signals(&mut command);
        command
    }

    // The same on a terminal.
    fn on(&self, t: &Terminal, name: &str) -> Child {
        self.watching(name, t.far.try_clone().expect("another handle").into())
    }

    // It ends by the signal, with status 0 and without a word.
    fn ends(&mut self, what: &str, child: Child, number: i32) {
        unsafe { kill(child.id() as i32, number) };
        self.has_ended(what, child);
    }

    fn has_ended(&mut self, what: &str, mut child: Child) {
        let running = std::cell::RefCell::new(&mut child);
        waited(pause, || !matches!(running.borrow_mut().try_wait(), Ok(None)));
        let _ = child.kill();
        let done = child.wait_with_output().expect("the tool ends");
        self.check(&format!("{what}: {:?} {:?}", done.status, done.stderr), done.status.code() == Some(0) && done.stderr.is_empty());
    }
}

fn examples(c: &mut Checks, root: &PathBuf) {
    let list = fs::read_dir(root.join("examples")).expect("the examples are there");
    let mut paths: Vec<PathBuf> = list.filter_map(|entry| Some(entry.ok()?.path())).filter(|path| path.extension().map_or(false, |e| e == "sheet")).collect();
    paths.sort();
    c.check("there are examples", paths.len() >= 44);
    for path in paths {
        let text = fs::read_to_string(&path).expect("an example can be read");
        c.as_judged(&format!("{}", path.display()), &text, "");
        let assembled = c.run(&["assemble", "a.sheet", "-o", "a.bytes"], b"");
        c.check("it assembles", assembled.status == 0);
        let [bytes, of_bytes] = [&["watch", "--once", "a.bytes"][..], &["judge", "a.bytes"]].map(|words| c.run(words, b""));
        c.check("the same of its bytes", bytes.status == of_bytes.status && bytes.text() == without_cuts(&of_bytes.text()));
    }
}

fn bad_texts(c: &mut Checks) {
    c.as_judged("two names of one atom", "k atom 1007\ng atom\nm atom 1007\ngoal g\n", "");
    let shown = c.run(&["watch", "--once", "a.sheet"], b"").text();
    let note = "a.sheet:3:1: note: \"m\" and \"k\" (line 1) are one term";
    c.check(&format!("the note: {shown}"), shown.lines().last().map_or(false, |line| line.starts_with(note)));
    let unknown = "expected the number or name of an entry declared above\n";
    c.shows("a fault in the second line", "a atom\nb pair a c\ngoal b\n", &format!("a.sheet:2:10: entry \"c\" isn't declared above, {unknown}2 | b pair a c\n  |          ^\n"), 1);
    let many = "# a line\n".repeat(11);
    c.shows("a fault in line 12, behind a tab", &format!("{many}\tgoal x\n"), &format!("a.sheet:12:7: entry \"x\" isn't declared above, {unknown}12 |  goal x\n   |       ^\n"), 1);
    c.file("a.sheet", "");
    let empty = c.run(&["watch", "--once", "a.sheet"], b"");
    let assembled = c.run(&["assemble", "a.sheet"], b"");
    c.check("an empty text's fault is that of assemble", empty.status == 1 && empty.text() == assembled.err + "1 | \n  | ^\n" && empty.err.is_empty());
    c.file("a.bytes", "SHT1 and no sheet");
    let [bytes, judged] = [&["watch", "--once", "a.bytes"][..], &["judge", "a.bytes"]].map(|words| c.run(words, b""));
    c.check("refused bytes", bytes.status == 1 && bytes.text() == judged.err && bytes.text().contains("refused"));
    let gone = c.run(&["watch", "--once", "no.sheet"], b"");
    c.check("no file", gone.status == 1 && gone.text().starts_with("no.sheet: can't be read: ") && gone.err.is_empty());
}

fn stopped(c: &mut Checks) {
    let at = |cut: usize| format!("stopped: at cut {cut} the quick call made its 64 steps, and another follows; the full call says:\n");
    c.as_judged("64 steps", &chain(64, "goal 63\n"), "");
    c.as_judged("65 steps", &chain(65, "goal 64\n"), &at(0));
    c.as_judged("256 steps", &chain(256, "goal 255\n"), &at(0));
    c.as_judged("64 steps, and then nothing follows", &chain(64, "k atom\ngoal k\n"), "");
    c.as_judged("65 steps, and then nothing follows", &chain(65, "k atom\ngoal k\n"), &at(0));
    c.as_judged("stopped at the last cut alone, as heard messages take more steps", &chain(60, "k atom\na pair k k\nb pair a a\nc pair b b\nd pair c c\ne pair d d\ns atom\nheard k\ngoal s\n"), &at(1));
    let earlier = |cuts: &str| format!("stopped: at {cuts} the quick call made its 64 steps; the full call says out of reach there\n");
    c.as_judged("stopped before the goal is heard", &chain(65, "k atom\nheard k\ngoal k\n"), &earlier("1 earlier cut"));
    c.as_judged("stopped twice before the goal is heard", &chain(66, "k atom\nheard 3 k\ngoal k\n"), &earlier("2 earlier cuts"));
}

fn usage(c: &mut Checks) {
    c.wrong_usage(&["watch"], "watch takes one file name, found 0");
    c.wrong_usage(&["watch", "a", "b"], "watch takes one file name, found 2");
    c.wrong_usage(&["watch", "-"], "and not standard input");
    c.wrong_usage(&["watch", "a", "-o", "b"], "unknown option -o");
    c.wrong_usage(&["watch", "a", "--cut", "1"], "unknown option --cut");
    c.wrong_usage(&["judge", "a", "--once"], "unknown option --once");
    let help = c.run(&["watch", "--help"], b"");
    c.check("help", help.status == 0 && help.text().starts_with("usage: sheet watch SHEET [--once]\n"));
}

// The screen has the heading and then these lines.
fn has(lines: &[&str]) -> impl Fn(&terminal::Screen) -> bool {
    let wanted: Vec<String> = ["sheet watch a.sheet"].iter().chain(lines).map(|line| line.to_string()).collect();
    move |screen| screen.other && screen.lines() == wanted
}

const SHEET: &str = "k atom\np atom\nm sum k p\nheard m p\ngoal k\n";
const REACHED: [&str; 2] = ["reached: a listener who heard the first 2 of 2 messages gains k in 1 step", "k sum of p, m"];
const OUT: [&str; 3] = ["out of reach: no row of steps from the 1 heard message gains k, through terms of any", "    size", "missing: k"];

fn on_a_terminal(c: &mut Checks) {
    let mut t = Terminal::new(12, 86);
    c.file("a.sheet", SHEET);
    let child = c.on(&t, "a.sheet");
    c.check("the first screen", t.comes_to(has(&REACHED)) && !t.screen.cursor && !t.screen.wraps);
    fs::write(c.dir.join("a.sheet"), SHEET.replace("heard m p", "heard m")).expect("the file can be written");
    c.check("a message fewer, written in place", t.comes_to(has(&OUT)));
    c.file("a.sheet", &SHEET.replace("heard m p", "heard m q"));
    let fault = "a.sheet:4:9: entry \"q\" isn't declared above, expected the number or name of an entry";
    c.check("a fault", t.comes_to(has(&[fault, "    declared above", "4 | heard m q", "  |         ^"])));
    c.file("a.sheet", SHEET);
    c.check("the first text again", t.comes_to(has(&REACHED)));
    let same = t.bytes;
    c.file("a.sheet", SHEET);
    c.check("the same text again", t.stays(Duration::from_millis(400)));
    c.check("a screen that stays, for more than a second", t.stays(Duration::from_millis(1300)) && t.bytes > same);
    t.types("xyz");
    c.check("letters typed over it come", t.gets("xyz"));
    c.check("and go", t.comes_to(has(&REACHED)));
    fs::remove_file(c.dir.join("a.sheet")).expect("the file is removed");
    c.check("no file", t.comes_to(|screen| screen.lines().len() == 2 && screen.lines()[1].starts_with("a.sheet: can't be read: ")));
    c.file("a.sheet", SHEET);
    c.check("the file again", t.comes_to(has(&REACHED)));
    t.resize(12, 40);
    c.check("a narrower terminal", t.comes_to(has(&["reached: a listener who heard the first", "    2 of 2 messages gains k in 1 step", "k sum of p, m"])));
    t.resize(3, 86);
    c.check("a lower one", t.comes_to(has(&REACHED)));
    t.resize(2, 86);
    c.check("a line too few", t.comes_to(has(&["... more: sheet judge shows all"])));
    t.resize(1, 5);
    c.check("almost none", t.comes_to(|screen| screen.lines() == ["shee"]));
    c.ends("an interrupt", child, SIGINT);
    c.check("the terminal as it was", t.comes_to(|screen| !screen.other && screen.cursor && screen.wraps));
}

// What can't be watched is told, and the watch ends as any other.
fn no_regular_file(c: &mut Checks) {
    let made = Command::new("mkfifo").arg(c.dir.join("pipe")).status().map_or(false, |status| status.success());
    c.check("a pipe is made", made && fs::create_dir(c.dir.join("folder")).is_ok());
    for name in ["pipe", "folder"] {
        let mut t = Terminal::new(12, 86);
        let child = c.on(&t, name);
        let told = format!("{name}: can't be watched, expected a regular file");
        c.check(&told, t.comes_to(|screen| screen.lines().get(1) == Some(&told)));
        c.ends(name, child, SIGINT);
    }
}

// Lines that are too long, letters that take two places, and characters that would do something to a terminal.
fn odd_lines(c: &mut Checks) {
    let mut t = Terminal::new(12, 41);
    let names: String = (10..60).map(|i| format!(" n{i}")).collect();
    c.file("a.sheet", &format!("n10 atom\nheard{names}\ngoal n10\n"));
    let child = c.on(&t, "a.sheet");
    let message = ["a.sheet:2:11: entry \"n11\" isn't declared", "    above, expected the number or name", "    of an entry declared above"];
    let fault = [&message[..], &["2 | heard n10 n11 n12 n13 n14 n15 n16 n1", "  |           ^"]].concat();
    c.check("a long line's fault near its beginning", t.comes_to(has(&fault)));
    let atoms: String = (10..50).map(|i| format!("n{i} atom\n")).collect();
    c.file("a.sheet", &format!("{atoms}heard{names}\ngoal n10\n"));
    let under = |screen: &terminal::Screen| match &screen.lines()[..] {
        [.., line, mark] => mark.find('^').map_or(false, |at| line.starts_with("41 | ... ") && line[at..].starts_with("n50 ")),
        _ => false,
    };
    c.check("and far in it", t.comes_to(under));
    c.file("a.sheet", &format!("k atom\ngoal {}\n", "x".repeat(3_000_000)));
    c.check("three million letters", t.comes_to(|screen| screen.lines().get(1).map_or(false, |line| line == "a.sheet:2:6: entry")));
    let wide = "\u{9375}".repeat(30);
    c.file("a.sheet", &format!("{wide} atom\ngoal {wide}\n"));
    let wanted = format!("out of reach: no row of steps from nothing heard gains {wide}, through terms of any size missing: {wide}").replace(' ', "");
    c.check("wide letters", t.comes_to(|screen| screen.lines().into_iter().skip(1).collect::<String>().replace(' ', "") == wanted));
    c.file("a.sheet", "k atom\ngoal \u{202e}\u{200b}\u{9b}31mk\n");
    c.check("hidden characters", t.comes_to(|screen| screen.lines().last().map_or(false, |line| line.trim() == "|      ^")));
    c.check("none of them is sent", !t.text.contains(['\u{202e}', '\u{200b}', '\u{9b}']));
    c.ends("an interrupt", child, SIGINT);
}

// Suspended, it leaves the terminal as it was, and comes back.
fn suspended(c: &mut Checks) {
    let mut t = Terminal::new(12, 86);
    c.file("a.sheet", SHEET);
    let child = c.on(&t, "a.sheet");
    c.check("a screen", t.comes_to(has(&REACHED)));
    unsafe { kill(child.id() as i32, SIGTSTP) };
    c.check("the other screen is left", t.comes_to(|screen| screen.left == 1));
    unsafe { kill(child.id() as i32, SIGCONT) };
    c.check("and entered again", t.comes_to(|screen| has(&REACHED)(screen) && !screen.cursor && !screen.wraps));
    c.ends("an interrupt after it", child, SIGINT);
    c.check("the terminal as it was", t.comes_to(|screen| !screen.other && screen.cursor && screen.wraps && screen.left == 2));
}

// The terminal goes while it is the tool's own: no fault.
fn hung_up(c: &mut Checks) {
    let mut t = Terminal::new(12, 86);
    c.file("a.sheet", SHEET);
    let mut command = c.command("a.sheet", t.far.try_clone().expect("another handle").into());
    let own = || if unsafe { setsid() >= 0 && ioctl(1, TIOCSCTTY, 0) == 0 } { Ok(()) } else { Err(std::io::Error::last_os_error()) };
    let child = unsafe { command.pre_exec(own) }.spawn().expect("the tool starts");
    drop(command);
    c.check("a screen", t.comes_to(has(&REACHED)));
    drop(t);
    c.has_ended("a terminal that went", child);
}

// A terminal that can't draw, and a hang-up that is ignored from the start.
fn other_surroundings(c: &mut Checks) {
    let mut t = Terminal::new(12, 86);
    c.file("a.sheet", SHEET);
    let child = c.command("a.sheet", t.far.try_clone().expect("another handle").into()).env("TERM", "dumb").spawn().expect("the tool starts");
    c.check("a dumb terminal", t.comes_to(|screen| screen.lines() == REACHED));
    c.ends("an interrupt on it", child, SIGINT);
    c.check("no escape", !t.text.contains('\x1b'));
    let out = fs::File::create(c.dir.join("shown")).expect("the test's folder can be written");
    let mut shell = Command::new("sh");
    shell.args(["-c", "trap '' HUP; exec \"$0\" watch a.sheet"]).arg(&c.tool).current_dir(&c.dir).stdin(Stdio::null()).stdout(out).stderr(Stdio::piped());
    with_signals(&mut shell);
    let child = shell.spawn().expect("the shell starts");
    let shown = || fs::read_to_string(c.dir.join("shown")).unwrap_or_default();
    let begun = waited(pause, || !shown().is_empty());
    unsafe { kill(child.id() as i32, SIGHUP) };
    c.file("a.sheet", &SHEET.replace("heard m p", "heard m"));
    let went_on = waited(pause, || shown().ends_with("missing: k\n"));
    c.check("a hang-up that is ignored", begun && went_on);
    c.ends("an interrupt after it", child, SIGINT);
}

fn ended_otherwise(c: &mut Checks) {
    for number in [SIGTERM, SIGHUP, SIGQUIT] {
        let mut t = Terminal::new(12, 86);
        c.file("a.sheet", SHEET);
        let child = c.on(&t, "a.sheet");
        c.check("a screen", t.comes_to(has(&REACHED)));
        c.ends("told to end", child, number);
        c.check("the terminal as it was", t.comes_to(|screen| !screen.other && screen.cursor && screen.wraps));
    }
}

// No terminal: the texts one below the other.
fn in_a_file(c: &mut Checks) {
    c.file("a.sheet", SHEET);
    let path = c.dir.join("shown");
    let child = c.watching("a.sheet", fs::File::create(&path).expect("the test's folder can be written").into());
    let shown = || fs::read_to_string(&path).unwrap_or_default();
    let [reached, out] = [REACHED.join("\n"), OUT.join("\n").replace("\n    ", " ")];
    let texts = [("heard m p", format!("{reached}\n")), ("heard p m", format!("\n{reached}\n")), ("heard m", format!("\n{out}\n"))];
    let mut wanted = String::new();
    for (heard, text) in texts {
        c.file("a.sheet", &SHEET.replace("heard m p", heard));
        wanted += &text;
        c.check(&format!("below the others: {}", shown()), waited(pause, || shown() == wanted));
    }
    c.ends("an interrupt without a terminal", child, SIGINT);
    c.check("nothing more", shown() == wanted);
    // The pipe is closed at its other end.
    let mut child = c.watching("a.sheet", Stdio::piped());
    drop(child.stdout.take());
    let done = child.wait_with_output().expect("the tool ends");
    c.check("a closed pipe", done.status.code() == Some(1) && String::from_utf8_lossy(&done.stderr).starts_with("<stdout>: can't be written: "));
}

fn main() {
    let mut words = std::env::args().skip(1);
    let tool = PathBuf::from(words.next().expect("the tool's path")).canonicalize().expect("the tool");
    let root = PathBuf::from(words.next().expect("the repository's folder")).canonicalize().expect("the folder");
    let dir = std::env::temp_dir().join(format!("watch.{}", std::process::id()));
    fs::create_dir_all(&dir).expect("a folder for the test");
    let mut c = Checks { tool, dir, tally: Default::default() };
    examples(&mut c, &root);
    bad_texts(&mut c);
    stopped(&mut c);
    usage(&mut c);
    on_a_terminal(&mut c);
    no_regular_file(&mut c);
    odd_lines(&mut c);
    suspended(&mut c);
    hung_up(&mut c);
    other_surroundings(&mut c);
    ended_otherwise(&mut c);
    in_a_file(&mut c);
    let _ = fs::remove_dir_all(&c.dir);
    c.tally.end("watch");
}
