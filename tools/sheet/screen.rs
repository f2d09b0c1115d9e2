// One screen of text on a terminal, drawn over the old one in a single write, so that it doesn't flicker; and the signals that end it. Where standard output
// is no terminal, each new text is written below the one before.

use super::output::print;
use std::sync::atomic::{AtomicBool, Ordering};

// The C library's calls that the standard library has no name for.
extern "C" {
    fn ioctl(descriptor: i32, request: u64, ...) -> i32;
    fn isatty(descriptor: i32) -> i32;
    fn signal(number: i32, handler: usize) -> usize;
    fn raise(number: i32) -> i32;
}

const OUTPUT: i32 = 1;
const TIOCGWINSZ: u64 = 0x5413;
const SIGHUP: i32 = 1;
const SIGINT: i32 = 2;
const SIGQUIT: i32 = 3;
const SIGTERM: i32 = 15;
const SIGTSTP: i32 = 20;
const SIG_DFL: usize = 0;
const SIG_IGN: usize = 1;

// The columns of a line where there is no terminal.
pub const NO_TERMINAL: usize = 160;

// The terminal's other screen without a cursor and without wrapping, and the way back.
const ENTER: &str = "\x1b[?1049h\x1b[?25l\x1b[?7l";
const LEAVE: &str = "\x1b[?7h\x1b[?25h\x1b[?1049l";
// To the first place; the rest of the line erased; all below erased; reversed letters, and plain ones.
const HOME: &str = "\x1b[H";
const LINE_END: &str = "\x1b[K";
const BELOW: &str = "\x1b[J";
const REVERSED: &str = "\x1b[7m";
const PLAIN: &str = "\x1b[m";

static ENDED: AtomicBool = AtomicBool::new(false);
static SUSPENDED: AtomicBool = AtomicBool::new(false);

// A second signal does what it does to any program.
extern "C" fn note(number: i32) {
    let flag = if number == SIGTSTP { &SUSPENDED } else { &ENDED };
    flag.store(true, Ordering::Relaxed);
    unsafe { signal(number, SIG_DFL) };
}

// A signal that was ignored when the program began stays so.
fn on_note(number: i32) {
    if unsafe { signal(number, note as extern "C" fn(i32) as usize) } == SIG_IGN {
        unsafe { signal(number, SIG_IGN) };
    }
}

// Was the program interrupted, or told to end?
pub fn ended() -> bool {
    ENDED.load(Ordering::Relaxed)
}

// Columns and rows of the terminal.
#[derive(Clone, Copy, PartialEq)]
struct Size {
    columns: usize,
    rows: usize,
}

fn size() -> Size {
    let mut found = [0u16; 4];
    let answer = unsafe { ioctl(OUTPUT, TIOCGWINSZ, found.as_mut_ptr()) };
    let [rows, columns, ..] = found.map(usize::from);
    if answer == 0 && rows > 0 && columns > 0 { Size { columns, rows } } else { Size { columns: 80, rows: 24 } }
}

// How many columns a letter takes: two for those of East Asian scripts and for pictures.
pub fn width(c: char) -> usize {
    match c as u32 {
        0x1100..=0x115f | 0x2e80..=0xa4cf | 0xac00..=0xd7a3 | 0xf900..=0xfaff | 0xfe30..=0xfe6f | 0xff00..=0xff60 | 0xffe0..=0xffe6 => 2,
        0x1f300..=0x1faff | 0x20000..=0x3fffd => 2,
        _ => 1,
    }
}

// As much of a line as fits so many columns.
pub fn fitting(line: &str, columns: usize) -> &str {
    let mut taken = 0;
    let end = line.char_indices().find(|(_, c)| {
        taken += width(*c);
        taken > columns
    });
    end.map_or(line, |(at, _)| &line[..at])
}

// At most `most` parts of a line, each of which fits the columns, parted at spaces where there are any. Parts after the first are indented. The flag says
// whether more is left.
fn wrapped(line: &str, columns: usize, most: usize) -> (Vec<String>, bool) {
    let indent = if columns > 20 { 4 } else { 0 };
    let (mut parts, mut rest) = (vec![], line);
    while parts.len() < most {
        let before = if parts.is_empty() { 0 } else { indent };
        let part = fitting(rest, columns - before);
        if part.len() == rest.len() {
            parts.push(" ".repeat(before) + part);
            return (parts, false);
        }
        // A space just behind the part will do too. What is wider than the screen is taken letter by letter.
        let spaced = if rest[part.len()..].starts_with(' ') { Some(part.len()) } else { part.rfind(' ') };
        let spaced = spaced.filter(|at| !part[..*at].trim().is_empty());
        let end = spaced.unwrap_or(part.len().max(rest.chars().next().map_or(0, char::len_utf8)));
        parts.push(" ".repeat(before) + &rest[..end]);
        rest = &rest[end + usize::from(spaced.is_some())..];
    }
    (parts, true)
}

// The columns of a line. The last one stays free: behind a letter there, erasing the rest of the line would erase the letter.
fn free(size: Size) -> usize {
    size.columns.max(3) - 1
}

// The lines of the screen: the heading, then as much of the text as there is room for. Where some is left out, the last line says so.
fn lines(heading: &str, text: &str, size: Size) -> Vec<String> {
    let (columns, room) = (free(size), size.rows - 1);
    let (mut all, mut more) = (vec![], false);
    for line in text.lines() {
        let (parts, left) = wrapped(line, columns, room + 1 - all.len());
        all.extend(parts);
        more = left || all.len() > room;
        if more {
            break;
        }
    }
    if more {
        all.truncate(room.saturating_sub(1));
        all.extend((0..room.min(1)).map(|_| fitting("... more: sheet judge shows all", columns).to_string()));
    }
    [vec![fitting(heading, columns).to_string()], all].concat()
}

// The bytes that draw these lines over what is there.
fn drawn(lines: &[String]) -> String {
    let mut out = HOME.to_string();
    for (i, line) in lines.iter().enumerate() {
        match i {
            0 => out += &format!("{REVERSED}{line}{LINE_END}{PLAIN}"),
            _ => out += &format!("\r\n{line}{LINE_END}"),
        }
    }
    out + BELOW + HOME
}

pub struct Screen {
    heading: String,
    terminal: bool,
    size: Size,
    begun: bool, // a text was shown
}

// Where the program was told to end, an output that can't be written is no fault: it may be the terminal that went.
fn put(text: &str) -> Result<(), String> {
    print(text.as_bytes()).or_else(|error| if ended() { Ok(()) } else { Err(format!("<stdout>: can't be written: {error}")) })
}

impl Screen {
    pub fn open(heading: &str) -> Result<Screen, String> {
        let dumb = std::env::var_os("TERM").map_or(false, |name| name == "dumb");
        let terminal = unsafe { isatty(OUTPUT) } == 1 && !dumb;
        [SIGINT, SIGQUIT, SIGTERM, SIGHUP].into_iter().for_each(on_note);
        if terminal {
            on_note(SIGTSTP);
            put(ENTER)?;
        }
        Ok(Screen { heading: heading.to_string(), terminal, size: size(), begun: false })
    }

    // How many columns a line of the text has.
    pub fn columns(&self) -> usize {
        if self.terminal { free(size()) } else { NO_TERMINAL }
    }

    // Shows a text in place of the last one, or below it.
    pub fn show(&mut self, text: &str) -> Result<(), String> {
        let below = if self.begun { "\n" } else { "" };
        self.begun = true;
        if self.terminal { self.redraw(text) } else { put(&format!("{below}{text}")) }
    }

    // Has the terminal another size than when it was drawn, or was the program suspended?
    pub fn changed(&self) -> bool {
        self.terminal && (size() != self.size || SUSPENDED.load(Ordering::Relaxed))
    }

    // Draws the text again, where there is a terminal.
    pub fn redraw(&mut self, text: &str) -> Result<(), String> {
        if !self.terminal {
            return Ok(());
        }
        if SUSPENDED.swap(false, Ordering::Relaxed) {
            self.suspend()?;
        }
        self.size = size();
        put(&drawn(&lines(&self.heading, text, self.size)))
    }

    // Stops as the terminal asked for, with its own screen in place, and goes on when told to.
    fn suspend(&self) -> Result<(), String> {
        put(LEAVE)?;
        unsafe { raise(SIGTSTP) };
        on_note(SIGTSTP);
        if ended() { Ok(()) } else { put(ENTER) }
    }

    // The terminal as it was.
    pub fn close(&self) -> Result<(), String> {
        if self.terminal { put(LEAVE) } else { Ok(()) }
    }
}
