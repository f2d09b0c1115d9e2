// A terminal for the test of `sheet watch`: a pseudo-terminal whose other end the tool writes to, and the screen that its bytes draw. Each place of the screen
// is followed from one state to the next: a place that takes a value which is neither its old nor its new one would flicker.

use std::ffi::CStr;
use std::fs::{File, OpenOptions};
use std::io::{Read, Write};
use std::os::fd::{AsRawFd, FromRawFd};
use std::sync::atomic::{AtomicBool, Ordering};
use std::time::{Duration, Instant};

// Once something didn't come, nothing else is waited for as long.
static IMPATIENT: AtomicBool = AtomicBool::new(false);

// Does it hold within ten seconds? `step` is done in between.
pub fn waited(mut step: impl FnMut(), holds: impl Fn() -> bool) -> bool {
    waited_on(&mut (), |_| step(), |_| holds())
}

fn waited_on<T>(on: &mut T, mut step: impl FnMut(&mut T), holds: impl Fn(&T) -> bool) -> bool {
    let patience = if IMPATIENT.load(Ordering::Relaxed) { Duration::from_millis(100) } else { Duration::from_secs(10) };
    let end = Instant::now() + patience;
    while !holds(on) && Instant::now() < end {
        step(on);
    }
    let held = holds(on);
    IMPATIENT.fetch_or(!held, Ordering::Relaxed);
    held
}

extern "C" {
    fn posix_openpt(flags: i32) -> i32;
    fn grantpt(descriptor: i32) -> i32;
    fn unlockpt(descriptor: i32) -> i32;
    fn ptsname(descriptor: i32) -> *const std::ffi::c_char;
    fn ioctl(descriptor: i32, request: u64, ...) -> i32;
}

const O_RDWR: i32 = 2;
const O_NOCTTY: i32 = 0o400;
const O_NONBLOCK: i32 = 0o4000;
const O_CLOEXEC: i32 = 0o2000000;
const TIOCSWINSZ: u64 = 0x5414;

// The second place of a wide letter.
const BEHIND: char = '\0';

// The places of a letter; those of East Asian scripts that the test has take two.
fn width(c: char) -> usize {
    if ('\u{3000}'..='\u{9fff}').contains(&c) { 2 } else { 1 }
}

// What the bytes so far have drawn.
pub struct Screen {
    pub cells: Vec<Vec<char>>,
    row: usize,
    column: usize,
    pub other: bool,   // the other screen is shown
    pub cursor: bool,  // the cursor is shown
    pub wraps: bool,   // letters behind the last column go on in the next row
    pub strange: bool, // a byte that this terminal doesn't know, or a letter in the last column
    pub left: usize,   // how often the other screen was left
    writes: Vec<(usize, usize, char)>,
}

impl Screen {
    fn new(rows: usize, columns: usize) -> Screen {
        Screen { cells: vec![vec![' '; columns]; rows], row: 0, column: 0, other: false, cursor: true, wraps: true, strange: false, left: 0, writes: vec![] }
    }

    fn put(&mut self, row: usize, column: usize, c: char) {
        self.cells[row][column] = c;
        self.writes.push((row, column, c));
    }

    fn erase(&mut self, row: usize, from: usize) {
        (from..self.cells[row].len()).for_each(|column| self.put(row, column, ' '));
    }

    fn sequence(&mut self, words: &str) {
        match words {
            "H" => (self.row, self.column) = (0, 0),
            "K" => self.erase(self.row, self.column),
            "J" => {
                self.erase(self.row, self.column);
                (self.row + 1..self.cells.len()).for_each(|row| self.erase(row, 0));
            }
            "7m" | "m" => {}
            "?1049h" | "?1049l" => {
                self.other = words.ends_with('h');
                self.left += usize::from(!self.other);
            }
            "?25h" | "?25l" => self.cursor = words.ends_with('h'),
            "?7h" | "?7l" => self.wraps = words.ends_with('h'),
            _ => self.strange = true,
        }
    }

    fn letter(&mut self, c: char) {
        match c {
            '\r' => self.column = 0,
            '\n' if self.row + 1 < self.cells.len() => self.row += 1,
            // In the last column, or a line too many.
            _ if c.is_control() || self.column + width(c) >= self.cells[self.row].len() => self.strange = true,
            _ => {
                self.put(self.row, self.column, c);
                (1..width(c)).for_each(|k| self.put(self.row, self.column + k, BEHIND));
                self.column += width(c);
            }
        }
    }

    fn take(&mut self, text: &str) {
        let mut rest = text;
        while let Some(c) = rest.chars().next() {
            match rest.strip_prefix("\x1b[") {
                Some(after) => {
                    let end = after.find(|c: char| c.is_ascii_alphabetic()).map_or(after.len(), |at| at + 1);
                    self.sequence(&after[..end]);
                    rest = &after[end..];
                }
                None => {
                    self.letter(c);
                    rest = &rest[c.len_utf8()..];
                }
            }
        }
    }

    pub fn lines(&self) -> Vec<String> {
        let shown = |row: &Vec<char>| row.iter().filter(|c| **c != BEHIND).collect::<String>();
        let mut lines: Vec<String> = self.cells.iter().map(|row| shown(row).trim_end().to_string()).collect();
        while lines.last().map_or(false, |line| line.is_empty()) {
            lines.pop();
        }
        lines
    }
}

pub struct Terminal {
    near: File,
    pub far: File,
    pub screen: Screen,
    pub bytes: usize, // written so far
    pub text: String, // all of them
}

impl Terminal {
    pub fn new(rows: u16, columns: u16) -> Terminal {
        let descriptor = unsafe { posix_openpt(O_RDWR | O_NOCTTY | O_NONBLOCK | O_CLOEXEC) };
        assert!(descriptor >= 0 && unsafe { grantpt(descriptor) + unlockpt(descriptor) } == 0, "a pseudo-terminal opens");
        let near = unsafe { File::from_raw_fd(descriptor) };
        let name = unsafe { CStr::from_ptr(ptsname(descriptor)) }.to_str().expect("it has a name");
        let far = OpenOptions::new().read(true).write(true).open(name).expect("its other end opens");
        let mut terminal = Terminal { near, far, screen: Screen::new(0, 0), bytes: 0, text: String::new() };
        terminal.resize(rows, columns);
        terminal
    }

    // Another size; what was drawn is gone.
    pub fn resize(&mut self, rows: u16, columns: u16) {
        assert!(unsafe { ioctl(self.near.as_raw_fd(), TIOCSWINSZ, &[rows, columns, 0, 0]) } == 0, "the size is taken");
        let new = Screen::new(rows.into(), columns.into());
        let Screen { other, cursor, wraps, strange, left, .. } = self.screen;
        self.screen = if self.bytes == 0 { new } else { Screen { other, cursor, wraps, strange, left, ..new } };
    }

    // Letters from the keyboard: they come back as an echo on the screen.
    pub fn types(&mut self, letters: &str) {
        let _ = self.near.write_all(letters.as_bytes());
    }

    fn read(&mut self) {
        let mut bytes = [0; 65536];
        match self.near.read(&mut bytes) {
            Ok(count) => {
                self.bytes += count;
                let text = String::from_utf8_lossy(&bytes[..count]).into_owned();
                self.screen.take(&text);
                self.text += &text;
            }
            Err(_) => std::thread::sleep(Duration::from_millis(5)),
        }
    }

    // Do these letters come, wherever they go?
    pub fn gets(&mut self, letters: &str) -> bool {
        waited_on(self, Terminal::read, |terminal| terminal.text.contains(letters))
    }

    // Does the screen come to be as wanted, and did no place flicker on the way?
    pub fn comes_to(&mut self, wanted: impl Fn(&Screen) -> bool) -> bool {
        let old = self.screen.cells.clone();
        self.screen.writes.clear();
        let came = waited_on(self, Terminal::read, |terminal| wanted(&terminal.screen));
        let new = &self.screen.cells;
        let steady = self.screen.writes.iter().all(|&(row, column, c)| c == old[row][column] || c == new[row][column]);
        came && steady && !self.screen.strange
    }

    // Does nothing change on it for a while?
    pub fn stays(&mut self, time: Duration) -> bool {
        let old = self.screen.cells.clone();
        self.screen.writes.clear();
        let end = Instant::now() + time;
        while Instant::now() < end {
            self.read();
        }
        let steady = self.screen.writes.iter().all(|&(row, column, c)| c == old[row][column]);
        steady && !self.screen.strange
    }
}
