// A sheet judged while its text is typed: through the quick call, each time its file changes, and shown on one screen.

use super::args::File;
use super::bytes::{decode, encode, LETTERS};
use super::judge::{refused, told_at};
use super::model::Sheet;
use super::notes::counted;
use super::rules::Rules;
use super::screen::{ended, fitting, width, Screen, NO_TERMINAL};
use super::verdict::{quick, verdict, Verdict, QUICK_BUDGET, QUICK_STOPPED};
use super::words::{Fault, Place};
use super::{at, files, text, BAD_INPUT, DONE, REACHED};
use std::fs::Metadata;
use std::os::unix::fs::MetadataExt;
use std::time::{Duration, SystemTime, UNIX_EPOCH};

// The time between two looks at the file. Its text is judged when two looks in a row found the same, so that a file which is just being written seldom is.
const PAUSE: Duration = Duration::from_millis(40);
// A file that was changed so few seconds ago may have been changed again within the same tick of the system's clock.
const LATELY: i64 = 2;
// The screen is drawn anew after so many looks, in case something else wrote to it.
const REDRAWN_AFTER: u64 = 25;

// The bytes of the file, or why there are none.
type Content = Result<Vec<u8>, String>;

// What a look at the file gives: the text of the screen, and the status with which a single look ends.
pub struct Shown {
    pub text: String,
    pub status: u8,
}

// The verdict at the first cut that is reached, or at the last one; and the cuts at which the quick call was stopped and the full one was asked.
struct Asked {
    cut: usize,
    verdict: Verdict,
    stopped: Vec<usize>,
}

fn ask(bytes: &[u8], heard: usize) -> Result<Asked, u32> {
    let (mut cut, mut stopped) = (0, vec![]);
    loop {
        let verdict = match quick(bytes, cut as u32) {
            Err(QUICK_STOPPED) => {
                stopped.push(cut);
                verdict(bytes, cut as u32, Rules::EVERY)?
            }
            answer => answer?,
        };
        if cut == heard || matches!(verdict, Verdict::Reached(_)) {
            return Ok(Asked { cut, verdict, stopped });
        }
        cut += 1;
    }
}

// That the quick call was stopped. Where it was at the cut that is told, the full call's verdict stands behind this line.
fn stopped_line(asked: &Asked) -> String {
    match asked.stopped.last() {
        None => String::new(),
        Some(last) if *last == asked.cut => {
            format!("stopped: at cut {last} the quick call made its {QUICK_BUDGET} steps, and another follows; the full call says:\n")
        }
        Some(_) => {
            let cuts = counted(asked.stopped.len(), "earlier cut", "earlier cuts");
            format!("stopped: at {cuts} the quick call made its {QUICK_BUDGET} steps; the full call says out of reach there\n")
        }
    }
}

fn judged(bytes: &[u8], sheet: &Sheet) -> Result<Shown, String> {
    let asked = ask(bytes, sheet.heard.len()).map_err(refused)?;
    let text = stopped_line(&asked) + &told_at(bytes, sheet, asked.cut, &asked.verdict, Rules::EVERY, "");
    Ok(Shown { text, status: if matches!(asked.verdict, Verdict::Reached(_)) { REACHED } else { DONE } })
}

// The line of a fault, or as much of it around the place as fits the columns, with a mark under the place.
fn marked(bytes: &[u8], place: Place, columns: usize) -> String {
    let text = String::from_utf8_lossy(bytes);
    let line = text.lines().nth(place.line - 1).unwrap_or("");
    let number = place.line.to_string();
    let (room, at) = (columns.max(24) - number.len() - 3, place.column - 1);
    let (from, lead) = if at < room / 2 { (0, "") } else { (at - room / 4, "... ") };
    let part: String = line.chars().skip(from).take(room).map(|c| if files::shows(c) { c } else { ' ' }).collect();
    let part = fitting(&part, room - lead.len());
    let before: usize = part.chars().take(at - from).map(width).sum();
    format!("{number} | {lead}{part}\n{} | {}^\n", " ".repeat(number.len()), " ".repeat(lead.len() + before))
}

fn bad(text: String) -> Shown {
    Shown { text, status: BAD_INPUT }
}

fn of_text(file: &File, bytes: &[u8], columns: usize) -> Shown {
    let told = |fault: &Fault| at(file, fault) + "\n";
    match text::parse(bytes) {
        Err(fault) => bad(told(&fault) + &marked(bytes, fault.place, columns)),
        Ok(text) => {
            let notes: String = text.notes.iter().map(told).collect();
            let shown = judged(&encode(&text.sheet), &text.sheet);
            shown.map_or_else(|message| bad(format!("{}: {message}\n", files::name(file))), |shown| Shown { text: shown.text + &notes, ..shown })
        }
    }
}

fn of_bytes(file: &File, bytes: &[u8]) -> Shown {
    let shown = decode(bytes).map_err(refused).and_then(|sheet| judged(bytes, &sheet));
    shown.unwrap_or_else(|message| bad(format!("{}: {message}\n", files::name(file))))
}

// The file's text, or its sheet's bytes, judged, for lines of so many columns.
fn shown(file: &File, read: &Content, columns: usize) -> Shown {
    match read {
        Err(message) => bad(format!("{message}\n")),
        Ok(bytes) if bytes.starts_with(LETTERS) => of_bytes(file, bytes),
        Ok(bytes) => of_text(file, bytes, columns),
    }
}

// One look at the file.
pub fn look(file: &File) -> Shown {
    shown(file, &files::read(file), NO_TERMINAL)
}

fn found(file: &File) -> Option<Metadata> {
    let File::Named(name) = file else { return None };
    std::fs::metadata(name).ok()
}

// The file's content. A pipe isn't read: it may have no writer, and would then be waited for through every interrupt.
fn content(file: &File) -> Content {
    if found(file).map_or(false, |found| !found.is_file()) {
        return Err(format!("{}: can't be watched, expected a regular file", files::name(file)));
    }
    files::read(file)
}

// By what a change of the file is noticed without reading it; nothing where it may go unnoticed.
fn stamp(file: &File) -> Option<[i64; 5]> {
    let found = found(file)?;
    let now = SystemTime::now().duration_since(UNIX_EPOCH).map_or(0, |time| time.as_secs() as i64);
    let settled = now - found.ctime() > LATELY;
    settled.then(|| [found.dev() as i64, found.ino() as i64, found.len() as i64, found.ctime(), found.ctime_nsec()])
}

// What the looks at a file have found: its stamp, what was read last, and what is judged.
#[derive(Default)]
struct Looked {
    stamp: Option<[i64; 5]>,
    read: Option<Content>,
    judged: Option<Content>,
}

impl Looked {
    // One look more. Is there something new to judge?
    fn look(&mut self, file: &File) -> bool {
        let stamp = stamp(file);
        if stamp.is_some() && stamp == self.stamp {
            return false;
        }
        let read = Some(content(file));
        let new = read == self.read && read != self.judged;
        if new {
            self.judged = read.clone();
        }
        // What isn't judged yet is read again.
        self.stamp = stamp.filter(|_| read == self.judged);
        self.read = read;
        new
    }
}

// Shows the file until an interrupt.
pub fn watch(file: &File) -> Result<(), String> {
    let mut screen = Screen::open(&format!("sheet watch {}", files::name(file)))?;
    let (mut looked, mut looks) = (Looked::default(), 0);
    let (mut columns, mut text) = (0, String::new());
    while !ended() {
        looks += 1;
        let new = looked.look(file);
        if let Some(content) = &looked.judged {
            if new || columns != screen.columns() {
                columns = screen.columns();
                text = shown(file, content, columns).text;
            }
            if new {
                screen.show(&text)?;
            } else if screen.changed() || looks % REDRAWN_AFTER == 0 {
                screen.redraw(&text)?;
            }
        }
        std::thread::sleep(PAUSE);
    }
    screen.close()
}
