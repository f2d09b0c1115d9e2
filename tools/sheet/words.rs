// Text cut into lines and words, each word with its place; and the errors that name a place.

// A place in a text: line and column, both from 1. The column counts characters.
#[derive(Clone, Copy, Debug, PartialEq)]
pub struct Place {
    pub line: usize,
    pub column: usize,
}

#[derive(Clone, Debug, PartialEq)]
pub struct Fault {
    pub place: Place,
    pub message: String,
}

pub fn fault<T>(place: Place, message: String) -> Result<T, Fault> {
    Err(Fault { place, message })
}

#[derive(Clone, Copy, Debug)]
pub struct Word<'a> {
    pub text: &'a str,
    pub place: Place,
}

// The words of one line, and the place just behind the last of them.
pub struct Line<'a> {
    pub words: Vec<Word<'a>>,
    pub end: Place,
}

// The text of some bytes, or the place of the first byte that isn't UTF-8.
pub fn utf8(bytes: &[u8]) -> Result<&str, Fault> {
    std::str::from_utf8(bytes).or_else(|error| {
        let at = error.valid_up_to();
        let good = String::from_utf8_lossy(&bytes[..at]);
        let byte = bytes.get(at).copied().unwrap_or(0);
        fault(end_of(&good), format!("found the byte 0x{byte:02x}, which isn't UTF-8; expected UTF-8 text"))
    })
}

// The place behind the last character.
pub fn end_of(text: &str) -> Place {
    let last = text.rsplit('\n').next().unwrap_or("");
    Place { line: text.matches('\n').count() + 1, column: last.chars().count() + 1 }
}

// The words of a line without its comment. Spaces and tabs part words.
pub fn line(text: &str, number: usize) -> Line<'_> {
    let text = text.split('#').next().unwrap_or("");
    let mut words = Vec::new();
    let (mut column, mut end) = (1, 1);
    for part in text.split([' ', '\t']) {
        let length = part.chars().count();
        if length > 0 {
            words.push(Word { text: part, place: Place { line: number, column } });
            end = column + length;
        }
        column += length + 1;
    }
    Line { words, end: Place { line: number, column: end } }
}

// A word as a message shows it: quoted, on one line, and not too long.
pub fn quoted(word: &str) -> String {
    let mut shown: String = word.chars().take(40).flat_map(char::escape_debug).collect();
    if word.chars().count() > 40 {
        shown.push_str("...");
    }
    format!("\"{}\"", shown.replace("\\'", "'"))
}

// A word of decimal digits as a number. A number too large for the type is as large as can be.
pub fn decimal(word: &str) -> Option<usize> {
    if word.is_empty() || !word.bytes().all(|b| b.is_ascii_digit()) {
        return None;
    }
    Some(word.parse().unwrap_or(usize::MAX))
}
