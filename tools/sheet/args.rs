// The command line, read. A fault is one line for the user.

use super::rules::Rules;
use std::ffi::OsString;

// A file by name, or standard input or output.
#[derive(Clone, Debug, PartialEq)]
pub enum File {
    Standard,
    Named(OsString),
}

impl File {
    fn of(name: OsString) -> File {
        if name == "-" { File::Standard } else { File::Named(name) }
    }
}

#[derive(Debug, PartialEq)]
pub enum Command {
    // Prints a text and ends.
    Say(&'static str),
    Assemble { text: File, out: File },
    Disassemble { sheet: File, out: File },
    // Without a card the library is asked. A card is of a listener with every rule.
    Draw { sheet: File, card: Option<File>, rules: Rules, dot: bool, needed: bool, out: File },
    // Without a cut: every cut up to the first reached.
    Judge { sheet: File, cut: Option<u32>, rules: Rules, out: File },
    // The sheet is a file with a name.
    Watch { sheet: File, once: bool },
}

// The version of the tool and of the library, as the C header has it.
const VERSION: &str = "sheet 5.2.0\n";

const HELP: &str = "\
sheet - sheets as text, verdicts in names, and pictures of their ladders

usage: sheet judge [SHEET] [--cut C] [--without RULES] [-o FILE]    verdict, and steps or what is missing, by name
       sheet watch SHEET [--once]                         the verdict on one screen, again whenever the file changes
       sheet assemble    [TEXT] [-o FILE]                 text notation to sheet bytes
       sheet disassemble [SHEET] [-o FILE]                sheet bytes to text notation
       sheet draw [--svg | --dot] [--needed] [--without RULES] SHEET [CARD] [-o FILE]    picture of the ladder
       sheet COMMAND --help
       sheet --version

A file name that is missing or - is standard input, but not for watch; without -o, standard output is written. -o replaces a file only
when all of the new one is written, and never the file that is read.
Status: 0 done, 1 bad input or an output that can't be written, 2 wrong usage. Unless done, nothing is written, but watch shows what is
wrong. judge and watch --once end with 0 for out of reach and 3 for reached.
";

const WATCH: &str = "\
usage: sheet watch SHEET [--once]

Shows the verdict on a file while it is edited, on one screen: judged again each time the file changes, until an interrupt. SHEET is text
notation or sheet bytes, in a file. The verdict is that of judge at the first cut that is reached, or of all heard messages, with the steps or
what is missing. Where the text is bad, its fault is shown with its line.
The verdict comes from the library's quick call, which makes at most 64 steps. Where it is stopped, the first line says so, and the full
call's verdict follows. On a sheet of 64 entries or fewer it is never stopped.

    --once    shows it once, as plain text, and ends: with 0 for out of reach, 3 for reached, 1 for a bad text or a refused sheet

Where standard output is no terminal, each new verdict is written below the one before.
Status: 0 after an interrupt, 1 an output that can't be written, 2 wrong usage.
";

const JUDGE: &str = "\
usage: sheet judge [SHEET] [--cut C] [--without RULES] [-o FILE]

Asks the proved library whether a listener gains the goal, and says it in names. SHEET is text notation or sheet bytes.
The first line is the verdict, reached or out of reach. Then the rules that the listener is without and the atoms on the hull label, if
there are any, a line a cut, up to the first reached, and the steps in order:

    LEFT split left PAIR            RIGHT split right PAIR
    MESSAGE open SEAL with KEY      PAIR join LEFT, RIGHT
    SEAL seal MESSAGE under KEY     TERM sum of TERM, TERM      TERM sum of nothing
    MESSAGE unlock LOCK with HALF   LOCK lock MESSAGE under HALF
    NAME is the same term as NAME

Where the goal is out of reach, what the listener lacks stands in place of the steps: one term, or the sum of several; and the known
terms with which it sums to the goal, if there are any:

    missing: TERM                   missing: the sum of TERM, TERM
    GOAL is the sum of what is missing and TERM, TERM

What is missing is told by the lowest-numbered terms that will do. So list pads and masks above the keys that they hide.

    --cut C            only the first C heard messages
    --without RULES    a listener without these rules: one or more of left, right, open, join, seal, sum, unlock and lock, each once, with
                       commas between them and no spaces

Without sum, zero isn't free, no known term is used, and the goal itself is missing: a term, the sum of several that may each be known, or
zero, the sum of nothing. Out of reach for a limited listener says nothing about one who has more rules.

Status: 0 out of reach, 3 reached, 1 bad text, a refused sheet or an output that can't be written, 2 wrong usage.
";

const ASSEMBLE: &str = "\
usage: sheet assemble [TEXT] [-o FILE]

Reads the text notation of a sheet and writes the sheet's bytes. One statement a line, # begins a comment:

    LABEL zero
    LABEL atom NUMBER           0 to 4294967295; 0 to 255 are the names on the hull label, which every listener has
    LABEL atom NUMBER long      the same atom in the long record, which a number over 65535 has anyway
    LABEL atom                  a number of 1000 or more that no other entry has
    LABEL pair LEFT RIGHT
    LABEL seal MESSAGE KEY
    LABEL sum ITEM*             0 to 64 items
    LABEL private NUMBER        the private half of the key pair with this number, 0 to 65535
    LABEL public NUMBER         its public half; a listener has neither half until it is heard or gained
    LABEL lock MESSAGE KEY      the message locked under a half; the opposite half unlocks it
    heard ENTRY*                in the order heard; further heard lines go on
    goal ENTRY                  exactly once

LABEL is the entry's number (0, 1, ...) or a name. Entries are referred to by number or name, below their line.
The key of a lock is an entry whose own line is private or public.
Atoms with one number are one term; so are private halves with one number, and public ones. Where two have names, a note on standard
error names both.
";

const DISASSEMBLE: &str = "\
usage: sheet disassemble [SHEET] [-o FILE]

Reads a sheet's bytes and writes its text notation, with numbers as labels. Comments have terms in short, and say which atoms are on the
hull label. A long record whose number would fit the short one has the word long, so that assemble writes the same bytes.
A sheet that would be refused gives the refusal's number and word.
";

const DRAW: &str = "\
usage: sheet draw [--svg | --dot] [--needed] [--without RULES] SHEET [CARD] [-o FILE]

Draws the ladder: a box for each rung, and for each atom on the hull label and each heard message that is used; lines from a rung's
sources; the goal in gold. Boxes of the hull label have square corners.
Where the goal is out of reach: used terms, missing ones and the goal that they sum to. If the goal itself is missing, or with a CARD,
which says nothing of what is missing: all that was heard, a wall, and the goal.
SHEET is text notation (names become labels) or sheet bytes. CARD is what zuwendryk prints for it; without it the library is
asked. One of them may be -. A long ladder is drawn in rows; a small box stands for a term of an earlier part.

    --svg              SVG (the default)
    --dot              Graphviz text
    --needed           leaves out what the goal doesn't need, and says how much that is
    --without RULES    for a listener without these rules, as for judge; the title names them. Not with a CARD, which has every rule
";

// Options and file names of one command, as they stand on the line.
#[derive(Default)]
struct Words {
    files: Vec<OsString>,
    out: Option<OsString>,
    formats: Vec<bool>,
    needed: bool,
    cut: Option<u32>,
    rules: Option<Rules>,
    once: bool,
    help: bool,
}

fn shown(word: &OsString) -> String {
    word.to_string_lossy().chars().flat_map(char::escape_debug).collect()
}

fn cut_of(word: Option<OsString>) -> Result<u32, String> {
    let word = word.ok_or("--cut is the last word, expected a number after it")?;
    let digits = word.to_str().filter(|text| text.bytes().all(|b| b.is_ascii_digit()));
    digits.and_then(|text| text.parse().ok()).ok_or_else(|| format!("--cut {}: expected a number of heard messages", shown(&word)))
}

fn rules_of(word: Option<OsString>) -> Result<Rules, String> {
    let word = word.ok_or("--without is the last word, expected rules after it")?;
    Rules::without(&word.to_string_lossy()).map_err(|message| format!("--without {}: {message}", shown(&word)))
}

fn sort(words: impl Iterator<Item = OsString>, command: &str) -> Result<Words, String> {
    let mut sorted = Words::default();
    let mut words = words;
    let mut plain = false;
    let (draw, judge, watch) = (command == "draw", command == "judge", command == "watch");
    while let Some(word) = words.next() {
        match word.to_str() {
            _ if plain => sorted.files.push(word),
            Some("--") => plain = true,
            Some("-h" | "--help") => sorted.help = true,
            Some("--svg") if draw => sorted.formats.push(false),
            Some("--dot") if draw => sorted.formats.push(true),
            Some("--needed") if draw => sorted.needed = true,
            Some("--cut") if judge && sorted.cut.is_some() => return Err("--cut is given twice, expected once".to_string()),
            Some("--cut") if judge => sorted.cut = Some(cut_of(words.next())?),
            Some("--without") if (draw || judge) && sorted.rules.is_some() => return Err("--without is given twice, expected once".to_string()),
            Some("--without") if draw || judge => sorted.rules = Some(rules_of(words.next())?),
            Some("--once") if watch => sorted.once = true,
            Some("-o") if !watch && sorted.out.is_some() => return Err("-o is given twice, expected once".to_string()),
            Some("-o") if !watch => sorted.out = Some(words.next().ok_or("-o is the last word, expected a file name after it")?),
            Some("-") => sorted.files.push(word),
            Some(option) if option.starts_with('-') => return Err(format!("unknown option {}", shown(&word))),
            _ => sorted.files.push(word),
        }
    }
    Ok(sorted)
}

// At most one file name.
fn one(command: &str, files: Vec<OsString>) -> Result<File, String> {
    if let Some(extra) = files.get(1) {
        return Err(format!("{command} takes at most one file name, found also {}", shown(extra)));
    }
    Ok(files.into_iter().next().map_or(File::Standard, File::of))
}

// The one file that is watched.
fn watched(words: Words) -> Result<Command, String> {
    match &words.files[..] {
        [name] if name != "-" => Ok(Command::Watch { sheet: File::Named(name.clone()), once: words.once }),
        [_] => Err("watch takes a file by its name, and not standard input".to_string()),
        files => Err(format!("watch takes one file name, found {}", files.len())),
    }
}

fn draw(words: Words, out: File) -> Result<Command, String> {
    if words.formats.len() > 1 {
        return Err("found two formats, expected one of --svg and --dot".to_string());
    }
    let dot = words.formats.first().copied().unwrap_or(false);
    let count = words.files.len();
    let mut files = words.files.into_iter().map(File::of);
    let (sheet, card) = match (count, files.next(), files.next()) {
        (1 | 2, Some(sheet), card) => (sheet, card),
        _ => return Err(format!("draw takes one or two file names, SHEET and CARD; found {count}")),
    };
    if sheet == File::Standard && card == Some(File::Standard) {
        return Err("SHEET and CARD can't both be standard input".to_string());
    }
    if card.is_some() && words.rules.is_some() {
        return Err("found --without and CARD, expected one of them: a card is of a listener with every rule".to_string());
    }
    Ok(Command::Draw { sheet, card, rules: words.rules.unwrap_or(Rules::EVERY), dot, needed: words.needed, out })
}

// The command of a line without the program's own name.
pub fn parse(mut line: impl Iterator<Item = OsString>) -> Result<Command, String> {
    let first = line.next().ok_or("no command, expected judge, watch, assemble, disassemble or draw")?;
    let (name, help) = match first.to_str() {
        Some("-h" | "--help") => return Ok(Command::Say(HELP)),
        Some("--version") => return Ok(Command::Say(VERSION)),
        Some("judge") => ("judge", JUDGE),
        Some("assemble") => ("assemble", ASSEMBLE),
        Some("disassemble") => ("disassemble", DISASSEMBLE),
        Some("draw") => ("draw", DRAW),
        Some("watch") => ("watch", WATCH),
        _ => return Err(format!("unknown command {}, expected judge, watch, assemble, disassemble or draw", shown(&first))),
    };
    let mut words = sort(line, name)?;
    if words.help {
        return Ok(Command::Say(help));
    }
    let out = words.out.take().map_or(File::Standard, File::of);
    match name {
        "judge" => Ok(Command::Judge { cut: words.cut, rules: words.rules.unwrap_or(Rules::EVERY), sheet: one(name, words.files)?, out }),
        "assemble" => Ok(Command::Assemble { text: one(name, words.files)?, out }),
        "watch" => watched(words),
        "disassemble" => Ok(Command::Disassemble { sheet: one(name, words.files)?, out }),
        _ => draw(words, out),
    }
}
