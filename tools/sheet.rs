// sheet: judges sheets by name, assembles and disassembles them, and draws their ladders. Output is written only when everything
// succeeded. It links the library's archive, target/staticlib/libverdict.a:
// rustc --edition 2021 -O -L target/staticlib -l static=verdict -o target/tools/sheet tools/sheet.rs

#[path = "sheet/args.rs"]
mod args;
#[path = "sheet/boxes.rs"]
mod boxes;
#[path = "sheet/bytes.rs"]
mod bytes;
#[path = "sheet/card.rs"]
mod card;
#[path = "sheet/dot.rs"]
mod dot;
#[path = "sheet/files.rs"]
mod files;
#[path = "sheet/graph.rs"]
mod graph;
#[path = "sheet/heads.rs"]
mod heads;
#[path = "sheet/judge.rs"]
mod judge;
#[path = "sheet/lack.rs"]
mod lack;
#[path = "sheet/layout.rs"]
mod layout;
#[path = "sheet/model.rs"]
mod model;
#[path = "sheet/notes.rs"]
mod notes;
#[path = "sheet/output.rs"]
mod output;
#[path = "sheet/print.rs"]
mod print;
#[path = "sheet/rows.rs"]
mod rows;
#[path = "sheet/rules.rs"]
mod rules;
#[path = "sheet/screen.rs"]
mod screen;
#[path = "sheet/short.rs"]
mod short;
#[path = "sheet/svg.rs"]
mod svg;
#[path = "sheet/text.rs"]
mod text;
#[path = "sheet/verdict.rs"]
mod verdict;
#[path = "sheet/watch.rs"]
mod watch;
#[path = "sheet/words.rs"]
mod words;

use args::{Command, File};
use rules::Rules;
use std::io::Write;
use std::process::ExitCode;

const DONE: u8 = 0;
const BAD_INPUT: u8 = 1;
const WRONG_USAGE: u8 = 2;
const REACHED: u8 = 3;

// A place in a file and what is said of it, as one line.
fn at(file: &File, fault: &words::Fault) -> String {
    format!("{}:{}:{}: {}", files::name(file), fault.place.line, fault.place.column, fault.message)
}

// One line on standard error. A standard error that can't be written changes nothing.
fn tell(line: &str) {
    let _ = writeln!(std::io::stderr(), "{line}");
}

fn from_text(file: &File, bytes: &[u8]) -> Result<model::Sheet, String> {
    let text = text::parse(bytes).map_err(|fault| at(file, &fault))?;
    text.notes.iter().for_each(|note| tell(&at(file, note)));
    Ok(text.sheet)
}

fn from_bytes(file: &File, bytes: &[u8]) -> Result<model::Sheet, String> {
    bytes::decode(bytes).map_err(|number| format!("{}: {}", files::name(file), judge::refused(number)))
}

// The sheet of a file that has text or sheet bytes.
fn from_either(file: &File, bytes: &[u8]) -> Result<model::Sheet, String> {
    if bytes.starts_with(bytes::LETTERS) { from_bytes(file, bytes) } else { from_text(file, bytes) }
}

fn judged(file: &File, cut: Option<u32>, rules: Rules) -> Result<judge::Judged, String> {
    let read = files::read(file)?;
    let said = |message| format!("{}: {message}", files::name(file));
    if read.starts_with(bytes::LETTERS) {
        // The library refuses before the tool does.
        verdict::verdict(&read, 0, rules).map_err(|number| said(judge::refused(number)))?;
        return judge::judge(&read, &from_bytes(file, &read)?, cut, rules).map_err(said);
    }
    let sheet = from_text(file, &read)?;
    judge::judge(&bytes::encode(&sheet), &sheet, cut, rules).map_err(said)
}

fn drawn(sheet_file: &File, card_file: Option<&File>, rules: Rules, needed: bool, as_dot: bool) -> Result<String, String> {
    let sheet = from_either(sheet_file, &files::read(sheet_file)?)?;
    let heads = heads::Heads::of(&sheet);
    let card = match card_file {
        Some(file) => card::parse(&files::read(file)?, &sheet, &heads).map_err(|fault| at(file, &fault))?,
        None => {
            let list = verdict::verdicts(&bytes::encode(&sheet), sheet.heard.len(), rules);
            let list = list.map_err(|number| format!("{}: {}", files::name(sheet_file), judge::refused(number)))?;
            verdict::card(&list, rules, heads.head[sheet.goal])
        }
    };
    let mut graph = graph::graph(&sheet, &heads, &card);
    if rules != Rules::EVERY {
        let limit = format!(", without {}", notes::listed(&rules.lacking()));
        graph.title += &limit;
        graph.heading += &limit;
    }
    let graph = if needed { graph::needed(graph) } else { graph };
    Ok(if as_dot { dot::dot(&graph) } else { svg::svg(&graph) })
}

fn run(command: Command) -> Result<u8, String> {
    let done = |()| DONE;
    match command {
        Command::Say(text) => files::write(&File::Standard, text.as_bytes()).map(done),
        Command::Assemble { text, out } => {
            files::apart(&[&text], &out)?;
            files::write(&out, &bytes::encode(&from_text(&text, &files::read(&text)?)?)).map(done)
        }
        Command::Disassemble { sheet, out } => {
            files::apart(&[&sheet], &out)?;
            // One byte more than the longest good sheet is enough to refuse it.
            let bytes = files::read_start(&sheet, bytes::MOST_BYTES as u64 + 1)?;
            files::write(&out, print::print(&from_bytes(&sheet, &bytes)?).as_bytes()).map(done)
        }
        Command::Draw { sheet, card, rules, dot, needed, out } => {
            files::apart(&[&sheet, card.as_ref().unwrap_or(&sheet)], &out)?;
            files::write(&out, drawn(&sheet, card.as_ref(), rules, needed, dot)?.as_bytes()).map(done)
        }
        Command::Judge { sheet, cut, rules, out } => {
            files::apart(&[&sheet], &out)?;
            let judged = judged(&sheet, cut, rules)?;
            files::write(&out, judged.text.as_bytes()).map(|()| if judged.reached { REACHED } else { DONE })
        }
        Command::Watch { sheet, once: true } => {
            let shown = watch::look(&sheet);
            files::write(&File::Standard, shown.text.as_bytes()).map(|()| shown.status)
        }
        Command::Watch { sheet, once: false } => watch::watch(&sheet).map(done),
    }
}

fn main() -> ExitCode {
    let status = match args::parse(std::env::args_os().skip(1)) {
        Err(message) => {
            tell(&format!("sheet: {message} (sheet --help tells more)"));
            WRONG_USAGE
        }
        Ok(command) => run(command).unwrap_or_else(|line| {
            tell(&line);
            BAD_INPUT
        }),
    };
    ExitCode::from(status)
}
