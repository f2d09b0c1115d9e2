// Reading inputs whole and writing outputs whole, by name. A fault is one line for the user.

use super::args::File;
use super::output;
use std::io::Read;

const MOST: u64 = 64 << 20;

// Can this character be shown as it is? Others may take no place, turn a line round, or do something to a terminal.
pub fn shows(c: char) -> bool {
    matches!(c, '\'' | '"' | '\\') || c.escape_debug().len() == 1
}

// A file's name on one line.
pub fn name(file: &File) -> String {
    match file {
        File::Standard => "<stdin>".to_string(),
        File::Named(name) => name.to_string_lossy().chars().map(|c| if shows(c) { c } else { '?' }).collect(),
    }
}

// The file's first bytes, at most so many.
pub fn read_start(file: &File, most: u64) -> Result<Vec<u8>, String> {
    let mut bytes = Vec::new();
    let read = match file {
        File::Standard => std::io::stdin().lock().take(most).read_to_end(&mut bytes),
        File::Named(path) => std::fs::File::open(path).and_then(|opened| opened.take(most).read_to_end(&mut bytes)),
    };
    match read {
        Err(error) => Err(format!("{}: can't be read: {error}", name(file))),
        Ok(_) => Ok(bytes),
    }
}

pub fn read(file: &File) -> Result<Vec<u8>, String> {
    let bytes = read_start(file, MOST + 1)?;
    if bytes.len() as u64 > MOST {
        return Err(format!("{}: found more than {MOST} bytes, expected a sheet or a card", name(file)));
    }
    Ok(bytes)
}

// The output isn't one of the files that are read.
pub fn apart(inputs: &[&File], out: &File) -> Result<(), String> {
    for input in inputs {
        let path = |file: &File, standard: &str| match file {
            File::Standard => std::ffi::OsString::from(standard),
            File::Named(name) => name.clone(),
        };
        if output::same_file(&path(input, "/dev/stdin"), &path(out, "/dev/stdout")) {
            return Err(format!("{}: is read and can't be written too, expected another file for the output", name(input)));
        }
    }
    Ok(())
}

pub fn write(file: &File, bytes: &[u8]) -> Result<(), String> {
    match file {
        File::Standard => output::print(bytes).map_err(|error| format!("<stdout>: can't be written: {error}")),
        File::Named(path) => output::replace(path.as_ref(), bytes).map_err(|error| format!("{}: can't be written: {error}", name(file))),
    }
}
