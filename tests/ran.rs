// A run of the tool in a folder: its words, its input, and what it gave. Shared by the tests of the tool.

use std::io::Write;
use std::path::Path;
use std::process::{Command, Stdio};

#[derive(PartialEq)]
pub struct Run {
    pub status: i32,
    pub out: Vec<u8>,
    pub err: String,
}

pub fn run(tool: &Path, dir: &Path, words: &[&str], input: &[u8]) -> Run {
    let mut command = Command::new(tool);
    command.args(words).current_dir(dir).stdin(Stdio::piped()).stdout(Stdio::piped()).stderr(Stdio::piped());
    let mut child = command.spawn().expect("the tool starts");
    // A run that ends before it reads everything breaks the pipe, which is no fault.
    let _ = child.stdin.take().map(|mut stdin| stdin.write_all(input));
    let done = child.wait_with_output().expect("the tool ends");
    Run { status: done.status.code().unwrap_or(-1), out: done.stdout, err: String::from_utf8_lossy(&done.stderr).into_owned() }
}
