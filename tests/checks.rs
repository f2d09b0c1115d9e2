// The checks of a test of the tool: runs of it in a folder, counted. Shared by tests that add checks of their own.

use super::ran::{self, Run};
use super::tally::Tally;
use std::path::PathBuf;

pub struct Checks {
    pub tool: PathBuf,
    pub dir: PathBuf,
    pub tally: Tally,
}

impl Run {
    pub fn text(&self) -> String {
        String::from_utf8_lossy(&self.out).into_owned()
    }
}

impl Checks {
    pub fn check(&mut self, what: &str, holds: bool) {
        self.tally.check(what, holds);
    }

    pub fn run(&self, words: &[&str], input: &[u8]) -> Run {
        ran::run(&self.tool, &self.dir, words, input)
    }

    // The text assembles to these bytes without a word, or with this note.
    pub fn assembles(&mut self, text: &str, bytes: &[u8], note: &str) {
        let run = self.run(&["assemble"], text.as_bytes());
        self.check(&format!("{text:?}: {:02x?} {}", run.out, run.err), run.status == 0 && run.out == bytes && run.err == note);
    }
}
