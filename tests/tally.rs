// Counts checks, says which of them fail, and tells the sum.

#[derive(Default)]
pub struct Tally {
    passed: usize,
    failed: usize,
}

impl Tally {
    pub fn check(&mut self, what: &str, holds: bool) {
        if holds {
            self.passed += 1;
        } else {
            self.failed += 1;
            println!("failed: {what}");
        }
    }

    // The last line, and status 1 where a check failed.
    pub fn end(self, name: &str) {
        println!("{name}: {} passed, {} failed", self.passed, self.failed);
        if self.failed > 0 {
            std::process::exit(1);
        }
    }
}
