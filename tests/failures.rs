// What fails in a test of the library: it is counted, and the first nine are said. With the word `first` on the command line the test ends at the first,
// for libraries that are wrong on purpose.

pub struct Failures {
    pub count: u64,
    first_only: bool,
}

impl Default for Failures {
    fn default() -> Failures {
        Failures { count: 0, first_only: std::env::args().nth(1).as_deref() == Some("first") }
    }
}

impl Failures {
    pub fn add(&mut self, what: &str) {
        self.count += 1;
        if self.count < 10 {
            println!("{what}");
        }
        if self.first_only {
            std::process::exit(1);
        }
    }
}
