// The tool's outputs and its notes: an old file survives a write that fails, links, pipes and devices keep working, an output that is
// the input is refused; atoms with one number are noted, and atoms without a number get one of their own.
// The tool's path is the first argument.

#[path = "../tools/sheet/bytes.rs"]
#[allow(dead_code)] // a part is used
mod bytes;
#[path = "../tools/sheet/model.rs"]
#[allow(dead_code)]
mod model;
mod tally;

use model::Entry;
use std::fs;
use std::os::unix::fs::{symlink, PermissionsExt};
use std::path::{Path, PathBuf};
use std::process::{Command, Stdio};
use tally::Tally;

struct Checks {
    tool: PathBuf,
    dir: PathBuf,
    tally: Tally,
}

struct Run {
    status: i32,
    out: Vec<u8>,
    err: String,
}

impl Checks {
    fn check(&mut self, what: &str, holds: bool) {
        self.tally.check(what, holds);
    }

    // Runs a line of the shell in the test's folder; $sheet is the tool.
    fn shell(&self, line: &str) -> Run {
        let mut command = Command::new("bash");
        command.args(["-c", line]).env("sheet", &self.tool).current_dir(&self.dir).stdin(Stdio::null());
        let done = command.output().expect("bash starts");
        Run { status: done.status.code().unwrap_or(-1), out: done.stdout, err: String::from_utf8_lossy(&done.stderr).into_owned() }
    }

    fn file(&self, name: &str, content: &[u8]) {
        fs::write(self.dir.join(name), content).expect("the test's folder can be written");
    }

    fn content(&self, name: &str) -> Vec<u8> {
        fs::read(self.dir.join(name)).unwrap_or_default()
    }

    // A line of the shell that fails with status 1, one line on standard error with this part, and no output.
    fn fails(&mut self, line: &str, part: &str) {
        let run = self.shell(line);
        let holds = run.status == 1 && run.out.is_empty() && run.err.matches('\n').count() == 1 && run.err.contains(part);
        self.check(&format!("{line}: status {}, {}", run.status, run.err), holds);
    }

    // The names in the test's folder.
    fn names(&self) -> Vec<String> {
        let list = fs::read_dir(&self.dir).into_iter().flatten().flatten();
        let mut names: Vec<String> = list.map(|file| file.file_name().to_string_lossy().into_owned()).collect();
        names.sort();
        names
    }
}

const TEXT: &str = "key atom 1007\nmask atom 1009\nmasked sum key mask\nheard masked mask\ngoal key\n";

// What TEXT assembles to.
fn assembled() -> Vec<u8> {
    let entries = vec![Entry::atom(1007), Entry::atom(1009), Entry::Sum(vec![0, 1])];
    bytes::encode(&model::Sheet { names: vec![None; 3], entries, heard: vec![2, 1], goal: 0 })
}

// A write over the size limit, or to a full device, fails and leaves everything as it was.
fn failed_writes(c: &mut Checks) {
    c.file("old", b"old bytes");
    let before = c.names();
    for command in ["assemble a.sheet", "draw a.sheet", "judge a.sheet"] {
        c.fails(&format!("ulimit -f 0; \"$sheet\" {command} -o old"), "old: can't be written");
        c.fails(&format!("ulimit -f 0; \"$sheet\" {command} -o new"), "new: can't be written");
        c.fails(&format!("\"$sheet\" {command} -o /dev/full"), "/dev/full: can't be written");
        c.fails(&format!("\"$sheet\" {command} >/dev/full"), "<stdout>: can't be written");
        c.fails(&format!("\"$sheet\" {command} >&-"), "<stdout>: can't be written: it is closed");
        c.fails(&format!("\"$sheet\" {command} -o ."), ".: can't be written");
    }
    c.fails("\"$sheet\" --version >&-", "<stdout>: can't be written");
    c.fails("\"$sheet\" --help >/dev/full", "<stdout>: can't be written");
    c.check("the old file is whole", c.content("old") == b"old bytes");
    c.check(&format!("nothing is left behind: {:?}", c.names()), c.names() == before);
    let run = c.shell("\"$sheet\" assemble a.sheet -o made >&-");
    c.check("a closed standard output that isn't used", run.status == 0 && c.content("made") == assembled());
    let run = c.shell("\"$sheet\" assemble a.sheet >/dev/null && \"$sheet\" assemble a.sheet 1<>/dev/null");
    c.check("/dev/null is no closed output", run.status == 0);
}

fn good_writes(c: &mut Checks) {
    let lines = [
        ("an old file", "echo old >out; \"$sheet\" assemble a.sheet -o out && cat out"),
        ("a new file", "rm -f out; \"$sheet\" assemble a.sheet -o out && cat out"),
        ("a file elsewhere", "mkdir -p in; \"$sheet\" assemble a.sheet -o in/out && cat in/out"),
        ("a pipe by name", "mkfifo pipe; exec 9<>pipe; \"$sheet\" assemble a.sheet -o pipe; s=$?; dd if=pipe iflag=nonblock bs=65536 2>/dev/null; exit $s"),
        ("/dev/stdout", "\"$sheet\" assemble a.sheet -o /dev/stdout | cat"),
        ("/dev/stdout that is a file keeps that file", ": >out; ln out twin; \"$sheet\" assemble a.sheet -o /dev/stdout >out && cat twin"),
        ("a descriptor", "\"$sheet\" assemble a.sheet -o /dev/fd/3 3>out && cat out"),
        ("a process", "\"$sheet\" assemble a.sheet -o >(cat)"),
        ("standard output", "\"$sheet\" assemble a.sheet -o -"),
    ];
    for (what, line) in lines {
        let run = c.shell(line);
        c.check(&format!("{what}: status {}, {}", run.status, run.err), run.status == 0 && run.out == assembled());
    }
    let run = c.shell("\"$sheet\" assemble a.sheet -o /dev/null");
    c.check("/dev/null", run.status == 0 && !fs::metadata("/dev/null").map_or(true, |null| null.is_file()));
}

// A link stays a link, and the file behind it is replaced. Permissions stay.
fn links(c: &mut Checks) {
    c.file("behind", b"old");
    let _ = fs::set_permissions(c.dir.join("behind"), fs::Permissions::from_mode(0o640));
    let made = symlink("behind", c.dir.join("link")).is_ok() && symlink("not-yet", c.dir.join("loose")).is_ok();
    let run = c.shell("\"$sheet\" assemble a.sheet -o link && \"$sheet\" assemble a.sheet -o loose");
    let is_link = |name: &str| fs::symlink_metadata(c.dir.join(name)).map_or(false, |found| found.file_type().is_symlink());
    let holds = run.status == 0 && is_link("link") && is_link("loose") && c.content("behind") == assembled() && c.content("not-yet") == assembled();
    c.check("links stay links", made && holds);
    let mode = fs::metadata(c.dir.join("behind")).map_or(0, |found| found.permissions().mode() & 0o777);
    c.check("permissions stay", mode == 0o640);
}

// The input is never the output, by whatever name.
fn inputs(c: &mut Checks) {
    c.file("a.bytes", &assembled());
    c.file("a.card", b"goal 0 heard 2\ncut 0 out of reach known 0\ncut 1 out of reach known 1\ncut 2 reached rungs 1\nrung 0 sum 1 2\n");
    let _ = fs::hard_link(c.dir.join("a.sheet"), c.dir.join("twin"));
    let _ = symlink("a.sheet", c.dir.join("alias"));
    let lines = [
        "assemble a.sheet -o a.sheet",
        "assemble a.sheet -o ./a.sheet",
        "assemble a.sheet -o twin",
        "assemble alias -o a.sheet",
        "assemble -o a.sheet <a.sheet",
        "assemble a.sheet >>a.sheet",
        "disassemble a.bytes -o a.bytes",
        "judge a.sheet -o alias",
        "draw a.sheet -o a.sheet",
        "draw a.sheet a.card -o a.sheet",
        "draw a.sheet a.card -o a.card",
    ];
    for line in lines {
        c.fails(&format!("\"$sheet\" {line}"), "is read and can't be written too");
    }
    c.check("the inputs are whole", c.content("a.sheet") == TEXT.as_bytes() && c.content("a.bytes") == assembled() && c.content("a.card").len() > 50);
}

fn atoms_of(run: &Run) -> Vec<u32> {
    let sheet = bytes::decode(&run.out).ok();
    sheet.map_or(vec![], |sheet| sheet.entries.iter().filter_map(Entry::number).collect())
}

// Two names for one atom are noted on standard error, and the sheet is made all the same.
fn notes(c: &mut Checks) {
    c.file("twice", b"k1 atom 1007\nm atom 1008\n\n  k2 atom 1007\nk3 atom 001007\ngoal m\n");
    let note = |file: &str, place: &str, name: &str| format!("{file}:{place}: note: \"{name}\" and \"k1\" (line 1) are one term, since both are atom 1007");
    for command in ["assemble", "judge", "draw"] {
        let run = c.shell(&format!("\"$sheet\" {command} twice"));
        let lines: Vec<&str> = run.err.lines().collect();
        let both = lines.len() == 2 && lines[0].starts_with(&note("twice", "4:3", "k2")) && lines[1].starts_with(&note("twice", "5:1", "k3"));
        c.check(&format!("{command} notes both names: {}", run.err), both && run.status == 0 && !run.out.is_empty());
    }
    c.check("the atoms are as written", atoms_of(&c.shell("\"$sheet\" assemble twice")) == [1007, 1008, 1007, 1007]);
    c.file("once", b"a atom 1007\n1 atom 1007\nb atom 1008\n3 atom 1008\n4 atom 1007\ngoal a\n");
    let run = c.shell("\"$sheet\" assemble once");
    c.check(&format!("an entry without a name isn't noted: {}", run.err), run.err.is_empty() && run.status == 0);
    c.file("late", b"0 atom 1007\na atom 1007\nb atom 1007\ngoal a\n");
    let run = c.shell("\"$sheet\" assemble late");
    c.check(&format!("names after a number: {}", run.err), run.err.starts_with("late:3:1: note: \"b\" and \"a\" (line 2) are one term"));
    c.file("bad", b"k1 atom 1007\nk2 atom 1007\ngoal q\n");
    c.fails("\"$sheet\" assemble bad", "bad:3:6: ");
}

// Atoms without a number get the least ones from 1,000 on that stand nowhere in the text.
fn own_numbers(c: &mut Checks) {
    let cases = [
        ("a atom\nb atom\ngoal a\n", vec![1000, 1001]),
        ("a atom\nb atom 1000\nc atom\nd atom 1002\ngoal a\n", vec![1001, 1000, 1003, 1002]),
        ("0 atom # no number\nx atom 5\n2 atom\ngoal x\n", vec![1000, 5, 1001]),
        ("0 atom\nx atom 0\ny atom 255\nz atom 256\n4 atom\ngoal x\n", vec![1000, 0, 255, 256, 1001]),
        // The number in a long record is taken too; 66,536 is 65,536 + 1,000 and takes none.
        ("a atom\nb atom 1000 long\nc atom\nd atom 66536\ngoal a\n", vec![1001, 1000, 1002, 66536]),
        ("a atom 66536\nb atom 4294967295\nc atom\ngoal a\n", vec![66536, 4294967295, 1000]),
    ];
    for (text, wanted) in cases {
        c.file("own", text.as_bytes());
        let run = c.shell("\"$sheet\" assemble own");
        c.check(&format!("{text:?}: {:?} {}", atoms_of(&run), run.err), run.status == 0 && run.err.is_empty() && atoms_of(&run) == wanted);
    }
    let all: String = (0..255).map(|i| format!("n{i} atom\n")).collect();
    c.file("own", format!("{all}last atom 1100\ngoal last\n").as_bytes());
    let mut atoms = atoms_of(&c.shell("\"$sheet\" assemble own"));
    let least = atoms.iter().min().copied();
    atoms.sort_unstable();
    atoms.dedup();
    c.check("256 atoms, all different", atoms.len() == 256 && least == Some(1000));
}

fn main() {
    let tool = std::env::args_os().nth(1).map(PathBuf::from).and_then(|path| path.canonicalize().ok()).expect("the tool's path");
    let dir = std::env::temp_dir().join(format!("sheet-files-test-{}", std::process::id()));
    let tests: [fn(&mut Checks); 6] = [failed_writes, good_writes, links, inputs, notes, own_numbers];
    let mut c = Checks { tool, dir: dir.clone(), tally: Tally::default() };
    for test in tests {
        let _ = fs::remove_dir_all(Path::new(&dir));
        fs::create_dir_all(&dir).expect("a folder for the test");
        c.file("a.sheet", TEXT.as_bytes());
        test(&mut c);
    }
    let _ = fs::remove_dir_all(&dir);
    c.tally.end("files");
}
