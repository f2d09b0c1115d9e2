// Output that leaves an old file whole when it can't be written: a new file is written beside it and then takes its name.
// Pipes, terminals and device files are written to directly.

use std::fs::{File, OpenOptions};
use std::io::{Error, ErrorKind, Result, Write};
use std::mem::ManuallyDrop;
use std::os::fd::FromRawFd;
use std::os::unix::fs::MetadataExt;
use std::path::{Path, PathBuf};
use std::sync::atomic::{AtomicBool, Ordering};

const MOST_LINKS: usize = 40;

// The C library's calls that the standard library has no name for.
extern "C" {
    fn fcntl(descriptor: i32, command: i32, ...) -> i32;
    fn signal(number: i32, handler: usize) -> usize;
}

const F_GETFD: i32 = 1;
const SIGXFSZ: i32 = 25;
const SIG_IGN: usize = 1;

static CLOSED: AtomicBool = AtomicBool::new(false);

// Runs before Rust's own start, which puts /dev/null in the place of a closed standard output.
extern "C" fn look_at_standard_output() {
    if unsafe { fcntl(1, F_GETFD) } == -1 {
        CLOSED.store(true, Ordering::Relaxed);
    }
}

#[used]
#[link_section = ".init_array"]
static BEFORE_MAIN: extern "C" fn() = look_at_standard_output;

// A write over the file size limit fails, where the signal would end the program halfway.
fn outlive_the_size_limit() {
    unsafe { signal(SIGXFSZ, SIG_IGN) };
}

// Both are there and are one regular file, by whatever name.
pub fn same_file(one: impl AsRef<Path>, other: impl AsRef<Path>) -> bool {
    match (one.as_ref().metadata(), other.as_ref().metadata()) {
        (Ok(a), Ok(b)) => a.is_file() && a.dev() == b.dev() && a.ino() == b.ino(),
        _ => false,
    }
}

pub fn print(bytes: &[u8]) -> Result<()> {
    if CLOSED.load(Ordering::Relaxed) {
        return Err(Error::new(ErrorKind::BrokenPipe, "it is closed"));
    }
    outlive_the_size_limit();
    // Standard output itself, which stays open: the library's own would make two writes of lines and a rest.
    ManuallyDrop::new(unsafe { File::from_raw_fd(1) }).write_all(bytes)
}

// The path behind symbolic links, if a new file can take its place: a regular file, or nothing yet. A link of the system's own,
// such as /dev/stdout, is followed by the system alone.
fn replaceable(path: &Path) -> Option<PathBuf> {
    let mut path = path.to_path_buf();
    for _ in 0..MOST_LINKS {
        match path.symlink_metadata() {
            Err(error) => return (error.kind() == ErrorKind::NotFound).then_some(path),
            Ok(found) if found.is_file() => return Some(path),
            Ok(found) if !found.file_type().is_symlink() || path.starts_with("/dev") || path.starts_with("/proc") => return None,
            Ok(_) => {
                let target = path.read_link().ok()?;
                path = path.parent().unwrap_or_else(|| Path::new("")).join(target);
            }
        }
    }
    None
}

// A new file in the same directory, with the old one's permissions.
fn beside(path: &Path) -> Result<(PathBuf, File)> {
    let name = path.file_name().ok_or_else(|| Error::new(ErrorKind::InvalidInput, "it has no file name"))?;
    let mut own = std::ffi::OsString::from(".");
    own.push(name);
    own.push(format!(".{}.new", std::process::id()));
    let new = path.with_file_name(own);
    let file = OpenOptions::new().write(true).create_new(true).open(&new)?;
    Ok((new, file))
}

fn fill(path: &Path, new: &Path, mut file: File, bytes: &[u8]) -> Result<()> {
    if let Ok(old) = path.metadata() {
        file.set_permissions(old.permissions())?;
    }
    file.write_all(bytes)?;
    file.sync_all()?;
    std::fs::rename(new, path)
}

// Writes the whole file, or leaves what was there.
pub fn replace(path: &Path, bytes: &[u8]) -> Result<()> {
    outlive_the_size_limit();
    let path = match replaceable(path) {
        None => return OpenOptions::new().write(true).create(true).truncate(true).open(path)?.write_all(bytes),
        Some(path) => path,
    };
    if path.exists() {
        // Whoever may not write the old file may not replace it either.
        OpenOptions::new().write(true).open(&path)?;
    }
    let (new, file) = beside(&path)?;
    fill(&path, &new, file, bytes).map_err(|error| {
        let _ = std::fs::remove_file(&new);
        error
    })
}
