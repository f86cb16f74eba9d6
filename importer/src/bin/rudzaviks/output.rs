//! What the tool writes.

use std::fs::{self, Metadata, OpenOptions};
use std::io::{self, ErrorKind, IsTerminal, Write};
use std::os::unix::fs::{chown, MetadataExt};
use std::path::{Path, PathBuf};
use std::process;
use std::sync::atomic::{AtomicUsize, Ordering};

use crate::failure::Failure;
use crate::{files, input};

/// Writes to standard output. A reader that has had enough ends the run, and is no failure.
pub fn send(bytes: &[u8]) -> Result<(), Failure> {
    let mut out = io::stdout().lock();
    let written = out.write_all(bytes).and_then(|()| out.flush());
    written.map_err(|error| match error.kind() {
        ErrorKind::BrokenPipe => Failure::silent(),
        _ => cannot_write("standard output", error),
    })
}

/// Writes a file of words to standard output, which must not be a screen.
pub fn send_words(file: &[u8]) -> Result<(), Failure> {
    if io::stdout().is_terminal() {
        let what = "a file of words is not for a screen: name it with -o OUT";
        return Err(Failure::wrong(format!("rudzaviks: {what}")));
    }
    send(file)
}

/// Writes to standard error, where nothing can be told of a failure.
pub fn tell(text: &str) {
    let _ = io::stderr().lock().write_all(text.as_bytes());
}

/// Writes a file, whole or not at all: what was there stays if it can't be written.
pub fn write(bytes: &[u8], path: &Path) -> Result<(), Failure> {
    let there = fs::metadata(path).ok();
    if there.as_ref().is_some_and(|there| files::identity(there) == files::of(io::stdout())) {
        // (such as /dev/stdout, of which other output is a part)
        return send(bytes);
    }
    // (a link stays one, and what it leads to is written)
    let written = match (fs::canonicalize(path), there) {
        (Ok(place), Some(there)) if there.is_file() => replace(bytes, &place, Some(there)),
        (Err(_), None) if !path.is_symlink() => replace(bytes, path, None),
        // What is no file, as a terminal or a disk, and the end of a link that is to be made.
        _ => fs::write(path, bytes),
    };
    written.map_err(|error| cannot_write(&input::name_of_file(path), error))
}

/// Writes a file beside the place, and then puts it there.
fn replace(bytes: &[u8], place: &Path, there: Option<Metadata>) -> io::Result<()> {
    if there.is_some() {
        // A file that may not be written is not to be replaced either.
        OpenOptions::new().write(true).open(place)?;
    }
    let beside = beside(place);
    let written = fs::write(&beside, bytes)
        .and_then(|()| there.as_ref().map_or(Ok(()), |there| liken(&beside, there)))
        .and_then(|()| fs::rename(&beside, place));
    let Err(error) = written else { return Ok(()) };
    // Half a file is of no use, and its failure is told already.
    let _ = fs::remove_file(&beside);
    match error.kind() {
        // Where no file may be put beside it, or none of its owner, it is written as it is.
        ErrorKind::PermissionDenied if there.is_some() => fs::write(place, bytes),
        _ => Err(error),
    }
}

/// Gives a file the owner and the rights of one that was there.
fn liken(file: &Path, there: &Metadata) -> io::Result<()> {
    chown(file, Some(there.uid()), Some(there.gid()))?;
    fs::set_permissions(file, there.permissions())
}

/// A name beside a place that no other list and no other run takes.
fn beside(place: &Path) -> PathBuf {
    static WRITTEN: AtomicUsize = AtomicUsize::new(0);
    let number = WRITTEN.fetch_add(1, Ordering::Relaxed);
    place.with_file_name(format!(".rudzaviks.{}.{number}.part", process::id()))
}

fn cannot_write(name: &str, error: io::Error) -> Failure {
    Failure::wrong(format!("rudzaviks: can't write {name}: {error}"))
}
