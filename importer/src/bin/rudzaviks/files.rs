//! Whether two names, or a name and an open stream, are of one file.

use std::fs::{File, Metadata};
use std::os::fd::AsFd;
use std::os::unix::fs::MetadataExt;

/// A file's device and number there; nothing of what is no file.
pub type Identity = Option<(u64, u64)>;

pub fn identity(of: &Metadata) -> Identity {
    of.is_file().then(|| (of.dev(), of.ino()))
}

/// What file a stream comes from or goes to, if it is one.
pub fn of(stream: impl AsFd) -> Identity {
    let file = stream.as_fd().try_clone_to_owned().map(File::from).ok()?;
    identity(&file.metadata().ok()?)
}
