//! Where what is made of each list is written.

use std::collections::{HashMap, HashSet};
use std::ffi::{OsStr, OsString};
use std::path::{Path, PathBuf};
use std::{fs, io};

use crate::failure::Failure;
use crate::{files, input};

/// The place for each list under OUT: OUT itself for one list, and in the folder OUT a file named as
/// the list is, with this extension. None is one of the lists.
pub fn of(files: &[OsString], out: &OsStr, extension: &str) -> Result<Vec<PathBuf>, Failure> {
    let path = Path::new(out);
    let is_folder = path.is_dir();
    if !is_folder && out.as_encoded_bytes().ends_with(b"/") {
        return Err(failure(&format!("{} is no folder", input::name_of_file(path))));
    }
    let places = match files {
        [_] if !is_folder => vec![path.to_path_buf()],
        _ if is_folder => in_folder(files, path, extension)?,
        _ => {
            let what = "is no folder, and several lists need one to go to";
            return Err(failure(&format!("{} {what}", input::name_of_file(path))));
        }
    };
    not_read(files, &places).map(|()| places)
}

fn in_folder(files: &[OsString], out: &Path, extension: &str) -> Result<Vec<PathBuf>, Failure> {
    let mut makers: HashMap<PathBuf, &OsString> = HashMap::new();
    let mut places = Vec::new();
    for file in files {
        let place = out.join(own_name(file, extension)?);
        // (by one name of it, of which links may give it more)
        let one = fs::canonicalize(&place).unwrap_or_else(|_| place.clone());
        if let Some(other) = makers.insert(one, file) {
            let [one, other] = [other, file].map(|file| input::name(file));
            let place = input::name_of_file(&place);
            return Err(failure(&format!("{one} and {other} would both go to {place}")));
        }
        places.push(place);
    }
    Ok(places)
}

/// Refuses places that are lists which are read, by whatever name: these would be lost.
fn not_read(files: &[OsString], places: &[PathBuf]) -> Result<(), Failure> {
    let identity = |path: &Path| files::identity(&fs::metadata(path).ok()?);
    let read = files.iter().filter_map(|file| match file.to_str() {
        Some("-") => files::of(io::stdin()),
        _ => identity(Path::new(file)),
    });
    let read: HashSet<(u64, u64)> = read.collect();
    let lost = places.iter().find(|place| identity(place).is_some_and(|id| read.contains(&id)));
    lost.map_or(Ok(()), |place| {
        let place = input::name_of_file(place);
        Err(failure(&format!("{place} is one of the lists: it would be lost")))
    })
}

/// A list's name without its folder, and with this extension.
fn own_name(file: &OsStr, extension: &str) -> Result<PathBuf, Failure> {
    let stem = if file == "-" { Some(OsStr::new("stdin")) } else { Path::new(file).file_stem() };
    let none = || failure(&format!("{} has no name to write it under", input::name(file)));
    // (added, and not set, for a stem may have a dot in it)
    let mut name = stem.ok_or_else(none)?.to_os_string();
    name.push(".");
    name.push(extension);
    Ok(PathBuf::from(name))
}

fn failure(what: &str) -> Failure {
    Failure::wrong(format!("rudzaviks: {what}"))
}
