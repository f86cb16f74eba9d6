//! The words after a command, by its options in the table.

use std::ffi::{OsStr, OsString};
use std::os::unix::ffi::OsStrExt;

use crate::arguments::quoted;
use crate::commands::Entry;
use crate::options::{Opt, HELP};

/// What the words say.
#[derive(Default)]
pub struct Given {
    pub operands: Vec<OsString>,
    pub help: bool,
    /// By long names.
    flags: Vec<&'static str>,
    values: Vec<(&'static str, OsString)>,
}

impl Given {
    pub fn has(&self, flag: &Opt) -> bool {
        self.flags.contains(&flag.name())
    }

    pub fn value(&self, option: &Opt) -> Option<&OsStr> {
        let found = self.values.iter().find(|(known, _)| *known == option.name());
        found.map(|(_, value)| value.as_os_str())
    }
}

/// Reads the words; or says what is wrong with them.
pub fn read(entry: &Entry, words: &[OsString]) -> Result<Given, String> {
    let mut given = Given::default();
    let mut words = words.iter();
    while let Some(word) = words.next() {
        match word.to_str() {
            Some("--") => given.operands.extend(words.by_ref().cloned()),
            Some(text) if HELP.names.contains(&text) => given.help = true,
            _ if word == "-" || !word.as_encoded_bytes().starts_with(b"-") => {
                given.operands.push(word.clone());
            }
            _ => {
                let found = find(entry, word.as_bytes());
                let unknown = || format!("{} is no option of {}", quoted(word), entry.name);
                let found = found.ok_or_else(unknown)?;
                take(&mut given, found, &mut words)?;
            }
        }
    }
    Ok(given)
}

/// An option as it was written: its name, and the value that was written to it.
struct Found<'a> {
    option: &'static Opt,
    name: &'static str,
    value: Option<&'a OsStr>,
}

fn find<'a>(entry: &Entry, word: &'a [u8]) -> Option<Found<'a>> {
    let names =
        entry.options.iter().flat_map(|option| option.names.iter().map(|name| (*option, *name)));
    names
        .filter_map(|(option, name)| {
            let value = attached(option, name, word.strip_prefix(name.as_bytes())?)?;
            Some(Found { option, name, value: value.map(OsStr::from_bytes) })
        })
        .next()
}

/// What a word has after an option's name, if that is a way to write a value: none, `=VALUE` after
/// a long name, or the value itself after a short one.
fn attached<'a>(option: &Opt, name: &str, rest: &'a [u8]) -> Option<Option<&'a [u8]>> {
    match (rest, rest.strip_prefix(b"=")) {
        ([], _) => Some(None),
        (_, Some(value)) if name.starts_with("--") => Some(Some(value)),
        _ if !name.starts_with("--") && option.value.is_some() => Some(Some(rest)),
        _ => None,
    }
}

/// Takes an option, with a value that was written to it or else is the next word.
fn take<'a>(
    given: &mut Given,
    found: Found,
    words: &mut impl Iterator<Item = &'a OsString>,
) -> Result<(), String> {
    let Found { option, name, value } = found;
    let Some(called) = option.value else {
        given.flags.push(option.name());
        return value.map_or(Ok(()), |_| Err(format!("{name} takes no value")));
    };
    let value = value.map(OsString::from).or_else(|| words.next().cloned());
    let value = value.ok_or_else(|| format!("{name} needs a value, {called}"))?;
    if given.value(option).is_some() {
        return Err(format!("{name} is given twice"));
    }
    given.values.push((option.name(), value));
    Ok(())
}
