//! The command line: `--name value`, `--name=value`, flags and plain words.

use crate::failure::{Done, Failure};
use std::collections::{BTreeMap, BTreeSet};
use std::ffi::OsString;
use std::os::unix::ffi::{OsStrExt, OsStringExt};
use std::path::PathBuf;
use std::str::FromStr;

pub struct Args {
    // Paths need not be text, so values are kept as they came.
    values: BTreeMap<&'static str, OsString>,
    flags: BTreeSet<&'static str>,
    plain: Vec<OsString>,
}

impl Args {
    /// Takes the words of a command that has these options, flags and at most `plain` other words.
    pub fn parse(
        words: impl IntoIterator<Item = OsString>,
        options: &[&'static str],
        flags: &[&'static str],
        plain: usize,
    ) -> Done<Args> {
        let mut args = Args { values: BTreeMap::new(), flags: BTreeSet::new(), plain: Vec::new() };
        let mut words = words.into_iter();
        while let Some(word) = words.next() {
            let Some(option) = word.as_bytes().strip_prefix(b"--") else {
                if args.plain.len() == plain {
                    return Err(Failure::Usage(format!("one word too many: {}", word.to_string_lossy())));
                }
                args.plain.push(word);
                continue;
            };
            let (name, joined) = match option.iter().position(|byte| *byte == b'=') {
                Some(at) => (&option[..at], Some(OsString::from_vec(option[at + 1..].to_vec()))),
                None => (option, None),
            };
            let name = String::from_utf8_lossy(name);
            if let Some(flag) = flags.iter().find(|flag| **flag == name) {
                if joined.is_some() {
                    return Err(Failure::Usage(format!("--{name} takes no value")));
                }
                args.flags.insert(flag);
            } else if let Some(option) = options.iter().find(|option| **option == name) {
                let value = joined.or_else(|| words.next());
                let value = value.ok_or_else(|| Failure::Usage(format!("--{name} needs a value")))?;
                if args.values.insert(option, value).is_some() {
                    return Err(Failure::Usage(format!("--{name} is given twice")));
                }
            } else {
                return Err(Failure::Usage(format!("unknown option --{name}")));
            }
        }
        Ok(args)
    }

    pub fn flag(&self, name: &str) -> bool {
        self.flags.contains(name)
    }

    pub fn path(&self, name: &str) -> Option<PathBuf> {
        self.values.get(name).map(PathBuf::from)
    }

    pub fn needed_path(&self, name: &str) -> Done<PathBuf> {
        self.path(name).ok_or_else(|| Failure::Usage(format!("--{name} is missing")))
    }

    pub fn text(&self, name: &str) -> Option<String> {
        self.values.get(name).map(|value| value.to_string_lossy().into_owned())
    }

    pub fn needed_text(&self, name: &str) -> Done<String> {
        self.text(name).ok_or_else(|| Failure::Usage(format!("--{name} is missing")))
    }

    pub fn number<T: FromStr>(&self, name: &str) -> Done<Option<T>> {
        let Some(text) = self.text(name) else { return Ok(None) };
        match text.parse() {
            Ok(number) => Ok(Some(number)),
            Err(_) => Err(Failure::Usage(format!("--{name} {text}: not a number that fits"))),
        }
    }

    pub fn needed_number<T: FromStr>(&self, name: &str) -> Done<T> {
        self.number(name)?.ok_or_else(|| Failure::Usage(format!("--{name} is missing")))
    }

    /// The one plain word.
    pub fn plain(&self, what: &str) -> Done<PathBuf> {
        self.plain.first().map(PathBuf::from).ok_or_else(|| Failure::Usage(format!("{what} is missing")))
    }
}
