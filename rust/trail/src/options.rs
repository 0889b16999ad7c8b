//! The options that there are, and the values that stand after them.

use std::ffi::{OsStr, OsString};
use std::iter::Peekable;
use std::os::unix::ffi::OsStrExt;

use crate::numbers::{is_number, Range};

/// An option: its name, the names of its values, and the range of each, if they are numbers or times of the clock, which
/// begin as numbers do.
pub struct Choice {
    pub name: &'static str,
    pub values: &'static [&'static str],
    pub range: Option<Range>,
    /// the words that its value may be, if only some may
    pub words: &'static [&'static str],
}

const fn choice(
    name: &'static str,
    values: &'static [&'static str],
    range: Option<Range>,
) -> Choice {
    Choice {
        name,
        values,
        range,
        words: &[],
    }
}

/// An option that takes one of some words.
const fn one_of(
    name: &'static str,
    value: &'static [&'static str],
    words: &'static [&'static str],
) -> Choice {
    Choice {
        words,
        ..choice(name, value, None)
    }
}

const EDGES: &[&str] = &["X0", "X1", "Y0", "Y1"];

pub static OPTIONS: &[Choice] = &[
    choice("--json", &[], None),
    choice("--epoch", &["TIME"], Some(Range::Seconds)),
    choice("--csv", &[], None),
    choice("--geojson", &[], None),
    choice("--dry-run", &[], None),
    choice("--force", &[], None),
    choice("--split", &[], None),
    choice("--millimetres", &[], None),
    choice("--anchors", &[], None),
    choice("--silence-after", &["SECONDS"], Some(Range::Seconds)),
    choice("--tolerance", &["E"], Some(Range::Tolerances(None))),
    choice("--days", &["D"], Some(Range::Days)),
    choice("--table", &["FILE"], None),
    choice("--box", EDGES, Some(Range::Places(None))),
    choice("--window", &["S", "E"], Some(Range::Seconds)),
    choice("--within", &[], None),
    choice("--all", &[], None),
    choice("--point", &["X", "Y"], Some(Range::Places(None))),
    choice("--radius", &["R"], Some(Range::Radii)),
    choice("--original", &["FILE"], None),
    one_of("--zoom", &["TO"], &["window", "box", "point"]),
    choice("-o", &["OUT"], None),
];

impl Choice {
    /// Its values where they are the next words. An option is no value, and a file's name no number, so that a missing
    /// one is seen.
    pub fn next<'a>(&self, words: &mut Peekable<impl Iterator<Item = &'a OsStr>>) -> Vec<OsString> {
        let suits = |word: &&OsStr| match self.range {
            None => !is_option(word),
            Some(_) => is_number(word),
        };
        let next = |_: &&str| words.next_if(suits);
        let values = self.values.iter().map_while(next);
        values.map(OsStr::to_os_string).collect()
    }

    /// Its values where they stand after a `=`, with commas between several. A file's name may have commas.
    pub fn parts(&self, joined: &OsStr) -> Vec<OsString> {
        let several = self.values.len() > 1;
        let parts = joined.as_bytes().split(|byte| several && *byte == b',');
        let part = |part| OsStr::from_bytes(part).to_os_string();
        parts.map(part).collect()
    }

    /// What is wrong with so many values.
    pub fn counts(&self, given: usize) -> Result<(), String> {
        let (name, all) = (self.name, self.values.join(" "));
        match self.values.get(given..) {
            None if all.is_empty() => Err(format!("{name} takes no value")),
            None => Err(format!("{name} takes {all} and no more")),
            Some([]) => Ok(()),
            Some(_) if given == 0 => Err(format!("{name} takes {all}")),
            Some([missing]) => Err(format!("{name} takes {all}, and {missing} is missing")),
            Some(missing) => {
                let missing = missing.join(" ");
                Err(format!("{name} takes {all}, and {missing} are missing"))
            }
        }
    }
}

/// Whether a word is an option: it begins with a dash, and is neither the dash alone nor a number below 0.
pub fn is_option(word: &OsStr) -> bool {
    let dashed = word != "-" && word.as_bytes().starts_with(b"-");
    dashed && !is_number(word)
}

/// A word's part before its first `=`, and the part after it.
pub fn parted(word: &OsStr) -> (&OsStr, Option<&OsStr>) {
    let mut parts = word.as_bytes().splitn(2, |byte| *byte == b'=');
    let mut part = || parts.next().map(OsStr::from_bytes);
    (part().unwrap_or(word), part())
}
