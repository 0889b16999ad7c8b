//! How names and marks are put for people.

use std::ffi::OsStr;
use std::os::unix::ffi::OsStrExt;

use trails::{in_threes, Unit};

/// Whether a terminal obeys a character or hides it: controls, marks that turn a line's direction, separators of lines,
/// and signs without width.
pub fn steers(c: char) -> bool {
    let unseen = matches!(
        c,
        '\u{61c}'
            | '\u{180e}'
            | '\u{200b}'..='\u{200f}'
            | '\u{2028}'..='\u{202e}'
            | '\u{2060}'..='\u{206f}'
            | '\u{feff}'
            | '\u{fff9}'..='\u{fffb}'
            | '\u{e0000}'..='\u{e007f}'
    );
    unseen || c.is_control()
}

/// A character as people read it.
fn escaped(c: char) -> String {
    match c {
        '\\' => "\\\\".into(),
        c if steers(c) => c.escape_default().to_string(),
        c => c.into(),
    }
}

/// A name in pieces: each character that it has in UTF-8 by `one`, and each byte that isn't UTF-8 by `other`.
pub fn pieces<'a>(
    name: &'a OsStr,
    one: impl Fn(char) -> String + Copy + 'a,
    other: impl Fn(u8) -> String + Copy + 'a,
) -> impl Iterator<Item = String> + 'a {
    let chunks = name.as_bytes().utf8_chunks();
    chunks.flat_map(move |chunk| {
        let valid = chunk.valid().chars().map(one);
        valid.chain(chunk.invalid().iter().map(move |byte| other(*byte)))
    })
}

/// A word as people read it: on one line, and with nothing that a terminal obeys. Bytes that aren't UTF-8 are numbers.
pub fn harmless(word: impl AsRef<OsStr>) -> String {
    pieces(word.as_ref(), escaped, |byte| format!("\\x{byte:02x}")).collect()
}

/// The start of a word that a message quotes: a hostile one may be long.
pub fn quoted(word: &str) -> String {
    let start: String = word.chars().take(40).collect();
    format!("'{}'", harmless(start))
}

/// A file's name as people read it, or what stands for the standard input.
pub fn shown(name: &OsStr) -> String {
    match name.as_bytes() {
        b"-" => "standard input".into(),
        b"" => "''".into(),
        _ => harmless(name),
    }
}

/// A mark in this unit as people read it.
pub fn mark(mark: Option<u16>, unit: Unit) -> String {
    mark.map_or("never".into(), |mark| length(mark, unit))
}

/// The tolerance that agings apply in this unit as people read it.
pub fn applied(tolerance: Option<u16>, unit: Unit) -> String {
    tolerance.map_or("none".into(), |e| length(e, unit))
}

/// So many of something, by the word for one or for several.
pub fn count(number: u64, one: &str, several: &str) -> String {
    let word = if number == 1 { one } else { several };
    format!("{} {word}", in_threes(number))
}

/// A length as people read it.
pub fn length(length: impl Into<u32>, unit: Unit) -> String {
    format!("{} {}", length.into(), unit.symbol())
}

#[cfg(test)]
mod tests {
    use super::*;

    #[test]
    fn what_a_terminal_obeys_is_escaped() {
        assert_eq!(harmless("Wagen é e\u{301} \"1\""), "Wagen é e\u{301} \"1\"");
        assert_eq!(harmless("a\u{1b}[2J\n"), "a\\u{1b}[2J\\n");
        assert_eq!(harmless("a\u{9b}\u{202e}b"), "a\\u{9b}\\u{202e}b");
        assert_eq!(harmless("a\\n"), "a\\\\n");
        assert_eq!(harmless(OsStr::from_bytes(b"a\xff\xc3")), "a\\xff\\xc3");
    }
}
