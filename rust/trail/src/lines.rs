//! Texts of one entry a line: fields between spaces or commas, and comments from `#` to the line's end.

use std::ffi::OsStr;

use crate::failure::{Failure, Spot};

/// A field without the quotes that some tools put around it.
fn unquoted(field: &str) -> &str {
    let inner = field.strip_prefix('"');
    let inner = inner.and_then(|inner| inner.strip_suffix('"'));
    inner.unwrap_or(field).trim()
}

/// The fields of a line: none, if it is empty or a comment.
fn fields(line: &str) -> Vec<&str> {
    let line = line.split('#').next().unwrap_or(line).trim();
    match line.contains(',') {
        true => line.split(',').map(str::trim).map(unquoted).collect(),
        false => line.split_whitespace().map(unquoted).collect(),
    }
}

fn entry<T>(
    line: &[u8],
    read: &mut impl FnMut(&[&str]) -> Result<T, String>,
) -> Result<Option<T>, String> {
    let line = std::str::from_utf8(line).map_err(|_| "it isn't text in UTF-8")?;
    let fields = fields(line);
    match fields.is_empty() {
        true => Ok(None),
        false => read(&fields).map(Some),
    }
}

/// Reads each line that isn't empty or a comment, and gives its number with it. The first bad line is named.
pub fn entries<T>(
    name: &OsStr,
    text: &[u8],
    mut read: impl FnMut(&[&str]) -> Result<T, String>,
) -> Result<Vec<(usize, T)>, Failure> {
    // spreadsheets put this mark before the first line
    let text = text.strip_prefix("\u{feff}".as_bytes()).unwrap_or(text);
    let mut entries = Vec::new();
    for (number, line) in (1..).zip(text.split(|byte| *byte == b'\n')) {
        let bad = |what| {
            let spot = Spot {
                line: Some(number),
                ..Spot::file(name)
            };
            Failure::Line(spot, what)
        };
        let found = entry(line, &mut read).map_err(bad)?;
        entries.extend(found.map(|found| (number, found)));
    }
    Ok(entries)
}

/// What is wrong with a field, given what is wrong with its word.
pub fn named(field: &'static str) -> impl Fn(String) -> String {
    move |what| format!("{field}: {what}")
}

/// What is wrong with a line that has other fields than an entry.
pub fn miscounted(entry: &str, fields: &[&str]) -> String {
    format!("{entry}, and here stand {} fields", fields.len())
}

#[cfg(test)]
mod tests {
    use super::fields;

    #[test]
    fn lines_have_fields_between_spaces_or_commas() {
        let none: [&str; 0] = [];
        assert_eq!(fields("  # 1 2 3"), none);
        assert_eq!(fields(" \r"), none);
        assert_eq!(fields("1 -2\t3 # a fix\r"), ["1", "-2", "3"]);
        assert_eq!(fields("1, -2,3\r"), ["1", "-2", "3"]);
        assert_eq!(fields("1,,3"), ["1", "", "3"]);
        assert_eq!(fields("1, 2 3"), ["1", "2 3"]);
        assert_eq!(fields("\"1\", \"-2\" ,\"\""), ["1", "-2", ""]);
        assert_eq!(fields("\"1\" 2 \""), ["1", "2", "\""]);
    }
}
