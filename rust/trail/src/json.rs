//! A small writer of JSON, for answers that programs read.

use std::ffi::{OsStr, OsString};
use std::fmt;

use trails::{AnyFix, Kind, Unit};

use crate::words;

pub enum Json {
    Null,
    Truth(bool),
    Whole(i128),
    /// A number with so many digits after the point, exactly: of 5 and 2 it is 0.05.
    Decimal(i64, usize),
    /// A text, or a file's name, exactly: a byte that isn't UTF-8 is a lone surrogate, \udc80 to \udcff, as Python has it.
    Text(OsString),
    List(Vec<Json>),
    Object(Vec<(&'static str, Json)>),
}

impl Json {
    pub fn text(text: impl AsRef<OsStr>) -> Json {
        Json::Text(text.as_ref().to_os_string())
    }

    /// A mark, null for a trail that was never thinned.
    pub fn mark(mark: Option<u16>) -> Json {
        mark.map_or(Json::Null, |mark| Json::Whole(mark.into()))
    }

    /// The unit of all lengths of an answer.
    pub fn unit(unit: Unit) -> Json {
        Json::text(unit.symbol())
    }

    /// Fixes as lists of time, x and y and, of a kind with silences, 1 where one follows and else 0.
    pub fn fixes(kind: Kind, fixes: &[AnyFix]) -> Json {
        let numbers = |fix: &AnyFix| {
            let silence = kind.has_silences().then_some(fix.silence.into());
            let all = [fix.t.into(), fix.x.into(), fix.y.into()];
            all.into_iter().chain(silence)
        };
        let list = |fix| Json::List(numbers(fix).map(Json::Whole).collect());
        Json::List(fixes.iter().map(list).collect())
    }

    /// How many silences there are, null for a trail of a kind that has none.
    pub fn silences(kind: Kind, count: usize) -> Json {
        match kind.has_silences() {
            true => Json::Whole(count as i128),
            false => Json::Null,
        }
    }
}

/// A character between quotes. What a terminal would obey is escaped, so that a line may be looked at too.
fn escaped(c: char) -> String {
    match c {
        '"' | '\\' => format!("\\{c}"),
        c if words::steers(c) => {
            let units = c.encode_utf16(&mut [0; 2]).to_vec();
            units.iter().map(|unit| format!("\\u{unit:04x}")).collect()
        }
        c => c.into(),
    }
}

fn quoted(text: &OsStr) -> String {
    let pieces = words::pieces(text, escaped, |byte| format!("\\udc{byte:02x}"));
    format!("\"{}\"", pieces.collect::<String>())
}

fn decimal(number: i64, digits: usize) -> String {
    let sign = match number < 0 {
        true => "-",
        false => "",
    };
    let all = format!("{:0width$}", number.unsigned_abs(), width = digits + 1);
    let (whole, part) = all.split_at(all.len().saturating_sub(digits));
    format!("{sign}{whole}.{part}")
}

/// Values with commas between them.
fn list(values: impl Iterator<Item = String>) -> String {
    values.collect::<Vec<_>>().join(",")
}

impl fmt::Display for Json {
    fn fmt(&self, to: &mut fmt::Formatter) -> fmt::Result {
        match self {
            Json::Null => to.write_str("null"),
            Json::Truth(truth) => write!(to, "{truth}"),
            Json::Whole(number) => write!(to, "{number}"),
            Json::Decimal(number, digits) => to.write_str(&decimal(*number, *digits)),
            Json::Text(text) => to.write_str(&quoted(text)),
            Json::List(values) => {
                write!(to, "[{}]", list(values.iter().map(Json::to_string)))
            }
            Json::Object(fields) => {
                let field = |(name, value): &(&str, Json)| format!("\"{name}\":{value}");
                write!(to, "{{{}}}", list(fields.iter().map(field)))
            }
        }
    }
}

#[cfg(test)]
mod tests {
    use super::*;
    use std::os::unix::ffi::OsStrExt;

    #[test]
    fn strings_are_escaped() {
        let string = Json::text("a\"b\\c\nd\u{1}é\u{7f}\u{202e}\u{e0001}");
        let escaped = r#""a\"b\\c\u000ad\u0001é\u007f\u202e\udb40\udc01""#;
        assert_eq!(string.to_string(), escaped);
    }

    #[test]
    fn names_are_exact() {
        let name = Json::text(OsStr::from_bytes(b"a\xffb\xc3\x28\xc3\xa9"));
        assert_eq!(name.to_string(), r#""a\udcffb\udcc3(é""#);
    }

    #[test]
    fn decimal_numbers_are_exact() {
        for (number, digits, text) in [
            (0, 2, "0.00"),
            (5, 2, "0.05"),
            (-5, 3, "-0.005"),
            (-16_000, 2, "-160.00"),
            (160_001, 3, "160.001"),
        ] {
            assert_eq!(Json::Decimal(number, digits).to_string(), text);
        }
    }

    #[test]
    fn values_stand_in_each_other() {
        let list = Json::List(vec![Json::Whole(-1), Json::Null, Json::Truth(true)]);
        let object = Json::Object(vec![("a", list), ("b", Json::Object(Vec::new()))]);
        assert_eq!(object.to_string(), r#"{"a":[-1,null,true],"b":{}}"#);
    }
}
