//! Numbers as people give them.

use std::ffi::OsStr;
use std::fmt;
use std::os::unix::ffi::OsStrExt;
use std::str::FromStr;

use trails::{in_threes, of_every_kind, Unit, MOST_FIXES};

use crate::words;

/// A range of numbers, for messages. A number that the interface takes is refused by the interface alone. Lengths have
/// the range of their unit or, where that isn't known yet, both.
#[derive(Clone, Copy)]
pub enum Range {
    Seconds,
    Thousandths,
    Days,
    Tolerances(Option<Unit>),
    Places(Option<Unit>),
    Radii,
    Counts,
}

fn of_unit(unit: Option<Unit>, range: fn(Unit) -> String) -> String {
    unit.map_or_else(|| of_every_kind(|kind| range(kind.unit())), range)
}

impl fmt::Display for Range {
    fn fmt(&self, to: &mut fmt::Formatter) -> fmt::Result {
        let up_to = |most: u32| format!("0 to {}", in_threes(most));
        to.write_str(&match self {
            Range::Seconds => up_to(u32::MAX),
            Range::Thousandths => up_to(999),
            Range::Days => up_to(u16::MAX.into()),
            Range::Tolerances(unit) => {
                let most = |unit: Unit| in_threes(unit.limits().tolerance);
                format!("0 to {}", of_unit(*unit, most))
            }
            Range::Radii => {
                let most = |unit: Unit| in_threes(unit.limits().radius);
                format!("0 to {}", of_unit(None, most))
            }
            Range::Counts => format!("1 to {}", in_threes(MOST_FIXES as u64)),
            Range::Places(unit) => of_unit(*unit, |unit| {
                let most = in_threes(unit.limits().place.unsigned_abs());
                format!("-{most} to {most}")
            }),
        })
    }
}

/// Whether a word begins as a number does.
pub fn is_number(word: &OsStr) -> bool {
    match word.as_bytes() {
        [b'-' | b'+', digit, ..] | [digit, ..] => digit.is_ascii_digit(),
        [] => false,
    }
}

/// The number that a word has, or what is wrong with the word.
pub fn whole<N: FromStr>(word: &str, range: Range) -> Result<N, String> {
    let wrong = |_| format!("{} isn't a whole number from {range}", words::quoted(word));
    word.parse().map_err(wrong)
}

/// The float that an anchor has sent, as a text has it: a decimal number stands for the float nearest to it, which is how
/// programs print one in few digits, and `inf` and `nan` for what isn't finite.
pub fn float(word: &str) -> Result<f32, String> {
    let wrong = |_| format!("{} isn't a decimal number", words::quoted(word));
    word.parse().map_err(wrong)
}

#[cfg(test)]
mod tests {
    use super::*;

    #[test]
    fn wrong_numbers_are_shown_harmlessly() {
        let what = whole::<u16>("\u{1b}[2J", Range::Days).expect_err("no number");
        assert_eq!(what, "'\\u{1b}[2J' isn't a whole number from 0 to 65,535");
        let long = whole::<i16>(&"9".repeat(1_000_000), Range::Seconds);
        assert!(long.is_err_and(|what| what.len() < 100));
    }

    #[test]
    fn floats_are_the_nearest_to_what_stands_there() {
        for (word, value) in [
            ("12.0625", 12.0625),
            ("-1.5e3", -1_500.0),
            ("+.5", 0.5),
            // as the float 20000.0625 is printed in the fewest digits
            ("20000.063", 20_000.0 + 0.0625),
            ("1e39", f32::INFINITY),
            ("-inf", f32::NEG_INFINITY),
        ] {
            assert_eq!(float(word), Ok(value), "{word}");
        }
        assert!(float("NaN").is_ok_and(f32::is_nan));
        assert!(float("-0").is_ok_and(|zero| zero == 0.0 && zero.is_sign_negative()));
        for wrong in ["", "-", "0x10", "1,5", "1f", "1_000", "twelve", "1e"] {
            let what = float(wrong).expect_err("no number");
            assert_eq!(what, format!("'{wrong}' isn't a decimal number"));
        }
    }

    #[test]
    fn ranges_of_lengths_are_those_of_their_unit_or_of_both() {
        let [one, other] = Unit::ALL.map(Some);
        assert_eq!(Range::Tolerances(one).to_string(), "0 to 32,000");
        assert_eq!(Range::Places(other).to_string(), "-160,000 to 160,000");
        let both = Range::Tolerances(None).to_string();
        assert_eq!(both, "0 to 32,000 (in millimetres 60,000)");
        let radii = Range::Radii.to_string();
        assert_eq!(radii, "0 to 32,000 (in millimetres 320,000)");
        assert_eq!(Range::Seconds.to_string(), "0 to 4,294,967,295");
    }
}
