//! The records that a list of fixes makes: one, or as many as it needs.
//!
//! A cart that reports every second fills a record in 68 minutes. A list that is split fills one record after the other,
//! and each begins with the last fix of the one before, so that every leg is in one of them. A silence after that fix is
//! a leg too: the record that begins with the fix says it, and the one that ends there doesn't.

use std::ffi::{OsStr, OsString};
use std::fs;
use std::os::unix::ffi::OsStrExt;
use std::path::Path;

use trails::{AnyFix, Kind, Refusal, MOST_FIXES};

use crate::beside::folder;
use crate::failure::{Fact, Failure, Refused, Spot};
use crate::made::Made;
use crate::texts::Numbered;

/// The most seconds from a record's first fix to its last.
const LONGEST_SPAN: u32 = 65_535;

/// The line of the fix that a refusal is about: the first of which its sentence holds.
fn refused_line(kind: Kind, refusal: Refusal, fixes: &[Numbered]) -> Option<usize> {
    let most = kind.unit().limits().place;
    let outside = |c: i32| !(-most..=most).contains(&c);
    let (_, first) = fixes.first()?;
    let found = match refusal {
        Refusal::Misplaced => {
            let mut fixes = fixes.iter();
            fixes.find(|(_, fix)| outside(fix.x) || outside(fix.y))
        }
        Refusal::Unordered => {
            let mut pairs = fixes.iter().zip(fixes.iter().skip(1));
            let pair = pairs.find(|((_, one), (_, next))| next.t <= one.t);
            pair.map(|(_, next)| next)
        }
        Refusal::LongSpan => {
            let late = |fix: &AnyFix| fix.t.abs_diff(first.t) > LONGEST_SPAN;
            fixes.iter().find(|(_, fix)| late(fix))
        }
        // no text says a byte that is neither 0 nor 1
        Refusal::BadSilence => fixes.last(),
        _ => None,
    };
    found.map(|(line, _)| *line)
}

/// The seconds of the first leg that no record has, if there is one.
fn long_leg(fixes: &[Numbered]) -> Option<u32> {
    let legs = fixes.iter().zip(fixes.iter().skip(1));
    let mut seconds = legs.map(|((_, from), (_, to))| to.t.saturating_sub(from.t));
    seconds.find(|seconds| *seconds > LONGEST_SPAN)
}

/// What is known of a list that is turned away: its count, and if it is too long what helps.
fn fact(refusal: Refusal, fixes: &[Numbered]) -> Option<Fact> {
    let count = fixes.len();
    match refusal {
        Refusal::BadCount if count > MOST_FIXES => Some(Fact::Splittable(count)),
        Refusal::LongSpan => Some(long_leg(fixes).map_or(Fact::Spread, Fact::Apart)),
        _ => Fact::count(refusal, count),
    }
}

/// The record of fixes, each with the number of its line.
pub fn one(from: &OsStr, kind: Kind, fixes: &[Numbered]) -> Result<Made, Failure> {
    let list: Vec<AnyFix> = fixes.iter().map(|(_, fix)| *fix).collect();
    let record = trails::write_kind(kind, &list).map_err(|refusal| {
        Failure::Refused(Refused {
            spot: Spot {
                line: refused_line(kind, refusal, fixes),
                ..Spot::file(from)
            },
            refusal,
            kind,
            fact: fact(refusal, fixes),
        })
    })?;
    Ok(Made {
        record,
        kind,
        count: list.len(),
        silences: list.iter().filter(|fix| fix.silence).count(),
    })
}

/// How many of these fixes one record takes. Of a leg that fits none it takes both ends, and the writer turns it away.
fn fitting(fixes: &[Numbered]) -> usize {
    let first = fixes.first().map_or(0, |(_, fix)| fix.t);
    let fits = |(_, fix): &&Numbered| fix.t.saturating_sub(first) <= LONGEST_SPAN;
    let fitting = fixes.iter().take(MOST_FIXES).take_while(fits).count();
    fitting.max(2).min(fixes.len())
}

/// The fixes of each record. Of none there is one too, which the writer turns away.
fn parts(fixes: &[Numbered]) -> Vec<Vec<Numbered>> {
    let mut parts = Vec::new();
    let mut rest = fixes;
    loop {
        let (part, after) = rest.split_at(fitting(rest));
        let mut part = part.to_vec();
        let shared = part.len().saturating_sub(1);
        if let (false, Some((_, last))) = (after.is_empty(), part.last_mut()) {
            last.silence = false;
        }
        parts.push(part);
        match rest.get(shared..) {
            Some(next) if !after.is_empty() => rest = next,
            _ => return parts,
        }
    }
}

/// As few records as hold these fixes and their legs, each as full as can be.
pub fn split(from: &OsStr, kind: Kind, fixes: &[Numbered]) -> Result<Vec<Made>, Failure> {
    let parts = parts(fixes);
    parts.iter().map(|part| one(from, kind, part)).collect()
}

/// The name of the record of this number, counted from 1: `cart-001.trail` beside `cart.trail`.
pub fn named(to: &OsStr, number: usize) -> OsString {
    let path = Path::new(to);
    let mut name = path.file_stem().unwrap_or_default().to_os_string();
    name.push(format!("-{number:03}"));
    if let Some(extension) = path.extension() {
        name.push(".");
        name.push(extension);
    }
    path.with_file_name(name).into_os_string()
}

/// The number that a name beside a trail's has, if it is one of its split's.
fn number_of(to: &OsStr, name: &OsStr) -> Option<usize> {
    let stem = Path::new(to).file_stem()?.as_bytes();
    let rest = name.as_bytes().strip_prefix(stem)?.strip_prefix(b"-")?;
    let digits = rest.iter().take_while(|byte| byte.is_ascii_digit()).count();
    let number = std::str::from_utf8(rest.get(..digits)?)
        .ok()?
        .parse()
        .ok()?;
    let named = named(to, number);
    (Path::new(&named).file_name() == Some(name)).then_some(number)
}

/// What earlier splits have left beside a trail's, of which this one has made so many: their names, in order.
pub fn left(to: &OsStr, made: usize) -> Vec<OsString> {
    let Ok(beside) = fs::read_dir(folder(Path::new(to))) else {
        return Vec::new();
    };
    let names = beside.filter_map(|entry| Some(entry.ok()?.file_name()));
    let mut numbers: Vec<usize> = names.filter_map(|name| number_of(to, &name)).collect();
    numbers.retain(|number| *number > made);
    numbers.sort_unstable();
    numbers
        .into_iter()
        .map(|number| named(to, number))
        .collect()
}

#[cfg(test)]
mod tests {
    use super::*;

    fn fixes(times: &[u32]) -> Vec<Numbered> {
        let fix = |t: &u32| AnyFix {
            t: *t,
            x: 0,
            y: 0,
            silence: true,
        };
        (1..).zip(times.iter().map(fix)).collect()
    }

    /// The times of each part, and whether its last fix says silence.
    fn cut(times: &[u32]) -> Vec<(Vec<u32>, bool)> {
        let part = |part: &Vec<Numbered>| {
            let times = part.iter().map(|(_, fix)| fix.t).collect();
            let (inner, last) = part.split_at(part.len().saturating_sub(1));
            assert!(inner.iter().all(|(_, fix)| fix.silence));
            (times, last.iter().any(|(_, fix)| fix.silence))
        };
        parts(&fixes(times)).iter().map(part).collect()
    }

    #[test]
    fn each_part_begins_with_the_last_fix_of_the_one_before() {
        assert_eq!(cut(&[]), [(vec![], false)]);
        assert_eq!(cut(&[7]), [(vec![7], true)]);
        let two = [(vec![0, 65_535], false), (vec![65_535, 65_536], true)];
        assert_eq!(cut(&[0, 65_535, 65_536]), two);
        // the last second that fits is taken, and the next isn't
        let three = [(vec![0, 1, 65_535], false), (vec![65_535, 65_536], true)];
        assert_eq!(cut(&[0, 1, 65_535, 65_536]), three);
        // a leg that fits no record is one for itself, and so is what goes back
        let long = [(vec![0, 70_000], false), (vec![70_000, 70_001], true)];
        assert_eq!(cut(&[0, 70_000, 70_001]), long);
        assert_eq!(cut(&[9, 3, 3]), [(vec![9, 3, 3], true)]);
    }

    #[test]
    fn parts_are_as_full_as_can_be() {
        for (fixes, sizes) in [
            (4_096, vec![4_096]),
            (4_097, vec![4_096, 2]),
            (8_191, vec![4_096, 4_096]),
            (8_192, vec![4_096, 4_096, 2]),
        ] {
            let times: Vec<u32> = (0..fixes).collect();
            let parts = cut(&times);
            let found: Vec<usize> = parts.iter().map(|(times, _)| times.len()).collect();
            assert_eq!(found, sizes);
        }
    }

    #[test]
    fn names_are_numbered_before_their_extension() {
        for (to, name) in [
            ("cart.trail", "cart-001.trail"),
            ("a.b/cart", "a.b/cart-001"),
            ("cart.17.trail", "cart.17-001.trail"),
            (".cart", ".cart-001"),
            ("../cart.", "../cart-001."),
        ] {
            assert_eq!(named(OsStr::new(to), 1), name);
        }
        assert_eq!(named(OsStr::new("c.t"), 1_000), "c-1000.t");
    }
}
