//! What can go wrong, and the exit status of each.

use std::ffi::{OsStr, OsString};
use std::fmt;

use trails::{Kind, Refusal};

use crate::clock::Clock;
use crate::json::Json;
use crate::words::shown;

/// How a run ended. Of several files the greatest counts.
#[derive(Clone, Copy, Debug, PartialEq, Eq, PartialOrd, Ord)]
pub enum Status {
    Done = 0,
    Refused = 1,
    Usage = 2,
    Failed = 3,
}

/// Where in the input something is.
#[derive(Clone, Debug)]
pub struct Spot {
    pub file: OsString,
    /// counted from 1, where the input is text and the line is known
    pub line: Option<usize>,
}

impl Spot {
    pub fn file(name: &OsStr) -> Spot {
        Spot {
            file: name.to_os_string(),
            line: None,
        }
    }
}

impl fmt::Display for Spot {
    fn fmt(&self, to: &mut fmt::Formatter) -> fmt::Result {
        to.write_str(&shown(&self.file))?;
        match self.line {
            Some(line) => write!(to, ", line {line}"),
            None => Ok(()),
        }
    }
}

/// What is known of the input that a refusal's sentence doesn't tell.
#[derive(Clone, Copy, Debug)]
pub enum Fact {
    /// So many fixes.
    Count(usize),
    /// So many fixes, which several trails can have.
    Splittable(usize),
    /// More seconds than one trail has, which several can have.
    Spread,
    /// Two neighbouring fixes are so many seconds apart, which no trail has.
    Apart(u32),
    /// The trail's first second and its last.
    Seconds(Clock, u32, u32),
    /// The seconds at which a silence begins and ends.
    Silence(Clock, u32, u32),
    /// So many rows of a table.
    Rows(usize),
}

impl Fact {
    /// The count, if a refusal is about it.
    pub fn count(refusal: Refusal, count: impl Into<usize>) -> Option<Fact> {
        (refusal == Refusal::BadCount).then_some(Fact::Count(count.into()))
    }

    /// What programs are told of it.
    fn fields(self) -> Vec<(&'static str, Json)> {
        match self {
            Fact::Count(count) | Fact::Splittable(count) => {
                vec![("count", Json::Whole(count as i128))]
            }
            Fact::Spread => Vec::new(),
            Fact::Apart(seconds) => vec![("apart", Json::Whole(seconds.into()))],
            Fact::Seconds(_, first, last) => vec![
                ("first", Json::Whole(first.into())),
                ("last", Json::Whole(last.into())),
            ],
            Fact::Silence(_, from, to) => vec![
                ("from", Json::Whole(from.into())),
                ("to", Json::Whole(to.into())),
            ],
            Fact::Rows(rows) => vec![("rows", Json::Whole(rows as i128))],
        }
    }
}

impl fmt::Display for Fact {
    fn fmt(&self, to: &mut fmt::Formatter) -> fmt::Result {
        match self {
            Fact::Count(count) => write!(to, "The count is {count}."),
            Fact::Splittable(count) => write!(to, "{} {}", Fact::Count(*count), Fact::Spread),
            Fact::Spread => to.write_str("--split makes several trails of them."),
            Fact::Apart(seconds) => write!(
                to,
                "Two neighbouring fixes are {seconds} seconds apart, and no trail has both."
            ),
            Fact::Seconds(clock, first, last) => {
                write!(to, "The trail has {}.", clock.span(*first, *last))
            }
            Fact::Silence(clock, from, end) => {
                let (from, end) = (clock.named(*from), clock.show(*end));
                write!(to, "The silence is from {from} to {end}.")
            }
            Fact::Rows(rows) => write!(to, "The rows are {rows}."),
        }
    }
}

/// What the documents turn away, by the limits of a kind.
#[derive(Debug)]
pub struct Refused {
    pub spot: Spot,
    pub refusal: Refusal,
    pub kind: Kind,
    pub fact: Option<Fact>,
}

#[derive(Debug)]
pub enum Failure {
    /// The command isn't given as its help says.
    Usage(String),
    /// A line of a text isn't what it should be.
    Line(Spot, String),
    /// The documents turn it away.
    Refused(Refused),
    /// A file couldn't be read or written.
    File(OsString, String),
    /// An answer couldn't be printed.
    Unheard(String),
}

impl Failure {
    pub fn status(&self) -> Status {
        match self {
            Failure::Usage(_) | Failure::Line(..) => Status::Usage,
            Failure::Refused(_) => Status::Refused,
            Failure::File(..) | Failure::Unheard(_) => Status::Failed,
        }
    }

    /// What programs are told: of wrong usage nothing, and nothing where they can't be.
    pub fn answer(&self) -> Option<Json> {
        let failed = |what: &String| vec![("failed", Json::text(what))];
        let (spot, what) = match self {
            Failure::Refused(refused) => {
                let mut fields = Vec::from(refusal_fields(refused.refusal, refused.kind));
                fields.extend(refused.fact.map(Fact::fields).unwrap_or_default());
                (refused.spot.clone(), fields)
            }
            Failure::Line(spot, what) => (spot.clone(), failed(what)),
            Failure::File(file, what) => (Spot::file(file), failed(what)),
            Failure::Usage(_) | Failure::Unheard(_) => return None,
        };
        let mut fields = vec![("file", Json::text(spot.file))];
        fields.extend(spot.line.map(|line| ("line", Json::Whole(line as i128))));
        fields.extend(what);
        Some(Json::Object(fields))
    }
}

/// A refusal as programs read it.
pub fn refusal_fields(refusal: Refusal, kind: Kind) -> [(&'static str, Json); 2] {
    [
        ("refused", Json::Whole(refusal.number().into())),
        ("sentence", Json::text(refusal.sentence(kind))),
    ]
}

/// A refusal as people read it.
pub fn refusal_text(refusal: Refusal, kind: Kind) -> String {
    format!("refused {}: {}", refusal.number(), refusal.sentence(kind))
}

impl fmt::Display for Failure {
    fn fmt(&self, to: &mut fmt::Formatter) -> fmt::Result {
        match self {
            Failure::Usage(what) => write!(to, "trail: {what}"),
            Failure::Line(spot, what) => write!(to, "{spot}: {what}"),
            Failure::Refused(refused) => {
                let what = refusal_text(refused.refusal, refused.kind);
                write!(to, "{}: {what}", refused.spot)?;
                let fact = refused.fact;
                fact.map_or(Ok(()), |fact| write!(to, " {fact}"))
            }
            Failure::File(file, what) => write!(to, "{}: {what}", shown(file)),
            Failure::Unheard(what) => write!(to, "standard output: {what}"),
        }
    }
}
