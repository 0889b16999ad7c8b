//! Many files, one after the other: each is told of for itself, and all of them at the end.

use std::ffi::{OsStr, OsString};

use crate::failure::{Failure, Status};
use crate::json::Json;
use crate::{output, words};

/// What became of many files.
pub struct Ends {
    files: usize,
    refused: Vec<OsString>,
    failed: Vec<OsString>,
    pub worst: Status,
}

/// What is told of many files besides those that were refused or failed.
pub struct Summary {
    /// how many of each sort there are
    pub counts: Vec<(&'static str, usize)>,
    /// for people, behind the counts
    pub more: String,
    /// for programs, at the end
    pub fields: Vec<(&'static str, Json)>,
}

/// Some files by their names, for people: behind what else is said, and nothing if there are none.
pub fn named(what: &str, names: &[OsString]) -> String {
    let shown: Vec<String> = names.iter().map(|name| words::shown(name)).collect();
    match shown.is_empty() {
        true => String::new(),
        false => format!("; {what}: {}", shown.join(", ")),
    }
}

impl Ends {
    pub fn new() -> Ends {
        Ends {
            files: 0,
            refused: Vec::new(),
            failed: Vec::new(),
            worst: Status::Done,
        }
    }

    /// Takes what became of a file. A failure is told of.
    pub fn take<T>(&mut self, name: &OsStr, ended: Result<T, Failure>, json: bool) -> Option<T> {
        self.files += 1;
        let failure = match ended {
            Ok(done) => return Some(done),
            Err(failure) => failure,
        };
        let names = match failure.status() {
            Status::Refused => &mut self.refused,
            _ => &mut self.failed,
        };
        names.push(name.to_os_string());
        self.worst = self.worst.max(output::report(&failure, json));
        None
    }

    fn text(&self, summary: &Summary) -> String {
        let ends = [
            ("refused", self.refused.len()),
            ("failed", self.failed.len()),
        ];
        let counts = summary.counts.iter().copied().chain(ends);
        let counts: Vec<String> = counts.map(|(what, n)| format!("{n} {what}")).collect();
        let (files, counts, more) = (self.files, counts.join(", "), &summary.more);
        let refused = named("refused", &self.refused);
        let failed = named("failed", &self.failed);
        format!("{files} files: {counts}{more}{refused}{failed}")
    }

    fn fields(&self, summary: Summary) -> Json {
        let names = |names: &[OsString]| Json::List(names.iter().map(Json::text).collect());
        let counts = [("files", self.files)].into_iter().chain(summary.counts);
        let counts = counts.map(|(what, n)| (what, Json::Whole(n as i128)));
        let ends = [
            ("refused", names(&self.refused)),
            ("failed", names(&self.failed)),
        ];
        Json::Object(counts.chain(ends).chain(summary.fields).collect())
    }

    /// Tells of all files, if there are several.
    pub fn tell(&self, summary: Summary, json: bool) -> Result<Status, Failure> {
        if self.files > 1 {
            output::message(&self.text(&summary));
            if json {
                output::print_json(self.fields(summary))?;
            }
        }
        Ok(self.worst)
    }
}

/// Asks each file, and goes on past one that is refused.
pub fn each(
    names: &[OsString],
    json: bool,
    mut ask: impl FnMut(&OsStr) -> Result<(), Failure>,
) -> Result<Ends, Failure> {
    let mut ends = Ends::new();
    for name in names {
        match ask(name) {
            // without a reader the other answers reach nobody either
            Err(Failure::Unheard(what)) => return Err(Failure::Unheard(what)),
            ended => ends.take(name, ended, json),
        };
    }
    Ok(ends)
}
