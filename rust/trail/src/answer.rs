//! How a question is answered, of one trail or of many, for people and for programs.

use std::ffi::OsString;

use crate::arguments::Arguments;
use crate::failure::{Failure, Status};
use crate::json::Json;
use crate::many::{self, named, Summary};
use crate::trail::Trail;
use crate::{output, words};

/// What sort of answer a trail gave, for the summary of many.
#[derive(Clone, Copy, PartialEq, Eq)]
pub enum Sort {
    Yes,
    No,
    /// A place was told.
    Told,
    /// It wasn't asked, since it has none of the times that are asked about.
    Outside,
}

impl Sort {
    fn name(self) -> &'static str {
        match self {
            Sort::Yes => "yes",
            Sort::No => "no",
            Sort::Told => "told",
            Sort::Outside => "outside",
        }
    }
}

/// What a trail answers.
pub struct Answer {
    pub sort: Sort,
    /// what people are told, in lines; of several files in one line each
    pub lines: Vec<String>,
    /// a line for each visit that is told
    pub visits: Vec<String>,
    /// what programs are told, beside the file and its unit
    pub fields: Vec<(&'static str, Json)>,
}

impl Answer {
    /// Of a trail that isn't asked.
    pub fn outside(trail: &Trail) -> Answer {
        let (first, last) = (trail.first(), trail.last());
        let span = trail.clock.span(first, last);
        Answer {
            sort: Sort::Outside,
            lines: vec![format!("not asked; the trail has {span}")],
            visits: Vec::new(),
            fields: vec![
                ("outside", Json::Truth(true)),
                ("first", Json::Whole(first.into())),
                ("last", Json::Whole(last.into())),
            ],
        }
    }

    fn print(self, trail: &Trail, several: bool, json: bool) -> Result<(), Failure> {
        if json {
            let file = ("file", Json::text(&trail.name));
            let unit = ("unit", Json::unit(trail.unit()));
            let fields = [file, unit].into_iter().chain(self.fields);
            return output::print_json(Json::Object(fields.collect()));
        }
        let (name, lines) = match several {
            true => {
                let name = format!("{}: ", words::shown(&trail.name));
                (name, vec![self.lines.join("; ")])
            }
            false => (String::new(), self.lines),
        };
        let lines = lines.iter().chain(&self.visits);
        output::print(
            &lines
                .map(|line| format!("{name}{line}\n"))
                .collect::<String>(),
        )
    }
}

/// Asks the trail of each file, and tells of all if there are several: how many answers were of each of these sorts.
pub fn of_each(
    arguments: &Arguments,
    names: &[OsString],
    sorts: &[Sort],
    ask: impl Fn(&Trail) -> Result<Answer, Failure>,
) -> Result<Status, Failure> {
    let (clock, json) = (arguments.clock()?, arguments.has("--json"));
    arguments.can_read(names.iter().map(OsString::as_os_str))?;
    let mut answered = Vec::new();
    let ends = many::each(names, json, |name| {
        let trail = Trail::read(name, clock)?;
        let answer = ask(&trail)?;
        answered.push((name.to_os_string(), answer.sort));
        answer.print(&trail, names.len() > 1, json)
    })?;
    let of_sort = |sort: &Sort| -> Vec<OsString> {
        let same = answered.iter().filter(|(_, answer)| answer == sort);
        same.map(|(name, _)| name.clone()).collect()
    };
    let count = |sort: &Sort| (sort.name(), of_sort(sort).len());
    let summary = Summary {
        counts: sorts.iter().map(count).collect(),
        more: named("yes", &of_sort(&Sort::Yes)),
        fields: Vec::new(),
    };
    ends.tell(summary, json)
}
