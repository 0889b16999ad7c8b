//! What `trail write` has made of a text, and of all texts, and how it is told.

use std::ffi::{OsStr, OsString};

use crate::anchors::Readings;
use crate::failure::{Failure, Status};
use crate::json::Json;
use crate::made::Made;
use crate::{output, split, words};

/// What is made of a text.
pub struct Written<'a> {
    pub from: &'a OsStr,
    pub to: &'a OsStr,
    /// how many fixes the text has
    pub fixes: usize,
    /// each with its file
    pub trails: Vec<(OsString, Made)>,
    /// if it has any
    pub readings: Option<Readings>,
}

impl Written<'_> {
    /// Done, but for readings that were refused.
    pub fn worst(&self) -> Status {
        let readings = self.readings.as_ref();
        readings.map_or(Status::Done, |readings| readings.worst)
    }

    fn bytes(&self) -> usize {
        let records = self.trails.iter().map(|(_, made)| made.record.len());
        records.sum()
    }

    /// Tells of a text's trails. Of one that goes to the file that is named, people needn't be told.
    pub fn tell(&self, split: bool, json: bool) -> Result<(), Failure> {
        if split {
            self.tell_of_others();
        }
        if json {
            return self.tell_programs();
        }
        let text = match (&self.readings, split) {
            (None, false) => return Ok(()),
            (None, true) => {
                let fixes = words::count(self.fixes as u64, "fix", "fixes");
                format!("{fixes}{}", self.parts())
            }
            (Some(readings), false) => readings.text(),
            (Some(readings), true) => format!("{}{}", readings.text(), self.parts()),
        };
        let text = format!("{}: {text}", words::shown(self.from));
        match self.to == "-" {
            // the standard output has the trail
            true => output::message(&text),
            false => output::print(&format!("{text}\n"))?,
        }
        Ok(())
    }

    /// How many trails there are, and which.
    fn parts(&self) -> String {
        let name = |trail: &(OsString, Made)| words::shown(&trail.0);
        let count = words::count(self.trails.len() as u64, "trail", "trails");
        match self.trails.as_slice() {
            [] => String::new(),
            [one] => format!(" in {count}, {}", name(one)),
            [first, .., last] => format!(" in {count}, {} to {}", name(first), name(last)),
        }
    }

    /// Earlier splits may have left trails beside these. They are somebody's, and stay.
    fn tell_of_others(&self) {
        let left = split::left(self.to, self.trails.len());
        let names: Vec<String> = left.iter().map(|name| words::shown(name)).collect();
        if !names.is_empty() {
            let (from, names) = (words::shown(self.from), names.join(", "));
            output::message(&format!(
                "{from}: not of this split, but there before: {names}"
            ));
        }
    }

    fn tell_programs(&self) -> Result<(), Failure> {
        let last = self.trails.len().saturating_sub(1);
        let mut trails = self.trails.iter().enumerate();
        trails.try_for_each(|(k, (name, made))| {
            let mut fields = made.fields(name);
            let readings = self.readings.iter().filter(|_| k == last);
            fields.extend(readings.flat_map(Readings::fields));
            output::print_json(Json::Object(fields))
        })
    }
}

/// What is made of all texts.
#[derive(Default)]
pub struct Sums {
    pub texts: usize,
    trails: usize,
    fixes: usize,
    bytes: usize,
}

impl Sums {
    pub fn add(&mut self, written: &Written) {
        self.texts += 1;
        self.trails += written.trails.len();
        self.fixes += written.fixes;
        self.bytes += written.bytes();
    }

    pub fn text(&self) -> String {
        let fixes = words::count(self.fixes as u64, "fix", "fixes");
        let trails = words::count(self.trails as u64, "trail", "trails");
        format!("; {fixes} in {trails}")
    }

    pub fn fields(&self) -> Vec<(&'static str, Json)> {
        let whole = |number: usize| Json::Whole(number as i128);
        vec![
            ("trails", whole(self.trails)),
            ("count", whole(self.fixes)),
            ("bytes", whole(self.bytes)),
        ]
    }
}
