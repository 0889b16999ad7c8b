//! A trail that a command has made.

use std::ffi::OsStr;

use trails::Kind;

use crate::failure::{Failure, Status};
use crate::json::Json;
use crate::output;
use crate::store::store;

pub struct Made {
    pub record: Vec<u8>,
    pub kind: Kind,
    pub count: usize,
    pub silences: usize,
}

impl Made {
    /// Stores it, and tells programs of it if they listen. The sources are what it is made of.
    pub fn store(&self, to: &OsStr, sources: &[&OsStr], json: bool) -> Result<Status, Failure> {
        store(to, sources, self.record.as_slice())?;
        if json {
            output::print_json(Json::Object(self.fields(to)))?;
        }
        Ok(Status::Done)
    }

    /// What programs are told of it.
    pub fn fields(&self, to: &OsStr) -> Vec<(&'static str, Json)> {
        vec![
            ("file", Json::text(to)),
            ("unit", Json::unit(self.kind.unit())),
            ("count", Json::Whole(self.count as i128)),
            ("silences", Json::silences(self.kind, self.silences)),
            ("bytes", Json::Whole(self.record.len() as i128)),
        ]
    }
}
