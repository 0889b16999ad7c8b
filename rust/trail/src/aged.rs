//! What an aging does to a trail, and what agings of many trails come to.

use std::ffi::OsStr;
use std::io::Read;

use trails::{in_threes, Aging, Head};

use crate::failure::Failure;
use crate::files;
use crate::json::Json;
use crate::store::{is_plain, Locked};
use crate::trail::refused;

/// What an aging did to a trail.
pub struct Aged {
    pub before: Head,
    pub after: Head,
    pub measured: u32,
    /// the new record, and what has been read of what followed the old one
    pub bytes: Vec<u8>,
}

/// Ages the record that the bytes begin with. The old record's rest goes: a new head would bring back what was thinned
/// away.
pub fn age(name: &OsStr, mut bytes: Vec<u8>, aging: Aging) -> Result<Aged, Failure> {
    let before = trails::check(&bytes).map_err(refused(name, &bytes))?;
    let measured = aging.apply(&mut bytes).map_err(refused(name, &bytes))?;
    let after = trails::check(&bytes).map_err(refused(name, &bytes))?;
    bytes.drain(after.length()..before.length());
    Ok(Aged {
        before,
        after,
        measured,
        bytes,
    })
}

pub fn age_in_place(name: &OsStr, aging: Aging) -> Result<Aged, Failure> {
    let locked = Locked::read(name)?;
    let was = files::read_start(&mut &locked.file).map_err(files::failed(name))?;
    let aged = age(name, was.clone(), aging)?;
    if aged.bytes != was {
        locked.replace(name, &was, aged.bytes.chain(&locked.file))?;
    }
    Ok(aged)
}

/// What aging it in its place would do. It needn't be opened to be written, and isn't locked.
pub fn try_in_place(name: &OsStr, aging: Aging) -> Result<Aged, Failure> {
    is_plain(name).map_err(files::failed(name))?;
    let (bytes, _) = files::begin(name)?;
    age(name, bytes, aging)
}

/// What trails had, and what is left of them.
#[derive(Default)]
pub struct Sums {
    pub files: usize,
    before: u64,
    count: u64,
    measured: u64,
    bytes_before: u64,
    bytes: u64,
}

impl Sums {
    pub fn of(aged: &Aged) -> Sums {
        Sums {
            files: 1,
            before: aged.before.count.into(),
            count: aged.after.count.into(),
            measured: aged.measured.into(),
            bytes_before: aged.before.length() as u64,
            bytes: aged.after.length() as u64,
        }
    }

    pub fn add(&mut self, other: &Sums) {
        self.files += other.files;
        self.before += other.before;
        self.count += other.count;
        self.measured += other.measured;
        self.bytes_before += other.bytes_before;
        self.bytes += other.bytes;
    }

    pub fn freed(&self) -> u64 {
        self.bytes_before.saturating_sub(self.bytes)
    }

    /// What people are told of all files.
    pub fn text(&self, dry: bool) -> String {
        let numbers = [self.before, self.count, self.bytes_before, self.bytes];
        let [before, count, bytes_before, bytes] = numbers.map(in_threes);
        let stored = match dry {
            true => "; nothing is stored",
            false => "",
        };
        format!("; {before} fixes to {count}, {bytes_before} bytes to {bytes}{stored}")
    }

    /// What programs are told, of one file and of all.
    pub fn fields(&self, dry: bool) -> Vec<(&'static str, Json)> {
        vec![
            ("before", Json::Whole(self.before.into())),
            ("count", Json::Whole(self.count.into())),
            ("measured", Json::Whole(self.measured.into())),
            ("bytes_before", Json::Whole(self.bytes_before.into())),
            ("bytes", Json::Whole(self.bytes.into())),
            ("freed", Json::Whole(self.freed().into())),
            ("dry_run", Json::Truth(dry)),
        ]
    }
}
