//! Files that are read.

use std::ffi::OsStr;
use std::fs::{self, File, Metadata};
use std::io::{self, Read};
use std::os::fd::AsFd;
use std::os::unix::fs::MetadataExt;

use trails::LONGEST;

use crate::failure::Failure;

/// A day has 86,400 seconds, and in this many bytes a line of 194 for each. A text that is longer is a mistake.
const TEXT_LIMIT: u64 = 16 << 20;

pub fn failed(name: &OsStr) -> impl FnOnce(io::Error) -> Failure + '_ {
    move |error| Failure::File(name.to_os_string(), error.to_string())
}

/// The file behind a stream of this program's. Rust's own streams read more than is asked for, and don't tell of an
/// output that can't be written.
pub fn behind(stream: impl AsFd) -> io::Result<File> {
    stream.as_fd().try_clone_to_owned().map(File::from)
}

/// A file, or the standard input if its name is `-`.
pub fn open(name: &OsStr) -> io::Result<File> {
    if name == "-" {
        return behind(io::stdin());
    }
    let file = File::open(name)?;
    match file.metadata()?.is_dir() {
        true => Err(io::Error::other("it is a folder")),
        false => Ok(file),
    }
}

/// Writes all that is read.
pub fn fill(mut to: &File, mut contents: impl Read) -> io::Result<()> {
    io::copy(&mut contents, &mut to)?;
    Ok(())
}

/// As many bytes as a record may have, or all if they are fewer.
pub fn read_start(from: &mut impl Read) -> io::Result<Vec<u8>> {
    let mut bytes = Vec::new();
    from.take(LONGEST as u64).read_to_end(&mut bytes)?;
    Ok(bytes)
}

/// What a file begins with, as far as it can be a record, and all that follows.
pub fn begin(name: &OsStr) -> Result<(Vec<u8>, File), Failure> {
    let begun = open(name).and_then(|mut file| Ok((read_start(&mut file)?, file)));
    begun.map_err(failed(name))
}

/// A text, whole.
pub fn read_text(name: &OsStr) -> Result<Vec<u8>, Failure> {
    let mut text = Vec::new();
    // one byte more than the most tells a text that has more
    let read = open(name).and_then(|file| file.take(TEXT_LIMIT + 1).read_to_end(&mut text));
    let read = read.and_then(|length| match length as u64 > TEXT_LIMIT {
        true => {
            let most = TEXT_LIMIT >> 20;
            Err(io::Error::other(format!("it has more than {most} MiB")))
        }
        false => Ok(text),
    });
    read.map_err(failed(name))
}

/// Whether two descriptions are of one plain file. Of a terminal both may be read and written.
pub fn are_one(one: &Metadata, other: &Metadata) -> bool {
    let place = |of: &Metadata| (of.dev(), of.ino());
    one.is_file() && place(one) == place(other)
}

/// What the system says of an input.
pub fn input(name: &OsStr) -> io::Result<Metadata> {
    match name == "-" {
        true => behind(io::stdin())?.metadata(),
        false => fs::metadata(name),
    }
}

/// What it says of an output.
fn output(name: &OsStr) -> io::Result<Metadata> {
    match name == "-" {
        true => behind(io::stdout())?.metadata(),
        false => fs::metadata(name),
    }
}

/// What the system says of the inputs of a run.
pub struct Inputs(Vec<Metadata>);

impl Inputs {
    pub fn of<'a>(names: impl IntoIterator<Item = &'a OsStr>) -> Inputs {
        let names = names.into_iter();
        Inputs(names.filter_map(|name| input(name).ok()).collect())
    }

    /// Whether an output is one of them, by whatever names.
    pub fn have(&self, to: &OsStr) -> bool {
        let mut inputs = self.0.iter();
        output(to).is_ok_and(|written| inputs.any(|read| are_one(read, &written)))
    }
}

/// Whether an input and an output are one file, by whatever names.
pub fn is_read(name: &OsStr, to: &OsStr) -> bool {
    Inputs::of([name]).have(to)
}

/// Whether an output is the file that answers are printed to: it would take its place, and they would be lost.
pub fn is_printed_to(to: &OsStr) -> bool {
    let printed = output(OsStr::new("-"));
    to != "-" && printed.is_ok_and(|one| output(to).is_ok_and(|other| are_one(&one, &other)))
}

/// Whether an output is a plain file that begins with a record, or that can't be read, and then may.
pub fn may_be_record(to: &OsStr) -> bool {
    let plain = to != "-" && fs::metadata(to).is_ok_and(|there| there.is_file());
    plain && begin(to).map_or(true, |(bytes, _)| trails::check(&bytes).is_ok())
}
