//! The words that a command is given: options with their values, and the rest.

use std::ffi::{OsStr, OsString};
use std::iter::Peekable;
use std::os::unix::ffi::OsStrExt;
use std::path::Path;
use std::str::FromStr;

use trails::{Area, Point, Window};

use crate::clock::Clock;
use crate::failure::{Failure, Status};
use crate::numbers::whole;
use crate::options::{is_option, parted, Choice, OPTIONS};
use crate::{files, words};

/// One of the commands that `trail` has.
pub struct Command {
    pub name: &'static str,
    pub help: &'static str,
    /// the names of the options that it takes, all of them in `OPTIONS`
    pub options: &'static [&'static str],
    pub run: fn(&Arguments) -> Result<Status, Failure>,
}

/// The file of this name, also if it is `-`, which elsewhere is no file.
fn file_named(word: &OsStr) -> OsString {
    match word == "-" {
        true => Path::new(".").join(word).into_os_string(),
        false => word.to_os_string(),
    }
}

pub struct Arguments {
    /// the words that aren't options
    pub words: Vec<OsString>,
    given: Vec<(&'static Choice, Vec<OsString>)>,
    command: &'static str,
}

impl Arguments {
    pub fn parse(command: &Command, words: &[OsString]) -> Result<Arguments, Failure> {
        let mut arguments = Arguments {
            words: Vec::new(),
            given: Vec::new(),
            command: command.name,
        };
        let mut rest = words.iter().map(OsString::as_os_str).peekable();
        while let Some(word) = rest.next() {
            if word == "--" {
                arguments.words.extend(rest.by_ref().map(file_named));
            } else if is_option(word) {
                arguments.take(command, word, &mut rest)?;
            } else {
                arguments.words.push(word.to_os_string());
            }
        }
        Ok(arguments)
    }

    /// Takes an option with its values.
    fn take<'a>(
        &mut self,
        command: &Command,
        word: &OsStr,
        rest: &mut Peekable<impl Iterator<Item = &'a OsStr>>,
    ) -> Result<(), Failure> {
        let (name, joined) = parted(word);
        let taken = |choice: &&Choice| command.options.contains(&choice.name);
        let mut taken = OPTIONS.iter().filter(taken);
        let Some(choice) = taken.find(|choice| name == choice.name) else {
            let shown = words::harmless(name);
            return Err(self.wrong(&format!("there is no option '{shown}'")));
        };
        let name = choice.name;
        if self.has(name) {
            return Err(self.wrong(&format!("{name} is given twice")));
        }
        let values = match joined {
            Some(values) => choice.parts(values),
            None => choice.next(rest),
        };
        choice
            .counts(values.len())
            .map_err(|what| self.wrong(&what))?;
        self.given.push((choice, values));
        Ok(())
    }

    /// Wrong usage, and where to find the right one.
    pub fn wrong(&self, what: &str) -> Failure {
        let name = self.command;
        Failure::Usage(format!("{name}: {what}; try 'trail {name} --help'"))
    }

    fn given(&self, name: &str) -> Option<(&'static Choice, &[OsString])> {
        let found = self.given.iter().find(|(choice, _)| choice.name == name);
        found.map(|(choice, values)| (*choice, values.as_slice()))
    }

    pub fn has(&self, name: &str) -> bool {
        self.given(name).is_some()
    }

    /// The words that aren't options, if they are so many.
    pub fn exactly<const N: usize>(&self, what: &str) -> Result<&[OsString; N], Failure> {
        let words = self.words.as_slice().try_into();
        words.map_err(|_| self.wrong(&format!("it takes {what}")))
    }

    /// The words that aren't options, if there are any.
    pub fn several(&self, what: &str) -> Result<&[OsString], Failure> {
        if self.words.is_empty() {
            return Err(self.wrong(&format!("it takes {what}")));
        }
        Ok(&self.words)
    }

    /// The file that an option names.
    pub fn file(&self, name: &str) -> Option<&OsStr> {
        let (_, values) = self.given(name)?;
        values.first().map(OsString::as_os_str)
    }

    /// Whether these files can all be read: the standard input can be only one of them.
    pub fn can_read<'a>(&self, names: impl IntoIterator<Item = &'a OsStr>) -> Result<(), Failure> {
        match names.into_iter().filter(|name| *name == "-").count() {
            0..=1 => Ok(()),
            _ => Err(self.wrong("only one file can be the standard input")),
        }
    }

    /// The file that a command stores, which it can't do without.
    pub fn output(&self) -> Result<&OsStr, Failure> {
        let to = self.file("-o");
        let to = to.ok_or_else(|| self.wrong("-o OUT is missing"))?;
        let to = match to.as_bytes() {
            b"/dev/stdout" | b"/dev/fd/1" | b"/proc/self/fd/1" => OsStr::new("-"),
            _ => to,
        };
        if to == "-" && self.has("--json") {
            return Err(self.wrong("--json and '-o -' both want the standard output"));
        }
        self.not_printed_to(to)?;
        Ok(to)
    }

    /// Wrong usage if an output is the file that answers are printed to.
    pub fn not_printed_to(&self, to: &OsStr) -> Result<(), Failure> {
        match files::is_printed_to(to) {
            true => Err(self.wrong("-o and the standard output are one file")),
            false => Ok(()),
        }
    }

    /// The values that an option has, if it is given, each read so.
    fn values<V>(
        &self,
        name: &str,
        read: impl Fn(&str) -> Result<V, String>,
    ) -> Result<Option<Vec<V>>, Failure> {
        let Some((choice, values)) = self.given(name) else {
            return Ok(None);
        };
        let value = |(value, named): (&OsString, &&str)| {
            let value = read(&value.to_string_lossy());
            value.map_err(|what| self.wrong(&format!("{name}, {named}: {what}")))
        };
        let values: Result<Vec<V>, Failure> = values.iter().zip(choice.values).map(value).collect();
        values.map(Some)
    }

    /// The numbers that an option has, if it is given.
    fn numbers<N: FromStr>(&self, name: &str) -> Result<Option<Vec<N>>, Failure> {
        let range = self.given(name).and_then(|(choice, _)| choice.range);
        range.map_or(Ok(None), |range| {
            self.values(name, |word| whole(word, range))
        })
    }

    pub fn number<N: FromStr>(&self, name: &str) -> Result<Option<N>, Failure> {
        let numbers = self.numbers(name)?;
        Ok(numbers.and_then(|numbers| numbers.into_iter().next()))
    }

    /// What an option's word stands for, if it is given: each of its words stands for the value at its place.
    pub fn one_of<V: Copy>(&self, name: &str, all: &[V]) -> Result<Option<V>, Failure> {
        let words = self.given(name).map_or(&[][..], |(choice, _)| choice.words);
        let meant = |word: &str| {
            let mut values = words.iter().zip(all);
            let found = values.find(|(name, _)| **name == word);
            let names = words.join(", ");
            let wrong = || format!("{} isn't one of {names}", words::quoted(word));
            found.map(|(_, value)| *value).ok_or_else(wrong)
        };
        let values = self.values(name, meant)?;
        Ok(values.and_then(|values| values.into_iter().next()))
    }

    /// The clock that `--epoch` sets, or none.
    pub fn clock(&self) -> Result<Clock, Failure> {
        let clocks = self.values("--epoch", Clock::with_epoch)?;
        let clock = clocks.and_then(|clocks| clocks.into_iter().next());
        Ok(clock.unwrap_or_default())
    }

    /// How long something takes, if that is given: also as hours, minutes and seconds.
    pub fn duration(&self, name: &str) -> Result<Option<u32>, Failure> {
        let seconds = self.values(name, |word| Clock::default().second(word))?;
        Ok(seconds.and_then(|seconds| seconds.into_iter().next()))
    }

    pub fn area(&self) -> Result<Option<Area>, Failure> {
        let numbers: Option<Vec<i32>> = self.numbers("--box")?;
        let Some(&[left, right, bottom, top]) = numbers.as_deref() else {
            return Ok(None);
        };
        Ok(Some(Area {
            left,
            right,
            bottom,
            top,
        }))
    }

    pub fn point(&self) -> Result<Option<Point>, Failure> {
        let numbers: Option<Vec<i32>> = self.numbers("--point")?;
        let Some(&[x, y]) = numbers.as_deref() else {
            return Ok(None);
        };
        Ok(Some(Point { x, y }))
    }

    pub fn window(&self) -> Result<Option<Window>, Failure> {
        let clock = self.clock()?;
        let seconds = self.values("--window", |word| clock.second(word))?;
        let Some(&[start, end]) = seconds.as_deref() else {
            return Ok(None);
        };
        Ok(Some(Window { start, end }))
    }
}
