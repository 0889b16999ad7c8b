//! What a text with fixes may be: a fix in each line, columns under a line with their names, or what `trail list` prints.
//!
//! Its first entry says which. A trail that is made of a text is marked never thinned, so a text that says that its
//! trail was thinned is turned away: the record would lie about its original.

use std::ffi::OsStr;

use trails::{AnyFix, Kind, Unit};

use crate::clock::Clock;
use crate::columns::Columns;
use crate::failure::{Failure, Spot};
use crate::numbers::{is_number, whole, Range};
use crate::{lines, words};

/// Why a text and its options may not fit each other.
pub const NOT_BOTH: &str = "no kind of trail has millimetres and silences";

/// A fix with the number of its line.
pub type Numbered = (usize, AnyFix);

/// What the caller says of a text.
#[derive(Clone, Copy)]
pub struct Said {
    pub clock: Clock,
    /// the unit of its places, unless its columns name it
    pub unit: Unit,
    /// a silence is also where more than so many seconds pass
    pub after: Option<u32>,
}

/// The words that a line has for a fix.
pub struct Words<'a> {
    pub time: &'a str,
    pub x: &'a str,
    pub y: &'a str,
    pub silence: Option<&'a str>,
}

/// A fix as a line has it.
pub struct Line {
    pub t: u32,
    pub x: i32,
    pub y: i32,
    /// what it says of a silence, if anything
    pub silence: Option<bool>,
}

impl Line {
    /// One that says nothing of a silence.
    pub fn new(t: u32, x: impl Into<i32>, y: impl Into<i32>) -> Line {
        Line {
            t,
            x: x.into(),
            y: y.into(),
            silence: None,
        }
    }
}

/// A place's number. One that its unit's record has no room for is no number of a line; all others the writer judges.
fn place(word: &str, unit: Unit) -> Result<i32, String> {
    let range = Range::Places(Some(unit));
    match unit {
        Unit::Centimetres => whole::<i16>(word, range).map(i32::from),
        Unit::Millimetres => whole(word, range),
    }
}

fn silence(word: &str) -> Result<bool, String> {
    match word {
        "silence" | "1" => Ok(true),
        "-" | "0" | "" => Ok(false),
        other => {
            let other = words::quoted(other);
            Err(format!("{other} isn't 'silence', '1', '-' or '0'"))
        }
    }
}

impl Words<'_> {
    fn line(&self, clock: Clock, unit: Unit) -> Result<Line, String> {
        let said = self.silence.map(silence).transpose();
        let line = Line {
            t: clock.second(self.time).map_err(lines::named("time"))?,
            x: place(self.x, unit).map_err(lines::named("x"))?,
            y: place(self.y, unit).map_err(lines::named("y"))?,
            silence: said.map_err(lines::named("silence"))?,
        };
        match (unit, line.silence) {
            (Unit::Millimetres, Some(_)) => Err(NOT_BOTH.into()),
            _ => Ok(line),
        }
    }
}

/// The words of a line that has nothing but its fix.
fn plain<'a>(fields: &[&'a str]) -> Result<Words<'a>, String> {
    let (time, x, y, silence) = match *fields {
        [time, x, y] => (time, x, y, None),
        [time, x, y, silence] => (time, x, y, Some(silence)),
        _ => {
            let entry = "a fix is 'time x y' or 'time x y silence'";
            return Err(lines::miscounted(entry, fields));
        }
    };
    Ok(Words {
        time,
        x,
        y,
        silence,
    })
}

/// How far a listing has been read.
struct Listing {
    /// how many fixes it says that it has
    count: usize,
    seen: usize,
    ended: bool,
}

impl Listing {
    /// By its first line, `trail COUNT MARK`.
    fn of(fields: &[&str]) -> Result<Listing, String> {
        let &[_, count, mark] = fields else {
            let entry = "a listing begins with 'trail COUNT MARK'";
            return Err(lines::miscounted(entry, fields));
        };
        if mark != "never" {
            return Err(thinned(&format!("mark {}", words::quoted(mark))));
        }
        Ok(Listing {
            count: whole(count, Range::Counts).map_err(lines::named("count"))?,
            seen: 0,
            ended: false,
        })
    }

    /// The words of a line's fix, or none if it is the last line.
    fn words<'a>(&mut self, fields: &[&'a str]) -> Result<Option<Words<'a>>, String> {
        match fields {
            _ if self.ended => Err("the listing has ended, and here something follows".into()),
            ["fix", fix @ ..] => {
                self.seen += 1;
                plain(fix).map(Some)
            }
            ["end"] => {
                self.ended = true;
                self.complete().map(|()| None)
            }
            _ => Err("a listing has lines 'fix TIME X Y', and then 'end'".into()),
        }
    }

    /// Whether all is there that its first line says.
    fn complete(&self) -> Result<(), String> {
        let Listing { count, seen, ended } = *self;
        match ended {
            false => Err(format!(
                "the listing is torn: it has {seen} of {count} fixes, and no 'end'"
            )),
            true if seen != count => Err(format!("the listing says {count} fixes, and has {seen}")),
            true => Ok(()),
        }
    }
}

/// Why what says that it was thinned is turned away.
pub fn thinned(what: &str) -> String {
    format!("{what}: that trail was thinned, and what is written is marked never thinned")
}

/// What a text is.
enum Form {
    Plain,
    Columns(Columns),
    Listing(Listing),
}

impl Form {
    /// By the text's first entry. The names of columns begin as no number does.
    fn of(fields: &[&str], said: Said) -> Result<Form, String> {
        let named = |field: &&str| !is_number(OsStr::new(field));
        if fields.first() == Some(&"trail") {
            return Listing::of(fields).map(Form::Listing);
        }
        match fields.iter().all(named) {
            true => Columns::of(fields, said).map(Form::Columns),
            false => Ok(Form::Plain),
        }
    }
}

/// A text that is being read.
struct Reader {
    said: Said,
    form: Option<Form>,
}

impl Reader {
    fn unit(&self) -> Unit {
        match &self.form {
            Some(Form::Columns(columns)) => columns.unit,
            _ => self.said.unit,
        }
    }

    /// The fix that an entry has, if it has one.
    fn entry(&mut self, fields: &[&str]) -> Result<Option<Line>, String> {
        let found = match &mut self.form {
            Some(Form::Plain) => plain(fields).map(Some),
            Some(Form::Columns(columns)) => columns.words(fields).map(Some),
            Some(Form::Listing(listing)) => listing.words(fields),
            None => match self.form.insert(Form::of(fields, self.said)?) {
                Form::Plain => plain(fields).map(Some),
                // the first entry of the others has no fix
                Form::Columns(_) | Form::Listing(_) => Ok(None),
            },
        };
        let line = |words: Words| words.line(self.said.clock, self.unit());
        found?.map(line).transpose()
    }

    /// Whether the text has all that it says.
    fn complete(&self) -> Result<(), String> {
        match &self.form {
            Some(Form::Listing(listing)) => listing.complete(),
            _ => Ok(()),
        }
    }
}

/// What a text has: its lines, each with its number.
pub struct Text {
    pub unit: Unit,
    pub lines: Vec<(usize, Line)>,
}

pub fn read(from: &OsStr, text: &[u8], said: Said) -> Result<Text, Failure> {
    let form = None;
    let mut reader = Reader { said, form };
    let entries = lines::entries(from, text, |fields| reader.entry(fields))?;
    let complete = reader.complete();
    complete.map_err(|what| Failure::Line(Spot::file(from), what))?;
    let lines = entries.into_iter();
    let lines = lines.filter_map(|(number, line)| Some((number, line?)));
    Ok(Text {
        unit: reader.unit(),
        lines: lines.collect(),
    })
}

impl Text {
    /// Its fixes and their kind: with silences if a line says one way or the other, or if they are where more than so
    /// many seconds pass.
    pub fn fixes(self, after: Option<u32>) -> (Kind, Vec<Numbered>) {
        let mut lines = self.lines.iter();
        let silent = after.is_some() || lines.any(|(_, line)| line.silence.is_some());
        let kind = match (self.unit, silent) {
            (Unit::Millimetres, _) => Kind::Millimetres,
            (Unit::Centimetres, true) => Kind::Silences,
            (Unit::Centimetres, false) => Kind::Centimetres,
        };
        let fix = |(number, Line { t, x, y, silence })| {
            let silence = silence == Some(true);
            (number, AnyFix { t, x, y, silence })
        };
        let mut fixes: Vec<Numbered> = self.lines.into_iter().map(fix).collect();
        if let Some(after) = after {
            fall_silent(&mut fixes, after);
        }
        (kind, fixes)
    }
}

/// Sets a silence wherever the next fix is more than so many seconds later.
fn fall_silent(fixes: &mut [Numbered], after: u32) {
    let later: Vec<u32> = fixes.iter().skip(1).map(|(_, fix)| fix.t).collect();
    for ((_, fix), next) in fixes.iter_mut().zip(later) {
        fix.silence |= next.saturating_sub(fix.t) > after;
    }
}
