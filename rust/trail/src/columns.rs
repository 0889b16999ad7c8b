//! Columns under a line with their names: those that a text may have, and those that `trail list --csv` prints.

use std::fmt::Write as _;

use trails::{AnyFix, Unit};

use crate::lines;
use crate::texts::{thinned, Said, Words, NOT_BOTH};
use crate::trail::Trail;
use crate::words;

/// What a text's columns may be, for messages.
const KNOWN: &str =
    "columns are time (or t), x, y and silence; x_cm and y_cm, or x_mm and y_mm, name the unit";

/// What a column has.
#[derive(Clone, Copy, PartialEq, Eq)]
enum Field {
    Time,
    X,
    Y,
    Silence,
    /// the tolerance that the trail was thinned at
    Mark,
}

impl Field {
    const ALL: [Field; 5] = [Field::Time, Field::X, Field::Y, Field::Silence, Field::Mark];

    fn name(self) -> &'static str {
        match self {
            Field::Time => "time",
            Field::X => "x",
            Field::Y => "y",
            Field::Silence => "silence",
            Field::Mark => "mark",
        }
    }

    fn is_length(self) -> bool {
        matches!(self, Field::X | Field::Y | Field::Mark)
    }
}

/// A column, and the unit of its lengths if its name has one.
#[derive(Clone, Copy)]
struct Column {
    field: Field,
    unit: Option<Unit>,
}

impl Column {
    /// A column that nobody knows might be a misspelt silence, so there may be none.
    fn named(name: &str) -> Result<Column, String> {
        let lower = name.to_ascii_lowercase();
        let (field, unit) = match lower.split_once('_') {
            Some((field, symbol)) => (field, Some(symbol)),
            None if lower == "t" => (Field::Time.name(), None),
            None => (lower.as_str(), None),
        };
        let field = Field::ALL.into_iter().find(|one| one.name() == field);
        let of_unit = |symbol| Unit::ALL.into_iter().find(|unit| unit.symbol() == symbol);
        let found = match (field, unit.map(of_unit)) {
            (Some(field), None) => Some(Column { field, unit: None }),
            (Some(field), Some(unit @ Some(_))) if field.is_length() => {
                Some(Column { field, unit })
            }
            _ => None,
        };
        found.ok_or_else(|| format!("there is no column {}; {KNOWN}", words::quoted(name)))
    }
}

/// Where a field stands in each line, if it does.
fn position(columns: &[Column], field: Field) -> Result<Option<usize>, String> {
    let positions = columns.iter().enumerate();
    let mut positions = positions.filter(|(_, column)| column.field == field);
    let first = positions.next().map(|(at, _)| at);
    match positions.next() {
        None => Ok(first),
        Some(_) => Err(format!("two columns are {}", field.name())),
    }
}

/// The same of a field that must be there.
fn needed(columns: &[Column], field: Field) -> Result<usize, String> {
    let missing = || format!("no column is {}; {KNOWN}", field.name());
    position(columns, field)?.ok_or_else(missing)
}

/// The unit that the names of columns say, or else the caller.
fn unit(columns: &[Column], said: Unit) -> Result<Unit, String> {
    let mut lengths = columns.iter().filter(|column| column.field.is_length());
    let unit = lengths.next().and_then(|column| column.unit);
    if lengths.any(|column| column.unit != unit) {
        return Err("x and y are of different units, or one names none".into());
    }
    match (unit, said) {
        (Some(Unit::Centimetres), Unit::Millimetres) => {
            Err("the columns are in centimetres, and --millimetres says otherwise".into())
        }
        (unit, said) => Ok(unit.unwrap_or(said)),
    }
}

/// Where the fields of a fix stand in each line of a text.
pub struct Columns {
    pub unit: Unit,
    count: usize,
    time: usize,
    x: usize,
    y: usize,
    silence: Option<usize>,
}

impl Columns {
    pub fn of(names: &[&str], said: Said) -> Result<Columns, String> {
        let columns: Result<Vec<Column>, String> =
            names.iter().map(|name| Column::named(name)).collect();
        let columns = columns?;
        if position(&columns, Field::Mark)?.is_some() {
            return Err(thinned("there is a column with a mark"));
        }
        let found = Columns {
            unit: unit(&columns, said.unit)?,
            count: columns.len(),
            time: needed(&columns, Field::Time)?,
            x: needed(&columns, Field::X)?,
            y: needed(&columns, Field::Y)?,
            silence: position(&columns, Field::Silence)?,
        };
        let silent = found.silence.is_some() || said.after.is_some();
        match found.unit == Unit::Millimetres && silent {
            true => Err(NOT_BOTH.into()),
            false => Ok(found),
        }
    }

    /// The words that a line has in these columns.
    pub fn words<'a>(&self, fields: &[&'a str]) -> Result<Words<'a>, String> {
        if fields.len() != self.count {
            let entry = format!("the first line names {} columns", self.count);
            return Err(lines::miscounted(&entry, fields));
        }
        let word = |at: usize| fields.get(at).copied().unwrap_or_default();
        Ok(Words {
            time: word(self.time),
            x: word(self.x),
            y: word(self.y),
            silence: self.silence.map(word),
        })
    }
}

/// The fields that a trail has columns of.
fn fields(trail: &Trail) -> impl Iterator<Item = Field> + '_ {
    Field::ALL.into_iter().filter(|field| match field {
        Field::Silence => trail.kind.has_silences(),
        Field::Mark => trail.mark.is_some(),
        Field::Time | Field::X | Field::Y => true,
    })
}

fn word(trail: &Trail, fix: &AnyFix, field: Field) -> String {
    match field {
        Field::Time => trail.clock.show(fix.t),
        Field::X => fix.x.to_string(),
        Field::Y => fix.y.to_string(),
        Field::Silence => u8::from(fix.silence).to_string(),
        Field::Mark => trail.mark.map_or(String::new(), |mark| mark.to_string()),
    }
}

/// A trail's fixes in columns. One that was thinned has its mark beside each fix, where no other tool loses it without
/// being told to; `trail write` makes no trail of such columns.
pub fn text(trail: &Trail) -> String {
    let symbol = trail.unit().symbol();
    let name = |field: Field| match field.is_length() {
        true => format!("{}_{symbol}", field.name()),
        false => field.name().into(),
    };
    let names: Vec<String> = fields(trail).map(name).collect();
    let mut text = format!("{}\n", names.join(","));
    for fix in &trail.fixes {
        let words: Vec<String> = fields(trail).map(|field| word(trail, fix, field)).collect();
        // a text takes all that it is given
        let _ = writeln!(text, "{}", words.join(","));
    }
    text
}
