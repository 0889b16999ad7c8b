//! `trail table`: checks a hall's aging table and prints it. Other commands read theirs here too.

use std::ffi::OsStr;

use trails::{Aging, Fix, Kind, MillimetreFix, OfKind, Refusal, Row, Table, Unit};

use crate::arguments::{Arguments, Command};
use crate::failure::{Fact, Failure, Refused, Spot, Status};
use crate::json::Json;
use crate::numbers::{whole, Range};
use crate::{files, lines, output, words};

pub const COMMAND: Command = Command {
    name: "table",
    help: HELP,
    options: &["--json"],
    run,
};

const HELP: &str = "\
usage: trail table [--json] [FILE]

Says whether FILE is a table that trails can be aged by, and prints it, or, if
no FILE is given, the built-in one. A table has a row in each line:

  day tolerance      or      day,tolerance

which says: from this day on, this tolerance, in centimetres whatever unit a
trail is in. There are 1 to 32 rows; days rise from row to row, tolerances
don't fall, and none is above 32,000. Empty lines, and comments from '#' to a
line's end, are skipped. A bad line is named with its number.

'trail age --days D --table FILE' thins at the tolerance of the last row whose
day isn't above D. Before the first row it thins nothing. A trail in
millimetres gets the lesser of ten times the row's and 60,000 mm.

What is printed is a table too, so the built-in one is a start for a hall's
own: each row with the days that it is for and what trails get on them.

  --json   print one line: {\"file\", \"rows\": [[day, cm, mm], ...]}, with null
           for the file of the built-in one
";

fn row(fields: &[&str]) -> Result<Row, String> {
    let [day, tolerance] = fields else {
        return Err(lines::miscounted("a row is 'day tolerance'", fields));
    };
    let tolerances = Range::Tolerances(Some(Unit::Centimetres));
    Ok(Row {
        day: whole(day, Range::Days).map_err(lines::named("day"))?,
        tolerance: whole(tolerance, tolerances).map_err(lines::named("tolerance"))?,
    })
}

/// The line of the row that a refusal is about: the first with which the rows are no table. One of their number is
/// about none.
fn refused_line(refusal: Refusal, lines: &[usize], rows: &[Row]) -> Option<usize> {
    if refusal != Refusal::BadRows {
        return None;
    }
    let refused = |k: &usize| Table::load(&rows[..=*k]) == Err(refusal);
    let k = (0..rows.len()).find(refused)?;
    lines.get(k).copied()
}

fn read(name: &OsStr) -> Result<Table, Failure> {
    let text = files::read_text(name)?;
    let entries = lines::entries(name, &text, row)?;
    let (lines, rows): (Vec<usize>, Vec<Row>) = entries.into_iter().unzip();
    Table::load(&rows).map_err(|refusal| {
        Failure::Refused(Refused {
            spot: Spot {
                line: refused_line(refusal, &lines, &rows),
                ..Spot::file(name)
            },
            refusal,
            // a table's limits are the same for every kind
            kind: Kind::Centimetres,
            fact: (refusal == Refusal::BadRowCount).then_some(Fact::Rows(rows.len())),
        })
    })
}

/// The table that a file has, or the built-in one if none is named.
pub fn named(name: Option<&OsStr>) -> Result<Table, Failure> {
    name.map_or_else(|| Ok(Table::built_in()), read)
}

/// What a row gives.
struct Given {
    row: Row,
    /// the last day that it is for
    last: u16,
    /// what trails in each of `Unit::ALL` get
    applied: [Option<u16>; 2],
}

/// What a trail of such fixes gets on a day.
fn applied<F: OfKind>(fix: F, day: u16, table: Table) -> Option<u16> {
    // neither a lone fix nor a table that was loaded is turned away
    let record = trails::write(&[fix]).ok()?;
    Aging::Days(day, table).applies(&record).ok()?
}

fn given(table: Table) -> Vec<Given> {
    let rows = table.rows();
    let next = rows.iter().skip(1).map(|next| next.day.saturating_sub(1));
    let given = |(row, last): (&Row, u16)| Given {
        row: *row,
        last,
        applied: [
            applied(Fix::new(0, 0, 0), row.day, table),
            applied(MillimetreFix::new(0, 0, 0), row.day, table),
        ],
    };
    rows.iter().zip(next.chain([u16::MAX])).map(given).collect()
}

/// A row as a line of a table, with what it gives in a comment.
fn line(given: &Given) -> String {
    let Row { day, tolerance } = given.row;
    let days = match given.last {
        u16::MAX => format!("from day {day}"),
        last if last == day => format!("day {day}"),
        last => format!("days {day} to {last}"),
    };
    let row = format!("{day} {tolerance}");
    let applied = Unit::ALL.into_iter().zip(given.applied);
    let applied = applied.map(|(unit, e)| words::applied(e, unit));
    let applied = applied.collect::<Vec<_>>().join(", or ");
    format!("{row:11} # {days}: {applied}\n")
}

fn text(all: &[Given]) -> String {
    let first = all.first().map_or(0, |first| first.row.day);
    let before = match first {
        0 => String::new(),
        day => format!("# before day {day}: none\n"),
    };
    all.iter().map(line).fold(before, |text, line| text + &line)
}

fn answer(name: Option<&OsStr>, all: &[Given]) -> Json {
    let row = |given: &Given| {
        let applied = given.applied.into_iter().map(Json::mark);
        let day = Json::Whole(given.row.day.into());
        Json::List([day].into_iter().chain(applied).collect())
    };
    Json::Object(vec![
        ("file", name.map_or(Json::Null, Json::text)),
        ("rows", Json::List(all.iter().map(row).collect())),
    ])
}

fn run(arguments: &Arguments) -> Result<Status, Failure> {
    let name = match arguments.words.as_slice() {
        [] => None,
        [name] => Some(name.as_os_str()),
        _ => return Err(arguments.wrong("it takes one table, or none for the built-in one")),
    };
    let all = given(named(name)?);
    match arguments.has("--json") {
        true => output::print_json(answer(name, &all))?,
        false => output::print(&text(&all))?,
    }
    Ok(Status::Done)
}
