//! `trail replay`: tries a list of agings on a trail, and prints what each does.

use std::ffi::{OsStr, OsString};
use std::fmt::Write as _;

use trails::{Aging, Head, Kind, Refusal, Table, Unit};

use crate::arguments::{Arguments, Command};
use crate::failure::{refusal_fields, refusal_text, Failure, Status};
use crate::json::Json;
use crate::numbers::{whole, Range};
use crate::trail::{refused, Trail};
use crate::{files, lines, output, table, words};

pub const COMMAND: Command = Command {
    name: "replay",
    help: HELP,
    options: &["--table", "--epoch", "--json"],
    run,
};

const HELP: &str = "\
usage: trail replay [--table FILE] [--epoch TIME] [--json] FILE CALLS

Ages a copy of FILE's trail by each line of CALLS, which is

  tolerance E      or      days D

with E in the trail's unit, and prints each answer, refused ones too. Then it
prints E, the greatest tolerance that the calls applied ('none' if none did),
and the trail's listing with its mark and fixes. Of a trail marked never, the
fixes are those that one thinning at E keeps. FILE stays as it is. Empty lines
and comments from '#' on are skipped.

  --table FILE   take days by this table, as 'trail age' does
  --epoch TIME   print times on the clock; see 'trail help'
  --json         print one line:
                 {\"file\", \"unit\", \"answers\", \"E\", \"mark\", \"fixes\"}
";

/// What a call did: what it applied, how many fixes it left and how many it measured.
struct Done {
    aging: Aging,
    applied: Option<u16>,
    answer: Result<(u32, u32), Refusal>,
}

fn aging(unit: Unit, table: Table, fields: &[&str]) -> Result<Aging, String> {
    match fields {
        ["tolerance", number] => {
            let number = whole(number, Range::Tolerances(Some(unit)))?;
            Ok(Aging::Tolerance(number))
        }
        ["days", number] => Ok(Aging::Days(whole(number, Range::Days)?, table)),
        _ => Err("a call is 'tolerance E' or 'days D'".into()),
    }
}

fn make(aging: Aging, record: &mut [u8]) -> Done {
    // of a call that is turned away nothing
    let applied = aging.applies(record).ok().flatten();
    let measured = aging.apply(record);
    let answer = measured.and_then(|measured| Ok((trails::check(record)?.count, measured)));
    Done {
        aging,
        applied,
        answer,
    }
}

fn run(arguments: &Arguments) -> Result<Status, Failure> {
    let [name, calls]: &[OsString; 2] = arguments.exactly("a file and a list of calls")?;
    let table = arguments.file("--table");
    let names = [name, calls].map(OsString::as_os_str);
    arguments.can_read(names.into_iter().chain(table))?;
    let table = table::named(table)?;
    let Trail {
        bytes: mut record,
        kind,
        clock,
        ..
    } = Trail::read(name, arguments.clock()?)?;
    let text = files::read_text(calls)?;
    let calls = lines::entries(calls, &text, |fields| aging(kind.unit(), table, fields))?;
    let calls = calls.into_iter().map(|(_, aging)| aging);
    let done: Vec<Done> = calls.map(|aging| make(aging, &mut record)).collect();
    let answer = match arguments.has("--json") {
        true => answer(name, &done, &record).map(|json| format!("{json}\n")),
        false => text_of(&done, kind, &record).map(|text| clock.listing(&text)),
    };
    output::print(&answer.map_err(refused(name, &record))?)?;
    Ok(Status::Done)
}

/// E, the greatest tolerance that a call applied. What a call applies hangs on its own words and on the record's kind,
/// which no call changes, so this is what document 01's book has.
fn greatest(done: &[Done]) -> Option<u16> {
    done.iter().filter_map(|done| done.applied).max()
}

fn text_of(done: &[Done], kind: Kind, record: &[u8]) -> Result<String, Refusal> {
    let mut text = String::new();
    for Done { aging, answer, .. } in done {
        let (name, number) = named(*aging);
        let what = match answer {
            Ok((kept, measured)) => format!("kept {kept}, measured {measured}"),
            Err(refusal) => refusal_text(*refusal, kind),
        };
        // writing to a String never fails
        let _ = writeln!(text, "{name} {number}: {what}");
    }
    let greatest = words::applied(greatest(done), kind.unit());
    let listing = trails::list(record)?;
    Ok(format!("{text}E {greatest}\n{listing}"))
}

fn named(aging: Aging) -> (&'static str, u16) {
    match aging {
        Aging::Tolerance(tolerance) => ("tolerance", tolerance),
        Aging::Days(days, _) => ("days", days),
    }
}

fn answer(name: &OsStr, done: &[Done], record: &[u8]) -> Result<Json, Refusal> {
    let Head { kind, mark, .. } = trails::check(record)?;
    let one = |done: &Done| {
        let (name, number) = named(done.aging);
        let mut fields = vec![(name, Json::Whole(number.into()))];
        match done.answer {
            Ok((kept, measured)) => fields.extend([
                ("count", Json::Whole(kept.into())),
                ("measured", Json::Whole(measured.into())),
            ]),
            Err(refusal) => fields.extend(refusal_fields(refusal, kind)),
        }
        Json::Object(fields)
    };
    Ok(Json::Object(vec![
        ("file", Json::text(name)),
        ("unit", Json::unit(kind.unit())),
        ("answers", Json::List(done.iter().map(one).collect())),
        ("E", Json::mark(greatest(done))),
        ("mark", Json::mark(mark)),
        ("fixes", Json::fixes(kind, &trails::fixes(record)?.any())),
    ]))
}
