//! `trail age`: thins trails, by a tolerance or by days.

use std::ffi::{OsStr, OsString};
use std::io::Read;
use std::path::Path;

use trails::Aging;

use crate::aged::{age, age_in_place, try_in_place, Aged, Sums};
use crate::arguments::{Arguments, Command};
use crate::failure::{Failure, Status};
use crate::files::Inputs;
use crate::json::Json;
use crate::many::{Ends, Summary};
use crate::outputs::{keep_apart, Outputs};
use crate::progress::Progress;
use crate::store::store;
use crate::{files, output, table, words};

pub const COMMAND: Command = Command {
    name: "age",
    help: HELP,
    options: &[
        "--tolerance",
        "--days",
        "--table",
        "--dry-run",
        "-o",
        "--json",
    ],
    run,
};

const HELP: &str = "\
usage: trail age --tolerance E [--dry-run] [--json] FILE... [-o OUT]
       trail age --days D [--table FILE] [--dry-run] [--json] FILE... [-o OUT]

Thins each trail and puts it in its file's place: the new record, and what
followed the old one. The fixes that were thinned away are gone, and the file
is shorter by the bytes that were freed. Each stretch between silences is
thinned by itself, so both ends of a silence stay. Goes on past a refused file,
and of several files says at the end what they had and what is left.

The new file is written beside the old one, flushed, and given its name. Group,
permissions and access list stay, other attributes don't. The owner stays if
the owner or the superuser ages it; else the caller becomes the owner. The file
is locked from its reading on, so that agings at once are made one after the
other; one that waits ten seconds for it fails. A refused or failed aging
leaves the old file byte for byte, and so does one that can't keep its group.
An interrupted one may leave a FILE.tmp-NUMBER beside it, which can be deleted.
Of a file with several names only the given one is aged.

  --tolerance E  the tolerance in each trail's own unit: 0 to 32,000 cm, or
                 0 to 60,000 mm
  --days D       the tolerance that a table has for day D: that of its last row
                 whose day isn't above D. Before its first row nothing is
                 changed. Without --table it is the built-in one, which
                 'trail table' prints
  --table FILE   take this table, a hall's own, in place of the built-in one;
                 'trail table' says what it may be, and checks it. It is loaded
                 before any trail is looked at
  --dry-run      say what would be done, and store nothing: no file is changed,
                 locked or made, and one that is protected can be tried too
  -o OUT         store the aged trail there and leave FILE, which may then be
                 '-', the standard input. If OUT is '-', the standard output,
                 the answer is on standard error. If OUT is a folder or ends
                 with '/', the aged trail has FILE's name there. Those of
                 several files go to a folder, which is made if it isn't there
  --json         print one line for each file: {\"file\", \"unit\", \"mark\",
                 \"before\", \"count\", \"measured\", \"bytes_before\", \"bytes\",
                 \"freed\", \"dry_run\"}, with the record's fixes and bytes before
                 and after, {\"file\", \"refused\", \"sentence\"} or {\"file\",
                 \"failed\"}. Of several files the last line is {\"files\",
                 \"aged\", \"refused\": [names], \"failed\": [names]} with the
                 sums of these numbers
";

/// What the words ask for, before any file is read.
#[derive(Clone, Copy)]
enum Asked<'a> {
    Tolerance(u16),
    /// so many days, by the table that is named, or by the built-in one
    Days(u16, Option<&'a OsStr>),
}

impl<'a> Asked<'a> {
    fn of(arguments: &'a Arguments) -> Result<Asked<'a>, Failure> {
        let tolerance = arguments.number("--tolerance")?;
        let days = arguments.number("--days")?;
        match (tolerance, days, arguments.file("--table")) {
            (Some(tolerance), None, None) => Ok(Asked::Tolerance(tolerance)),
            (None, Some(days), table) => Ok(Asked::Days(days, table)),
            (Some(_), None, Some(_)) => Err(arguments.wrong("--table goes with --days")),
            _ => Err(arguments.wrong("it takes either --tolerance or --days")),
        }
    }

    fn table(self) -> Option<&'a OsStr> {
        match self {
            Asked::Tolerance(_) => None,
            Asked::Days(_, table) => table,
        }
    }

    /// The same with its table, which is read.
    fn aging(self) -> Result<Aging, Failure> {
        Ok(match self {
            Asked::Tolerance(tolerance) => Aging::Tolerance(tolerance),
            Asked::Days(days, name) => Aging::Days(days, table::named(name)?),
        })
    }
}

/// Where the aged trails go, if not to their own places.
fn outputs(
    arguments: &Arguments,
    names: &[OsString],
    table: Option<&OsStr>,
) -> Result<Option<Outputs>, Failure> {
    if !arguments.has("-o") {
        return match names.iter().any(|name| name == "-") {
            true => Err(arguments.wrong("'-' can't be aged in place; give -o too")),
            false => Ok(None),
        };
    }
    let read = names.iter().map(OsString::as_os_str);
    arguments.can_read(read.clone().chain(table))?;
    let own = |name: &Path| name.file_name().map(OsStr::to_os_string);
    let outputs = Outputs::of(arguments, names, own)?;
    let itself = match names {
        [_] => "-o names the trail itself; leave -o out to age it in its place",
        _ => "an output is one of the trails; leave -o out to age them in their places",
    };
    keep_apart(arguments, &outputs.names, &Inputs::of(read), itself)?;
    let table = Inputs::of(table);
    keep_apart(arguments, &outputs.names, &table, "-o names the table")?;
    Ok(Some(outputs))
}

/// Where an aged trail goes.
#[derive(Clone, Copy)]
enum Target<'a> {
    Itself,
    /// one of the outputs
    Output(&'a Outputs, &'a OsStr),
}

/// What is done with each trail, and how it is told.
struct Ages {
    aging: Aging,
    outputs: Option<Outputs>,
    dry: bool,
    json: bool,
}

impl Ages {
    /// Where each of so many trails goes.
    fn targets(&self, files: usize) -> Vec<Target<'_>> {
        let Some(outputs) = &self.outputs else {
            return vec![Target::Itself; files];
        };
        let names = outputs.names.iter();
        names.map(|to| Target::Output(outputs, to)).collect()
    }

    fn age(&self, name: &OsStr, target: Target) -> Result<Aged, Failure> {
        let (outputs, to) = match target {
            Target::Output(outputs, to) => (outputs, to),
            Target::Itself if self.dry => return try_in_place(name, self.aging),
            Target::Itself => return age_in_place(name, self.aging),
        };
        let (bytes, rest) = files::begin(name)?;
        let aged = age(name, bytes, self.aging)?;
        if !self.dry {
            outputs.make_folder()?;
            store(to, &[name], aged.bytes.chain(rest))?;
        }
        Ok(aged)
    }

    fn text(&self, name: &OsStr, aged: &Aged) -> String {
        let (kept, freed) = match self.dry {
            true => ("would keep", "would free"),
            false => ("kept", "freed"),
        };
        let (file, after) = (words::shown(name), aged.after);
        let fixes = format!("{} of {} fixes", after.count, aged.before.count);
        let (measured, mark) = (aged.measured, words::mark(after.mark, after.unit()));
        let bytes = Sums::of(aged).freed();
        format!("{file}: {kept} {fixes}, measured {measured}, mark {mark}, {freed} {bytes} bytes")
    }

    fn fields(&self, name: &OsStr, aged: &Aged) -> Json {
        let mut fields = vec![
            ("file", Json::text(name)),
            ("unit", Json::unit(aged.after.unit())),
            ("mark", Json::mark(aged.after.mark)),
        ];
        fields.extend(Sums::of(aged).fields(self.dry));
        Json::Object(fields)
    }

    /// Tells what an aging did: it is done whether or not that is heard, so people are told in any case.
    fn tell(&self, name: &OsStr, target: Target, aged: &Aged) -> Result<(), Failure> {
        let text = self.text(name, aged);
        if matches!(target, Target::Output(_, to) if to == "-") {
            // the standard output has the trail
            output::message(&text);
            return Ok(());
        }
        let told = match self.json {
            true => output::print_json(self.fields(name, aged)),
            false => output::print(&format!("{text}\n")),
        };
        if told.is_err() {
            output::message(&text);
        }
        told
    }

    /// Ages file after file, whatever becomes of one.
    fn all(&self, names: &[OsString]) -> Result<Status, Failure> {
        let mut progress = Progress::of(names.len());
        let (mut ends, mut sums) = (Ends::new(), Sums::default());
        let mut heard = Ok(());
        for (name, target) in names.iter().zip(self.targets(names.len())) {
            let aged = progress.during(|| self.age(name, target));
            if let Some(aged) = ends.take(name, aged, self.json) {
                sums.add(&Sums::of(&aged));
                heard = heard.and(self.tell(name, target, &aged));
            }
        }
        let summary = Summary {
            counts: vec![("aged", sums.files)],
            more: sums.text(self.dry),
            fields: sums.fields(self.dry),
        };
        heard.and(ends.tell(summary, self.json))
    }
}

fn run(arguments: &Arguments) -> Result<Status, Failure> {
    let asked = Asked::of(arguments)?;
    let names = arguments.several("one file or more")?;
    let outputs = outputs(arguments, names, asked.table())?;
    let ages = Ages {
        aging: asked.aging()?,
        outputs,
        dry: arguments.has("--dry-run"),
        json: arguments.has("--json"),
    };
    ages.all(names)
}
