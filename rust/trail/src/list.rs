//! `trail list`: prints a trail's fixes, for people, for `trail write` and for other tools.

use std::ffi::OsString;

use crate::arguments::{Arguments, Command};
use crate::failure::{Failure, Status};
use crate::json::Json;
use crate::trail::{refused, Trail};
use crate::{columns, geojson, output};

pub const COMMAND: Command = Command {
    name: "list",
    help: HELP,
    options: &["--epoch", "--csv", "--geojson", "--json"],
    run,
};

const HELP: &str = "\
usage: trail list [--epoch TIME] [--csv | --geojson | --json] FILE

Prints the trail that FILE begins with: its count and mark ('never' for one
that was never thinned), then time, x and y of each fix, with 'silence' where
one follows, then 'end'. The unit of its lengths isn't in it; 'trail check'
says that.

  --epoch TIME  print times on the clock; see 'trail help'
  --csv         print columns under a line with their names: time, x_cm and
                y_cm, or x_mm and y_mm, and if the trail can have silences
                silence, 1 where one follows and else 0. A trail that was
                thinned has a column mark_cm or mark_mm too, the same in each
                line. Of one that wasn't, 'trail write' makes the same trail
                again
  --geojson     print GeoJSON, which a GIS opens: a LineString for each stretch
                between silences, or a Point for one that has one fix. Places
                are in metres on the hall's own plane, without longitude and
                latitude. The properties of each are \"name\", \"unit\", \"mark\"
                (in metres, or null), \"stretch\" and \"stretches\" (which it is
                of how many), \"first\", \"last\" and \"times\", a time for each
                position: seconds, or times with their dates if --epoch has one
  --json        print one line:
                {\"file\", \"unit\", \"count\", \"mark\", \"fixes\": [[t, x, y], ...]};
                if the trail can have silences, a fix is [t, x, y, 1] where one
                follows, and else [t, x, y, 0]
";

/// What a trail is printed as.
enum Format {
    Listing,
    Csv,
    Geojson,
    Json,
}

impl Format {
    fn of(arguments: &Arguments) -> Result<Format, Failure> {
        let given = ["--csv", "--geojson", "--json"].map(|option| arguments.has(option));
        match given {
            [false, false, false] => Ok(Format::Listing),
            [true, false, false] => Ok(Format::Csv),
            [false, true, false] => Ok(Format::Geojson),
            [false, false, true] => Ok(Format::Json),
            _ => Err(arguments.wrong("it takes one of --csv, --geojson and --json")),
        }
    }
}

fn run(arguments: &Arguments) -> Result<Status, Failure> {
    let [name]: &[OsString; 1] = arguments.exactly("one file")?;
    let format = Format::of(arguments)?;
    let trail = Trail::read(name, arguments.clock()?)?;
    match format {
        Format::Listing => {
            let text = trails::list(&trail.bytes).map_err(refused(name, &trail.bytes))?;
            output::print(&trail.clock.listing(&text))?;
        }
        Format::Csv => output::print(&columns::text(&trail))?,
        Format::Geojson => output::print_json(geojson::collection(&trail))?,
        Format::Json => output::print_json(fields(&trail))?,
    }
    Ok(Status::Done)
}

fn fields(trail: &Trail) -> Json {
    Json::Object(vec![
        ("file", Json::text(&trail.name)),
        ("unit", Json::unit(trail.unit())),
        ("count", Json::Whole(trail.fixes.len() as i128)),
        ("mark", Json::mark(trail.mark)),
        ("fixes", Json::fixes(trail.kind, &trail.fixes)),
    ])
}
