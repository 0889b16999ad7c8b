//! `trail check`: says whether files begin with a trail.

use std::ffi::OsStr;

use crate::arguments::{Arguments, Command};
use crate::clock::Clock;
use crate::failure::{Failure, Status};
use crate::json::Json;
use crate::trail::Trail;
use crate::{many, output, words};

pub const COMMAND: Command = Command {
    name: "check",
    help: HELP,
    options: &["--epoch", "--json"],
    run,
};

const HELP: &str = "\
usage: trail check [--epoch TIME] [--json] FILE...

Says of each FILE how many fixes its trail has, and if it can have silences how
many of those, from which second to which, in which unit its places are, and
its mark, or why it is refused. Goes on past a refused file.

  --epoch TIME  tell seconds on the clock; see 'trail help'
  --json        print one line for each file:
                {\"file\", \"unit\", \"count\", \"silences\", \"first\", \"last\",
                \"mark\"}, with null for the silences if the trail can have none,
                {\"file\", \"refused\", \"sentence\"} or {\"file\", \"failed\"}
";

fn run(arguments: &Arguments) -> Result<Status, Failure> {
    let json = arguments.has("--json");
    let clock = arguments.clock()?;
    let names = arguments.several("one file or more")?;
    let ends = many::each(names, json, |name| check(name, clock, json))?;
    Ok(ends.worst)
}

fn check(name: &OsStr, clock: Clock, json: bool) -> Result<(), Failure> {
    let trail = Trail::read(name, clock)?;
    let (count, first, last) = (trail.fixes.len(), trail.first(), trail.last());
    let silences = trail.silences().count();
    if !json {
        let (file, mark) = (words::shown(name), words::mark(trail.mark, trail.unit()));
        let silences = match trail.kind.has_silences() {
            true => format!(", silences {silences}"),
            false => String::new(),
        };
        let times = clock.span(first, last);
        let places = format!("places in {}", trail.unit().symbol());
        return output::print(&format!(
            "{file}: fixes {count}{silences}, {times}, {places}, mark {mark}\n"
        ));
    }
    output::print_json(Json::Object(vec![
        ("file", Json::text(name)),
        ("unit", Json::unit(trail.unit())),
        ("count", Json::Whole(count as i128)),
        ("silences", Json::silences(trail.kind, silences)),
        ("first", Json::Whole(first.into())),
        ("last", Json::Whole(last.into())),
        ("mark", Json::mark(trail.mark)),
    ]))
}
