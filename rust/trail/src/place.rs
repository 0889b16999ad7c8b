//! `trail place`: says where carts were at a moment.

use std::ffi::OsString;

use trails::{Moment, Place};

use crate::answer::{of_each, Answer, Sort};
use crate::arguments::{Arguments, Command};
use crate::failure::{Failure, Status};
use crate::json::Json;
use crate::meaning;
use crate::trail::Trail;

pub const COMMAND: Command = Command {
    name: "place",
    help: HELP,
    options: &["--within", "--epoch", "--json"],
    run,
};

const HELP: &str = "\
usage: trail place [--within] [--epoch TIME] [--json] FILE... SECOND[.mmm]

Prints where the cart was at a moment: x and y in whole centimetres, or in
whole millimetres if the trail is in those, halves away from 0, and the same
exactly, as fractions that aren't reduced. Then it says what that means of the
original, the trail as the cart reported it, straight between its fixes: if
FILE's trail was thinned, within which distance of the exact place the original
was at that moment. The mark is believed: of a record from elsewhere this holds
if its mark is right. Inside a silence nobody knows where the cart was: that is
refused, with the seconds at which the silence begins and ends; at these two a
place is told.

Of several FILEs each answer is in a line that begins with the file's name, and
at the end standard error has how many told a place. Goes on past a refused
file.

  --within      don't ask a trail that hasn't the moment in its times, and say
                so. Without --within the moment is refused
  --epoch TIME  take and tell seconds on the clock; see 'trail help'
  --json        print one line for each file: {\"file\", \"unit\", \"x\", \"y\",
                \"exact\": {\"x\", \"y\", \"denominator\"}, \"mark\", \"means\"}. Of a
                trail that isn't asked: {\"file\", \"unit\", \"outside\": true,
                \"first\", \"last\"}. Of several files a last line has {\"files\",
                \"told\", \"refused\", \"failed\"}, the last two as names, and
                with --within \"outside\", how many weren't asked
";

/// Where a trail has its cart at a moment.
fn ask(trail: &Trail, moment: Moment, within: bool) -> Result<Answer, Failure> {
    if within && !trail.has(moment) {
        return Ok(Answer::outside(trail));
    }
    let found = trails::place(&trail.bytes, moment).map_err(trail.refused_at(moment))?;
    let Place {
        denominator, x, y, ..
    } = found;
    let (whole_x, whole_y) = (found.whole_x, found.whole_y);
    let unit = trail.unit().symbol();
    let means = meaning::of_place(trail);
    Ok(Answer {
        sort: Sort::Told,
        lines: vec![
            format!("place {whole_x} {whole_y} {unit}"),
            format!("exact {x}/{denominator} {y}/{denominator}"),
            means.clone(),
        ],
        visits: Vec::new(),
        fields: fields(trail, found, means),
    })
}

fn fields(trail: &Trail, found: Place, means: String) -> Vec<(&'static str, Json)> {
    let exact = Json::Object(vec![
        ("x", Json::Whole(found.x.into())),
        ("y", Json::Whole(found.y.into())),
        ("denominator", Json::Whole(found.denominator.into())),
    ]);
    vec![
        ("x", Json::Whole(found.whole_x.into())),
        ("y", Json::Whole(found.whole_y.into())),
        ("exact", exact),
        ("mark", Json::mark(trail.mark)),
        ("means", Json::text(means)),
    ]
}

fn run(arguments: &Arguments) -> Result<Status, Failure> {
    let takes = "one file or more, and a second";
    let words = arguments.several(takes)?;
    let (word, names): (&OsString, &[OsString]) = match words.split_last() {
        Some((word, names)) if !names.is_empty() => (word, names),
        _ => return Err(arguments.wrong(&format!("it takes {takes}"))),
    };
    let moment = arguments.clock()?.moment(&word.to_string_lossy());
    let moment = moment.map_err(|what| arguments.wrong(&what))?;
    let within = arguments.has("--within");
    let sorts: &[Sort] = match within {
        true => &[Sort::Told, Sort::Outside],
        false => &[Sort::Told],
    };
    of_each(arguments, names, sorts, |trail| ask(trail, moment, within))
}
