//! `trail plot`: draws a trail, or several.

mod arrows;
mod drawn;
mod extent;
mod layers;
mod legend;
mod names;
mod original;
mod over_time;
mod panel;
mod path;
mod picture;
mod plane;
mod scale;
mod style;
mod svg;
mod text;
mod times;

use std::ffi::{OsStr, OsString};
use std::path::Path;

use trails::{Refusal, Unit};

use crate::arguments::{Arguments, Command};
use crate::failure::{Failure, Status};
use crate::store::store;
use crate::trail::Trail;
use crate::{files, words};
use drawn::{Drawn, Questions};
use original::Original;
use panel::Circle;
use picture::{Picture, Zoom};

pub const COMMAND: Command = Command {
    name: "plot",
    help: HELP,
    options: &[
        "--original",
        "--box",
        "--window",
        "--within",
        "--point",
        "--radius",
        "--tolerance",
        "--zoom",
        "--epoch",
        "-o",
        "--force",
    ],
    run,
};

const HELP: &str = "\
usage: trail plot FILE... [--original FILE] [--tolerance E]
                  [--box X0 X1 Y0 Y1] [--window S E [--within]]
                  [--point X Y --radius R] [--zoom TO] [--epoch TIME]
                  [--force] -o OUT.svg

Draws FILE's trail on the plane, with arrows where it goes, and below that x and
y against time; its kept fixes are marked unless they are very many. A silence
is left open, with a ring at both its ends. Several trails, all in one unit,
have a colour each, and their names stand beside the answers. The picture is 800
pixels wide and suits light and dark backgrounds.

  --original FILE  draw the one trail's original over it, in dashes; it must
                   have the trail's ends, fixes and silences
  --tolerance E    draw a band of E, in the trail's unit, around it; if not
                   given, it is the trail's mark, and none if it was never
                   thinned
  --box X0 X1 Y0 Y1, --window S E
                   draw the box and the window, also as a broad line on the
                   plane, and mark where the trail is first in the box, or say
                   that it never is; without --window that is asked of all its
                   seconds
  --within         cut the window to each trail's own times
  --point X Y --radius R
                   draw the point and the circle about it, and mark where the
                   trail is closest to it on the first leg that comes into the
                   circle, or say that none does
  --zoom TO        show only the 'window', the 'box' or, for the circle, the
                   'point'
  --epoch TIME     tell seconds on the clock; see 'trail help'
  -o OUT.svg       where the picture goes; '-' is the standard output
  --force          let the picture replace a trail, but never one that it
                   draws
";

/// The point and the radius, which go together.
fn circle(arguments: &Arguments) -> Result<Option<Circle>, Failure> {
    match (arguments.point()?, arguments.number("--radius")?) {
        (Some(point), Some(radius)) => Ok(Some(Circle { point, radius })),
        (None, None) => Ok(None),
        _ => Err(arguments.wrong("--point X Y and --radius R go together")),
    }
}

/// The file's name without its folders.
fn title(name: &OsStr) -> String {
    match Path::new(name).file_name() {
        Some(last) if name != "-" => words::harmless(last),
        _ => words::shown(name),
    }
}

/// The tolerance whose band is drawn.
fn band(arguments: &Arguments, trail: &Trail) -> Result<Option<u16>, Failure> {
    let asked: Option<u16> = arguments.number("--tolerance")?;
    if asked.is_some_and(|e| e > trail.unit().limits().tolerance) {
        return Err(trail.refused(Refusal::HighTolerance));
    }
    Ok(asked.or(trail.mark))
}

/// Where the picture goes: over no trail that is drawn, and over another only if that is meant.
fn output_of<'a>(arguments: &'a Arguments, drawn: &[&OsStr]) -> Result<&'a OsStr, Failure> {
    let to = arguments.output()?;
    if drawn.iter().any(|name| files::is_read(name, to)) {
        return Err(arguments.wrong("-o names a trail that is drawn"));
    }
    if files::may_be_record(to) && !arguments.has("--force") {
        return Err(arguments.wrong("-o names a file that is a trail; --force replaces it"));
    }
    Ok(to)
}

/// What all trails are asked.
fn questions(arguments: &Arguments) -> Result<Questions, Failure> {
    let window = arguments.window()?;
    let within = arguments.has("--within");
    if within && window.is_none() {
        return Err(arguments.wrong("--within goes with --window S E"));
    }
    Ok(Questions {
        area: arguments.area()?,
        window,
        within,
        circle: circle(arguments)?,
    })
}

/// What the axes show, which must be there.
fn zoom(arguments: &Arguments, questions: &Questions) -> Result<Option<Zoom>, Failure> {
    let zoom = arguments.one_of("--zoom", &[Zoom::Window, Zoom::Box, Zoom::Point])?;
    let missing = match zoom {
        Some(Zoom::Window) if questions.window.is_none() => "--zoom window goes with --window S E",
        Some(Zoom::Box) if questions.area.is_none() => "--zoom box goes with --box X0 X1 Y0 Y1",
        Some(Zoom::Point) if questions.circle.is_none() => {
            "--zoom point goes with --point X Y and --radius R"
        }
        _ => return Ok(zoom),
    };
    Err(arguments.wrong(missing))
}

/// What the trails are named in the picture: without their folders, unless two would then have one name.
fn titles(names: &[OsString]) -> Vec<String> {
    let titles: Vec<String> = names.iter().map(|name| title(name)).collect();
    let mut sorted = titles.clone();
    sorted.sort();
    sorted.dedup();
    match sorted.len() == titles.len() {
        true => titles,
        false => names.iter().map(|name| words::shown(name)).collect(),
    }
}

/// Reads all trails, which are in one unit, and asks them.
fn read(
    arguments: &Arguments,
    names: &[OsString],
    questions: &Questions,
) -> Result<Vec<Drawn>, Failure> {
    let clock = arguments.clock()?;
    let titles = titles(names);
    let names = names.iter();
    let trails: Result<Vec<Trail>, Failure> = names.map(|name| Trail::read(name, clock)).collect();
    let trails = trails?;
    let units = trails.iter().zip(trails.iter().skip(1));
    if units
        .into_iter()
        .any(|(one, other)| one.unit() != other.unit())
    {
        return Err(arguments.wrong("the trails are in different units"));
    }
    let ask = |(trail, title): (Trail, String)| {
        let tolerance = band(arguments, &trail)?;
        Drawn::ask(title, trail, questions, tolerance)
    };
    trails.into_iter().zip(titles).map(ask).collect()
}

/// The original's file, which goes with one trail.
fn original_of<'a>(
    arguments: &'a Arguments,
    names: &[OsString],
) -> Result<Option<&'a OsStr>, Failure> {
    match (arguments.file("--original"), names.len()) {
        (Some(_), 2..) => Err(arguments.wrong("--original goes with one trail alone")),
        (original, _) => Ok(original),
    }
}

/// Reads the original, which must be that of the trail.
fn read_original(arguments: &Arguments, name: &OsStr, drawn: &Drawn) -> Result<Original, Failure> {
    let original = Trail::read(name, arguments.clock()?)?;
    match original::differs(&drawn.trail, &original) {
        Some(what) => Err(arguments.wrong(&what)),
        None => Ok(Original::of(&drawn.trail, original)),
    }
}

fn run(arguments: &Arguments) -> Result<Status, Failure> {
    let names = arguments.several("one file or more")?;
    let questions = questions(arguments)?;
    let zoom = zoom(arguments, &questions)?;
    let original = original_of(arguments, names)?;
    let read_from = names.iter().map(OsString::as_os_str).chain(original);
    let read_from: Vec<&OsStr> = read_from.collect();
    arguments.can_read(read_from.iter().copied())?;
    let to = output_of(arguments, &read_from)?;
    let trails = read(arguments, names, &questions)?;
    let original = original.zip(trails.first());
    let original = original.map(|(name, of)| read_original(arguments, name, of));
    let firsts = trails.iter().map(|drawn| drawn.trail.first());
    let picture = Picture {
        title: match trails.as_slice() {
            [one] => one.name.clone(),
            many => format!("{} trails", many.len()),
        },
        start: firsts.min().unwrap_or(0),
        unit: trails
            .first()
            .map_or(Unit::Centimetres, |drawn| drawn.trail.unit()),
        clock: arguments.clock()?,
        original: original.transpose()?,
        trails,
        questions,
        zoom,
    };
    store(to, &read_from, picture.svg().as_bytes())?;
    Ok(Status::Done)
}
