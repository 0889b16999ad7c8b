//! `trail write`: makes trails of texts with fixes, or with what anchors have sent.

use std::ffi::{OsStr, OsString};
use std::path::Path;

use trails::Unit;

use crate::anchors;
use crate::arguments::{Arguments, Command};
use crate::failure::{Failure, Status};
use crate::files::{self, Inputs};
use crate::many::{Ends, Summary};
use crate::outputs::{keep_apart, Outputs};
use crate::split;
use crate::store::store;
use crate::texts::{self, Said, NOT_BOTH};
use crate::written::{Sums, Written};

pub const COMMAND: Command = Command {
    name: "write",
    help: HELP,
    options: &[
        "-o",
        "--force",
        "--split",
        "--millimetres",
        "--anchors",
        "--silence-after",
        "--epoch",
        "--json",
    ],
    run,
};

const HELP: &str = "\
usage: trail write [--millimetres | --silence-after SECONDS] [--epoch TIME]
                   [--split] [--json] [--force] FIXES... -o OUT
       trail write --anchors [--silence-after SECONDS] [--epoch TIME]
                   [--split] [--json] [--force] READINGS... -o OUT

Makes a trail, marked never thinned, of a text that has a fix in each line:

  time x y              or      time,x,y
  time x y silence      or      time,x,y,silence

in whole seconds, or times of the clock, and centimetres, -16,000 to 16,000.
Empty lines, and comments from '#' to a line's end, are skipped. A bad line is
named with its number, and then nothing is stored; a file that is there already
is replaced only by a whole new one. A text has at most 16 MiB.

Where a fix has 'silence' or '1' in the fourth place, the cart dropped out after
it: until the next fix nobody knows where it was. '-', '0' or nothing there says
that it didn't. If any line has a fourth place, or --silence-after is given, the
trail is of the kind that can have silences.

A text may also have columns, in any order, under a first line that names them:
time (or t), x, y and maybe silence. x_cm and y_cm, or x_mm and y_mm, name the
unit too. There may be no others, as in what 'trail list --csv' prints of a
trail that was never thinned. Or a text is what 'trail list' prints of such a
trail, whole; that names no unit, and if no fix says 'silence' its trail can
have none unless --silence-after is given.

With --anchors the text has what a ceiling anchor sent, a reading in each line:

  time absolute X Y     or      time,absolute,X,Y
  time step DX DY       or      time,step,DX,DY

in centimetres: a place, or how far the cart went from the last one. Values are
decimal numbers and stand for the nearest float of 32 bits, as an anchor sends
it. It must be a whole number of sixteenths. Each reading becomes a fix, its
place rounded to whole centimetres, halves away from 0. One that is refused, by
17, 18 or 19, is named with its line, changes nothing and gives no fix; the rest
go on, the trail is stored, and the exit status is 1. At the end it says how
many readings, refused ones and fixes there were.

OUT is the trail's file or, if it is a folder or ends with '/', the folder that
it goes to: that of 'cart.txt' is 'cart.trail' there. Several texts need a
folder. It is made if it isn't there. Goes on past a bad or refused text, and at
the end says how many there were.

  --split        make as many trails as the fixes need, of up to 4,096 fixes
                 and 65,535 seconds: 'cart-001.trail', 'cart-002.trail' and so
                 on for 'cart.trail'. Each begins with the last fix of the one
                 before, so that no leg is lost; a silence after that fix is in
                 the trail that begins with it. A leg of more seconds fits no
                 trail, silent or not, and is refused. All are made before the
                 first is stored. What an earlier split has left is named
  --silence-after SECONDS
                 a silence is also where two neighbouring fixes are further
                 apart than so many seconds
  --millimetres  x and y are in millimetres, -160,000 to 160,000, and so are
                 then all lengths of the trail; no kind of trail has silences
                 too
  --anchors      the text has readings; they are in centimetres, so there are
                 no millimetres then
  --epoch TIME   when second 0 was, for times of the clock; those that pass
                 midnight need it; see 'trail help'
  -o OUT         where the trails go; '-' is the standard output, and what is
                 said at the end is then on standard error
  --force        let OUT be the one text itself, which the trail then replaces
  --json         print one line for each trail: {\"file\", \"unit\", \"count\",
                 \"silences\", \"bytes\"}, with null for the silences if it can
                 have none; with --anchors also \"readings\" and
                 \"turned_away\", how many were refused, with a text's last
                 trail, and before it a line for each of these: {\"file\",
                 \"line\", \"refused\", \"sentence\"}. Of several texts the last
                 line is {\"files\", \"written\", \"refused\": [names], \"failed\":
                 [names], \"trails\", \"count\", \"bytes\"}, in which a fix that
                 two trails share counts once
";

/// What is asked of all texts.
struct Asked<'a> {
    arguments: &'a Arguments,
    texts: &'a [OsString],
    /// the files that no output may be
    inputs: Inputs,
    outputs: Outputs,
    said: Said,
    anchors: bool,
    split: bool,
    json: bool,
}

/// The name of a text's trail in a folder.
fn trail_name(text: &Path) -> Option<OsString> {
    let mut name = text.file_stem()?.to_os_string();
    name.push(".trail");
    Some(name)
}

impl Asked<'_> {
    fn of(arguments: &Arguments) -> Result<Asked<'_>, Failure> {
        let texts = arguments.several("one text with fixes or readings, or more")?;
        let may_be_output = texts.len() == 1 && arguments.has("--force");
        let inputs = texts.iter().filter(|_| !may_be_output);
        let asked = Asked {
            arguments,
            texts,
            inputs: Inputs::of(inputs.map(OsString::as_os_str)),
            outputs: Outputs::of(arguments, texts, trail_name)?,
            said: Said {
                clock: arguments.clock()?,
                unit: match arguments.has("--millimetres") {
                    true => Unit::Millimetres,
                    false => Unit::Centimetres,
                },
                after: arguments.duration("--silence-after")?,
            },
            anchors: arguments.has("--anchors"),
            split: arguments.has("--split"),
            json: arguments.has("--json"),
        };
        asked.fits_itself()?;
        // the outputs of a split are known once it is made
        if !asked.split {
            asked.keep_apart(&asked.outputs.names)?;
        }
        Ok(asked)
    }

    fn fits_itself(&self) -> Result<(), Failure> {
        let fine = self.said.unit == Unit::Millimetres;
        let nameless = |to: &OsString| to == "-" || Path::new(to).file_name().is_none();
        let what = if fine && self.said.after.is_some() {
            format!("--millimetres and --silence-after: {NOT_BOTH}")
        } else if fine && self.anchors {
            "--millimetres and --anchors: anchors are in centimetres".into()
        } else if self.split && self.outputs.names.iter().any(nameless) {
            "--split makes several files, and -o gives them no name".into()
        } else {
            return Ok(());
        };
        Err(self.arguments.wrong(&what))
    }

    fn keep_apart(&self, outputs: &[OsString]) -> Result<(), Failure> {
        let what = match self.texts {
            [_] => "-o names the text itself; --force replaces it",
            _ => "an output is one of the texts",
        };
        keep_apart(self.arguments, outputs, &self.inputs, what)
    }

    fn make<'t>(&self, from: &'t OsStr, to: &'t OsStr) -> Result<Written<'t>, Failure> {
        let text = files::read_text(from)?;
        let (text, readings) = match self.anchors {
            true => {
                let read = anchors::read(from, &text, self.said.clock, self.json)?;
                (read.0, Some(read.1))
            }
            false => (texts::read(from, &text, self.said)?, None),
        };
        let (kind, fixes) = text.fixes(self.said.after);
        let trails = match self.split {
            true => {
                let made = split::split(from, kind, &fixes)?;
                let name = |number| split::named(to, number);
                (1..).map(name).zip(made).collect()
            }
            false => vec![(to.to_os_string(), split::one(from, kind, &fixes)?)],
        };
        Ok(Written {
            from,
            to,
            fixes: fixes.len(),
            trails,
            readings,
        })
    }

    /// Makes all trails of a text, and then stores them.
    fn write<'t>(&self, from: &'t OsStr, to: &'t OsStr) -> Result<Written<'t>, Failure> {
        let written = self.make(from, to)?;
        self.store(&written)?;
        Ok(written)
    }

    fn store(&self, written: &Written) -> Result<(), Failure> {
        if self.split {
            let names: Vec<OsString> = written.trails.iter().map(|one| one.0.clone()).collect();
            self.keep_apart(&names)?;
        }
        self.outputs.make_folder()?;
        let mut trails = written.trails.iter();
        trails.try_for_each(|(name, made)| {
            let record = made.record.as_slice();
            store(name, &[written.from], record)
        })
    }
}

fn run(arguments: &Arguments) -> Result<Status, Failure> {
    let asked = Asked::of(arguments)?;
    let (mut ends, mut sums) = (Ends::new(), Sums::default());
    let mut heard = Ok(());
    for (from, to) in asked.texts.iter().zip(&asked.outputs.names) {
        let written = asked.write(from, to);
        if let Some(written) = ends.take(from, written, asked.json) {
            sums.add(&written);
            ends.worst = ends.worst.max(written.worst());
            // it is stored whether or not that is heard
            heard = heard.and(written.tell(asked.split, asked.json));
        }
    }
    let summary = Summary {
        counts: vec![("written", sums.texts)],
        more: sums.text(),
        fields: sums.fields(),
    };
    heard.and(ends.tell(summary, asked.json))
}
