//! The command `trail`: lists, checks, writes, ages and asks the trails of tray carts.
//!
//! What a trail says is answered by the package `trails`; the command reads the files, prints the answers, and stores
//! what is new so that no trail is ever lost.
#![forbid(unsafe_code)]

mod age;
mod aged;
mod anchors;
mod answer;
mod arguments;
mod beside;
mod calendar;
mod check;
mod clock;
mod columns;
mod completion;
mod cross;
mod dearest;
mod failure;
mod files;
mod geojson;
mod json;
mod lines;
mod list;
mod made;
mod manual;
mod many;
mod meaning;
mod near;
mod numbers;
mod options;
mod output;
mod outputs;
mod place;
mod plot;
mod progress;
mod replay;
mod split;
mod store;
mod table;
mod texts;
mod trail;
mod visits;
mod words;
mod write;
mod written;
mod yes_or_no;

use std::ffi::{OsStr, OsString};
use std::process::ExitCode;
use std::thread;

use arguments::{Arguments, Command};
use failure::{Failure, Status};

static COMMANDS: &[Command] = &[
    list::COMMAND,
    check::COMMAND,
    write::COMMAND,
    dearest::COMMAND,
    age::COMMAND,
    table::COMMAND,
    place::COMMAND,
    cross::COMMAND,
    near::COMMAND,
    replay::COMMAND,
    plot::COMMAND,
    manual::COMMAND,
    completion::COMMAND,
];

const HELP: &str = "\
usage: trail COMMAND ARGUMENTS

  list     print a trail's fixes, also as CSV or GeoJSON
  check    say whether files begin with a trail
  write    make trails of texts with fixes, or with what anchors sent
  dearest  make the trail that costs most to age, for sizing a controller
  age      thin trails, by a tolerance or by days
  table    check a hall's own table of days and tolerances, and print it
  place    say where carts were at a moment
  cross    say which carts were in a box, and when first, or when at all
  near     say which carts came near a point, and when
  replay   try a list of agings on a trail, and print what each does
  plot     draw a trail, or several

  manual      print the manual page
  completion  print what bash completes the words of trail by
  --version   print which version this is

'trail help COMMAND' says more. A file '-' is the standard input or output.
After '--' no argument is an option, and '-' is a file's name. '--box 0 9 0 9'
and '--box=0,9,0,9' are the same. Times are in seconds, and the lengths that a
trail has, is asked with and is answered with in its own unit: centimetres, or
millimetres if it was written so. Between a fix that says 'silence' and the
next one nobody knows where the cart was. Of a file that is read, what follows
its trail is ignored.

A second may be given as a time of the clock too, hh:mm:ss, also with .mmm where
a moment is asked. '--epoch TIME' says when second 0 was, as hh:mm:ss or as
yyyy-mm-ddThh:mm:ss, and then seconds are told so too; without it second 0 is
midnight, and seconds are told as numbers. A time without a date is the first
such time from second 0 on; with +1d after it, it is of the day after second
0's. With --json seconds are always numbers.

With --json the answer is one line of JSON, and so is a refusal, {\"file\",
\"refused\", \"sentence\"}, or a failure, {\"file\", \"failed\"}. Refusal 3 has
\"count\" too, 12 and 13 have \"first\" and \"last\", 21 has \"from\" and \"to\", 22
has \"rows\", 9 of a leg that is too long for every trail has \"apart\", and what
is about a line of a text has \"line\". A byte of a file's name that isn't UTF-8
is there one of \\udc80 to \\udcff, as Python has it.

Exit status: 0 done; 1 refused, with the refusal's number and sentence;
2 wrong usage or a bad line; 3 a file couldn't be read or written, or an answer
printed.
";

/// An aging takes up to 792,000 bytes of stack, whatever limit the shell has set for the first thread.
const STACK: usize = 4 << 20;

fn main() -> ExitCode {
    let words: Vec<OsString> = std::env::args_os().skip(1).collect();
    let run = thread::Builder::new()
        .stack_size(STACK)
        .spawn(move || run(&words));
    let status = match run.map(thread::JoinHandle::join) {
        Ok(Ok(status)) => status,
        Ok(Err(_)) => Status::Failed,
        Err(error) => {
            output::message(&format!("trail: no thread could be started: {error}"));
            Status::Failed
        }
    };
    ExitCode::from(status as u8)
}

fn run(words: &[OsString]) -> Status {
    obey(words).unwrap_or_else(|failure| output::report(&failure, false))
}

fn asks_help(words: &[OsString]) -> bool {
    let mut options = words.iter().take_while(|word| *word != "--");
    options.any(|word| word == "--help" || word == "-h")
}

fn command_named(name: &OsStr) -> Result<&'static Command, Failure> {
    let command = COMMANDS.iter().find(|command| name == command.name);
    command.ok_or_else(|| {
        let name = words::harmless(name);
        Failure::Usage(format!("there is no command '{name}'; try 'trail --help'"))
    })
}

/// Prints the help of a command, or of all.
fn help(about: &[OsString]) -> Result<Status, Failure> {
    let text = match about {
        [] => HELP,
        [name] => command_named(name)?.help,
        _ => {
            let what = "help takes one command; try 'trail --help'";
            return Err(Failure::Usage(what.into()));
        }
    };
    output::print(text)?;
    Ok(Status::Done)
}

/// Prints which command this is, and with which version of the package `trails` it was built.
fn version(rest: &[OsString]) -> Result<Status, Failure> {
    if !rest.is_empty() {
        let what = "--version takes no words; try 'trail --help'";
        return Err(Failure::Usage(what.into()));
    }
    let (command, library) = (env!("CARGO_PKG_VERSION"), trails::VERSION);
    output::print(&format!("trail {command}\nlibrary trails {library}\n"))?;
    Ok(Status::Done)
}

fn obey(words: &[OsString]) -> Result<Status, Failure> {
    let Some((name, rest)) = words.split_first() else {
        let what = "no command is given; try 'trail --help'";
        return Err(Failure::Usage(what.into()));
    };
    if name == "help" || name == "--help" || name == "-h" {
        return help(rest);
    }
    if name == "--version" || name == "-V" {
        return version(rest);
    }
    let command = command_named(name)?;
    if asks_help(rest) {
        return help(&words[..1]);
    }
    let arguments = Arguments::parse(command, rest)?;
    let json = arguments.has("--json");
    Ok((command.run)(&arguments).unwrap_or_else(|failure| output::report(&failure, json)))
}
