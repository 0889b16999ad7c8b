//! The stack that the deepest recursion takes: the dearest trail, aged in threads with less and less of it.
//!
//! A thread that runs out of stack ends its whole process. So each aging has a process of its own, which is this
//! program again with arguments.

use std::io;
use std::process::{Command, ExitCode, Stdio};
use std::thread;

use trails::{in_threes, interface};
use trails_tests::interface::dearest_fixes;
use trails_tests::plain::kinds::{Kind, CENTIMETRES, MILLIMETRES, SILENCES};
use trails_tests::plain::{Trail, MOST_FIXES};
use trails_tests::shapes::{backwards, ten_times};

use crate::layout::{heading, row};
use crate::sorts::slowly;

/// A system rounds a stack up to whole pages, so in bytes between them nothing would be learned.
const PAGE: usize = 4 * 1_024;

/// In pages: 256 kB and 2 MB.
const LEAST: usize = 64;
const MOST: usize = 512;

/// Each split of the dearest trail leaves a span that is one fix shorter, down to the last two.
const LEVELS: usize = MOST_FIXES - 1;

/// The first of the arguments that ask for one aging; which trail and the stack's bytes follow.
pub const ARGUMENT: &str = "within";

/// The dearest trail, forwards or backwards. In millimetres over hours, sums are of two words.
struct Deep {
    name: &'static str,
    kind: Kind,
    backwards: bool,
}

const fn deep(name: &'static str, kind: Kind, backwards: bool) -> Deep {
    Deep {
        name,
        kind,
        backwards,
    }
}

const ALL: [Deep; 5] = [
    deep("dear, forwards", CENTIMETRES, false),
    deep("dear, backwards", CENTIMETRES, true),
    deep("silences, forwards", SILENCES, false),
    deep("millimetres, forwards", MILLIMETRES, false),
    deep("millimetres, backwards", MILLIMETRES, true),
];

impl Deep {
    fn record(&self) -> Vec<u8> {
        let mut fixes = dearest_fixes(MOST_FIXES);
        if self.backwards {
            fixes = backwards(&fixes);
        }
        if self.kind == MILLIMETRES {
            fixes = ten_times(&slowly(fixes));
        }
        Trail::never_thinned(self.kind, fixes).bytes()
    }
}

/// The part of the process that is started for it: one aging, in a thread with so many bytes of stack. It is the only one
/// of a list, by days: of all calls that thin, this one has the most functions above the thinning, and a table in some.
pub fn age_within(name: &str, bytes: &str) -> ExitCode {
    let deep = ALL.iter().find(|deep| deep.name == name);
    let (Some(deep), Ok(bytes)) = (deep, bytes.parse()) else {
        return ExitCode::FAILURE;
    };
    // at a tolerance of one centimetre
    let table: Vec<u16> = interface::load(&[0], &[1]).table.numbers().collect();
    let mut record = deep.record();
    let thread = thread::Builder::new().stack_size(bytes);
    let by_days = [interface::by_table(0, 0)];
    let aging = thread.spawn(move || interface::run(&mut record, &by_days, &table));
    match aging.map(|aging| aging.join()) {
        Ok(Ok(run)) if (run.refusal, run.turned_away) == (0, 0) => ExitCode::SUCCESS,
        _ => ExitCode::FAILURE,
    }
}

fn suffices(deep: &Deep, pages: usize) -> io::Result<bool> {
    let mut process = Command::new(std::env::current_exe()?);
    process.args([ARGUMENT, deep.name, &(pages * PAGE).to_string()]);
    // its last words are that the stack has overflowed, which is no news
    let status = process.stderr(Stdio::null()).status()?;
    Ok(status.success())
}

/// The smallest stack that sufficed, in bytes, if one between the two limits did and a smaller one didn't. The thread's
/// own needs and the aging's marks, some 5,000 bytes, are in it.
fn smallest(deep: &Deep) -> io::Result<Option<usize>> {
    if suffices(deep, LEAST)? || !suffices(deep, MOST)? {
        return Ok(None);
    }
    let (mut too_small, mut enough) = (LEAST, MOST);
    while enough - too_small > 1 {
        let middle = (too_small + enough) / 2;
        if suffices(deep, middle)? {
            enough = middle;
        } else {
            too_small = middle;
        }
    }
    Ok(Some(enough * PAGE))
}

pub fn section() {
    let columns = ["bytes", "levels", "per level"];
    heading("Stack, 4,096 fixes", &columns);
    for deep in &ALL {
        let cells = match smallest(deep) {
            Ok(Some(bytes)) => [bytes, LEVELS, bytes / LEVELS]
                .map(|number| in_threes(number as u64))
                .into(),
            Ok(None) => vec![String::from("out of range")],
            Err(_) => vec![String::from("not known")],
        };
        row(deep.name, &cells);
    }
}
