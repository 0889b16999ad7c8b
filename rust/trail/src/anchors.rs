//! Texts with what ceiling anchors have sent, for `trail write`.

use std::ffi::OsStr;

use trails::{AnchorState, Anchored, Kind, Reading, Refusal, Unit};

use crate::clock::Clock;
use crate::failure::{Failure, Refused, Spot, Status};
use crate::json::Json;
use crate::numbers::float;
use crate::texts::{Line, Text};
use crate::{lines, output, words};

/// What an anchor has sent at a second.
struct Sent {
    t: u32,
    reading: Reading,
}

fn sent(clock: Clock, fields: &[&str]) -> Result<Sent, String> {
    let [time, form, one, other] = *fields else {
        let entry = "a reading is 'time absolute X Y' or 'time step DX DY'";
        return Err(lines::miscounted(entry, fields));
    };
    let value = |word: &str, name: &'static str| float(word).map_err(lines::named(name));
    let t = clock.second(time).map_err(lines::named("time"))?;
    let reading = match form {
        "absolute" => Reading::Absolute {
            x: value(one, "X")?,
            y: value(other, "Y")?,
        },
        "step" => Reading::Step {
            dx: value(one, "DX")?,
            dy: value(other, "DY")?,
        },
        form => {
            let form = words::quoted(form);
            return Err(format!("{form} isn't 'absolute' or 'step'"));
        }
    };
    Ok(Sent { t, reading })
}

/// What became of the readings of a text.
pub struct Readings {
    count: usize,
    accepted: usize,
    /// the greatest status of one
    pub worst: Status,
}

fn refused(from: &OsStr, line: usize, refusal: Refusal) -> Failure {
    Failure::Refused(Refused {
        spot: Spot {
            line: Some(line),
            ..Spot::file(from)
        },
        refusal,
        // an anchor's limits are the same for every kind
        kind: Kind::Centimetres,
        fact: None,
    })
}

/// Takes the readings of a text one after the other. Each that is refused is told of and leaves the state as it was, and
/// those after it are taken. A bad line ends it. The fixes say nothing of silences.
pub fn read(
    from: &OsStr,
    text: &[u8],
    clock: Clock,
    json: bool,
) -> Result<(Text, Readings), Failure> {
    let all = lines::entries(from, text, |fields| sent(clock, fields))?;
    let count = all.len();
    let mut state = AnchorState::default();
    let mut fixes = Vec::new();
    let mut worst = Status::Done;
    for (line, Sent { t, reading }) in all {
        match trails::read_anchor(state, reading) {
            Ok(Anchored { state: next, x, y }) => {
                state = next;
                fixes.push((line, Line::new(t, x, y)));
            }
            Err(refusal) => worst = worst.max(output::report(&refused(from, line, refusal), json)),
        }
    }
    let accepted = fixes.len();
    let readings = Readings {
        count,
        accepted,
        worst,
    };
    let text = Text {
        unit: Unit::Centimetres,
        lines: fixes,
    };
    Ok((text, readings))
}

impl Readings {
    fn turned_away(&self) -> usize {
        self.count.saturating_sub(self.accepted)
    }

    /// What people are told at the end.
    pub fn text(&self) -> String {
        let (readings, refused, fixes) = (self.count, self.turned_away(), self.accepted);
        format!("readings {readings}, refused {refused}, fixes {fixes}")
    }

    /// What programs are told.
    pub fn fields(&self) -> [(&'static str, Json); 2] {
        [
            ("readings", Json::Whole(self.count as i128)),
            ("turned_away", Json::Whole(self.turned_away() as i128)),
        ]
    }
}
