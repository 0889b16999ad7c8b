//! Readings of anchors, by the proved functions and by the plain version. They have neither a record nor a kind, and take
//! little time, so they are drawn and counted by themselves, and many more of them than cases of records.

use std::fmt;

use crate::cases::{Random, Settings};
use crate::expected;
use crate::interface::{self, bits, numbers_anchored, AnchorState, Anchored};
use crate::plain::anchors::{sixteenths, Reading};
use crate::plain::kinds::CENTIMETRES;
use crate::readings::{any_state, ReadingColumns};

/// The readings of a list are at most so many.
const LONGEST_LIST: i64 = 24;

/// With so many readings nothing may be missing.
const ENOUGH: usize = 30_000;

/// No refusal, and all that there are, in checking order.
const REFUSALS: [u32; 4] = [0, 17, 18, 19];

/// The two forms, and what each can be refused for.
const FORMS: [(&str, &[u32]); 2] = [("absolute", &[17, 19]), ("step", &[17, 18, 19])];

/// Either side: what it answers to a reading, and what a whole list leaves. Both are given, so that a test can put a faulty
/// one in place of the proved one.
#[derive(Clone, Copy)]
pub struct Side<'a> {
    pub one: &'a dyn Fn(AnchorState, Reading) -> Anchored,
    pub all: &'a dyn Fn(AnchorState, &ReadingColumns) -> AnchorState,
}

pub const PROVED: Side = Side {
    one: &interface::anchor,
    all: &interface::anchor_all,
};

pub const PLAIN: Side = Side {
    one: &expected::anchor,
    all: &expected::anchor_all,
};

/// Readings that are given to a state, one after the other or as a list, and come out otherwise by one of the sides.
#[derive(Clone, Debug)]
pub struct Difference {
    pub state: AnchorState,
    pub readings: Vec<Reading>,
    /// whether it is the list that differs, and not the only reading
    pub as_list: bool,
}

impl Difference {
    /// What a side makes of it, all floats by their bits.
    fn by(&self, side: Side) -> Vec<i64> {
        match (self.as_list, &self.readings[..]) {
            (false, [reading]) => numbers_anchored((side.one)(self.state, *reading)).into(),
            _ => {
                let left = (side.all)(self.state, &ReadingColumns::of(&self.readings));
                bits(left).map(i64::from).into()
            }
        }
    }

    fn is_one(&self, proved: Side) -> bool {
        self.by(proved) != self.by(PLAIN)
    }

    /// The same with as few readings as still show it.
    fn shortened(mut self, proved: Side) -> Difference {
        let mut k = 0;
        while self.as_list && k < self.readings.len() {
            let mut without = self.clone();
            without.readings.remove(k);
            match without.is_one(proved) {
                true => self = without,
                false => k += 1,
            }
        }
        self
    }
}

/// The floats by value and by their bits, since a NaN has many and 0 two.
impl fmt::Display for Difference {
    fn fmt(&self, f: &mut fmt::Formatter) -> fmt::Result {
        let float = |value: f32| format!("{value} ({:#010x})", value.to_bits());
        let AnchorState { x, y, seen } = self.state;
        writeln!(f, "state      {}, {}, seen {seen}", float(x), float(y))?;
        for reading in &self.readings {
            let (name, _) = FORMS[usize::from(reading.is_step())];
            let [x, y] = reading.values().map(float);
            writeln!(f, "{name:10} {x}, {y}")?;
        }
        writeln!(f, "interface: {:?}", self.by(PROVED))?;
        write!(f, "plain: {:?}", self.by(PLAIN))
    }
}

/// What was met.
#[derive(Default)]
pub struct Met {
    /// by refusal, in the order of `REFUSALS`, and form
    met: [[usize; 2]; REFUSALS.len()],
    said: [usize; SAID.len()],
    lists: usize,
}

/// Whether a reading and its answer are of a sort.
type IsSo = fn(&AnchorState, Reading, &Anchored) -> bool;

fn any(reading: Reading, is_so: fn(f32) -> bool) -> bool {
    reading.values().into_iter().any(is_so)
}

/// Whether 17 would turn the value away.
fn is_bad(value: f32) -> bool {
    sixteenths(value).is_err()
}

/// Whether a finite one is further out than a place can be.
fn is_far(value: f32) -> bool {
    value.is_finite() && value.abs() > CENTIMETRES.limit as f32
}

/// Whether 18 would turn a step from it away.
fn is_no_start(state: &AnchorState) -> bool {
    let bad = |value| is_bad(value) || is_far(value);
    state.seen == 0 || bad(state.x) || bad(state.y)
}

/// Whether some coordinate of an accepted place is halfway between two whole numbers, on this side of 0.
fn is_half(read: &Anchored, sign: f32) -> bool {
    let both = [read.state.x, read.state.y];
    let half = |c: f32| c.fract().abs() == 0.5 && c.signum() == sign;
    read.refusal == 0 && both.into_iter().any(half)
}

/// Sorts that must be met: of what is refused, by its number; of what is accepted; and of two checks that fail at once.
const SAID: [(&str, &str, IsSo); 17] = [
    ("refused 17", "NaN", |_, sent, read| {
        read.refusal == 17 && any(sent, f32::is_nan)
    }),
    ("refused 17", "infinite", |_, sent, read| {
        read.refusal == 17 && any(sent, f32::is_infinite)
    }),
    ("refused 17", "no sixteenths", |_, sent, read| {
        read.refusal == 17 && any(sent, |c| c.is_finite() && is_bad(c))
    }),
    ("refused 17", "18 too", |state, sent, read| {
        read.refusal == 17 && sent.is_step() && is_no_start(state)
    }),
    ("refused 17", "19 too", |_, sent, read| {
        read.refusal == 17 && any(sent, |c| is_far(c) && !is_bad(c))
    }),
    ("refused 18", "no place yet", |state, _, read| {
        read.refusal == 18 && state.seen == 0
    }),
    ("refused 18", "from NaN", |state, _, read| {
        read.refusal == 18 && state.x.is_nan()
    }),
    ("refused 18", "from no sixteenths", |state, _, read| {
        read.refusal == 18 && state.y.is_finite() && is_bad(state.y)
    }),
    ("refused 18", "from outside", |state, _, read| {
        read.refusal == 18 && is_far(state.x) && !is_bad(state.x)
    }),
    ("refused 18", "19 too", |_, sent, read| {
        read.refusal == 18 && any(sent, |c| c.abs() > 32_000.0)
    }),
    ("refused 19", "524,288 or more", |_, sent, read| {
        read.refusal == 19 && any(sent, |c| c.abs() >= 524_288.0)
    }),
    ("refused 19", "a step over a wall", |state, sent, read| {
        let over = |c: f32| c.abs() == 16_000.062_5;
        let to = [state.x + sent.values()[0], state.y + sent.values()[1]];
        read.refusal == 19 && sent.is_step() && to.into_iter().any(over)
    }),
    ("accepted", "a step to a wall", |_, sent, read| {
        let both = [read.state.x, read.state.y];
        let at_wall = both.into_iter().any(|c| c.abs() == 16_000.0);
        read.refusal == 0 && sent.is_step() && at_wall
    }),
    ("accepted", "a half above 0", |_, _, read| {
        is_half(read, 1.0)
    }),
    ("accepted", "a half below 0", |_, _, read| {
        is_half(read, -1.0)
    }),
    ("accepted", "-0.0", |_, sent, read| {
        read.refusal == 0 && any(sent, |c| c == 0.0 && c.is_sign_negative())
    }),
    (
        "accepted",
        "over a state that is none",
        |state, sent, read| read.refusal == 0 && !sent.is_step() && is_no_start(state),
    ),
];

impl Met {
    fn count(&mut self, state: &AnchorState, reading: Reading, read: &Anchored) {
        let row = REFUSALS.iter().zip(&mut self.met);
        for (_, row) in row.filter(|(refusal, _)| **refusal == read.refusal) {
            row[usize::from(reading.is_step())] += 1;
        }
        for ((_, _, is_so), many) in SAID.iter().zip(&mut self.said) {
            *many += usize::from(is_so(state, reading, read));
        }
    }

    fn readings(&self) -> usize {
        self.met.iter().flatten().sum()
    }

    /// What should have been met and wasn't, where the readings are enough.
    pub fn missing(&self) -> Vec<String> {
        if self.readings() < ENOUGH {
            return Vec::new();
        }
        let said = SAID.iter().zip(self.said);
        let said = said.filter(|(_, many)| *many == 0);
        let mut missing: Vec<String> = said
            .map(|((group, what, _), _)| format!("{group}: {what}"))
            .collect();
        for (refusal, row) in REFUSALS.into_iter().zip(self.met) {
            for ((form, can), many) in FORMS.into_iter().zip(row) {
                let can = refusal == 0 || can.contains(&refusal);
                missing.extend((can && many == 0).then(|| format!("{form}: {refusal}")));
            }
        }
        missing
    }
}

impl fmt::Display for Met {
    fn fmt(&self, f: &mut fmt::Formatter) -> fmt::Result {
        let line = |f: &mut fmt::Formatter, name: &str, cells: [String; 3]| {
            let cells = cells.map(|cell| format!("{cell:>10}")).concat();
            writeln!(f, "{name:12}{cells}")
        };
        let [absolute, step] = FORMS.map(|(form, _)| form.to_string());
        line(f, "readings", [absolute, step, "all".into()])?;
        for (refusal, row) in REFUSALS.into_iter().zip(self.met) {
            let name = match refusal {
                0 => "accepted".to_string(),
                number => format!("refused {number}"),
            };
            let cell = |k: usize| match FORMS[k].1.contains(&refusal) || refusal == 0 {
                true => row[k].to_string(),
                false => "-".into(),
            };
            let all = row[0] + row[1];
            line(f, &name, [cell(0), cell(1), all.to_string()])?;
        }
        let column = |k: usize| -> usize { self.met.iter().map(|row| row[k]).sum() };
        let all = [column(0), column(1), self.readings()];
        line(f, "all", all.map(|many| many.to_string()))?;
        for group in ["accepted", "refused 17", "refused 18", "refused 19"] {
            let said = SAID.iter().zip(self.said);
            let said = said.filter(|((of, ..), _)| *of == group);
            let said: Vec<String> = said
                .map(|((_, what, _), many)| format!("{many} {what}"))
                .collect();
            writeln!(f, "{group}: {}", said.join(", "))?;
        }
        let (readings, lists) = (self.readings(), self.lists);
        write!(f, "{readings} readings in {lists} lists, 0 differences")
    }
}

/// Draws lists of readings, each reading for the state that the one before left, until so many are tried as `settings` has
/// cases or one shows a difference. Each list is then taken at once too.
pub fn run(settings: Settings, proved: Side) -> Result<Met, Box<Difference>> {
    let mut random = Random::new(settings.seed);
    let mut met = Met::default();
    let mut left = settings.cases as i64;
    while left > 0 {
        let many = random.between(1, LONGEST_LIST).min(left);
        left -= many;
        let list = list(any_state(&mut random), many, proved, &mut random, &mut met)?;
        if list.is_one(proved) {
            return Err(Box::new(list.shortened(proved)));
        }
        met.lists += 1;
    }
    Ok(met)
}

/// A list of so many readings, on each of which the sides agree.
fn list(
    state: AnchorState,
    many: i64,
    proved: Side,
    random: &mut Random,
    met: &mut Met,
) -> Result<Difference, Box<Difference>> {
    let mut readings = Vec::new();
    let mut last = state;
    for _ in 0..many {
        let reading = Reading::any(&last, random);
        let read = (proved.one)(last, reading);
        let plain = (PLAIN.one)(last, reading);
        if numbers_anchored(read) != numbers_anchored(plain) {
            return Err(Box::new(Difference {
                state: last,
                readings: vec![reading],
                as_list: false,
            }));
        }
        met.count(&last, reading, &read);
        readings.push(reading);
        last = read.state;
    }
    Ok(Difference {
        state,
        readings,
        as_list: true,
    })
}
