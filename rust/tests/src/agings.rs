//! Agings of a buffer, by the proved functions and by the plain version at once.

use crate::cases::{Draft, Random};
use crate::expected;
use crate::interface::{self, Answer};
use crate::plain::kinds::{Kind, KINDS};
use crate::plain::lists::Call;
use crate::plain::place::{is_silent, Place, Time, FINEST};
use crate::plain::table::Table;
use crate::plain::{read, Fix, Trail};

impl Call {
    /// Any call: small tolerances and the limits of every kind are likelier than others, and some are refused, as are
    /// some tables.
    pub fn any(kind: Kind, random: &mut Random) -> Call {
        let least = random.between(0, 12) as u16;
        let low = kind.times * random.between(0, 300) as u16;
        let high = random.between(0, 20_000) as u16;
        let any = random.between(0, 65_535) as u16;
        let top = random.pick(&KINDS).top;
        let edge = random.pick(&[0, 1, top, top + 1, top, top + 1, 65_535]);
        let table = Table::any(random);
        let days = table.days(random);
        random.pick(&[
            Call::Tolerance(least),
            Call::Tolerance(low),
            Call::Tolerance(high),
            Call::Tolerance(edge),
            Call::Tolerance(any),
            Call::Days(days, table),
            Call::Days(any, table),
        ])
    }

    fn proved(self, buffer: &mut [u8]) -> Answer {
        match self {
            Call::Tolerance(e) => interface::age(buffer, e),
            Call::Days(days, table) => interface::age_by_days(buffer, days, &table),
        }
    }
}

/// A list of calls, which may be empty.
pub fn some_calls(kind: Kind, random: &mut Random) -> Vec<Call> {
    let many = random.between(0, 8);
    (0..many).map(|_| Call::any(kind, random)).collect()
}

/// A lent buffer, and what to call it if a call on it goes wrong.
pub struct Buffer {
    pub name: String,
    pub bytes: Vec<u8>,
}

impl Buffer {
    pub fn new(name: String, bytes: Vec<u8>) -> Buffer {
        Buffer { name, bytes }
    }

    /// A buffer that begins with the record of this trail and goes on for some bytes.
    pub fn of(name: String, trail: &Trail, random: &mut Random) -> Buffer {
        let more = random.between(0, 20) as usize;
        let draft = Draft::new(trail.clone(), random.bytes(more));
        Buffer::new(name, draft.bytes())
    }

    /// The record, which must be accepted.
    pub fn trail(&self) -> Trail {
        read(&self.bytes).unwrap_or_else(|number| panic!("{}: refused {number}", self.name))
    }

    /// Makes the call, and holds its answer and every byte to the plain version's.
    pub fn age(&mut self, call: Call) -> Answer {
        let before = self.bytes.clone();
        let mut plain = before.clone();
        let expected = expected::aging(&mut plain, call);
        let answer = call.proved(&mut self.bytes);
        let name = format!("{}, {call:?}", self.name);
        assert_eq!(answer, expected, "{name}");
        assert!(self.bytes == plain, "{name}: other bytes");
        // what document 01 says of each call's bytes, whatever the plain version does
        let stays = match answer.refusal {
            0 => self.trail().bytes().len(),
            _ => 0,
        };
        assert!(self.bytes[stays..] == before[stays..], "{name}: the tail");
        answer
    }
}

/// A time for each fix of a trail, and as many more between its first fix and its last.
fn times(fixes: &[Fix], random: &mut Random) -> Vec<Time> {
    let (first, last) = (fixes[0].t, fixes[fixes.len() - 1].t);
    let fix = |fix: &Fix| Time {
        p: fix.t.into(),
        q: 1,
    };
    let between = |random: &mut Random| {
        let q = random.between(1, FINEST as i64);
        let p = random.between(q * i64::from(first), q * i64::from(last));
        Time {
            p: p.into(),
            q: q.into(),
        }
    };
    let mut all: Vec<Time> = fixes.iter().map(fix).collect();
    all.extend((0..fixes.len()).map(|_| between(random)));
    all
}

/// The bound: at each of many times outside silences the aged trail is at most E from the original. It has the same
/// silences.
pub fn stays_near(original: &[Fix], aged: &[Fix], e: u16, name: &str, random: &mut Random) {
    for time in times(original, random) {
        let silent = is_silent(original, time);
        assert_eq!(is_silent(aged, time), silent, "{name}, at {time:?}");
        if silent {
            continue;
        }
        let was = Place::at(original, time);
        let is = Place::at(aged, time);
        assert!(was.near(&is, e), "{name}, at {time:?}: {was:?} {is:?}");
    }
}
