//! One operation on one lent buffer, by the proved functions and by the plain version: what each answers, and what is
//! lent afterwards. `draw` draws such cases, `twin` moves one in time, `recast` has one in another kind, `minimise`
//! makes one smaller, and `met` counts what was met, with `near` for approaches. Anchors have no buffer, and `readings`
//! is their part of the comparison.

pub mod draw;
pub mod met;
pub mod minimise;
mod near;
pub mod readings;
pub mod recast;
pub mod twin;

use crate::cases::{kind_of, Random, Settings};
use crate::columns::Columns;
use crate::expected;
use crate::interface::LONGEST_TEXT;
use crate::interface::{self, Answer, Applied, Head, Loaded, Place, Run, Step};
use crate::plain;
use crate::plain::approach::{self, Circle};
use crate::plain::crossing::{self, Question};
use crate::plain::kinds::{Kind, CENTIMETRES};
use crate::plain::lists::{self, Call, List};
use crate::plain::table::Table;
use crate::questions::Moment;
use crate::tables::RowColumns;
use crate::told::{Approached, Crossed};

/// An operation of the interface, with all that it is given besides the buffer.
#[derive(Clone, Debug, PartialEq, Eq)]
pub enum Operation {
    Check,
    /// the positions to read one after the other
    Read(Vec<usize>),
    /// the columns to fill, with what is in them beforehand
    ReadAll(Columns),
    /// by the writer of this kind; the buffer is the output
    Write(Kind, Columns),
    /// of so many fixes; the buffer is the output
    Dearest(usize),
    List,
    Age(u16),
    /// for which the buffer is nothing
    Load(RowColumns),
    Days(u16, Table),
    /// what days apply
    Apply(u16, Table),
    Run(List),
    Place(Moment),
    Crosses(Question),
    CrossesAfter(List, Question),
    Near(Circle),
    NearAfter(List, Circle),
}

#[derive(Clone, Debug, PartialEq, Eq)]
pub struct Case {
    pub buffer: Vec<u8>,
    pub operation: Operation,
}

impl Case {
    /// The kind whose limits hold: the writer's, or the record's. Of bytes that have none, what they were made as.
    fn kind(&self, made: Kind) -> Kind {
        match self.operation {
            Operation::Write(kind, _) => kind,
            Operation::Dearest(_) => CENTIMETRES,
            _ => kind_of(&self.buffer, made),
        }
    }
}

/// What an operation answers.
#[derive(Clone, Debug, PartialEq)]
pub enum Reply {
    Head(Head),
    Steps(Vec<Step>),
    Answer(Answer),
    Length(usize),
    Loaded(Loaded),
    Applied(Applied),
    Run(Run),
    Place(Place),
    Crossing(Crossed),
    Approach(Approached),
}

impl Reply {
    /// The refusal that it tells, 0 for none. The listing tells it in its text.
    fn refusal(&self) -> Option<u32> {
        match self {
            Reply::Head(head) => Some(head.refusal),
            Reply::Steps(steps) => steps.first().map(|step| step.refusal),
            Reply::Answer(answer) => Some(answer.refusal),
            Reply::Place(place) => Some(place.refusal),
            Reply::Crossing(told) => Some(told.refusal()),
            Reply::Approach(told) => Some(told.refusal()),
            Reply::Run(run) => Some(run.refusal),
            Reply::Loaded(loaded) => Some(loaded.refusal),
            Reply::Applied(applied) => Some(applied.refusal),
            Reply::Length(_) => None,
        }
    }
}

/// What an operation answered, and all that was lent, as it is afterwards.
#[derive(Debug, PartialEq)]
pub struct Outcome {
    pub reply: Reply,
    pub after: Case,
    /// the listing's output; of other operations empty
    pub text: Vec<u8>,
}

/// What a listing's output has in it beforehand.
const BLANK: u8 = 0x5A;

fn blank() -> Box<[u8; LONGEST_TEXT]> {
    let bytes = vec![BLANK; LONGEST_TEXT].into_boxed_slice();
    bytes.try_into().expect("it has that length")
}

/// By the functions of the C interface.
pub fn proved(case: &Case) -> Outcome {
    let mut after = case.clone();
    let mut text = Vec::new();
    let kind = case.kind(CENTIMETRES);
    let crossed = |answer| Reply::Crossing(Crossed::of(kind, answer));
    let approached = |answer| Reply::Approach(Approached::of(kind, answer));
    let buffer = &mut after.buffer;
    let reply = match &mut after.operation {
        Operation::Check => Reply::Head(interface::check(buffer)),
        Operation::Read(positions) => {
            let step = |&position: &usize| interface::read(buffer, position);
            Reply::Steps(positions.iter().map(step).collect())
        }
        Operation::ReadAll(columns) => Reply::Answer(interface::read_all(buffer, columns)),
        Operation::Write(kind, columns) => Reply::Answer(interface::write(*kind, columns, buffer)),
        Operation::Dearest(n) => Reply::Answer(interface::dearest(*n, buffer)),
        Operation::List => {
            let mut output = blank();
            let length = interface::list(buffer, &mut output);
            text = (output as Box<[u8]>).into_vec();
            Reply::Length(length)
        }
        Operation::Age(e) => Reply::Answer(interface::age(buffer, *e)),
        Operation::Load(columns) => Reply::Loaded(interface::load(columns)),
        Operation::Days(days, by) => Reply::Answer(interface::age_by_days(buffer, *days, by)),
        Operation::Apply(days, by) => Reply::Applied(interface::days_apply(buffer, *days, by)),
        Operation::Run(list) => Reply::Run(interface::run(buffer, list)),
        Operation::Place(asked) => {
            Reply::Place(interface::place(buffer, asked.second, asked.thousandths))
        }
        Operation::Crosses(question) => crossed(interface::crosses(buffer, question)),
        Operation::CrossesAfter(list, question) => {
            crossed(interface::crosses_after(buffer, list, question))
        }
        Operation::Near(circle) => approached(interface::near(buffer, circle)),
        Operation::NearAfter(list, circle) => {
            approached(interface::near_after(buffer, list, circle))
        }
    };
    Outcome { reply, after, text }
}

/// By the plain version.
pub fn plain(case: &Case) -> Outcome {
    let mut after = case.clone();
    let mut text = Vec::new();
    let buffer = &mut after.buffer;
    let reply = match &mut after.operation {
        Operation::Check => Reply::Head(expected::check(buffer)),
        Operation::Read(positions) => {
            let step = |&position: &usize| expected::read(buffer, position);
            Reply::Steps(positions.iter().map(step).collect())
        }
        Operation::ReadAll(columns) => Reply::Answer(expected::read_all(buffer, columns)),
        Operation::Write(kind, columns) => {
            Reply::Answer(expected::write(*kind, &columns.fixes(*kind), buffer))
        }
        Operation::Dearest(n) => Reply::Answer(expected::dearest(*n, buffer)),
        Operation::List => {
            let listing = plain::listing(buffer).into_bytes();
            text = blank().to_vec();
            text[..listing.len()].copy_from_slice(&listing);
            Reply::Length(listing.len())
        }
        Operation::Age(e) => Reply::Answer(expected::aging(buffer, Call::Tolerance(*e))),
        Operation::Load(columns) => Reply::Loaded(expected::load(columns)),
        Operation::Days(days, by) => Reply::Answer(expected::aging(buffer, Call::Days(*days, *by))),
        Operation::Apply(days, by) => Reply::Applied(expected::days_apply(buffer, *days, by)),
        Operation::Run(list) => Reply::Run(expected::run(buffer, list)),
        Operation::Place(asked) => {
            Reply::Place(expected::place(buffer, asked.second, asked.thousandths))
        }
        Operation::Crosses(question) => Reply::Crossing(crossing::crosses(buffer, question).into()),
        Operation::CrossesAfter(list, question) => {
            Reply::Crossing(lists::crosses_after(buffer, &list.all(), question).into())
        }
        Operation::Near(circle) => Reply::Approach(approach::near(buffer, circle).into()),
        Operation::NearAfter(list, circle) => {
            Reply::Approach(lists::near_after(buffer, &list.all(), circle).into())
        }
    };
    Outcome { reply, after, text }
}

/// The two that are compared. Both are given, so that a test can put a faulty one in place of either.
#[derive(Clone, Copy)]
pub struct Sides<'a> {
    pub proved: &'a dyn Fn(&Case) -> Outcome,
    pub plain: &'a dyn Fn(&Case) -> Outcome,
}

impl Sides<'_> {
    /// The outcome that both have, or none if they differ.
    fn agreed(&self, case: &Case) -> Option<Outcome> {
        let outcome = (self.plain)(case);
        ((self.proved)(case) == outcome).then_some(outcome)
    }

    /// Whether the proved side answers a twin of the case otherwise than the case.
    fn twins_differ(&self, case: &Case) -> bool {
        twin::differing(self.proved, case).is_some()
    }

    /// Whether it answers the case of another kind otherwise.
    fn kinds_differ(&self, case: &Case) -> bool {
        recast::differing(self.proved, case).is_some()
    }
}

/// Draws cases until all are tried or one shows a difference, between the sides, from a twin or from the same of
/// another kind, which is given back as small as it can be made and still shows that.
pub fn run(settings: Settings, sides: Sides) -> Result<met::Met, Box<Case>> {
    let mut random = Random::new(settings.seed);
    let mut met = met::Met::default();
    let smallest =
        |case, differs: &dyn Fn(&Case) -> bool| Err(Box::new(minimise::minimised(case, differs)));
    for _ in 0..settings.cases {
        let draw::Drawn { made, case } = draw::drawn(&mut random);
        let Some(outcome) = sides.agreed(&case) else {
            return smallest(case, &|case| sides.agreed(case).is_none());
        };
        if sides.twins_differ(&case) {
            return smallest(case, &|case| sides.twins_differ(case));
        }
        if sides.kinds_differ(&case) {
            return smallest(case, &|case| sides.kinds_differ(case));
        }
        met.count(&case, made, &outcome.reply);
        met.twins += twin::shifts(&case).len();
        met.recast(&case);
    }
    Ok(met)
}
