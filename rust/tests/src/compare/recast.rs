//! A case of another kind. A trail in centimetres with all its places times ten is the same trail in millimetres, so
//! asked with all lengths times ten it keeps the same fixes with the same count, is at ten times the place, is in the box
//! at the same time, and comes near on the same leg at the same time. With silence bytes of 0 it is the same trail of
//! kind 3, and asked the same it answers the same.

use super::{Case, Operation, Outcome, Reply};
use crate::columns::Columns;
use crate::plain::approach::Circle;
use crate::plain::crossing::{Area, Question};
use crate::plain::kinds::{Kind, CENTIMETRES, MILLIMETRES, SILENCES};
use crate::plain::lists::{Call, List};
use crate::plain::{read, Trail, NEVER};
use crate::shapes::so_many_times;

/// The kinds that a case in centimetres is recast into, and what is said of that.
pub const OTHERS: [(Kind, &str); 2] = [(MILLIMETRES, "ten times"), (SILENCES, "without a silence")];

/// The case of the first other kind whose outcome by this side isn't that of the case.
pub fn differing(side: &dyn Fn(&Case) -> Outcome, case: &Case) -> Option<Case> {
    OTHERS.into_iter().find_map(|(kind, _)| {
        let other = recast(case, kind)?;
        let expected = Seen::of(side(case), kind).recast(kind);
        (expected != Some(Seen::of(side(&other), kind))).then_some(other)
    })
}

/// The case of this kind. It has none if its record isn't accepted or isn't in centimetres, if a tolerance or an edge
/// isn't one any more, also what days apply, and if it is a listing, which has its places in digits, has no record, or
/// writes one that is always of kind 1.
pub(super) fn recast(case: &Case, kind: Kind) -> Option<Case> {
    let operation = asked(&case.operation, kind)?;
    let buffer = match &case.operation {
        Operation::Write(_, columns) => {
            // as much too short, or too long, as it was
            let more = kind.fix_bytes() - CENTIMETRES.fix_bytes();
            let length = case.buffer.len() + more * columns.fixes(CENTIMETRES).len();
            vec![0; length]
        }
        _ => {
            let trail = read(&case.buffer).ok()?;
            let rest = &case.buffer[trail.bytes().len()..];
            [&same_trail(trail, kind)?.bytes(), rest].concat()
        }
    };
    Some(Case { buffer, operation })
}

/// The trail of this kind, if it is in centimetres and its mark is there.
fn same_trail(trail: Trail, kind: Kind) -> Option<Trail> {
    let mark = match trail.mark {
        NEVER => Some(NEVER),
        mark => tolerance(mark, kind),
    };
    (trail.kind == CENTIMETRES).then_some(Trail {
        kind,
        mark: mark?,
        fixes: so_many_times(kind.times.into(), &trail.fixes),
    })
}

fn tolerance(e: u16, kind: Kind) -> Option<u16> {
    e.checked_mul(kind.times).filter(|e| *e <= kind.top)
}

/// An aging of this kind, if it has what the aging applies: by days it is by as many and by the same table.
fn aging(call: Call, kind: Kind) -> Option<Call> {
    match call {
        Call::Tolerance(e) => tolerance(e, kind).map(Call::Tolerance),
        Call::Days(..) => match call.applies(CENTIMETRES) {
            Ok(Some(e)) => tolerance(e, kind).map(|_| call),
            _ => Some(call),
        },
    }
}

/// A list of agings, in which days and tables stay.
fn agings(list: &List, kind: Kind) -> Option<List> {
    let call = |&number: &u64| match aging(list.call(number), kind)? {
        Call::Tolerance(e) => Some(e.into()),
        Call::Days(..) => Some(number),
    };
    let calls: Option<Vec<u64>> = list.calls.iter().map(call).collect();
    Some(List {
        calls: calls?,
        tables: list.tables.clone(),
    })
}

fn question(question: &Question, kind: Kind) -> Option<Question> {
    let Question { window, area } = *question;
    let edge = |edge: i32| edge.checked_mul(kind.times.into());
    let x = (edge(area.left)?, edge(area.right)?);
    let y = (edge(area.bottom)?, edge(area.top)?);
    let area = Area::new(x, y);
    Some(Question { window, area })
}

fn circle(circle: &Circle, kind: Kind) -> Option<Circle> {
    let times = |length: i32| length.checked_mul(kind.times.into());
    Some(Circle {
        x: times(circle.x)?,
        y: times(circle.y)?,
        radius: circle.radius.checked_mul(kind.times.into())?,
    })
}

fn asked(operation: &Operation, to: Kind) -> Option<Operation> {
    Some(match operation {
        Operation::List | Operation::Load(_) | Operation::Dearest(_) => return None,
        Operation::Write(kind, columns) if *kind == CENTIMETRES => {
            let mut columns = columns.clone();
            further(&mut columns, to, usize::MAX);
            columns.silence = vec![0; columns.t.len()];
            Operation::Write(to, columns)
        }
        Operation::Write(..) => return None,
        Operation::Age(e) => Operation::Age(tolerance(*e, to)?),
        Operation::Run(list) => Operation::Run(agings(list, to)?),
        Operation::Crosses(asked) => Operation::Crosses(question(asked, to)?),
        Operation::CrossesAfter(list, asked) => {
            Operation::CrossesAfter(agings(list, to)?, question(asked, to)?)
        }
        Operation::Near(about) => Operation::Near(circle(about, to)?),
        Operation::NearAfter(list, about) => {
            Operation::NearAfter(agings(list, to)?, circle(about, to)?)
        }
        Operation::Days(days, table) | Operation::Apply(days, table) => {
            aging(Call::Days(*days, *table), to)?;
            operation.clone()
        }
        Operation::Check | Operation::Read(_) | Operation::ReadAll(_) | Operation::Place(_) => {
            operation.clone()
        }
    })
}

/// The first places of columns, as far as they are in this kind. One that 32 bits don't hold then is as far outside as
/// they go.
fn further(columns: &mut Columns, kind: Kind, first: usize) {
    let Columns { x, y, .. } = columns;
    for column in [x, y] {
        let places = column.iter_mut().take(first);
        places.for_each(|c| *c = c.saturating_mul(kind.times.into()));
    }
}

/// What is compared of an outcome and that of the case of another kind: what is answered, the columns that were filled,
/// and, where nothing was refused, the trail that is left.
#[derive(PartialEq)]
struct Seen {
    reply: Reply,
    columns: Option<Columns>,
    trail: Option<Trail>,
}

impl Seen {
    fn of(outcome: Outcome, other: Kind) -> Seen {
        let Outcome {
            mut reply, after, ..
        } = outcome;
        let accepted = reply.refusal() == Some(0);
        let columns = match (&mut reply, after.operation) {
            (Reply::Answer(answer), Operation::Write(kind, _)) if accepted => {
                // in fixes, since a record's length is another in each kind
                answer.value = answer.value.saturating_sub(10) / kind.fix_bytes() as u32;
                None
            }
            (Reply::Place(place), _) if other.times > 1 => {
                // ten times the rounded place isn't the rounded place of ten times
                (place.whole_x, place.whole_y) = (0, 0);
                None
            }
            (_, Operation::ReadAll(columns)) => Some(columns),
            _ => None,
        };
        Seen {
            reply,
            columns,
            trail: read(&after.buffer).ok().filter(|_| accepted),
        }
    }

    /// What must be seen of the case of this kind, if this is seen of the case.
    fn recast(mut self, kind: Kind) -> Option<Seen> {
        if let Some(trail) = self.trail {
            let trail = same_trail(trail, kind)?;
            if let Reply::Head(head) = &mut self.reply {
                (head.kind, head.mark) = (trail.kind.code.into(), trail.mark.into());
            }
            if let Some(columns) = &mut self.columns {
                further(columns, kind, trail.fixes.len());
            }
            self.trail = Some(trail);
        }
        let times = i32::from(kind.times);
        match &mut self.reply {
            Reply::Steps(steps) => {
                for step in steps.iter_mut().filter(|step| step.found == 1) {
                    step.kind = kind.code.into();
                    (step.x, step.y) = (times * step.x, times * step.y);
                }
            }
            Reply::Place(place) => {
                let times = i64::from(times);
                (place.x, place.y) = (times * place.x, times * place.y);
            }
            Reply::Applied(applied) => applied.tolerance *= u32::from(kind.times),
            _ => {}
        }
        Some(self)
    }
}
