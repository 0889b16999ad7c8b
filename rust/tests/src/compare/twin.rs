//! The twins of a case: the same trail at another time, asked about the same seconds of it. All times and asked seconds
//! are moved by the same number of seconds and still fit 32 bits, so the answer must be the same, as document 02's item 4
//! has it: the fraction of a yes in the same form, and of bytes that are refused the same refusal.

use super::{Case, Operation, Outcome, Reply};
use crate::cases::Random;
use crate::plain::place::Time;
use crate::told::Told;

/// The first twin whose outcome by this side isn't the case's, moved.
pub fn differing(side: &dyn Fn(&Case) -> Outcome, case: &Case) -> Option<Case> {
    let outcome = side(case);
    let fixes = case.times().len();
    let twin = |by| case.moved(0..fixes, 0, by);
    let differs = |by: &u32| !same(&side(&twin(*by)), &expected(&outcome, fixes, *by));
    shifts(case).into_iter().find(differs).map(twin)
}

/// By how many seconds, modulo 2³², the twins are moved: so that the earliest second is 0, that the latest is the last
/// one of 32 bits, and to somewhere between. A listing has its times in digits, and has no twins.
pub(super) fn shifts(case: &Case) -> Vec<u32> {
    if case.operation == Operation::List {
        return Vec::new();
    }
    let mut seconds = case.times();
    seconds.extend(case.clone().asked_seconds().into_iter().map(|t| *t));
    let (Some(&earliest), Some(&latest)) = (seconds.iter().min(), seconds.iter().max()) else {
        return Vec::new();
    };
    let last = u32::MAX - (latest - earliest);
    // drawn from the case alone, so that it always has the same twins
    let seed = u64::from(earliest) << 32 | u64::from(latest);
    let between = Random::new(seed).between(0, last.into()) as u32;
    let shifts = [0, last, between].map(|first| first.wrapping_sub(earliest));
    shifts.into_iter().filter(|&by| by != 0).collect()
}

/// What must come of a twin, if this came of the case: the same, with all times moved that are read, written or left.
/// The buffer had so many fixes: an aging leaves times also behind its shorter record, up to where the last of them was.
fn expected(outcome: &Outcome, fixes: usize, by: u32) -> Outcome {
    let mut expected = Outcome {
        reply: outcome.reply.clone(),
        after: outcome.after.moved(0..fixes, 0, by),
        text: outcome.text.clone(),
    };
    let later = |t: &mut u32| *t = t.wrapping_add(by);
    match (&mut expected.reply, &mut expected.after.operation) {
        (Reply::Steps(steps), _) => {
            let found = steps.iter_mut().filter(|step| step.found == 1);
            found.for_each(|step| later(&mut step.t));
        }
        (Reply::Answer(answer), Operation::ReadAll(columns)) => {
            let filled = columns.t.iter_mut().take(answer.value as usize);
            filled.for_each(later);
        }
        (Reply::Answer(answer), Operation::Write(..)) if answer.refusal == 0 => {
            let written = Case {
                buffer: outcome.after.buffer.clone(),
                operation: Operation::Check,
            };
            let fixes = written.times().len();
            expected.after.buffer = written.moved(0..fixes, 0, by).buffer;
        }
        _ => {}
    }
    expected
}

/// The numerator and the denominator of a yes.
fn form(reply: &Reply) -> Option<(i128, i128)> {
    let time = match reply {
        Reply::Crossing(Told::Yes(time)) => Some(time),
        Reply::Approach(Told::Yes(approach)) => Some(&approach.time),
        _ => None,
    };
    time.map(|Time { p, q }| (*p, *q))
}

/// Whether two outcomes are the same, and the fraction of a yes also in its form.
fn same(one: &Outcome, other: &Outcome) -> bool {
    form(&one.reply) == form(&other.reply) && one == other
}
