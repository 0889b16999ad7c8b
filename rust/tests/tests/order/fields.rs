//! The structs that functions take and answer: where Rust has their fields, and an answer as a list of numbers.

use std::mem::{offset_of, size_of};

use trails_tests::interface::{bits, numbers, numbers_anchored, numbers_near};
use trails_tests::interface::{AnchorState, Anchored, Answer, Applied, Approach, Crossing, Head};
use trails_tests::interface::{Loaded, Place, Row, Run, Step, Table};
use trails_tests::plain::approach;
use trails_tests::plain::place::Time;

/// A struct of the header, and where Rust has its fields.
pub struct Layout {
    pub c: &'static str,
    pub rust: &'static str,
    pub size: usize,
    pub fields: Vec<(&'static str, usize)>,
}

macro_rules! layout {
    ($c:literal, $rust:ident: $($field:ident),+) => {
        Layout {
            c: $c,
            rust: stringify!($rust),
            size: size_of::<$rust>(),
            fields: vec![$((stringify!($field), offset_of!($rust, $field))),+],
        }
    };
}

pub fn layouts() -> [Layout; 13] {
    [
        layout!("trails_head", Head: refusal, kind, count, mark),
        layout!("trails_step", Step: refusal, found, kind, t, x, y, silence),
        layout!("trails_answer", Answer: refusal, value),
        layout!("trails_row", Row: day, tolerance),
        layout!("trails_table", Table: count, rows),
        layout!("trails_loaded", Loaded: refusal, table),
        layout!("trails_applied", Applied: refusal, applies, tolerance),
        layout!("trails_run", Run: refusal, turned_away),
        layout!("trails_place", Place: refusal, denominator, x, y, whole_x, whole_y),
        layout!("trails_crossing", Crossing: refusal, crosses, numerator, denominator),
        layout!("trails_approach", Approach: refusal, approaches, leg, numerator, denominator),
        layout!("trails_anchor_state", AnchorState: x, y, seen),
        layout!("trails_anchored", Anchored: refusal, x, y, state),
    ]
}

pub fn of_head(head: Head) -> Vec<i64> {
    let fields = [head.refusal, head.kind, head.count, head.mark];
    fields.map(i64::from).into()
}

pub fn of_step(step: Step) -> Vec<i64> {
    let place = [step.x.into(), step.y.into()];
    [
        &[step.refusal, step.found, step.kind, step.t].map(i64::from)[..],
        &place,
        &[step.silence.into()],
    ]
    .concat()
}

pub fn of_answer(answer: Answer) -> Vec<i64> {
    vec![answer.refusal.into(), answer.value.into()]
}

pub fn of_table(table: Table) -> Vec<i64> {
    table.numbers().map(i64::from).collect()
}

pub fn of_loaded(loaded: Loaded) -> Vec<i64> {
    [vec![loaded.refusal.into()], of_table(loaded.table)].concat()
}

pub fn of_applied(applied: Applied) -> Vec<i64> {
    let fields = [applied.refusal, applied.applies, applied.tolerance];
    fields.map(i64::from).into()
}

pub fn of_run(run: Run) -> Vec<i64> {
    vec![run.refusal.into(), run.turned_away as i64]
}

pub fn of_place(place: Place) -> Vec<i64> {
    vec![
        place.refusal.into(),
        place.denominator.into(),
        place.x,
        place.y,
        place.whole_x.into(),
        place.whole_y.into(),
    ]
}

pub fn of_crossing(answer: Crossing) -> Vec<i64> {
    by_value(&numbers(answer).map(|n| n as i64))
}

pub fn of_approach(answer: Approach) -> Vec<i64> {
    by_value(&numbers_near(answer).map(|n| n as i64))
}

pub fn of_state(state: AnchorState) -> Vec<i64> {
    bits(state).map(i64::from).into()
}

pub fn of_anchored(answer: Anchored) -> Vec<i64> {
    numbers_anchored(answer).into()
}

fn thousandths(time: Time) -> i64 {
    (1_000 * time.p / time.q) as i64
}

pub fn of_time(result: Result<Option<Time>, u8>) -> Vec<i64> {
    let told = result.map(|told| told.map(|time| [thousandths(time)]));
    of_told(told)
}

pub fn of_first(result: Result<Option<approach::Approach>, u8>) -> Vec<i64> {
    let numbers = |told: approach::Approach| [told.leg as i64, thousandths(told.time)];
    of_told(result.map(|told| told.map(numbers)))
}

/// A refusal, whether it is a yes, and the numbers of a yes.
fn of_told<const N: usize>(result: Result<Option<[i64; N]>, u8>) -> Vec<i64> {
    let (refusal, told) = match result {
        Err(number) => (number.into(), None),
        Ok(told) => (0, told),
    };
    let facts = [refusal, told.is_some().into()];
    [&facts[..], &told.unwrap_or([0; N])].concat()
}

/// The fields of an answer whose last two are a time, with that in thousandths, since the form of the fraction is free.
pub fn by_value(fields: &[i64]) -> Vec<i64> {
    let (facts, time) = fields.split_at(fields.len() - 2);
    let time = (1_000 * time[0]).checked_div(time[1]);
    [facts, &[time.unwrap_or(0)]].concat()
}
