//! The three questions: where a cart was at a moment, whether it crossed a box, and whether it came near a point.

use crate::aging::{Aging, List};
use crate::interface;
use crate::refusal::Refusal;

/// A moment on the fixes' own clock.
#[derive(Clone, Copy, Debug, PartialEq, Eq, Hash)]
pub struct Moment {
    /// The second.
    pub second: u32,
    /// So many thousandths after it, at most 999.
    pub thousandths: u16,
}

/// Where a cart was: (x / denominator, y / denominator), in the record's unit.
#[derive(Clone, Copy, Debug, PartialEq, Eq, Hash)]
pub struct Place {
    /// At least 1. The fractions aren't reduced.
    pub denominator: u32,
    /// Times the denominator.
    pub x: i64,
    /// Times the denominator.
    pub y: i64,
    /// x as a whole number, halves away from 0.
    pub whole_x: i32,
    /// y as a whole number, halves away from 0.
    pub whole_y: i32,
}

/// A box with its edges included, in the record's unit.
#[derive(Clone, Copy, Debug, PartialEq, Eq, Hash)]
pub struct Area {
    /// The least x.
    pub left: i32,
    /// The greatest x.
    pub right: i32,
    /// The least y.
    pub bottom: i32,
    /// The greatest y.
    pub top: i32,
}

/// A window with both ends included, in seconds on the fixes' own clock.
#[derive(Clone, Copy, Debug, PartialEq, Eq, Hash)]
pub struct Window {
    /// Its first second.
    pub start: u32,
    /// Its last second.
    pub end: u32,
}

/// The earliest time at which a cart was in a box: numerator / denominator seconds after the first fix.
///
/// The fraction isn't reduced: its denominator is 1, as always at an end of a silence, or how far, in the record's
/// unit, the cart goes along an axis from one fix to the next. Two crossings are equal if their values are. A trail and
/// its window moved by the same seconds have the same numerator and denominator.
#[derive(Clone, Copy, Debug)]
pub struct Crossing {
    /// Seconds times the denominator.
    pub numerator: u64,
    /// From 1 to 32,000, or to 320,000 of a record in millimetres.
    pub denominator: u32,
}

/// Whether two times, each a numerator and a denominator, are the same: by value, whatever their forms.
fn same_time(one: (u64, u64), other: (u64, u64)) -> bool {
    let product = |a: u64, b: u64| u128::from(a) * u128::from(b);
    product(one.0, other.1) == product(other.0, one.1)
}

impl PartialEq for Crossing {
    fn eq(&self, other: &Crossing) -> bool {
        let time = |of: &Crossing| (of.numerator, of.denominator.into());
        same_time(time(self), time(other))
    }
}

/// A point that a cart may have come near, in the record's unit.
#[derive(Clone, Copy, Debug, PartialEq, Eq, Hash)]
pub struct Point {
    /// Its x.
    pub x: i32,
    /// Its y.
    pub y: i32,
}

/// The first leg on which a cart came near a point, and the earliest time at which it was closest to the point on it:
/// numerator / denominator seconds after the first fix.
///
/// The fraction isn't reduced: its denominator is 1 at an end of the leg, as always of a silence and of a leg at rest,
/// and else the square of the leg's length, in the record's unit. Two approaches are equal if their legs are and the
/// values of their times. A trail moved by some seconds has the same numerator and denominator.
#[derive(Clone, Copy, Debug)]
pub struct Approach {
    /// From this fix to the next, counted from 0. Of a trail of one fix it is 0.
    pub leg: u32,
    /// Seconds times the denominator.
    pub numerator: u64,
    /// From 1 to 2,048,000,000, or to 204,800,000,000 of a record in millimetres.
    pub denominator: u64,
}

impl PartialEq for Approach {
    fn eq(&self, other: &Approach) -> bool {
        let time = |of: &Approach| (of.numerator, of.denominator);
        self.leg == other.leg && same_time(time(self), time(other))
    }
}

/// Where the cart was at a moment. Inside a silence nobody knows; at both its ends it is told. Makes checks 1 to 9, 20,
/// 11, 12 and 21.
pub fn place(record: &[u8], moment: Moment) -> Result<Place, Refusal> {
    let found = interface::place(record, moment.second, moment.thousandths);
    Refusal::none_in(found.refusal)?;
    Ok(Place {
        denominator: found.denominator,
        x: found.x,
        y: found.y,
        whole_x: found.whole_x,
        whole_y: found.whole_y,
    })
}

/// A question as it is lent to the interface.
fn asked(area: Area, window: Window) -> interface::Question {
    interface::Question {
        start: window.start,
        end: window.end,
        left: area.left,
        right: area.right,
        bottom: area.bottom,
        top: area.top,
    }
}

/// What a yes tells, if the answer is no refusal and is one.
fn told<T>(refusal: u32, yes: u32, tells: T) -> Result<Option<T>, Refusal> {
    Refusal::none_in(refusal)?;
    Ok((yes != 0).then_some(tells))
}

fn crossing(answer: interface::Crossing) -> Result<Option<Crossing>, Refusal> {
    let tells = Crossing {
        numerator: answer.numerator,
        denominator: answer.denominator,
    };
    told(answer.refusal, answer.crosses, tells)
}

fn approach(answer: interface::Approach) -> Result<Option<Approach>, Refusal> {
    let tells = Approach {
        leg: answer.leg,
        numerator: answer.numerator,
        denominator: answer.denominator,
    };
    told(answer.refusal, answer.approaches, tells)
}

/// A point and a radius as they are lent to the interface.
fn about(Point { x, y }: Point, radius: u32) -> interface::Circle {
    interface::Circle { x, y, radius }
}

/// Whether the cart was in the box at some time of the window, fractions of seconds too, and when first. Of a silence
/// only its two ends count. Makes checks 1 to 9, 20, 13 and 14.
pub fn crosses(record: &[u8], area: Area, window: Window) -> Result<Option<Crossing>, Refusal> {
    crossing(interface::crosses(record, asked(area, window)))
}

/// Makes all agings of a list, as `run` does, and then asks `crosses` of what is left. Makes checks 1 to 9, 20, 13 and
/// 14 first, and where one fails makes no aging. STACK: as `age`.
pub fn crosses_after(
    record: &mut [u8],
    list: &[Aging],
    area: Area,
    window: Window,
) -> Result<Option<Crossing>, Refusal> {
    let List { calls, tables } = List::of(list);
    crossing(interface::crosses_after(
        record,
        &calls,
        &tables,
        asked(area, window),
    ))
}

/// Whether the cart was at some time, fractions of seconds too, at most the radius from the point; on which leg first, and
/// when it was closest on that leg. Of a silence only its two ends count, the nearer one, of equals the earlier. Makes
/// checks 1 to 9, 20 and 16.
pub fn near(record: &[u8], point: Point, radius: u32) -> Result<Option<Approach>, Refusal> {
    approach(interface::near(record, about(point, radius)))
}

/// Makes all agings of a list, as `run` does, and then asks `near` of what is left. Makes checks 1 to 9, 20 and 16 first,
/// and where one fails makes no aging. STACK: as `age`.
pub fn near_after(
    record: &mut [u8],
    list: &[Aging],
    point: Point,
    radius: u32,
) -> Result<Option<Approach>, Refusal> {
    let List { calls, tables } = List::of(list);
    approach(interface::near_after(
        record,
        &calls,
        &tables,
        about(point, radius),
    ))
}
