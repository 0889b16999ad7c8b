//! A plain version of the radius question, document 02's item 2: when a trail came near a point.

use std::cmp::Ordering;

use super::kinds::Kind;
use super::place::{Place, Time};
use super::{read, refuse_if, Fix, Trail};

/// A point, and the radius within which a place is near it.
#[derive(Clone, Copy, Debug, PartialEq, Eq)]
pub struct Circle {
    pub x: i32,
    pub y: i32,
    pub radius: u32,
}

/// "Yes names the first leg that comes that close (counted from 0, or 0 for a one-fix trail) and the earliest time of
/// closest approach on it." Two are equal if their legs are and their times are by value.
#[derive(Clone, Copy, Debug, PartialEq)]
pub struct Approach {
    pub leg: usize,
    pub time: Time,
}

/// A place of a leg, and when the cart is there.
#[derive(Clone, Copy, Debug)]
pub struct Passing {
    pub time: Time,
    pub place: Place,
}

impl Passing {
    /// Where and when a cart has gone p of q equal parts of its way from i to j.
    fn on_leg(i: Fix, j: Fix, p: i128, q: i128) -> Passing {
        let between = |i: i128, j: i128| i * q + (j - i) * p;
        Passing {
            time: Time {
                p: between(i.t.into(), j.t.into()),
                q,
            },
            place: Place {
                x: between(i.x.into(), j.x.into()),
                y: between(i.y.into(), j.y.into()),
                d: q,
            },
        }
    }
}

/// The legs of a trail, in order. A lone fix is taken for one that goes nowhere, in no time.
pub fn legs(fixes: &[Fix]) -> impl Iterator<Item = (Fix, Fix)> + '_ {
    let lone = (fixes.len() == 1).then(|| (fixes[0], fixes[0]));
    let legs = fixes.windows(2).map(|leg| (leg[0], leg[1]));
    legs.chain(lone)
}

impl Circle {
    pub fn point(&self) -> Place {
        Place {
            x: self.x.into(),
            y: self.y.into(),
            d: 1,
        }
    }

    pub fn holds(&self, place: &Place) -> bool {
        place.near(&self.point(), self.radius)
    }

    /// Whether one place of a leg is nearer to the point than another. One of them is an end of it.
    fn order(&self, one: &Place, other: &Place) -> Ordering {
        let [one, other] = [one, other].map(|place| place.square_apart(&self.point()));
        (one.0 * other.1).cmp(&(other.0 * one.1))
    }

    /// Where a cart on its way from i to j has the point straight beside it, if that is between the two. Until then it
    /// comes nearer to the point, and from then on it goes away.
    fn beside(&self, i: Fix, j: Fix) -> Option<Passing> {
        let way = |from: i32, to: i32| i128::from(to) - i128::from(from);
        let (dx, dy) = (way(i.x, j.x), way(i.y, j.y));
        // after p/q of the way the line to the point is at right angles to it
        let p = way(i.x, self.x) * dx + way(i.y, self.y) * dy;
        let q = dx * dx + dy * dy;
        (0 < p && p < q).then(|| Passing::on_leg(i, j, p, q))
    }

    /// The earliest time of closest approach on a leg, and the place then. "For crossings and radius questions only the
    /// two ends of a silent leg count."
    pub fn closest(&self, (i, j): (Fix, Fix)) -> Passing {
        let inside = (!i.is_before_silence()).then(|| self.beside(i, j));
        let ends = [0, 1].map(|p| Passing::on_leg(i, j, p, 1));
        let in_order = [Some(ends[0]), inside.flatten(), Some(ends[1])];
        let nearer = |one: &Passing, other: &Passing| self.order(&one.place, &other.place);
        // of several that are as near it is the first
        let closest = in_order.into_iter().flatten().min_by(nearer);
        closest.expect("a leg has two ends")
    }

    /// The least whole radius within which a place is.
    pub fn reach(&self, place: &Place) -> u32 {
        let (sum, of) = place.square_apart(&self.point());
        let square = (sum + of - 1) / of;
        let root = square.isqrt();
        (root + i128::from(root * root < square)) as u32
    }

    /// Whether a place is just as far from the point as so many of the unit.
    pub fn is_at(&self, radius: u32, place: &Place) -> bool {
        let (sum, of) = place.square_apart(&self.point());
        sum == i128::from(radius) * i128::from(radius) * of
    }
}

/// The first leg that comes within the radius, with its earliest time of closest approach.
pub fn first(fixes: &[Fix], circle: &Circle) -> Option<Approach> {
    let closest = legs(fixes).map(|leg| circle.closest(leg)).enumerate();
    let mut near = closest.filter(|(_, passing)| circle.holds(&passing.place));
    let (leg, Passing { time, .. }) = near.next()?;
    Some(Approach { leg, time })
}

/// Check 16: "if the point is outside −16,000 to 16,000 or the radius is above 32,000". It reads the record's own limits.
fn bad_point(kind: Kind, circle: &Circle) -> bool {
    kind.is_outside(circle.x) || kind.is_outside(circle.y) || circle.radius > kind.radius
}

/// The radius question: checks 1 to 9, 20 and 16. The time is in seconds after the first fix.
pub fn near(lent: &[u8], circle: &Circle) -> Result<Option<Approach>, u8> {
    let Trail { kind, fixes, .. } = read(lent)?;
    refuse_if(16, bad_point(kind, circle))?;
    let since_first = |found: Approach| Approach {
        time: found.time.since(fixes[0].t),
        ..found
    };
    Ok(first(&fixes, circle).map(since_first))
}
