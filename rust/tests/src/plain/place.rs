//! Where a trail has its cart at a fractional time, whether it is silent then, and whether two places are near. Nothing
//! is divided, so nothing is rounded.

use std::cmp::Ordering;

use super::Fix;

/// The most that the denominator of a time may be where two places are compared by `near`: then every product there
/// stays within 128 bits.
pub const FINEST: i128 = 80;

/// p/q seconds, with q at least 1.
#[derive(Clone, Copy, Debug)]
pub struct Time {
    pub p: i128,
    pub q: i128,
}

/// By value: two forms of one fraction are equal.
impl PartialEq for Time {
    fn eq(&self, other: &Time) -> bool {
        self.order(other).is_eq()
    }
}

impl Time {
    pub fn whole(seconds: u32) -> Time {
        Time {
            p: seconds.into(),
            q: 1,
        }
    }

    /// By value: two forms of one fraction are equal.
    pub fn order(&self, other: &Time) -> Ordering {
        (self.p * other.q).cmp(&(other.p * self.q))
    }

    /// Whether it is at or between two whole seconds.
    pub fn from_to(&self, from: u32, to: u32) -> bool {
        self.order(&Time::whole(from)).is_ge() && self.order(&Time::whole(to)).is_le()
    }

    pub fn midway(&self, other: &Time) -> Time {
        Time {
            p: self.p * other.q + other.p * self.q,
            q: 2 * self.q * other.q,
        }
    }

    /// The same time, counted from a second on.
    pub fn since(&self, second: u32) -> Time {
        Time {
            p: self.p - self.q * i128::from(second),
            q: self.q,
        }
    }
}

/// The position of the first fix that isn't earlier than the time, which is where its leg ends.
fn leg_end(fixes: &[Fix], time: Time) -> usize {
    fixes.partition_point(|fix| Time::whole(fix.t).order(&time).is_lt())
}

/// Whether the time is strictly inside a silence. The two ends of one aren't.
pub fn is_silent(fixes: &[Fix], time: Time) -> bool {
    match leg_end(fixes, time) {
        0 => false,
        end => {
            let before = fixes[end - 1].is_before_silence();
            let next = fixes.get(end).map(|fix| Time::whole(fix.t));
            before && next.is_some_and(|next| time.order(&next).is_lt())
        }
    }
}

/// The place (x/d, y/d), with d at least 1.
#[derive(Clone, Copy, Debug)]
pub struct Place {
    pub x: i128,
    pub y: i128,
    pub d: i128,
}

impl Place {
    pub fn of(fix: Fix) -> Place {
        Place {
            x: fix.x.into(),
            y: fix.y.into(),
            d: 1,
        }
    }

    /// The interpolated place on the leg from i to j.
    fn between(i: Fix, j: Fix, time: Time) -> Place {
        let seconds = i128::from(j.t) - i128::from(i.t);
        let since = time.p - time.q * i128::from(i.t);
        let d = time.q * seconds;
        let axis = |i: i32, j: i32| {
            let (i, j) = (i128::from(i), i128::from(j));
            i * d + (j - i) * since
        };
        Place {
            x: axis(i.x, j.x),
            y: axis(i.y, j.y),
            d,
        }
    }

    /// A trail's place at a time from its first fix to its last, outside silences.
    pub fn at(fixes: &[Fix], time: Time) -> Place {
        match leg_end(fixes, time) {
            0 => Place::of(fixes[0]),
            end => Place::between(fixes[end - 1], fixes[end], time),
        }
    }

    /// How far it is from another, in x and in y, both over the product of their denominators.
    fn off(&self, other: &Place) -> [i128; 2] {
        let x = self.x * other.d - other.x * self.d;
        let y = self.y * other.d - other.y * self.d;
        [x, y]
    }

    /// The square of how far apart they are, as a fraction. The denominators may be as great as the square of a leg's
    /// length: then every product stays within 128 bits.
    pub fn square_apart(&self, other: &Place) -> (i128, i128) {
        let [x, y] = self.off(other);
        let d = self.d * other.d;
        (x * x + y * y, d * d)
    }

    /// "Two places are at most E apart if the squares of their differences in x and in y add up to at most E²."
    ///
    /// The place at the time of a closest approach has a denominator whose squares leave 128 bits. So with each difference
    /// as a whole number w and a rest f/d below 1, the squares add up to W + 2·F/d + C/d², where W, F and C are the sums
    /// of w², w·f and f²; times d, and with C/d taken upward since all else is whole then, that is compared.
    pub fn near(&self, other: &Place, e: impl Into<i128>) -> bool {
        let (d, e) = (self.d * other.d, e.into());
        let sum = |term: fn(i128, i128) -> i128| -> i128 {
            let parts = self.off(other).map(|n| (n.div_euclid(d), n.rem_euclid(d)));
            parts.iter().map(|(w, f)| term(*w, *f)).sum()
        };
        let (whole, mixed, rest) = (sum(|w, _| w * w), sum(|w, f| w * f), sum(|_, f| f * f));
        (whole - e * e) * d + 2 * mixed + (rest + d - 1) / d <= 0
    }
}
