//! From seconds and lengths to places in the picture.

/// An interval of an axis, in seconds or in the trail's unit.
#[derive(Clone, Copy, Debug, PartialEq)]
pub struct Interval {
    pub low: f64,
    pub high: f64,
}

/// Round steps: 1, 2 or 5 times a power of ten.
pub fn round_steps() -> impl Iterator<Item = i64> {
    (0..18).flat_map(|k| [1, 2, 5].map(|unit| unit * 10_i64.pow(k)))
}

impl Interval {
    /// The shortest that has all these values, or the one at 0 if there are none.
    pub fn of(values: impl Iterator<Item = f64>) -> Interval {
        let all = values.fold(None, |all: Option<Interval>, value| {
            let (low, high) = all.map_or((value, value), |all| (all.low, all.high));
            Some(Interval {
                low: low.min(value),
                high: high.max(value),
            })
        });
        all.unwrap_or(Interval {
            low: 0.0,
            high: 0.0,
        })
    }

    /// So far to either side of a value.
    pub fn about(value: f64, by: f64) -> Interval {
        Interval::of([value].into_iter()).wider(by)
    }

    /// The shortest that has both.
    pub fn and(self, other: Interval) -> Interval {
        Interval::of([self, other].into_iter().flat_map(|of| [of.low, of.high]))
    }

    pub fn length(&self) -> f64 {
        self.high - self.low
    }

    pub fn contains(&self, value: f64) -> bool {
        (self.low..=self.high).contains(&value)
    }

    fn middle(&self) -> f64 {
        (self.low + self.high) / 2.0
    }

    /// The same middle, and at least this length.
    pub fn at_least(self, length: f64) -> Interval {
        self.wider((length - self.length()).max(0.0) / 2.0)
    }

    /// Wider by so much at either end.
    pub fn wider(self, by: f64) -> Interval {
        Interval {
            low: self.low - by,
            high: self.high + by,
        }
    }

    /// Round numbers in the interval, at most so many.
    pub fn ticks(&self, most: usize) -> Vec<i64> {
        let mut steps = round_steps();
        // an interval of so many steps, and less than one more, has at most one tick more than that
        let whole_steps = |step: &i64| (self.length() / *step as f64) as usize;
        let step = steps.find(|step| whole_steps(step) < most);
        let step = step.unwrap_or(i64::MAX);
        let (first, last) = (self.low / step as f64, self.high / step as f64);
        (first.ceil() as i64..=last.floor() as i64)
            .map(|k| k.saturating_mul(step))
            .collect()
    }
}

/// An axis: an interval, and from where to where it is drawn.
#[derive(Clone, Copy, Debug)]
pub struct Axis {
    pub interval: Interval,
    pub from: f64,
    pub to: f64,
}

impl Axis {
    /// How far a length of 1 reaches in the picture; below 0 where values grow upward. An interval of an axis is never empty.
    fn scale(&self) -> f64 {
        (self.to - self.from) / self.interval.length().max(f64::MIN_POSITIVE)
    }

    /// Where a value is drawn, to a tenth, as a picture's numbers are written. It is counted from the middle, and halves go away
    /// from it, so that a mirrored trail's lines and fixes are drawn mirrored, to the last digit.
    pub fn at(&self, value: f64) -> f64 {
        let off = (value - self.interval.middle()) * self.scale();
        (self.from + self.to) / 2.0 + (10.0 * off).round() / 10.0
    }

    /// How long it is in the picture.
    pub fn drawn(&self) -> f64 {
        (self.to - self.from).abs()
    }

    /// How much room a length takes.
    pub fn room(&self, length: f64) -> f64 {
        (length * self.scale()).abs()
    }
}

#[cfg(test)]
mod tests {
    use super::{Axis, Interval};

    fn interval(low: f64, high: f64) -> Interval {
        Interval { low, high }
    }

    #[test]
    fn ticks_are_round_and_not_too_many() {
        assert_eq!(interval(0.0, 10.0).ticks(6), [0, 2, 4, 6, 8, 10]);
        assert_eq!(interval(-7.0, 7.0).ticks(4), [-5, 0, 5]);
        assert_eq!(interval(3.2, 3.9).ticks(5), []);
        for length in 1..70_000 {
            let ticks = interval(-13.0, f64::from(length)).ticks(9);
            assert!((1..=9).contains(&ticks.len()), "{length}");
        }
    }

    #[test]
    fn intervals_have_all_their_values() {
        let all = Interval::of([3.0, -1.0, 2.0].into_iter());
        assert_eq!(all, interval(-1.0, 3.0));
        assert_eq!(
            Interval::of([].into_iter()).at_least(8.0),
            interval(-4.0, 4.0)
        );
        assert_eq!(all.at_least(2.0), all);
        assert_eq!(all.and(Interval::about(2.0, 3.0)), interval(-1.0, 5.0));
    }

    #[test]
    fn values_are_drawn_in_proportion() {
        let axis = Axis {
            interval: interval(-10.0, 10.0),
            from: 100.0,
            to: 0.0,
        };
        assert_eq!(
            (axis.at(-10.0), axis.at(0.0), axis.at(10.0)),
            (100.0, 50.0, 0.0)
        );
        assert_eq!(axis.room(4.0), 20.0);
        // halves of a tenth, on both sides of the middle
        assert_eq!((axis.at(0.01), axis.at(-0.01)), (49.9, 50.1));
    }
}
