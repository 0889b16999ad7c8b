//! Round times of a trail's own seconds, or of the clock that they are told on.

use crate::clock::{Clock, DAY};

use super::panel::Tick;
use super::scale::{round_steps, Interval};
use super::text::{width, SIZE};

/// The least room between two labels.
const GAP: f64 = 18.0;

/// Steps of a clock's times below a day.
const STEPS: [i64; 17] = [
    1, 2, 5, 10, 15, 30, 60, 120, 300, 600, 900, 1_800, 3_600, 7_200, 10_800, 21_600, 43_200,
];

/// What stands below a round time: its time, or its day if the steps are days.
fn label(clock: Clock, second: u32, step: i64) -> String {
    match clock.day_and_time(second) {
        None => second.to_string(),
        Some((day, _)) if step >= DAY && !day.is_empty() => day,
        // whole minutes need no seconds
        Some((_, time)) if step % 60 == 0 => time.chars().take("hh:mm".len()).collect(),
        Some((_, time)) => time,
    }
}

/// The day that a label belongs to, if there is more to say than the label does.
fn day(clock: Clock, second: u32, step: i64) -> String {
    let day = clock.day_and_time(second).map(|(day, _)| day);
    day.filter(|_| step < DAY).unwrap_or_default()
}

/// The seconds that an interval of an axis has, of those that there are; an axis counts from `start`.
fn seconds(start: u32, interval: Interval) -> (u32, u32) {
    let second = |after: f64| (f64::from(start) + after).clamp(0.0, u32::MAX.into()) as u32;
    (second(interval.low.ceil()), second(interval.high.floor()))
}

/// How much room a label of these steps needs, with the gap to the next.
fn needed(clock: Clock, (first, last): (u32, u32), step: i64) -> f64 {
    let [one, other] = [first, last].map(|second| day(clock, second, step));
    let labels = [first, last].map(|second| label(clock, second, step));
    // a day is told once, so that its room counts only where another follows
    let days = [&one, &other].into_iter().filter(|_| one != other);
    let all = labels.iter().chain(days);
    GAP + all.map(|words| width(words, SIZE)).fold(0.0, f64::max)
}

/// Round times for an axis that counts from `start` and is so long, few enough that their labels stand apart. The day
/// stands below the first label of each.
pub fn ticks(clock: Clock, start: u32, interval: Interval, room: f64) -> Vec<Tick> {
    let (first, last) = seconds(start, interval);
    let days = round_steps().map(|days| days.saturating_mul(DAY));
    let steps: Vec<i64> = match clock.after_midnight() {
        Some(_) => STEPS.into_iter().chain(days).collect(),
        None => round_steps().collect(),
    };
    let fits = |step: &i64| {
        let apart = *step as f64 * room / interval.length();
        apart >= needed(clock, (first, last), *step)
    };
    let step = steps.into_iter().find(fits).unwrap_or(DAY);
    let midnight = clock.after_midnight().unwrap_or(0);
    let count = |second: u32| i64::from(second) + midnight;
    let rounds = (count(first) - 1).div_euclid(step) + 1..=count(last) / step;
    let seconds = rounds.filter_map(|round| u32::try_from(round * step - midnight).ok());
    let mut told = String::new();
    let tick = |second: u32| {
        let day = day(clock, second, step);
        let below = if day == told {
            String::new()
        } else {
            day.clone()
        };
        told = day;
        Tick {
            at: f64::from(second) - f64::from(start),
            words: label(clock, second, step),
            below,
        }
    };
    seconds.map(tick).collect()
}

#[cfg(test)]
mod tests {
    use super::*;

    fn words(epoch: &str, start: u32, high: f64) -> Vec<(String, String)> {
        let clock = match epoch {
            "" => Clock::default(),
            epoch => Clock::with_epoch(epoch).expect("a clock"),
        };
        let interval = Interval { low: 0.0, high };
        let ticks = ticks(clock, start, interval, 700.0);
        ticks
            .into_iter()
            .map(|tick| (tick.words, tick.below))
            .collect()
    }

    fn labels(epoch: &str, start: u32, high: f64) -> Vec<String> {
        let words = words(epoch, start, high);
        words.into_iter().map(|(words, _)| words).collect()
    }

    #[test]
    fn seconds_are_the_trails_own() {
        let rounds = ["10", "20", "30", "40", "50", "60"].map(String::from);
        assert_eq!(labels("", 7, 130.0)[..6], rounds);
        let last = labels("", u32::MAX - 1, 1.4);
        assert_eq!(last, ["4294967294", "4294967295"]);
        // a lone fix has its own second, and no second is below 0
        let at = ticks(Clock::default(), 0, Interval::about(0.0, 0.5), 700.0);
        assert_eq!(at.len(), 1);
        assert_eq!((at[0].at, at[0].words.as_str()), (0.0, "0"));
    }

    #[test]
    fn times_are_round_on_the_clock() {
        let hours = labels("06:30:00", 0, 20_000.0);
        assert_eq!(hours[..2], ["06:30", "07:00"]);
        let seconds = labels("05:59:58", 0, 40.0);
        assert_eq!(seconds[..2], ["06:00:00", "06:00:05"]);
        assert_eq!(labels("06:00:00", 0, 600.0)[..2], ["06:00", "06:01"]);
    }

    #[test]
    fn each_day_is_told_once() {
        let dated = words("2026-12-31T22:00:00", 0, 4.0 * 3_600.0);
        let days: Vec<_> = dated.iter().filter(|(_, day)| !day.is_empty()).collect();
        let of = |time: &str, day: &str| (time.to_string(), day.to_string());
        assert_eq!(
            days,
            [&of("22:00", "2026-12-31"), &of("00:00", "2027-01-01")]
        );
        let counted = words("22:00:00", 0, 4.0 * 3_600.0);
        let days: Vec<_> = counted.iter().filter(|(_, day)| !day.is_empty()).collect();
        assert_eq!(days, [&of("00:00", "+1d")]);
        let weeks = words("2026-12-31T22:00:00", 0, 3_000_000.0);
        assert_eq!(weeks[0], of("2027-01-05", ""));
    }

    /// Whatever the span and wherever it begins, there are some labels and they have room.
    #[test]
    fn labels_stand_apart() {
        let clocks = ["06:00:00", "23:59:59", "2026-11-17T23:00:00"];
        let clocks = clocks.map(|epoch| Clock::with_epoch(epoch).expect("a clock"));
        for clock in clocks.into_iter().chain([Clock::default()]) {
            for (k, start) in (0..31).flat_map(|k| [(k, 0), (k, 4_321), (k, 1 << 31)]) {
                let span = 2_f64.powi(k);
                let all = ticks(clock, start, Interval::about(span / 2.0, span / 2.0), 700.0);
                assert!(!all.is_empty(), "{clock:?} {start} {span}");
                for row in [
                    |tick: &Tick| tick.words.clone(),
                    |tick: &Tick| tick.below.clone(),
                ] {
                    let told = all.iter().filter(|tick| !row(tick).is_empty());
                    let ends = told.map(|tick| {
                        let (at, half) = (tick.at / span * 700.0, width(&row(tick), SIZE) / 2.0);
                        (at - half, at + half)
                    });
                    let ends: Vec<(f64, f64)> = ends.collect();
                    let apart = ends.windows(2).all(|two| two[0].1 + 3.0 < two[1].0);
                    assert!(apart, "{clock:?} {start} {span} {ends:?}");
                }
            }
        }
    }
}
