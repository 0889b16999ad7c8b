//! Seconds as people give and read them: as numbers, or as times of a clock.
//!
//! A trail counts its seconds from a second 0 of its own. Which time of the clock that was, nobody but the caller knows,
//! and `--epoch` says it: a time of day, or of a date's. Then what people are told is told on that clock. A time of the
//! clock may also be given without it, and second 0 is then midnight. Zones and changes of the clock are nobody's here: a
//! day has 86,400 seconds. Programs are told seconds as numbers, whatever the clock.

use std::ops::RangeInclusive;

use trails::Moment;

use crate::calendar::{date_of, day_of};
use crate::numbers::{whole, Range};
use crate::words;

pub const DAY: i64 = 86_400;

/// What a time may look like, for messages.
const FORMS: &str = "a time like 06:30:00, 06:30:00+1d or 2026-11-17T06:30:00";

/// When second 0 was.
#[derive(Clone, Copy, Debug, Default)]
struct Epoch {
    /// the day, if it has a date
    date: Option<i64>,
    /// in seconds after midnight
    time: i64,
}

/// The clock that a trail's seconds are told on, or none: then they are told as numbers.
#[derive(Clone, Copy, Debug, Default)]
pub struct Clock(Option<Epoch>);

/// What the caller gives as a time: the day, if it is said, and the time of day.
struct Given {
    date: Option<i64>,
    /// so many days after the day of second 0
    later: Option<i64>,
    time: i64,
}

/// A whole number of so many digits at most and nothing else, in a range.
fn digits(word: &str, most: usize, range: RangeInclusive<i64>) -> Option<i64> {
    let all = word.bytes().all(|byte| byte.is_ascii_digit());
    let number = word.parse().ok().filter(|_| all && word.len() <= most);
    number.filter(|number| range.contains(number))
}

/// The seconds of `hh:mm:ss` after midnight.
fn time_of_day(word: &str) -> Option<i64> {
    let mut parts = word.split(':');
    let mut part = |most: i64| digits(parts.next()?, 2, 0..=most);
    let (hours, minutes, seconds) = (part(23)?, part(59)?, part(59)?);
    let none_left = parts.next().is_none();
    none_left.then_some(3_600 * hours + 60 * minutes + seconds)
}

/// The day that `yyyy-mm-dd` is.
fn date(word: &str) -> Option<i64> {
    let mut parts = word.split('-');
    let mut part = |most, range| digits(parts.next()?, most, range);
    let (year, month, day) = (part(5, 1..=99_999)?, part(2, 1..=12)?, part(2, 1..=31)?);
    let number = day_of(year, month, day);
    // the last day of a short month is no day of the next one
    let is_one = parts.next().is_none() && date_of(number) == (year, month, day);
    is_one.then_some(number)
}

impl Given {
    fn parse(word: &str) -> Option<Given> {
        let (word, later) = match word.split_once('+') {
            Some((word, days)) => (word, Some(digits(days.strip_suffix('d')?, 5, 0..=99_999)?)),
            None => (word, None),
        };
        let (day, time) = match word.split_once(['T', ' ']) {
            Some((day, time)) => (Some(date(day)?), time),
            None => (None, word),
        };
        let given = Given {
            date: day,
            later,
            time: time_of_day(time)?,
        };
        (day.is_none() || later.is_none()).then_some(given)
    }
}

impl Epoch {
    fn day_and_time(self, second: u32) -> (String, String) {
        let all = self.time + i64::from(second);
        let (days, time) = (all / DAY, all % DAY);
        let (hours, minutes, seconds) = (time / 3_600, time / 60 % 60, time % 60);
        let day = match (self.date, days) {
            (Some(first), _) => {
                let (year, month, day) = date_of(first + days);
                format!("{year:04}-{month:02}-{day:02}")
            }
            (None, 0) => String::new(),
            (None, days) => format!("+{days}d"),
        };
        (day, format!("{hours:02}:{minutes:02}:{seconds:02}"))
    }
}

impl Clock {
    /// The clock on which second 0 was at this time, which may have a date: up to the year 9999, so that the last second
    /// has one that can be given too.
    pub fn with_epoch(word: &str) -> Result<Clock, String> {
        let given = Given::parse(word).filter(|given| given.later.is_none());
        let early = |day: i64| date_of(day).0 <= 9_999;
        match given.filter(|given| given.date.is_none_or(early)) {
            Some(Given { date, time, .. }) => Ok(Clock(Some(Epoch { date, time }))),
            None => {
                let word = words::quoted(word);
                Err(format!(
                    "{word} isn't a time like 06:30:00 or 2026-11-17T06:30:00"
                ))
            }
        }
    }

    /// The second that a word has: a number, or a time of the clock.
    pub fn second(self, word: &str) -> Result<u32, String> {
        match word.contains(':') {
            true => self.on_clock(word),
            false => whole(word, Range::Seconds),
        }
    }

    fn on_clock(self, word: &str) -> Result<u32, String> {
        let shown = words::quoted(word);
        let given = Given::parse(word).ok_or_else(|| format!("{shown} isn't {FORMS}"))?;
        let epoch = self.0.unwrap_or_default();
        let days = match (given.date, epoch.date) {
            (Some(day), Some(first)) => day - first,
            (Some(_), None) => return Err(format!("{shown} has a date, and no --epoch has one")),
            // a time without its day is the first that there is
            (None, _) => given.later.unwrap_or((given.time < epoch.time).into()),
        };
        let second = u32::try_from(DAY * days + given.time - epoch.time);
        second.map_err(|_| {
            let first = self.time(0, "");
            format!("{shown} isn't one of the 4,294,967,296 seconds from {first} on")
        })
    }

    /// The moment that a word has: a second, and after a point up to three digits.
    pub fn moment(self, word: &str) -> Result<Moment, String> {
        // a day that is counted stands behind the point
        let (word, later) = match word.split_once('+') {
            Some((word, days)) if word.contains(':') => (word, format!("+{days}")),
            _ => (word, String::new()),
        };
        let (second, part) = word.split_once('.').unwrap_or((word, "0"));
        let digits = part.bytes().all(|byte| byte.is_ascii_digit());
        if !digits || part.is_empty() || part.len() > 3 {
            return Err("after the point stand one to three digits".into());
        }
        Ok(Moment {
            second: self.second(&format!("{second}{later}"))?,
            thousandths: whole(&format!("{part:0<3}"), Range::Thousandths)?,
        })
    }

    /// A second's time, with this after its seconds.
    fn time(self, second: u32, part: &str) -> String {
        let epoch = self.0.unwrap_or_default();
        let (day, time) = epoch.day_and_time(second);
        match epoch.date {
            Some(_) => format!("{day}T{time}{part}"),
            None => format!("{time}{part}{day}"),
        }
    }

    /// Whether seconds are told on a clock, and not as numbers.
    pub fn is_set(self) -> bool {
        self.0.is_some()
    }

    /// Whether they are told with their dates.
    pub fn is_dated(self) -> bool {
        self.0.is_some_and(|epoch| epoch.date.is_some())
    }

    /// A second's day, nothing on that of second 0 if it has no date, and its time of day, if they are told on a clock.
    pub fn day_and_time(self, second: u32) -> Option<(String, String)> {
        self.0.map(|epoch| epoch.day_and_time(second))
    }

    /// How many seconds after midnight second 0 was, if that is known.
    pub fn after_midnight(self) -> Option<i64> {
        self.0.map(|epoch| epoch.time)
    }

    /// A second as people read it.
    pub fn show(self, second: u32) -> String {
        match self.0 {
            Some(_) => self.time(second, ""),
            None => second.to_string(),
        }
    }

    /// A moment as people read it.
    pub fn show_moment(self, moment: Moment) -> String {
        let part = format!(".{:03}", moment.thousandths);
        match self.0 {
            Some(_) => self.time(moment.second, &part),
            None => format!("{}{part}", moment.second),
        }
    }

    /// A second, named as one where it is a number.
    pub fn named(self, second: u32) -> String {
        match self.0 {
            Some(_) => self.show(second),
            None => format!("second {second}"),
        }
    }

    /// From one second to another, named as seconds where they are numbers.
    pub fn span(self, first: u32, last: u32) -> String {
        let seconds = match self.0 {
            Some(_) => "",
            None => "seconds ",
        };
        format!("{seconds}{} to {}", self.show(first), self.show(last))
    }

    /// A listing with its times on the clock.
    pub fn listing(self, text: &str) -> String {
        let line = |line: &str| {
            let fix = line
                .strip_prefix("fix ")
                .and_then(|fix| fix.split_once(' '));
            let timed = fix.and_then(|(t, rest)| Some((t.parse().ok()?, rest)));
            match timed {
                Some((t, rest)) => format!("fix {} {rest}\n", self.show(t)),
                None => format!("{line}\n"),
            }
        };
        text.lines().map(line).collect()
    }
}

/// So many seconds after a trail's first, numerator / denominator of them, cut off after the thousandths. What is told
/// of a trail is never later than its last second.
pub fn cut(first: u32, numerator: u64, denominator: u64) -> Moment {
    let after = 1_000 * u128::from(numerator) / u128::from(denominator.max(1));
    let all = 1_000 * u128::from(first) + after;
    Moment {
        second: u32::try_from(all / 1_000).unwrap_or(u32::MAX),
        thousandths: (all % 1_000) as u16,
    }
}

#[cfg(test)]
mod tests {
    use super::*;

    fn clock(epoch: &str) -> Clock {
        Clock::with_epoch(epoch).expect("a clock")
    }

    #[test]
    fn seconds_and_their_times_lead_to_each_other() {
        let clocks = ["00:00:00", "06:30:00", "23:59:59", "2026-11-17T22:00:00"].map(clock);
        for clock in clocks.into_iter().chain([Clock::default()]) {
            let days = (0..60).map(|k| k * 43_210);
            for second in days.chain([u32::MAX - 1, u32::MAX]) {
                assert_eq!(clock.second(&clock.show(second)), Ok(second));
                let thousandths = (second % 1_000) as u16;
                let moment = Moment {
                    second,
                    thousandths,
                };
                assert_eq!(clock.moment(&clock.show_moment(moment)), Ok(moment));
                assert_eq!(clock.second(&second.to_string()), Ok(second));
            }
        }
    }

    #[test]
    fn times_are_those_of_the_clock() {
        let day = clock("22:00:00");
        assert_eq!(day.show(0), "22:00:00");
        assert_eq!(day.show(4 * 3_600), "02:00:00+1d");
        // the first that there is, or that of the day that is said
        assert_eq!(day.second("02:00:00"), Ok(4 * 3_600));
        assert_eq!(day.second("22:00:00"), Ok(0));
        assert_eq!(day.second("22:00:00+1d"), Ok(86_400));
        assert_eq!(day.second("6:00:00"), Ok(8 * 3_600));
        let dated = clock("2026-12-31T23:59:59");
        assert_eq!(dated.show(1), "2027-01-01T00:00:00");
        assert_eq!(dated.second("2027-01-01 00:00:01"), Ok(2));
        assert_eq!(dated.second("00:00:01"), Ok(2));
        assert_eq!(
            clock("1970-01-01T00:00:00").show(1_793_000_000),
            "2026-10-26T07:33:20"
        );
        // without an epoch second 0 is midnight, and seconds are told as numbers
        assert_eq!(Clock::default().second("00:01:05"), Ok(65));
        assert_eq!(Clock::default().show(65), "65");
    }

    #[test]
    fn what_is_no_time_is_named() {
        for word in [
            "24:00:00",
            "06:60:00",
            "06:00:60",
            "06:00",
            "006:00:00",
            "06:00:00:00",
            "a:b:c",
            "06:00:00+d",
            "06:00:00+1",
            "+6:00:00",
            "06:00:00+-1d",
            "2026-02-29T06:00:00",
            "2026-13-01T06:00:00",
            "2026-11-17T06:00:00+1d",
            "06:00:-1",
            "",
            "٠٦:00:00",
        ] {
            assert!(Clock::default().second(word).is_err(), "{word}");
            assert!(Clock::with_epoch(word).is_err(), "{word}");
        }
        assert!(Clock::with_epoch("06:00:00+1d").is_err());
        assert!(Clock::with_epoch("21600").is_err());
        let what = Clock::default().second("2026-11-17T06:00:00");
        let shown = "'2026-11-17T06:00:00' has a date, and no --epoch has one";
        assert_eq!(what.expect_err("no date"), shown);
        let dated = clock("2026-11-17T06:00:00");
        let what = dated.second("2026-11-17T05:59:59").expect_err("earlier");
        assert!(what.ends_with("from 2026-11-17T06:00:00 on"), "{what}");
    }

    #[test]
    fn moments_have_up_to_three_digits_after_the_point() {
        let both = |word| {
            let moment = Clock::default().moment(word);
            moment.map(|moment| (moment.second, moment.thousandths))
        };
        assert_eq!(both("12"), Ok((12, 0)));
        assert_eq!(both("12.5"), Ok((12, 500)));
        assert_eq!(both("12.05"), Ok((12, 50)));
        assert_eq!(both("4294967295.999"), Ok((u32::MAX, 999)));
        assert_eq!(both("00:00:12.5"), Ok((12, 500)));
        assert_eq!(both("00:00:12.5+1d"), Ok((86_412, 500)));
        for wrong in [
            "",
            ".",
            "12.",
            "12.0000",
            "12.+5",
            "12.5.5",
            "-1",
            "12,5",
            "4294967296",
            "00:12.5",
        ] {
            assert!(both(wrong).is_err(), "{wrong}");
        }
    }

    #[test]
    fn told_times_are_cut_off() {
        let told = |first, n, d| {
            let Moment {
                second,
                thousandths,
            } = cut(first, n, d);
            (second, thousandths)
        };
        assert_eq!(told(0, 2, 3), (0, 666));
        assert_eq!(told(7, 59_999, 60_000), (7, 999));
        assert_eq!(told(u32::MAX - 1, 1, 1), (u32::MAX, 0));
        assert_eq!(told(0, 5, 0), (5, 0));
    }
}
