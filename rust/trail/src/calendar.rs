//! Days by their numbers and by their dates.

/// Days from the first of March of year 0 to this one's. The day that a leap year has more is then a year's last.
fn march(year: i64) -> i64 {
    365 * year + year.div_euclid(4) - year.div_euclid(100) + year.div_euclid(400)
}

/// Days from a first of March to the first of the month that is so many months later.
fn months(later: i64) -> i64 {
    (153 * later + 2) / 5
}

/// The number of a day, counted from the first of March of year 0.
pub fn day_of(year: i64, month: i64, day: i64) -> i64 {
    let (year, later) = match month > 2 {
        true => (year, month - 3),
        false => (year - 1, month + 9),
    };
    march(year) + months(later) + day - 1
}

/// The date that a day's number is.
pub fn date_of(day: i64) -> (i64, i64, i64) {
    // 400 years have 146,097 days; the year that this gives may be the one before
    let guess = (400 * day).div_euclid(146_097);
    let year = match march(guess + 1) <= day {
        true => guess + 1,
        false => guess,
    };
    let day = day - march(year);
    let later = (5 * day + 2) / 153;
    let (year, month) = match later < 10 {
        true => (year, later + 3),
        false => (year + 1, later - 9),
    };
    (year, month, day - months(later) + 1)
}

#[cfg(test)]
mod tests {
    use super::*;

    #[test]
    fn dates_are_those_of_the_calendar() {
        let first = day_of(1, 1, 1);
        let mut next = (1, 1, 1);
        for day in first..first + 1_000_000 {
            assert_eq!(date_of(day), next);
            let (year, month, of) = next;
            assert_eq!(day_of(year, month, of), day);
            let leap = year % 4 == 0 && (year % 100 != 0 || year % 400 == 0);
            let last = match month {
                2 if leap => 29,
                2 => 28,
                4 | 6 | 9 | 11 => 30,
                _ => 31,
            };
            next = match (month, of == last) {
                (_, false) => (year, month, of + 1),
                (12, true) => (year + 1, 1, 1),
                (_, true) => (year, month + 1, 1),
            };
        }
    }
}
