//! Times of the clock, wherever a second is given or told.

use crate::folder::{record, silent_h, Folder, NEVER};

fn with_silent() -> Folder {
    let folder = Folder::with_h();
    folder.put("silent", silent_h());
    folder
}

#[test]
fn times_are_taken_and_told_on_the_clock() {
    let folder = with_silent();
    let ran = folder.run_line("check h silent --epoch 22:00:00");
    ran.says(
        "h: fixes 4, 22:00:00 to 22:00:30, places in cm, mark never\n\
         silent: fixes 7, silences 1, 22:00:00 to 22:05:20, places in cm, mark never\n",
    );
    let place = format!("place 11 0 cm\nexact 105000/10000 0/10000\n{NEVER}\n");
    folder
        .run_line("place h 22:00:05.25 --epoch 22:00:00")
        .says(&place);
    folder.run_line("place h 00:00:05.25").says(&place);
    let yes = "yes, 50/20 seconds after the first fix, at 06:00:02.500";
    let window = "--window 06:00:00 06:00:30 --epoch 06:00:00";
    let ran = folder.run_line(&format!("cross h --box 5 10 -1 1 {window}"));
    ran.says(&format!("{yes}; {NEVER}\n"));
    let ran = folder.run_line("cross h --box=5,10,-1,1 --window=6:0:0,06:00:30 --epoch=06:00:00");
    ran.says(&format!("{yes}; {NEVER}\n"));
    let visits = folder.run_line(&format!("cross h --all --box 5 10 -1 1 {window}"));
    let first = ", at 06:00:02.500, out between 06:00:05 and 06:00:06\n";
    assert!(visits.text().contains(first), "{}", visits.text());
}

/// Midnight passes within a shift, and a date says which one.
#[test]
fn days_and_dates_are_told_where_they_matter() {
    let folder = with_silent();
    let list = folder.run_line("list h --epoch 23:59:50");
    list.says(
        "trail 4 never\nfix 23:59:50 0 0\nfix 00:00:00+1d 20 0\nfix 00:00:10+1d 20 0\n\
         fix 00:00:20+1d 0 0\nend\n",
    );
    for moment in ["00:00:05+1d", "00:00:05", "00:00:05.000+1d"] {
        let ran = folder.run_line(&format!("place h {moment} --epoch 23:59:50"));
        assert!(ran.text().starts_with("place 20 0 cm\n"), "{moment}");
    }
    let ran = folder.run_line("place silent 2026-12-31T23:59:59 --epoch 2026-12-31T23:59:00");
    ran.fails(
        1,
        "silent: refused 21: The moment is strictly inside a silence. \
         The silence is from 2026-12-31T23:59:30 to 2027-01-01T00:04:00.",
    );
    let ran = folder.run_line("place h 06:00:31 --epoch 06:00:00");
    ran.fails(
        1,
        "h: refused 12: The asked moment is before the first fix or after the last. \
         The trail has 06:00:00 to 06:00:30.",
    );
}

#[test]
fn programs_are_told_seconds_as_numbers() {
    let folder = with_silent();
    for line in [
        "check h --json",
        "list h --json",
        "place h 5 --json",
        "cross h --box 5 10 -1 1 --window 0 30 --json",
        "near h --point 5 5 --radius 9 --json",
    ] {
        let plain = folder.run_line(line);
        let on_clock = folder.run_line(&format!("{line} --epoch 06:00:00"));
        assert_eq!(plain.status, Some(0), "{line}");
        assert_eq!(on_clock.text(), plain.text(), "{line}");
    }
}

#[test]
fn what_is_no_time_is_wrong_usage() {
    let folder = with_silent();
    for line in [
        "check h --epoch 6",
        "check h --epoch 06:00",
        "check h --epoch 24:00:00",
        "check h --epoch 06:00:00+1d",
        "check h --epoch 2026-02-29T00:00:00",
        "check h --epoch 10000-01-01T00:00:00",
        "check h --epoch 006:00:0",
        "check h --epoch 2026-011-17T00:00:00",
        "check h --epoch",
        "check --epoch 06:00:00",
        "check h --epoch 06:00:00 --epoch 06:00:00",
        "age --days 3 h --epoch 06:00:00",
        "place h 06:00",
        "place h 05:59:61",
        "place h 2026-11-17T06:00:00 --epoch 06:00:00",
        "place h 2026-11-16T23:59:59 --epoch 2026-11-17T00:00:00",
        "place h 00:00:00+49711d",
        "cross h --box 0 9 0 9 --window 00:00:00",
        "cross h --box 0 9 0 9 --window 00:00:00 -00:00:01",
    ] {
        let ran = folder.run_line(line);
        assert_eq!((ran.status, ran.text()), (Some(2), ""), "{line}");
        assert_eq!(ran.err.lines().count(), 1, "{line}: {}", ran.err);
    }
}

/// The greatest second there is, on a clock that began in the year 1.
#[test]
fn every_second_has_its_time() {
    let folder = Folder::new();
    folder.put("late", record(&[(u32::MAX - 1, 0, 0), (u32::MAX, 9, 0)]));
    let ran = folder.run_line("list late --epoch 0001-01-01T00:00:00");
    assert!(
        ran.text().contains("\nfix 0137-02-07T06:28:15 9 0\n"),
        "{}",
        ran.text()
    );
    let ran = folder.run_line("list late --epoch 9999-12-31T23:59:59");
    assert!(
        ran.text().contains("\nfix 10136-02-07T06:28:14 9 0\n"),
        "{}",
        ran.text()
    );
    let ran = folder.run_line("place late 06:28:15+49710d");
    assert!(ran.text().starts_with("place 9 0 cm\n"), "{}", ran.text());
}
