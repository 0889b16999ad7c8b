//! Checks 1 to 9 and 20, on every case.
#![forbid(unsafe_code)]

use trails_tests::cases::{Cases, Settings, Tally};
use trails_tests::expected;
use trails_tests::interface::{check, Head};

#[test]
fn each_case_is_answered_as_the_plain_version_does() {
    let mut tally = Tally::default();
    for case in Cases::all(Settings::get()) {
        let head = check(&case.bytes);
        assert_eq!(head, expected::check(&case.bytes), "{}", case.name);
        if let Some(known) = case.known {
            assert_eq!(head.refusal, known.into(), "{}", case.name);
        }
        tally.count(case.kind(), head.refusal);
    }
    tally.expect("check", &[1, 2, 3, 4, 5, 6, 7, 8, 9, 20]);
}

/// Document 01's, and the same fix with a silence byte and in millimetres.
#[test]
fn the_example_of_the_papers_is_accepted() {
    let mut example = vec![
        0x12, 0, 0, 0, 1, 0, 0xFF, 0xFF, 1, 0, 0xE8, 3, 0, 0, 0xFF, 0xFF, 2, 0,
    ];
    let head = |kind| Head {
        refusal: 0,
        kind,
        count: 1,
        mark: 65_535,
    };
    assert_eq!(check(&example), head(1));
    example.push(0);
    (example[0], example[4]) = (0x13, 3);
    assert_eq!(check(&example), head(3));
    example.truncate(14);
    example.extend([0xF6, 0xFF, 0xFF, 0xFF, 20, 0, 0, 0]);
    (example[0], example[4]) = (0x16, 2);
    assert_eq!(check(&example), head(2));
}

/// By hand: each limit of kind 2 met, and passed by one.
#[test]
fn the_limits_of_millimetres() {
    let answers = |mark: u16, x: i32, y: i32| {
        let mut record = vec![22, 0, 0, 0, 2, 0];
        record.extend(mark.to_le_bytes());
        record.extend([1, 0, 0, 0, 0, 0]);
        record.extend([x, y].map(i32::to_le_bytes).concat());
        check(&record).refusal
    };
    assert_eq!(answers(60_000, 160_000, -160_000), 0);
    assert_eq!(answers(60_001, 160_000, -160_000), 6);
    assert_eq!(answers(65_534, 0, 0), 6);
    assert_eq!(answers(65_535, -160_000, 160_000), 0);
    for far in [160_001, -160_001, 16_000 << 16, i32::MAX, i32::MIN] {
        assert_eq!([answers(0, far, 0), answers(0, 0, far)], [7, 7], "{far}");
    }
}

/// By hand: each silence byte of three fixes, and that check 20 comes after 9.
#[test]
fn the_silences_that_can_be() {
    let answers = |last: u8, silences: [u8; 3]| {
        let mut record = vec![37, 0, 0, 0, 3, 0, 0xFF, 0xFF, 3, 0];
        for (k, silence) in (0..).zip(silences) {
            let late = if k == 2 { last } else { 0 };
            record.extend([k, 0, late, 0, 0, 0, 0, 0, silence]);
        }
        check(&record).refusal
    };
    for silences in [[0, 0, 0], [1, 0, 0], [0, 1, 0], [1, 1, 0]] {
        assert_eq!(answers(0, silences), 0, "{silences:?}");
    }
    for byte in 1..=255 {
        assert_eq!(answers(0, [0, 0, byte]), 20, "{byte}");
        let inner = [answers(0, [byte, 0, 0]), answers(0, [0, byte, 0])];
        let refused = if byte == 1 { 0 } else { 20 };
        assert_eq!(inner, [refused; 2], "{byte}");
    }
    // 65,538 seconds
    assert_eq!(answers(1, [2, 2, 1]), 9);
}

/// A kind is one of 16 bits, and a record that says another kind has another length.
#[test]
fn kinds_and_lengths_of_one_another() {
    let mut record = vec![0; 10 + 12 * 3];
    record[4] = 2;
    record[8] = 3;
    for (k, time) in [(0, 1), (1, 2), (2, 3)] {
        record[10 + 12 * k] = time;
    }
    for (length, kind, refusal) in [
        (10 + 12 * 3, 2, 0),
        (10 + 8 * 3, 2, 4),
        (10 + 12 * 3 - 1, 2, 4),
        (10 + 12 * 3 + 1, 2, 4),
        (10 + 12 * 3, 1, 4),
        (10 + 12 * 3, 3, 4),
        (10 + 8 * 3, 3, 4),
        (10 + 9 * 3, 1, 4),
        (10 + 9 * 3, 2, 4),
        (10 + 12 * 3, 0, 2),
        (10 + 12 * 3, 4, 2),
        (10 + 12 * 3, 258, 2),
        (10 + 12 * 3, 513, 2),
        (10 + 9 * 3, 259, 2),
    ] {
        record[0] = length;
        record[4..6].copy_from_slice(&u16::to_le_bytes(kind));
        assert_eq!(check(&record).refusal, refusal, "{length}, kind {kind}");
    }
    // the same bytes as kinds 1 and 3: the second fix begins among the first one's old bytes, with time 0
    for (kind, fix) in [(1, 8), (3, 9)] {
        record[0] = 10 + fix * 3;
        record[4..6].copy_from_slice(&[kind, 0]);
        assert_eq!(check(&record).refusal, 8);
    }
}
