//! The reader: every fix in order, and then that none is left, each time; all fixes at once; and of a refused record
//! nothing but the refusal.
#![forbid(unsafe_code)]

use trails_tests::cases::{Case, Cases, Random, Settings, Tally};
use trails_tests::columns::Columns;
use trails_tests::expected;
use trails_tests::interface::{read, read_all, Step};
use trails_tests::plain;

const RECORDS_OWN: [u32; 10] = [1, 2, 3, 4, 5, 6, 7, 8, 9, 20];

/// Holds a refusal to what is known of the case.
fn is_known(refusal: u32, case: &Case) {
    if let Some(known) = case.known {
        assert_eq!(refusal, known.into(), "{}", case.name);
    }
}

/// How many fixes the record has, and of one that is refused some.
fn fixes(case: &Case) -> usize {
    plain::read(&case.bytes).map_or(12, |trail| trail.fixes.len())
}

/// Positions at and after the end, near and as far as a position goes; the end itself twice.
fn beyond(end: usize) -> Vec<usize> {
    let bits = (16..usize::BITS).map(|bit| 1 << bit);
    let near = [end, end, end + 1, end + 2, end + 4_096];
    let far = [65_535, usize::MAX - 1, usize::MAX, usize::MAX / 8];
    near.into_iter().chain(far).chain(bits).collect()
}

#[test]
fn each_position_yields_what_the_plain_version_does() {
    let mut tally = Tally::default();
    for case in Cases::all(Settings::get()) {
        let end = fixes(&case);
        for position in (0..end).chain(beyond(end)) {
            let step = read(&case.bytes, position);
            let want = expected::read(&case.bytes, position);
            assert_eq!(step, want, "{}, position {position}", case.name);
            is_known(step.refusal, &case);
        }
        tally.count(case.kind(), read(&case.bytes, 0).refusal);
    }
    tally.expect("read", &RECORDS_OWN);
}

/// Lengths of the four columns: all the same, at and about the number of fixes, and each another.
fn lengths(count: usize) -> Vec<[usize; 4]> {
    let same = [0, 1, count - 1, count, count + 1, count + 70];
    let others = [
        [0, count, count + 1, count - 1],
        [count, count + 1, 0, 1],
        [count + 1, 0, count, count],
        [count - 1, 0, 1, count + 2],
        [count + 3, count - 1, count, 0],
    ];
    same.map(|length| [length; 4])
        .into_iter()
        .chain(others)
        .collect()
}

#[test]
fn columns_of_any_length_get_as_many_fixes_as_they_hold() {
    let settings = Settings::get();
    let mut random = Random::new(settings.seed);
    let mut tally = Tally::default();
    for case in Cases::all(settings) {
        for some in lengths(fixes(&case)) {
            let before = Columns::any(some, &mut random);
            let (mut columns, mut want) = (before.clone(), before.clone());
            let answer = read_all(&case.bytes, &mut columns);
            let name = format!("{}, columns of {some:?}", case.name);
            assert_eq!(answer, expected::read_all(&case.bytes, &mut want), "{name}");
            assert!(columns == want, "{name}: other columns");
            is_known(answer.refusal, &case);
            if answer.refusal != 0 {
                assert!(columns == before, "{name}: a refusal fills columns");
            }
            tally.count(case.kind(), answer.refusal);
        }
    }
    tally.expect("read into columns", &RECORDS_OWN);
}

/// By hand: two fixes in millimetres, with coordinates of which two bytes say nothing.
#[test]
fn a_record_in_millimetres_is_read() {
    let record = [
        &[34, 0, 0, 0, 2, 0, 0xFF, 0xFF, 2, 0][..],
        &[0, 0, 0, 0, 0, 0, 1, 0, 0, 0, 0xFF, 0xFF],
        &[255, 255, 0, 0, 0, 0x8F, 0xFD, 0xFF, 0, 0x71, 2, 0],
    ]
    .concat();
    let fix = |t, x, y| Step {
        refusal: 0,
        found: 1,
        kind: 2,
        t,
        x,
        y,
        silence: 0,
    };
    let fixes = [fix(0, 65_536, -65_536), fix(65_535, -160_000, 160_000)];
    assert_eq!([read(&record, 0), read(&record, 1)], fixes);
    assert_eq!(read(&record, 2), Step::default());
    let mut columns = Columns {
        t: vec![7; 2],
        x: vec![7; 1],
        y: vec![7; 3],
        silence: vec![7; 2],
    };
    let answer = read_all(&record, &mut columns);
    assert_eq!((answer.refusal, answer.value), (0, 2));
    let Columns { t, x, y, silence } = columns;
    assert_eq!((t, x), (vec![0, 65_535], vec![65_536]));
    assert_eq!(y, [-65_536, 160_000, 7]);
    assert_eq!(silence, [0, 0]);
}

/// By hand: three fixes with a silence after the second.
#[test]
fn a_record_with_a_silence_is_read() {
    let record = [
        &[37, 0, 0, 0, 3, 0, 0xFF, 0xFF, 3, 0][..],
        &[7, 0, 0, 0, 0x80, 0x3E, 1, 0, 0],
        &[8, 0, 0, 0, 2, 0, 0x80, 0xC1, 1],
        &[9, 1, 0, 0, 3, 0, 4, 0, 0],
    ]
    .concat();
    let silences = [0, 1, 2].map(|position| {
        let step = read(&record, position);
        assert_eq!((step.refusal, step.found, step.kind), (0, 1, 3));
        (step.t, step.x, step.y, step.silence)
    });
    let fixes = [(7, 16_000, 1, 0), (8, 2, -16_000, 1), (265, 3, 4, 0)];
    assert_eq!(silences, fixes);
    assert_eq!(read(&record, 3), Step::default());
    let mut columns = Columns {
        t: vec![],
        x: vec![],
        y: vec![5; 1],
        silence: vec![5; 4],
    };
    let answer = read_all(&record, &mut columns);
    assert_eq!((answer.refusal, answer.value), (0, 3));
    assert_eq!((columns.y, columns.silence), (vec![1], vec![0, 1, 0, 5]));
}
