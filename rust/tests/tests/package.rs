//! Every function of the package `trails` beside the plain version of the documents, on the cases that the interface is
//! tried on.
#![forbid(unsafe_code)]

use trails::{
    Aging, AnchorState, AnyFix, Approach, Area, Crossing, Fix, Fixes, MillimetreFix, OfKind,
    SilenceFix,
};
use trails::{Kind as Offered, Moment, Point, Reading, Refusal, Row, Table, Unit, Window};
use trails_tests::cases::{Case, Cases, Random, Settings};
use trails_tests::plain::kinds::{Kind, CENTIMETRES, KINDS, MILLIMETRES};
use trails_tests::plain::lists::Call;
use trails_tests::plain::place::Time;
use trails_tests::plain::{self, anchors, approach, crossing, dearest, moment, table};
use trails_tests::questions::Asked as _;
use trails_tests::readings::any_state;
use trails_tests::tables::RowColumns;

fn cases() -> Vec<Case> {
    Cases::all(Settings {
        seed: 7,
        cases: 1_000,
    })
}

fn offered(kind: Kind) -> Offered {
    match kind {
        CENTIMETRES => Offered::Centimetres,
        MILLIMETRES => Offered::Millimetres,
        _ => Offered::Silences,
    }
}

/// What the documents say of each kind, and what the package has for it and its unit.
#[test]
fn kinds_have_their_numbers() {
    for kind in KINDS {
        let of = offered(kind);
        assert_eq!(of.code(), kind.code);
        assert_eq!(of.fix_bytes(), kind.fix_bytes());
        assert_eq!(of.has_silences(), kind.silences);
        let limits = of.unit().limits();
        assert_eq!(limits.place, kind.limit);
        assert_eq!(limits.tolerance, kind.top);
        assert_eq!(limits.radius, kind.radius);
        assert_eq!(limits.per_centimetre, kind.times);
        assert_eq!(Offered::of_code(kind.code), Some(of));
        assert_eq!(of.unit().to_string(), kind.unit);
    }
    assert_eq!(trails::LONGEST, plain::LONGEST);
    assert_eq!(trails::MOST_FIXES, plain::MOST_FIXES);
}

fn number<T>(answer: Result<T, Refusal>) -> Result<T, u8> {
    answer.map_err(|refusal| u8::try_from(refusal.number()).expect("at most 23"))
}

fn any(fix: &plain::Fix) -> AnyFix {
    AnyFix {
        t: fix.t,
        x: fix.x,
        y: fix.y,
        silence: fix.silence == 1,
    }
}

#[test]
fn records_are_read_and_listed() {
    for case in cases() {
        let expected = plain::read(&case.bytes).map(|trail| {
            let mark = Some(trail.mark).filter(|mark| *mark != plain::NEVER);
            let fixes = trail.fixes.iter().map(any);
            (offered(trail.kind), mark, fixes.collect::<Vec<_>>())
        });
        let read = trails::check(&case.bytes).and_then(|head| {
            let fixes = trails::fixes(&case.bytes)?;
            let facts = (fixes.kind(), fixes.count());
            assert_eq!(facts, (head.kind, head.count as usize), "{}", case.name);
            Ok((head.kind, head.mark, fixes.any()))
        });
        assert_eq!(number(read), expected, "{}", case.name);
        let text = match number(trails::list(&case.bytes)) {
            Ok(text) => text,
            Err(number) => format!("refused {number}\n"),
        };
        assert_eq!(text, plain::listing(&case.bytes), "{}", case.name);
    }
}

#[test]
fn a_refused_count_is_told() {
    for count in [0_u16, 1, 4_096, 4_097, 65_535] {
        let mut bytes = trails::write(&[Fix { t: 7, x: -1, y: 2 }]).expect("one fix is written");
        bytes[8..10].copy_from_slice(&count.to_le_bytes());
        assert_eq!(trails::claimed_count(&bytes), Some(count));
        assert_eq!(trails::claimed_count(&bytes[..10]), Some(count));
        assert_eq!(trails::claimed_count(&bytes[..9]), None);
    }
}

#[test]
fn a_refused_kind_is_told_if_there_is_one() {
    let bytes = trails::write(&[MillimetreFix { t: 7, x: -1, y: 2 }]).expect("a record");
    for (code, kind) in [
        (0, None),
        (1, Some(Offered::Centimetres)),
        (2, Some(Offered::Millimetres)),
        (3, Some(Offered::Silences)),
        (4, None),
        (258, None),
    ] {
        let mut bytes = bytes.clone();
        bytes[4..6].copy_from_slice(&u16::to_le_bytes(code));
        assert_eq!(trails::claimed_kind(&bytes), kind);
        assert_eq!(trails::claimed_kind(&bytes[..9]), None);
        // of the others its length is wrong
        let checked = trails::check(&bytes).map(|head| (head.kind, head.unit()));
        let expected = match (code, kind) {
            (2, _) => Ok((Offered::Millimetres, Unit::Millimetres)),
            (_, Some(_)) => Err(Refusal::BadLength),
            _ => Err(Refusal::OtherKind),
        };
        assert_eq!(checked, expected);
    }
}

#[test]
fn fixes_are_written_and_read_again() {
    for case in cases() {
        match trails::fixes(&case.bytes) {
            Ok(Fixes::Centimetres(list)) => {
                let read = Fixes::Centimetres(list.clone());
                are_written_and_read_again(&list, read, &case.name);
            }
            Ok(Fixes::Millimetres(list)) => {
                let read = Fixes::Millimetres(list.clone());
                are_written_and_read_again(&list, read, &case.name);
            }
            Ok(Fixes::Silences(list)) => {
                let read = Fixes::Silences(list.clone());
                are_written_and_read_again(&list, read, &case.name);
            }
            Err(_) => {}
        }
    }
}

fn are_written_and_read_again<F: OfKind>(list: &[F], fixes: Fixes, name: &str) {
    let record = trails::write(list).expect("accepted fixes are written");
    let again = trails::write_kind(F::KIND, &fixes.any());
    assert_eq!(again.as_ref(), Ok(&record), "{name}");
    assert_eq!(trails::fixes(&record), Ok(fixes), "{name}");
    let head = trails::check(&record).map(|head| (head.kind, head.length()));
    assert_eq!(head, Ok((F::KIND, record.len())), "{name}");
    let mut short = vec![7; record.len() - 1];
    let refused = trails::write_into(list, &mut short);
    assert_eq!(refused, Err(Refusal::ShortOutput), "{name}");
    assert!(short.iter().all(|byte| *byte == 7), "{name}");
}

/// Each limit of a kind met, and passed by one: its lengths are 0, one at the limit, and one beyond it.
fn are_turned_away<F: OfKind>(longest: usize, [none, most, beyond]: [F::Length; 3]) {
    let fix = |t, x| F::new(t, x, none);
    let rising = |n: u32| (0..n).map(|t| fix(t, none)).collect::<Vec<_>>();
    let written = |list: &[F]| {
        let record = trails::write(list);
        let any: Vec<AnyFix> = list.iter().map(|fix| fix.any()).collect();
        assert_eq!(trails::write_kind(F::KIND, &any), record);
        record.map(|record| record.len())
    };
    assert_eq!(written(&[]), Err(Refusal::BadCount));
    assert_eq!(written(&rising(4_097)), Err(Refusal::BadCount));
    assert_eq!(written(&rising(4_096)), Ok(longest));
    let length = F::KIND.fix_bytes() + 10;
    assert_eq!(written(&[fix(0, most)]), Ok(length));
    assert_eq!(written(&[fix(0, beyond)]), Err(Refusal::Misplaced));
    let equal = [fix(1, none), fix(1, none)];
    assert_eq!(written(&equal), Err(Refusal::Unordered));
    let long = [fix(0, none), fix(65_536, none)];
    assert_eq!(written(&long), Err(Refusal::LongSpan));
}

#[test]
fn lists_that_are_no_trail_are_turned_away() {
    are_turned_away::<Fix>(32_778, [0, -16_000, 16_001]);
    are_turned_away::<MillimetreFix>(49_162, [0, -160_000, 160_001]);
    are_turned_away::<SilenceFix>(36_874, [0, -16_000, 16_001]);
}

#[test]
fn the_dearest_trail_is_written() {
    for n in [
        0,
        1,
        2,
        3,
        300,
        plain::MOST_FIXES,
        plain::MOST_FIXES + 1,
        usize::MAX,
    ] {
        let mut expected = vec![7; 40_000];
        let length = dearest::write(n, &mut expected);
        let mut output = vec![7; 40_000];
        assert_eq!(number(trails::dearest_into(n, &mut output)), length);
        assert!(output == expected, "{n} fixes: other bytes");
        let alone = length.map(|length| expected[..length].to_vec());
        assert_eq!(number(trails::dearest(n)), alone);
    }
    let mut short = [7; 33];
    let refused = trails::dearest_into(3, &mut short);
    assert_eq!(refused, Err(Refusal::ShortOutput));
    assert_eq!(short, [7; 33]);
}

/// A silence byte that is neither 0 nor 1 can't be put, and a silence after the last fix is turned away.
#[test]
fn the_last_fix_is_followed_by_no_silence() {
    let fix = |t, silence| SilenceFix {
        silence,
        ..SilenceFix::new(t, 0, 0)
    };
    let written = |list: &[SilenceFix]| trails::write(list).map(|record| record.len());
    assert_eq!(written(&[fix(5, true), fix(9, false)]), Ok(28));
    assert_eq!(
        written(&[fix(5, false), fix(9, true)]),
        Err(Refusal::BadSilence)
    );
    assert_eq!(written(&[fix(5, true)]), Err(Refusal::BadSilence));
    // a span of 65,536 seconds comes first
    assert_eq!(
        written(&[fix(0, true), fix(65_536, true)]),
        Err(Refusal::LongSpan)
    );
    let record = trails::write(&[fix(5, true), fix(9, false)]).expect("a record");
    let at = |second, thousandths| {
        let moment = Moment {
            second,
            thousandths,
        };
        trails::place(&record, moment).map(|place| place.denominator)
    };
    assert_eq!([at(5, 0), at(9, 0)], [Ok(4_000); 2]);
    assert_eq!([at(5, 1), at(8, 999)], [Err(Refusal::InSilence); 2]);
}

/// The rows of a table as the package has them.
fn rows(of: &[table::Row]) -> Vec<Row> {
    let row = |&table::Row { day, tolerance }: &table::Row| Row { day, tolerance };
    of.iter().map(row).collect()
}

#[test]
fn tables_are_loaded() {
    let mut random = Random::new(10);
    for _ in 0..3_000 {
        let lent = RowColumns::any(&mut random).rows();
        let loaded = Table::load(&rows(&lent)).map(|table| table.rows().to_vec());
        let expected = table::Table::load(&lent).map(|_| rows(&lent));
        assert_eq!(number(loaded), expected, "{lent:?}");
    }
    let built_in = table::Table::built_in();
    let built_in = built_in.checked().expect("it is accepted");
    assert_eq!(Table::built_in().rows(), rows(built_in));
    // what loading makes of its rows is the built-in one itself
    assert_eq!(Table::load(&rows(built_in)), Ok(Table::built_in()));
}

/// A good table, as the package and as the plain version has it.
fn some_table(random: &mut Random) -> (Table, table::Table) {
    let plain = table::Table::good(random);
    let table = Table::load(&rows(plain.checked().expect("it is good")));
    (table.expect("it is good"), plain)
}

#[test]
fn records_are_aged() {
    let mut random = Random::new(11);
    for case in cases() {
        let e = random.between(0, 300) as u16;
        let days = random.between(0, 100) as u16;
        let (table, plain) = some_table(&mut random);
        for (aging, call) in [
            (Aging::Tolerance(e), Call::Tolerance(e)),
            (Aging::Tolerance(32_001), Call::Tolerance(32_001)),
            (Aging::Tolerance(60_001), Call::Tolerance(60_001)),
            (Aging::Days(days, table), Call::Days(days, plain)),
        ] {
            let (mut aged, mut expected) = (case.bytes.clone(), case.bytes.clone());
            let answer = number(aging.apply(&mut aged));
            assert_eq!(answer, call.make(&mut expected), "{}", case.name);
            assert!(aged == expected, "{}, {aging:?}", case.name);
        }
    }
}

/// A table that has rows above what millimetres have.
fn hall() -> Table {
    let rows = [(0, 0), (3, 12), (40, 6_000), (50, 6_001), (65_535, 32_000)];
    let rows = rows.map(|(day, tolerance)| Row { day, tolerance });
    Table::load(&rows).expect("it is good")
}

/// What an aging says that it applies is the mark that it leaves, and it is refused as the aging is.
#[test]
fn agings_apply_what_they_say() {
    let fixes = vec![plain::Fix::from((0, 0, 0))];
    for kind in KINDS {
        let record = plain::Trail::never_thinned(kind, fixes.clone()).bytes();
        let of_each = |n| {
            let days = [Table::built_in(), hall()].map(|table| Aging::Days(n, table));
            [Aging::Tolerance(n), days[0], days[1]]
        };
        for aging in (0..=u16::MAX).flat_map(of_each) {
            let mut aged = record.clone();
            let answer = aging.apply(&mut aged);
            let mark = trails::check(&aged).expect("a record").mark;
            let applies = aging.applies(&record);
            assert_eq!(applies, answer.map(|_| mark), "{kind}, {aging:?}");
        }
    }
    for case in cases() {
        for aging in [Aging::Tolerance(60_001), Aging::Days(40, hall())] {
            let refused = aging.apply(&mut case.bytes.clone()).err();
            let applies = aging.applies(&case.bytes);
            assert_eq!(applies.err(), refused, "{}, {aging:?}", case.name);
        }
    }
}

/// A moment in or near the trail's times.
fn some_moment(random: &mut Random, bytes: &[u8]) -> Moment {
    let trail = plain::read(bytes);
    let first = trail.map_or(0, |trail| i64::from(trail.fixes[0].t));
    Moment {
        second: (first + random.between(-2, 60_000)).clamp(0, i64::from(u32::MAX)) as u32,
        thousandths: random.between(0, 1_001) as u16,
    }
}

#[test]
fn places_are_told() {
    let mut random = Random::new(12);
    for case in cases() {
        let asked = some_moment(&mut random, &case.bytes);
        let expected = moment::place(&case.bytes, asked.second, asked.thousandths);
        let told = number(trails::place(&case.bytes, asked));
        let numbers = told.map(|p| {
            let wholes = (i128::from(p.whole_x), i128::from(p.whole_y));
            (i128::from(p.denominator), p.x.into(), p.y.into(), wholes)
        });
        let expected = expected.map(|w| (w.denominator, w.x, w.y, (w.whole_x, w.whole_y)));
        assert_eq!(numbers, expected, "{}, {asked:?}", case.name);
    }
}

fn some_box(kind: Kind, random: &mut Random) -> Area {
    let limit = i64::from(kind.limit);
    let mut edges = [0; 4].map(|_| random.between(-limit, limit) as i32);
    edges[..2].sort_unstable();
    edges[2..].sort_unstable();
    let [left, right, bottom, top] = edges;
    Area {
        left: left - i32::from(random.one_in(20)) * 2 * kind.limit,
        right,
        bottom,
        top,
    }
}

#[test]
fn crossings_are_told_before_and_after_agings() {
    let mut random = Random::new(13);
    for case in cases() {
        let (one, other) = (
            some_moment(&mut random, &case.bytes).second,
            some_moment(&mut random, &case.bytes).second,
        );
        let window = Window {
            start: one.min(other),
            end: one.max(other),
        };
        let area = some_box(case.kind(), &mut random);
        agrees(&case.bytes, area, window, &case.name);
        after_a_list(
            &case,
            |bytes, list| trails::crosses_after(bytes, list, area, window),
            |bytes| trails::crosses(bytes, area, window),
        );
    }
}

/// The package's way to ask after a list is to make it and to ask, and where the question is refused to do neither.
fn after_a_list<T: PartialEq + std::fmt::Debug>(
    case: &Case,
    ask_after: impl Fn(&mut [u8], &[Aging]) -> Result<T, Refusal>,
    ask: impl Fn(&[u8]) -> Result<T, Refusal>,
) {
    let list = [
        Aging::Days(7, Table::built_in()),
        Aging::Tolerance(60_001),
        Aging::Days(3, hall()),
        Aging::Tolerance(9),
        Aging::Days(30, Table::built_in()),
    ];
    let mut in_turn = case.bytes.clone();
    let answers = list.map(|aging| aging.apply(&mut in_turn));
    let mut unasked = case.bytes.clone();
    let told = trails::run(&mut unasked, &list);
    assert!(unasked == in_turn, "{}", case.name);
    // one of them is turned away, if not the record
    assert_eq!(told, answers[0].map(|_| 1), "{}", case.name);
    let mut asked = case.bytes.clone();
    let answer = ask_after(&mut asked, &list);
    assert_eq!(answer, ask(&in_turn));
    let left = if answer.is_ok() {
        &in_turn
    } else {
        &case.bytes
    };
    assert!(asked == *left, "{}", case.name);
}

fn agrees(bytes: &[u8], area: Area, window: Window, name: &str) {
    let question = crossing::Question {
        window: crossing::Window {
            start: window.start,
            end: window.end,
        },
        area: crossing::Area {
            left: area.left,
            right: area.right,
            bottom: area.bottom,
            top: area.top,
        },
    };
    let told = number(trails::crosses(bytes, area, window));
    let time = |told: Crossing| Time {
        p: told.numerator.into(),
        q: told.denominator.into(),
    };
    let told = told.map(|told| told.map(time));
    assert_eq!(told, crossing::crosses(bytes, &question), "{name}");
}

#[test]
fn approaches_are_told_before_and_after_agings() {
    let mut random = Random::new(14);
    for case in cases() {
        let faults: &[u8] = if random.one_in(10) { &[16] } else { &[] };
        let circle = approach::Circle::spoiled(&case.bytes, faults, &mut random).question;
        let approach::Circle { x, y, radius } = circle;
        let (point, name) = (Point { x, y }, &case.name);
        let told = number(trails::near(&case.bytes, point, radius));
        let first = |told: Approach| approach::Approach {
            leg: told.leg as usize,
            time: Time {
                p: told.numerator.into(),
                q: told.denominator.into(),
            },
        };
        let told = told.map(|told| told.map(first));
        assert_eq!(told, approach::near(&case.bytes, &circle), "{name}");
        after_a_list(
            &case,
            |bytes, list| trails::near_after(bytes, list, point, radius),
            |bytes| trails::near(bytes, point, radius),
        );
    }
}

#[test]
fn approaches_are_equal_by_leg_and_value() {
    let approach = |leg, numerator, denominator| Approach {
        leg,
        numerator,
        denominator,
    };
    let one = approach(2, 6, 4);
    assert_eq!(one, approach(2, 3, 2));
    assert_ne!(one, approach(1, 3, 2));
    assert_ne!(one, approach(2, 4, 2));
    // products that 64 bits don't hold
    let late = approach(0, 13_421_772_800_000_000, 204_800_000_000);
    assert_eq!(late, approach(0, 65_536, 1));
    assert_ne!(late, approach(0, 65_535, 1));
}

// ---- anchors

fn offered_reading(reading: anchors::Reading) -> Reading {
    match reading {
        anchors::Reading::Absolute(x, y) => Reading::Absolute { x, y },
        anchors::Reading::Step(dx, dy) => Reading::Step { dx, dy },
    }
}

fn state_bits(place: [f32; 2], seen: bool) -> ([u32; 2], bool) {
    (place.map(f32::to_bits), seen)
}

#[test]
fn readings_are_taken_one_by_one_and_as_lists() {
    let settings = Settings::get();
    let mut random = Random::new(settings.seed);
    let mut met = [0; 24];
    for _ in 0..settings.cases {
        let handed = any_state(&mut random);
        let mut plain = anchors::State {
            place: [handed.x, handed.y],
            seen: handed.seen != 0,
        };
        let first = AnchorState {
            x: handed.x,
            y: handed.y,
            seen: plain.seen,
        };
        let mut state = first;
        let mut list = Vec::new();
        for _ in 0..10 {
            let reading = anchors::Reading::any(&handed, &mut random);
            list.push(offered_reading(reading));
            let read = trails::read_anchor(state, offered_reading(reading));
            let expected = anchors::read(&plain, reading);
            let told = number(read).map(|read| {
                state = read.state;
                [read.x, read.y].map(i32::from)
            });
            met[usize::from(told.err().unwrap_or(0))] += 1;
            assert_eq!(told, expected.map(|taken| taken.whole), "{reading:?}");
            plain = expected.map_or(plain, |taken| taken.state);
            let left = state_bits([state.x, state.y], state.seen);
            assert_eq!(left, state_bits(plain.place, plain.seen), "{reading:?}");
        }
        let all = trails::read_anchors(first, &list);
        let left = state_bits([all.x, all.y], all.seen);
        assert_eq!(left, state_bits(plain.place, plain.seen), "{list:?}");
    }
    assert!(
        [0, 17, 18, 19].iter().all(|&number| met[number] > 0),
        "{met:?}"
    );
}

#[test]
fn no_reading_leaves_the_state() {
    let start = AnchorState::default();
    assert_eq!((start.x, start.y, start.seen), (0.0, 0.0, false));
    assert_eq!(trails::read_anchors(start, &[]), start);
    let step = Reading::Step { dx: 0.0, dy: 0.0 };
    assert_eq!(trails::read_anchor(start, step), Err(Refusal::BadState));
    assert_eq!(trails::read_anchors(start, &[step]), start);
}
