//! One call of aging, by tolerance or by days and a table: its answer, the record, its mark and the bytes after it.
#![forbid(unsafe_code)]

use trails_tests::agings::{stays_near, Buffer};
use trails_tests::cases::{Cases, Random, Settings, Tally};
use trails_tests::compare::draw;
use trails_tests::expected;
use trails_tests::interface::days_apply;
use trails_tests::plain::kinds::{Kind, CENTIMETRES, KINDS, MILLIMETRES, SILENCES};
use trails_tests::plain::lists::Call;
use trails_tests::plain::table::{Row, Table};
use trails_tests::plain::thinning::thin;
use trails_tests::plain::{dearest, stretches, Fix, Trail, MOST_FIXES, NEVER};
use trails_tests::shapes::{every_kind_and_shape, trail, Shape, SHAPES};

/// A run of calls, and how many left all fixes, some inner ones, and the ends only, so that none of these can be
/// missing unseen.
struct Run {
    settings: Settings,
    random: Random,
    left: [usize; 3],
}

impl Run {
    fn new() -> Run {
        let settings = Settings::get();
        Run {
            settings,
            random: Random::new(settings.seed),
            left: [0; 3],
        }
    }

    fn buffer(&mut self, shape: Shape, trail: &Trail) -> Buffer {
        let Trail { kind, mark, fixes } = trail;
        let (seed, n) = (self.settings.seed, fixes.len());
        let name = format!("seed {seed}: {kind}, {shape:?}, {n} fixes, mark {mark}");
        Buffer::of(name, trail, &mut self.random)
    }

    /// A call that isn't refused, on a trail with any mark, and what must hold of it besides being as the plain
    /// version has it.
    fn case(&mut self, kind: Kind, shape: Shape, n: usize, call: Call) {
        let mark = draw::mark(kind, &mut self.random);
        let original = Trail {
            mark,
            ..trail(kind, shape, n, &mut self.random)
        };
        let mut buffer = self.buffer(shape, &original);
        let answer = buffer.age(call);
        assert_eq!(answer.refusal, 0, "{}, {call:?}", buffer.name);
        assert!(answer.value <= dearest::count(n), "{}", buffer.name);
        let aged = buffer.trail();
        let name = format!("{}, {call:?}", buffer.name);
        keeps_the_ends(&original.fixes, &aged.fixes, &name);
        let applied = call.applies(kind).expect("it isn't refused");
        let expected = match (mark, applied) {
            (mark, None) => mark,
            (NEVER, Some(e)) => e,
            (mark, Some(e)) => mark.max(e),
        };
        assert_eq!(aged.mark, expected, "{name}");
        let e = applied.unwrap_or(0);
        stays_near(&original.fixes, &aged.fixes, e, &name, &mut self.random);
        let kept = aged.fixes.len();
        let which = if kept == n {
            0
        } else {
            1 + usize::from(kept == ends_of_stretches(&original.fixes))
        };
        self.left[which] += 1;
    }

    fn expect_all_sorts(&self) {
        let [all, some, ends] = self.left;
        println!("aging: {all} left all fixes, {some} some inner ones, {ends} the ends only");
        assert!(all > 0 && some > 0 && ends > 0);
    }

    fn accepted_call(&mut self, kind: Kind) -> Call {
        loop {
            let call = Call::any(kind, &mut self.random);
            if call.applies(kind).is_ok() {
                return call;
            }
        }
    }
}

/// How many fixes begin or end a stretch, or do both.
fn ends_of_stretches(fixes: &[Fix]) -> usize {
    stretches(fixes).map(|stretch| stretch.len().min(2)).sum()
}

/// The first fix stays, the last, and both ends of each silence, and a fix that stays has its byte.
fn keeps_the_ends(original: &[Fix], aged: &[Fix], name: &str) {
    let ends = |fixes: &[Fix]| -> Vec<(Fix, Fix)> {
        let end = |stretch: &[Fix]| (stretch[0], stretch[stretch.len() - 1]);
        stretches(fixes).map(end).collect()
    };
    assert_eq!(ends(aged), ends(original), "{name}");
    assert!(aged.iter().all(|fix| original.contains(fix)), "{name}");
}

#[test]
fn trails_of_every_shape_are_aged_as_the_plain_version_does() {
    let mut run = Run::new();
    for k in 0..run.settings.cases {
        let small = run.random.between(1, 40);
        let middle = run.random.between(1, 400);
        let n = if k.is_multiple_of(20) { middle } else { small };
        let kind = run.random.pick(&KINDS);
        let call = run.accepted_call(kind);
        run.case(kind, SHAPES[k % SHAPES.len()], n as usize, call);
    }
    run.expect_all_sorts();
}

#[test]
fn the_longest_trails_are_aged_as_the_plain_version_does() {
    for kind in KINDS {
        let mut run = Run::new();
        for shape in SHAPES {
            for n in [1, 2, 3, 1_000, MOST_FIXES - 1, MOST_FIXES] {
                for e in [0, 1, 12, 10 * kind.times, 400, kind.top] {
                    run.case(kind, shape, n, Call::Tolerance(e));
                }
                run.case(kind, shape, n, Call::Days(30, Table::built_in()));
            }
        }
        run.expect_all_sorts();
    }
}

#[test]
fn each_refusal_is_given_in_order_and_changes_no_byte() {
    let settings = Settings::get();
    let mut random = Random::new(settings.seed);
    let (mut by_tolerance, mut by_days) = (Tally::default(), Tally::default());
    for case in Cases::all(settings) {
        let kind = case.kind();
        let call = Call::any(kind, &mut random);
        let mut buffer = Buffer::new(case.name, case.bytes);
        let before = buffer.bytes.clone();
        let answer = buffer.age(call);
        let name = format!("{}, {call:?}", buffer.name);
        // the call's own checks come after all others: 10 by tolerance, and 22 and 23 by days
        if let Some(known) = case.known {
            let own = call.applies(kind).err().unwrap_or(0);
            let known = if known == 0 { own } else { known };
            assert_eq!(answer.refusal, known.into(), "{name}");
        }
        if answer.refusal != 0 {
            assert_eq!((answer.value, &buffer.bytes), (0, &before), "{name}");
        }
        match call {
            Call::Tolerance(_) => by_tolerance.count(kind, answer.refusal),
            Call::Days(..) => by_days.count(kind, answer.refusal),
        }
    }
    by_tolerance.expect("aging", &[1, 2, 3, 4, 5, 6, 7, 8, 9, 20, 10]);
    by_days.expect("aging by days", &[1, 2, 3, 4, 5, 6, 7, 8, 9, 20, 22, 23]);
}

#[test]
fn the_limits_of_the_tolerance() {
    let mut run = Run::new();
    let tolerances = [
        (0, [0, 0, 0]),
        (32_000, [0, 0, 0]),
        (32_001, [10, 0, 10]),
        (60_000, [10, 0, 10]),
        (60_001, [10, 10, 10]),
        (65_535, [10, 10, 10]),
    ];
    for (k, kind) in KINDS.into_iter().enumerate() {
        let trail = trail(kind, Shape::Wild, 50, &mut run.random);
        for (e, refusals) in tolerances {
            let mut buffer = run.buffer(Shape::Wild, &trail);
            let answer = buffer.age(Call::Tolerance(e));
            assert_eq!(answer.refusal, refusals[k], "{kind}, tolerance {e}");
            let mark = if refusals[k] == 0 { e } else { NEVER };
            assert_eq!(buffer.trail().mark, mark, "{kind}, tolerance {e}");
        }
    }
}

/// The first and the last day of each row of the built-in table, and what applies then to each kind.
const DAYS: [(u16, Option<[u16; 3]>); 10] = [
    (0, None),
    (1, None),
    (2, Some([10, 100, 10])),
    (6, Some([10, 100, 10])),
    (7, Some([25, 250, 25])),
    (29, Some([25, 250, 25])),
    (30, Some([100, 1_000, 100])),
    (89, Some([100, 1_000, 100])),
    (90, Some([400, 4_000, 400])),
    (65_535, Some([400, 4_000, 400])),
];

/// A hall's own table at every limit: rows on the first day and on the last, a row of tolerance 0 and two of one
/// tolerance, and, ten times as much in millimetres, up to 60,000 and past it.
const HALL: [(u16, u16); 7] = [
    (0, 0),
    (1, 12),
    (2, 12),
    (40, 6_000),
    (50, 6_001),
    (365, 32_000),
    (65_535, 32_000),
];

/// Days of that table, as those of the built-in one.
const HALL_DAYS: [(u16, Option<[u16; 3]>); 10] = [
    (0, Some([0, 0, 0])),
    (1, Some([12, 120, 12])),
    (2, Some([12, 120, 12])),
    (39, Some([12, 120, 12])),
    (40, Some([6_000, 60_000, 6_000])),
    (49, Some([6_000, 60_000, 6_000])),
    (50, Some([6_001, 60_000, 6_001])),
    (365, Some([32_000, 60_000, 32_000])),
    (65_534, Some([32_000, 60_000, 32_000])),
    (65_535, Some([32_000, 60_000, 32_000])),
];

#[test]
fn days_are_the_tolerance_of_the_table_or_nothing() {
    let mut run = Run::new();
    let hall = Table::of(&HALL.map(Row::from));
    for (kind, shape) in every_kind_and_shape() {
        let trail = trail(kind, shape, 300, &mut run.random);
        for (table, all) in [(Table::built_in(), DAYS), (hall, HALL_DAYS)] {
            for (days, applies) in all {
                let of_kind = |of: [u16; 3]| of[usize::from(kind.code) - 1];
                let mut buffer = run.buffer(shape, &trail);
                days_are(days, &table, applies.map(of_kind), &mut buffer);
            }
        }
    }
}

/// Aging by these days is aging by this tolerance, or nothing, and what would be applied is told before.
fn days_are(days: u16, table: &Table, applies: Option<u16>, buffer: &mut Buffer) {
    let name = format!("{}, {days} days", buffer.name);
    let mut other = Buffer::new(name.clone(), buffer.bytes.clone());
    let told = days_apply(&buffer.bytes, days, table);
    let numbers = (told.refusal, told.applies, told.tolerance);
    let e = applies.unwrap_or(0).into();
    assert_eq!(numbers, (0, applies.is_some().into(), e), "{name}");
    assert_eq!(buffer.bytes, other.bytes, "{name}");
    let answer = buffer.age(Call::Days(days, *table));
    match applies {
        None => assert_eq!((answer.refusal, answer.value), (0, 0), "{name}"),
        Some(e) => assert_eq!(answer, other.age(Call::Tolerance(e)), "{name}"),
    }
    assert_eq!(buffer.bytes, other.bytes, "{name}");
}

/// What would be applied is told, or refused, as the aging is, and changes no byte.
#[test]
fn what_days_apply_is_told_of_every_record() {
    let settings = Settings::get();
    let mut random = Random::new(settings.seed);
    let mut tally = Tally::default();
    for case in Cases::all(settings) {
        let table = Table::any(&mut random);
        let days = table.days(&mut random);
        let before = case.bytes.clone();
        let told = days_apply(&case.bytes, days, &table);
        let name = format!("{}, {days} days, {table:?}", case.name);
        assert_eq!(told, expected::days_apply(&before, days, &table), "{name}");
        assert!(case.bytes == before, "{name}: other bytes");
        let mut aged = Buffer::new(name.clone(), case.bytes.clone());
        let answer = aged.age(Call::Days(days, table));
        assert_eq!(told.refusal, answer.refusal, "{name}");
        tally.count(case.kind(), told.refusal);
    }
    tally.expect("what days apply", &[1, 2, 3, 4, 5, 6, 7, 8, 9, 20, 22, 23]);
}

/// A struct of somebody's own making: of every count, with rows in all its room that are good. Up to 32 they are the
/// table, and past that nothing is looked at.
#[test]
fn a_table_of_every_count_is_aged_by_or_refused() {
    let mut run = Run::new();
    let rows: Vec<Row> = (0..32).map(|k| Row::from((k, 10 + k))).collect();
    for kind in KINDS {
        let trail = trail(kind, Shape::Wild, 20, &mut run.random);
        for count in (0..=70).chain([256, 257, 288, 32_768, 65_534, 65_535]) {
            let table = Table {
                count,
                ..Table::of(&rows)
            };
            let mut buffer = run.buffer(Shape::Wild, &trail);
            let answer = buffer.age(Call::Days(100, table));
            let (refusal, mark) = match count {
                1..=32 => (0, kind.times * (9 + count)),
                _ => (22, NEVER),
            };
            assert_eq!(answer.refusal, refusal, "{kind}, {count} rows");
            assert_eq!(buffer.trail().mark, mark, "{kind}, {count} rows");
        }
    }
}

#[test]
fn marks_that_others_wrote_are_believed() {
    let mut run = Run::new();
    for (mark, e, after) in [
        (40, 12, 40),
        (12, 40, 40),
        (12, 12, 12),
        (0, 0, 0),
        (0, 32_000, 32_000),
        (32_000, 0, 32_000),
        (NEVER, 0, 0),
        (NEVER, 32_000, 32_000),
    ] {
        for kind in KINDS {
            run.believes(kind, mark, e, after);
        }
    }
    run.believes(MILLIMETRES, 60_000, 0, 60_000);
    run.believes(MILLIMETRES, 32_001, 60_000, 60_000);
    run.believes(MILLIMETRES, NEVER, 60_000, 60_000);
}

impl Run {
    /// A smooth trail with this mark has another after an aging.
    fn believes(&mut self, kind: Kind, mark: u16, e: u16, after: u16) {
        let trail = Trail {
            mark,
            ..trail(kind, Shape::Smooth, 200, &mut self.random)
        };
        let mut buffer = self.buffer(Shape::Smooth, &trail);
        buffer.age(Call::Tolerance(e));
        let aged = buffer.trail();
        // the fixes are thinned at what was asked, and not at the mark
        let kept = thin(&trail.fixes, e).kept;
        assert_eq!(aged.fixes, kept, "{kind}, mark {mark}, {e}");
        assert_eq!(aged.mark, after, "{kind}, mark {mark}, {e}");
    }
}

/// Each stretch between silences as a record of kind 1, aged by itself: the kept fixes one after the other, and the
/// counts added.
#[test]
fn stretches_are_aged_each_by_itself() {
    let mut run = Run::new();
    for k in 0..run.settings.cases / 10 {
        let shape = SHAPES[k % SHAPES.len()];
        let n = run.random.between(1, 120) as usize;
        let trail = trail(SILENCES, shape, n, &mut run.random);
        let call = Call::Tolerance(run.random.pick(&[0, 1, 5, 60, 32_000]));
        let mut whole = run.buffer(shape, &trail);
        let answer = whole.age(call);
        let (mut kept, mut count) = (Vec::new(), 0);
        for stretch in stretches(&trail.fixes) {
            let mut alone = stretch.to_vec();
            let last = alone.len() - 1;
            alone[last].silence = 0;
            let mut buffer = run.buffer(shape, &Trail::never_thinned(CENTIMETRES, alone));
            count += buffer.age(call).value;
            kept.extend(buffer.trail().fixes);
            let last = kept.len() - 1;
            kept[last].silence = stretch[stretch.len() - 1].silence;
        }
        let name = format!("{}, {call:?}", whole.name);
        assert_eq!((answer.refusal, answer.value), (0, count), "{name}");
        assert_eq!(whole.trail().fixes, kept, "{name}");
    }
}
