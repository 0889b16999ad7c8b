//! The comparison itself: it meets everything and finds no difference, and of one that is put in, between the sides,
//! from a twin or from the same of another kind, it shows the smallest case.
#![forbid(unsafe_code)]

use trails_tests::cases::Settings;
use trails_tests::columns::Columns;
use trails_tests::compare::readings::{self, Difference, Side};
use trails_tests::compare::{plain, proved, run, Case, Outcome, Reply};
use trails_tests::compare::{Operation, Sides};
use trails_tests::interface::{self, Answer, Crossing};
use trails_tests::plain::anchors::Reading;
use trails_tests::plain::approach::Circle;
use trails_tests::plain::crossing::{Area, Question, Window};
use trails_tests::plain::kinds::{Kind, CENTIMETRES, MILLIMETRES, SILENCES};
use trails_tests::plain::lists::List;
use trails_tests::plain::place::Time;
use trails_tests::plain::table::{Row, Table};
use trails_tests::plain::thinning::thin;
use trails_tests::plain::{read, Fix, Trail, NEVER};
use trails_tests::questions::Moment;
use trails_tests::tables::RowColumns;
use trails_tests::told::{Crossed, Told};

const SETTINGS: Settings = Settings {
    seed: 8,
    cases: 30_000,
};

fn record_of<F: Copy>(kind: Kind, mark: u16, fixes: &[F]) -> Vec<u8>
where
    Fix: From<F>,
{
    let fixes = fixes.iter().copied().map(Fix::from).collect();
    Trail { kind, mark, fixes }.bytes()
}

/// Of the kind that cases are brought to where they can be.
fn record(mark: u16, fixes: &[(u32, i32, i32)]) -> Vec<u8> {
    record_of(CENTIMETRES, mark, fixes)
}

/// How many fixes an accepted record has, and 0 of others.
fn fixes(buffer: &[u8]) -> usize {
    read(buffer).map_or(0, |trail| trail.fixes.len())
}

/// A side whose outcomes are spoiled.
fn faulty(side: fn(&Case) -> Outcome, spoil: fn(&Case, &mut Outcome)) -> impl Fn(&Case) -> Outcome {
    move |case| {
        let mut outcome = side(case);
        spoil(case, &mut outcome);
        outcome
    }
}

fn shown_by(sides: Sides) -> Case {
    match run(SETTINGS, sides) {
        Ok(met) => panic!("no difference was found:\n{met}"),
        Err(case) => *case,
    }
}

/// The case that is shown when the plain version's outcomes are spoiled.
fn shown(spoil: fn(&Case, &mut Outcome)) -> Case {
    shown_by(Sides {
        proved: &proved,
        plain: &faulty(plain, spoil),
    })
}

#[test]
fn there_is_no_difference_and_nothing_is_missing() {
    let sides = Sides {
        proved: &proved,
        plain: &plain,
    };
    let met = run(SETTINGS, sides).unwrap_or_else(|case| panic!("{case:?}"));
    println!("{met}");
    assert!(met.missing().is_empty(), "{:?}", met.missing());
    assert!(met.to_string().ends_with("30000 cases, 0 differences"));
}

#[test]
fn a_count_that_is_wrong_from_3_fixes_on_is_shown_with_3() {
    let case = shown(|case, outcome| {
        if let (Operation::Age(_), Reply::Answer(answer)) = (&case.operation, &mut outcome.reply) {
            answer.value += u32::from(fixes(&case.buffer) >= 3);
        }
    });
    assert_eq!(case.operation, Operation::Age(0));
    let smallest = record(0, &[(0, 0, 0), (1, 0, 0), (2, 0, 0)]);
    assert_eq!(case.buffer, smallest);
}

#[test]
fn a_tolerance_that_is_wrong_from_100_on_is_shown_at_100() {
    let case = shown(|case, outcome| {
        if matches!(case.operation, Operation::Age(100..=32_000)) && fixes(&case.buffer) > 0 {
            outcome.after.buffer[6] ^= 1;
        }
    });
    assert_eq!(case.operation, Operation::Age(100));
    assert_eq!(case.buffer, record(0, &[(0, 0, 0)]));
}

/// Of a distance that is just within the tolerance hardly a number can be changed alone.
#[test]
fn a_distance_at_the_tolerance_is_shown_in_small_numbers() {
    let case = shown(|case, outcome| {
        let (Operation::Age(e @ 1..), Ok(trail)) = (&case.operation, read(&case.buffer)) else {
            return;
        };
        let kept = |e: u16| thin(&trail.fixes, e).kept;
        if *e <= trail.kind.top && kept(e - 1) != kept(*e) {
            outcome.after.buffer[0] ^= 0xFF;
        }
    });
    assert_eq!(case.operation, Operation::Age(1));
    let fixes = read(&case.buffer).expect("it is accepted").fixes;
    let times: Vec<u32> = fixes.iter().map(|fix| fix.t).collect();
    assert_eq!(times, [0, 1, 2]);
    // one coordinate of one fix is 1, or -1; which of them doesn't matter
    let off = fixes.iter().map(|fix| fix.x.abs() + fix.y.abs());
    assert_eq!(off.sum::<i32>(), 1, "{fixes:?}");
}

#[test]
fn a_changed_byte_after_the_record_is_shown_with_that_byte() {
    let case = shown(|case, outcome| {
        let (Operation::Check, Ok(trail)) = (&case.operation, read(&case.buffer)) else {
            return;
        };
        let after = outcome.after.buffer.get_mut(trail.bytes().len());
        if let Some(byte) = after {
            *byte ^= 0x80;
        }
    });
    let mut smallest = record(0, &[(0, 0, 0)]);
    smallest.push(0);
    assert_eq!(case.buffer, smallest);
    assert_eq!(case.operation, Operation::Check);
}

#[test]
fn a_list_is_shown_with_the_calls_that_matter() {
    let case = shown(|case, outcome| {
        if let Operation::Run(List { calls, .. }) = &case.operation {
            let days = calls.iter().any(|&call| call >= 65_536);
            let high = calls.iter().any(|&call| (10..65_536).contains(&call));
            if days && high {
                outcome.after.operation = Operation::Run(List::default());
            }
        }
    });
    let Operation::Run(List { mut calls, tables }) = case.operation else {
        panic!("{case:?}");
    };
    calls.sort();
    assert_eq!((calls, tables), (vec![10, 65_536], Vec::new()));
    // a head is never taken apart
    assert!(case.buffer.len() <= 10, "{:?}", case.buffer);
}

#[test]
fn a_list_whose_count_is_wrong_is_shown_with_the_calls_that_are_counted() {
    let case = shown(|_, outcome| {
        if let Reply::Run(run) = &mut outcome.reply {
            run.turned_away += usize::from(run.turned_away >= 2);
        }
    });
    let list = List::of_tolerances(&[32_001, 32_001]);
    assert_eq!(case.operation, Operation::Run(list));
    assert_eq!(case.buffer, record(0, &[(0, 0, 0)]));
}

// ---- tables

/// A count that there is no room for is shown as the least of them.
#[test]
fn a_table_of_33_rows_that_is_taken_is_shown_by_its_count() {
    let case = shown(|case, outcome| {
        let (Operation::Days(_, table), Reply::Answer(answer)) =
            (&case.operation, &mut outcome.reply)
        else {
            return;
        };
        if answer.refusal == 22 && table.count > 32 {
            answer.refusal = 0;
        }
    });
    let table = Table {
        count: 33,
        ..Table::default()
    };
    assert_eq!(case.operation, Operation::Days(0, table));
    assert_eq!(case.buffer, record(0, &[(0, 0, 0)]));
}

#[test]
fn a_row_that_gives_60000_millimetres_is_shown_alone() {
    let case = shown(|case, outcome| {
        if let (Operation::Apply(..), Reply::Applied(applied)) =
            (&case.operation, &mut outcome.reply)
        {
            applied.tolerance += u32::from(applied.tolerance == 60_000);
        }
    });
    let row = Row::from((0, 6_000));
    assert_eq!(case.operation, Operation::Apply(0, Table::of(&[row])));
    assert_eq!(case.buffer, record_of(MILLIMETRES, 0, &[(0, 0, 0)]));
}

/// Of rows to load, those that matter.
#[test]
fn equal_days_that_are_loaded_are_shown_by_two_rows() {
    let case = shown(|case, outcome| {
        let (Operation::Load(columns), Reply::Loaded(loaded)) =
            (&case.operation, &mut outcome.reply)
        else {
            return;
        };
        let rows = columns.rows();
        let equal = rows.windows(2).any(|pair| pair[0].day == pair[1].day);
        loaded.refusal %= if equal { 23 } else { 24 };
    });
    let rows = [Row::default(), Row::default()];
    assert_eq!(case.operation, Operation::Load(RowColumns::of(&rows)));
    assert!(case.buffer.is_empty());
}

/// Of a list's tables, those that matter: the first, and the numbers that it takes to be one.
#[test]
fn a_list_that_takes_the_wrong_table_is_shown_with_it() {
    let case = shown(|_, outcome| {
        if let (Operation::Run(list), Reply::Run(run)) =
            (&outcome.after.operation, &mut outcome.reply)
        {
            let by_first = list.calls.iter().any(|call| call >> 16 == 1);
            let accepted = list.table(0).checked().is_ok();
            run.turned_away += usize::from(by_first && accepted && run.refusal == 0);
        }
    });
    let table = Table::of(&[Row::default()]);
    let list = List {
        calls: vec![65_536],
        tables: table.numbers(),
    };
    assert_eq!(case.operation, Operation::Run(list));
    assert_eq!(case.buffer, record(0, &[(0, 0, 0)]));
}

// ---- kinds

/// What only records in millimetres can show is shown by one: at the least of the lengths that centimetres can't have.
#[test]
fn a_limit_of_millimetres_is_shown_in_millimetres() {
    let case = shown(|case, outcome| {
        let millimetres = read(&case.buffer).is_ok_and(|trail| trail.kind == MILLIMETRES);
        if let (true, Operation::Age(50_000..), Reply::Answer(answer)) =
            (millimetres, &case.operation, &mut outcome.reply)
        {
            answer.value += u32::from(answer.refusal == 0);
        }
    });
    assert_eq!(case.operation, Operation::Age(50_000));
    assert_eq!(case.buffer, record_of(MILLIMETRES, 0, &[(0, 0, 0)]));
}

#[test]
fn a_place_that_needs_four_bytes_is_shown_with_them() {
    let case = shown(|case, outcome| {
        let far = |fix: &Fix| fix.x > 100_000;
        let is_far = read(&case.buffer).is_ok_and(|trail| trail.fixes.iter().any(far));
        if let (true, Operation::Check) = (is_far, &case.operation) {
            outcome.after.buffer[0] ^= 0xFF;
        }
    });
    assert_eq!(case.operation, Operation::Check);
    assert_eq!(case.buffer, record_of(MILLIMETRES, 0, &[(0, 100_001, 0)]));
}

/// What only a silence can show is shown by one, with no more fixes than it takes.
#[test]
fn a_silence_that_is_lost_is_shown_by_two_fixes() {
    let case = shown(|_, outcome| {
        if let Reply::Steps(steps) = &mut outcome.reply {
            steps.iter_mut().for_each(|step| step.silence = 0);
        }
    });
    assert_eq!(case.operation, Operation::Read(vec![0]));
    let smallest = record_of(SILENCES, 0, &[(0, 0, 0, 1), (0, 0, 0, 0)]);
    // the second is later, by as little as can be
    let mut later = smallest.clone();
    later[19] = 1;
    assert_eq!(case.buffer, later);
}

/// A thinning across silences keeps one fix less, of the fewest that can show it.
#[test]
fn a_silence_that_is_thinned_across_is_shown_with_3_fixes() {
    let case = shown(|case, outcome| {
        let (Operation::Age(e), Ok(mut trail)) = (&case.operation, read(&case.buffer)) else {
            return;
        };
        let kept = thin(&trail.fixes, *e).kept.len();
        trail.fixes.iter_mut().for_each(|fix| fix.silence = 0);
        if *e <= trail.kind.top && thin(&trail.fixes, *e).kept.len() != kept {
            outcome.after.buffer[0] ^= 0xFF;
        }
    });
    assert_eq!(case.operation, Operation::Age(0));
    let trail = read(&case.buffer).expect("it is accepted");
    assert_eq!((trail.kind, trail.fixes.len()), (SILENCES, 3));
}

#[test]
fn a_bad_silence_byte_that_is_taken_is_shown_by_one_fix() {
    let case = shown(|_, outcome| {
        if let Reply::Head(head) = &mut outcome.reply {
            head.refusal %= 20;
        }
    });
    assert_eq!(case.operation, Operation::Check);
    assert_eq!(case.buffer, record_of(SILENCES, 0, &[(0, 0, 0, 1)]));
}

#[test]
fn a_moment_in_a_silence_that_is_answered_is_shown_by_one_silence() {
    let case = shown(|_, outcome| {
        if let Reply::Place(place) = &mut outcome.reply {
            place.refusal %= 21;
        }
    });
    let moment = Moment {
        second: 0,
        thousandths: 1,
    };
    assert_eq!(case.operation, Operation::Place(moment));
    let smallest = record_of(SILENCES, 0, &[(0, 0, 0, 1), (1, 0, 0, 0)]);
    assert_eq!(case.buffer, smallest);
}

#[test]
fn a_column_that_is_not_filled_to_its_end_is_shown_alone() {
    let case = shown(|case, outcome| {
        if let (Operation::ReadAll(before), Operation::ReadAll(after)) =
            (&case.operation, &mut outcome.after.operation)
        {
            // the second and last element that is filled is left as it was
            let count = fixes(&case.buffer);
            if count >= 2 && before.y.len() == count {
                after.y[count - 1] = before.y[count - 1];
            }
        }
    });
    let Operation::ReadAll(columns) = case.operation else {
        panic!("{case:?}");
    };
    assert_eq!(columns.lengths(), [0, 0, 2, 0]);
    // the old number and the new one differ by 1
    let last = read(&case.buffer).expect("it is accepted").fixes[1].y;
    assert_eq!((last - columns.y[1]).abs(), 1, "{columns:?}, {last}");
}

#[test]
fn a_place_that_the_writer_gets_wrong_is_shown_alone() {
    let case = shown(|case, outcome| {
        if let (Operation::Write(_, Columns { x, .. }), Reply::Answer(answer)) =
            (&case.operation, &mut outcome.reply)
        {
            let far = x.iter().any(|&x| (-16_000..-100).contains(&x));
            answer.value += u32::from(far && answer.refusal == 0);
        }
    });
    let columns = Columns {
        t: vec![0],
        x: vec![-101],
        y: vec![0],
        silence: vec![],
    };
    assert_eq!(case.operation, Operation::Write(CENTIMETRES, columns));
    assert_eq!(case.buffer, [0; 18]);
}

/// An output that is just long enough stays so while the trail gets shorter.
#[test]
fn a_dearest_trail_that_wants_a_byte_more_is_shown_with_one_fix() {
    let case = shown(|case, outcome| {
        if let (Operation::Dearest(_), Reply::Answer(answer)) =
            (&case.operation, &mut outcome.reply)
        {
            if answer.refusal == 0 && answer.value as usize == case.buffer.len() {
                answer.refusal = 15;
            }
        }
    });
    assert_eq!(case.operation, Operation::Dearest(1));
    assert_eq!(case.buffer, [0; 18]);
}

/// A last fix that isn't at 0 is shown by the trail of one fix, in an output that has room for no more.
#[test]
fn a_dearest_trail_that_ends_elsewhere_is_shown_with_one_fix() {
    let case = shown(|case, outcome| {
        if let (Operation::Dearest(n), Reply::Answer(Answer { refusal: 0, .. })) =
            (&case.operation, &outcome.reply)
        {
            outcome.after.buffer[8 + 8 * n] ^= 1;
        }
    });
    assert_eq!(case.operation, Operation::Dearest(1));
    assert_eq!(case.buffer, [0; 18]);
}

/// A check that is left out is shown by the least number that it turns away.
#[test]
fn a_dearest_trail_of_too_many_fixes_is_shown_by_their_number() {
    let case = shown(|case, outcome| {
        if let (Operation::Dearest(1..), Reply::Answer(answer)) =
            (&case.operation, &mut outcome.reply)
        {
            if answer.refusal == 3 {
                answer.refusal = 15;
            }
        }
    });
    assert_eq!(case.operation, Operation::Dearest(4_097));
    assert!(case.buffer.is_empty());
}

#[test]
fn a_refusal_that_is_missing_is_shown_by_the_fixes_it_takes() {
    let case = shown(|_, outcome| {
        if let Reply::Place(place) = &mut outcome.reply {
            if place.refusal == 8 {
                place.refusal = 0;
            }
        }
    });
    assert!(matches!(case.operation, Operation::Place(_)), "{case:?}");
    assert_eq!(case.buffer, record(0, &[(0, 0, 0), (0, 0, 0)]));
}

#[test]
fn a_crossing_that_is_missed_is_shown_by_one_leg() {
    let case = shown(|_, outcome| {
        if let Reply::Crossing(Crossed::Yes(time)) = outcome.reply {
            if time.p % time.q != 0 {
                outcome.reply = Reply::Crossing(Crossed::No);
            }
        }
    });
    let fixes = read(&case.buffer).expect("it is accepted").fixes;
    let times: Vec<u32> = fixes.iter().map(|fix| fix.t).collect();
    assert_eq!(times, [0, 1]);
    // a way of 2 along one axis, as 0 to 2 or as -1 to 1, and a box that is one place on it or begins there
    let off = fixes.iter().map(|fix| fix.x.abs() + fix.y.abs());
    assert_eq!(off.sum::<i32>(), 2, "{fixes:?}");
    let (Operation::Crosses(question) | Operation::CrossesAfter(_, question)) = case.operation
    else {
        panic!("{case:?}");
    };
    assert_eq!(question.window, Window { start: 0, end: 1 });
    let area = question.area;
    let wide = (area.right - area.left) + (area.top - area.bottom);
    assert!((0..=1).contains(&wide), "{fixes:?}, {area:?}");
}

/// What was asked of an approach.
fn circle_of(operation: Operation) -> Circle {
    match operation {
        Operation::Near(circle) | Operation::NearAfter(_, circle) => circle,
        other => panic!("{other:?}"),
    }
}

#[test]
fn an_approach_that_is_missed_is_shown_by_one_leg() {
    let case = shown(|_, outcome| {
        if let Reply::Approach(Told::Yes(first)) = &outcome.reply {
            if first.time.p % first.time.q != 0 {
                outcome.reply = Reply::Approach(Told::No);
            }
        }
    });
    let fixes = read(&case.buffer).expect("it is accepted").fixes;
    let times: Vec<u32> = fixes.iter().map(|fix| fix.t).collect();
    assert_eq!(times, [0, 1]);
    // a way of 2 along one axis with the point in its middle, or of 1 along both with the point at a corner
    let off = fixes.iter().map(|fix| fix.x.abs() + fix.y.abs());
    assert_eq!(off.sum::<i32>(), 2, "{fixes:?}");
    let circle = circle_of(case.operation);
    let near = circle.x.abs() + circle.y.abs();
    assert!(near <= 1 && circle.radius <= 1, "{fixes:?}, {circle:?}");
}

#[test]
fn another_leg_that_is_told_is_shown_by_two() {
    let case = shown(|_, outcome| {
        if let Reply::Approach(Told::Yes(first)) = &mut outcome.reply {
            first.leg += usize::from(first.leg > 0);
        }
    });
    let fixes = read(&case.buffer).expect("it is accepted").fixes;
    let times: Vec<u32> = fixes.iter().map(|fix| fix.t).collect();
    assert_eq!(times, [0, 1, 2]);
    // the first two are at one place, and the last is one off, at the point
    assert_eq!((fixes[0].x, fixes[0].y), (fixes[1].x, fixes[1].y));
    let off = (fixes[2].x - fixes[1].x).abs() + (fixes[2].y - fixes[1].y).abs();
    assert_eq!((off, circle_of(case.operation).radius), (1, 0), "{fixes:?}");
}

#[test]
fn a_radius_that_is_taken_is_shown_by_the_least() {
    let case = shown(|_, outcome| {
        if outcome.reply == Reply::Approach(Told::Refused(16)) {
            outcome.reply = Reply::Approach(Told::No);
        }
    });
    assert_eq!(case.buffer, record(0, &[(0, 0, 0)]));
    let Circle { x, y, radius } = circle_of(case.operation);
    let beyond = [(16_001, 0, 0), (0, 16_001, 0), (0, 0, 32_001)];
    assert!(
        beyond.contains(&(x.abs(), y.abs(), radius)),
        "{x} {y} {radius}"
    );
}

#[test]
fn forms_of_one_fraction_are_equal_and_denominators_have_limits() {
    let question = Question {
        window: Window { start: 0, end: 10 },
        area: Area::new((33, 40), (-5, 5)),
    };
    let answer = |numerator, denominator| Crossing {
        refusal: 0,
        crosses: 1,
        numerator,
        denominator,
    };
    for (p, q, equal) in [
        (33, 10, [true, true]),
        (330, 100, [true, true]),
        (105_600, 32_000, [true, true]),
        (105_930, 32_100, [false, true]),
        (1_056_000, 320_000, [false, true]),
        (1_056_033, 320_010, [false, false]),
        (0, 0, [false, false]),
        (34, 10, [false, false]),
    ] {
        let are_equal = [CENTIMETRES, MILLIMETRES].map(|kind| {
            let case = Case {
                buffer: record_of(kind, NEVER, &[(0, 0, 0), (10, 100, 0)]),
                operation: Operation::Crosses(question),
            };
            proved(&case).reply == Reply::Crossing(Crossed::of(kind, answer(p, q)))
        });
        assert_eq!(are_equal, equal, "{p}/{q}");
    }
}

// ---- twins

/// A time in another form, if the trail is late.
fn double_if_late(case: &Case, time: &mut Time) {
    if read(&case.buffer).is_ok_and(|trail| trail.fixes[0].t > 1_000_000) {
        (time.p, time.q) = (2 * time.p, 2 * time.q);
    }
}

/// The two sides are equal by value, so that only a twin shows it.
#[test]
fn a_fraction_of_another_form_at_late_times_is_shown_by_a_twin() {
    let doubled = faulty(proved, |case, outcome| {
        if let Reply::Crossing(Crossed::Yes(time)) = &mut outcome.reply {
            double_if_late(case, time);
        }
    });
    let case = shown_by(Sides {
        proved: &doubled,
        plain: &plain,
    });
    assert_eq!(case.buffer, record(0, &[(0, 0, 0)]));
    let (Operation::Crosses(question) | Operation::CrossesAfter(_, question)) = case.operation
    else {
        panic!("{case:?}");
    };
    assert_eq!(question.window, Window { start: 0, end: 0 });
}

#[test]
fn so_is_that_of_an_approach() {
    let doubled = faulty(proved, |case, outcome| {
        if let Reply::Approach(Told::Yes(first)) = &mut outcome.reply {
            double_if_late(case, &mut first.time);
        }
    });
    let case = shown_by(Sides {
        proved: &doubled,
        plain: &plain,
    });
    assert_eq!(case.buffer, record(0, &[(0, 0, 0)]));
    let circle = circle_of(case.operation);
    assert_eq!((circle.x, circle.y, circle.radius), (0, 0, 0));
}

/// A side that takes the asked second's low 16 bits for it.
fn cut(side: fn(&Case) -> Outcome) -> impl Fn(&Case) -> Outcome {
    move |case| {
        let mut outcome = side(case);
        if let Operation::Place(moment) = &case.operation {
            let mut low = case.clone();
            low.operation = Operation::Place(Moment {
                second: moment.second % 65_536,
                ..*moment
            });
            outcome.reply = side(&low).reply;
        }
        outcome
    }
}

/// If one side does it, a fix at 0 is taken to be there at 65,536; if both do, only a twin shows it, of a fix at 0 too.
#[test]
fn seconds_that_are_cut_to_16_bits_are_shown_also_if_both_sides_do_it() {
    let (one, other) = (cut(proved), cut(plain));
    let by_one = shown_by(Sides {
        proved: &one,
        plain: &plain,
    });
    let by_both = shown_by(Sides {
        proved: &one,
        plain: &other,
    });
    for (case, second) in [(by_one, 65_536), (by_both, 0)] {
        let moment = Moment {
            second,
            thousandths: 0,
        };
        assert_eq!(case.operation, Operation::Place(moment));
        assert_eq!(case.buffer, record(0, &[(0, 0, 0)]));
    }
}

// ---- of other kinds

/// A side that takes coordinates in millimetres for others from 65,536 on.
fn cut_wide(side: fn(&Case) -> Outcome) -> impl Fn(&Case) -> Outcome {
    move |case| {
        let mut outcome = side(case);
        if let Reply::Steps(steps) = &mut outcome.reply {
            let fine = steps.iter_mut().filter(|step| step.kind == 2);
            fine.for_each(|step| step.x %= 65_536);
        }
        outcome
    }
}

/// If both sides do it, only what the same trail answers in centimetres shows it.
#[test]
fn what_both_sides_do_to_millimetres_is_shown_by_the_same_in_centimetres() {
    let (one, other) = (cut_wide(proved), cut_wide(plain));
    let case = shown_by(Sides {
        proved: &one,
        plain: &other,
    });
    assert_eq!(case.operation, Operation::Read(vec![0]));
    // ten times as far is the first beyond 65,535, on either side
    let fixes = read(&case.buffer).expect("it is accepted").fixes;
    assert_eq!((fixes.len(), fixes[0].x.abs()), (1, 6_554));
}

/// A side that has another count of records that could have silences and have none.
fn counts_silences(side: fn(&Case) -> Outcome) -> impl Fn(&Case) -> Outcome {
    move |case| {
        let mut outcome = side(case);
        let silent = read(&case.buffer).is_ok_and(|trail| trail.kind == SILENCES);
        if let (true, Operation::Days(..), Reply::Answer(answer)) =
            (silent, &case.operation, &mut outcome.reply)
        {
            answer.value += 1;
        }
        outcome
    }
}

/// If both sides do it, only what the same trail of kind 1 answers shows it.
#[test]
fn what_both_sides_do_to_silences_is_shown_by_the_same_without() {
    let (one, other) = (counts_silences(proved), counts_silences(plain));
    let case = shown_by(Sides {
        proved: &one,
        plain: &other,
    });
    assert_eq!(case.operation, Operation::Days(0, Table::default()));
    assert_eq!(case.buffer, record(0, &[(0, 0, 0)]));
}

// ---- readings of anchors

/// What is shown of readings if this is put in the proved side's place.
fn shown_of_readings(side: Side) -> Difference {
    match readings::run(SETTINGS, side) {
        Ok(met) => panic!("no difference was found:\n{met}"),
        Err(difference) => *difference,
    }
}

#[test]
fn readings_have_no_difference_and_nothing_is_missing() {
    let met = readings::run(SETTINGS, readings::PROVED).unwrap_or_else(|one| panic!("{one}"));
    println!("{met}");
    assert!(met.missing().is_empty(), "{:?}", met.missing());
    assert!(met.to_string().contains("\n30000 readings in "));
}

/// A half below 0 that goes upward is shown with one reading.
#[test]
fn a_place_that_is_rounded_otherwise_is_shown_with_its_reading() {
    let difference = shown_of_readings(Side {
        one: &|state, reading| {
            let mut answer = interface::anchor(state, reading);
            answer.x += i32::from(answer.refusal == 0 && answer.state.x.fract() == -0.5);
            answer
        },
        ..readings::PROVED
    });
    let [reading] = difference.readings[..] else {
        panic!("{difference}");
    };
    let state = interface::anchor(difference.state, reading).state;
    assert_eq!(state.x.fract(), -0.5, "{difference}");
}

/// A refused reading that leaves another NaN, which only its bits tell.
#[test]
fn a_state_that_loses_a_bit_is_shown() {
    let difference = shown_of_readings(Side {
        one: &|state, reading| {
            let mut answer = interface::anchor(state, reading);
            if answer.state.x.is_nan() {
                answer.state.x = f32::from_bits(answer.state.x.to_bits() ^ 1);
            }
            answer
        },
        ..readings::PROVED
    });
    assert!(difference.state.x.is_nan() && !difference.as_list);
}

/// A list that takes its last step twice is shown with an absolute place and a step.
#[test]
fn a_list_that_is_wrong_is_shown_with_few_readings() {
    let difference = shown_of_readings(Side {
        all: &|state, columns| {
            let mut columns = columns.clone();
            if columns.step.last() == Some(&1) {
                columns.step.push(1);
                columns.x.extend(columns.x.last().copied());
                columns.y.extend(columns.y.last().copied());
            }
            interface::anchor_all(state, &columns)
        },
        ..readings::PROVED
    });
    assert!(difference.as_list);
    let last = difference.readings.last();
    assert!(matches!(last, Some(Reading::Step(..))), "{difference}");
    assert!(difference.readings.len() <= 2, "{difference}");
}
