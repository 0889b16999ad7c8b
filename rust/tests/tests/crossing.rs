//! The crossing question: yes with the earliest time, no with nothing, trails moved in time, and each refusal.
#![forbid(unsafe_code)]

use trails_tests::cases::{buffer_of, by_hand, firsts, small_records, Tally, CORNERS, FAR_CORNERS};
use trails_tests::interface::{numbers, Crossing};
use trails_tests::plain::crossing::{Area, Question, Window};
use trails_tests::plain::kinds::{Kind, KINDS, MILLIMETRES, SILENCES};
use trails_tests::plain::place::Time;
use trails_tests::plain::{Fix, Trail};
use trails_tests::questions::{
    asked_of_every_shape, asked_of_the_longest, crosses, refused_in_order, told,
};

// ---- by hand

/// A trail, after which of its fixes a silence is, and its questions: a window, the low and the high edge of x and of
/// y, and the time of a yes.
struct Row {
    fixes: &'static [(u32, i32, i32)],
    silent: &'static [usize],
    asked: &'static [Asked],
}

type Asked = ((u32, u32), (i32, i32), (i32, i32), Option<(u64, u32)>);

impl Row {
    fn holds(&self, kind: Kind) {
        let bytes = buffer_of(kind, by_hand(self.fixes, self.silent));
        for &((start, end), x, y, time) in self.asked {
            let question = Question {
                window: Window { start, end },
                area: Area::new(x, y),
            };
            let name = format!("{kind}, {:?}, {question:?}", self.fixes);
            let answer = crosses(&bytes, &question, &name);
            assert_eq!(
                (answer.refusal, answer.crosses == 1),
                (0, time.is_some()),
                "{name}"
            );
            if let Some((p, q)) = time {
                let (p, q) = (p.into(), q.into());
                let told = told(kind, &answer, &name);
                assert!(told.order(&Time { p, q }).is_eq(), "{name}: {told:?}");
            }
        }
    }
}

/// Document 01's trail l.
const L: Row = Row {
    fixes: &[(0, 0, 0), (10, 100, 0)],
    silent: &[],
    asked: &[
        ((0, 10), (33, 40), (-5, 5), Some((33, 10))),
        ((4, 10), (33, 40), (-5, 5), Some((4, 1))),
        ((5, 10), (33, 40), (-5, 5), None),
        // windows of one second, whose ends are included
        ((4, 4), (33, 40), (-5, 5), Some((4, 1))),
        ((3, 3), (33, 40), (-5, 5), None),
        ((0, 3), (33, 40), (-5, 5), None),
        ((3, 4), (33, 40), (-5, 5), Some((33, 10))),
        // a line, a point, an edge on the trail, and all of these one centimetre off
        ((0, 10), (33, 33), (-5, 5), Some((33, 10))),
        ((0, 10), (33, 33), (0, 0), Some((33, 10))),
        ((0, 10), (33, 33), (1, 1), None),
        ((0, 10), (33, 40), (0, 5), Some((33, 10))),
        ((0, 10), (33, 40), (-5, 0), Some((33, 10))),
        ((0, 10), (33, 40), (1, 5), None),
        ((0, 10), (33, 40), (-5, -1), None),
        ((0, 10), (-9, 0), (-5, 5), Some((0, 1))),
        ((0, 10), (-9, -1), (-5, 5), None),
        ((0, 10), (100, 100), (0, 0), Some((10, 1))),
        ((0, 10), (101, 101), (0, 0), None),
        ((0, 10), (-16_000, 16_000), (-16_000, 16_000), Some((0, 1))),
    ],
};

/// Down a slope and up again: corners are touched, and both axes must be in the box at one time.
const SLOPES: Row = Row {
    fixes: &[(100, 0, 0), (107, 7, -21), (114, 14, 0)],
    silent: &[],
    asked: &[
        // a corner on the trail, and the corner moved by one
        ((100, 114), (3, 9), (-9, 5), Some((3, 1))),
        ((100, 114), (4, 6), (-9, 5), None),
        ((100, 114), (3, 3), (-9, -9), Some((3, 1))),
        ((100, 114), (3, 3), (-10, -10), None),
        // between two fractions: y is in it from 10/3 on and to 11/3, and x from 3 on
        ((100, 114), (3, 5), (-11, -10), Some((10, 3))),
        ((103, 104), (3, 5), (-11, -10), Some((10, 3))),
        ((104, 105), (3, 5), (-11, -10), None),
        // at the shared fix alone, and on the second leg first
        ((100, 114), (0, 14), (-30, -21), Some((7, 1))),
        ((107, 107), (7, 7), (-21, -21), Some((7, 1))),
        ((100, 106), (7, 7), (-21, -21), None),
        ((100, 114), (8, 14), (-10, -9), Some((32, 3))),
        ((108, 114), (0, 14), (-1, 0), Some((41, 3))),
    ],
};

/// A cart that stands, goes, and stands again.
const STANDING: Row = Row {
    fixes: &[(5, 1, 1), (6, 1, 1), (9, 3, 1), (20, 3, 1)],
    silent: &[],
    asked: &[
        ((5, 20), (1, 1), (1, 1), Some((0, 1))),
        ((6, 20), (1, 1), (1, 1), Some((1, 1))),
        ((7, 20), (1, 1), (1, 1), None),
        ((5, 20), (2, 2), (1, 1), Some((5, 2))),
        ((5, 20), (3, 3), (1, 1), Some((4, 1))),
        ((15, 20), (3, 3), (1, 1), Some((10, 1))),
        ((5, 20), (0, 9), (2, 9), None),
    ],
};

const LONE: Row = Row {
    fixes: &[(u32::MAX, -16_000, 16_000)],
    silent: &[],
    asked: &[
        (
            (u32::MAX, u32::MAX),
            (-16_000, -16_000),
            (16_000, 16_000),
            Some((0, 1)),
        ),
        (
            (u32::MAX, u32::MAX),
            (-16_000, 16_000),
            (-16_000, 16_000),
            Some((0, 1)),
        ),
        (
            (u32::MAX, u32::MAX),
            (-15_999, 16_000),
            (-16_000, 16_000),
            None,
        ),
        (
            (u32::MAX, u32::MAX),
            (-16_000, 16_000),
            (-16_000, 15_999),
            None,
        ),
    ],
};

/// The largest numbers of every kind: the longest span at the end of the clock, from wall to wall.
const WALLS: Row = Row {
    fixes: &CORNERS,
    silent: &[],
    asked: &[
        (
            (4_294_901_760, u32::MAX),
            (16_000, 16_000),
            (-16_000, -16_000),
            Some((65_535, 1)),
        ),
        (
            (4_294_901_760, u32::MAX - 1),
            (16_000, 16_000),
            (-16_000, -16_000),
            None,
        ),
        // 65,535 · 31,999 / 32,000
        (
            (4_294_901_760, u32::MAX),
            (15_999, 16_000),
            (-16_000, 16_000),
            Some((2_097_054_465, 32_000)),
        ),
        (
            (4_294_901_760, u32::MAX),
            (-16_000, 16_000),
            (-16_000, -15_999),
            Some((2_097_054_465, 32_000)),
        ),
        (
            (4_294_901_760, u32::MAX),
            (-15_999, 16_000),
            (-16_000, 16_000),
            Some((65_535, 32_000)),
        ),
        ((4_294_901_760, u32::MAX), (1, 16_000), (0, 16_000), None),
        (
            (4_294_901_760, u32::MAX),
            (0, 16_000),
            (0, 16_000),
            Some((65_535, 2)),
        ),
    ],
};

/// What is asked in centimetres can be asked in millimetres too, and of a trail that could have silences.
#[test]
fn trails_worked_by_hand() {
    for row in [L, SLOPES, STANDING, LONE, WALLS] {
        KINDS.into_iter().for_each(|kind| row.holds(kind));
    }
}

/// The same walls in millimetres: denominators up to 320,000, and numerators above 2³².
const FAR_WALLS: Row = Row {
    fixes: &FAR_CORNERS,
    silent: &[],
    asked: &[
        // 65,535 · 319,999 / 320,000
        (
            (4_294_901_760, u32::MAX),
            (159_999, 160_000),
            (-160_000, 160_000),
            Some((20_971_134_465, 320_000)),
        ),
        (
            (4_294_901_760, u32::MAX),
            (-160_000, 160_000),
            (-160_000, -159_999),
            Some((20_971_134_465, 320_000)),
        ),
        // 65,535 · 65,537 is 2³² − 1, the most that 32 bits hold, and a millimetre further it is more
        (
            (4_294_901_760, u32::MAX),
            (-94_463, -94_463),
            (-160_000, 160_000),
            Some((4_294_967_295, 320_000)),
        ),
        (
            (4_294_901_760, u32::MAX),
            (-94_462, -94_462),
            (-160_000, 160_000),
            Some((4_295_032_830, 320_000)),
        ),
        (
            (4_294_901_760, u32::MAX),
            (160_000, 160_000),
            (-160_000, -160_000),
            Some((65_535, 1)),
        ),
        (
            (4_294_901_760, u32::MAX - 1),
            (160_000, 160_000),
            (-160_000, -160_000),
            None,
        ),
        ((4_294_901_760, u32::MAX), (1, 160_000), (0, 160_000), None),
    ],
};

/// Down a slope and up again, with a way of 21,000 in y and another of 7,000 in x.
const FAR_SLOPES: Row = Row {
    fixes: &[(100, 0, 0), (107, 7_000, -21_000), (114, 14_000, 0)],
    silent: &[],
    asked: &[
        // a millimetre is 1/3000 of a second in y and 1/1000 in x
        ((100, 114), (3_000, 9_000), (-9_000, 5), Some((3, 1))),
        ((100, 114), (3_001, 9_000), (-9_000, 5), None),
        ((100, 114), (3_001, 14_000), (-9_000, 5), Some((11, 1))),
        (
            (100, 114),
            (3_001, 3_001),
            (-9_003, 5),
            Some((3_001, 1_000)),
        ),
        ((100, 114), (3_001, 3_001), (-9_002, 5), None),
        (
            (100, 114),
            (0, 14_000),
            (-10_001, -10_001),
            Some((10_001, 3_000)),
        ),
        (
            (104, 114),
            (0, 14_000),
            (-10_001, -10_001),
            Some((31_999, 3_000)),
        ),
    ],
};

#[test]
fn trails_in_millimetres() {
    FAR_WALLS.holds(MILLIMETRES);
    FAR_SLOPES.holds(MILLIMETRES);
}

/// The slopes with a silence on the second leg: between its ends the cart is nowhere.
const SILENT_SLOPE: Row = Row {
    silent: &[1],
    asked: &[
        // on the first leg as before, and at each end of the silence
        ((100, 114), (3, 5), (-11, -10), Some((10, 3))),
        ((100, 114), (7, 7), (-21, -21), Some((7, 1))),
        ((107, 107), (7, 7), (-21, -21), Some((7, 1))),
        ((108, 114), (0, 14), (-1, 0), Some((14, 1))),
        ((114, 114), (14, 14), (0, 0), Some((14, 1))),
        // where a straight leg would have it, and not its ends
        ((100, 114), (8, 13), (-10, -9), None),
        ((100, 114), (8, 14), (-18, -1), None),
        // a window strictly inside, and one that ends just before
        ((108, 113), (-16_000, 16_000), (-16_000, 16_000), None),
        ((110, 110), (10, 10), (-12, -12), None),
        (
            (108, 114),
            (-16_000, 16_000),
            (-16_000, 16_000),
            Some((14, 1)),
        ),
        (
            (107, 113),
            (-16_000, 16_000),
            (-16_000, 16_000),
            Some((7, 1)),
        ),
    ],
    ..SLOPES
};

/// Silent all the time, but for the fixes themselves, also where the cart stands.
const SILENT_STANDING: Row = Row {
    silent: &[0, 1, 2],
    asked: &[
        ((5, 20), (1, 1), (1, 1), Some((0, 1))),
        ((6, 20), (1, 1), (1, 1), Some((1, 1))),
        ((7, 20), (1, 1), (1, 1), None),
        ((5, 20), (2, 2), (1, 1), None),
        ((5, 20), (3, 3), (1, 1), Some((4, 1))),
        ((10, 20), (3, 3), (1, 1), Some((15, 1))),
        ((10, 19), (3, 3), (1, 1), None),
    ],
    ..STANDING
};

#[test]
fn silences_have_their_ends_and_nothing_between() {
    SILENT_SLOPE.holds(SILENCES);
    SILENT_STANDING.holds(SILENCES);
}

/// At an end of a silence the denominator is 1, also where both coordinates came a long way to it.
#[test]
fn an_end_of_a_silence_is_told_in_whole_seconds() {
    let fixes = by_hand(SLOPES.fixes, &[1]);
    for (end, edges) in [(7, ((7, 7), (-21, -21))), (14, ((14, 14), (0, 0)))] {
        let question = Question {
            window: Window {
                start: 101,
                end: 114,
            },
            area: Area::new(edges.0, edges.1),
        };
        let answer = crosses(&buffer_of(SILENCES, fixes.clone()), &question, "an end");
        let told = numbers(answer);
        assert_eq!(told, [0, 1, end * told[3], told[3]]);
        // the first end may also be told as the end of the leg before it
        assert!(end == 7 || told[3] == 1, "{told:?}");
    }
}

/// A numerator that needs more than 32 bits, as it is: 65,535 · 319,999.
#[test]
fn a_numerator_above_32_bits_is_told_whole() {
    let fixes = FAR_WALLS.fixes.iter().copied().map(Fix::from);
    let question = Question {
        window: Window {
            start: 4_294_901_760,
            end: u32::MAX,
        },
        area: Area::new((159_999, 160_000), (-160_000, 160_000)),
    };
    let answer = crosses(&buffer_of(MILLIMETRES, fixes), &question, "walls");
    assert_eq!(numbers(answer), [0, 1, 20_971_134_465, 320_000]);
}

// ---- moved in time

/// A window in seconds after the first fix, a box, and the answer by hand: refusal, yes, numerator and denominator.
type Moved = ((i32, i32), (i32, i32), (i32, i32), [u64; 4]);

const MOVED: [Moved; 7] = [
    // y comes to -10 when 10 of its 21 centimetres are gone, in 7 seconds
    ((0, 14), (3, 5), (-11, -10), [0, 1, 70, 21]),
    // 20 of the 21 on the second leg, which begins at 7
    ((8, 14), (0, 14), (-1, 0), [0, 1, 287, 21]),
    // the window opens, also where x and y come to the box just then
    ((8, 14), (0, 14), (-21, 0), [0, 1, 8, 1]),
    ((14, 14), (14, 14), (0, 0), [0, 1, 14, 1]),
    ((0, 14), (4, 6), (-9, 5), [0, 0, 0, 0]),
    // a second too early, and one too late
    ((-1, 14), (3, 5), (-11, -10), [13, 0, 0, 0]),
    ((0, 15), (3, 5), (-11, -10), [13, 0, 0, 0]),
];

/// The slopes from each of these seconds on are asked the same, where 32 bits hold the window.
#[test]
fn a_trail_and_its_window_moved_alike_have_the_same_answer() {
    KINDS.into_iter().for_each(is_answered_the_same);
}

fn is_answered_the_same(kind: Kind) {
    for (window, x, y, expected) in MOVED {
        let asked = firsts(14).into_iter().filter_map(|first| {
            let second = |after| first.checked_add_signed(after);
            let question = Question {
                window: Window {
                    start: second(window.0)?,
                    end: second(window.1)?,
                },
                area: Area::new(x, y),
            };
            let fix = |&(t, x, y): &(u32, i32, i32)| Fix::from((t - 100 + first, x, y));
            let bytes = buffer_of(kind, SLOPES.fixes.iter().map(fix));
            let name = format!("from {first}");
            Some(numbers(crosses(&bytes, &question, &name)))
        });
        let answers: Vec<[u64; 4]> = asked.collect();
        let many = if expected[0] == 0 { 4 } else { 3 };
        assert_eq!(answers, vec![expected; many], "{window:?}, {x:?}, {y:?}");
    }
}

// ---- by chance

/// How many answers were no, yes at the window's start, yes later at a whole second, and yes at a fraction, so that
/// none of these can be missing unseen.
#[derive(Default)]
struct Sorts([usize; 4]);

impl Sorts {
    fn count(&mut self, answer: &Crossing, trail: &Trail, window: Window, name: &str) {
        let which = if answer.crosses == 0 {
            0
        } else {
            let time = told(trail.kind, answer, name);
            let start = Time::whole(window.start).since(trail.fixes[0].t);
            match (time.order(&start).is_eq(), time.p % time.q) {
                (true, _) => 1,
                (false, 0) => 2,
                (false, _) => 3,
            }
        };
        self.0[which] += 1;
    }

    fn expect_all(&self) {
        let [no, start, whole, fraction] = self.0;
        println!("crossing: {no} no, {start} at the window's start, {whole} later at a second, {fraction} between");
        assert!(self.0.iter().all(|&many| many > 0));
    }
}

#[test]
fn trails_of_every_shape_are_answered_as_the_plain_version_does() {
    let mut sorts = Sorts::default();
    asked_of_every_shape(|trail, bytes, question: Question, name| {
        let answer = crosses(bytes, &question, name);
        assert_eq!(answer.refusal, 0, "{name}, {question:?}");
        sorts.count(&answer, trail, question.window, name);
    });
    sorts.expect_all();
}

#[test]
fn the_longest_trails_are_answered_as_the_plain_version_does() {
    for kind in KINDS {
        let mut sorts = Sorts::default();
        asked_of_the_longest(kind, 100, |trail, bytes, question: Question, name| {
            let answer = crosses(bytes, &question, name);
            sorts.count(&answer, trail, question.window, name);
        });
        sorts.expect_all();
    }
}

/// All boxes of a small grid, and all windows, on small trails: every way to touch is among them.
#[test]
fn every_small_box_and_window() {
    let ranges = |from: i32, to: i32| (from..=to).flat_map(move |a| (a..=to).map(move |b| (a, b)));
    for bytes in small_records(200) {
        for x in ranges(-2, 2) {
            for y in ranges(-2, 2) {
                for (start, end) in ranges(0, 3) {
                    let (start, end) = (start as u32, end as u32);
                    let window = Window { start, end };
                    let area = Area::new(x, y);
                    crosses(&bytes, &Question { window, area }, "small");
                }
            }
        }
    }
}

// ---- refused

#[test]
fn each_refusal_is_given_in_order() {
    let mut tally = Tally::default();
    let faults: [&[u8]; 4] = [&[], &[14], &[13], &[14, 13]];
    refused_in_order(&faults, &mut tally, |record, question, name| {
        crosses(record, question, name).refusal
    });
    tally.expect("crossing", &[1, 2, 3, 4, 5, 6, 7, 8, 9, 20, 13, 14]);
}
