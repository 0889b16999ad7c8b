//! The radius question: yes with the first leg that comes near and the earliest time of closest approach on it, no with
//! nothing, trails moved in time and mirrored, and each refusal.
#![forbid(unsafe_code)]

use trails_tests::cases::{buffer_of, by_hand, firsts, small_records, Tally, CORNERS, FAR_CORNERS};
use trails_tests::interface::numbers_near;
use trails_tests::plain::approach::Circle;
use trails_tests::plain::kinds::{Kind, KINDS, MILLIMETRES, SILENCES};
use trails_tests::plain::{Fix, Trail};
use trails_tests::questions::{asked_of_every_shape, asked_of_the_longest, near, refused_in_order};

// ---- by hand

/// A trail, after which of its fixes a silence is, and its questions.
struct Row {
    fixes: &'static [(u32, i32, i32)],
    silent: &'static [usize],
    asked: &'static [Asked],
}

/// A point, a radius, and of a yes the leg, and numerator and denominator in the header's form.
type Asked = ((i32, i32), u32, Option<(u64, u64, u64)>);

/// All numbers of an answer.
fn numbers(told: Option<(u64, u64, u64)>) -> [u64; 5] {
    told.map_or([0; 5], |(leg, p, q)| [0, 1, leg, p, q])
}

fn circle((x, y): (i32, i32), radius: u32) -> Circle {
    Circle { x, y, radius }
}

impl Row {
    fn holds(&self, kind: Kind) {
        let bytes = buffer_of(kind, by_hand(self.fixes, self.silent));
        for &(point, radius, told) in self.asked {
            let asked = circle(point, radius);
            let name = format!("{kind}, {:?}, {:?}", self.fixes, self.silent);
            let answer = numbers_near(near(&bytes, &asked, &name));
            assert_eq!(answer, numbers(told), "{name}, {asked:?}");
        }
    }
}

/// Along x, and at a right angle on.
const TURN: Row = Row {
    fixes: &[(5, 0, 0), (15, 100, 0), (35, 100, 50)],
    silent: &[],
    asked: &[
        // beside the first leg, after 40 of its 100 centimetres; at most 30 counts, and 29 doesn't
        ((40, 30), 30, Some((0, 40_000, 10_000))),
        ((40, 30), 29, None),
        // the cart is that near from second 0 on already, and closest at 4
        ((40, 30), 50, Some((0, 40_000, 10_000))),
        // 50 from the first leg's end and 30 from the second leg: the first leg, as soon as it is near enough
        ((130, 40), 50, Some((0, 10, 1))),
        ((130, 40), 49, Some((1, 65_000, 2_500))),
        ((130, 40), 30, Some((1, 65_000, 2_500))),
        ((130, 40), 29, None),
        // before the first leg's start, and behind the second one's end
        ((-3, -4), 5, Some((0, 0, 1))),
        ((-3, -4), 4, None),
        ((103, 54), 5, Some((1, 30, 1))),
        ((103, 54), 4, None),
        // on the line through a leg and not on the leg
        ((200, 0), 100, Some((0, 10, 1))),
        ((200, 0), 99, None),
        // on the trail, also where both legs are
        ((0, 0), 0, Some((0, 0, 1))),
        ((50, 0), 0, Some((0, 50_000, 10_000))),
        ((100, 0), 0, Some((0, 10, 1))),
        ((100, 25), 0, Some((1, 50_000, 2_500))),
        ((100, 50), 0, Some((1, 30, 1))),
        ((50, 1), 0, None),
        ((40, 30), 32_000, Some((0, 40_000, 10_000))),
    ],
};

/// Closest after 4 of 10 parts of a way of 7 seconds, at 2.8; and beside the leg by the root of 0.4.
const SLANT: Row = Row {
    fixes: &[(0, 0, 0), (7, 3, 1)],
    silent: &[],
    asked: &[
        ((1, 1), 1, Some((0, 28, 10))),
        ((1, 1), 0, None),
        // straight beside the start and the end
        ((-1, 3), 4, Some((0, 0, 1))),
        ((-1, 3), 3, None),
        ((2, 4), 4, Some((0, 7, 1))),
        ((2, 4), 3, None),
    ],
};

/// A cart that stands, and goes.
const STANDING: Row = Row {
    fixes: &[(5, 7, 7), (9, 7, 7), (12, 10, 11)],
    silent: &[],
    asked: &[
        ((7, 7), 0, Some((0, 0, 1))),
        ((10, 8), 4, Some((0, 0, 1))),
        // the root of 10 from where it stands, and 9/5 from the second leg
        ((10, 8), 3, Some((1, 139, 25))),
        ((10, 8), 2, Some((1, 139, 25))),
        ((10, 8), 1, None),
    ],
};

const LONE: Row = Row {
    fixes: &[(u32::MAX, -16_000, 16_000)],
    silent: &[],
    asked: &[
        ((-16_000, 16_000), 0, Some((0, 0, 1))),
        ((-15_997, 15_996), 5, Some((0, 0, 1))),
        ((-15_997, 15_996), 4, None),
        ((0, 16_000), 16_000, Some((0, 0, 1))),
        ((0, 16_000), 15_999, None),
        ((16_000, -16_000), 32_000, None),
    ],
};

/// The largest numbers of every kind: the longest span at the end of the clock, from corner to corner.
const WALLS: Row = Row {
    fixes: &CORNERS,
    silent: &[],
    asked: &[
        // 65,535 times half of 2,048,000,000
        ((0, 0), 0, Some((0, 67_107_840_000_000, 2_048_000_000))),
        ((16_000, -16_000), 0, Some((0, 65_535, 1))),
        // 22,627.4 from the way's middle
        (
            (16_000, 16_000),
            22_628,
            Some((0, 67_107_840_000_000, 2_048_000_000)),
        ),
        ((16_000, 16_000), 22_627, None),
        ((-16_000, -16_000), 22_627, None),
        // a centimetre before the end: 65,535 · 2,047,968,000
        (
            (16_000, -15_999),
            1,
            Some((0, 134_213_582_880_000, 2_048_000_000)),
        ),
    ],
};

/// What is asked in centimetres can be asked in millimetres too, and of a trail that could have silences.
#[test]
fn trails_worked_by_hand() {
    for row in [TURN, SLANT, STANDING, LONE, WALLS] {
        KINDS.into_iter().for_each(|kind| row.holds(kind));
    }
}

/// The same walls in millimetres: products that 64 bits don't hold, and a denominator above 32 bits.
const FAR_WALLS: Row = Row {
    fixes: &FAR_CORNERS,
    silent: &[],
    asked: &[
        ((0, 0), 0, Some((0, 6_710_784_000_000_000, 204_800_000_000))),
        // 226,274.2 from the way's middle
        (
            (160_000, 160_000),
            226_275,
            Some((0, 6_710_784_000_000_000, 204_800_000_000)),
        ),
        ((160_000, 160_000), 226_274, None),
        (
            (-160_000, -160_000),
            320_000,
            Some((0, 6_710_784_000_000_000, 204_800_000_000)),
        ),
        // a millimetre before the end: 65,535 · 204,799,680,000
        (
            (160_000, -159_999),
            1,
            Some((0, 13_421_547_028_800_000, 204_800_000_000)),
        ),
    ],
};

#[test]
fn trails_in_millimetres() {
    FAR_WALLS.holds(MILLIMETRES);
}

/// The first leg is silent: of it only (0, 0) and (100, 0) count, the nearer one, and of equals the earlier.
const SILENT_START: Row = Row {
    silent: &[0],
    asked: &[
        ((40, 30), 50, Some((0, 0, 1))),
        ((40, 30), 49, None),
        ((60, 30), 50, Some((0, 10, 1))),
        ((60, 30), 49, Some((1, 55_000, 2_500))),
        ((60, 30), 39, None),
        // both ends within the radius, and the nearer one told, also if it is the later
        ((60, 30), 70, Some((0, 10, 1))),
        ((50, 0), 50, Some((0, 0, 1))),
        ((50, 7), 60, Some((0, 0, 1))),
        ((50, 0), 49, None),
        // the leg after the silence is as it was
        ((130, 40), 30, Some((1, 65_000, 2_500))),
    ],
    ..TURN
};

/// The second leg is silent, and its end counts for it; its start is the first leg's too.
const SILENT_END: Row = Row {
    silent: &[1],
    asked: &[
        ((40, 30), 30, Some((0, 40_000, 10_000))),
        ((130, 40), 30, None),
        // 31.6 from the end
        ((130, 40), 31, None),
        ((130, 40), 32, Some((1, 30, 1))),
        ((130, 40), 50, Some((0, 10, 1))),
        ((100, 25), 24, None),
        ((100, 25), 25, Some((0, 10, 1))),
        ((100, 26), 25, Some((1, 30, 1))),
    ],
    ..TURN
};

/// Silent all the time, also where the cart stands.
const SILENT_STANDING: Row = Row {
    silent: &[0, 1],
    asked: &[
        ((7, 7), 0, Some((0, 0, 1))),
        ((10, 8), 4, Some((0, 0, 1))),
        ((10, 8), 3, Some((1, 7, 1))),
        ((10, 8), 2, None),
    ],
    ..STANDING
};

#[test]
fn silences_have_their_ends_and_nothing_between() {
    for row in [SILENT_START, SILENT_END, SILENT_STANDING] {
        row.holds(SILENCES);
    }
}

/// Limits met, and passed by one.
#[test]
fn points_and_radii_have_the_limits_of_the_record() {
    for kind in KINDS {
        let bytes = buffer_of(kind, [Fix::from((7, 0, 0))]);
        let (most, greatest) = (kind.limit, kind.radius);
        let refusal = |x, y, radius| near(&bytes, &circle((x, y), radius), "limits").refusal;
        for side in [-1, 1] {
            assert_eq!(refusal(side * most, 0, 0), 0, "{kind}");
            assert_eq!(refusal(0, side * most, 0), 0, "{kind}");
            assert_eq!(refusal(side * (most + 1), 0, 0), 16, "{kind}");
            assert_eq!(refusal(0, side * (most + 1), 0), 16, "{kind}");
        }
        assert_eq!(refusal(most, -most, greatest), 0, "{kind}");
        assert_eq!(refusal(0, 0, greatest + 1), 16, "{kind}");
        assert_eq!(refusal(i32::MIN, i32::MAX, u32::MAX), 16, "{kind}");
    }
}

// ---- moved in time, and mirrored

#[test]
fn a_trail_that_is_moved_has_the_same_answer() {
    for (kind, first) in KINDS
        .into_iter()
        .flat_map(|kind| firsts(30).map(|first| (kind, first)))
    {
        let fix = |&(t, x, y): &(u32, i32, i32)| Fix::from((t - 5 + first, x, y));
        let bytes = buffer_of(kind, TURN.fixes.iter().map(fix));
        for &(point, radius, told) in TURN.asked {
            let answer = near(&bytes, &circle(point, radius), &format!("from {first}"));
            assert_eq!(numbers_near(answer), numbers(told), "from {first}");
        }
    }
}

/// What makes of a trail and a point their images: left and right, up and down, and the two axes exchanged.
const IMAGES: [Image; 3] = [|x, y| (-x, y), |x, y| (x, -y), |x, y| (y, x)];

type Image = fn(i32, i32) -> (i32, i32);

#[test]
fn mirrored_trails_have_the_same_answer() {
    asked_of_every_shape(|trail, bytes, circle: Circle, name| {
        let answer = numbers_near(near(bytes, &circle, name));
        for image in IMAGES {
            let mirror = |fix: &Fix| {
                let (x, y) = image(fix.x, fix.y);
                Fix { x, y, ..*fix }
            };
            let (x, y) = image(circle.x, circle.y);
            let mirrored = buffer_of(trail.kind, trail.fixes.iter().map(mirror));
            let other = near(&mirrored, &Circle { x, y, ..circle }, name);
            assert_eq!(numbers_near(other), answer, "{name}, {circle:?}");
        }
    });
}

// ---- by chance

/// The time of closest approach on a leg as the header has it.
fn in_form(fixes: &[Fix], leg: usize, circle: &Circle) -> [u64; 2] {
    let (from, to) = (fixes[leg], fixes[(leg + 1).min(fixes.len() - 1)]);
    let [x1, y1, x2, y2, x, y] = [from.x, from.y, to.x, to.y, circle.x, circle.y].map(i64::from);
    let [t0, t1, t2] = [fixes[0].t, from.t, to.t].map(i64::from);
    let (dx, dy) = (x2 - x1, y2 - y1);
    let s = (x - x1) * dx + (y - y1) * dy;
    let length = dx * dx + dy * dy;
    let square = |x1: i64, y1: i64| (x - x1).pow(2) + (y - y1).pow(2);
    let form = match from.is_before_silence() {
        true if square(x1, y1) <= square(x2, y2) => [t1 - t0, 1],
        true => [t2 - t0, 1],
        false if s <= 0 => [t1 - t0, 1],
        false if s >= length => [t2 - t0, 1],
        false => [length * (t1 - t0) + s * (t2 - t1), length],
    };
    form.map(|n| n as u64)
}

/// How many answers were no, at a leg's end, and between its ends, so that none of these can be missing unseen.
#[derive(Default)]
struct Sorts([usize; 3]);

impl Sorts {
    /// Holds the form of a yes to the header's, and counts it.
    fn ask(&mut self, trail: &Trail, bytes: &[u8], circle: &Circle, name: &str) {
        let [refusal, yes, leg, form @ ..] = numbers_near(near(bytes, circle, name));
        assert_eq!(refusal, 0, "{name}, {circle:?}");
        let sort = match (yes, form[1]) {
            (0, _) => 0,
            (_, 1) => 1,
            _ => 2,
        };
        self.0[sort] += 1;
        if yes == 1 {
            let expected = in_form(&trail.fixes, leg as usize, circle);
            assert_eq!(form, expected, "{name}, {circle:?}, leg {leg}");
        }
    }

    fn expect_all(&self) {
        let [no, end, between] = self.0;
        println!("approach: {no} no, {end} at a leg's end, {between} between its ends");
        assert!(self.0.iter().all(|&many| many > 0));
    }
}

#[test]
fn trails_of_every_shape_are_answered_as_the_plain_version_does() {
    let mut sorts = Sorts::default();
    asked_of_every_shape(|trail, bytes, circle: Circle, name| {
        sorts.ask(trail, bytes, &circle, name);
    });
    sorts.expect_all();
}

#[test]
fn the_longest_trails_are_answered_as_the_plain_version_does() {
    for kind in KINDS {
        let mut sorts = Sorts::default();
        asked_of_the_longest(kind, 50, |trail, bytes, circle: Circle, name| {
            sorts.ask(trail, bytes, &circle, name);
        });
        sorts.expect_all();
    }
}

/// All points of a small grid, and all radii that matter on it, on small trails: every way to be as near is among them.
#[test]
fn every_small_point_and_radius() {
    for bytes in small_records(10) {
        for point in (-3..=3).flat_map(|x| (-3..=3).map(move |y| (x, y))) {
            for radius in 0..=5 {
                near(&bytes, &circle(point, radius), "small");
            }
        }
    }
}

// ---- refused

#[test]
fn each_refusal_is_given_in_order() {
    let mut tally = Tally::default();
    let faults: [&[u8]; 2] = [&[], &[16]];
    refused_in_order(&faults, &mut tally, |record, circle, name| {
        near(record, circle, name).refusal
    });
    tally.expect("approach", &[1, 2, 3, 4, 5, 6, 7, 8, 9, 20, 16]);
}
