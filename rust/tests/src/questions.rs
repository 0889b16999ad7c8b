//! Questions to try about a trail, good and bad, and the proved answers held to the plain version's.

use crate::cases::{buffer, fixes, kind_of, Cases, Random, Settings, Tally};
use crate::expected;
use crate::interface::{self, Approach, Crossing};
use crate::plain::approach::{self, legs, Circle};
use crate::plain::crossing::{self, Area, Question, Window};
use crate::plain::kinds::{Kind, CENTIMETRES, KINDS};
use crate::plain::place::{is_silent, Time};
use crate::plain::{self, Fix, Trail, MOST_FIXES};
use crate::shapes::{trail, SHAPES};
use crate::told::{Approached, Crossed, Told};

fn ends(fixes: &[Fix]) -> (u32, u32) {
    (fixes[0].t, fixes[fixes.len() - 1].t)
}

/// A second from the first fix to the last: a fix's own, next to it, or any.
fn second(fixes: &[Fix], random: &mut Random) -> u32 {
    let (first, last) = ends(fixes);
    let any = random.between(first.into(), last.into()) as u32;
    let fix = random.pick(fixes).t;
    let before = fix.saturating_sub(1).max(first);
    let after = fix.saturating_add(1).min(last);
    random.pick(&[any, any, fix, fix, before, after, first, last])
}

/// The two ends of each silence.
fn silences(fixes: &[Fix]) -> Vec<(Fix, Fix)> {
    let legs = fixes.windows(2).filter(|leg| leg[0].is_before_silence());
    legs.map(|leg| (leg[0], leg[1])).collect()
}

// ---- any question

/// A question that can be asked of a trail.
pub trait Asked: Sized + std::fmt::Debug {
    /// One that no check turns away.
    fn good(trail: &Trail, random: &mut Random) -> Self;

    /// Makes the sentence of this check true.
    fn spoil(&mut self, fault: u8, trail: &Trail, random: &mut Random);

    /// Whether a question about this trail can have this fault.
    fn can_have(_fault: u8, _trail: &Trail) -> bool {
        true
    }

    /// A question with those of these faults about the record that it can have. Of one that is turned away, any
    /// question will do.
    fn spoiled(record: &[u8], faults: &[u8], random: &mut Random) -> Spoiled<Self> {
        let kind = kind_of(record, CENTIMETRES);
        let trail = plain::read(record)
            .unwrap_or_else(|_| Trail::never_thinned(kind, fixes(kind, random, 2)));
        let faults = faults.iter().copied();
        let faults: Vec<u8> = faults
            .filter(|&fault| Self::can_have(fault, &trail))
            .collect();
        let mut question = Self::good(&trail, random);
        for &fault in &faults {
            question.spoil(fault, &trail, random);
        }
        Spoiled { question, faults }
    }
}

/// A question, and the faults that it has.
pub struct Spoiled<Q> {
    pub question: Q,
    pub faults: Vec<u8>,
}

/// Asks every case questions with each of these sets of faults: a record's own refusal comes before the question's, and
/// of the question's faults the least number. `ask` gives the number that it was answered.
pub fn refused_in_order<Q: Asked>(
    faults: &[&[u8]],
    tally: &mut Tally,
    ask: impl Fn(&[u8], &Q, &str) -> u32,
) {
    let settings = Settings::get();
    let mut random = Random::new(settings.seed);
    for case in Cases::all(settings) {
        for some in faults {
            let Spoiled { question, faults } = Q::spoiled(&case.bytes, some, &mut random);
            let name = format!("{}, faults {faults:?}", case.name);
            let refusal = ask(&case.bytes, &question, &name);
            if let Some(known) = case.known {
                let fault = faults.iter().copied().min().unwrap_or(0);
                let known = if known == 0 { fault } else { known };
                assert_eq!(refusal, known.into(), "{name}, {question:?}");
            }
            tally.count(case.kind(), refusal);
        }
    }
}

/// Asks trails of every kind and shape, most of them short, ten good questions each.
pub fn asked_of_every_shape<Q: Asked>(mut ask: impl FnMut(&Trail, &[u8], Q, &str)) {
    let settings = Settings::get();
    let mut random = Random::new(settings.seed);
    for k in 0..settings.cases {
        let shape = SHAPES[k % SHAPES.len()];
        let kind = random.pick(&KINDS);
        let n = random.between(1, if k.is_multiple_of(20) { 400 } else { 12 });
        let trail = trail(kind, shape, n as usize, &mut random);
        let bytes = buffer(&trail);
        let name = format!("seed {}: {kind}, {shape:?}, {n} fixes", settings.seed);
        for _ in 0..10 {
            ask(&trail, &bytes, Q::good(&trail, &mut random), &name);
        }
    }
}

/// Asks trails of this kind and of every shape, as long as a record can be, so many good questions each.
pub fn asked_of_the_longest<Q: Asked>(
    kind: Kind,
    many: usize,
    mut ask: impl FnMut(&Trail, &[u8], Q, &str),
) {
    let mut random = Random::new(Settings::get().seed);
    for shape in SHAPES {
        let trail = trail(kind, shape, MOST_FIXES, &mut random);
        let bytes = buffer(&trail);
        let name = format!("{kind}, {shape:?}, the longest");
        for _ in 0..many {
            ask(&trail, &bytes, Q::good(&trail, &mut random), &name);
        }
    }
}

/// Asks about a record, whose bytes must then be what they were.
fn asked_of<T>(record: &[u8], name: &str, ask: impl FnOnce(&[u8]) -> T) -> T {
    let before = record.to_vec();
    let answer = ask(record);
    assert!(record == before, "{name}: other bytes");
    answer
}

/// Holds an answer to what the plain version found: a refusal and a no carry nothing, and a yes tells the same, its time
/// in any form with a denominator that the kind lets it have.
pub fn agrees<Y>(answer: &Told<Y>, expected: Result<Option<Y>, u8>, name: &str)
where
    Y: PartialEq + std::fmt::Debug,
{
    assert_eq!(*answer, expected.into(), "{name}");
}

// ---- the place question

/// A second and its thousandths.
#[derive(Clone, Copy, Debug, PartialEq, Eq)]
pub struct Moment {
    pub second: u32,
    pub thousandths: u16,
}

impl Moment {
    fn time(self) -> Time {
        Time {
            p: 1_000 * i128::from(self.second) + i128::from(self.thousandths),
            q: 1_000,
        }
    }
}

impl Asked for Moment {
    /// From the first fix to the last, and at an end of a silence rather than inside.
    fn good(trail: &Trail, random: &mut Random) -> Moment {
        let second = second(&trail.fixes, random);
        let any = random.between(0, 999) as u16;
        let thousandths = random.pick(&[0, 0, 1, 499, 500, 501, 999, any, any]);
        let moment = Moment {
            second,
            // no thousandth is left after the last second
            thousandths: if second == ends(&trail.fixes).1 {
                0
            } else {
                thousandths
            },
        };
        if !is_silent(&trail.fixes, moment.time()) {
            return moment;
        }
        let (from, to) = random.pick(&silences(&trail.fixes));
        Moment {
            second: random.pick(&[from.t, to.t]),
            thousandths: 0,
        }
    }

    /// Check 21 needs a silence.
    fn can_have(fault: u8, trail: &Trail) -> bool {
        fault != 21 || !silences(&trail.fixes).is_empty()
    }

    /// Makes the sentence of check 12 or 21 true and not that of 11, or that of 11 true.
    fn spoil(&mut self, fault: u8, trail: &Trail, random: &mut Random) {
        let (first, last) = ends(&trail.fixes);
        match fault {
            11 => {
                // thousandths that would be good in 8 or 10 bits are among them
                let high = random.between(1_000, 65_535) as u16;
                self.thousandths = random.pick(&[1_000, 1_024, 65_280, 65_535, high]);
            }
            12 => {
                let moment = |second, thousandths| Moment {
                    second,
                    thousandths,
                };
                let before = first.checked_sub(1);
                let after = last.checked_add(1);
                let outside = [
                    before.map(|t| moment(t, 999)),
                    before.map(|t| moment(t, 0)),
                    before.map(|_| moment(0, 0)),
                    after.map(|t| moment(t, 0)),
                    after.map(|_| moment(u32::MAX, 999)),
                    Some(moment(last, 1)),
                    Some(moment(last, 999)),
                ];
                let outside: Vec<Moment> = outside.into_iter().flatten().collect();
                *self = random.pick(&outside);
            }
            21 => {
                // next to an end as often as anywhere
                let (from, to) = random.pick(&silences(&trail.fixes));
                let (first, last) = (1_000 * i64::from(from.t) + 1, 1_000 * i64::from(to.t) - 1);
                let any = random.between(first, last);
                let moment = random.pick(&[first, last, any, any]);
                self.second = (moment / 1_000) as u32;
                self.thousandths = (moment % 1_000) as u16;
            }
            other => panic!("no fault of a moment has the number {other}"),
        }
    }
}

/// Asks for the place, and holds the answer to the plain version's, and the bytes to what they were.
pub fn place(record: &[u8], moment: Moment, name: &str) -> interface::Place {
    let Moment {
        second,
        thousandths,
    } = moment;
    let name = format!("{name}, {moment:?}");
    let ask = |record: &[u8]| interface::place(record, second, thousandths);
    let answer = asked_of(record, &name, ask);
    let expected = expected::place(record, second, thousandths);
    assert_eq!(answer, expected, "{name}");
    answer
}

// ---- the crossing question

impl Window {
    fn good(fixes: &[Fix], random: &mut Random) -> Window {
        let (first, last) = ends(fixes);
        let (one, other) = (second(fixes, random), second(fixes, random));
        let about = Window::about_a_silence(fixes, random).unwrap_or((first, one));
        let (start, end) = random.pick(&[
            (first, last),
            (one.min(other), one.max(other)),
            (one, one),
            (one, one.saturating_add(1).min(last)),
            (one, last),
            about,
        ]);
        Window { start, end }
    }

    /// Inside a silence, or with one of its ends or both, if there is one that has a second inside.
    fn about_a_silence(fixes: &[Fix], random: &mut Random) -> Option<(u32, u32)> {
        let mut all = silences(fixes);
        all.retain(|(from, to)| to.t - from.t >= 2);
        let (from, to) = (!all.is_empty()).then(|| random.pick(&all))?;
        let start = random.pick(&[from.t, from.t + 1]);
        Some((start, random.pick(&[to.t, to.t - 1])))
    }

    fn bad(fixes: &[Fix], random: &mut Random) -> Window {
        let (first, last) = ends(fixes);
        let before = first.checked_sub(1);
        let after = last.checked_add(1);
        let all = [
            before.map(|t| (t, last)),
            before.map(|t| (t, t)),
            before.map(|t| (first, t)),
            before.map(|_| (0, last)),
            after.map(|t| (first, t)),
            after.map(|t| (t, t)),
            after.map(|t| (t, last)),
            after.map(|_| (first, u32::MAX)),
            (first < last).then_some((last, first)),
            (first < last).then(|| (first + 1, first)),
        ];
        let all: Vec<(u32, u32)> = all.into_iter().flatten().collect();
        let (start, end) = random.pick(&all);
        Window { start, end }
    }
}

/// An edge: a place of the trail, one off or some, a wall, or any.
fn edge(kind: Kind, places: &[i32], random: &mut Random) -> i32 {
    let limit = kind.limit;
    let place = random.pick(places);
    let off = random.between(-1, 1) as i32;
    let far = i32::from(kind.times) * random.between(-600, 600) as i32;
    let wall = random.pick(&[-limit, limit]);
    let any = random.between((-limit).into(), limit.into()) as i32;
    let edge = random.pick(&[place, place, place + off, place + far, wall, any]);
    edge.clamp(-limit, limit)
}

/// A low edge and a high one, which in one of four are the same.
fn edges(kind: Kind, places: &[i32], random: &mut Random) -> (i32, i32) {
    let one = edge(kind, places, random);
    let other = match random.between(0, 3) {
        0 => one,
        _ => edge(kind, places, random),
    };
    (one.min(other), one.max(other))
}

impl Area {
    pub fn new(x: (i32, i32), y: (i32, i32)) -> Area {
        Area {
            left: x.0,
            right: x.1,
            bottom: y.0,
            top: y.1,
        }
    }

    /// A box with its edges at or about the trail's places, so that many are touched or hardly missed; or where a
    /// straight line across a silence would have the cart.
    fn good(trail: &Trail, random: &mut Random) -> Area {
        let Trail { kind, fixes, .. } = trail;
        let silences = silences(fixes);
        if !silences.is_empty() && random.one_in(4) {
            let (from, to) = random.pick(&silences);
            let off = random.between(0, 2) as i32;
            let middle = |from: i32, to: i32| {
                let middle = (from + to) / 2;
                (
                    (middle - off).max(-kind.limit),
                    (middle + off).min(kind.limit),
                )
            };
            return Area::new(middle(from.x, to.x), middle(from.y, to.y));
        }
        // a few neighbours, so that small boxes are near the trail on both axes
        let at = random.between(0, fixes.len() as i64 - 1) as usize;
        let some = &fixes[at..fixes.len().min(at + 3)];
        let x: Vec<i32> = some.iter().map(|fix| fix.x).collect();
        let y: Vec<i32> = some.iter().map(|fix| fix.y).collect();
        Area::new(edges(*kind, &x, random), edges(*kind, &y, random))
    }

    fn spoil(&mut self, kind: Kind, random: &mut Random) {
        let limit = kind.limit;
        // multiples of 65,536 would be good if they were cut to 16 bits
        let below = random.pick(&[-limit - 1, -(16 << 16), -3 * limit, i32::MIN]);
        let above = random.pick(&[limit + 1, 16 << 16, 3 * limit, i32::MAX]);
        // so that one less is an edge too
        let (right, top) = (self.right.max(1 - limit), self.top.max(1 - limit));
        match random.between(0, 9) {
            0 => self.left = below,
            1 => self.right = above,
            2 => self.bottom = below,
            3 => self.top = above,
            4 => (self.left, self.right) = (above, above),
            5 => (self.left, self.right) = (below, below),
            6 => (self.bottom, self.top) = (above, above),
            7 => (self.bottom, self.top) = (below, below),
            8 => (self.left, self.right) = (right, right - 1),
            _ => (self.bottom, self.top) = (top, top - 1),
        }
    }
}

impl Asked for Question {
    fn good(trail: &Trail, random: &mut Random) -> Question {
        Question {
            window: Window::good(&trail.fixes, random),
            area: Area::good(trail, random),
        }
    }

    /// Makes the sentence of check 13 or 14 true, and leaves the other's as it is.
    fn spoil(&mut self, fault: u8, trail: &Trail, random: &mut Random) {
        match fault {
            13 => self.window = Window::bad(&trail.fixes, random),
            14 => self.area.spoil(trail.kind, random),
            other => panic!("no fault of a crossing has the number {other}"),
        }
    }
}

/// The time of a yes, in seconds after the first fix.
pub fn told(kind: Kind, answer: &Crossing, name: &str) -> Time {
    let yes = Crossed::of(kind, *answer).yes();
    yes.unwrap_or_else(|| panic!("{name}: {answer:?}"))
}

/// Asks for the crossing, and holds the answer to the plain version's, and the bytes to what they were.
pub fn crosses(record: &[u8], question: &Question, name: &str) -> Crossing {
    let name = format!("{name}, {question:?}");
    let answer = asked_of(record, &name, |record| interface::crosses(record, question));
    let expected = crossing::crosses(record, question);
    let told = Crossed::of(kind_of(record, CENTIMETRES), answer);
    agrees(&told, expected, &name);
    answer
}

// ---- the radius question

/// A leg of the trail, half of the time the first: only there a yes can be told by the leg's start, which else is the
/// end of the leg before.
fn some_leg(fixes: &[Fix], random: &mut Random) -> (Fix, Fix) {
    let all: Vec<(Fix, Fix)> = legs(fixes).collect();
    let any = random.pick(&all);
    random.pick(&[all[0], any])
}

/// So far from a place along both axes that it is a whole number from it.
fn whole_way_off(random: &mut Random) -> (i32, i32) {
    let (a, b) = random.pick(&[(3, 4), (4, 3), (5, 12), (15, 8), (0, 1), (1, 0)]);
    let any = random.between(1, 999);
    let times = random.pick(&[1, 1, 10, any]);
    let mut side = |n: i64| (n * random.pick(&[-times, times])) as i32;
    (side(a), side(b))
}

impl Circle {
    /// A point at or about the trail's places: on a leg, as far from both its ends, a whole number from one of them, a
    /// little off, at the walls, or anywhere.
    fn about(trail: &Trail, random: &mut Random) -> (i32, i32) {
        let Trail { kind, fixes, .. } = trail;
        let (i, j) = some_leg(fixes, random);
        let end = random.pick(&[i, j]);
        let (dx, dy) = (j.x - i.x, j.y - i.y);
        let (across, along) = whole_way_off(random);
        let mut little = || random.between(-3, 3) as i32;
        let (off_x, off_y, side) = (little(), little(), little());
        match random.between(0, 9) {
            0 => (end.x, end.y),
            1 | 2 => (i.x + dx / 2, i.y + dy / 2),
            3 => (i.x + dx / 2 - side * dy, i.y + dy / 2 + side * dx),
            4 | 5 => (end.x + across, end.y + along),
            6 => (end.x + off_x, end.y + off_y),
            7 => (edge(*kind, &[-kind.limit, kind.limit], random), end.y),
            8 => (end.x, edge(*kind, &[-kind.limit, kind.limit], random)),
            _ => (
                edge(*kind, &[i.x, j.x], random),
                edge(*kind, &[i.y, j.y], random),
            ),
        }
    }

    /// The least whole radius within which the trail comes.
    fn reached_by(&self, fixes: &[Fix]) -> u32 {
        let reaches = legs(fixes).map(|leg| self.reach(&self.closest(leg).place));
        reaches.min().expect("a trail has a leg")
    }
}

impl Asked for Circle {
    /// With a radius that just reaches the trail, or one less or more; that reaches a leg; 0; the greatest; or any.
    fn good(trail: &Trail, random: &mut Random) -> Circle {
        let Trail { kind, fixes, .. } = trail;
        let (x, y) = Circle::about(trail, random);
        let inside = |c: i32| c.clamp(-kind.limit, kind.limit);
        let point = Circle {
            x: inside(x),
            y: inside(y),
            radius: 0,
        };
        let least = point.reached_by(fixes);
        let leg = point.reach(&point.closest(some_leg(fixes, random)).place);
        let (any, low) = (random.between(0, kind.radius.into()), random.between(0, 60));
        let radius = random.pick(&[
            least,
            least,
            least.saturating_sub(1),
            least.saturating_sub(1),
            least + 1,
            leg,
            leg,
            0,
            kind.radius,
            low as u32,
            any as u32,
        ]);
        Circle {
            radius: radius.min(kind.radius),
            ..point
        }
    }

    /// Makes the sentence of check 16 true.
    fn spoil(&mut self, fault: u8, trail: &Trail, random: &mut Random) {
        assert_eq!(fault, 16, "no other fault of a circle has a number");
        let Kind { limit, radius, .. } = trail.kind;
        // multiples of 65,536 would be good if they were cut to 16 bits
        let below = random.pick(&[-limit - 1, -limit - 1, -(16 << 16), -3 * limit, i32::MIN]);
        let above = random.pick(&[limit + 1, limit + 1, 16 << 16, 3 * limit, i32::MAX]);
        match random.between(0, 5) {
            0 => self.x = below,
            1 => self.x = above,
            2 => self.y = below,
            3 => self.y = above,
            _ => self.radius = random.pick(&[radius + 1, radius + 1, 16 << 16, u32::MAX]),
        }
    }
}

/// Asks whether the cart came near, and holds the answer to the plain version's, and the bytes to what they were.
pub fn near(record: &[u8], circle: &Circle, name: &str) -> Approach {
    let name = format!("{name}, {circle:?}");
    let answer = asked_of(record, &name, |record| interface::near(record, circle));
    let expected = approach::near(record, circle);
    let told = Approached::of(kind_of(record, CENTIMETRES), answer);
    agrees(&told, expected, &name);
    answer
}
