//! Places, crossings and approaches per second, and readings of anchors. They stand alone: the tests' plain versions are written to be seen
//! right, in numbers of 128 bits and with every meeting tried, so beside them the proved ones would only look quick.
//!
//! Each question checks the whole record first, as document 01 asks, so a long trail costs more wherever the answer is. A
//! reading has no record.

use std::hint::black_box;

use trails::in_threes;
use trails_tests::cases::Random;
use trails_tests::interface::{self, AnchorState};
use trails_tests::plain::anchors::Reading;
use trails_tests::plain::approach::Circle;
use trails_tests::plain::crossing::{Area, Question, Window};
use trails_tests::plain::kinds::CENTIMETRES;
use trails_tests::plain::{Fix, Trail, MOST_FIXES};
use trails_tests::questions::Moment;
use trails_tests::readings::of_sixteenths;

use crate::layout::{heading, microseconds, row};
use crate::sorts::{typical, SEED};
use crate::timing::{by_turns, repeated, Run};

/// How many different questions of each sort a trail is asked.
const DRAWN: usize = 512;

fn second(fixes: &[Fix], random: &mut Random) -> u32 {
    random.pick(fixes).t
}

/// Any moment but the last second's, after which no thousandth is left.
fn moment(fixes: &[Fix], random: &mut Random) -> Moment {
    Moment {
        second: second(&fixes[..fixes.len() - 1], random),
        thousandths: random.between(0, 999) as u16,
    }
}

/// Whether the cart was in a box one to ten metres wide, near where it was at some time, between two other seconds.
fn crossing(fixes: &[Fix], random: &mut Random) -> Question {
    let (one, other) = (second(fixes, random), second(fixes, random));
    let near = random.pick(fixes);
    let mut edges = |near: i32| {
        let low = near + random.between(-1_500, 500) as i32;
        (low, low + random.between(100, 1_000) as i32)
    };
    let (left, right) = edges(near.x);
    let (bottom, top) = edges(near.y);
    Question {
        window: Window {
            start: one.min(other),
            end: one.max(other),
        },
        area: Area {
            left,
            right,
            bottom,
            top,
        },
    }
}

/// Whether the cart came within one to five metres of a point near where it was at some time.
fn approach(fixes: &[Fix], random: &mut Random) -> Circle {
    let near = random.pick(fixes);
    let mut off = |near: i32| near + random.between(-1_000, 1_000) as i32;
    let (x, y) = (off(near.x), off(near.y));
    let radius = random.between(100, 500) as u32;
    Circle { x, y, radius }
}

struct Inquiry {
    fixes: usize,
    record: Vec<u8>,
    moments: Vec<Moment>,
    crossings: Vec<Question>,
    approaches: Vec<Circle>,
}

impl Inquiry {
    fn new(n: usize) -> Inquiry {
        let fixes = typical(n);
        let mut random = Random::new(SEED);
        Inquiry {
            fixes: n,
            moments: (0..DRAWN).map(|_| moment(&fixes, &mut random)).collect(),
            crossings: (0..DRAWN).map(|_| crossing(&fixes, &mut random)).collect(),
            approaches: (0..DRAWN).map(|_| approach(&fixes, &mut random)).collect(),
            record: Trail::never_thinned(CENTIMETRES, fixes).bytes(),
        }
    }

    /// Asks all questions of a sort, one after the other.
    fn asks<'a, Q, A: 'a>(&'a self, all: &'a [Q], ask: fn(&[u8], &Q) -> A) -> Run<'a> {
        let ask_all = move |record: &mut &[u8]| {
            for question in all {
                black_box(ask(record, black_box(question)));
            }
        };
        Box::new(move || repeated(DRAWN, &mut self.record.as_slice(), |_| (), ask_all))
    }

    /// How many of these are answered yes: a yes ends the search, so they cost differently.
    fn yes<Q>(&self, all: &[Q], is_yes: impl Fn(&[u8], &Q) -> bool) -> String {
        let yes = all.iter().filter(|question| is_yes(&self.record, question));
        format!("{} %", 100 * yes.count() / DRAWN)
    }

    fn rows(&self) {
        let place =
            |record: &[u8], at: &Moment| interface::place(record, at.second, at.thousandths);
        let times = by_turns(&mut [
            self.asks(&self.moments, place),
            self.asks(&self.crossings, interface::crosses),
            self.asks(&self.approaches, interface::near),
        ]);
        let shares = [
            None,
            Some(self.yes(&self.crossings, |r, asked| {
                interface::crosses(r, asked).crosses == 1
            })),
            Some(self.yes(&self.approaches, |r, asked| {
                interface::near(r, asked).approaches == 1
            })),
        ];
        let fixes = in_threes(self.fixes as u64);
        let names = ["places", "crossings", "approaches"];
        for ((name, time), share) in names.into_iter().zip(times).zip(shares) {
            answered(&format!("{name}, {fixes} fixes"), time, share);
        }
    }
}

/// A row of what is answered in so many seconds each.
fn answered(name: &str, time: f64, share: Option<String>) {
    let mut cells = vec![in_threes((1.0 / time) as u64), microseconds(time)];
    cells.extend(share);
    row(name, &cells);
}

/// What an anchor sends of a cart: a place, and then steps of up to two metres, all accepted.
fn sent() -> Vec<Reading> {
    let mut random = Random::new(SEED);
    let mut step = |k| {
        let mut value = || of_sixteenths(random.between(-3_200, 3_200));
        match k % 16 {
            0 => Reading::Absolute(value(), value()),
            _ => Reading::Step(value(), value()),
        }
    };
    (0..DRAWN).map(&mut step).collect()
}

/// Readings one after the other, each given the state that the one before left.
fn readings() {
    let all = sent();
    let take_all = |state: &mut AnchorState| {
        for reading in &all {
            *state = interface::anchor(*state, *black_box(reading)).state;
        }
    };
    let mut state = AnchorState::default();
    let run: Run = Box::new(|| repeated(DRAWN, &mut state, |_| (), take_all));
    for time in by_turns(&mut [run]) {
        answered("readings of anchors", time, None);
    }
}

pub fn section() {
    let columns = ["per second", "each, µs", "yes"];
    heading("Questions, typical trail", &columns);
    for n in [64, MOST_FIXES] {
        Inquiry::new(n).rows();
    }
    readings();
}
