//! The trails that are aged: document 02's two, and one as a hall has them.

use trails::MillimetreFix;
use trails_tests::cases::Random;
use trails_tests::interface::dearest_fixes;
use trails_tests::plain::Fix;
use trails_tests::shapes::{curve, ten_times};

/// The same trail and the same questions in every run.
pub const SEED: u64 = 20_240_229;

/// A sort of trail that can be had with any number of fixes, and the tolerance that it is aged at, all in centimetres.
pub struct Sort {
    pub name: &'static str,
    pub tolerance: u16,
    pub fixes: fn(usize) -> Vec<Fix>,
}

/// Document 02 ages its two at 1. A trail of a hall is first aged after two days, at 10.
pub const SORTS: [Sort; 3] = [
    Sort {
        name: "dear",
        tolerance: 1,
        fixes: dearest_fixes,
    },
    Sort {
        name: "smooth",
        tolerance: 1,
        fixes: curve,
    },
    Sort {
        name: "typical",
        tolerance: 10,
        fixes: typical,
    },
];

/// As the package has them.
pub fn in_centimetres(fixes: &[Fix]) -> Vec<trails::Fix> {
    let fix = |fix: &Fix| trails::Fix {
        t: fix.t,
        x: fix.x as i16,
        y: fix.y as i16,
    };
    fixes.iter().map(fix).collect()
}

/// The same trail in millimetres.
pub fn in_millimetres(fixes: &[Fix]) -> Vec<MillimetreFix> {
    let fix = |Fix { t, x, y, .. }| MillimetreFix { t, x, y };
    ten_times(fixes).into_iter().map(fix).collect()
}

/// The same places, a fix every 16 seconds: of 4,096 the longest span that a trail may have.
pub fn slowly(mut fixes: Vec<Fix>) -> Vec<Fix> {
    let first = fixes[0].t;
    for fix in &mut fixes {
        fix.t = first + 16 * (fix.t - first);
    }
    fixes
}

/// How far from the hall's middle the belts are at most, in centimetres along an axis.
const BELTS: i64 = 6_000;

/// The first second of the trail: a shift doesn't begin at 0.
const CLOCK: u32 = 21_600;

/// A cart and the places where it was seen, one each second.
struct Cart {
    random: Random,
    x: i64,
    y: i64,
    seen: Vec<(i64, i64)>,
}

impl Cart {
    /// A fix is a little off, and more so while the cart moves.
    fn see(&mut self, off: i64) {
        let x = self.x + self.random.between(-off, off);
        let y = self.y + self.random.between(-off, off);
        self.seen.push((x, y));
    }

    fn wait(&mut self) {
        for _ in 0..self.random.between(20, 90) {
            self.see(1);
        }
    }

    /// Straight on, at one speed.
    fn run(&mut self, x: i64, y: i64) {
        let speed = self.random.between(80, 120);
        let from = (self.x, self.y);
        let (dx, dy) = (x - from.0, y - from.1);
        let seconds = dx.abs().max(dy.abs()) / speed + 1;
        for second in 1..=seconds {
            self.x = from.0 + dx * second / seconds;
            self.y = from.1 + dy * second / seconds;
            self.see(3);
        }
    }

    /// Aisles are at right angles, so it goes along one axis and then along the other.
    fn visit_another_belt(&mut self) {
        let x = self.random.between(-BELTS, BELTS);
        let y = self.random.between(-BELTS, BELTS);
        self.run(x, self.y);
        self.run(x, y);
    }
}

/// A cart that waits at a belt, runs to another, and so on.
pub fn typical(n: usize) -> Vec<Fix> {
    let mut cart = Cart {
        random: Random::new(SEED),
        x: 0,
        y: 0,
        seen: Vec::new(),
    };
    while cart.seen.len() < n {
        cart.wait();
        cart.visit_another_belt();
    }
    let fix = |(t, &(x, y)): (u32, &(i64, i64))| Fix::from((t, x as i32, y as i32));
    (CLOCK..).zip(&cart.seen[..n]).map(fix).collect()
}
