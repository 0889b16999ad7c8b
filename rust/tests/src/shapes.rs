//! Trails of the sorts that a thinner meets: wild, smooth, at rest, zig-zag, full of equal distances, from wall to wall
//! over hours, and with distances that differ in one word only; and document 02's own smooth one.

use crate::cases::{fall_silent, fixes, times, times_within, Random};
use crate::plain::kinds::{Kind, KINDS};
use crate::plain::{Fix, Trail};

#[derive(Clone, Copy, Debug)]
pub enum Shape {
    Wild,
    Smooth,
    AtRest,
    ZigZag,
    Ties,
    Far,
    Words,
}

pub const SHAPES: [Shape; 7] = [
    Shape::Wild,
    Shape::Smooth,
    Shape::AtRest,
    Shape::ZigZag,
    Shape::Ties,
    Shape::Far,
    Shape::Words,
];

/// Every kind with every shape.
pub fn every_kind_and_shape() -> impl Iterator<Item = (Kind, Shape)> {
    let shapes = |kind| SHAPES.map(|shape| (kind, shape));
    KINDS.into_iter().flat_map(shapes)
}

/// A place in the making, which a step may have taken out of the hall.
type Place = (i64, i64);

/// An accepted trail of n fixes, never thinned, with silences if its kind can have them.
pub fn trail(kind: Kind, shape: Shape, n: usize, random: &mut Random) -> Trail {
    let mut fixes = match shape {
        Shape::Wild => fixes(kind, random, n),
        Shape::Smooth => usual(kind, smooth(n, random), random),
        Shape::AtRest => usual(kind, at_rest(n, random), random),
        Shape::ZigZag => usual(kind, zig_zag(n, random), random),
        Shape::Ties => usual(kind, ties(n, random), random),
        Shape::Far => far(kind, n, random),
        Shape::Words => words(kind, n, random),
    };
    fall_silent(kind, &mut fixes, random);
    Trail::never_thinned(kind, fixes)
}

/// The fixes at these times and places, which are brought back into the hall.
fn placed(kind: Kind, times: Vec<u32>, places: Vec<Place>) -> Vec<Fix> {
    let limit = i64::from(kind.limit);
    let inside = |c: i64| c.clamp(-limit, limit) as i32;
    let fix = |(t, (x, y)): (u32, Place)| Fix::from((t, inside(x), inside(y)));
    times.into_iter().zip(places).map(fix).collect()
}

/// Places that were thought of in centimetres: in a finer unit as many of it, or as far, and then also a little off.
fn usual(kind: Kind, mut places: Vec<Place>, random: &mut Random) -> Vec<Fix> {
    let times_as_far = random.pick(&[1, kind.times.into()]);
    let off = random.pick(&[0, times_as_far - 1]);
    for (x, y) in &mut places {
        *x = *x * times_as_far + random.between(-off, off);
        *y = *y * times_as_far + random.between(-off, off);
    }
    let n = places.len();
    let times = if random.one_in(4) {
        times(random, n)
    } else {
        steady(n, random)
    };
    placed(kind, times, places)
}

/// A fix every so many seconds; every second is the usual.
fn steady(n: usize, random: &mut Random) -> Vec<u32> {
    let longest = 65_535 / n as i64;
    let some = random.between(1, longest);
    let step = random.pick(&[1, 1, some]) as u32;
    let first = random.between(0, 1 << 31) as u32;
    (0..n as u32).map(|k| first + k * step).collect()
}

/// A cart whose speed changes by little, and turns at the walls.
fn smooth(n: usize, random: &mut Random) -> Vec<Place> {
    let mut place = [random.between(-9_000, 9_000), random.between(-9_000, 9_000)];
    let mut speed = [random.between(-9, 9), random.between(-9, 9)];
    let mut step = || {
        for axis in 0..2 {
            speed[axis] += random.between(-1, 1);
            if (place[axis] + speed[axis]).abs() > 16_000 {
                speed[axis] = -speed[axis];
            }
            place[axis] += speed[axis];
        }
        (place[0], place[1])
    };
    (0..n).map(|_| step()).collect()
}

/// A cart that stands, is seen a little off, and now and then is put elsewhere.
fn at_rest(n: usize, random: &mut Random) -> Vec<Place> {
    let off = random.pick(&[0, 1, 3]);
    let mut place = (0, 0);
    let mut see = || {
        if random.one_in(50) {
            place = (random.between(-500, 500), random.between(-500, 500));
        }
        let (x, y) = place;
        (x + random.between(-off, off), y + random.between(-off, off))
    };
    (0..n).map(|_| see()).collect()
}

/// From one side to the other and back, as far each time, less far each time, or as far as chance will have it.
fn zig_zag(n: usize, random: &mut Random) -> Vec<Place> {
    let drift = random.between(-3, 3);
    let widest = random.between(1, 3_000);
    let sort = random.between(0, 2);
    let mut place = |k: i64| {
        let wide = match sort {
            0 => widest,
            1 => n as i64 - 1 - k,
            _ => random.between(0, widest),
        };
        let side = if k % 2 == 0 { wide } else { -wide };
        (k * drift, side)
    };
    (0..n as i64).map(&mut place).collect()
}

/// A short pattern again and again, there and, half of the time, back, so that many fixes are as far as others.
fn ties(n: usize, random: &mut Random) -> Vec<Place> {
    let unit = random.pick(&[1, 7, 100]);
    let period = random.between(1, 7) as usize;
    let mut corner = |_| {
        let x = unit * random.between(-1, 1);
        (x, unit * random.between(-1, 1))
    };
    let pattern: Vec<Place> = (0..period).map(&mut corner).collect();
    let back = random.one_in(2);
    let at = |k: usize| if back { k.min(n - 1 - k) } else { k };
    (0..n).map(|k| pattern[at(k) % period]).collect()
}

/// Near the walls, over three hours and more: in millimetres a sum of squares then needs more than 64 bits.
fn far(kind: Kind, n: usize, random: &mut Random) -> Vec<Fix> {
    let limit = i64::from(kind.limit);
    let mut coordinate = || {
        let wall = random.pick(&[-limit, limit]);
        let near = wall - wall.signum() * random.between(0, limit / 16);
        let middle = random.between(-limit, limit);
        random.pick(&[wall, near, near, near, middle])
    };
    let places = (0..n).map(|_| (coordinate(), coordinate())).collect();
    let span = random.between(10_000, 65_535);
    placed(kind, times_within(span, true, random, n), places)
}

// ---- sums that differ in one word only

/// A cart that after 2ᵃ seconds is back where it was. So an inner fix that is (dx, dy) away has a sum of 2²ᵃ·(dx² +
/// dy²).
fn words(kind: Kind, n: usize, random: &mut Random) -> Vec<Fix> {
    let a = random.pick(&[14, 15]);
    let limit = i64::from(kind.limit);
    // whether the limits let a sum have more than 64 bits
    let wide = (2 * limit).pow(2) >> (64 - 2 * a) > 0;
    let bits = if wide { random.pick(&[32, 64, 64]) } else { 32 };
    let any = random.between(-limit, limit);
    let from = (
        random.pick(&[-limit, limit, any]),
        random.pick(&[-limit, limit, 0]),
    );
    let away = aways(2 * limit, bits - 2 * a, random);
    // towards the wall that is further off
    let side = |from: i64| if from > 0 { -1 } else { 1 };
    let place = |k: usize| match k {
        0 => from,
        _ if k == n - 1 => from,
        _ => {
            let (dx, dy) = random.pick(&away);
            (from.0 + side(from.0) * dx, from.1 + side(from.1) * dy)
        }
    };
    let places = (0..n).map(place).collect();
    placed(kind, times_within(1 << a, true, random, n), places)
}

/// Two places that are so far away that their squared distances differ by a multiple of 2ᵐ; and some next to them.
fn aways(reach: i64, m: i64, random: &mut Random) -> Vec<Place> {
    let b = (m / 2 + random.between(-1, 1)).clamp(1, m - 1);
    let mut multiple = |of: i64| of * random.between(1, (reach / of).max(1));
    // (g + h)²/4 − (h − g)²/4 = g·h
    let (g, h) = (multiple(1 << b), multiple(1 << (m - b)));
    let (one, other) = ((g + h) / 2, (h - g).abs() / 2);
    let any = random.between(0, reach);
    let dy = random.pick(&[0, 0, 1, any]);
    let near = random.between(-1, 1);
    vec![
        (one, dy),
        (other, dy),
        (one, dy + near),
        (other + near, dy),
        (dy, one),
    ]
}

// ---- document 02's

/// Document 02's smooth trail.
pub fn curve(n: usize) -> Vec<Fix> {
    let fix = |i: usize| Fix::from((i as u32, i as i32, (i * i / 2_000) as i32));
    (0..n).map(fix).collect()
}

// ---- the same trail otherwise

/// In the other direction. The splits of the dearest trail nest in the second of the two pieces and, backwards, in the
/// first, and a compiler may treat the two calls differently.
pub fn backwards(fixes: &[Fix]) -> Vec<Fix> {
    let last = fixes[fixes.len() - 1].t;
    let turned = |fix: &Fix| Fix {
        t: last - fix.t,
        ..*fix
    };
    fixes.iter().rev().map(turned).collect()
}

/// The same places in millimetres.
pub fn ten_times(fixes: &[Fix]) -> Vec<Fix> {
    so_many_times(10, fixes)
}

/// Every place so many times as far.
pub fn so_many_times(times: i32, fixes: &[Fix]) -> Vec<Fix> {
    let further = |fix: &Fix| Fix {
        x: times * fix.x,
        y: times * fix.y,
        ..*fix
    };
    fixes.iter().map(further).collect()
}
