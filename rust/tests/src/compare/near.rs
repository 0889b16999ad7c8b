//! The sorts of approaches that a run must meet, each with the group in which it is counted.

use super::met::{met, Said, NOT_STRAIGHT};
use crate::plain::approach::{first, legs, Approach, Circle, Passing};
use crate::plain::kinds::Kind;
use crate::plain::place::{Place, Time};
use crate::plain::{Fix, Trail};

pub const APPROACHES: &str = "approaches";
const CLOSEST: &str = "closest";
const SILENT: &str = "silences of approaches";
const RADII: &str = "radii";
const POINTS: &str = "points";
const REFUSED: &str = "points refused";

/// A product that 64 bits don't hold: the square of the point's distance from the leg, or of the radius, each times the
/// square of the leg's length. Kinds 1 and 3 have neither.
pub const WIDE: &str = "with products above 64 bits";

const NOT_NEAREST: &str = "on a leg that isn't the nearest";
const LONE: &str = "of one fix";
const AT_REST: &str = "on a leg at rest";

const FRACTION: &str = "inside, at no whole second";
const START: &str = "at the start";
const END: &str = "at the end";
const ALIKE: &str = "with both ends as near";

const NONE: &str = "0 with a yes";
const GREATEST: &str = "the greatest";
const JUST: &str = "just reached";
const SHORT: &str = "one too short";

const ON_TRAIL: &str = "on the trail";
const LIMITS: [&str; 4] = ["x at -limit", "x at limit", "y at -limit", "y at limit"];
const OUTSIDE: [&str; 5] = [
    "x one below",
    "x one above",
    "y one below",
    "y one above",
    "radius one above",
];

pub const SAID: [(&str, &[&str]); 6] = [
    (
        APPROACHES,
        &["yes", "no", NOT_NEAREST, LONE, AT_REST, WIDE, NOT_STRAIGHT],
    ),
    (CLOSEST, &[START, END, FRACTION]),
    (SILENT, &[START, END, ALIKE]),
    (RADII, &[NONE, GREATEST, JUST, SHORT]),
    (
        POINTS,
        &[ON_TRAIL, LIMITS[0], LIMITS[1], LIMITS[2], LIMITS[3]],
    ),
    (REFUSED, &OUTSIDE),
];

/// Of a circle that check 16 turns away.
pub fn said_of_refused(kind: Kind, circle: &Circle) -> Vec<Said> {
    let Circle { x, y, radius } = *circle;
    let beyond = kind.limit + 1;
    let is = [
        x == -beyond,
        x == beyond,
        y == -beyond,
        y == beyond,
        radius == kind.radius + 1,
    ];
    met(REFUSED, is.into_iter().zip(OUTSIDE))
}

/// Of an approach that is told or denied.
pub fn said_of(trail: &Trail, circle: &Circle, unbroken: &[Fix]) -> Vec<Said> {
    let fixes = &trail.fixes;
    let all: Vec<(Fix, Fix)> = legs(fixes).collect();
    let closest: Vec<Passing> = all.iter().map(|leg| circle.closest(*leg)).collect();
    let told = first(fixes, circle);
    let looked_at = told.map_or(all.len(), |told| told.leg + 1);
    let wide = closest[..looked_at].iter().any(|one| is_wide(circle, one));
    let mut said = met(
        APPROACHES,
        [
            (wide, WIDE),
            (first(unbroken, circle) != told, NOT_STRAIGHT),
        ],
    );
    said.extend(said_of_numbers(trail.kind, circle, &closest));
    if let Some(Approach { leg, time }) = told {
        said.extend(said_of_leg(all[leg], circle, &closest[leg]));
        let reach = |one: &Passing| circle.reach(&one.place);
        let nearer = closest.iter().any(|one| reach(one) < reach(&closest[leg]));
        let sorts = [(nearer, NOT_NEAREST), (fixes.len() == 1, LONE)];
        said.extend(met(APPROACHES, sorts));
        let inside = time.p % time.q != 0;
        said.extend(met(CLOSEST, [(inside, FRACTION)]));
    }
    said
}

/// Of a closest place inside a leg. There its denominator is the square of the leg's length, and the square of its
/// distance is that of the product over this.
fn is_wide(circle: &Circle, closest: &Passing) -> bool {
    let length = closest.place.d;
    let (sum, _) = closest.place.square_apart(&circle.point());
    let radius = i128::from(circle.radius);
    let products = [sum / length, radius * radius * length];
    length > 1 && products.iter().any(|n| *n > u64::MAX.into())
}

/// Of the point and the radius.
fn said_of_numbers(kind: Kind, circle: &Circle, closest: &[Passing]) -> Vec<Said> {
    let Circle { x, y, radius } = *circle;
    let at = |radius: u32| closest.iter().any(|one| circle.is_at(radius, &one.place));
    let near = closest.iter().any(|one| circle.holds(&one.place));
    // no place of the trail is nearer than the nearest of its legs
    let least = closest.iter().map(|one| circle.reach(&one.place)).min();
    let just = least == Some(radius) && at(radius);
    let short = least == Some(radius + 1) && at(radius + 1);
    let radii = [
        (radius == 0 && near, NONE),
        (radius == kind.radius, GREATEST),
        (just, JUST),
        (short, SHORT),
    ];
    let limit = kind.limit;
    let points = [
        (at(0), ON_TRAIL),
        (x == -limit, LIMITS[0]),
        (x == limit, LIMITS[1]),
        (y == -limit, LIMITS[2]),
        (y == limit, LIMITS[3]),
    ];
    [met(RADII, radii), met(POINTS, points)].concat()
}

/// Of the leg that a yes names.
fn said_of_leg((i, j): (Fix, Fix), circle: &Circle, closest: &Passing) -> Vec<Said> {
    let rests = (i.x, i.y) == (j.x, j.y);
    // a lone fix is no leg
    let is_at = |fix: Fix| i.t != j.t && closest.time == Time::whole(fix.t);
    let (start, end) = (is_at(i), is_at(j));
    if i.is_before_silence() {
        let square = |fix: Fix| Place::of(fix).square_apart(&circle.point());
        let alike = square(i) == square(j);
        return met(SILENT, [(start, START), (end, END), (alike, ALIKE)]);
    }
    let sorts = [(start && !rests, START), (end, END)];
    let rest = [(rests && start, AT_REST)];
    [met(CLOSEST, sorts), met(APPROACHES, rest)].concat()
}
