//! The place question: the fraction as document 01 has it, the rounded place beside it, mirrored trails, moments inside
//! silences and at their ends, and each refusal.
#![forbid(unsafe_code)]

use trails_tests::cases::{buffer, kind_of, Random, Settings, Tally};
use trails_tests::interface::Place;
use trails_tests::plain::kinds::{Kind, CENTIMETRES, KINDS, MILLIMETRES, SILENCES};
use trails_tests::plain::{Fix, Trail, MOST_FIXES};
use trails_tests::questions::{asked_of_every_shape, place, refused_in_order, Moment};
use trails_tests::shapes::{every_kind_and_shape, trail};

/// The rounded number is the nearest one to n/d, and of two that are as near the one further from 0.
fn is_nearest(whole: i32, n: i64, d: u32, name: &str) {
    let (whole, n, d) = (i128::from(whole), i128::from(n), i128::from(d));
    let off = 2 * (whole * d - n);
    let further = off == n.signum() * d;
    assert!(off.abs() < d || further, "{name}: {whole} for {n} / {d}");
}

/// What must hold of an answer that isn't a refusal, besides being as the plain version has it.
fn is_rounded(answer: &Place, name: &str) {
    assert_eq!(answer.refusal, 0, "{name}");
    is_nearest(answer.whole_x, answer.x, answer.denominator, name);
    is_nearest(answer.whole_y, answer.y, answer.denominator, name);
}

/// A trail, a moment, and the place by hand.
struct Row {
    fixes: &'static [(u32, i32, i32)],
    moment: (u32, u16),
    fraction: (i64, i64, u32),
    whole: (i32, i32),
}

const fn row(
    fixes: &'static [(u32, i32, i32)],
    moment: (u32, u16),
    fraction: (i64, i64, u32),
    whole: (i32, i32),
) -> Row {
    Row {
        fixes,
        moment,
        fraction,
        whole,
    }
}

const K: &[(u32, i32, i32)] = &[(0, 0, 0), (10, 5, -5)];
const LEGS: &[(u32, i32, i32)] = &[(100, 1, 2), (101, 3, 2), (103, 3, 8)];
const WALLS: &[(u32, i32, i32)] = &[
    (4_294_901_760, -16_000, 16_000),
    (4_294_967_295, 16_000, -16_000),
];
const LONE: &[(u32, i32, i32)] = &[(u32::MAX, 16_000, -16_000)];

const ROWS: [Row; 14] = [
    // document 01's trail k, where halves go away from 0 on both sides, and what is next to halves
    row(K, (1, 0), (5_000, -5_000, 10_000), (1, -1)),
    row(K, (0, 999), (4_995, -4_995, 10_000), (0, 0)),
    row(K, (1, 1), (5_005, -5_005, 10_000), (1, -1)),
    row(K, (3, 0), (15_000, -15_000, 10_000), (2, -2)),
    row(K, (0, 0), (0, 0, 10_000), (0, 0)),
    row(K, (10, 0), (50_000, -50_000, 10_000), (5, -5)),
    // at a fix that two legs share, the leg is the one that ends there
    row(LEGS, (100, 0), (1_000, 2_000, 1_000), (1, 2)),
    row(LEGS, (101, 0), (3_000, 2_000, 1_000), (3, 2)),
    row(LEGS, (101, 1), (6_000, 4_006, 2_000), (3, 2)),
    row(LEGS, (103, 0), (6_000, 16_000, 2_000), (3, 8)),
    // the largest numbers of every kind
    row(
        WALLS,
        (4_294_901_760, 0),
        (-1_048_560_000_000, 1_048_560_000_000, 65_535_000),
        (-16_000, 16_000),
    ),
    row(
        WALLS,
        (4_294_967_295, 0),
        (1_048_560_000_000, -1_048_560_000_000, 65_535_000),
        (16_000, -16_000),
    ),
    row(WALLS, (4_294_934_527, 500), (0, 0, 65_535_000), (0, 0)),
    row(LONE, (u32::MAX, 0), (16_000, -16_000, 1), (16_000, -16_000)),
];

impl Row {
    fn holds(&self, kind: Kind) {
        let fixes: Vec<Fix> = self.fixes.iter().copied().map(Fix::from).collect();
        let (second, thousandths) = self.moment;
        let moment = Moment {
            second,
            thousandths,
        };
        let name = format!("{kind}, {fixes:?}");
        let bytes = buffer(&Trail::never_thinned(kind, fixes));
        let answer = place(&bytes, moment, &name);
        let fraction = (answer.x, answer.y, answer.denominator);
        assert_eq!(fraction, self.fraction, "{name}, {moment:?}");
        let whole = (answer.whole_x, answer.whole_y);
        assert_eq!(whole, self.whole, "{name}, {moment:?}");
    }
}

/// What is a place in centimetres is one in millimetres too, and one where no silence is.
#[test]
fn trails_worked_by_hand() {
    for row in &ROWS {
        KINDS.into_iter().for_each(|kind| row.holds(kind));
    }
}

const FAR_WALLS: &[(u32, i32, i32)] = &[
    (4_294_901_760, -160_000, 160_000),
    (4_294_967_295, 160_000, -160_000),
];
const TENTHS: &[(u32, i32, i32)] = &[(7, 159_999, -65_536), (27, 160_000, -65_535)];

const IN_MILLIMETRES: [Row; 5] = [
    // the largest numbers of every sort
    row(
        FAR_WALLS,
        (4_294_901_760, 0),
        (-10_485_600_000_000, 10_485_600_000_000, 65_535_000),
        (-160_000, 160_000),
    ),
    row(
        FAR_WALLS,
        (4_294_967_295, 0),
        (10_485_600_000_000, -10_485_600_000_000, 65_535_000),
        (160_000, -160_000),
    ),
    // 320,000 in 65,535,000 thousandths: one of them is 1/205 on
    row(
        FAR_WALLS,
        (4_294_967_294, 999),
        (10_485_599_680_000, -10_485_599_680_000, 65_535_000),
        (160_000, -160_000),
    ),
    // half a millimetre on, and a twenty-thousandth before it
    row(
        TENTHS,
        (17, 0),
        (3_199_990_000, -1_310_710_000, 20_000),
        (160_000, -65_536),
    ),
    row(
        TENTHS,
        (16, 999),
        (3_199_989_999, -1_310_710_001, 20_000),
        (159_999, -65_536),
    ),
];

#[test]
fn trails_in_millimetres() {
    IN_MILLIMETRES.iter().for_each(|row| row.holds(MILLIMETRES));
}

#[test]
fn trails_of_every_shape_are_answered_as_the_plain_version_does() {
    asked_of_every_shape(|_, bytes, moment: Moment, name| {
        let answer = place(bytes, moment, name);
        is_rounded(&answer, &format!("{name}, {moment:?}"));
    });
}

#[test]
fn every_fix_of_the_longest_trails_is_at_its_own_place() {
    let mut random = Random::new(Settings::get().seed);
    for (kind, shape) in every_kind_and_shape() {
        let trail = trail(kind, shape, MOST_FIXES, &mut random);
        let bytes = buffer(&trail);
        // every one would be slow, and these reach all parts of the record
        for fix in trail.fixes.iter().step_by(13).chain(trail.fixes.last()) {
            let moment = Moment {
                second: fix.t,
                thousandths: 0,
            };
            let answer = place(&bytes, moment, "the longest");
            let whole = (answer.whole_x, answer.whole_y);
            assert_eq!(whole, (fix.x, fix.y), "{kind}, {shape:?}, {fix:?}");
        }
    }
}

// A silence from second 20 to 30, another right after it to 31, and a stretch that ends at 35.
const SILENT: [(u32, i32, i32, u8); 5] = [
    (10, 0, 0, 0),
    (20, 10, 100, 1),
    (30, 70, 900, 1),
    (31, 50, 500, 0),
    (35, 58, 500, 0),
];

/// A moment: second and thousandths. A fraction: x, y and their denominator, and where it is refused only 21.
type Told = ((u32, u16), Result<(i64, i64, u32), u32>);

const TOLD: [Told; 13] = [
    ((10, 0), Ok((0, 0, 10_000))),
    ((19, 999), Ok((99_990, 999_900, 10_000))),
    // an end of a silence has its place, on the leg that ends there
    ((20, 0), Ok((100_000, 1_000_000, 10_000))),
    ((20, 1), Err(21)),
    ((25, 0), Err(21)),
    ((29, 999), Err(21)),
    // which is then the silent one
    ((30, 0), Ok((700_000, 9_000_000, 10_000))),
    ((30, 1), Err(21)),
    ((30, 999), Err(21)),
    ((31, 0), Ok((50_000, 500_000, 1_000))),
    ((31, 1), Ok((200_008, 2_000_000, 4_000))),
    ((35, 0), Ok((232_000, 2_000_000, 4_000))),
    ((35, 1), Err(12)),
];

/// By hand.
#[test]
fn no_place_is_told_inside_a_silence() {
    let fixes = SILENT.map(Fix::from).into();
    let bytes = buffer(&Trail::never_thinned(SILENCES, fixes));
    for ((second, thousandths), told) in TOLD {
        let moment = Moment {
            second,
            thousandths,
        };
        let answer = place(&bytes, moment, "silences");
        let fraction = (answer.x, answer.y, answer.denominator);
        let (refusal, expected) = told.map_or_else(|number| (number, (0, 0, 0)), |all| (0, all));
        assert_eq!(
            (answer.refusal, fraction),
            (refusal, expected),
            "{moment:?}"
        );
    }
}

/// Every half second of a short leg, where each place between two whole ones is a half somewhere.
#[test]
fn halves_go_away_from_zero() {
    for d in 1..=12 {
        for x in -12..=12 {
            let fixes = [(7, 0, 1), (7 + d, x, 1 - x)].map(Fix::from);
            let bytes = buffer(&Trail::never_thinned(CENTIMETRES, fixes.into()));
            for half in 0..=2 * d {
                let moment = Moment {
                    second: 7 + half / 2,
                    thousandths: 500 * (half % 2) as u16,
                };
                let answer = place(&bytes, moment, "a short leg");
                is_rounded(&answer, &format!("{d} seconds to {x}, {moment:?}"));
            }
        }
    }
}

// ---- mirrored

/// Which coordinates are mirrored: x, y.
type Mirror = (bool, bool);

const MIRRORS: [Mirror; 3] = [(true, false), (false, true), (true, true)];

/// The record with each of its fixes mirrored, as far as fixes are lent. The least number that its bytes have has no
/// opposite, and is turned away: it stays.
fn mirrored(record: &[u8], (in_x, in_y): Mirror) -> Vec<u8> {
    let mut image = record.to_vec();
    let kind = kind_of(record, CENTIMETRES);
    let width = kind.width;
    let count = record
        .get(8..10)
        .map_or(0, |n| u16::from_le_bytes([n[0], n[1]]));
    let rest = image.get_mut(10..).unwrap_or_default();
    for fix in rest.chunks_exact_mut(kind.fix_bytes()).take(count.into()) {
        for (at, is_mirrored) in [(4, in_x), (4 + width, in_y)] {
            if is_mirrored {
                turn_over(&mut fix[at..at + width]);
            }
        }
    }
    image
}

/// The opposite number, in two's complement: all bits the other way, and one more.
fn turn_over(number: &mut [u8]) {
    let mut carry = true;
    for byte in number {
        (*byte, carry) = (!*byte).overflowing_add(carry.into());
    }
}

/// Of each mirrored record the answer is the mirrored one; of a refusal all else is 0, and stays.
fn is_mirrored(answer: &Place, record: &[u8], moment: Moment, name: &str) {
    for mirror in MIRRORS {
        let side = |is_mirrored| if is_mirrored { -1 } else { 1 };
        let (x, y) = (side(mirror.0), side(mirror.1));
        let expected = Place {
            x: i64::from(x) * answer.x,
            y: i64::from(y) * answer.y,
            whole_x: x * answer.whole_x,
            whole_y: y * answer.whole_y,
            ..*answer
        };
        let name = format!("{name}, {moment:?}, mirrored {mirror:?}");
        let image = place(&mirrored(record, mirror), moment, &name);
        assert_eq!(image, expected, "{name}");
    }
}

#[test]
fn a_mirrored_trail_has_the_mirrored_place() {
    asked_of_every_shape(|_, bytes, moment: Moment, name| {
        is_mirrored(&place(bytes, moment, name), bytes, moment, name);
    });
}

#[test]
fn each_refusal_is_given_in_order() {
    let mut tally = Tally::default();
    let faults: [&[u8]; 6] = [&[], &[12], &[11], &[12, 11], &[21], &[21, 11]];
    refused_in_order(&faults, &mut tally, |record, &moment: &Moment, name| {
        let answer = place(record, moment, name);
        let refusal = answer.refusal;
        if refusal != 0 {
            let nothing = Place {
                refusal,
                ..Place::default()
            };
            assert_eq!(answer, nothing, "{name}, {moment:?}");
        }
        is_mirrored(&answer, record, moment, name);
        refusal
    });
    tally.expect("place", &[1, 2, 3, 4, 5, 6, 7, 8, 9, 20, 11, 12, 21]);
}
