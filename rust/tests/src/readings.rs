//! Readings of anchors and states to try, good and bad, and readings in columns as they are lent.

use crate::cases::Random;
use crate::interface::AnchorState;
use crate::plain::anchors::Reading;

/// The hall's wall, in sixteenths.
const WALL: i64 = 256_000;

/// So many sixteenths, as many as a float holds exactly.
pub fn of_sixteenths(n: i64) -> f32 {
    n as f32 / 16.0
}

/// Values at the limits of floats and of the checks, to be taken with both signs. From 524,288 up no float has a part below
/// a sixteenth; the NaNs are quiet and signalling, with the least and the greatest rest.
pub const EDGES: [f32; 30] = [
    0.0,
    f32::from_bits(1),
    f32::from_bits(0x007F_FFFF),
    f32::MIN_POSITIVE,
    f32::EPSILON,
    0.03125,
    0.0625_f32.next_down(),
    0.0625,
    0.0625_f32.next_up(),
    0.5_f32.next_down(),
    0.5,
    0.5625,
    1.0,
    15_999.5,
    15_999.937_5,
    16_000.0_f32.next_down(),
    16_000.0,
    16_000.0_f32.next_up(),
    16_000.062_5,
    32_000.0,
    32_000.0 + 0.0625,
    524_288.0_f32.next_down(),
    524_288.0,
    524_288.0_f32.next_up(),
    f32::MAX,
    f32::INFINITY,
    f32::NAN,
    f32::from_bits(0x7F80_0001),
    f32::from_bits(0x7FBF_FFFF),
    f32::from_bits(0x7FFF_FFFF),
];

/// A value that 17 and 19 let pass: anywhere, near 0, halfway between two whole numbers, or at a wall.
fn good(random: &mut Random) -> f32 {
    let n = match random.between(0, 7) {
        0..=2 => random.between(-WALL, WALL),
        3..=5 => random.between(-40, 40),
        6 => 16 * random.between(-16_000, 15_999) + 8,
        _ => random.pick(&[-WALL, 0, WALL]),
    };
    of_sixteenths(n)
}

/// Any value: at a limit, a little off a good one, a half or a quarter of a sixteenth off, or any bits.
fn anything(random: &mut Random) -> f32 {
    let edge = random.pick(&EDGES);
    let near = good(random);
    let all = i64::from(u32::MAX);
    match random.between(0, 9) {
        0..=2 => edge,
        3..=5 => -edge,
        6 => random.pick(&[near.next_up(), near.next_down()]),
        7 => near + random.pick(&[0.03125, 0.015625]),
        _ => f32::from_bits(random.between(0, all) as u32),
    }
}

/// Two values of which mostly both are good, or one.
fn pair(random: &mut Random) -> [f32; 2] {
    let mut both = [good(random), good(random)];
    match random.between(0, 9) {
        0..=6 => {}
        7 => both[0] = anything(random),
        8 => both[1] = anything(random),
        _ => both = [anything(random), anything(random)],
    }
    both
}

/// A state: the first of all, one that readings leave, or somebody's own. A place may be known by any number but 0.
pub fn any_state(random: &mut Random) -> AnchorState {
    let [x, y] = pair(random);
    let seen = random.pick(&[0, 1, 1, 1, 1, 2, 256, 1 << 31, u32::MAX]);
    match random.one_in(5) {
        true => AnchorState::default(),
        false => AnchorState { x, y, seen },
    }
}

/// A step to a wall, a sixteenth less or a sixteenth more, from a coordinate that is inside.
fn to_wall(from: f32, random: &mut Random) -> f32 {
    let wall = random.pick(&[-WALL, WALL]) + random.between(-1, 1);
    let inside = if from.abs() <= 16_000.0 { from } else { 0.0 };
    of_sixteenths(wall - (16.0 * inside) as i64)
}

impl Reading {
    /// Any reading, for a cart that is in this state.
    pub fn any(state: &AnchorState, random: &mut Random) -> Reading {
        let [x, y] = pair(random);
        if random.one_in(2) {
            return Reading::Absolute(x, y);
        }
        match random.between(0, 9) {
            0..=5 => {
                let mut small = || of_sixteenths(random.between(-800, 800));
                Reading::Step(small(), small())
            }
            6 => Reading::Step(to_wall(state.x, random), -0.0),
            7 => Reading::Step(0.0, to_wall(state.y, random)),
            _ => Reading::Step(x, y),
        }
    }
}

/// Readings as they are lent: a column that says which are steps, and one for each value, which need not be of one length.
#[derive(Clone, Debug, Default)]
pub struct ReadingColumns {
    pub step: Vec<u8>,
    pub x: Vec<f32>,
    pub y: Vec<f32>,
}

impl ReadingColumns {
    pub fn of(readings: &[Reading]) -> ReadingColumns {
        let value = |k: usize| readings.iter().map(|reading| reading.values()[k]).collect();
        ReadingColumns {
            step: readings.iter().map(|one| one.is_step().into()).collect(),
            x: value(0),
            y: value(1),
        }
    }

    /// "reading k is absolute where step[k] is 0, else a step; as many readings as the shortest column"
    pub fn readings(&self) -> Vec<Reading> {
        let values = self.x.iter().zip(&self.y);
        let reading = |(step, (&x, &y)): (&u8, (&f32, &f32))| match step {
            0 => Reading::Absolute(x, y),
            _ => Reading::Step(x, y),
        };
        self.step.iter().zip(values).map(reading).collect()
    }
}
