//! Ceiling anchors, which report in floats: a place, or a step from the last one.

use crate::interface;
use crate::refusal::Refusal;

/// What an anchor sends, in centimetres. Both values must be whole numbers of sixteenths.
#[derive(Clone, Copy, Debug, PartialEq)]
pub enum Reading {
    /// Where the cart is.
    Absolute {
        /// Its x.
        x: f32,
        /// Its y.
        y: f32,
    },
    /// How far it went from the last place.
    Step {
        /// In x.
        dx: f32,
        /// In y.
        dy: f32,
    },
}

impl Reading {
    /// As a list is lent it to the interface: whether it is a step, and its two values.
    fn lent(self) -> (u8, f32, f32) {
        match self {
            Reading::Absolute { x, y } => (0, x, y),
            Reading::Step { dx, dy } => (1, dx, dy),
        }
    }
}

/// What is known of an anchor's cart between two readings. The default is the start: no place is known.
///
/// After any readings that `read_anchor` has taken one after the other, of which one was an absolute place, it is exactly
/// the last such place and the steps since added up: sixteenths as floats have them lose nothing within the hall.
#[derive(Clone, Copy, Debug, Default, PartialEq)]
pub struct AnchorState {
    /// The last place's x, in centimetres.
    pub x: f32,
    /// Its y.
    pub y: f32,
    /// Whether there is a place: on from the first accepted absolute one.
    pub seen: bool,
}

impl AnchorState {
    fn lent(self) -> interface::AnchorState {
        let AnchorState { x, y, seen } = self;
        interface::AnchorState {
            x,
            y,
            seen: seen.into(),
        }
    }

    fn of(lent: interface::AnchorState) -> AnchorState {
        let interface::AnchorState { x, y, seen } = lent;
        AnchorState {
            x,
            y,
            seen: seen != 0,
        }
    }
}

/// What an accepted reading gives.
#[derive(Clone, Copy, Debug, PartialEq)]
pub struct Anchored {
    /// For the next reading.
    pub state: AnchorState,
    /// The new place's x as a fix has it: a whole number of centimetres, halves away from 0.
    pub x: i16,
    /// Its y, likewise.
    pub y: i16,
}

/// A coordinate as a fix has it. An accepted one is at most 16,000 from 0, so nothing is cut.
fn of_fix(coordinate: i32) -> i16 {
    coordinate.clamp(i16::MIN.into(), i16::MAX.into()) as i16
}

/// Takes a reading. A refused one changes no state: the next is given the same one. Makes checks 17, 18 and 19; the state
/// may be any, and only a step asks for its place.
pub fn read_anchor(state: AnchorState, reading: Reading) -> Result<Anchored, Refusal> {
    let read = match reading {
        Reading::Absolute { x, y } => interface::anchor_absolute(state.lent(), x, y),
        Reading::Step { dx, dy } => interface::anchor_step(state.lent(), dx, dy),
    };
    Refusal::none_in(read.refusal)?;
    Ok(Anchored {
        state: AnchorState::of(read.state),
        x: of_fix(read.x),
        y: of_fix(read.y),
    })
}

/// Takes readings one after the other, each with the state that the one before left, as `read_anchor` does. Answers the
/// state after all.
pub fn read_anchors(state: AnchorState, readings: &[Reading]) -> AnchorState {
    let lent = readings.iter().map(|reading| reading.lent());
    let (step, places): (Vec<u8>, Vec<(f32, f32)>) =
        lent.map(|(step, x, y)| (step, (x, y))).unzip();
    let (x, y): (Vec<f32>, Vec<f32>) = places.into_iter().unzip();
    AnchorState::of(interface::anchor_all(state.lent(), &step, &x, &y))
}
