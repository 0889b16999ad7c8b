//! A plain version of ceiling anchors: document 02's item 3. Where the proved code adds floats, this counts in sixteenths, as
//! whole numbers that have room for all of them.

use super::kinds::CENTIMETRES;
use super::moment::rounded;
use super::refuse_if;

/// "either an absolute place in f32 centimetres or a step from the last place, also two floats"
#[derive(Clone, Copy, Debug)]
pub enum Reading {
    Absolute(f32, f32),
    Step(f32, f32),
}

impl Reading {
    pub fn values(self) -> [f32; 2] {
        match self {
            Reading::Absolute(x, y) | Reading::Step(x, y) => [x, y],
        }
    }

    pub fn is_step(self) -> bool {
        matches!(self, Reading::Step(..))
    }
}

/// "The state holds the last place as floats", and a "flag, on from the first accepted absolute place". Anybody may have
/// made it, so both may be anything.
#[derive(Clone, Copy, Debug)]
pub struct State {
    pub place: [f32; 2],
    pub seen: bool,
}

/// What an accepted reading leaves and yields.
#[derive(Clone, Copy, Debug)]
pub struct Taken {
    pub state: State,
    pub whole: [i32; 2],
}

/// How many sixteenths a value is. "17 [...] if a value isn't finite or isn't a whole number of sixteenths": 16 times a
/// float of 32 bits is exact in 64. More than there is room for are as many as there is, and far outside.
pub fn sixteenths(value: f32) -> Result<i128, u8> {
    let times = 16.0 * f64::from(value);
    refuse_if(17, !times.is_finite() || times.fract() != 0.0)?;
    Ok(times as i128)
}

/// Both coordinates in sixteenths.
fn both([x, y]: [f32; 2]) -> Result<[i128; 2], u8> {
    Ok([sixteenths(x)?, sixteenths(y)?])
}

/// "19 [...] if the new place is outside −16,000 to 16,000"
fn check_place(place: [i128; 2]) -> Result<(), u8> {
    let most = 16 * CENTIMETRES.limit.unsigned_abs();
    let outside = |c: i128| c.unsigned_abs() > most.into();
    refuse_if(19, place.into_iter().any(outside))
}

/// The place that a step begins at. "18 [...] if a step comes with a state whose flag [...] is off, or whose place 17 or 19
/// would turn away"
fn start(state: &State) -> Result<[i128; 2], u8> {
    refuse_if(18, !state.seen)?;
    let place = both(state.place).map_err(|_| 18)?;
    check_place(place).map_err(|_| 18)?;
    Ok(place)
}

/// So many sixteenths as a float: exact inside the hall. As floats have it, a sum of 0 is -0.0 if both its terms are.
fn float(sixteenths: i128, terms: [f32; 2]) -> f32 {
    match sixteenths == 0 && terms.iter().all(|term| term.is_sign_negative()) {
        true => -0.0,
        false => (sixteenths as f64 / 16.0) as f32,
    }
}

/// A reading with the state that it is given. A refused one "changes no state".
pub fn read(state: &State, reading: Reading) -> Result<Taken, u8> {
    let sent = both(reading.values())?;
    let place = match reading {
        Reading::Absolute(..) => sent,
        Reading::Step(..) => {
            let from = start(state)?;
            [0, 1].map(|k| from[k].saturating_add(sent[k]))
        }
    };
    check_place(place)?;
    let values = reading.values();
    let sum = |k: usize| float(place[k], [state.place[k], values[k]]);
    Ok(Taken {
        state: State {
            place: match reading {
                Reading::Absolute(..) => values,
                Reading::Step(..) => [0, 1].map(sum),
            },
            seen: true,
        },
        whole: place.map(|c| rounded(c, 16) as i32),
    })
}

/// What is left after "any list of readings, each given the state that the one before left".
pub fn all(state: State, readings: &[Reading]) -> State {
    let next = |state: State, reading: &Reading| match read(&state, *reading) {
        Ok(taken) => taken.state,
        Err(_) => state,
    };
    readings.iter().fold(state, next)
}
