//! What the plain version answers to each function of the interface, put as the interface puts it.

use crate::columns::Columns;
use crate::interface::{handed, AnchorState, Anchored, Answer, Applied, Head, Loaded, Place};
use crate::interface::{Run, Step};
use crate::plain::anchors::{self, Reading, State};
use crate::plain::kinds::Kind;
use crate::plain::lists::{Call, List};
use crate::plain::moment::Whereabouts;
use crate::plain::table::Table;
use crate::plain::{self, dearest, lists, moment, thinning, Fix, Trail};
use crate::readings::ReadingColumns;
use crate::tables::RowColumns;

/// A refusal's number, 0 for none, and beside it what is answered where there is none, or nothing.
fn told<T: Default>(result: Result<T, u8>) -> (u32, T) {
    match result {
        Ok(value) => (0, value),
        Err(number) => (number.into(), T::default()),
    }
}

fn answer(result: Result<u32, u8>) -> Answer {
    let (refusal, value) = told(result);
    Answer { refusal, value }
}

pub fn check(lent: &[u8]) -> Head {
    let facts = |trail: Trail| {
        let count = trail.fixes.len() as u32;
        (trail.kind.code.into(), count, trail.mark.into())
    };
    let (refusal, (kind, count, mark)) = told(plain::read(lent).map(facts));
    Head {
        refusal,
        kind,
        count,
        mark,
    }
}

pub fn read(lent: &[u8], position: usize) -> Step {
    let fix = |trail: &Trail| {
        let Fix { t, x, y, silence } = *trail.fixes.get(position)?;
        Some(Step {
            refusal: 0,
            found: 1,
            kind: trail.kind.code.into(),
            t,
            x,
            y,
            silence: silence.into(),
        })
    };
    let (refusal, found) = told(plain::read(lent).map(|trail| fix(&trail)));
    Step {
        refusal,
        ..found.unwrap_or_default()
    }
}

pub fn read_all(lent: &[u8], columns: &mut Columns) -> Answer {
    let filled = |trail: Trail| {
        columns.fill(&trail.fixes);
        trail.fixes.len() as u32
    };
    answer(plain::read(lent).map(filled))
}

/// What a writer answers.
fn written(result: Result<usize, u8>) -> Answer {
    answer(result.map(|length| length as u32))
}

pub fn write(kind: Kind, list: &[Fix], output: &mut [u8]) -> Answer {
    written(plain::write(kind, list, output))
}

pub fn dearest(n: usize, output: &mut [u8]) -> Answer {
    written(dearest::write(n, output))
}

pub fn aging(lent: &mut [u8], call: Call) -> Answer {
    answer(call.make(lent))
}

pub fn load(columns: &RowColumns) -> Loaded {
    let (refusal, table) = told(Table::load(&columns.rows()));
    let table = handed(&table);
    Loaded { refusal, table }
}

pub fn days_apply(lent: &[u8], days: u16, table: &Table) -> Applied {
    let (refusal, applied) = told(thinning::days_apply(lent, days, table));
    Applied {
        refusal,
        applies: applied.is_some().into(),
        tolerance: applied.unwrap_or(0).into(),
    }
}

pub fn place(lent: &[u8], second: u32, thousandths: u16) -> Place {
    const FITS: &str = "it fits, say the documents";
    let found = |found: Whereabouts| Place {
        refusal: 0,
        denominator: found.denominator.try_into().expect(FITS),
        x: found.x.try_into().expect(FITS),
        y: found.y.try_into().expect(FITS),
        whole_x: found.whole_x.try_into().expect(FITS),
        whole_y: found.whole_y.try_into().expect(FITS),
    };
    let (refusal, place) = told(moment::place(lent, second, thousandths).map(found));
    Place { refusal, ..place }
}

pub fn run(lent: &mut [u8], list: &List) -> Run {
    let (refusal, turned_away) = told(lists::run(lent, &list.all()));
    Run {
        refusal,
        turned_away,
    }
}

/// A state as the plain version has it, of which any number but 0 says that there is a place.
fn state_of(handed: AnchorState) -> State {
    let AnchorState { x, y, seen } = handed;
    State {
        place: [x, y],
        seen: seen != 0,
    }
}

fn handed_state(State { place, seen }: State) -> AnchorState {
    let [x, y] = place;
    AnchorState {
        x,
        y,
        seen: seen.into(),
    }
}

/// Of a refused reading the very state that was handed in.
pub fn anchor(state: AnchorState, reading: Reading) -> Anchored {
    let (refusal, taken) = told(anchors::read(&state_of(state), reading).map(Some));
    let [x, y] = taken.map_or([0; 2], |taken| taken.whole);
    Anchored {
        refusal,
        x,
        y,
        state: taken.map_or(state, |taken| handed_state(taken.state)),
    }
}

pub fn anchor_all(state: AnchorState, columns: &ReadingColumns) -> AnchorState {
    handed_state(anchors::all(state_of(state), &columns.readings()))
}
