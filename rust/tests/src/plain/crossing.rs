//! A plain version of the crossing question, and of what the claim about lists of agings says of a box and a place.

use super::kinds::Kind;
use super::place::{is_silent, Place, Time};
use super::{read, refuse_if, stretches, Fix, Trail};

/// A box, whose edges belong to it.
#[derive(Clone, Copy, Debug, PartialEq, Eq)]
pub struct Area {
    pub left: i32,
    pub right: i32,
    pub bottom: i32,
    pub top: i32,
}

/// Whole seconds on the fixes' own clock, both included.
#[derive(Clone, Copy, Debug, PartialEq, Eq)]
pub struct Window {
    pub start: u32,
    pub end: u32,
}

#[derive(Clone, Copy, Debug, PartialEq, Eq)]
pub struct Question {
    pub window: Window,
    pub area: Area,
}

/// A coordinate of a place and the two edges of its axis, all over the place's denominator.
struct Axis {
    at: i128,
    low: i128,
    high: i128,
}

impl Area {
    fn axes(&self, place: &Place) -> [Axis; 2] {
        let axis = |at, low: i32, high: i32| Axis {
            at,
            low: i128::from(low) * place.d,
            high: i128::from(high) * place.d,
        };
        [
            axis(place.x, self.left, self.right),
            axis(place.y, self.bottom, self.top),
        ]
    }

    pub fn holds(&self, place: &Place) -> bool {
        let mut axes = self.axes(place).into_iter();
        axes.all(|axis| axis.low <= axis.at && axis.at <= axis.high)
    }

    /// "The original is within E of a box if it is at most E from some place in the box, edges included." If any place
    /// in the box is that near, the nearest one is, and each of its coordinates is the nearest of its axis.
    pub fn within(&self, place: &Place, e: u16) -> bool {
        let [x, y] = self
            .axes(place)
            .map(|axis| axis.at - axis.at.clamp(axis.low, axis.high));
        let reach = i128::from(e) * place.d;
        x * x + y * y <= reach * reach
    }

    /// "A place in the box is at most E from one of its sides if its x or y differs by at most E from one of the edges
    /// of that axis."
    pub fn beside(&self, place: &Place, e: u16) -> bool {
        let reach = i128::from(e) * place.d;
        let near = |one: i128, other: i128| (one - other).abs() <= reach;
        let mut axes = self.axes(place).into_iter();
        axes.any(|axis| near(axis.at, axis.low) || near(axis.at, axis.high))
    }

    /// The box with each side moved inwards. It may be turned inside out, and its edges are all that is used of it.
    pub fn shrunk(&self, by: u16) -> Area {
        let by = i32::from(by);
        Area {
            left: self.left + by,
            right: self.right - by,
            bottom: self.bottom + by,
            top: self.top - by,
        }
    }

    /// Every time on the leg at which an axis that changes is at one of its edges.
    fn meetings(&self, i: Fix, j: Fix) -> Vec<Time> {
        let x = [self.left, self.right].map(|edge| meeting((i.t, i.x), (j.t, j.x), edge));
        let y = [self.bottom, self.top].map(|edge| meeting((i.t, i.y), (j.t, j.y), edge));
        x.into_iter().chain(y).flatten().collect()
    }
}

/// When a coordinate that goes steadily from one value to another is at the edge, if it changes and gets there.
fn meeting(from: (u32, i32), to: (u32, i32), edge: i32) -> Option<Time> {
    let seconds = i128::from(to.0) - i128::from(from.0);
    let change = i128::from(to.1) - i128::from(from.1);
    let way = i128::from(edge) - i128::from(from.1);
    // at time t the coordinate has gone change·(t − t_i)/seconds, so t = t_i + way·seconds/change
    let time = Time {
        p: i128::from(from.0) * change.abs() + way * seconds * change.signum(),
        q: change.abs(),
    };
    (change != 0 && time.from_to(from.0, to.0)).then_some(time)
}

/// The legs of a trail, but for the silent ones: "only the two ends of a silent leg count", and each is in a stretch.
fn legs(fixes: &[Fix]) -> impl Iterator<Item = &[Fix]> {
    stretches(fixes).flat_map(|stretch| stretch.windows(2))
}

/// Every time of the window at which the trail meets an edge's line, the start of every stretch, and the window's
/// start.
///
/// If the trail is in the box at some time of the window, then at one of these first: the times in the box are closed
/// on each stretch, so there is an earliest, and if that is neither the window's start nor a stretch's then the trail
/// was outside just before, on the same leg, so a coordinate came to its edge there, and on a leg where it changes.
fn arrivals(fixes: &[Fix], question: &Question) -> Vec<Time> {
    let Window { start, end } = question.window;
    let mut times = vec![Time::whole(start)];
    times.extend(stretches(fixes).map(|stretch| Time::whole(stretch[0].t)));
    times.extend(legs(fixes).flat_map(|leg| question.area.meetings(leg[0], leg[1])));
    times.retain(|time| time.from_to(start, end));
    times
}

/// The earliest time of the window with the trail in the box, if there is one. Inside a silence it is nowhere.
pub fn earliest(fixes: &[Fix], question: &Question) -> Option<Time> {
    let inside =
        |time: &Time| !is_silent(fixes, *time) && question.area.holds(&Place::at(fixes, *time));
    let times = arrivals(fixes, question).into_iter();
    times.filter(inside).min_by(Time::order)
}

/// Times of the window such that what a trail does between two neighbours, as to the box and to the box shrunk by e, it
/// does at each time between them: the window's ends, all fixes, all meetings with an edge of either box, and a time
/// between each two neighbours, but for times inside silences. So what holds at these holds at all times of the window
/// outside silences.
pub fn telling_times(fixes: &[Fix], question: &Question, e: u16) -> Vec<Time> {
    let Window { start, end } = question.window;
    let mut times = vec![Time::whole(start), Time::whole(end)];
    times.extend(fixes.iter().map(|fix| Time::whole(fix.t)));
    for leg in legs(fixes) {
        times.extend(question.area.meetings(leg[0], leg[1]));
        times.extend(question.area.shrunk(e).meetings(leg[0], leg[1]));
    }
    times.retain(|time| time.from_to(start, end));
    times.sort_by(Time::order);
    times.dedup_by(|one, other| one.order(other).is_eq());
    let between = times.windows(2).map(|pair| pair[0].midway(&pair[1]));
    let between: Vec<Time> = between.collect();
    times.extend(between);
    times.retain(|time| !is_silent(fixes, *time));
    times
}

/// Check 13: "The window's end is before its start, or either is outside the trail's times."
fn bad_window(window: Window, fixes: &[Fix]) -> bool {
    let times = fixes[0].t..=fixes[fixes.len() - 1].t;
    window.end < window.start || !times.contains(&window.start) || !times.contains(&window.end)
}

/// Check 14: "A box edge is outside −16,000 to 16,000, or a low edge is above its high edge." It reads the record's own
/// limits.
fn bad_box(kind: Kind, area: Area) -> bool {
    let mut edges = [area.left, area.right, area.bottom, area.top].into_iter();
    let outside = |edge: i32| kind.is_outside(edge);
    edges.any(outside) || area.left > area.right || area.bottom > area.top
}

/// The crossing question: checks 1 to 9, 20, 13 and 14. The time is in seconds after the first fix.
pub fn crosses(lent: &[u8], question: &Question) -> Result<Option<Time>, u8> {
    let Trail { kind, fixes, .. } = read(lent)?;
    refuse_if(13, bad_window(question.window, &fixes))?;
    refuse_if(14, bad_box(kind, question.area))?;
    let time = earliest(&fixes, question);
    Ok(time.map(|time| time.since(fixes[0].t)))
}
