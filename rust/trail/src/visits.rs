//! Every visit to a box, to the second, from answers of the proved crossing alone.
//!
//! The crossing tells the earliest time of a window at which the cart is in the box. So it is asked again of the window
//! that begins with the next whole second, until it says no. Where it tells just that second the cart is still there, and
//! else it was outside then: its visit has ended, and another begins at the told time. Nothing else is computed, so a
//! cart that is out and in again between two whole seconds is told as if it had stayed, and when it left is known to the
//! second. Inside a silence nobody knows whether it left: a visit ends with one that begins.

use trails::{Area, Crossing, Refusal, Window};

use crate::json::Json;
use crate::trail::{Silence, Trail};
use crate::yes_or_no::Time;

pub struct Visit {
    /// its first time
    begin: Crossing,
    /// the last whole second at which the cart was seen in the box, if there is one
    last: Option<u32>,
    end: End,
}

/// How a visit ended.
enum End {
    /// At this second the cart wasn't in the box any more.
    Out(u32),
    /// The cart was in the box when it fell silent.
    Silent(Silence),
    /// The cart was in the box at this second, with which the window ended.
    Window(u32),
}

/// When the crossing tells that the cart was in the box: the second, and whether at just that one or later in it.
struct Seen {
    second: u32,
    just: bool,
}

impl Seen {
    fn of(trail: &Trail, crossing: Crossing) -> Seen {
        let denominator = u64::from(crossing.denominator.max(1));
        let after = crossing.numerator / denominator;
        Seen {
            // no told time is later than the trail's last second
            second: trail.first().saturating_add(after as u32),
            just: crossing.numerator.is_multiple_of(denominator),
        }
    }
}

impl Visit {
    /// A visit that begins so, and as far as is known yet ends in the same second.
    fn begin(trail: &Trail, begin: Crossing, seen: &Seen, window: Window) -> Visit {
        Visit {
            begin,
            last: seen.just.then_some(seen.second),
            end: End::after(trail, seen.second, window),
        }
    }

    /// Whether the cart hasn't left as far as whole seconds tell, since it is seen at the very next one.
    fn goes_on(&self, seen: &Seen) -> bool {
        seen.just && matches!(self.end, End::Out(second) if second == seen.second)
    }

    fn go_on(&mut self, trail: &Trail, second: u32, window: Window) {
        self.last = Some(second);
        self.end = End::after(trail, second, window);
    }
}

impl End {
    /// How a visit ends that is seen in no later second than this.
    fn after(trail: &Trail, second: u32, window: Window) -> End {
        let silence = trail.silences().find(|(from, _)| *from == second);
        match silence {
            _ if second >= window.end => End::Window(second),
            Some(silence) => End::Silent(silence),
            None => End::Out(second.saturating_add(1)),
        }
    }
}

/// All visits to a box in a window, in order.
pub fn visits(trail: &Trail, area: Area, window: Window) -> Result<Vec<Visit>, Refusal> {
    let mut visits: Vec<Visit> = Vec::new();
    let mut rest = window;
    while let Some(crossing) = trails::crosses(&trail.bytes, area, rest)? {
        let seen = Seen::of(trail, crossing);
        match visits.last_mut().filter(|visit| visit.goes_on(&seen)) {
            Some(visit) => visit.go_on(trail, seen.second, rest),
            None => visits.push(Visit::begin(trail, crossing, &seen, rest)),
        }
        if seen.second >= rest.end {
            break;
        }
        rest.start = seen.second.saturating_add(1);
    }
    Ok(visits)
}

impl Visit {
    /// What people are told of it.
    pub fn text(&self, trail: &Trail) -> String {
        let show = |second: u32| trail.clock.show(second);
        let begin = Time::from(self.begin).text(trail);
        let end = match (&self.end, self.last) {
            (End::Out(second), Some(last)) => {
                format!("out between {} and {}", show(last), show(*second))
            }
            (End::Out(second), None) => format!("out before {}", show(*second)),
            (End::Silent((from, to)), _) => {
                format!("silent from {} to {}", show(*from), show(*to))
            }
            (End::Window(second), _) => {
                format!("still in at {}, when the window ends", show(*second))
            }
        };
        format!("visit: in {begin}, {end}")
    }

    /// What programs are told of it.
    pub fn answer(&self) -> Json {
        let second = |second: Option<u32>| second.map_or(Json::Null, |s| Json::Whole(s.into()));
        let (out, silent) = match self.end {
            End::Out(second) => (Some(second), None),
            End::Silent((_, to)) => (None, Some(to)),
            End::Window(_) => (None, None),
        };
        Json::Object(vec![
            ("numerator", Json::Whole(self.begin.numerator.into())),
            ("denominator", Json::Whole(self.begin.denominator.into())),
            ("last", second(self.last)),
            ("out", second(out)),
            ("silent_to", second(silent)),
        ])
    }
}
