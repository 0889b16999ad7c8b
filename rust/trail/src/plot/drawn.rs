//! A trail that is drawn, and what it answers.
//!
//! Where the cart was at a time that is marked is asked of the proved `place`: the picture has no straight lines of its
//! own reckoning, and none across a silence.

use trails::{AnyFix, Area, Moment, Refusal, Window};

use crate::failure::Failure;
use crate::meaning;
use crate::trail::{stretches, Trail};

use super::panel::Circle;

/// A moment of a trail, and where the cart was then.
#[derive(Clone, Copy)]
pub struct Placed {
    pub moment: Moment,
    pub x: f64,
    pub y: f64,
}

impl From<&AnyFix> for Placed {
    fn from(fix: &AnyFix) -> Placed {
        Placed {
            moment: at_second(fix.t),
            x: fix.x.into(),
            y: fix.y.into(),
        }
    }
}

pub fn at_second(second: u32) -> Moment {
    Moment {
        second,
        thousandths: 0,
    }
}

/// Where a trail is at a moment, which isn't inside a silence.
pub fn placed(trail: &Trail, moment: Moment) -> Option<Placed> {
    let place = trails::place(&trail.bytes, moment).ok()?;
    let of = |coordinate: i64| coordinate as f64 / f64::from(place.denominator.max(1));
    Some(Placed {
        moment,
        x: of(place.x),
        y: of(place.y),
    })
}

/// What all trails of a picture are asked.
#[derive(Clone, Copy)]
pub struct Questions {
    pub area: Option<Area>,
    pub window: Option<Window>,
    /// whether the window is cut to each trail's own times
    pub within: bool,
    pub circle: Option<Circle>,
}

/// What is said of an answer and, of a yes, what is marked.
pub struct Told {
    pub words: String,
    pub mark: Option<Placed>,
}

impl Told {
    fn no(words: String) -> Told {
        Told { words, mark: None }
    }

    /// A yes at a time, cut as the answers of `cross` and `near` are.
    fn yes(trail: &Trail, words: &str, numerator: u64, denominator: u64) -> Told {
        let moment = trail.moment(numerator, denominator);
        Told {
            words: format!("{words} at {}", trail.clock.show_moment(moment)),
            mark: placed(trail, moment),
        }
    }
}

pub struct Drawn {
    pub name: String,
    pub trail: Trail,
    /// the tolerance whose band is drawn
    pub tolerance: Option<u16>,
    /// the part of the window that it has
    pub window: Option<Window>,
    /// whether it is in the box
    pub crossing: Option<Told>,
    /// whether it comes near the point
    pub approach: Option<Told>,
}

/// All of the hall: where no box is given it stands for one, so that a bad window is refused even if it stands alone.
fn hall(trail: &Trail) -> Area {
    let most = trail.unit().limits().place;
    Area {
        left: -most,
        right: most,
        bottom: -most,
        top: most,
    }
}

/// Whether the trail is in the box.
fn crossing(trail: &Trail, area: Area, window: Window) -> Result<Told, Refusal> {
    let first = trails::crosses(&trail.bytes, area, window)?;
    Ok(match first {
        Some(first) => {
            let denominator = first.denominator.into();
            Told::yes(trail, "first in the box", first.numerator, denominator)
        }
        None => {
            let within = match window == trail.times() {
                true => "",
                false => " in the window",
            };
            let outside = meaning::outside(trail.silences_in(window));
            Told::no(format!("never in the box{within}{outside}"))
        }
    })
}

/// Whether the trail comes near the point, and when it is closest on the first leg that does.
fn approach(trail: &Trail, circle: Option<Circle>) -> Result<Option<Told>, Refusal> {
    let Some(circle) = circle else {
        return Ok(None);
    };
    let closest = trails::near(&trail.bytes, circle.point, circle.radius)?;
    Ok(Some(match closest {
        Some(on) => {
            let words = format!("closest on leg {}", on.leg);
            Told::yes(trail, &words, on.numerator, on.denominator)
        }
        None => {
            let near = circle.words(trail.unit());
            let outside = meaning::outside(trail.silences().count());
            Told::no(format!("never {near}{outside}"))
        }
    }))
}

impl Drawn {
    /// Asks a trail.
    pub fn ask(
        name: String,
        trail: Trail,
        questions: &Questions,
        tolerance: Option<u16>,
    ) -> Result<Drawn, Failure> {
        let refused = |refusal| trail.refused(refusal);
        let area = questions.area.unwrap_or(hall(&trail));
        let window = trail.asked(area, questions.window, questions.within)?;
        let told = match window {
            Some(window) => crossing(&trail, area, window).map_err(refused)?,
            None => Told::no("no time in the window".into()),
        };
        Ok(Drawn {
            name,
            approach: approach(&trail, questions.circle).map_err(refused)?,
            crossing: questions.area.map(|_| told),
            window: window.filter(|_| questions.window.is_some()),
            tolerance,
            trail,
        })
    }

    /// Where it is marked, each with its class.
    pub fn marks(&self) -> impl Iterator<Item = (&'static str, Placed)> + '_ {
        let answers = [("first", &self.crossing), ("closest", &self.approach)];
        let marks = answers.into_iter();
        marks.filter_map(|(class, answer)| Some((class, answer.as_ref()?.mark?)))
    }

    /// What of it is in the window: a line for each stretch that has some of it. Where the window begins or ends inside
    /// a silence, the line begins or ends with the stretch.
    pub fn in_window(&self) -> impl Iterator<Item = Vec<Placed>> + '_ {
        let stretches = stretches(&self.trail.fixes);
        stretches.filter_map(|stretch| self.part(stretch, self.window?))
    }

    fn part(&self, stretch: &[AnyFix], window: Window) -> Option<Vec<Placed>> {
        let (first, last) = (stretch.first()?.t, stretch.last()?.t);
        let (from, to) = (first.max(window.start), last.min(window.end));
        if from > to {
            return None;
        }
        let end = |second| placed(&self.trail, at_second(second));
        let start = (first < from).then(|| end(from)).flatten();
        let fixes = stretch.iter().filter(|fix| (from..=to).contains(&fix.t));
        let end = (to < last).then(|| end(to)).flatten();
        let all = start.into_iter().chain(fixes.map(Placed::from));
        Some(all.chain(end).collect())
    }
}
