//! What an answer about a thinned trail says of the original: the trail as the cart reported it, straight between its
//! fixes but for its silences.
//!
//! Each sentence is the proved claim about agings in plain words, with the record's mark as E: at every moment outside
//! silences the trail is at most E from the original, and both have the same silences. So a place that the trail has
//! outside a box while the original is inside is at most E beyond an edge, and the original at most E before it; and
//! how far the two are from a point differs by at most E. Inside a silence nothing is known of the cart, which a place that is told
//! never is, and which a window or a trail may have.

use crate::trail::Trail;
use crate::words;

/// What is said of every answer: of a thinned trail, at which tolerance, and what the answer then means, given the
/// tolerance, and in words.
fn of(trail: &Trail, means: impl Fn(u16, &str) -> String) -> String {
    let Some(mark) = trail.mark else {
        return "never thinned: this is the trail as the cart reported it".into();
    };
    let e = words::length(mark, trail.unit());
    format!("thinned at {e}: {}", means(mark, &e))
}

/// The same of an answer that at 0 is the original's too, since the two are then at one place at every moment.
fn of_places(trail: &Trail, means: impl Fn(&str) -> String) -> String {
    of(trail, |mark, e| match mark {
        0 => "the trail as the cart reported it says the same".into(),
        _ => means(e),
    })
}

/// Of a place.
pub fn of_place(trail: &Trail) -> String {
    of_places(trail, |e| {
        format!("at that moment the cart, as it reported, was within {e} of the exact place")
    })
}

/// What a promise leaves out, if there are so many silences.
pub fn outside(silences: usize) -> &'static str {
    match silences {
        0 => "",
        1 => ", outside the silence",
        _ => ", outside the silences",
    }
}

/// What a promise leaves out and what isn't known, if there are so many silences; `within` says in what.
fn silent(silences: usize, within: &str) -> (&'static str, String) {
    let unknown = match silences {
        0 => String::new(),
        1 => format!("; of the silence{within} nothing is known"),
        many => format!("; of the {many} silences{within} nothing is known"),
    };
    (outside(silences), unknown)
}

/// Of a crossing: told, or denied, in a window that has so many silences.
pub fn of_crossing(trail: &Trail, told: bool, silences: usize) -> String {
    let (outside, unknown) = silent(silences, " in the window");
    let means = of_places(trail, |e| match told {
        true => format!(
            "at that moment the cart was in the box or within {e} of the box, and if it was in the \
             box earlier in the window{outside}, it was within {e} of an edge"
        ),
        false => format!("if it was in the box then{outside}, it was within {e} of an edge"),
    });
    format!("{means}{unknown}")
}

/// Of all visits in a window that has so many silences, or of none.
pub fn of_visits(trail: &Trail, told: bool, silences: usize) -> String {
    if !told {
        return of_crossing(trail, false, silences);
    }
    let (_, unknown) = silent(silences, " in the window");
    let outside = match silences {
        0 => "",
        1 => " and the silence",
        _ => " and the silences",
    };
    let means = of_places(trail, |e| {
        format!(
            "when a visit began, and at each of its whole seconds, the cart was in the box or within \
             {e} of the box, and if it was in the box at a time of the window outside these \
             visits{outside}, it was within {e} of an edge"
        )
    });
    format!("{means}{unknown}")
}

/// Of an approach within this radius: told, or denied, of a trail that has so many silences. Its leg and time are the
/// thinned trail's own: the original may have other legs, also at 0.
pub fn of_approach(trail: &Trail, told: bool, radius: u32, silences: usize) -> String {
    let (outside, unknown) = silent(silences, "");
    let means = of(trail, |mark, _| {
        let mark = u32::from(mark);
        let within = |reach: u32| {
            let reach = words::length(reach, trail.unit());
            format!("within {reach} of the point")
        };
        let never = |near: &str| format!("the cart, as it reported, was never {near}{outside}");
        match (told, radius.checked_sub(mark)) {
            (true, _) => {
                let wider = within(radius.saturating_add(mark));
                format!("at that moment the cart, as it reported, was {wider}")
            }
            (false, Some(0)) => never("at the point itself"),
            (false, Some(narrower)) => never(&within(narrower)),
            (false, None) => "that is more than the radius, so a no says nothing of the trail as \
                              the cart reported it"
                .into(),
        }
    });
    format!("{means}{unknown}")
}
