//! What each mark means, in rows above the panels.

use trails::AnyFix;

use crate::words;

use super::drawn::{Drawn, Placed, Told};
use super::layers::{draw_area, MARK, RING};
use super::panel::{LEFT, RIGHT};
use super::picture::{Frame, Picture};
use super::plane::{draw_circle, draw_end, draw_start};
use super::svg::{Anchor, Spot, Svg};
use super::text::{width, SIZE};

/// How wide a sample is with the gap before its words, and how far the next sample is from them.
pub const SAMPLE: f64 = 28.0;
pub const GAP: f64 = 16.0;

/// How far apart rows are.
pub const ROW: f64 = 19.0;

/// The class of a mark, and the words for it.
type Meaning = (&'static str, String);

/// The meanings, each with the spot where it begins.
pub struct Legend {
    meanings: Vec<(Spot, Meaning)>,
    bottom: f64,
}

/// What a mark looks like, right of a spot on the words' line.
pub fn draw_sample(svg: &mut Svg, class: &str, (x, y): Spot) {
    let middle = (x + 11.0, y - 4.0);
    let ends = [(x, y - 4.0), (x + 22.0, y - 4.0)];
    match class {
        "trail" | "original" => svg.path(class, ends.into_iter()),
        "fix" => svg.circle(class, middle, 3.2),
        "start" => draw_start(svg, middle),
        "end" => draw_end(svg, middle),
        "first" | "closest" => svg.circle(class, middle, MARK),
        "silence" => svg.circle(class, middle, 3.2 + RING),
        "near" => draw_circle(svg, middle, 7.0),
        "within" => svg.group("bands", |svg| {
            svg.rectangle(class, (x, y - 10.0), (x + 22.0, y + 2.0));
        }),
        _ => draw_area(svg, class, (x, y - 10.0), (x + 22.0, y + 2.0)),
    }
}

/// A meaning, if what it is of is there.
fn if_there(there: bool, class: &'static str, words: &str) -> Option<Meaning> {
    there.then(|| (class, words.into()))
}

/// Of one trail: what is asked about, and beside it the mark of a yes. A no is said in its place.
fn of_one(class: &'static str, words: &str, mark: &'static str, answer: &Told) -> Vec<Meaning> {
    match answer.mark {
        Some(_) => vec![(class, words.into()), (mark, answer.words.clone())],
        None => vec![(class, answer.words.clone())],
    }
}

impl Legend {
    /// The legend of what is shown of a picture, from this height downward.
    pub fn of(picture: &Picture, shown: &Frame, top: f64) -> Legend {
        let (mut x, mut y) = (LEFT, top + ROW - 4.0);
        let mut meanings = Vec::new();
        for (class, words) in picture.meanings(shown) {
            let room = SAMPLE + width(&words, SIZE);
            if x > LEFT && x + room > RIGHT {
                (x, y) = (LEFT, y + ROW);
            }
            meanings.push(((x, y), (class, words)));
            x += room + GAP;
        }
        let bottom = y + 6.0;
        Legend { meanings, bottom }
    }

    pub fn bottom(&self) -> f64 {
        self.bottom
    }

    pub fn draw(&self, svg: &mut Svg) {
        for ((x, y), (class, words)) in &self.meanings {
            draw_sample(svg, class, (*x, *y));
            svg.text("words", (x + SAMPLE, *y), Anchor::Start, words);
        }
    }
}

impl Picture {
    /// What is drawn in this picture, and what each mark means.
    fn meanings(&self, shown: &Frame) -> Vec<Meaning> {
        let one = self.trails.len() == 1;
        let shows = |fix: &AnyFix| self.shows(shown, &Placed::from(fix));
        let any = |of: fn(&[AnyFix]) -> Option<&AnyFix>| {
            let mut fixes = self
                .trails
                .iter()
                .filter_map(|drawn| of(&drawn.trail.fixes));
            fixes.any(shows)
        };
        let silences = self.silence_ends().into_iter().any(shows);
        let marks = [
            if_there(one, "trail", "trail"),
            if_there(self.original.is_some(), "original", "original"),
            if_there(shown.radius.is_some(), "fix", "kept fix"),
            if_there(any(|fixes| fixes.first()), "start", "start"),
            if_there(any(|fixes| fixes.last()), "end", "end"),
            if_there(silences, "silence", "end of a silence"),
            self.band(),
            self.window(),
        ];
        let near = self.questions.circle.map(|circle| circle.words(self.unit));
        let first = ("first", "first in the box");
        let closest = ("closest", "closest on the first leg within it");
        let area = self.asked("box", "box", first, |drawn| drawn.crossing.as_ref());
        let near = near.unwrap_or_default();
        let circle = self.asked("near", &near, closest, |drawn| drawn.approach.as_ref());
        marks
            .into_iter()
            .flatten()
            .chain(area)
            .chain(circle)
            .collect()
    }

    /// What is asked about, and the marks of those that say yes. Of several trails their names say when.
    fn asked(
        &self,
        class: &'static str,
        words: &str,
        (mark, meaning): (&'static str, &str),
        of: fn(&Drawn) -> Option<&Told>,
    ) -> Vec<Meaning> {
        let answers: Vec<&Told> = self.trails.iter().filter_map(of).collect();
        match answers.as_slice() {
            [] => Vec::new(),
            [one] => of_one(class, words, mark, one),
            many => {
                let marked = many.iter().any(|answer| answer.mark.is_some());
                let mark = if_there(marked, mark, meaning);
                [(class, words.into())].into_iter().chain(mark).collect()
            }
        }
    }

    /// The window, and if the plane has nothing of it, why.
    fn window(&self) -> Option<Meaning> {
        self.questions.window?;
        let known = self.trails.iter().any(|of| of.in_window().next().is_some());
        let has_times = self.trails.iter().any(|of| of.window.is_some());
        let words = match (known, has_times) {
            (true, _) => "window",
            (false, true) => "window, all of it in a silence",
            (false, false) => "window, at other times than the trail's",
        };
        Some(("window", words.into()))
    }

    /// The band around each trail.
    fn band(&self) -> Option<Meaning> {
        let tolerances: Vec<u16> = self.trails.iter().filter_map(|of| of.tolerance).collect();
        let (least, most) = (tolerances.iter().min()?, tolerances.iter().max()?);
        let words = match least == most {
            true => format!("within {} of the trail", words::length(*most, self.unit)),
            false => "within its mark of each trail".into(),
        };
        Some(("within", words))
    }
}
