//! What every panel has: the trails with their bands, their fixes and their marks.

use trails::AnyFix;

use crate::trail::{stretches, Trail};

use super::drawn::{Drawn, Placed};
use super::original::Original;
use super::panel::Panel;
use super::path::{inside, spaced, wider};
use super::picture::{Frame, Picture};
use super::scale::Interval;
use super::style;
use super::svg::{Spot, Svg};

/// How much wider than its fix the ring at an end of a silence is: around a fix of few it is seen around what marks the
/// first time in a box.
pub const RING: f64 = 3.8;

/// How far beyond a panel lines go on.
pub const BEYOND: f64 = 20.0;

/// How great the marks of answers are.
pub const MARK: f64 = 5.0;

/// A panel, where it has a place, and which times are shown.
pub struct View<'a> {
    pub panel: &'a Panel,
    pub times: Interval,
    pub spot: &'a dyn Fn(&Placed) -> Spot,
}

impl View<'_> {
    /// The lines of these places, as far as they can be seen: `width` is how far beside a line that is.
    pub fn lines(&self, places: &[Placed], width: f64) -> Vec<Vec<Spot>> {
        let spots: Vec<Spot> = places.iter().map(self.spot).collect();
        inside(&spots, wider(self.panel.corners(), width))
    }
}

/// A box, which may have no width: around one that is too small to be seen a cross shows where it is.
pub fn draw_area(svg: &mut Svg, class: &str, one: Spot, other: Spot) {
    const SMALL: f64 = 5.0;
    const ARMS: [(f64, f64); 4] = [(1.0, 0.0), (-1.0, 0.0), (0.0, 1.0), (0.0, -1.0)];
    svg.rectangle(class, one, other);
    let (wide, high) = ((one.0 - other.0).abs(), (one.1 - other.1).abs());
    if wide.max(high) >= SMALL {
        return;
    }
    let (x, y) = ((one.0 + other.0) / 2.0, (one.1 + other.1) / 2.0);
    for (across, down) in ARMS {
        let at = |far: f64| (x + far * across, y + far * down);
        svg.line("finder", at(8.0), at(15.0));
    }
}

impl Picture {
    /// Draws something of each trail, in its colour if there are several.
    pub fn each(&self, svg: &mut Svg, draw: impl Fn(&mut Svg, &Drawn)) {
        let several = self.trails.len() > 1;
        for (number, drawn) in self.trails.iter().enumerate() {
            match several {
                true => svg.group(&style::of_trail(number), |svg| draw(svg, drawn)),
                false => draw(svg, drawn),
            }
        }
    }

    /// How far apart spots of a line are drawn: where there are many trails no finer than a viewer sees, so that the
    /// file stays small.
    pub fn apart(&self) -> f64 {
        if self.trails.len() > 8 {
            0.75
        } else {
            0.25
        }
    }

    /// A trail's stretches, as far as their times are shown: on the plane too, or what isn't in the window that is zoomed
    /// to would hide what is.
    pub fn stretches<'a>(
        &'a self,
        view: &View,
        trail: &'a Trail,
    ) -> impl Iterator<Item = Vec<Placed>> + 'a {
        let times = view.times;
        stretches(&trail.fixes).map(move |stretch| {
            let time = |fix: &AnyFix| self.seconds(fix.t);
            let first = stretch.partition_point(|fix| time(fix) < times.low);
            let last = stretch.partition_point(|fix| time(fix) <= times.high);
            // the legs to the first fix and from the last one are shown in part
            let (first, last) = match first < stretch.len() && last > 0 {
                true => (first.saturating_sub(1), (last + 1).min(stretch.len())),
                false => (0, 0),
            };
            let fixes = stretch.get(first..last).unwrap_or_default();
            fixes.iter().map(Placed::from).collect()
        })
    }

    /// A trail's lines, of each stretch one, and none across a silence; `width` is how far beside them is seen.
    pub fn lines_of(&self, view: &View, trail: &Trail, width: f64) -> Vec<Vec<Spot>> {
        let lines = |places: Vec<Placed>| view.lines(&places, width);
        self.stretches(view, trail).flat_map(lines).collect()
    }

    /// Lines of this class, without spots that nobody could tell apart.
    pub fn draw_paths(&self, svg: &mut Svg, class: &str, lines: &[Vec<Spot>]) {
        for line in lines {
            svg.path(class, spaced(line, self.apart()).into_iter());
        }
    }

    /// The trails, each with its silences left open. The original is drawn above its trail where the two differ, and
    /// where they don't, broader and under it: so both are always seen.
    pub fn draw_lines(&self, svg: &mut Svg, view: &View) {
        let original = |above| {
            let of = |original: &Original| original.lines(self, view, above);
            self.original.as_ref().map(of).unwrap_or_default()
        };
        self.draw_paths(svg, "under", &original(false));
        self.each(svg, |svg, drawn| {
            self.draw_paths(svg, "trail", &self.lines_of(view, &drawn.trail, BEYOND));
        });
        self.draw_paths(svg, "original", &original(true));
    }

    /// The trails' fixes, if they are shown, and around them the ends of silences.
    pub fn draw_fixes(&self, svg: &mut Svg, frame: &Frame, view: &View) {
        let shown = |fix: &&AnyFix| self.shows(frame, &Placed::from(*fix));
        let draw = |svg: &mut Svg, class: &str, fixes: &[&AnyFix], radius: f64| {
            for fix in fixes.iter().copied().filter(shown) {
                svg.circle(class, (view.spot)(&fix.into()), radius);
            }
        };
        if let Some(radius) = frame.radius {
            self.each(svg, |svg, drawn| {
                let fixes: Vec<&AnyFix> = drawn.trail.fixes.iter().collect();
                draw(svg, "fix", &fixes, radius);
            });
        }
        let radius = frame.radius.map_or(3.0, |radius| radius + RING);
        draw(svg, "silence", &self.silence_ends(), radius);
    }

    /// Both ends of every silence, of each trail once; an original has those of its trail.
    pub fn silence_ends(&self) -> Vec<&AnyFix> {
        let trails = self.trails.iter();
        let legs = trails.flat_map(|drawn| drawn.trail.silent_legs());
        let mut ends: Vec<&AnyFix> = legs.flat_map(|(from, to)| [from, to]).collect();
        ends.dedup();
        ends
    }

    /// Where the trails are first in the box, and where they are closest to the point.
    pub fn draw_marks(&self, svg: &mut Svg, frame: &Frame, view: &View) {
        let marks = self.trails.iter().flat_map(Drawn::marks);
        for (class, mark) in marks.filter(|(_, mark)| self.shows(frame, mark)) {
            svg.circle(class, (view.spot)(&mark), MARK);
        }
    }
}
