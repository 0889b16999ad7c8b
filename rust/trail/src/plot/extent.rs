//! What the axes show: everything, or what `--zoom` names.

use trails::Area;

use super::drawn::{Drawn, Placed};
use super::panel::{Circle, Side, X, Y};
use super::picture::{Picture, Zoom};
use super::scale::Interval;

/// A margin, as a part of what is shown.
const MARGIN: f64 = 0.05;

/// A margin around what is zoomed to.
const AROUND: f64 = 0.25;

/// The fewest seconds that are zoomed to.
const SECONDS: f64 = 10.0;

impl Picture {
    /// So many centimetres in the trails' unit.
    fn centimetres(&self, count: f64) -> f64 {
        count * f64::from(self.unit.limits().per_centimetre)
    }

    /// What the axes of time show.
    pub fn times(&self) -> Interval {
        if let (Some(Zoom::Window), Some(window)) = (self.zoom, self.questions.window) {
            let ends = [window.start, window.end].into_iter();
            let all = Interval::of(ends.map(|second| self.seconds(second)));
            return all.wider(all.length() * MARGIN).at_least(SECONDS);
        }
        let all = self.fixes().map(|fix| self.seconds(fix.t));
        let all = Interval::of(all).at_least(1.0);
        all.wider(all.length() * 0.02)
    }

    /// What an axis of places shows.
    pub fn interval(&self, side: &Side) -> Interval {
        let zoomed = match self.zoom {
            Some(Zoom::Box) => self.questions.area.map(|area| self.at_box(side, &area)),
            Some(Zoom::Point) => self
                .questions
                .circle
                .map(|circle| self.at_circle(side, &circle)),
            Some(Zoom::Window) => self.at_window(side),
            None => None,
        };
        let everything = self.everything(side);
        let least = self.centimetres(100.0).min(everything.length());
        // of a window that is inside a silence no place is known
        zoomed.map_or(everything, |zoomed| zoomed.at_least(least))
    }

    fn at_box(&self, side: &Side, area: &Area) -> Interval {
        let of = |side: &Side| {
            let (low, high) = (side.edges)(area);
            Interval { low, high }
        };
        let widest = of(&X).length().max(of(&Y).length());
        of(side).wider(AROUND * widest)
    }

    fn at_circle(&self, side: &Side, circle: &Circle) -> Interval {
        let radius = f64::from(circle.radius) * (1.0 + AROUND);
        Interval::about((side.point)(circle), radius)
    }

    /// Where the trails are in the window, if that is known.
    fn at_window(&self, side: &Side) -> Option<Interval> {
        let parts = self.trails.iter().flat_map(Drawn::in_window);
        let mut places = parts.flatten().map(|placed| (side.of)(&placed)).peekable();
        places.peek()?;
        let all = Interval::of(places);
        Some(all.wider(all.length() * MARGIN))
    }

    /// From where to where all fixes, the box and the point are on this side, and a decimetre at least.
    fn extent(&self, side: &Side) -> Interval {
        let edges = self.questions.area.as_ref().map(side.edges);
        let edges = edges.into_iter().flat_map(|(low, high)| [low, high]);
        let point = self.questions.circle.as_ref().map(side.point);
        let fixes = self.fixes().map(|fix| (side.of)(&Placed::from(fix)));
        Interval::of(fixes.chain(edges).chain(point)).at_least(self.centimetres(10.0))
    }

    /// All fixes, the box and the point; the band, unless it is wider than all of that; and the circle, unless its radius
    /// is more than all of that is wide on either side, since on the plane they have one scale.
    fn everything(&self, side: &Side) -> Interval {
        let all = self.extent(side);
        let tolerances = self.trails.iter().filter_map(|drawn| drawn.tolerance);
        let band = f64::from(tolerances.max().unwrap_or(0)).min(all.length());
        let shown = match &self.questions.circle {
            Some(circle) => {
                let widest = self.extent(&X).length().max(self.extent(&Y).length());
                let radius = f64::from(circle.radius).min(widest);
                all.wider(band)
                    .and(Interval::about((side.point)(circle), radius))
            }
            None => all.wider(band),
        };
        shown.wider(all.length() * MARGIN)
    }
}
