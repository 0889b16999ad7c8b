//! The plane: where the carts were.

use trails::AnyFix;

use super::arrows::heads;
use super::drawn::{Drawn, Placed};
use super::layers::{draw_area, View, BEYOND};
use super::panel::{numbers_across, numbers_up, LEFT, RIGHT, X, Y};
use super::path::spaced;
use super::picture::{Frame, Picture};
use super::svg::{Anchor, Spot, Svg};

/// A circle with a cross at its point.
pub fn draw_circle(svg: &mut Svg, (x, y): Spot, radius: f64) {
    const ARM: f64 = 4.0;
    svg.circle("near", (x, y), (10.0 * radius).round() / 10.0);
    svg.line("point", (x - ARM, y), (x + ARM, y));
    svg.line("point", (x, y - ARM), (x, y + ARM));
}

/// Where a trail begins.
pub fn draw_start(svg: &mut Svg, (x, y): Spot) {
    const HALF: f64 = 7.0;
    let corners = [(x, y - HALF), (x + HALF, y), (x, y + HALF), (x - HALF, y)];
    svg.area("start", corners.into_iter());
}

/// Where it ends: open, so that a start at the same place is seen.
pub fn draw_end(svg: &mut Svg, (x, y): Spot) {
    const HALF: f64 = 7.0;
    svg.rectangle("end", (x - HALF, y - HALF), (x + HALF, y + HALF));
}

impl Picture {
    pub fn draw_plane(&self, svg: &mut Svg, frame: &Frame) {
        let panel = &frame.plane;
        panel.grid(svg, &numbers_across(&panel.across), &numbers_up(&panel.up));
        let view = View {
            panel,
            times: frame.times(),
            spot: &|placed| panel.at((X.of)(placed), (Y.of)(placed)),
        };
        let (one, other) = panel.corners();
        svg.inside("plane", one, other, |svg| {
            self.draw_bands(svg, &view);
            self.draw_parts(svg, &view);
            self.draw_asked(svg, &view);
            self.draw_lines(svg, &view);
            self.draw_arrows(svg, &view);
            self.draw_fixes(svg, frame, &view);
            self.draw_ends(svg, frame, &view);
            self.draw_marks(svg, frame, &view);
        });
        let (across, up) = ((RIGHT, panel.row(1)), (LEFT - 6.0, one.1 - 12.0));
        svg.text("words", across, Anchor::End, &self.named(&X));
        svg.text("words", up, Anchor::End, &self.named(&Y));
    }

    /// Up to the tolerance around each trail.
    fn draw_bands(&self, svg: &mut Svg, view: &View) {
        let draw = |svg: &mut Svg, drawn: &Drawn| {
            let Some(e) = drawn.tolerance else {
                return;
            };
            let width = view.panel.across.room(2.0 * f64::from(e));
            for line in self.lines_of(view, &drawn.trail, width) {
                svg.wide_path("band", width, spaced(&line, self.apart()).into_iter());
            }
        };
        svg.group("bands", |svg| self.each(svg, draw));
    }

    /// What of each trail is in the window.
    fn draw_parts(&self, svg: &mut Svg, view: &View) {
        let parts = self.trails.iter().flat_map(Drawn::in_window);
        let lines: Vec<Vec<Spot>> = parts.flat_map(|part| view.lines(&part, BEYOND)).collect();
        svg.group("parts", |svg| self.draw_paths(svg, "part", &lines));
    }

    /// Where each trail goes: of forty an arrow each, or two.
    fn draw_arrows(&self, svg: &mut Svg, view: &View) {
        let most = (60 / self.trails.len().max(1)).clamp(1, 24);
        self.each(svg, |svg, drawn| {
            for corners in heads(&self.lines_of(view, &drawn.trail, 0.0), most) {
                svg.area("arrow", corners.into_iter());
            }
        });
    }

    /// The box, and the circle about the point, which has one scale in x and in y, and from the point to where a cart is
    /// closest.
    fn draw_asked(&self, svg: &mut Svg, view: &View) {
        let panel = view.panel;
        if let Some(area) = &self.questions.area {
            let ((left, right), (bottom, top)) = ((X.edges)(area), (Y.edges)(area));
            draw_area(svg, "box", panel.at(left, bottom), panel.at(right, top));
        }
        let Some(circle) = &self.questions.circle else {
            return;
        };
        let point = panel.at((X.point)(circle), (Y.point)(circle));
        draw_circle(svg, point, panel.across.room(circle.radius.into()));
        let answers = self
            .trails
            .iter()
            .filter_map(|drawn| drawn.approach.as_ref());
        for mark in answers.filter_map(|answer| answer.mark) {
            svg.line("reach", point, (view.spot)(&mark));
        }
    }

    /// Where each trail begins and ends.
    fn draw_ends(&self, svg: &mut Svg, frame: &Frame, view: &View) {
        self.each(svg, |svg, drawn| {
            let fixes = &drawn.trail.fixes;
            let placed = |fix: Option<&AnyFix>| Some(Placed::from(fix?));
            let shown = |placed: &Placed| self.shows(frame, placed);
            let [start, end] = [fixes.first(), fixes.last()].map(|fix| placed(fix).filter(shown));
            if let Some(start) = start {
                draw_start(svg, (view.spot)(&start));
            }
            if let Some(end) = end {
                draw_end(svg, (view.spot)(&end));
            }
        });
    }
}
