//! One coordinate against time.

use super::drawn::Drawn;
use super::layers::{draw_area, View, BEYOND};
use super::panel::{numbers_up, Panel, Side, LEFT};
use super::path::spaced;
use super::picture::{Frame, Picture};
use super::svg::{Anchor, Spot, Svg};

impl Picture {
    pub fn draw_over_time(&self, svg: &mut Svg, frame: &Frame, side: &Side, panel: &Panel) {
        let ticks = self.time_ticks(panel);
        panel.grid(svg, &ticks, &numbers_up(&panel.up));
        let view = View {
            panel,
            times: frame.times(),
            spot: &|placed| panel.at(self.time(placed.moment), (side.of)(placed)),
        };
        let (one, other) = panel.corners();
        svg.inside(&format!("{}-over-time", side.name), one, other, |svg| {
            self.draw_bands_over_time(svg, &view);
            self.draw_asked_over_time(svg, side, panel);
            self.draw_lines(svg, &view);
            self.draw_fixes(svg, frame, &view);
            self.draw_marks(svg, frame, &view);
        });
        let above = (LEFT - 6.0, one.1 - 12.0);
        svg.text("words", above, Anchor::End, &self.named(side));
    }

    /// Up to the tolerance above and below each trail.
    fn draw_bands_over_time(&self, svg: &mut Svg, view: &View) {
        let up = view.panel.up;
        let draw = |svg: &mut Svg, drawn: &Drawn| {
            let Some(e) = drawn.tolerance else {
                return;
            };
            let by = up.room(e.into());
            // what is above or below a panel may have its band in it
            for line in self.lines_of(view, &drawn.trail, by.max(BEYOND)) {
                let line = spaced(&line, self.apart());
                let beside = |by: f64| move |(x, y): &Spot| (*x, y + by);
                let above = line.iter().map(beside(-by));
                let below = line.iter().rev().map(beside(by));
                svg.area("within", above.chain(below));
            }
        };
        svg.group("bands", |svg| self.each(svg, draw));
    }

    /// The window from top to bottom, the box's edges on this side as long as it is asked for, and the point with the
    /// circle's, always.
    fn draw_asked_over_time(&self, svg: &mut Svg, side: &Side, panel: &Panel) {
        let ((left, top), (right, bottom)) = panel.corners();
        // beyond the panel, so that only edges are seen that are there
        let all = (left - 9.0, right + 9.0);
        let window = self.questions.window.map(|window| {
            let edge = |second: u32| panel.across.at(self.seconds(second));
            let [start, end] = [window.start, window.end].map(edge);
            (start.clamp(all.0, all.1), end.clamp(all.0, all.1))
        });
        if let Some((start, end)) = window {
            svg.rectangle("window", (start, top - 9.0), (end, bottom + 9.0));
        }
        let (start, end) = window.unwrap_or(all);
        if let Some((low, high)) = self.questions.area.as_ref().map(side.edges) {
            let (low, high) = (panel.up.at(low), panel.up.at(high));
            draw_area(svg, "box", (start, low), (end, high));
        }
        if let Some(circle) = &self.questions.circle {
            let (point, radius) = ((side.point)(circle), f64::from(circle.radius));
            let [low, middle, high] =
                [point - radius, point, point + radius].map(|c| panel.up.at(c));
            svg.rectangle("near", (all.0, low), (all.1, high));
            svg.line("reach", (left, middle), (right, middle));
        }
    }
}
