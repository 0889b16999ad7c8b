//! A panel of the picture: two axes with a grid, and what is drawn between them.

use trails::{Area, Point, Unit};

use crate::words;

use super::drawn::Placed;
use super::path::Corners;
use super::scale::{Axis, Interval};
use super::svg::{Anchor, Spot, Svg};
use super::text::{width, SIZE};

/// How wide the picture is, and from where to where its panels are.
pub const WIDTH: f64 = 800.0;
pub const LEFT: f64 = 68.0;
pub const RIGHT: f64 = 772.0;

/// How far below a panel the first row of labels stands, and each further row below that.
const FIRST_ROW: f64 = 16.0;
const NEXT_ROW: f64 = 15.0;

/// A value of an axis that has a line and a label, and what stands below the label.
pub struct Tick {
    pub at: f64,
    pub words: String,
    pub below: String,
}

/// Round numbers, so many at most.
fn numbers(interval: &Interval, most: f64) -> Vec<Tick> {
    let ticks = interval.ticks((most as usize).max(2)).into_iter();
    let tick = |number: i64| Tick {
        at: number as f64,
        words: number.to_string(),
        below: String::new(),
    };
    ticks.map(tick).collect()
}

/// Round numbers for an axis across, whose labels stand side by side.
pub fn numbers_across(axis: &Axis) -> Vec<Tick> {
    const GAP: f64 = 16.0;
    let ends = [axis.interval.low, axis.interval.high];
    let widest = ends.map(|end| width(&format!("{end:.0}"), SIZE));
    let widest = widest.into_iter().fold(0.0, f64::max);
    numbers(&axis.interval, axis.drawn() / (widest + GAP))
}

/// Round numbers for an axis upward, whose labels stand one above the other.
pub fn numbers_up(axis: &Axis) -> Vec<Tick> {
    numbers(&axis.interval, axis.drawn() / 32.0)
}

#[derive(Clone, Copy)]
pub struct Panel {
    pub across: Axis,
    pub up: Axis,
}

impl Panel {
    /// As wide as the picture allows, from one height to another downward.
    pub fn between(across: Interval, up: Interval, (top, bottom): (f64, f64)) -> Panel {
        let axis = |interval, from, to| Axis { interval, from, to };
        Panel {
            across: axis(across, LEFT, RIGHT),
            up: axis(up, bottom, top),
        }
    }

    pub fn at(&self, across: f64, up: f64) -> Spot {
        (self.across.at(across), self.up.at(up))
    }

    pub fn corners(&self) -> Corners {
        let (across, up) = (&self.across, &self.up);
        ((across.from, up.to), (across.to, up.from))
    }

    /// Where the row of this number below the panel stands, the labels' being 0.
    pub fn row(&self, number: usize) -> f64 {
        self.up.from + FIRST_ROW + NEXT_ROW * number as f64
    }

    /// Lines and labels at these values, and the frame.
    pub fn grid(&self, svg: &mut Svg, columns: &[Tick], rows: &[Tick]) {
        let ((left, top), (right, bottom)) = self.corners();
        for tick in columns {
            let x = self.across.at(tick.at);
            svg.line("grid", (x, top), (x, bottom));
            self.label(svg, x, tick);
        }
        for tick in rows {
            let y = self.up.at(tick.at);
            svg.line("grid", (left, y), (right, y));
            svg.text("soft", (left - 6.0, y + 4.0), Anchor::End, &tick.words);
        }
        svg.rectangle("frame", (left, top), (right, bottom));
    }

    /// A label below the panel, whole: at the picture's edge it moves inward.
    fn label(&self, svg: &mut Svg, x: f64, tick: &Tick) {
        for (row, words) in [&tick.words, &tick.below].into_iter().enumerate() {
            let last = WIDTH - 3.0 - width(words, SIZE) / 2.0;
            if !words.is_empty() {
                svg.text("soft", (x.min(last), self.row(row)), Anchor::Middle, words);
            }
        }
    }

    /// The same panel with one scale for both axes: the one that has room to spare shows more.
    pub fn with_one_scale(mut self) -> Panel {
        let one = self.across.room(1.0).min(self.up.room(1.0));
        for axis in [&mut self.across, &mut self.up] {
            axis.interval = axis.interval.at_least(axis.drawn() / one);
        }
        self
    }
}

/// A point, and the radius of the circle about it.
#[derive(Clone, Copy)]
pub struct Circle {
    pub point: Point,
    pub radius: u32,
}

impl Circle {
    /// What is inside it.
    pub fn words(&self, unit: Unit) -> String {
        match self.radius {
            0 => "at the point itself".into(),
            radius => format!("within {} of the point", words::length(radius, unit)),
        }
    }
}

/// One of the two coordinates: its name, a place's, the box's edges, and the point's.
pub struct Side {
    pub name: &'static str,
    pub of: fn(&Placed) -> f64,
    pub edges: fn(&Area) -> (f64, f64),
    pub point: fn(&Circle) -> f64,
}

pub const X: Side = Side {
    name: "x",
    of: |placed| placed.x,
    edges: |area| (area.left.into(), area.right.into()),
    point: |circle| circle.point.x.into(),
};

pub const Y: Side = Side {
    name: "y",
    of: |placed| placed.y,
    edges: |area| (area.bottom.into(), area.top.into()),
    point: |circle| circle.point.y.into(),
};
