//! The picture of one trail or several: the plane, and below it x and y against time.

use trails::{AnyFix, Moment, Unit};

use crate::clock::Clock;

use super::drawn::{Drawn, Placed, Questions};
use super::legend::Legend;
use super::names::Names;
use super::original::Original;
use super::panel::{Panel, Side, Tick, LEFT, RIGHT, WIDTH, X, Y};
use super::scale::Interval;
use super::svg::{Anchor, Svg};
use super::text::{end_of, lines, NAME_SIZE};
use super::times;

/// What the axes show instead of everything.
#[derive(Clone, Copy, Debug, PartialEq)]
pub enum Zoom {
    Window,
    Box,
    Point,
}

/// What is drawn.
pub struct Picture {
    pub title: String,
    /// at least one
    pub trails: Vec<Drawn>,
    /// the first trail's, and then that is the only one
    pub original: Option<Original>,
    pub questions: Questions,
    pub zoom: Option<Zoom>,
    /// the unit of all places, tolerances, the box and the circle
    pub unit: Unit,
    pub clock: Clock,
    /// the second from which the axes count, so that their numbers are small
    pub start: u32,
}

/// The three panels, and how great a fix is drawn in them, if fixes are.
pub struct Frame {
    pub plane: Panel,
    pub x: Panel,
    pub y: Panel,
    pub radius: Option<f64>,
}

impl Frame {
    /// What the axes of time show.
    pub fn times(&self) -> Interval {
        self.x.across.interval
    }
}

/// The least and greatest height of the plane, and the height of the other panels.
const LEAST: f64 = 200.0;
const GREATEST: f64 = 470.0;
const OVER_TIME: f64 = 160.0;

/// Room above a panel for its name, and below one for labels and its other name.
const ABOVE: f64 = 26.0;
const BELOW: f64 = 44.0;

/// How far apart lines of words are.
pub const LINE: f64 = 16.0;

/// How much room there is across for words.
pub const ROOM: f64 = RIGHT - LEFT;

impl Picture {
    pub fn svg(&self) -> String {
        let counts = lines(&self.counts(), ROOM);
        // where the panels stand decides nothing about what they show
        let shown = self.frame(0.0);
        let legend = Legend::of(self, &shown, 46.0 + LINE * counts.len() as f64);
        let names = Names::of(self);
        let first = names.draws_first();
        let top = legend.bottom() + if first { names.height() } else { 0.0 };
        let frame = self.frame(top + ABOVE);
        let below = frame.y.row(if self.has_days(&frame) { 2 } else { 1 });
        let bottom = below + 14.0;
        let height = bottom + if first { 0.0 } else { names.height() };
        let mut svg = Svg::new(WIDTH, height.ceil(), &self.title);
        let title = end_of(&self.title, NAME_SIZE, ROOM);
        svg.text("name", (LEFT, 32.0), Anchor::Start, &title);
        for (row, line) in counts.iter().enumerate() {
            let y = 54.0 + LINE * row as f64;
            svg.text("soft", (LEFT, y), Anchor::Start, line);
        }
        legend.draw(&mut svg);
        names.draw(&mut svg, if first { legend.bottom() } else { bottom });
        self.draw_plane(&mut svg, &frame);
        self.draw_over_time(&mut svg, &frame, &X, &frame.x);
        self.draw_over_time(&mut svg, &frame, &Y, &frame.y);
        svg.text("words", (RIGHT, below), Anchor::End, self.time_named());
        svg.finish()
    }

    /// Where the panels stand, from this height downward.
    fn frame(&self, top: f64) -> Frame {
        let (x, y, times) = (self.interval(&X), self.interval(&Y), self.times());
        let height = (ROOM * y.length() / x.length()).clamp(LEAST, GREATEST);
        let plane = Panel::between(x, y, (top, top + height)).with_one_scale();
        let below = |panel: &Panel, room: f64| {
            let top = panel.up.from + room + ABOVE;
            (top, top + OVER_TIME)
        };
        let over_x = Panel::between(times, x, below(&plane, BELOW));
        let mut frame = Frame {
            plane,
            x: over_x,
            y: over_x,
            radius: None,
        };
        let room = if self.has_days(&frame) { 35.0 } else { 20.0 };
        frame.y = Panel::between(times, y, below(&over_x, room));
        frame.radius = self.radius(&frame);
        frame
    }

    /// Whether days stand below the times.
    fn has_days(&self, frame: &Frame) -> bool {
        let ticks = self.time_ticks(&frame.x);
        ticks.iter().any(|tick| !tick.below.is_empty())
    }

    /// The labels of an axis of time.
    pub fn time_ticks(&self, panel: &Panel) -> Vec<Tick> {
        let axis = &panel.across;
        times::ticks(self.clock, self.start, axis.interval, axis.drawn())
    }

    /// All fixes, of the original too.
    pub fn fixes(&self) -> impl Iterator<Item = &AnyFix> {
        let trails = self.trails.iter().map(|drawn| &drawn.trail);
        let original = self.original.as_ref().map(|original| &original.trail);
        trails.chain(original).flat_map(|trail| &trail.fixes)
    }

    /// A second on the axes.
    pub fn seconds(&self, second: u32) -> f64 {
        f64::from(second) - f64::from(self.start)
    }

    /// A moment on the axes.
    pub fn time(&self, moment: Moment) -> f64 {
        self.seconds(moment.second) + f64::from(moment.thousandths) / 1_000.0
    }

    fn counts(&self) -> String {
        let last = self.fixes().map(|fix| fix.t).max().unwrap_or(0);
        let of = match &self.original {
            Some(original) => format!(" of the original's {}", original.trail.fixes.len()),
            None => String::new(),
        };
        let counts = self.trails.iter().map(|drawn| drawn.trail.fixes.len());
        let count: usize = counts.sum();
        let span = self.clock.span(self.start, last);
        format!("fixes: {count}{of}; {span}; places in {}", self.unit)
    }

    /// How great fixes are drawn, if there are some: small where there are many, and not at all where they would hide
    /// the line.
    fn radius(&self, frame: &Frame) -> Option<f64> {
        let trails = self.trails.iter().flat_map(|drawn| &drawn.trail.fixes);
        let shown = trails.filter(|fix| self.shows(frame, &Placed::from(*fix)));
        match shown.count() {
            1..=150 => Some(3.2),
            151..=400 => Some(2.2),
            _ => None,
        }
    }

    /// Whether the plane has a place, and the axes of time its moment.
    pub fn shows(&self, frame: &Frame, placed: &Placed) -> bool {
        let Panel { across, up } = &frame.plane;
        let on_plane = across.interval.contains(placed.x) && up.interval.contains(placed.y);
        on_plane && frame.times().contains(self.time(placed.moment))
    }

    /// What the axis of time is named.
    fn time_named(&self) -> &'static str {
        match self.clock.is_set() {
            true => "time",
            false => "time, s",
        }
    }

    /// What an axis of places is named.
    pub fn named(&self, side: &Side) -> String {
        format!("{}, {}", side.name, self.unit.symbol())
    }
}
