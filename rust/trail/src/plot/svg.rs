//! A small writer of SVG.

use std::fmt::Write as _;

use super::style::STYLE;

/// A place in the picture.
pub type Spot = (f64, f64);

/// Where a text stands beside its spot.
#[derive(Clone, Copy)]
pub enum Anchor {
    Start,
    Middle,
    End,
}

pub struct Svg {
    text: String,
}

fn escaped(text: &str) -> String {
    let escape = |c: char| match c {
        '&' => "&amp;".to_string(),
        '<' => "&lt;".to_string(),
        '>' => "&gt;".to_string(),
        '"' => "&quot;".to_string(),
        // two that XML hasn't
        '\u{fffe}' | '\u{ffff}' => "\u{fffd}".to_string(),
        c => c.to_string(),
    };
    text.chars().map(escape).collect()
}

impl Svg {
    pub fn new(width: f64, height: f64, title: &str) -> Svg {
        let size = format!("width=\"{width}\" height=\"{height}\"");
        let name = escaped(title);
        Svg {
            text: format!(
                "<svg xmlns=\"http://www.w3.org/2000/svg\" {size} viewBox=\"0 0 {width} {height}\" \
                 role=\"img\">\n<title>{name}</title>\n<style>\n{STYLE}</style>\n\
                 <rect class=\"ground\" {size}/>\n"
            ),
        }
    }

    fn add(&mut self, element: &str) {
        self.text.push_str(element);
        self.text.push('\n');
    }

    pub fn line(&mut self, class: &str, (x1, y1): Spot, (x2, y2): Spot) {
        self.add(&format!(
            "<line class=\"{class}\" x1=\"{x1:.1}\" y1=\"{y1:.1}\" x2=\"{x2:.1}\" y2=\"{y2:.1}\"/>"
        ));
    }

    /// A rectangle between two opposite corners. One without width or height would not be drawn at all, its edge neither:
    /// it gets a tenth.
    pub fn rectangle(&mut self, class: &str, one: Spot, other: Spot) {
        let (x, y) = (one.0.min(other.0), one.1.min(other.1));
        let [width, height] = [one.0 - other.0, one.1 - other.1].map(|far| far.abs().max(0.1));
        self.add(&format!(
            "<rect class=\"{class}\" x=\"{x:.1}\" y=\"{y:.1}\" width=\"{width:.1}\" height=\"{height:.1}\"/>"
        ));
    }

    pub fn circle(&mut self, class: &str, (x, y): Spot, radius: f64) {
        self.add(&format!(
            "<circle class=\"{class}\" cx=\"{x:.1}\" cy=\"{y:.1}\" r=\"{radius}\"/>"
        ));
    }

    /// A line through all spots.
    pub fn path(&mut self, class: &str, spots: impl Iterator<Item = Spot>) {
        let points = points(spots);
        self.add(&format!(
            "<polyline class=\"{class}\" points=\"{points}\"/>"
        ));
    }

    /// A line through all spots, as wide as a band.
    pub fn wide_path(&mut self, class: &str, width: f64, spots: impl Iterator<Item = Spot>) {
        let points = points(spots);
        self.add(&format!(
            "<polyline class=\"{class}\" stroke-width=\"{width:.1}\" points=\"{points}\"/>"
        ));
    }

    /// Draws what `draw` does, with these classes around it.
    pub fn group(&mut self, classes: &str, draw: impl FnOnce(&mut Svg)) {
        self.add(&format!("<g class=\"{classes}\">"));
        draw(self);
        self.add("</g>");
    }

    pub fn area(&mut self, class: &str, spots: impl Iterator<Item = Spot>) {
        let points = points(spots);
        self.add(&format!("<polygon class=\"{class}\" points=\"{points}\"/>"));
    }

    pub fn text(&mut self, class: &str, (x, y): Spot, anchor: Anchor, text: &str) {
        let anchor = match anchor {
            Anchor::Start => "start",
            Anchor::Middle => "middle",
            Anchor::End => "end",
        };
        let text = escaped(text);
        self.add(&format!(
            "<text class=\"{class}\" x=\"{x:.1}\" y=\"{y:.1}\" text-anchor=\"{anchor}\">{text}</text>"
        ));
    }

    /// Draws what `draw` does, cut off at a rectangle's edges. The name is given once in a picture.
    pub fn inside(&mut self, name: &str, one: Spot, other: Spot, draw: impl FnOnce(&mut Svg)) {
        self.add(&format!("<clipPath id=\"{name}\">"));
        self.rectangle("clip", one, other);
        self.add(&format!("</clipPath>\n<g clip-path=\"url(#{name})\">"));
        draw(self);
        self.add("</g>");
    }

    pub fn finish(mut self) -> String {
        self.add("</svg>");
        self.text
    }
}

fn points(spots: impl Iterator<Item = Spot>) -> String {
    let mut points = String::new();
    for (x, y) in spots {
        let space = if points.is_empty() { "" } else { " " };
        // writing to a String never fails
        let _ = write!(points, "{space}{x:.1},{y:.1}");
    }
    points
}
