//! The names of several trails with their colours and their answers, in as many columns as there is room for.

use super::drawn::{Drawn, Told};
use super::legend::{draw_sample, GAP, ROW, SAMPLE};
use super::panel::LEFT;
use super::picture::{Picture, LINE, ROOM};
use super::style;
use super::svg::{Anchor, Spot, Svg};
use super::text::{end_of, width, SIZE};

/// How the words of a trail may stand: the most room of a name, whether the answers stand beside it or below, and whether
/// they are one line.
type Layout = (f64, bool, bool);

/// The first is taken that needs the least height.
const LAYOUTS: [Layout; 5] = [
    (320.0, true, true),
    (190.0, true, true),
    (320.0, true, false),
    (190.0, true, false),
    (320.0, false, false),
];

/// So many rows stand above the panels; more stand below, so that the picture is seen first.
const ABOVE: usize = 8;

/// One trail's words: its name, and the lines beside it.
struct Entry {
    name: String,
    lines: Vec<Line>,
}

/// What a trail answers, and whether there is a yes in it.
struct Line {
    words: String,
    yes: bool,
}

pub struct Names {
    entries: Vec<Entry>,
    beside: bool,
    /// how wide names are, and the other lines
    name: f64,
    lines: f64,
    /// how many lines each entry has, its name's among them
    high: usize,
}

/// What a trail answers: as one line, or as many as there are answers.
fn answers(drawn: &Drawn, joined: bool) -> Vec<Line> {
    let answers = [&drawn.crossing, &drawn.approach].into_iter().flatten();
    let line = |told: &Told| Line {
        words: told.words.clone(),
        yes: told.mark.is_some(),
    };
    let lines: Vec<Line> = answers.map(line).collect();
    if !joined || lines.is_empty() {
        return lines;
    }
    let words: Vec<&str> = lines.iter().map(|line| line.words.as_str()).collect();
    vec![Line {
        words: words.join("; "),
        yes: lines.iter().any(|line| line.yes),
    }]
}

fn widest<'a>(words: impl Iterator<Item = &'a str>) -> f64 {
    words.map(|words| width(words, SIZE)).fold(0.0, f64::max)
}

impl Names {
    /// The names of a picture's trails, or nothing if there is one: then it is the picture's own.
    pub fn of(picture: &Picture) -> Names {
        let [first, rest @ ..] = LAYOUTS.map(|layout| Names::laid_out(picture, layout));
        rest.into_iter().fold(first, Names::or_better)
    }

    /// The other, if that has room and needs less height.
    fn or_better(self, other: Names) -> Names {
        let fits = |names: &Names| names.wide() <= ROOM;
        match fits(&other) && (!fits(&self) || other.height() < self.height()) {
            true => other,
            false => self,
        }
    }

    fn laid_out(picture: &Picture, (room, beside, joined): Layout) -> Names {
        let several = picture.trails.len() > 1;
        let shown = picture.trails.iter().filter(|_| several);
        let entry = |drawn: &Drawn| Entry {
            name: end_of(&drawn.name, SIZE, room),
            lines: answers(drawn, joined),
        };
        let entries: Vec<Entry> = shown.map(entry).collect();
        let most = entries.iter().map(|entry| entry.lines.len()).max();
        let most = most.unwrap_or(0);
        let lines = entries.iter().flat_map(|entry| &entry.lines);
        Names {
            name: widest(entries.iter().map(|entry| entry.name.as_str())),
            lines: widest(lines.map(|line| line.words.as_str())),
            high: if beside { most.max(1) } else { 1 + most },
            beside,
            entries,
        }
    }

    /// How wide an entry is.
    fn wide(&self) -> f64 {
        SAMPLE + self.aside() + self.lines.max(self.name - self.aside())
    }

    /// How far right of a name's start its other lines begin.
    fn aside(&self) -> f64 {
        match self.beside && self.lines > 0.0 {
            true => self.name + GAP,
            false => 0.0,
        }
    }

    fn columns(&self) -> usize {
        (((ROOM + GAP) / (self.wide() + GAP)) as usize).max(1)
    }

    fn rows(&self) -> usize {
        self.entries.len().div_ceil(self.columns())
    }

    /// How high an entry is.
    fn step(&self) -> f64 {
        ROW + LINE * (self.high - 1) as f64
    }

    pub fn height(&self) -> f64 {
        match self.rows() {
            0 => 0.0,
            rows => 6.0 + self.step() * rows as f64,
        }
    }

    /// Whether they stand above the panels.
    pub fn draws_first(&self) -> bool {
        self.rows() * self.high <= ABOVE
    }

    /// Draws them from this height downward, one column after the other.
    pub fn draw(&self, svg: &mut Svg, top: f64) {
        let rows = self.rows().max(1);
        for (number, entry) in self.entries.iter().enumerate() {
            let (column, row) = (number / rows, number % rows);
            let x = LEFT + column as f64 * (self.wide() + GAP);
            let y = top + ROW + self.step() * row as f64;
            svg.group(&style::of_trail(number), |svg| {
                draw_sample(svg, "trail", (x, y))
            });
            svg.text("words", (x + SAMPLE, y), Anchor::Start, &entry.name);
            let below = if self.beside { 0.0 } else { LINE };
            draw_lines(svg, entry, (x + SAMPLE + self.aside(), y + below));
        }
    }
}

/// A yes stands out among many noes.
fn draw_lines(svg: &mut Svg, entry: &Entry, (x, y): Spot) {
    for (row, Line { words, yes }) in entry.lines.iter().enumerate() {
        let class = if *yes { "words" } else { "soft" };
        svg.text(class, (x, y + LINE * row as f64), Anchor::Start, words);
    }
}
