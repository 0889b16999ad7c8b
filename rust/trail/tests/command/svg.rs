//! What a picture has, read back from its SVG.

use crate::folder::Folder;

/// Draws what is asked for, which ends well.
pub fn draw(folder: &Folder, words: &str) -> String {
    draw_words(folder, &words.split_whitespace().collect::<Vec<_>>())
}

pub fn draw_words(folder: &Folder, words: &[&str]) -> String {
    let ran = folder.run(&[&["plot", "-o", "-"], words].concat());
    assert_eq!((ran.status, ran.err.as_str()), (Some(0), ""), "{words:?}");
    let picture = ran.text().to_string();
    well_formed(&picture);
    picture
}

/// Every element is closed, in the order of opening, and no number is missing.
pub fn well_formed(picture: &str) {
    assert!(picture.starts_with("<svg ") && picture.ends_with("</svg>\n"));
    assert!(!picture.contains("NaN") && !picture.contains("inf"));
    let mut open = Vec::new();
    for tag in picture.split('<').skip(1) {
        let (tag, _) = tag.split_once('>').expect("a tag ends");
        let name = tag.split(' ').next().expect("a tag has a name");
        match name.strip_prefix('/') {
            Some(name) => assert_eq!(open.pop(), Some(name)),
            None if tag.ends_with('/') => {}
            None => open.push(name),
        }
    }
    assert!(open.is_empty(), "{open:?}");
}

pub fn count(picture: &str, class: &str) -> usize {
    picture.matches(&format!("class=\"{class}\"")).count()
}

/// Whether these words stand in the picture as a text of their own.
pub fn says(picture: &str, words: &str) -> bool {
    picture.contains(&format!(">{words}</text>"))
}

/// What is drawn inside a panel: on the plane, or against time.
pub fn panel<'a>(picture: &'a str, name: &str) -> &'a str {
    let start = format!("<clipPath id=\"{name}\">");
    let (_, inside) = picture.split_once(&start).expect("the panel");
    inside.split("<clipPath").next().expect("its own part")
}

fn tenths(word: &str) -> i64 {
    (10.0 * word.parse::<f64>().expect("a number")).round() as i64
}

fn attribute<'a>(element: &'a str, name: &str) -> &'a str {
    let start = format!(" {name}=\"");
    let (_, after) = element.split_once(&start).expect("the attribute");
    after.split('"').next().expect("its end")
}

/// All elements of this name and class, as their attributes.
fn elements<'a>(picture: &'a str, name: &str, class: &str) -> impl Iterator<Item = &'a str> {
    let start = format!("<{name} class=\"{class}\"");
    let found: Vec<&str> = picture.split(start.as_str()).skip(1).collect();
    found
        .into_iter()
        .map(|rest| rest.split('>').next().expect("its end"))
}

/// The numbers of all elements of this name and class, those of these attributes, in tenths.
pub fn numbers<const N: usize>(
    picture: &str,
    name: &str,
    class: &str,
    attributes: [&str; N],
) -> Vec<[i64; N]> {
    let of = |element| attributes.map(|name| tenths(attribute(element, name)));
    elements(picture, name, class).map(of).collect()
}

/// The spots of each line, or area, of this class, in tenths.
pub fn lines(picture: &str, class: &str) -> Vec<Vec<(i64, i64)>> {
    let spot = |point: &str| point.split_once(',').map(|(x, y)| (tenths(x), tenths(y)));
    let line = |element| {
        attribute(element, "points")
            .split(' ')
            .filter_map(spot)
            .collect()
    };
    let names = ["polyline", "polygon"];
    let all = names.iter().flat_map(|name| elements(picture, name, class));
    all.map(line).collect()
}

/// The trail's spots on the plane.
pub fn spots(picture: &str) -> Vec<(i64, i64)> {
    lines(panel(picture, "plane"), "trail").concat()
}

/// The plane's edges, in tenths: left, top, right and bottom.
pub fn plane(picture: &str) -> [i64; 4] {
    let frames = numbers(picture, "rect", "frame", ["x", "y", "width", "height"]);
    let [x, y, width, height] = frames[0];
    [x, y, x + width, y + height]
}

/// Words where they stand: left, top, right and bottom.
struct Words {
    edges: [f64; 4],
    words: String,
}

/// How wide a letter may be, in a wide face.
fn wide(c: char) -> f64 {
    match c {
        'i' | 'j' | 'l' | 'I' | 'f' | 't' | 'r' | '.' | ',' | ':' | ';' | ' ' | '-' | '(' | ')'
        | '/' | '\\' => 0.42,
        'm' | 'w' | 'M' | 'W' | '…' => 1.0,
        c if c.is_ascii() => 0.64,
        _ => 1.0,
    }
}

fn words_of(picture: &str) -> Vec<Words> {
    let texts = picture.split("<text ").skip(1);
    let text = |text: &str| {
        let (start, rest) = text.split_once('>').expect("its start");
        let (words, _) = rest.split_once("</text>").expect("its end");
        let number = |name| {
            attribute(&format!(" {start}"), name)
                .parse::<f64>()
                .expect("a number")
        };
        let size = if start.contains("\"name\"") {
            19.0
        } else {
            12.0
        };
        let room = size * words.chars().map(wide).sum::<f64>();
        let left = match attribute(&format!(" {start}"), "text-anchor") {
            "start" => number("x"),
            "middle" => number("x") - room / 2.0,
            _ => number("x") - room,
        };
        Words {
            edges: [
                left,
                number("y") - 0.75 * size,
                left + room,
                number("y") + 2.0,
            ],
            words: words.to_string(),
        }
    };
    texts.map(text).collect()
}

fn meet(one: [f64; 4], other: [f64; 4]) -> bool {
    let along = |low: usize, high: usize| one[low] < other[high] && other[low] < one[high];
    along(0, 2) && along(1, 3)
}

/// No words are cut off, on others or on a panel.
pub fn words_stand_apart(picture: &str) {
    let size = numbers(picture, "rect", "ground", ["width", "height"])[0];
    let [width, height] = size.map(|tenths| tenths as f64 / 10.0);
    assert_eq!(width, 800.0);
    let all = words_of(picture);
    let frames = numbers(picture, "rect", "frame", ["x", "y", "width", "height"]);
    let frames = frames
        .iter()
        .map(|frame| frame.map(|tenths| tenths as f64 / 10.0));
    let frames: Vec<[f64; 4]> = frames.map(|[x, y, w, h]| [x, y, x + w, y + h]).collect();
    assert_eq!(frames.len(), 3);
    for (k, Words { edges, words }) in all.iter().enumerate() {
        let [left, top, right, bottom] = *edges;
        let inside = left >= 0.0 && top >= 0.0 && right <= width && bottom <= height;
        assert!(inside, "{words} is cut off: {edges:?} of {width} {height}");
        assert!(
            !frames.iter().any(|frame| meet(*edges, *frame)),
            "{words} is on a panel"
        );
        let over = all[k + 1..].iter().find(|other| meet(*edges, other.edges));
        assert!(
            over.is_none(),
            "{words} is on {:?}",
            over.map(|other| &other.words)
        );
    }
}
