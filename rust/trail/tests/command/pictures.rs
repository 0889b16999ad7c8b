//! `plot`: what a picture has, and what is refused.

use trails_tests::cases::Random;
use trails_tests::plain::kinds::{CENTIMETRES, KINDS, MILLIMETRES};
use trails_tests::plain::{Fix, Trail};
use trails_tests::shapes::{curve, ten_times, trail, Shape};

use crate::folder::{fine_h, fine_h_at_105, record, silent_h, silent_h_at_12, silent_record};
use crate::folder::{trail_h, trail_h_at_12, Folder};
use crate::svg::{count, draw, lines, numbers, panel, plane, says, spots, well_formed};

fn with_h() -> Folder {
    let folder = Folder::with_h();
    folder.put("aged", trail_h_at_12());
    folder
}

#[test]
fn a_trail_alone_has_its_fixes_in_three_panels() {
    let folder = with_h();
    let picture = draw(&folder, "h");
    // once in the legend too
    assert_eq!(count(&picture, "trail"), 3 + 1);
    assert_eq!(count(&picture, "fix"), 3 * 4 + 1);
    assert_eq!((count(&picture, "start"), count(&picture, "end")), (2, 2));
    for class in [
        "original", "under", "band", "within", "box", "window", "part", "first", "silence", "near",
        "point", "reach", "closest",
    ] {
        assert_eq!(count(&picture, class), 0, "{class}");
    }
    assert!(picture.contains("prefers-color-scheme:dark"));
    for words in ["x, cm", "y, cm", "time, s", "start", "end"] {
        assert!(says(&picture, words), "{words}");
    }
}

#[test]
fn all_that_is_asked_is_drawn_and_named() {
    let folder = with_h();
    let words = "aged --original h --box 10 30 -5 5 --window 2 28";
    let picture = draw(&folder, words);
    let counts = ["trail", "fix", "band", "within", "box", "window", "first"]
        .map(|class| count(&picture, class));
    assert_eq!(counts, [4, 3 * 3 + 1, 1, 3, 4, 3, 4]);
    for words in [
        "fixes: 3 of the original's 4; seconds 0 to 30; places in centimetres",
        "original",
        "within 12 cm of the trail",
        "first in the box at 5.000",
    ] {
        assert!(says(&picture, words), "{words}");
    }
    let wider = draw(&folder, "aged --tolerance 40");
    assert!(says(&wider, "within 40 cm of the trail"));
}

/// Above the trail where the two differ, and elsewhere under it: in dashes and a colour of its own.
#[test]
fn the_original_is_seen_beside_the_trail() {
    let folder = with_h();
    for (name, bytes) in [
        ("fine", fine_h()),
        ("fine-aged", fine_h_at_105()),
        ("silent", silent_h()),
        ("silent-aged", silent_h_at_12()),
    ] {
        folder.put(name, bytes);
    }
    for words in [
        "aged --original h",
        "fine-aged --original fine",
        "silent-aged --original silent",
    ] {
        let picture = draw(&folder, words);
        for name in ["plane", "x-over-time"] {
            let panel = panel(&picture, name);
            let at = |class: &str| panel.find(&format!("class=\"{class}\"")).expect(class);
            assert!(
                at("under") < at("trail") && at("trail") < at("original"),
                "{words}"
            );
        }
        // all y are the same until the second stretch, so that nothing differs there
        let over_time = panel(&picture, "y-over-time");
        assert_eq!(count(over_time, "original"), 0, "{words}");
        assert!(count(over_time, "under") > 0, "{words}");
    }
    // h is at 20 until second 20, and the aged trail goes back at once
    let picture = draw(&folder, "aged --original h");
    let over_time = panel(&picture, "x-over-time");
    let [trail, original] = ["trail", "original"].map(|class| lines(over_time, class).concat());
    assert_eq!((trail.len(), original.len()), (3, 3));
    assert_eq!((original[0], original[2]), (trail[1], trail[2]));
    assert_eq!(original[1].1, trail[1].1);
    let style = picture.split("</style>").next().expect("it has one");
    assert!(style.contains(".original,.under{fill:none;stroke:#c05200"));
    assert!(style.contains("stroke-dasharray:5 4"));
}

#[test]
fn small_and_great_trails_are_drawn() {
    let folder = Folder::new();
    folder.put("one", record(&[(u32::MAX, 16_000, -16_000)]));
    let picture = draw(
        &folder,
        "one --tolerance 32000 --box -16000 16000 -16000 16000",
    );
    assert_eq!(count(&picture, "fix"), 3 + 1);
    assert_eq!(count(&picture, "first"), 3 + 1);
    // a line of one spot is a dot
    assert_eq!(spots(&picture).len(), 2);
    assert!(says(&picture, "first in the box at 4294967295.000"));
    // of very many fixes the line alone is seen
    let long = Trail::never_thinned(CENTIMETRES, curve(4_096));
    folder.put("long", long.bytes());
    let picture = draw(&folder, "long");
    assert_eq!(count(&picture, "fix"), 0);
    assert!(!says(&picture, "kept fix"));
    let some = Trail::never_thinned(CENTIMETRES, curve(400));
    folder.put("some", some.bytes());
    assert_eq!(count(&draw(&folder, "some"), "fix"), 3 * 400 + 1);
}

/// A point beside h's first leg, with the circle about it, its edges against time, and where h is closest.
#[test]
fn a_point_is_drawn_with_its_circle() {
    let folder = with_h();
    let picture = draw(&folder, "h --point 10 9 --radius 9");
    let counts = ["near", "point", "reach", "closest"].map(|class| count(&picture, class));
    // each once in the legend too; in the other panels a strip and a line for the circle and the point
    assert_eq!(counts, [4, 4, 3, 4]);
    for words in ["within 9 cm of the point", "closest on leg 0 at 5.000"] {
        assert!(says(&picture, words), "{words}");
    }
    // a circle through where it is closest, straight below the point
    let on_plane = panel(&picture, "plane");
    let [x, y, r] = numbers(on_plane, "circle", "near", ["cx", "cy", "r"])[0];
    let [at, below] = numbers(on_plane, "circle", "closest", ["cx", "cy"])[0];
    assert_eq!(x, at);
    assert!((below - y - r).abs() <= 1, "{below} {y} {r}");
    // all of it is on the plane
    let [_, top, _, bottom] = plane(&picture);
    assert!(y - r >= top && y + r <= bottom, "{y} {r}");
    // h ends at x 0 and 20, so that the circle is as wide as 18 of these 20
    let line = &spots(&picture);
    assert!(
        (line[1].0 - line[0].0 - 20 * r / 9).abs() <= 2,
        "{line:?} {r}"
    );
    // a no is drawn without a place, and a box beside it
    let picture = draw(&folder, "h --point 10 9 --radius 8 --box 5 10 -1 1");
    let counts = ["near", "point", "reach", "closest"].map(|class| count(&picture, class));
    assert_eq!(counts, [4, 4, 2, 0]);
    assert!(says(&picture, "never within 8 cm of the point"));
    assert!(says(&picture, "first in the box at 2.500"));
}

/// A circle that is greater than the hall leaves the trail its room.
#[test]
fn a_great_circle_leaves_the_trail_in_sight() {
    let folder = with_h();
    let alone = spots(&draw(&folder, "h --point 10 0 --radius 10"));
    let within = spots(&draw(&folder, "h --point 10 0 --radius 32000"));
    let wide = |spots: &[(i64, i64)]| spots[1].0 - spots[0].0;
    assert!(4 * wide(&within) > wide(&alone), "{within:?}");
}

/// On each panel a line for each stretch, and a ring around each end of the silence; between them nothing.
#[test]
fn a_silence_is_left_open() {
    let folder = Folder::new();
    folder.put("h", silent_h());
    folder.put("aged", silent_h_at_12());
    let picture = draw(&folder, "aged --original h");
    for name in ["plane", "x-over-time", "y-over-time"] {
        let panel = panel(&picture, name);
        let trail = lines(panel, "trail");
        let fixes: Vec<usize> = trail.iter().map(Vec::len).collect();
        assert_eq!(fixes, [3, 3]);
        // no line of any sort goes from one stretch to the other
        let spot = |line: &[(i64, i64)], spot| line.contains(spot);
        let [before, after] = [trail[0][2], trail[1][0]];
        let drawn = ["trail", "original", "under", "band"].map(|class| lines(panel, class));
        for line in drawn.concat() {
            assert!(!(spot(&line, &before) && spot(&line, &after)), "{name}");
        }
        let rings = numbers(panel, "circle", "silence", ["cx", "cy"]);
        assert_eq!(rings, [before, after].map(|(x, y)| [x, y]));
    }
    // one ring is in the legend, as one band is there
    let counts = ["band", "within", "silence"].map(|class| count(&picture, class));
    assert_eq!(counts, [2, 2 * 2 + 1, 3 * 2 + 1]);
    assert!(says(&picture, "end of a silence"));
    // where a line across the silence would have been first in the box
    let picture = draw(&folder, "h --box 100 400 20 90");
    assert!(says(&picture, "first in the box at 300.000"));
    // silent all the time: each fix is a dot
    folder.put(
        "all",
        silent_record(&[(0, 0, 0, 1), (9, 50, 7, 1), (30, 9, 9, 0)]),
    );
    let picture = draw(&folder, "all --tolerance 3");
    let dots = lines(panel(&picture, "plane"), "trail");
    assert!(dots.len() == 3 && dots.iter().all(|dot| dot[0] == dot[1] && dot.len() == 2));
    assert_eq!(count(&picture, "silence"), 3 * 3 + 1);
    assert_eq!(count(&picture, "arrow"), 0);
}

/// A place left of the aisle is drawn as far from it as its image right of it: lines and fixes to the last digit, and
/// heads of arrows to a tenth.
#[test]
fn a_mirrored_trail_is_drawn_mirrored() {
    let folder = Folder::new();
    let mut random = Random::new(1);
    let shapes = [Shape::Smooth, Shape::ZigZag, Shape::Wild];
    for (kind, shape) in KINDS
        .into_iter()
        .flat_map(|kind| shapes.map(|shape| (kind, shape)))
    {
        let trail = trail(kind, shape, 400, &mut random);
        let mirror = |fix: &Fix| Fix {
            x: -fix.x,
            y: -fix.y,
            ..*fix
        };
        let images = trail.fixes.iter().map(mirror).collect();
        folder.put("trail", trail.bytes());
        folder.put("image", Trail::never_thinned(kind, images).bytes());
        let (one, image) = (draw(&folder, "trail"), draw(&folder, "image"));
        let [left, top, right, bottom] = plane(&one);
        assert_eq!(plane(&image), [left, top, right, bottom]);
        let off = |all: &dyn Fn(&str) -> Vec<(i64, i64)>| {
            let (one, image) = (all(panel(&one, "plane")), all(panel(&image, "plane")));
            assert_eq!(one.len(), image.len(), "{shape:?}");
            assert!(!one.is_empty(), "{shape:?}");
            let both = one.into_iter().zip(image);
            both.map(|(a, b)| {
                (a.0 + b.0 - left - right)
                    .abs()
                    .max((a.1 + b.1 - top - bottom).abs())
            })
            .max()
        };
        let fixes = |panel: &str| -> Vec<(i64, i64)> {
            let circles = numbers(panel, "circle", "fix", ["cx", "cy"]);
            circles.into_iter().map(|[x, y]| (x, y)).collect()
        };
        assert_eq!(off(&fixes), Some(0), "{shape:?}");
        let trails = off(&|panel| lines(panel, "trail").concat());
        assert_eq!(trails, Some(0), "{shape:?}");
        let arrows = off(&|panel| lines(panel, "arrow").concat());
        assert!(arrows.is_some_and(|off| off <= 1), "{shape:?} {arrows:?}");
    }
}

/// In millimetres the axes say so, and the same trail is at the same spots.
#[test]
fn a_trail_in_millimetres_is_drawn_in_them() {
    let folder = Folder::new();
    let mut random = Random::new(2);
    let trail = trail(CENTIMETRES, Shape::Smooth, 60, &mut random);
    let finer = Trail::never_thinned(MILLIMETRES, ten_times(&trail.fixes));
    folder.put("trail", trail.bytes());
    folder.put("finer", finer.bytes());
    let box_of = |edge: i32| format!("--box -{edge} {edge} -{edge} {edge}");
    let one = draw(&folder, &format!("trail {} --tolerance 50", box_of(9_000)));
    let other = draw(
        &folder,
        &format!("finer {} --tolerance 500", box_of(90_000)),
    );
    assert_eq!(spots(&one), spots(&other));
    let in_unit = |picture: &str, unit: &str, words: &[&str]| {
        for words in words {
            let words = words.replace("UNIT", unit);
            assert!(picture.contains(&format!(">{words}</text>")), "{words}");
        }
    };
    in_unit(
        &one,
        "cm",
        &["x, UNIT", "y, UNIT", "within 50 UNIT of the trail"],
    );
    in_unit(
        &other,
        "mm",
        &["x, UNIT", "y, UNIT", "within 500 UNIT of the trail"],
    );
    assert!(one.contains("; places in centimetres</text>"));
    assert!(other.contains("; places in millimetres</text>"));
    assert!(!other.contains(" cm"));
}

#[test]
fn trails_in_different_units_are_not_drawn_together() {
    let folder = with_h();
    folder.put("fine", fine_h());
    for words in ["fine --original h", "h --original fine"] {
        let ran = folder.run_line(&format!("plot {words} -o new"));
        let what = "the trail and the original are in different units";
        ran.fails(2, &format!("trail: plot: {what}; try 'trail plot --help'"));
    }
    assert_eq!(folder.names(), ["aged", "fine", "h"]);
}

#[test]
fn names_stand_harmlessly_in_pictures() {
    let folder = Folder::new();
    folder.put("a<b>&\"\u{1b}\u{ffff}", trail_h());
    let picture = draw(&folder, "a<b>&\"\u{1b}\u{ffff}");
    let name = "a&lt;b&gt;&amp;&quot;\\u{1b}\u{fffd}";
    assert!(picture.contains(&format!(">{name}</text>")));
}

#[test]
fn the_standard_input_is_drawn_into_a_file() {
    let folder = Folder::new();
    folder
        .run_with(&["plot", "-", "-o", "h.svg"], &trail_h())
        .says("");
    let picture = String::from_utf8(folder.get("h.svg")).expect("a text");
    well_formed(&picture);
    assert!(picture.contains("<title>standard input</title>"));
}

#[test]
fn refused_pictures_are_not_stored() {
    let folder = with_h();
    folder.put("text", "no trail");
    folder.put("fine", fine_h());
    for (words, number, file) in [
        ("text", 1, "text"),
        ("h --original text", 1, "text"),
        ("h --tolerance 32001", 10, "h"),
        ("h --window 0 31", 13, "h"),
        ("h --box 0 16001 0 1", 14, "h"),
        ("fine --tolerance 60001", 10, "fine"),
        ("fine --box 0 160001 0 1", 14, "fine"),
    ] {
        let words: Vec<&str> = words.split(' ').collect();
        let ran = folder.run(&[&["plot", "-o", "new"], words.as_slice()].concat());
        assert_eq!(ran.status, Some(1), "{words:?}");
        let start = format!("{file}: refused {number}: ");
        assert!(ran.err.starts_with(&start), "{}", ran.err);
    }
    assert_eq!(folder.names(), ["aged", "fine", "h", "text"]);
}
