//! What `plot` shows of what is asked: boxes, points, windows, times and zooms.

use crate::folder::{fine_h, record, silent_h, silent_record, trail_h, Folder};
use crate::svg::{count, draw, lines, numbers, panel, plane, says, spots, words_stand_apart};

/// One trail of each kind, all with h's times.
fn of_each_kind() -> Folder {
    let folder = Folder::new();
    folder.put("h", trail_h());
    folder.put("fine", fine_h());
    folder.put("silent", silent_h());
    folder
}

const KINDS: [&str; 3] = ["h", "fine", "silent"];

const PANELS: [&str; 3] = ["plane", "x-over-time", "y-over-time"];

/// The legend has the very time that `cross` and `near` answer, cut as they cut it.
#[test]
fn times_are_those_of_the_answers() {
    let folder = of_each_kind();
    folder.put(
        "thirds",
        record(&[(4_294_967_290, 0, 0), (4_294_967_292, 3, 0)]),
    );
    let told = |line: &str| {
        let ran = folder.run_line(line);
        let (_, after) = ran.text().split_once(", at ").expect("a yes");
        after.split([';', ',']).next().expect("its end").to_string()
    };
    let all = KINDS.map(|name| (name, "--window 1 30"));
    for (name, window) in all
        .into_iter()
        .chain([("thirds", "--window 4294967290 4294967292")])
    {
        let box_at = told(&format!("cross {name} --box 2 9 -1 1 {window}"));
        let near = told(&format!("near {name} --point 2 5 --radius 5"));
        let asked = format!("{name} --box 2 9 -1 1 {window} --point 2 5 --radius 5");
        let picture = draw(&folder, &asked);
        assert!(says(&picture, &format!("first in the box at {box_at}")));
        assert!(says(&picture, &format!("closest on leg 0 at {near}")));
        words_stand_apart(&picture);
    }
    let picture = draw(&folder, "thirds --box 1 3 0 0");
    assert!(says(&picture, "first in the box at 4294967290.666"));
    // the mark stands at that time and at that place
    let over_time = panel(&picture, "x-over-time");
    let trail = lines(over_time, "trail").concat();
    let [x, y] = numbers(over_time, "circle", "first", ["cx", "cy"])[0];
    let third = |from: i64, to: i64| from + (to - from) / 3;
    assert!((x - third(trail[0].0, trail[1].0)).abs() <= 4, "{x}");
    assert!((y - third(trail[0].1, trail[1].1)).abs() <= 2, "{y}");
}

#[test]
fn axes_are_on_the_clock() {
    let folder = of_each_kind();
    for name in KINDS {
        let plain = draw(&folder, name);
        assert!(says(&plain, "time, s") && says(&plain, "20"));
        let picture = draw(
            &folder,
            &format!("{name} --epoch 06:00:00 --window 06:00:05 06:00:25"),
        );
        for words in ["06:00:00", "06:00:20", "time"] {
            let words = if name == "silent" {
                &words[..words.len().min(5)]
            } else {
                words
            };
            assert!(picture.contains(&format!(">{words}")), "{name} {words}");
        }
        assert!(picture.contains("; 06:00:00 to 06:0"), "{name}");
        assert!(!says(&picture, "time, s"));
        let asked = "--box 4 9 -1 1 --epoch 2026-12-31T23:59:50";
        let dated = draw(&folder, &format!("{name} {asked}"));
        assert!(
            dated.contains(">first in the box at 2026-12-31T23:59:5"),
            "{name}"
        );
        // each day once on each axis of time
        for day in ["2026-12-31", "2027-01-01"] {
            let times = dated.matches(&format!(">{day}</text>")).count();
            let expected = if name == "silent" && day == "2026-12-31" {
                0
            } else {
                2
            };
            assert_eq!(times, expected, "{name} {day}");
        }
        words_stand_apart(&picture);
        words_stand_apart(&dated);
    }
    // the last seconds that there are
    folder.put("late", record(&[(u32::MAX - 1, 0, 0), (u32::MAX, 9, 9)]));
    let late = draw(&folder, "late");
    assert!(says(&late, "4294967294") && says(&late, "4294967295"));
    assert!(!late.contains("4294967296"));
    let dated = draw(&folder, "late --epoch 9999-12-31T23:59:59");
    let zoomed = draw(&folder, "late --window 4294967295 4294967295 --zoom window");
    assert!(says(&zoomed, "4294967292") && !zoomed.contains("429496730"));
    for picture in [late, dated, zoomed] {
        words_stand_apart(&picture);
    }
}

#[test]
fn a_no_is_said() {
    let folder = of_each_kind();
    for (name, unit, outside) in [
        ("h", "cm", ""),
        ("fine", "mm", ""),
        ("silent", "cm", ", outside the silence"),
    ] {
        let asked = format!("{name} --box 600 700 0 5 --point 600 9 --radius 9");
        let picture = draw(&folder, &asked);
        assert!(says(&picture, &format!("never in the box{outside}")));
        let never = format!("never within 9 {unit} of the point{outside}");
        assert!(says(&picture, &never), "{never}");
        assert_eq!(
            (count(&picture, "first"), count(&picture, "closest")),
            (0, 0)
        );
        words_stand_apart(&picture);
        // a window without a silence needs no such words
        let picture = draw(&folder, &format!("{asked} --window 5 20"));
        assert!(says(&picture, "never in the box in the window"));
        let picture = draw(&folder, &format!("{name} --point 600 9 --radius 0"));
        assert!(says(
            &picture,
            &format!("never at the point itself{outside}")
        ));
    }
}

/// What has no width still has an edge, and what is a spot has a cross around it.
#[test]
fn boxes_windows_and_circles_of_no_width_are_seen() {
    let folder = of_each_kind();
    for name in KINDS {
        let asked = "--box 12 12 0 0 --window 6 6 --point 5 2 --radius 0";
        let picture = draw(&folder, &format!("{name} {asked}"));
        for panel in PANELS.map(|name| panel(&picture, name)) {
            let size = numbers(panel, "rect", "box", ["width", "height"])[0];
            assert!(size.iter().all(|side| *side >= 1), "{name} {size:?}");
            assert_eq!(count(panel, "finder"), 4, "{name}");
        }
        let windows = numbers(&picture, "rect", "window", ["width"]);
        assert!(windows.iter().all(|[width]| *width >= 1), "{name}");
        assert_eq!(count(panel(&picture, "plane"), "point"), 2);
        // a line is seen without a cross
        let picture = draw(&folder, &format!("{name} --box 12 12 -300 400"));
        assert_eq!(count(panel(&picture, "plane"), "finder"), 0);
    }
}

/// Of the first leg, which takes ten seconds, from the third to the ninth, in a broad line.
#[test]
fn the_window_is_shown_on_the_plane() {
    let folder = of_each_kind();
    for name in KINDS {
        let picture = draw(&folder, &format!("{name} --window 3 9"));
        let on_plane = panel(&picture, "plane");
        let (trail, part) = (spots(&picture), lines(on_plane, "part").concat());
        assert_eq!(part.len(), 2, "{name}");
        let (start, wide) = (trail[0].0, trail[1].0 - trail[0].0);
        for (spot, tenths) in part.iter().zip([3, 9]) {
            assert!((spot.0 - start - wide * tenths / 10).abs() <= 1, "{name}");
            assert_eq!(spot.1, trail[0].1);
        }
        assert!(says(&picture, "window"));
    }
}

/// A window that begins or ends inside a silence is shown up to the silence, and one that is inside is said to be.
#[test]
fn the_window_is_not_shown_across_a_silence() {
    let folder = of_each_kind();
    let parts = |window: &str| {
        let picture = draw(&folder, &format!("silent --window {window}"));
        lines(panel(&picture, "plane"), "part")
    };
    let trail = draw(&folder, "silent");
    let trail = lines(panel(&trail, "plane"), "trail");
    let (before, after) = (trail[0].last().copied(), trail[1][0]);
    let to_silence = parts("25 200");
    assert_eq!(to_silence.len(), 1);
    assert_eq!(to_silence[0].last().copied(), before);
    let from_silence = parts("200 305");
    assert_eq!(from_silence.len(), 1);
    assert_eq!(from_silence[0][0], after);
    assert_eq!(parts("25 305").len(), 2);
    assert!(parts("31 299").is_empty());
    let inside = draw(&folder, "silent --window 31 299 --zoom window");
    assert!(says(&inside, "window, all of it in a silence"));
    // an instant is a dot
    let dot = parts("5 5").concat();
    assert!(dot.len() == 2 && dot[0] == dot[1]);
}

/// A middle of the panel is the box's, the circle's or the window's, and nothing is drawn far outside.
#[test]
fn a_picture_can_be_zoomed() {
    let folder = of_each_kind();
    let far = [
        (0, -16_000, 9, 0),
        (40_000, 16_000, 9, 1),
        (65_535, 0, 0, 0),
    ];
    folder.put("far", silent_record(&far));
    let names = KINDS.map(|name| (name, "--window 5 15"));
    for (name, window) in names.into_iter().chain([("far", "--window 20000 20001")]) {
        let asked = format!("{name} --box 4 10 -2 4 {window} --point 7 1 --radius 3");
        for zoom in ["window", "box", "point"] {
            let picture = draw(&folder, &format!("{asked} --zoom {zoom}"));
            words_stand_apart(&picture);
            let [left, top, right, bottom] = plane(&picture);
            let on_plane = panel(&picture, "plane");
            if zoom != "window" {
                let [x, y, width, height] =
                    numbers(on_plane, "rect", "box", ["x", "y", "width", "height"])[0];
                let off = [2 * x + width - left - right, 2 * y + height - top - bottom];
                assert!(
                    off.iter().all(|off| off.abs() <= 4),
                    "{name} {zoom} {off:?}"
                );
            }
            let all = ["trail", "part"].map(|class| lines(&picture, class).concat());
            for (x, y) in all.concat() {
                assert!(
                    (0..8_000).contains(&x) && (0..15_000).contains(&y),
                    "{name} {zoom}"
                );
            }
        }
    }
    // ten seconds around an instant, of the trail's own
    let picture = draw(&folder, "far --window 20000 20000 --zoom window");
    assert!(says(&picture, "19995") && says(&picture, "20005"));
    assert!(!says(&picture, "30000"));
    // what is at other times isn't on the plane
    let whole = draw(&folder, "silent --window 0 30");
    let zoomed = draw(&folder, "silent --window 0 30 --zoom window");
    let stretches = |picture: &str| lines(panel(picture, "plane"), "trail").len();
    assert_eq!((stretches(&whole), stretches(&zoomed)), (2, 1));
    assert!(says(&whole, "end") && !says(&zoomed, "end"));
    assert!(says(&zoomed, "start"));
    // also where it is at the same places: the leg that goes on from the window is the last
    folder.put(
        "again",
        record(&[(0, 0, 0), (99, 90, 0), (200, 0, 50), (300, 90, 5)]),
    );
    let again = |words: &str| spots(&draw(&folder, &format!("again --window 0 99 {words}"))).len();
    assert_eq!((again(""), again("--zoom window")), (4, 3));
}

#[test]
fn what_is_zoomed_to_must_be_there() {
    let folder = of_each_kind();
    for (words, what) in [
        (
            "--zoom hall",
            "--zoom, TO: 'hall' isn't one of window, box, point",
        ),
        ("--zoom", "--zoom takes TO"),
        ("--zoom box", "--zoom box goes with --box X0 X1 Y0 Y1"),
        (
            "--zoom window --box 1 2 3 4",
            "--zoom window goes with --window S E",
        ),
        (
            "--zoom point --box 1 2 3 4",
            "--zoom point goes with --point X Y and --radius R",
        ),
        ("--zoom box --zoom box", "--zoom is given twice"),
        ("--within", "--within goes with --window S E"),
    ] {
        let ran = folder.run_line(&format!("plot h -o new {words}"));
        ran.fails(2, &format!("trail: plot: {what}; try 'trail plot --help'"));
    }
    assert_eq!(folder.names(), ["fine", "h", "silent"]);
}

/// A diamond where it begins, a square where it ends, and heads of arrows that point along it, on no silence.
#[test]
fn start_end_and_direction_are_shown() {
    let folder = of_each_kind();
    for name in KINDS {
        let picture = draw(&folder, name);
        let on_plane = panel(&picture, "plane");
        let trail = lines(on_plane, "trail");
        let (first, last) = (trail[0][0], trail.concat().last().copied());
        let middle = |corners: &[(i64, i64)]| {
            let (x, y) = corners
                .iter()
                .fold((0, 0), |sum, spot| (sum.0 + spot.0, sum.1 + spot.1));
            (x / corners.len() as i64, y / corners.len() as i64)
        };
        assert_eq!(middle(&lines(on_plane, "start")[0]), first, "{name}");
        let [x, y, width, height] =
            numbers(on_plane, "rect", "end", ["x", "y", "width", "height"])[0];
        assert_eq!(Some((x + width / 2, y + height / 2)), last, "{name}");
        let heads = lines(on_plane, "arrow");
        assert!(!heads.is_empty() && heads.len() <= 24, "{name}");
        let near = |spot: (i64, i64), line: &[(i64, i64)]| {
            let span = |of: fn(&(i64, i64)) -> i64| {
                let all = line.iter().map(of);
                (
                    all.clone().min().unwrap_or(0) - 30,
                    all.max().unwrap_or(0) + 30,
                )
            };
            let ((left, right), (top, bottom)) = (span(|s| s.0), span(|s| s.1));
            (left..=right).contains(&spot.0) && (top..=bottom).contains(&spot.1)
        };
        for head in &heads {
            assert!(
                trail.iter().any(|line| near(middle(head), line)),
                "{name} {head:?}"
            );
        }
    }
    let along = |fixes: &[(u32, i32, i32)]| {
        folder.put("t", record(fixes));
        let picture = draw(&folder, "t");
        lines(panel(&picture, "plane"), "arrow")
    };
    let right = along(&[(0, 0, 0), (9, 100, 0)]);
    assert!(right.iter().all(|head| head[0].0 > head[1].0));
    let left = along(&[(0, 100, 0), (9, 0, 0)]);
    assert!(left.iter().all(|head| head[0].0 < head[1].0));
    let up = along(&[(0, 0, 0), (9, 0, 100)]);
    assert!(up.iter().all(|head| head[0].1 < head[1].1));
    assert!([right, left, up].iter().all(|heads| !heads.is_empty()));
    // a cart at rest goes nowhere
    assert!(along(&[(0, 5, 5), (9, 5, 5)]).is_empty());
}
