//! Several trails in one picture, long names, and originals that aren't a trail's.

use std::fs;

use trails_tests::cases::Random;
use trails_tests::plain::kinds::{CENTIMETRES, KINDS, SILENCES};
use trails_tests::plain::Trail;
use trails_tests::shapes::{curve, every_kind_and_shape, trail, Shape};

use crate::folder::{fine_h, record, silent_h, silent_h_at_12, silent_record, trail_h, Folder};
use crate::svg::{count, draw, draw_words, lines, panel, says, words_stand_apart};

/// Each in its colour, with its name and its answers.
#[test]
fn several_trails_are_drawn_together() {
    let folder = Folder::new();
    folder.put("h", trail_h());
    folder.put("late", record(&[(40, 0, 9), (50, 30, 9)]));
    folder.put("silent", silent_h());
    let picture = draw(
        &folder,
        "h late silent --box 5 10 -1 1 --point 25 9 --radius 5",
    );
    words_stand_apart(&picture);
    for words in [
        "3 trails",
        "fixes: 13; seconds 0 to 320; places in centimetres",
        "h",
        "late",
        "silent",
        "first in the box at 2.500; never within 5 cm of the point",
        "never in the box; closest on leg 0 at 48.333",
    ] {
        assert!(says(&picture, words), "{words}");
    }
    for name in ["plane", "x-over-time", "y-over-time"] {
        let panel = panel(&picture, name);
        for (class, many) in [("c0 d0", 2), ("c1 d0", 2), ("c2 d0", 2)] {
            assert!(count(panel, class) >= many, "{name} {class}");
        }
        assert_eq!((count(panel, "first"), count(panel, "closest")), (2, 1));
        assert_eq!(count(panel, "trail"), 4);
    }
    assert_eq!(count(panel(&picture, "plane"), "start"), 3);
    // in millimetres too
    folder.put("fine", fine_h());
    folder.put("finer", fine_h());
    let picture = draw(&folder, "fine finer --box 50 100 -1 1");
    assert!(says(&picture, "finer") && picture.contains("; places in millimetres<"));
}

#[test]
fn several_trails_are_in_one_unit_and_have_no_original() {
    let folder = Folder::new();
    folder.put("h", trail_h());
    folder.put("fine", fine_h());
    folder.put("silent", silent_h());
    for (words, what) in [
        ("h silent fine", "the trails are in different units"),
        ("fine h", "the trails are in different units"),
        ("h h --original h", "--original goes with one trail alone"),
        ("- -", "only one file can be the standard input"),
        ("", "it takes one file or more"),
    ] {
        let ran = folder.run_line(&format!("plot {words} -o new"));
        ran.fails(2, &format!("trail: plot: {what}; try 'trail plot --help'"));
    }
    let ran = folder.run_line("plot h nothing -o new");
    assert_eq!(ran.status, Some(3), "{}", ran.err);
    let ran = folder.run_line("plot h silent -o silent --force");
    ran.fails(
        2,
        "trail: plot: -o names a trail that is drawn; try 'trail plot --help'",
    );
    assert_eq!(folder.names(), ["fine", "h", "silent"]);
}

/// A window that a trail hasn't is refused as of one trail, unless it is cut to each trail's own times.
#[test]
fn a_window_is_cut_to_each_trails_own_times() {
    let folder = Folder::new();
    folder.put("h", trail_h());
    folder.put("late", record(&[(20, 0, 9), (50, 30, 9)]));
    folder.put("later", record(&[(60, 5, 9), (90, 30, 9)]));
    let asked = "h late later --box 5 10 -1 10 --window 1 40";
    let ran = folder.run_line(&format!("plot {asked} -o new"));
    assert_eq!(ran.status, Some(1));
    assert!(ran.err.starts_with("h: refused 13: "), "{}", ran.err);
    let picture = draw(&folder, &format!("{asked} --within"));
    for words in [
        "first in the box at 2.500",
        "first in the box at 25.000",
        "no time in the window",
    ] {
        assert!(says(&picture, words), "{words}");
    }
    assert_eq!(count(panel(&picture, "plane"), "part"), 2);
    // of one trail too, and a window that is none stays refused
    let one = draw(&folder, "later --window 1 40 --within");
    assert!(says(&one, "window, at other times than the trail's"));
    for words in ["h --window 9 3 --within", "h late --window 9 3 --within"] {
        let ran = folder.run_line(&format!("plot {words} -o new"));
        assert_eq!(ran.status, Some(1), "{words}");
        assert!(ran.err.starts_with("h: refused 13: "), "{}", ran.err);
    }
}

/// Among many noes a yes stands out, and a bad box is refused by a trail too that isn't asked about it.
#[test]
fn a_yes_is_seen_among_noes() {
    let folder = Folder::with_h();
    folder.put("later", record(&[(100, 0, 0), (130, 9, 0)]));
    let picture = draw(&folder, "h later --box 15 25 -5 5");
    let class = |words: &str| {
        let (before, _) = picture
            .split_once(&format!(">{words}<"))
            .expect("it is said");
        let (_, class) = before.rsplit_once("class=\"").expect("its class");
        class.split('"').next().expect("its end").to_string()
    };
    assert_eq!(class("first in the box at 7.500"), "words");
    assert_eq!(class("never in the box"), "soft");
    let words = "plot later --box 9 0 0 9 --window 0 9 --within -o new";
    let ran = folder.run_line(words);
    assert_eq!(ran.status, Some(1), "{}", ran.err);
    assert!(ran.err.starts_with("later: refused 14: "), "{}", ran.err);
}

/// Forty trails of as many fixes as there can be: a file that a viewer opens, and words that can be read.
#[test]
fn a_shift_of_forty_trails_is_drawn() {
    let folder = Folder::new();
    let mut random = Random::new(3);
    for k in 0..40 {
        let mut trail = trail(CENTIMETRES, Shape::Smooth, 4_096, &mut random);
        if k % 2 == 1 {
            trail.kind = SILENCES;
            trail
                .fixes
                .iter_mut()
                .step_by(500)
                .for_each(|fix| fix.silence = 1);
        }
        folder.put(&format!("cart-{k:03}.trail"), trail.bytes());
    }
    let names = folder.names();
    let names: Vec<&str> = names.iter().map(String::as_str).collect();
    let asked = "--box -900 900 -900 900 --point 0 0 --radius 500 --epoch 2026-11-17T06:00:00";
    for asked in ["", asked] {
        let words: Vec<&str> = asked.split_whitespace().collect();
        let picture = draw_words(&folder, &[names.as_slice(), words.as_slice()].concat());
        assert!(picture.len() < 5 << 20, "{}", picture.len());
        words_stand_apart(&picture);
        assert!(names.iter().all(|name| says(&picture, name)));
        assert_eq!(count(&picture, "fix"), 0);
        assert!(picture.contains("class=\"c7 d4\""));
    }
}

/// The ends of names differ, so they stay.
#[test]
fn long_names_keep_their_end() {
    let folder = Folder::new();
    let long = format!("{}-cart-7.trail", "shift".repeat(45));
    let wide = format!("{}.trail", "漢".repeat(60));
    let turned = "\u{202e}\u{5d0}\u{5d1}\u{5d2}.trail";
    let escaped = format!("{}.trail", "\u{1b}".repeat(200));
    let names = [long.as_str(), &wide, turned, &escaped];
    for name in names {
        folder.put(name, silent_h());
        let picture = draw_words(&folder, &[name]);
        words_stand_apart(&picture);
    }
    let alone = draw_words(&folder, &[&long]);
    assert!(alone.contains(">…") && alone.contains("-cart-7.trail</text>"));
    let picture = draw_words(&folder, &names);
    words_stand_apart(&picture);
    assert!(picture.contains("-cart-7.trail</text>"));
    assert!(picture.contains("\\u{202e}\u{5d0}") && !picture.contains('\u{202e}'));
    // trails of one name are told apart by their folders
    for day in ["monday", "tuesday"] {
        fs::create_dir(folder.path().join(day)).expect("a new folder");
        folder.put(&format!("{day}/cart"), trail_h());
    }
    let picture = draw(&folder, "monday/cart tuesday/cart");
    assert!(says(&picture, "monday/cart") && says(&picture, "tuesday/cart"));
    assert!(says(&draw(&folder, "monday/cart"), "cart"));
}

/// Everything that can be asked at once, of each kind.
#[test]
fn words_stand_apart_whatever_is_asked() {
    let folder = Folder::new();
    let far = [
        (0, -16_000, 0, 0),
        (65_534, 16_000, 0, 1),
        (65_535, 0, 0, 0),
    ];
    folder.put("far", silent_record(&far));
    folder.put(
        "long",
        Trail::never_thinned(CENTIMETRES, curve(4_096)).bytes(),
    );
    let mut random = Random::new(4);
    for (name, kind) in ["one", "two", "three"].into_iter().zip(KINDS) {
        folder.put(name, trail(kind, Shape::Far, 90, &mut random).bytes());
    }
    let asked = "--box 15999 16000 0 0 --tolerance 32000 --point 16000 16000 --radius 32000";
    for name in ["far", "long", "one", "two", "three"] {
        for epoch in ["", "--epoch 06:00:00", "--epoch 2026-11-17T23:00:00"] {
            words_stand_apart(&draw(&folder, &format!("{name} {asked} {epoch}")));
            let both =
                format!("{name} --original {name} --window 0 4294967295 --within {asked} {epoch}");
            words_stand_apart(&draw(&folder, &both));
        }
    }
}

/// Two numbers of a range in order, and now and then one twice.
fn span(low: i64, high: i64, random: &mut Random) -> String {
    let one = random.between(low, high);
    let other = random.between(low, high);
    let other = random.pick(&[one, other]);
    format!("{} {}", one.min(other), one.max(other))
}

/// Some of what can be asked of a trail of this kind, at random.
fn some_words(trail: &Trail, random: &mut Random) -> String {
    let most = i64::from(trail.kind.limit);
    let ends = [trail.fixes.first(), trail.fixes.last()];
    let [first, last] = ends.map(|fix| i64::from(fix.expect("it has one").t));
    let (x, y) = (span(-most, most, random), span(-most, most, random));
    let place = |random: &mut Random| random.between(-most, most);
    let (point, radius) = ([place(random), place(random)], random.between(0, 2 * most));
    let (window, tolerance) = (span(first, last, random), random.between(0, 32_000));
    let asked = [
        ("box", format!("--box {x} {y}")),
        ("window", format!("--window {window} --within")),
        (
            "point",
            format!("--point {} {} --radius {radius}", point[0], point[1]),
        ),
    ];
    let (zoom, more) = (random.pick(&[0, 1, 2]), random.pick(&[0, 1, 2]));
    let mut words = asked[zoom].1.clone();
    if more != zoom {
        words += &format!(" {} --zoom {}", asked[more].1, asked[zoom].0);
    }
    let epoch = random.pick(&["", "--epoch 23:30:00", "--epoch 2026-11-17T23:59:59"]);
    format!("{words} {epoch} --tolerance {tolerance}")
}

/// Nothing overlaps or is drawn far outside, whatever is asked of whatever trails.
#[test]
fn pictures_of_any_trails_are_in_order() {
    let folder = Folder::new();
    let mut random = Random::new(5);
    for (kind, shape) in every_kind_and_shape() {
        for n in [1, 2, 7, 160, 401] {
            let all = trail(kind, shape, n, &mut random);
            folder.put("t", all.bytes());
            folder.put("u", trail(kind, shape, 9, &mut random).bytes());
            let names = random.pick(&["t", "t u", "t --original t"]);
            let words = format!("{names} {}", some_words(&all, &mut random));
            let picture = draw(&folder, &words);
            words_stand_apart(&picture);
            let drawn = ["trail", "original", "under", "part"].map(|class| lines(&picture, class));
            for (x, y) in drawn.concat().concat() {
                let near = (400..8_000).contains(&x) && (0..15_000).contains(&y);
                assert!(near, "{words} {x} {y}");
            }
        }
    }
}

/// What says that an original isn't the trail's.
#[test]
fn an_original_must_be_the_trails() {
    let folder = Folder::new();
    folder.put("h", trail_h());
    folder.put("early", record(&[(0, 0, 0), (20, 20, 0), (29, 0, 0)]));
    folder.put("late", record(&[(5, 0, 0), (30, 0, 0)]));
    folder.put("moved", record(&[(0, 0, 1), (30, 0, 0)]));
    folder.put("aside", record(&[(0, 0, 0), (10, 20, 3), (30, 0, 0)]));
    folder.put("more", record(&[(0, 0, 0), (11, 20, 0), (30, 0, 0)]));
    folder.put("fine", fine_h());
    folder.put("silent", silent_h());
    folder.put("aged", silent_h_at_12());
    let with = |at: u32| {
        let fixes = [
            (0, 0, 0),
            (10, 20, 0),
            (30, 0, 0),
            (300, 400, 90),
            (320, 440, 90),
        ];
        silent_record(&fixes.map(|(t, x, y)| (t, x, y, (t == at).into())))
    };
    folder.put("heard", with(0));
    folder.put("other", with(300));
    folder.put("gone", silent_record(&[(0, 0, 0, 0), (320, 440, 90, 0)]));
    let refused = |words: &str, what: &str| {
        let ran = folder.run_line(&format!("plot {words} -o new"));
        ran.fails(2, &format!("trail: plot: {what}; try 'trail plot --help'"));
    };
    refused(
        "fine --original h",
        "the trail and the original are in different units",
    );
    for (words, what) in [
        (
            "late --original h",
            "it begins at second 0, and the trail at second 5",
        ),
        (
            "h --original late",
            "it begins at second 5, and the trail at second 0",
        ),
        (
            "h --original late --epoch 06:00:00",
            "it begins at 06:00:05, and the trail at 06:00:00",
        ),
        (
            "h --original early",
            "it ends at second 29, and the trail at second 30",
        ),
        (
            "moved --original h",
            "at second 0 it is at 0 0 cm, and the trail at 0 1 cm",
        ),
        (
            "aside --original h",
            "at second 10 it is at 20 0 cm, and the trail at 20 3 cm",
        ),
        (
            "more --original h",
            "it has no fix at second 11, and the trail has one",
        ),
        (
            "silent --original aged",
            "it has no fix at second 20, and the trail has one",
        ),
        (
            "silent --original h",
            "it is of a kind without silences, and the trail isn't",
        ),
        (
            "h --original silent",
            "it is of a kind with silences, and the trail isn't",
        ),
        (
            "heard --original silent",
            "the trail falls silent at second 0, and it doesn't",
        ),
        (
            "other --original silent",
            "it falls silent at second 30, and the trail doesn't",
        ),
        (
            "gone --original silent",
            "it falls silent at second 30, and the trail doesn't",
        ),
    ] {
        refused(words, &format!("the original isn't this trail's: {what}"));
    }
    assert!(!folder.names().contains(&"new".to_string()));
    for words in [
        "aged --original silent",
        "h --original h",
        "fine --original fine",
    ] {
        draw(&folder, words);
    }
}
