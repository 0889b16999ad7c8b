//! `write`, and the texts that it, `table` and `replay` read.

use crate::folder::{fine_record, record, silent_h, silent_record, trail_h, Folder};

#[test]
fn spaces_commas_comments_and_line_ends_are_taken() {
    let folder = Folder::new();
    let plain = "0 0 0\n10 20 0\n20 20 0\n30 0 0\n";
    let dressed = "\u{feff}# h\r\n 0,0,0\r\n\n10,\t20 ,0\n20   20\t0 # stop\n#\n30 +0 -0";
    for text in [plain, dressed] {
        folder.put("fixes", text);
        folder.run(&["write", "fixes", "-o", "h"]).says("");
        assert_eq!(folder.get("h"), trail_h());
        let ran = folder.run_with(&["write", "-", "-o", "-"], text.as_bytes());
        assert_eq!((ran.status, ran.out), (Some(0), trail_h()));
    }
    assert_eq!(folder.names(), ["fixes", "h"]);
}

#[test]
fn write_answers_programs() {
    let folder = Folder::new();
    let words = ["write", "--json", "-", "-o", "one"];
    folder
        .run_with(&words, b"7 -1 2")
        .says("{\"file\":\"one\",\"unit\":\"cm\",\"count\":1,\"silences\":null,\"bytes\":18}\n");
    assert_eq!(folder.get("one"), record(&[(7, -1, 2)]));
}

#[test]
fn millimetres_are_written() {
    let folder = Folder::new();
    let words = ["write", "--millimetres", "--json", "-", "-o", "one"];
    folder
        .run_with(
            &words,
            b"7 -160000 32768
9 160000 -1",
        )
        .says("{\"file\":\"one\",\"unit\":\"mm\",\"count\":2,\"silences\":null,\"bytes\":34}\n");
    let fixes = [(7, -160_000, 32_768), (9, 160_000, -1)];
    assert_eq!(folder.get("one"), fine_record(&fixes));
    // the same text isn't one in centimetres, and both ends of what millimetres can be
    let places = |word, range| format!("x: '{word}' isn't a whole number from {range}");
    for (option, text, message) in [
        (
            "--json",
            "7 -160000 5",
            places("-160000", "-16,000 to 16,000"),
        ),
        (
            "--millimetres",
            "7 2147483648 5",
            places("2147483648", "-160,000 to 160,000"),
        ),
    ] {
        let ran = folder.run_with(&["write", option, "-", "-o", "two"], text.as_bytes());
        assert_eq!(ran.status, Some(2));
        assert_eq!(ran.err, format!("standard input, line 1: {message}\n"));
    }
    let ran = folder.run_with(
        &["write", "--millimetres", "-", "-o", "two"],
        b"1 0 0\n2 0 160001",
    );
    let misplaced = "refused 7: Some x or y is outside −160,000 to 160,000.";
    ran.fails(1, &format!("standard input, line 2: {misplaced}"));
    assert_eq!(folder.names(), ["one"]);
}

/// In spaces and in commas: every word that a fourth place may have.
#[test]
fn silences_are_written() {
    let folder = Folder::new();
    let spaces =
        "0 0 0 -\n10 20 0 0\n20 20 0\n30 0 0 silence\n300 400 90\n310 420 75\n320 440 90 0\n";
    let commas =
        "0,0,0,\n10,20,0,-\n20,20,0\n30,0,0, 1\r\n300,400,90,0\n310,420,75\n320,440,90 ,\t\n";
    for text in [spaces, commas] {
        let ran = folder.run_with(&["write", "-", "-o", "h"], text.as_bytes());
        ran.says("");
        assert_eq!(folder.get("h"), silent_h(), "{text}");
    }
    // the fourth place alone makes it a trail that can have silences
    let words = ["write", "--json", "-", "-o", "none"];
    folder
        .run_with(&words, b"7 -1 2\n8 0 0 -")
        .says("{\"file\":\"none\",\"unit\":\"cm\",\"count\":2,\"silences\":0,\"bytes\":28}\n");
    let none = silent_record(&[(7, -1, 2, 0), (8, 0, 0, 0)]);
    assert_eq!(folder.get("none"), none);
}

/// Where more than so many seconds pass, and where a line says so.
#[test]
fn gaps_are_silences_if_that_is_asked() {
    let folder = Folder::new();
    let text = b"0 5 5\n60 5 5\n121 5 5\n122 5 5 silence\n123 5 5\n";
    for (seconds, silent) in [
        ("60", [0, 1, 0, 1]),
        ("59", [1, 1, 0, 1]),
        ("61", [0, 0, 0, 1]),
        ("0", [1, 1, 1, 1]),
        ("4294967295", [0, 0, 0, 1]),
    ] {
        let words = ["write", "--silence-after", seconds, "-", "-o", "t"];
        folder.run_with(&words, text).says("");
        let times = [0, 60, 121, 122].into_iter().zip(silent);
        let mut fixes: Vec<_> = times.map(|(t, silence)| (t, 5, 5, silence)).collect();
        fixes.push((123, 5, 5, 0));
        assert_eq!(folder.get("t"), silent_record(&fixes), "{seconds}");
    }
    // a lone fix has no neighbour, and times out of order are refused as ever
    let words = ["write", "--silence-after", "0", "-", "-o", "t"];
    folder.run_with(&words, b"7 -1 2").says("");
    assert_eq!(folder.get("t"), silent_record(&[(7, -1, 2, 0)]));
    let sentence = "refused 8: Some fix's time isn't later than the time before it.";
    let ran = folder.run_with(&words, b"7 0 0\n3 0 0\n");
    ran.fails(1, &format!("standard input, line 2: {sentence}"));
}

#[test]
fn no_trail_has_millimetres_and_silences() {
    let folder = Folder::new();
    let not_both = "no kind of trail has millimetres and silences";
    for fourth in ["silence", "0", "-"] {
        let text = format!("1 0 0\n2 0 0 {fourth}\n3 0 0\n");
        let words = ["write", "--millimetres", "-", "-o", "t"];
        let ran = folder.run_with(&words, text.as_bytes());
        ran.fails(2, &format!("standard input, line 2: {not_both}"));
    }
    let what = format!("--millimetres and --silence-after: {not_both}");
    let ran = folder.run_line("write --silence-after 5 --millimetres missing -o t");
    ran.fails(
        2,
        &format!("trail: write: {what}; try 'trail write --help'"),
    );
    assert!(folder.names().is_empty());
}

#[test]
fn a_bad_line_is_named_with_its_number() {
    let folder = Folder::new();
    let fields =
        |n| format!("a fix is 'time x y' or 'time x y silence', and here stand {n} fields");
    let silence = |word| format!("silence: '{word}' isn't 'silence', '1', '-' or '0'");
    let number =
        |field, word, range| format!("{field}: '{word}' isn't a whole number from {range}");
    let (times, places) = ("0 to 4,294,967,295", "-16,000 to 16,000");
    let cases: [(&[u8], usize, String); 14] = [
        (b"1 2", 1, fields(2)),
        (b"# fixes\n\n1 2 3 1 5\n", 3, fields(5)),
        (b"1 2 3\n1,2,3,,", 2, fields(5)),
        (b"# fixes\n\n1 2 3 4\n", 3, silence("4")),
        (b"1,2,3,1\n2,2,3,Silence", 2, silence("Silence")),
        (b"1,2,3,1 1", 1, silence("1 1")),
        (b"when 2 3\n1,2,3\n", 1, number("time", "when", times)),
        (b"1 2 3\n-1 2 3\n", 2, number("time", "-1", times)),
        (b"4294967296 2 3\n", 1, number("time", "4294967296", times)),
        (b"1 32768 3\n", 1, number("x", "32768", places)),
        (b"1 2 3.5\n", 1, number("y", "3.5", places)),
        (b"1,,3\n", 1, number("x", "", places)),
        (b"1 2 3\n\xff\xfe\n", 2, "it isn't text in UTF-8".into()),
        (b"1 \x1b[2J 3\n", 1, number("x", "\\u{1b}[2J", places)),
    ];
    for (text, line, what) in cases {
        let ran = folder.run_with(&["write", "-", "-o", "t"], text);
        ran.fails(2, &format!("standard input, line {line}: {what}"));
        assert!(folder.names().is_empty());
    }
}

#[test]
fn a_refused_list_is_not_stored_and_its_line_is_named() {
    let folder = Folder::new();
    let many: String = (0..4_097).map(|t| format!("{t} 0 0\n")).collect();
    let cases = [
        (
            "",
            "fixes: refused 3: The count is 0 or above 4,096. The count is 0.",
        ),
        (
            &many,
            "fixes: refused 3: The count is 0 or above 4,096. The count is 4097. \
             --split makes several trails of them.",
        ),
        (
            "5 0 0\n\n5 0 -16001\n",
            "fixes, line 3: refused 7: Some x or y is outside −16,000 to 16,000.",
        ),
        (
            "5 0 0\n# again\n5 0 0\n99999 0 0\n",
            "fixes, line 3: refused 8: Some fix's time isn't later than the time before it.",
        ),
        (
            "0 0 0\n65535 0 0\n65536 0 0\n",
            "fixes, line 3: refused 9: The last time less the first is above 65,535. \
             --split makes several trails of them.",
        ),
        (
            "1 0 0 silence\n\n2 0 0 1 # and off\n",
            "fixes, line 3: refused 20: A silence byte is neither 0 nor 1, or the last fix has 1.",
        ),
    ];
    for (text, message) in cases {
        folder.put("fixes", text);
        folder.put("t", "what was there");
        folder.run(&["write", "fixes", "-o", "t"]).fails(1, message);
        assert_eq!(folder.get("t"), b"what was there");
    }
}

#[test]
fn a_refused_list_is_told_to_programs_with_its_line() {
    let folder = Folder::new();
    let ran = folder.run_with(&["write", "--json", "-", "-o", "t"], b"1 0 0\n1 0 0\n");
    assert_eq!(ran.status, Some(1));
    assert!(ran
        .text()
        .starts_with("{\"file\":\"-\",\"line\":2,\"refused\":8,"));
    let ran = folder.run_with(&["write", "--json", "-", "-o", "t"], b"1 0 0\n1 0\n");
    assert_eq!(ran.status, Some(2));
    assert!(ran
        .text()
        .starts_with("{\"file\":\"-\",\"line\":2,\"failed\":\"a fix is "));
}

#[test]
fn the_longest_list_is_stored() {
    let folder = Folder::new();
    let many: String = (0..4_096).map(|t| format!("{t},{t},-{t}\n")).collect();
    for (words, bytes) in [
        (&["write", "-", "-o", "t"][..], 32_778),
        (&["write", "--millimetres", "-", "-o", "t"], 49_162),
        (&["write", "--silence-after", "9", "-", "-o", "t"], 36_874),
    ] {
        folder.run_with(words, many.as_bytes()).says("");
        assert_eq!(folder.get("t").len(), bytes);
        let listing = folder.run(&["list", "t"]);
        let end = "fix 4095 4095 -4095\nend\n";
        assert!(listing.text().ends_with(end), "{words:?}");
    }
}

// ---- columns under a line with their names

const FINE: [(u32, i32, i32); 2] = [(7, -160_000, 32_768), (9, 160_000, -1)];

#[test]
fn columns_stand_in_any_order_and_may_name_the_unit() {
    let folder = Folder::new();
    let plain = record(&[(7, -1, 2), (9, 3, -4)]);
    let fine = fine_record(&[(7, -1, 2), (9, 3, -4)]);
    let silent = silent_record(&[(7, -1, 2, 1), (9, 3, -4, 0)]);
    for (words, text, made) in [
        ("", "time,x,y\n7,-1,2\n9,3,-4\n", &plain),
        (
            "",
            "\u{feff}# cart 4\n\nY_cm,T,X_CM\r\n2,7,-1\r\n-4,9,3\r\n",
            &plain,
        ),
        (
            "",
            "\"time\",\"x\",\"y\"\n\"7\",\"-1\",\"2\"\n9,\"3\", -4\n",
            &plain,
        ),
        ("", "time x y\n7 -1 2\n9 3 -4\n", &plain),
        ("", "x_mm,y_mm,t\n-1,2,7\n3,-4,9\n", &fine),
        ("--millimetres", "x,y,t\n-1,2,7\n3,-4,9\n", &fine),
        ("--millimetres", "x_mm,y_mm,t\n-1,2,7\n3,-4,9\n", &fine),
        ("", "silence,t,x,y\n1,7,-1,2\n,9,3,-4\n", &silent),
        (
            "",
            "t,silence,x_cm,y_cm\n7,silence,-1,2\n9,-,3,-4\n",
            &silent,
        ),
        (
            "--silence-after 1",
            "t,x_cm,y_cm\n7,-1,2\n9,3,-4\n",
            &silent,
        ),
    ] {
        folder.put("t", text);
        folder
            .run_line(&format!("write {words} t -o made"))
            .says("");
        assert_eq!(&folder.get("made"), made, "{words} {text}");
    }
    folder.put("t", "x_mm,y_mm,t\n-160000,32768,7\n160000,-1,9\n");
    folder.run_line("write t -o made").says("");
    assert_eq!(folder.get("made"), fine_record(&FINE));
}

#[test]
fn columns_that_are_unknown_missing_or_at_odds_are_bad() {
    let folder = Folder::new();
    let known = "columns are time (or t), x, y and silence; x_cm and y_cm, or x_mm and y_mm, \
                 name the unit";
    let unknown = |name| format!("there is no column '{name}'; {known}");
    let missing = |name| format!("no column is {name}; {known}");
    let units = || "x and y are of different units, or one names none".to_string();
    let not_both = || "no kind of trail has millimetres and silences".to_string();
    for (words, text, line, what) in [
        ("", "time,x,y,silense\n7,1,2,1\n", 1, unknown("silense")),
        ("", "time,x,y,\n7,1,2,\n", 1, unknown("")),
        ("", "time_cm,x,y\n7,1,2\n", 1, unknown("time_cm")),
        ("", "time,x_m,y_m\n7,1,2\n", 1, unknown("x_m")),
        ("", "time;x;y\n7;1;2\n", 1, unknown("time;x;y")),
        ("", "x,y\n1,2\n", 1, missing("time")),
        ("", "t,silence,x\n1,2,3\n", 1, missing("y")),
        ("", "t,x,y,x\n1,2,3,4\n", 1, "two columns are x".into()),
        (
            "",
            "t,time,x,y\n1,2,3,4\n",
            1,
            "two columns are time".into(),
        ),
        ("", "t,x_cm,y_mm\n1,2,3\n", 1, units()),
        ("", "t,x,y_mm\n1,2,3\n", 1, units()),
        (
            "--millimetres",
            "t,x_cm,y_cm\n1,2,3\n",
            1,
            "the columns are in centimetres, and --millimetres says otherwise".into(),
        ),
        ("", "t,x_mm,y_mm,silence\n1,2,3,0\n", 1, not_both()),
        ("--millimetres", "t,x,y,silence\n1,2,3,0\n", 1, not_both()),
        ("--silence-after 5", "t,x_mm,y_mm\n1,2,3\n", 1, not_both()),
        (
            "",
            "t,x,y,mark_cm\n1,2,3,25\n",
            1,
            "there is a column with a mark: that trail was thinned, and what is written is marked \
             never thinned"
                .into(),
        ),
        (
            "",
            "t,x,y,silence\n1,2,3,1\n2,2,3\n",
            3,
            "the first line names 4 columns, and here stand 3 fields".into(),
        ),
        // a silence that no column has isn't passed over
        (
            "",
            "t,x,y\n1,2,3,1\n",
            2,
            "the first line names 3 columns, and here stand 4 fields".into(),
        ),
        (
            "",
            "y,x,t\n1,2,3\nt,2,3\n",
            3,
            "y: 't' isn't a whole number from -16,000 to 16,000".into(),
        ),
    ] {
        folder.put("t", text);
        let ran = folder.run_line(&format!("write {words} t -o made"));
        ran.fails(2, &format!("t, line {line}: {what}"));
        assert_eq!(folder.names(), ["t"]);
    }
    // names alone are no fix
    folder.put("t", "time,x,y\n");
    let ran = folder.run_line("write t -o made");
    ran.fails(
        1,
        "t: refused 3: The count is 0 or above 4,096. The count is 0.",
    );
}

// ---- what `list` prints

#[test]
fn a_listing_is_a_text() {
    let folder = Folder::new();
    for (option, made) in [
        ("--json", trail_h()),
        ("--millimetres", fine_record(&FINE)),
        ("--json", silent_h()),
    ] {
        folder.put("h", &made);
        for epoch in ["--epoch=00:00:00", "--epoch=2026-11-17T23:59:55"] {
            let listing = folder.run(&["list", epoch, "h"]);
            let words = ["write", option, epoch, "-", "-o", "again"];
            let ran = folder.run_with(&words, &listing.out);
            assert_eq!(ran.status, Some(0), "{}", ran.err);
            assert_eq!(folder.get("again"), made);
        }
    }
    // of a trail without any silence the listing doesn't say that it could have one
    let quiet = silent_record(&[(7, -1, 2, 0), (8, 0, 0, 0)]);
    folder.put("h", &quiet);
    let listing = folder.run(&["list", "h"]);
    folder.run_with(&["write", "-", "-o", "t"], &listing.out);
    assert_eq!(folder.get("t"), record(&[(7, -1, 2), (8, 0, 0)]));
    let words = ["write", "--silence-after", "9", "-", "-o", "t"];
    folder.run_with(&words, &listing.out);
    assert_eq!(folder.get("t"), quiet);
}

#[test]
fn a_torn_or_thinned_listing_is_bad() {
    let folder = Folder::new();
    let thinned = "that trail was thinned, and what is written is marked never thinned";
    let torn = "the listing is torn: it has 1 of 2 fixes, and no 'end'";
    for (text, what) in [
        ("trail 2 never\nfix 0 0 0\n", format!("t: {torn}")),
        (
            "trail 2 never\nfix 0 0 0\nend\n",
            "t, line 3: the listing says 2 fixes, and has 1".into(),
        ),
        (
            "trail 1 never\nfix 0 0 0\nfix 1 0 0\nend\n",
            "t, line 4: the listing says 1 fixes, and has 2".into(),
        ),
        (
            "trail 1 never\nfix 0 0 0\nend\nfix 1 0 0\n",
            "t, line 4: the listing has ended, and here something follows".into(),
        ),
        (
            "trail 1 25\nfix 0 0 0\nend\n",
            format!("t, line 1: mark '25': {thinned}"),
        ),
        (
            "trail 1\nfix 0 0 0\nend\n",
            "t, line 1: a listing begins with 'trail COUNT MARK', and here stand 2 fields".into(),
        ),
        (
            "trail -1 never\nend\n",
            "t, line 1: count: '-1' isn't a whole number from 1 to 4,096".into(),
        ),
        (
            "trail 1 never\n0 0 0\nend\n",
            "t, line 2: a listing has lines 'fix TIME X Y', and then 'end'".into(),
        ),
        (
            "trail 1 never\nfix 0 0\nend\n",
            "t, line 2: a fix is 'time x y' or 'time x y silence', and here stand 2 fields".into(),
        ),
    ] {
        folder.put("t", text);
        folder.run_line("write t -o made").fails(2, &what);
        assert_eq!(folder.names(), ["t"]);
    }
    folder.put("t", "trail 2 never\nfix 0 0 0\n");
    let ran = folder.run_line("write --json t -o made");
    let line = format!("{{\"file\":\"t\",\"failed\":\"{torn}\"}}\n");
    assert_eq!(ran.text(), line);
}

// ---- times of the clock

#[test]
fn times_of_the_clock_are_taken_by_every_text() {
    let folder = Folder::new();
    let fixes = [(7_190, 1, 2), (7_200, 3, 4)];
    for (words, text) in [
        ("--epoch 22:00:00", "23:59:50 1 2\n00:00:00 3 4\n"),
        ("--epoch 22:00:00", "7190,1,2\n00:00:00+1d,3,4\n"),
        (
            "--epoch 2026-11-17T22:00:00",
            "t,x,y\n23:59:50,1,2\n2026-11-18 00:00:00,3,4\n",
        ),
        ("", "01:59:50 1 2\n02:00:00 3 4\n"),
        (
            "--anchors --epoch 22:00:00",
            "23:59:50 absolute 1 2\n00:00:00 step 2 2\n",
        ),
    ] {
        folder.put("t", text);
        let ran = folder.run_line(&format!("write {words} t -o made"));
        assert_eq!(ran.status, Some(0), "{}", ran.err);
        assert_eq!(folder.get("made"), record(&fixes), "{words} {text}");
    }
    for (text, what) in [
        ("24:00:00 1 2\n", "time: '24:00:00' isn't a time like "),
        (
            "2026-11-17T06:00:00 1 2\n",
            "time: '2026-11-17T06:00:00' has a date, and no --epoch",
        ),
    ] {
        folder.put("t", text);
        let ran = folder.run_line("write t -o new");
        assert_eq!(ran.status, Some(2));
        let start = format!("t, line 1: {what}");
        assert!(ran.err.starts_with(&start), "{}", ran.err);
    }
}

// ---- tables

/// The built-in table as it is printed, which is a table too.
const BUILT_IN: &str = "# before day 2: none
2 10        # days 2 to 6: 10 cm, or 100 mm
7 25        # days 7 to 29: 25 cm, or 250 mm
30 100      # days 30 to 89: 100 cm, or 1000 mm
90 400      # from day 90: 400 cm, or 4000 mm
";

#[test]
fn tables_are_read_as_lists_of_fixes_are() {
    let folder = Folder::new();
    let plain = "2 10\n7 25\n30 100\n90 400\n";
    let dressed = "\u{feff}# hall\r\n 2,10\r\n\n+7,\t25 \n30   100 # fine\n#\n90 +400";
    folder.run(&["table"]).says(BUILT_IN);
    for text in [plain, dressed, BUILT_IN] {
        folder.put("hall", text);
        folder.run(&["table", "hall"]).says(BUILT_IN);
        folder
            .run_with(&["table", "-"], text.as_bytes())
            .says(BUILT_IN);
    }
}

#[test]
fn a_bad_row_is_named_with_its_number() {
    let folder = Folder::new();
    folder.put("t", trail_h());
    let fields = |n| format!("a row is 'day tolerance', and here stand {n} fields");
    let number =
        |field, word, range| format!("{field}: '{word}' isn't a whole number from {range}");
    let (days, tolerances) = ("0 to 65,535", "0 to 32,000");
    let cases: [(&[u8], usize, String); 8] = [
        (b"2", 1, fields(1)),
        (b"# rows\n\n2 10 7 25\n", 3, fields(4)),
        (b"2,10\n7,25,", 2, fields(3)),
        (b"day,tolerance\n2,10\n", 1, number("day", "day", days)),
        (b"2 10\n65536 25\n", 2, number("day", "65536", days)),
        (b"2 -1\n", 1, number("tolerance", "-1", tolerances)),
        (b"2 65536\n", 1, number("tolerance", "65536", tolerances)),
        (b"2 10\n\xff\xfe\n", 2, "it isn't text in UTF-8".into()),
    ];
    for (text, line, what) in cases {
        folder.put("hall", text);
        for words in [
            &["table", "hall"][..],
            &["age", "--days", "7", "--table", "hall", "t"],
            &["replay", "--table", "hall", "t", "-"],
        ] {
            let ran = folder.run(words);
            ran.fails(2, &format!("hall, line {line}: {what}"));
        }
        assert_eq!(folder.get("t"), trail_h());
    }
}

#[test]
fn a_bad_call_is_named_with_its_number() {
    let folder = Folder::new();
    folder.put("h", trail_h());
    let form = "a call is 'tolerance E' or 'days D'";
    let number = "'65536' isn't a whole number from 0 to 65,535";
    let tolerance = "'-1' isn't a whole number from 0 to 32,000";
    for (calls, line, what) in [
        ("tolerance 5\nage 5\n", 2, form),
        ("\ndays\n", 2, form),
        ("days 65536\n", 1, number),
        ("tolerance -1\n", 1, tolerance),
    ] {
        folder.put("calls", calls);
        let ran = folder.run(&["replay", "h", "calls"]);
        ran.fails(2, &format!("calls, line {line}: {what}"));
    }
}
