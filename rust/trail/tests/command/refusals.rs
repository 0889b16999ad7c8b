//! Records and questions that the documents turn away.

use trails_tests::cases::{faults, kind_of, Draft, Random};
use trails_tests::plain;
use trails_tests::plain::kinds::{Kind, CENTIMETRES, KINDS, MILLIMETRES, SILENCES};

use crate::folder::{fine_h, trail_h, Folder, Ran};

/// The sentences of document 01, by hand.
const SENTENCES: [&str; 14] = [
    "The lent bytes are fewer than 10.",
    "The kind isn't 1, 2 or 3.",
    "The count is 0 or above 4,096.",
    "The length field isn't 10 + 8 times the count.",
    "The lent bytes are fewer than the length field.",
    "The mark is above 32,000 and isn't 65,535.",
    "Some x or y is outside −16,000 to 16,000.",
    "Some fix's time isn't later than the time before it.",
    "The last time less the first is above 65,535.",
    "The asked tolerance is above 32,000.",
    "The asked thousandths are above 999.",
    "The asked moment is before the first fix or after the last.",
    "The window's end is before its start, or either is outside the trail's times.",
    "A box edge is outside −16,000 to 16,000, or a low edge is above its high edge.",
];

/// Those that are about silences, or have other numbers with them.
const WITH_SILENCES: [(usize, &str); 2] = [
    (4, "The length field isn't 10 + 9 times the count."),
    (
        20,
        "A silence byte is neither 0 nor 1, or the last fix has 1.",
    ),
];

/// Those that have other numbers in millimetres.
const IN_MILLIMETRES: [(usize, &str); 5] = [
    (4, "The length field isn't 10 + 12 times the count."),
    (6, "The mark is above 60,000 and isn't 65,535."),
    (7, "Some x or y is outside −160,000 to 160,000."),
    (10, "The asked tolerance is above 60,000."),
    (
        14,
        "A box edge is outside −160,000 to 160,000, or a low edge is above its high edge.",
    ),
];

fn refused(number: usize) -> String {
    refused_in(CENTIMETRES, number)
}

fn refused_in(kind: Kind, number: usize) -> String {
    let others = match kind {
        MILLIMETRES => &IN_MILLIMETRES[..],
        SILENCES => &WITH_SILENCES,
        _ => &[],
    };
    let other = others.iter().find(|(of, _)| *of == number);
    let sentence = other.map_or_else(|| SENTENCES[number - 1], |(_, other)| other);
    format!("refused {number}: {sentence}")
}

/// What follows a refusal's sentence: the count, where it is about that.
fn count_told(number: u8, bytes: &[u8]) -> String {
    let count = || u16::from_le_bytes([bytes[8], bytes[9]]);
    match number {
        3 => format!(" The count is {}.", count()),
        _ => String::new(),
    }
}

/// Every command that reads a trail, on the file `t`.
const READERS: [&[&str]; 9] = [
    &["list", "t"],
    &["check", "t"],
    &["age", "--tolerance", "5", "t"],
    &["age", "--tolerance", "40000", "t"],
    &["age", "--days", "30", "t"],
    &["age", "--days", "30", "t", "-o", "new"],
    &["place", "t", "0"],
    &["replay", "t", "calls"],
    &["plot", "t", "-o", "new"],
];

#[test]
fn every_fault_of_a_record_is_named_by_every_command() {
    let folder = Folder::new();
    folder.put("calls", "days 30\n");
    let asked = [
        "cross t --box 0 1 0 1 --window 0 0",
        "near t --point 0 1 --radius 32001",
    ];
    let asked = asked.map(|line| line.split(' ').collect::<Vec<&str>>());
    let mut random = Random::new(3);
    for kind in KINDS {
        let of_each = |fault| [2, 40].map(|n| (n, fault));
        for (n, fault) in faults(kind).into_iter().flat_map(of_each) {
            let mut draft = Draft::accepted(kind, &mut random, n);
            draft.spoil(fault, &mut random);
            let bytes = draft.bytes();
            assert_eq!(plain::read(&bytes).err(), Some(fault));
            folder.put("t", &bytes);
            let sentence = refused_in(kind, fault.into());
            let message = format!("t: {sentence}{}", count_told(fault, &bytes));
            for words in READERS.into_iter().chain(asked.iter().map(Vec::as_slice)) {
                folder.run(words).fails(1, &message);
                assert!(folder.get("t") == bytes, "{words:?}");
            }
            assert_eq!(folder.names(), ["calls", "t"]);
        }
    }
}

#[test]
fn refusals_are_told_to_programs_too() {
    let folder = Folder::new();
    folder.put("t", "a text");
    let ran = folder.run(&["list", "--json", "t"]);
    assert_eq!(ran.status, Some(1));
    assert_eq!(ran.err, format!("t: {}\n", refused(1)));
    let sentence = SENTENCES[0];
    let line = format!("{{\"file\":\"t\",\"refused\":1,\"sentence\":\"{sentence}\"}}\n");
    assert_eq!(ran.text(), line);
    // and what a message says after the sentence
    folder.put("h", trail_h());
    let mut none = trail_h();
    none[8] = 0;
    folder.put("none", none);
    for (words, facts) in [
        ("list --json none", "\"count\":0"),
        ("place --json h 31", "\"first\":0,\"last\":30"),
        (
            "cross --json h --box 0 1 0 1 --window 0 31",
            "\"first\":0,\"last\":30",
        ),
    ] {
        let ran = folder.run(&words.split(' ').collect::<Vec<_>>());
        assert!(
            ran.text().ends_with(&format!(".\",{facts}}}\n")),
            "{}",
            ran.text()
        );
    }
}

/// What follows a refusal that is about the times of h.
const SECONDS: &str = "The trail has seconds 0 to 30.";

fn of_h(words: &str) -> Ran {
    let folder = Folder::new();
    folder.put("h", trail_h());
    let ran = folder.run_line(words);
    assert_eq!(folder.get("h"), trail_h(), "{words}");
    assert_eq!(folder.names(), ["h"], "{words}");
    ran
}

#[test]
fn tolerances_above_32000_are_refused() {
    let message = format!("h: {}", refused(10));
    of_h("age --tolerance 32001 h").fails(1, &message);
    of_h("age --tolerance 65535 h -o new").fails(1, &message);
}

/// What centimetres turn away, millimetres may take.
#[test]
fn a_trail_in_millimetres_has_its_own_limits() {
    let folder = Folder::new();
    folder.put("h", fine_h());
    let message = format!("h: {}", refused_in(MILLIMETRES, 10));
    folder
        .run_line("age --tolerance 60001 h")
        .fails(1, &message);
    let edges = format!("h: {}", refused_in(MILLIMETRES, 14));
    let cross = |edge: i32| folder.run_line(&format!("cross h --box {edge} 0 0 1 --window 0 30"));
    cross(-160_001).fails(1, &edges);
    assert_eq!(cross(-160_000).status, Some(0));
    assert_eq!(folder.get("h"), fine_h());
    let aged = folder.run_line("age --tolerance 60000 h");
    assert_eq!(aged.status, Some(0), "{}", aged.err);
}

/// The sentences about a table, by hand.
const BAD_ROW_COUNT: &str = "The table has no rows, or more than 32.";
const BAD_ROWS: &str =
    "The table's days don't rise strictly, its tolerances fall, or one is above 32,000.";

/// A table of so many rows.
fn rows(many: usize) -> String {
    (0..many).map(|day| format!("{day} 5\n")).collect()
}

/// With the line that it is about, or how many rows there are; and then no trail is looked at, not even one that isn't
/// there.
#[test]
fn tables_are_refused() {
    let folder = Folder::with_h();
    let counted = |many: usize| format!("hall: refused 22: {BAD_ROW_COUNT} The rows are {many}.");
    let named = |line: usize| format!("hall, line {line}: refused 23: {BAD_ROWS}");
    let cases = [
        (String::new(), counted(0)),
        ("# none\n".into(), counted(0)),
        (rows(33), counted(33)),
        (rows(4_096), counted(4_096)),
        ("2 10\n\n2 25\n".into(), named(3)),
        ("2 10\n7 25\n3 400\n".into(), named(3)),
        ("2 10\n7 9\n30 8\n".into(), named(2)),
        ("2 32001\n".into(), named(1)),
        ("2 10\n7 65535\n".into(), named(2)),
        (rows(32) + "31 5\n", counted(33)),
        (rows(31) + "30 5\n", named(32)),
    ];
    for (text, message) in cases {
        folder.put("hall", text);
        for words in [
            "table hall",
            "age --days 7 --table hall h missing",
            "age --days 7 --table hall h -o new",
            "replay --table hall h missing",
        ] {
            folder.run_line(words).fails(1, &message);
        }
        assert_eq!(folder.get("h"), trail_h());
        assert_eq!(folder.names(), ["h", "hall"]);
    }
    folder.put("hall", rows(32));
    assert_eq!(folder.run_line("table hall").status, Some(0));
}

#[test]
fn refused_tables_are_told_to_programs() {
    let folder = Folder::with_h();
    let refused = |number, sentence| format!("\"refused\":{number},\"sentence\":\"{sentence}\"");
    for (text, told) in [
        ("", format!("{},\"rows\":0", refused(22, BAD_ROW_COUNT))),
        (
            "2 10\n2 10\n",
            format!("\"line\":2,{}", refused(23, BAD_ROWS)),
        ),
    ] {
        folder.put("hall", text);
        for words in ["table --json hall", "age --json --days 7 --table hall h"] {
            let ran = folder.run_line(words);
            let line = format!("{{\"file\":\"hall\",{told}}}\n");
            assert_eq!(
                (ran.status, ran.text()),
                (Some(1), line.as_str()),
                "{words}"
            );
        }
    }
}

#[test]
fn moments_outside_the_trail_are_refused() {
    let message = format!("h: {} {SECONDS}", refused(12));
    of_h("place h 30.001").fails(1, &message);
    of_h("place h 4294967295").fails(1, &message);
}

#[test]
fn windows_and_boxes_are_refused() {
    let window = format!("h: {} {SECONDS}", refused(13));
    of_h("cross h --box 0 1 0 1 --window 5 4").fails(1, &window);
    of_h("cross h --box 0 1 0 1 --window 0 31").fails(1, &window);
    of_h("cross h --box 1 0 0 1 --window 0 31").fails(1, &window);
    let edges = format!("h: {}", refused(14));
    of_h("cross h --box 1 0 0 1 --window 0 30").fails(1, &edges);
    of_h("cross h --box -16001 0 0 1 --window 0 30").fails(1, &edges);
    of_h("cross h --box 0 1 0 2147483647 --window 0 30").fails(1, &edges);
}

/// Check 16, which nothing is told besides.
const BAD_POINT: &str = "The point is outside −16,000 to 16,000, or the radius is above 32,000.";

#[test]
fn points_and_radii_are_refused() {
    let message = format!("h: refused 16: {BAD_POINT}");
    for asked in [
        "--point -16001 0 --radius 5",
        "--point 16001 0 --radius 5",
        "--point 0 -16001 --radius 5",
        "--point 0 2147483647 --radius 5",
        "--point 0 0 --radius 32001",
        "--point 0 0 --radius 4294967295",
    ] {
        of_h(&format!("near h {asked}")).fails(1, &message);
        of_h(&format!("plot h {asked} -o new")).fails(1, &message);
        let json = of_h(&format!("near --json h {asked}"));
        assert_eq!((json.status, json.err), (Some(1), format!("{message}\n")));
        let told = format!("{{\"file\":\"h\",\"refused\":16,\"sentence\":\"{BAD_POINT}\"}}\n");
        assert_eq!(String::from_utf8_lossy(&json.out), told);
    }
    let most = of_h("near h --point -16000 16000 --radius 32000");
    assert_eq!(most.status, Some(0), "{}", most.err);
}

#[test]
fn check_goes_on_past_a_refused_file() {
    let folder = Folder::new();
    folder.put("a", trail_h());
    folder.put("b", "");
    let ran = folder.run(&["check", "b", "a"]);
    assert_eq!(ran.status, Some(1));
    let checked = "a: fixes 4, seconds 0 to 30, places in cm, mark never\n";
    assert_eq!(ran.text(), checked);
    assert_eq!(ran.err, format!("b: {}\n", refused(1)));
}

/// Whatever stands in a file, every command ends with a status of its own and leaves a refused file alone.
#[test]
fn noise_is_answered_like_the_plain_version() {
    let folder = Folder::new();
    folder.put("calls", "tolerance 3\n");
    let mut random = Random::new(5);
    for n in [0, 1, 9, 10, 11, 18, 100, 40_000] {
        let mut bytes = random.bytes(n);
        // half of them get past check 2, by turns as each kind
        if n % 2 == 0 && n > 6 {
            bytes[4] = 1 + (n % 3) as u8;
            bytes[5] = 0;
        }
        folder.put("t", &bytes);
        let number = plain::read(&bytes).expect_err("noise is no trail");
        let sentence = refused_in(kind_of(&bytes, CENTIMETRES), number.into());
        for words in READERS {
            let message = format!("t: {sentence}{}", count_told(number, &bytes));
            folder.run(words).fails(1, &message);
            assert!(folder.get("t") == bytes, "{words:?}");
        }
    }
}
