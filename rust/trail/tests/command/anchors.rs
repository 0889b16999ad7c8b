//! `write --anchors`: texts of readings, those that are refused, and what is said of both.

use trails_tests::programs::project;

use crate::folder::{record, silent_record, Folder};

/// Two places with steps after them, and readings of each refusal between.
const TEXT: &str = "# an anchor over belt 4\n\
     0 step 1 1            # before any place\n\
     1 absolute 0.1 5\n\
     2 absolute 16000.0625 5\n\
     3 absolute 12.25 0.5\n\
     5,step,0.25,-7.0625\n\
     6, step, nan, 0\n\
     7 step 40000 0\n\
     9 step -1.5 1\n";

const SENTENCES: [(u32, &str); 3] = [
    (
        17,
        "A value isn't finite, or isn't a whole number of sixteenths.",
    ),
    (
        18,
        "A step comes with a state that has no place yet, or one that 17 or 19 would turn away.",
    ),
    (19, "The new place is outside −16,000 to 16,000."),
];

/// The lines of the text that are refused, and by what.
const REFUSED: [(usize, u32); 5] = [(2, 18), (3, 17), (4, 19), (7, 17), (8, 19)];

const FIXES: [(u32, i32, i32); 3] = [(3, 12, 1), (5, 13, -7), (9, 11, -6)];

fn sentence(number: u32) -> &'static str {
    let found = SENTENCES.into_iter().find(|(of, _)| *of == number);
    found.expect("a refusal of readings").1
}

/// A message for each refused reading.
fn messages(file: &str) -> String {
    let message = |(line, number): (usize, u32)| {
        let sentence = sentence(number);
        format!("{file}, line {line}: refused {number}: {sentence}\n")
    };
    REFUSED.map(message).concat()
}

#[test]
fn accepted_readings_are_fixes_and_refused_ones_are_named() {
    let folder = Folder::new();
    folder.put("sent", TEXT);
    let ran = folder.run_line("write --anchors sent -o t");
    let summary = "sent: readings 8, refused 5, fixes 3\n";
    assert_eq!(ran.ended(), (Some(1), summary, messages("sent").as_str()));
    assert_eq!(folder.get("t"), record(&FIXES));
    // the trail on the standard output, and all that is said on the other
    let ran = folder.run_with(&["write", "--anchors", "-", "-o", "-"], TEXT.as_bytes());
    let name = "standard input";
    let said = format!("{}{name}: readings 8, refused 5, fixes 3\n", messages(name));
    assert_eq!((ran.status, ran.err), (Some(1), said));
    assert_eq!(ran.out, record(&FIXES));
}

#[test]
fn programs_are_told_of_each_refused_reading_and_of_all() {
    let folder = Folder::new();
    folder.put("sent", TEXT);
    let ran = folder.run_line("write --anchors --json --silence-after 3 sent -o t");
    let line = |(line, number): (usize, u32)| {
        let sentence = sentence(number);
        let what = format!("\"refused\":{number},\"sentence\":\"{sentence}\"");
        format!("{{\"file\":\"sent\",\"line\":{line},{what}}}\n")
    };
    let last = "{\"file\":\"t\",\"unit\":\"cm\",\"count\":3,\"silences\":1,\"bytes\":37,\
                \"readings\":8,\"turned_away\":5}\n";
    let lines = REFUSED.map(line).concat() + last;
    assert_eq!(
        ran.ended(),
        (Some(1), lines.as_str(), messages("sent").as_str())
    );
    // from second 5 to 9 more than 3 pass
    let silences = [0, 1, 0];
    let fixes = FIXES.into_iter().zip(silences);
    let fixes: Vec<_> = fixes
        .map(|((t, x, y), silence)| (t, x, y, silence))
        .collect();
    assert_eq!(folder.get("t"), silent_record(&fixes));
}

#[test]
fn readings_that_are_all_accepted_are_done() {
    let folder = Folder::new();
    let text = b"7 absolute -0 -0.5\n8 step 15999.5 16.75e2\n9 absolute +.5 1.\n";
    let ran = folder.run_with(&["write", "--anchors", "-", "-o", "t"], text);
    ran.says("standard input: readings 3, refused 0, fixes 3\n");
    let fixes = [(7, 0, -1), (8, 16_000, 1_675), (9, 1, 1)];
    assert_eq!(folder.get("t"), record(&fixes));
}

/// A decimal stands for the nearest float: the last two are how a float between sixteenths and one of 20,000.0625 are
/// printed in few digits.
#[test]
fn a_decimal_number_is_the_nearest_float() {
    let folder = Folder::new();
    let text = b"1 absolute -9000 0\n2 step 1.00000001 0\n3 step 0.063 0\n4 step 20000.063 0\n";
    let ran = folder.run_with(&["write", "--anchors", "-", "-o", "t"], text);
    let refused = format!("standard input, line 3: refused 17: {}\n", sentence(17));
    assert_eq!((ran.status, ran.err), (Some(1), refused));
    let fixes = [(1, -9_000, 0), (2, -8_999, 0), (4, 11_001, 0)];
    assert_eq!(folder.get("t"), record(&fixes));
}

/// What isn't a reading at all is a bad line, and then nothing is stored, nor any reading told of.
#[test]
fn bad_lines_are_named() {
    let folder = Folder::new();
    let entry = "a reading is 'time absolute X Y' or 'time step DX DY', and here stand";
    for (line, what) in [
        ("5 step 1", format!("{entry} 3 fields")),
        ("5 step 1 2 3", format!("{entry} 5 fields")),
        ("5 place 1 2", "'place' isn't 'absolute' or 'step'".into()),
        ("5 Step 1 2", "'Step' isn't 'absolute' or 'step'".into()),
        ("5 step 0x1 2", "DX: '0x1' isn't a decimal number".into()),
        ("5,step,1,", "DY: '' isn't a decimal number".into()),
        ("5 absolute 1 two", "Y: 'two' isn't a decimal number".into()),
        (
            "-5 absolute 1 2",
            "time: '-5' isn't a whole number from 0 to 4,294,967,295".into(),
        ),
    ] {
        let text = format!("1 step 1 1\n{line}\n");
        let ran = folder.run_with(&["write", "--anchors", "-", "-o", "t"], text.as_bytes());
        ran.fails(2, &format!("standard input, line 2: {what}"));
    }
    assert!(folder.names().is_empty());
}

/// What is left is a list to write, which the writer may refuse as any other.
#[test]
fn the_writers_refusals_stand() {
    let folder = Folder::new();
    let run =
        |text: &str| folder.run_with(&["write", "--anchors", "-", "-o", "t"], text.as_bytes());
    let none = "standard input: refused 3: The count is 0 or above 4,096. The count is 0.";
    run("").fails(1, none);
    let step = format!("standard input, line 1: refused 18: {}", sentence(18));
    run("4 step 1 1\n").fails(1, &format!("{step}\n{none}"));
    let late = "refused 8: Some fix's time isn't later than the time before it.";
    run("5 absolute 1 1\n# stop\n5 step 1 1\n")
        .fails(1, &format!("standard input, line 3: {late}"));
    // the one that comes too early is refused for itself, and gives no fix
    let ran = run("5 absolute 1 1\n4 step 40000 1\n6 step 1 1\n");
    assert_eq!(ran.status, Some(1));
    assert_eq!(folder.get("t"), record(&[(5, 1, 1), (6, 2, 2)]));
    let span = "refused 9: The last time less the first is above 65,535. \
                Two neighbouring fixes are 65536 seconds apart, and no trail has both.";
    run("1 absolute 1 1\n65537 step 1 1\n").fails(1, &format!("standard input, line 2: {span}"));
}

#[test]
fn anchors_are_in_centimetres() {
    let folder = Folder::new();
    let what = "--millimetres and --anchors: anchors are in centimetres";
    let ran = folder.run_line("write --anchors --millimetres missing -o t");
    ran.fails(
        2,
        &format!("trail: write: {what}; try 'trail write --help'"),
    );
}

/// The text that a person finds among the examples.
#[test]
fn the_example_is_taken() {
    let folder = Folder::new();
    let example = project().join("examples/anchors.txt");
    let example = example.to_str().expect("a name in UTF-8");
    let ran = folder.run(&["write", "--anchors", example, "-o", "t"]);
    ran.says(&format!("{example}: readings 7, refused 0, fixes 7\n"));
    let fixes = [
        (1_000, 121, -40),
        (1_001, 156, -40),
        (1_002, 191, -40),
        (1_003, 226, -40),
        (1_010, 400, -40),
        (1_011, 400, 21),
        (1_012, 400, 81),
    ];
    assert_eq!(folder.get("t"), record(&fixes));
}
