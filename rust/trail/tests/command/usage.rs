//! Wrong usage, help, and files that aren't there.

use std::fs;
use std::os::unix::net::UnixListener;
use std::process::Command;

use trails_tests::cases::Random;

use crate::folder::{trail_h, trail_h_at_12, Folder, Ran, AGED_H, AGE_H, PROGRAM};

const NAMES: [&str; 11] = [
    "list", "check", "write", "dearest", "age", "table", "place", "cross", "near", "replay", "plot",
];

#[test]
fn help_is_printed_for_the_command_and_each_of_its_commands() {
    let folder = Folder::new();
    let all = folder.run(&["--help"]);
    assert_eq!(all.status, Some(0));
    for name in NAMES {
        assert!(all.text().contains(&format!("\n  {name} ")), "{name}");
        let help = folder.run(&[name, "--help"]);
        assert_eq!((help.status, help.err.as_str()), (Some(0), ""));
        assert!(help.text().starts_with(&format!("usage: trail {name} ")));
        assert_eq!(folder.run(&["help", name]).text(), help.text());
        for line in all.text().lines().chain(help.text().lines()) {
            assert!(line.chars().count() <= 80, "{line}");
        }
    }
    assert_eq!(folder.run(&["help"]).text(), all.text());
}

/// Words that no command takes. There is a trail `h`.
const WRONG: [&str; 91] = [
    "",
    "lists h",
    "list",
    "list h h",
    "list --tolerance 3 h",
    "list --jason h",
    "list --json --json h",
    "list --csv --json h",
    "list --csv --geojson h",
    "list --geojson --json h",
    "list --csv=1 h",
    "check",
    "write h",
    "write -o t",
    "write h -o",
    "write --json h -o -",
    "write --millimetres=1 h -o t",
    "write --split h -o -",
    "write --split h -o=",
    "write --split=1 h -o t",
    "write --epoch 06:00 h -o t",
    "write missing h -o h",
    "write missing h -o -",
    "write h h -o t/",
    "write h - -o t/",
    "write --anchors=1 h -o t",
    "age --anchors --days 3 h",
    "age --millimetres --days 3 h",
    "age --silence-after 3 --days 3 h",
    "write --silence-after h -o t",
    "write --silence-after -1 h -o t",
    "write --silence-after 4294967296 h -o t",
    "write --silence-after 5 --millimetres h -o t",
    "dearest",
    "dearest 5",
    "dearest -o t",
    "dearest 5 6 -o t",
    "dearest h -o t",
    "dearest -1 -o t",
    "dearest 18446744073709551616 -o t",
    "dearest --json 5 -o -",
    "dearest --force 5 -o t",
    "age h",
    "age --tolerance 5",
    "age --tolerance h",
    "age --tolerance -1 h",
    "age --tolerance 65536 h",
    "age --tolerance 5 --days 5 h",
    "age --days 1.5 h",
    "age --days 5 h h -o t",
    "age --days 5 h missing -o h",
    "age --days 5 h missing -o -",
    "age --days 5 h missing -o .",
    "age --days 5 h - -o t",
    "age --days 5 -",
    "age --days 5 h -",
    "age --days 5 --json h -o -",
    "age --table missing h",
    "age --table missing --tolerance 5 h",
    "age --days 5 --table",
    "age --days 5 --table missing -",
    "age --days 5 --table - - -o t",
    "table missing missing",
    "table --days 5 missing",
    "replay --table - h -",
    "replay --table - - missing",
    "place h",
    "place h -1",
    "place h 4294967296",
    "place h 1.",
    "place h 1.0000",
    "cross h --box 0 1 0 1",
    "cross h --window 0 1",
    "cross h --box 0 1 0 --window 0 1",
    "cross h --box 0 1 0 1.5 --window 0 1",
    "cross h --box 0 1 0 2147483648 --window 0 1",
    "cross h --box 0 1 0 1 --window -1 1",
    "near h --point 0 1",
    "near h --radius 5",
    "near h --point 0 --radius 5",
    "near h --point 0 1 --radius -1",
    "near h --point 0 1 --radius 4294967296",
    "near h --point 0 1 --radius 5 --window 0 1",
    "replay h",
    "replay - -",
    "plot h",
    "plot h -o t --json",
    "plot -o t - --original -",
    "plot h -o t --box 1 2 3",
    "plot h -o t --point 1 2",
    "plot h -o t --radius 5",
];

#[test]
fn wrong_usage_is_said_on_one_line() {
    let folder = Folder::new();
    folder.put("h", trail_h());
    for words in WRONG {
        let ran = folder.run_line(words);
        assert_eq!(ran.status, Some(2), "{words}: {}", ran.err);
        assert_eq!(ran.text(), "", "{words}");
        assert!(ran.err.starts_with("trail: "), "{words}: {}", ran.err);
        assert_eq!(ran.err.lines().count(), 1, "{words}: {}", ran.err);
        assert_eq!(folder.get("h"), trail_h(), "{words}");
    }
    assert_eq!(folder.names(), ["h"]);
}

#[test]
fn files_that_cannot_be_read_are_named() {
    let folder = Folder::new();
    fs::create_dir(folder.path().join("shelf")).expect("a folder");
    let _socket = UnixListener::bind(folder.path().join("socket")).expect("a socket");
    for name in ["missing", "shelf", "socket", "missing/t"] {
        for words in [
            &["list", name][..],
            &["check", name],
            &["place", name, "5"],
            &["age", "--days", "7", name],
            &["age", "--days", "7", name, "-o", "new"],
            &["age", "--days", "7", "--table", name, "t"],
            &["replay", "--table", name, "t", "t"],
            &["table", name],
            &["write", name, "-o", "new"],
        ] {
            let ran = folder.run(words);
            assert_eq!(ran.status, Some(3), "{words:?}");
            assert!(ran.err.starts_with(&format!("{name}: ")), "{}", ran.err);
            assert_eq!(ran.err.lines().count(), 1, "{}", ran.err);
        }
    }
    assert_eq!(folder.names(), ["shelf", "socket"]);
}

#[test]
fn texts_above_16_mib_are_turned_away() {
    let folder = Folder::new();
    let file = fs::File::create(folder.path().join("big")).expect("a file");
    // a file of nothing, which takes no room
    file.set_len((16 << 20) + 1).expect("a length");
    for name in ["big", "/dev/zero"] {
        let ran = folder.run(&["write", name, "-o", "new"]);
        ran.fails(3, &format!("{name}: it has more than 16 MiB"));
    }
}

/// Commands that print an answer, on `h`. The last one changes it.
const ANSWERS: [&str; 11] = [
    "list h",
    "check h h",
    "place h 5 --json",
    "place h 31 --json",
    "near h --point 0 1 --radius 2",
    "age --tolerance 12 h -o -",
    "dearest 5 -o -",
    "plot h -o -",
    "table",
    "--help",
    "age --tolerance 12 h",
];

#[test]
fn an_output_that_cannot_be_written_is_told() {
    let folder = Folder::with_h();
    for (output, what) in [
        (">&-", "it is closed"),
        ("1< /dev/null", "Bad file descriptor (os error 9)"),
        ("> /dev/full", "No space left on device (os error 28)"),
    ] {
        folder.put("h", trail_h());
        for words in ANSWERS {
            let ran = folder.run_in_shell(&format!("\"$@\" {words} {output}"), &[]);
            assert_eq!(ran.status, Some(3), "{words} {output}");
            let end = format!("standard output: {what}\n");
            assert!(ran.err.ends_with(&end), "{}", ran.err);
            let ran = folder.run_in_shell(&format!("\"$@\" {words} {output} 2>&-"), &[]);
            assert_eq!(ran.status, Some(3), "{words} {output}");
        }
        // it is aged, and people are told
        assert_eq!(folder.get("h"), trail_h_at_12());
        folder.put("h", trail_h());
        let ran = folder.run_in_shell(&format!("\"$@\" {output}"), &AGE_H);
        assert_eq!(ran.err, format!("{AGED_H}standard output: {what}\n"));
    }
    // thrown away on purpose, by a descriptor for reading and writing too
    for output in ["> /dev/null", "1<> /dev/null"] {
        let line = format!("\"$@\" {output}");
        folder.run_in_shell(&line, &["list", "h"]).says("");
    }
}

#[test]
fn a_reader_that_hangs_up_is_told() {
    let folder = Folder::with_h();
    let (reader, writer) = std::io::pipe().expect("a pipe");
    drop(reader);
    let mut command = Command::new(PROGRAM);
    command.args(["list", "h"]).current_dir(folder.path());
    let ran = command.stdout(writer).output().expect("it runs");
    Ran::from(ran).fails(3, "standard output: Broken pipe (os error 32)");
}

/// Wrong words, and what the message has before it names the help.
const WRONG_VALUES: [(&str, &str); 31] = [
    (
        "cross h --window 0 1 --box 0 1 0",
        "--box takes X0 X1 Y0 Y1, and Y1 is missing",
    ),
    (
        "cross h --box 0 --window 0 1",
        "--box takes X0 X1 Y0 Y1, and X1 Y0 Y1 are missing",
    ),
    (
        "cross --box 0 9 0 h --window 0 30",
        "--box takes X0 X1 Y0 Y1, and Y1 is missing",
    ),
    (
        "cross --window 0 h --box 0 9 0 9",
        "--window takes S E, and E is missing",
    ),
    (
        "cross h --box=0,1 --window 0 1",
        "--box takes X0 X1 Y0 Y1, and Y0 Y1 are missing",
    ),
    ("cross h --box 0 1 0 1 --window", "--window takes S E"),
    (
        "cross h --box=0,1,0,1,5 --window 0 1",
        "--box takes X0 X1 Y0 Y1 and no more",
    ),
    ("cross h --box 0 1 0 1", "--window S E is missing"),
    ("cross h --window 0 1", "--box X0 X1 Y0 Y1 is missing"),
    (
        "cross h --box 0 1 -99999999999 1 --window 0 1",
        "--box, Y0: '-99999999999' isn't a whole number from -16,000 to 16,000 \
         (in millimetres -160,000 to 160,000)",
    ),
    (
        "cross h --box 0 1 0 1 --window 0 -1",
        "--window, E: '-1' isn't a whole number from 0 to 4,294,967,295",
    ),
    (
        "near --point 0 h --radius 5",
        "--point takes X Y, and Y is missing",
    ),
    ("near h --radius 5", "--point X Y is missing"),
    ("near h --point 0 1", "--radius R is missing"),
    (
        "near h --point 0 1.5 --radius 5",
        "--point, Y: '1.5' isn't a whole number from -16,000 to 16,000 \
         (in millimetres -160,000 to 160,000)",
    ),
    (
        "near h --point 0 1 --radius -1",
        "--radius, R: '-1' isn't a whole number from 0 to 32,000 (in millimetres 320,000)",
    ),
    (
        "plot h -o t --point 0 1",
        "--point X Y and --radius R go together",
    ),
    (
        "age --tolerance 65536 h",
        "--tolerance, E: '65536' isn't a whole number from 0 to 32,000 (in millimetres 60,000)",
    ),
    (
        "age --days=x h",
        "--days, D: 'x' isn't a whole number from 0 to 65,535",
    ),
    (
        "write h --silence-after -o t",
        "--silence-after takes SECONDS",
    ),
    (
        "write h --silence-after=1.5 -o t",
        "--silence-after, SECONDS: '1.5' isn't a whole number from 0 to 4,294,967,295",
    ),
    ("dearest -o t", "it takes one number of fixes"),
    ("dearest 5", "-o OUT is missing"),
    (
        "dearest 1.5 -o t",
        "'1.5' isn't a whole number from 1 to 4,096",
    ),
    ("age --days 7 h -o", "-o takes OUT"),
    ("age --days 7 h --table", "--table takes FILE"),
    ("age --tolerance 7 --table t h", "--table goes with --days"),
    (
        "table h h",
        "it takes one table, or none for the built-in one",
    ),
    ("plot h", "-o OUT is missing"),
    ("list h --json=1", "--json takes no value"),
    (
        "place h -1",
        "'-1' isn't a whole number from 0 to 4,294,967,295",
    ),
];

#[test]
fn messages_name_what_is_missing_and_what_may_stand() {
    let folder = Folder::with_h();
    for (words, what) in WRONG_VALUES {
        let name = words.split(' ').next().expect("a word");
        let message = format!("trail: {name}: {what}; try 'trail {name} --help'");
        folder.run_line(words).fails(2, &message);
    }
    let ran = folder.run(&["help", "fly"]);
    ran.fails(2, "trail: there is no command 'fly'; try 'trail --help'");
}

#[test]
fn values_may_stand_after_an_equals_sign() {
    let folder = Folder::with_h();
    for (joined, apart) in [
        (
            "cross h --box=5,10,-1,1 --window=0,30",
            "cross h --box 5 10 -1 1 --window 0 30",
        ),
        ("age --tolerance=12 h -o=-", "age --tolerance 12 h -o -"),
        ("plot h --original=h -o=-", "plot h --original h -o -"),
    ] {
        let (joined, apart) = (folder.run_line(joined), folder.run_line(apart));
        assert_eq!(joined.status, Some(0), "{}", joined.err);
        assert_eq!(joined.out, apart.out);
    }
    let into = ["age", "--days=7", "h", "-o=a=b,c"];
    assert_eq!(folder.run(&into).status, Some(0));
    assert_eq!(folder.names(), ["a=b,c", "h"]);
}

#[test]
fn words_that_are_not_utf8_are_no_crash() {
    let folder = Folder::new();
    let odd = "\"$@\" \"$(printf 'a\\377')\"";
    let ran = folder.run_in_shell(odd, &["list"]);
    assert_eq!(ran.status, Some(3), "{}", ran.err);
    let ran = folder.run_in_shell("\"$@\" \"$(printf -- '-\\377')\"", &["list"]);
    assert_eq!(ran.status, Some(2), "{}", ran.err);
    let ran = folder.run_in_shell(odd, &["age", "--days"]);
    assert_eq!(ran.status, Some(2), "{}", ran.err);
}

/// Words that may follow each other in any way.
const WORDS: [&str; 37] = [
    "--json",
    "--force",
    "--split",
    "--dry-run",
    "--csv",
    "--epoch=06:00:00",
    "--millimetres",
    "--silence-after=3",
    "--days=3",
    "--box=0,1,0,1",
    "--tolerance",
    "--days",
    "--box",
    "--window",
    "--original",
    "--table",
    "--table=-",
    "--anchors",
    "-o",
    "-",
    "--",
    "",
    "h",
    "h",
    "missing",
    "new",
    "folder/",
    "0",
    "5",
    "12",
    "30.5",
    "-1",
    "16001",
    "40000",
    "99999999999999999999",
    "é\u{301}\u{7}",
    "---",
];

#[test]
fn any_words_are_answered_with_a_status() {
    let folder = Folder::new();
    let mut random = Random::new(17);
    let mut ends = [0; 4];
    for _ in 0..2_000 {
        folder.put("h", trail_h());
        let mut words = vec![random.pick(&NAMES)];
        let more = random.between(0, 7);
        words.extend((0..more).map(|_| random.pick(&WORDS)));
        let ran = folder.run(&words);
        let status = ran.status.and_then(|status| usize::try_from(status).ok());
        let count = status.and_then(|status| ends.get_mut(status));
        *count.unwrap_or_else(|| panic!("{words:?}: {ran:?}")) += 1;
        let explained = status == Some(0) || !ran.err.is_empty();
        assert!(explained, "{words:?}: {ran:?}");
    }
    assert!(ends.iter().all(|count| *count > 0), "{ends:?}");
}
