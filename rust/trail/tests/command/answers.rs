//! Good input: what each command answers, to people and to programs.

use std::ffi::OsStr;
use std::fs::OpenOptions;
use std::os::unix::ffi::OsStrExt;
use std::process::Command;

use trails_tests::programs::project;

use crate::folder::{fine_h, fine_h_at_105, fine_record, record, silent_h, silent_h_at_12};
use crate::folder::{silent_record, trail_h, trail_h_at_12};
use crate::folder::{Folder, AGED_H, AGE_H, NEVER, PROGRAM};

const LISTING: &str = "trail 4 never\nfix 0 0 0\nfix 10 20 0\nfix 20 20 0\nfix 30 0 0\nend\n";

#[test]
fn list_prints_the_fixes() {
    let folder = Folder::with_h();
    folder.run(&["list", "h"]).says(LISTING);
    folder.run_with(&["list", "-"], &trail_h()).says(LISTING);
    folder.run(&["list", "--json", "h"]).says(
        "{\"file\":\"h\",\"unit\":\"cm\",\"count\":4,\"mark\":null,\
         \"fixes\":[[0,0,0],[10,20,0],[20,20,0],[30,0,0]]}\n",
    );
}

/// Commands that read h, or the standard input in its place.
const READ_H: [&str; 6] = [
    "list h",
    "check h",
    "place h 5",
    "cross h --box 0 1 0 1 --window 0 30",
    "near h --point 0 9 --radius 9",
    "plot h -o -",
];

#[test]
fn what_follows_a_record_is_not_read() {
    let folder = Folder::with_h();
    let answers = READ_H.map(|line| folder.run_line(line).out);
    // longer than a machine has memory
    let path = folder.path().join("h");
    let long = OpenOptions::new().append(true).open(path);
    long.expect("a file").set_len(1 << 36).expect("a length");
    for (line, answer) in READ_H.iter().zip(answers) {
        let ran = folder.run_line(line);
        assert!((ran.status, ran.out) == (Some(0), answer), "{line}");
        // of an input no more is taken than a record may have
        let words = line.replace(" h", " -");
        let line = format!("({PROGRAM} {words} > answer; head -c 1000000 | wc -c) < part");
        folder.put("part", [trail_h(), vec![7; 100_000]].concat());
        let left = folder.run_in_shell(&line, &[]);
        left.says(&format!("{}\n", 100_042 - 49_162));
    }
    let zeros = folder.run(&["list", "/dev/zero"]);
    zeros.fails(1, "/dev/zero: refused 2: The kind isn't 1, 2 or 3.");
}

#[test]
fn check_tells_of_every_file() {
    let folder = Folder::with_h();
    folder.put("one", record(&[(7, -1, 2)]));
    folder.run(&["check", "h", "one"]).says(
        "h: fixes 4, seconds 0 to 30, places in cm, mark never\n\
         one: fixes 1, seconds 7 to 7, places in cm, mark never\n",
    );
    folder.run(&["check", "--json", "one"]).says(
        "{\"file\":\"one\",\"unit\":\"cm\",\"count\":1,\"silences\":null,\"first\":7,\"last\":7,\"mark\":null}\n",
    );
}

#[test]
fn place_answers_rounded_and_exactly() {
    let folder = Folder::new();
    // document 01's trail k
    folder.put("k", record(&[(0, 0, 0), (10, 5, -5)]));
    folder.run(&["place", "k", "1.000"]).says(&format!(
        "place 1 -1 cm\nexact 5000/10000 -5000/10000\n{NEVER}\n"
    ));
    folder.run(&["place", "k", "10"]).says(&format!(
        "place 5 -5 cm\nexact 50000/10000 -50000/10000\n{NEVER}\n"
    ));
    folder.run(&["place", "--json", "k", "0.5"]).says(&format!(
        "{{\"file\":\"k\",\"unit\":\"cm\",\"x\":0,\"y\":0,\
         \"exact\":{{\"x\":2500,\"y\":-2500,\"denominator\":10000}},\
         \"mark\":null,\"means\":\"{NEVER}\"}}\n"
    ));
}

#[test]
fn cross_answers_the_earliest_time() {
    let folder = Folder::new();
    // document 01's trail l, an hour later
    folder.put("l", record(&[(3600, 0, 0), (3610, 100, 0)]));
    let ask = |window: [&str; 2], more: &[&str]| {
        let box_l = ["cross", "l", "--box", "33", "40", "-5", "5", "--window"];
        folder.run(&[&box_l, &window[..], more].concat())
    };
    let mark = format!("\"mark\":null,\"silences\":null,\"means\":\"{NEVER}\"");
    ask(["3600", "3610"], &["--json"]).says(&format!(
        "{{\"file\":\"l\",\"unit\":\"cm\",\"crosses\":true,\"numerator\":330,\"denominator\":100,\
         \"first\":3600,{mark}}}\n",
    ));
    let says = |window, answer| ask(window, &[]).says(&format!("{answer}; {NEVER}\n"));
    let after = "seconds after the first fix";
    says(
        ["3600", "3610"],
        format!("yes, 330/100 {after}, at 3603.300"),
    );
    says(["3604", "3610"], format!("yes, 4/1 {after}, at 3604.000"));
    says(["3605", "3610"], "no".into());
    ask(["3605", "3610"], &["--json"]).says(&format!(
        "{{\"file\":\"l\",\"unit\":\"cm\",\"crosses\":false,{mark}}}\n"
    ));
}

/// The sentence that answers of h aged at 12 end with: for a place, a yes and a no.
#[test]
fn answers_of_a_thinned_trail_say_how_sure_they_are() {
    let folder = Folder::new();
    let mut aged = trail_h_at_12();
    folder.put("aged", &aged);
    let ask = |words: &str| folder.run_line(words);
    let place = "thinned at 12 cm: at that moment the cart, as it reported, \
        was within 12 cm of the exact place";
    ask("place aged 20").says(&format!(
        "place 10 0 cm\nexact 200000/20000 0/20000\n{place}\n"
    ));
    ask("place aged 20 --json").says(&format!(
        "{{\"file\":\"aged\",\"unit\":\"cm\",\"x\":10,\"y\":0,\
         \"exact\":{{\"x\":200000,\"y\":0,\"denominator\":20000}},\
         \"mark\":12,\"means\":\"{place}\"}}\n"
    ));
    let yes =
        "thinned at 12 cm: at that moment the cart was in the box or within 12 cm of the box, \
        and if it was in the box earlier in the window, it was within 12 cm of an edge";
    ask("cross aged --box 5 10 -1 1 --window 0 30").says(&format!(
        "yes, 50/20 seconds after the first fix, at 2.500; {yes}\n"
    ));
    ask("cross aged --box 5 10 -1 1 --window 0 30 --json").says(&format!(
        "{{\"file\":\"aged\",\"unit\":\"cm\",\"crosses\":true,\
         \"numerator\":50,\"denominator\":20,\"first\":0,\
         \"mark\":12,\"silences\":null,\"means\":\"{yes}\"}}\n"
    ));
    let no = "thinned at 12 cm: if it was in the box then, it was within 12 cm of an edge";
    ask("cross aged --box 18 22 -1 1 --window 15 30").says(&format!("no; {no}\n"));
    ask("cross aged --box 18 22 -1 1 --window 15 30 --json").says(&format!(
        "{{\"file\":\"aged\",\"unit\":\"cm\",\"crosses\":false,\"mark\":12,\
         \"silences\":null,\"means\":\"{no}\"}}\n"
    ));
    aged[6] = 0;
    folder.put("aged", aged);
    let same = "thinned at 0 cm: the trail as the cart reported it says the same";
    ask("place aged 30").says(&format!("place 0 0 cm\nexact 0/20000 0/20000\n{same}\n"));
    ask("cross aged --box 18 22 -1 1 --window 15 30").says(&format!("no; {same}\n"));
}

#[test]
fn an_aged_file_has_nothing_of_the_old_records_rest() {
    let folder = Folder::with_h();
    folder.run(&AGE_H).says(AGED_H);
    assert_eq!(folder.get("h"), trail_h_at_12());
    // and all that followed it: a little, and more than a record may have
    for length in [1, 28, 100_000] {
        let after: Vec<u8> = (0..length).map(|k| (k % 251) as u8).collect();
        folder.put("h", [trail_h(), after.clone()].concat());
        let aged = [trail_h_at_12(), after].concat();
        let ran = folder.run(&[&AGE_H[..], &["-o", "-"]].concat());
        assert!((ran.status, ran.out) == (Some(0), aged.clone()));
        folder
            .run(&[&AGE_H[..], &["-o", "new"]].concat())
            .says(AGED_H);
        assert!(folder.get("new") == aged);
        folder.run(&AGE_H).says(AGED_H);
        assert!(folder.get("h") == aged);
    }
    assert_eq!(folder.names(), ["h", "new"]);
}

#[test]
fn age_by_days_takes_the_tables_tolerance() {
    let folder = Folder::with_h();
    folder
        .run(&["age", "--days", "1", "h"])
        .says("h: kept 4 of 4 fixes, measured 0, mark never, freed 0 bytes\n");
    assert_eq!(folder.get("h"), trail_h());
    folder.run(&["age", "--json", "--days", "7", "h"]).says(
        "{\"file\":\"h\",\"unit\":\"cm\",\"mark\":25,\"before\":4,\"count\":2,\"measured\":2,\
         \"bytes_before\":42,\"bytes\":26,\"freed\":16,\"dry_run\":false}\n",
    );
}

// ---- tables

/// Document 01's trail h keeps all its fixes at 6, three of them at 12, and its ends from 20 on.
const HALL: &str = "0,0\n5,6\n6,12\n40,6000\n41,6001\n";

fn with_hall() -> Folder {
    let folder = Folder::with_h();
    folder.put("hall", HALL);
    folder.put("fine", fine_h());
    folder
}

/// What a person sees: for which days each row is, and what trails in each unit get; and nothing before a first row on
/// day 0.
#[test]
fn a_table_is_printed_with_what_it_gives() {
    let folder = with_hall();
    folder.run(&["table", "hall"]).says(
        "0 0         # days 0 to 4: 0 cm, or 0 mm\n\
         5 6         # day 5: 6 cm, or 60 mm\n\
         6 12        # days 6 to 39: 12 cm, or 120 mm\n\
         40 6000     # day 40: 6000 cm, or 60000 mm\n\
         41 6001     # from day 41: 6001 cm, or 60000 mm\n",
    );
    folder
        .run_with(&["table", "-"], b"65535 32000")
        .says("# before day 65535: none\n65535 32000 # from day 65535: 32000 cm, or 60000 mm\n");
    folder.run(&["table", "--json", "hall"]).says(
        "{\"file\":\"hall\",\"rows\":[[0,0,0],[5,6,60],[6,12,120],[40,6000,60000],[41,6001,60000]]}\n",
    );
    folder
        .run(&["table", "--json"])
        .says("{\"file\":null,\"rows\":[[2,10,100],[7,25,250],[30,100,1000],[90,400,4000]]}\n");
}

#[test]
fn age_by_days_takes_a_halls_own_table() {
    let folder = with_hall();
    for (days, answer) in [
        (
            "4",
            "kept 4 of 4 fixes, measured 3, mark 0 cm, freed 0 bytes",
        ),
        (
            "5",
            "kept 4 of 4 fixes, measured 3, mark 6 cm, freed 0 bytes",
        ),
        (
            "39",
            "kept 3 of 4 fixes, measured 3, mark 12 cm, freed 8 bytes",
        ),
        (
            "65535",
            "kept 2 of 4 fixes, measured 2, mark 6001 cm, freed 16 bytes",
        ),
    ] {
        let words = ["age", "--days", days, "--table", "hall", "h", "-o", "new"];
        folder.run(&words).says(&format!("h: {answer}\n"));
    }
    // one table for all files, whatever their units, and from the standard input
    let both = ["age", "--days=41", "--table", "-", "h", "fine"];
    let ran = folder.run_with(&both, HALL.as_bytes());
    let answers = "h: kept 2 of 4 fixes, measured 2, mark 6001 cm, freed 16 bytes\n\
        fine: kept 2 of 4 fixes, measured 2, mark 60000 mm, freed 24 bytes\n";
    assert_eq!((ran.status, ran.text()), (Some(0), answers));
}

#[test]
fn replay_takes_days_by_a_table() {
    let folder = with_hall();
    folder.put("calls", "days 5\ntolerance 9\ndays 6\n");
    let ran = folder.run(&["replay", "--table", "hall", "h", "calls"]);
    ran.says(
        "days 5: kept 4, measured 3\n\
         tolerance 9: kept 4, measured 3\n\
         days 6: kept 3, measured 3\n\
         E 12 cm\ntrail 3 12\nfix 0 0 0\nfix 10 20 0\nfix 30 0 0\nend\n",
    );
    assert_eq!(folder.get("h"), trail_h());
}

/// The table that a person finds among the examples.
#[test]
fn the_example_is_a_table() {
    let folder = Folder::new();
    let example = project().join("examples/hall.table");
    let example = example.to_str().expect("a name in UTF-8");
    folder.run(&["table", example]).says(
        "# before day 14: none\n\
         14 5        # days 14 to 29: 5 cm, or 50 mm\n\
         30 10       # days 30 to 89: 10 cm, or 100 mm\n\
         90 25       # days 90 to 364: 25 cm, or 250 mm\n\
         365 100     # from day 365: 100 cm, or 1000 mm\n",
    );
}

#[test]
fn age_into_another_file_leaves_the_first() {
    let folder = Folder::with_h();
    let into = |to| folder.run(&[&AGE_H[..], &["-o", to]].concat());
    into("new").says(AGED_H);
    assert_eq!(folder.get("new"), trail_h_at_12());
    folder.put(
        "old",
        "something longer than a trail of four fixes has bytes",
    );
    into("old").says(AGED_H);
    assert_eq!(folder.get("old"), trail_h_at_12());
    assert_eq!(folder.get("h"), trail_h());
    assert_eq!(folder.names(), ["h", "new", "old"]);
}

#[test]
fn age_works_between_pipes() {
    let folder = Folder::new();
    let words = ["age", "--tolerance", "12", "-", "-o", "-"];
    let ran = folder.run_with(&words, &trail_h());
    assert_eq!((ran.status, ran.out), (Some(0), trail_h_at_12()));
    let answer = "standard input: kept 3 of 4 fixes, measured 3, mark 12 cm, freed 8 bytes\n";
    assert_eq!(ran.err, answer);
}

const CALLS: &str = "# two that thin, one for nothing, one refused\n\
    tolerance 12\ndays 1\n\ntolerance 32001\ndays,7\n";

#[test]
fn replay_answers_each_call_and_leaves_the_file() {
    let folder = Folder::with_h();
    folder.put("calls", CALLS);
    folder.run(&["replay", "h", "calls"]).says(
        "tolerance 12: kept 3, measured 3\n\
         days 1: kept 3, measured 0\n\
         tolerance 32001: refused 10: The asked tolerance is above 32,000.\n\
         days 7: kept 2, measured 1\n\
         E 25 cm\ntrail 2 25\nfix 0 0 0\nfix 30 0 0\nend\n",
    );
    assert_eq!(folder.get("h"), trail_h());
    let nothing = folder.run_with(&["replay", "h", "-"], b"");
    nothing.says(&format!("E none\n{LISTING}"));
}

#[test]
fn replay_answers_programs() {
    let folder = Folder::with_h();
    let calls = b"days 1\ntolerance 32001\ntolerance 25";
    folder
        .run_with(&["replay", "--json", "h", "-"], calls)
        .says(
            "{\"file\":\"h\",\"unit\":\"cm\",\"answers\":[{\"days\":1,\"count\":4,\"measured\":0},\
         {\"tolerance\":32001,\"refused\":10,\"sentence\":\"The asked tolerance is above 32,000.\"},\
         {\"tolerance\":25,\"count\":2,\"measured\":2}],\"E\":25,\"mark\":25,\
         \"fixes\":[[0,0,0],[30,0,0]]}\n",
        );
}

/// Names that look like options, have quotes, steer a terminal, or aren't UTF-8: for people, and in JSON.
#[test]
fn every_name_is_a_name() {
    let folder = Folder::new();
    let names: [(&[u8], &str, &str); 6] = [
        (b"-a\"b\n", "-a\"b\\n", "-a\\\"b\\u000a"),
        (b"--json", "--json", "--json"),
        (b"--help", "--help", "--help"),
        (b"a\xff\x1b[2J", "a\\xff\\u{1b}[2J", "a\\udcff\\u001b[2J"),
        (
            "é\u{202e}\u{9b}".as_bytes(),
            "é\\u{202e}\\u{9b}",
            "é\\u202e\\u009b",
        ),
        (b"a\\n", "a\\\\n", "a\\\\n"),
    ];
    for (name, people, json) in names {
        let name = OsStr::from_bytes(name);
        std::fs::write(folder.path().join(name), record(&[(7, -1, 2)])).expect("a file");
        let check = |options: &[&str]| {
            let mut command = Command::new(PROGRAM);
            command.arg("check").args(options).arg("--").arg(name);
            folder.finish(&mut command, b"")
        };
        check(&[]).says(&format!(
            "{people}: fixes 1, seconds 7 to 7, places in cm, mark never\n"
        ));
        check(&["--json"]).says(&format!(
            "{{\"file\":\"{json}\",\"unit\":\"cm\",\"count\":1,\"silences\":null,\"first\":7,\"last\":7,\"mark\":null}}\n"
        ));
    }
    let ran = folder.run_with(&["check", "--", "-"], &trail_h());
    ran.fails(3, "./-: No such file or directory (os error 2)");
    let ran = folder.run_with(&["check", "--", "--box"], &trail_h());
    ran.fails(3, "--box: No such file or directory (os error 2)");
}

// ---- millimetres

fn with_fine_h() -> Folder {
    let folder = Folder::new();
    folder.put("h", fine_h());
    folder.put("aged", fine_h_at_105());
    folder
}

#[test]
fn a_trail_in_millimetres_says_so() {
    let folder = with_fine_h();
    folder.run(&["check", "h", "aged"]).says(
        "h: fixes 4, seconds 0 to 30, places in mm, mark never\n\
         aged: fixes 3, seconds 0 to 30, places in mm, mark 105 mm\n",
    );
    folder
        .run(&["list", "aged"])
        .says("trail 3 105\nfix 0 0 0\nfix 10 204 0\nfix 30 0 0\nend\n");
    folder.run(&["list", "--json", "aged"]).says(
        "{\"file\":\"aged\",\"unit\":\"mm\",\"count\":3,\"mark\":105,\
         \"fixes\":[[0,0,0],[10,204,0],[30,0,0]]}\n",
    );
}

#[test]
fn a_trail_in_millimetres_is_asked_and_answers_in_them() {
    let folder = with_fine_h();
    let ask = |words: &str| folder.run_line(words);
    let place = "thinned at 105 mm: at that moment the cart, as it reported, \
        was within 105 mm of the exact place";
    ask("place aged 5.125").says(&format!(
        "place 105 0 mm\nexact 1045500/10000 0/10000\n{place}\n"
    ));
    ask("place h 10 --json").says(&format!(
        "{{\"file\":\"h\",\"unit\":\"mm\",\"x\":204,\"y\":0,\
         \"exact\":{{\"x\":2040000,\"y\":0,\"denominator\":10000}},\"mark\":null,\"means\":\"{NEVER}\"}}\n"
    ));
    let no = "thinned at 105 mm: if it was in the box then, it was within 105 mm of an edge";
    ask("cross aged --box 199 201 -9 9 --window 15 30").says(&format!("no, the box in mm; {no}\n"));
    ask("cross h --box 51 100 -9 9 --window 0 30").says(&format!(
        "yes, 510/204 seconds after the first fix, at 2.500, the box in mm; {NEVER}\n"
    ));
    ask("cross h --box 51 100 -9 9 --window 0 30 --json").says(&format!(
        "{{\"file\":\"h\",\"unit\":\"mm\",\"crosses\":true,\"numerator\":510,\"denominator\":204,\
         \"first\":0,\"mark\":null,\"silences\":null,\"means\":\"{NEVER}\"}}\n"
    ));
}

/// The whole number that a yes has above 2 to the power 32 is told whole, on the trail's clock too.
#[test]
fn a_late_crossing_in_millimetres_is_told_whole() {
    let folder = Folder::new();
    folder.put("t", fine_record(&[(7, -160_000, 0), (65_542, 160_000, 0)]));
    let ask = "cross t --box 159999 160000 -5 5 --window 7 65542";
    folder.run_line(ask).says(&format!(
        "yes, 20971134465/320000 seconds after the first fix, at 65541.795, the box in mm; {NEVER}\n"
    ));
    let json = folder.run_line(&format!("{ask} --json"));
    assert!(json
        .text()
        .contains("\"numerator\":20971134465,\"denominator\":320000,"));
}

#[test]
fn a_trail_in_millimetres_is_aged_in_them() {
    let folder = with_fine_h();
    folder
        .run(&["age", "--tolerance", "105", "h", "-o", "new"])
        .says("h: kept 3 of 4 fixes, measured 3, mark 105 mm, freed 12 bytes\n");
    assert_eq!(folder.get("new"), fine_h_at_105());
    // 7 days are 25 centimetres
    folder.run(&["age", "--days", "7", "h", "--json"]).says(
        "{\"file\":\"h\",\"unit\":\"mm\",\"mark\":250,\"before\":4,\"count\":2,\"measured\":2,\
         \"bytes_before\":58,\"bytes\":34,\"freed\":24,\"dry_run\":false}\n",
    );
    // a tolerance is in each trail's own unit
    folder.put("fine", fine_h());
    folder.put("h", trail_h());
    let both = folder.run(&["age", "--tolerance", "15", "fine", "h"]);
    let answers = "fine: kept 4 of 4 fixes, measured 3, mark 15 mm, freed 0 bytes\n\
        h: kept 3 of 4 fixes, measured 3, mark 15 cm, freed 8 bytes\n";
    assert_eq!((both.status, both.text()), (Some(0), answers));
    folder.put("calls", "tolerance 105\ntolerance 60001\ndays 2\n");
    folder.put("h", fine_h());
    folder.run(&["replay", "h", "calls"]).says(
        "tolerance 105: kept 3, measured 3\n\
         tolerance 60001: refused 10: The asked tolerance is above 60,000.\n\
         days 2: kept 3, measured 1\n\
         E 105 mm\ntrail 3 105\nfix 0 0 0\nfix 10 204 0\nfix 30 0 0\nend\n",
    );
    let json = folder.run(&["replay", "--json", "h", "calls"]);
    let start = "{\"file\":\"h\",\"unit\":\"mm\",\"answers\":[{\"tolerance\":105,";
    assert!(json.text().starts_with(start), "{}", json.text());
}

// ---- silences

fn with_silent_h() -> Folder {
    let folder = Folder::new();
    folder.put("h", silent_h());
    folder.put("aged", silent_h_at_12());
    folder
}

#[test]
fn a_trail_with_silences_says_how_many() {
    let folder = with_silent_h();
    folder.put("none", silent_record(&[(7, -1, 2, 0)]));
    folder.run(&["check", "h", "none"]).says(
        "h: fixes 7, silences 1, seconds 0 to 320, places in cm, mark never\n\
         none: fixes 1, silences 0, seconds 7 to 7, places in cm, mark never\n",
    );
    folder.run(&["check", "--json", "aged"]).says(
        "{\"file\":\"aged\",\"unit\":\"cm\",\"count\":6,\"silences\":1,\
         \"first\":0,\"last\":320,\"mark\":12}\n",
    );
    folder.run(&["list", "aged"]).says(
        "trail 6 12\nfix 0 0 0\nfix 10 20 0\nfix 30 0 0 silence\n\
         fix 300 400 90\nfix 310 420 75\nfix 320 440 90\nend\n",
    );
    folder.run(&["list", "--json", "none"]).says(
        "{\"file\":\"none\",\"unit\":\"cm\",\"count\":1,\"mark\":null,\"fixes\":[[7,-1,2,0]]}\n",
    );
}

#[test]
fn no_place_is_told_inside_a_silence() {
    let folder = with_silent_h();
    let place = |moment: &str| folder.run(&["place", "h", moment]);
    for (end, answer) in [
        ("30", "place 0 0 cm\nexact 0/10000 0/10000"),
        (
            "300",
            "place 400 90 cm\nexact 108000000/270000 24300000/270000",
        ),
    ] {
        place(end).says(&format!("{answer}\n{NEVER}\n"));
    }
    let sentence = "The moment is strictly inside a silence.";
    let refused = format!("h: refused 21: {sentence} The silence is from second 30 to 300.");
    for inside in ["30.001", "165", "299.999"] {
        place(inside).fails(1, &refused);
    }
    let json = folder.run(&["place", "--json", "h", "31"]);
    assert_eq!((json.status, json.err), (Some(1), format!("{refused}\n")));
    let out = String::from_utf8_lossy(&json.out);
    assert_eq!(
        out,
        format!(
            "{{\"file\":\"h\",\"refused\":21,\"sentence\":\"{sentence}\",\"from\":30,\"to\":300}}\n"
        )
    );
}

/// What the window has of silences is said with the answer, and an end of one counts for it.
#[test]
fn crossings_say_what_is_not_known() {
    let folder = with_silent_h();
    folder.put(
        "two",
        silent_record(&[(0, 0, 0, 1), (10, 9, 0, 1), (20, 0, 0, 0)]),
    );
    let ask = |words: &str| folder.run_line(&format!("cross {words}"));
    let one = "of the silence in the window nothing is known";
    // where a straight leg would have it, and at the silence's end
    ask("h --box 100 200 20 50 --window 0 320").says(&format!("no; {NEVER}; {one}\n"));
    ask("h --box 390 400 80 90 --window 0 320").says(&format!(
        "yes, 300/1 seconds after the first fix, at 300.000; {NEVER}; {one}\n"
    ));
    // a window inside the silence, and windows beside it
    ask("h --box -9 500 -9 500 --window 31 299").says(&format!("no; {NEVER}; {one}\n"));
    for window in ["0 30", "300 320"] {
        let beside = ask(&format!("h --box 100 200 20 50 --window {window}"));
        beside.says(&format!("no; {NEVER}\n"));
    }
    ask("two --box 5 6 0 0 --window 0 20").says(&format!(
        "no; {NEVER}; of the 2 silences in the window nothing is known\n"
    ));
    let no = "thinned at 12 cm: if it was in the box then, outside the silence, \
        it was within 12 cm of an edge";
    ask("aged --box 100 200 20 50 --window 0 320").says(&format!("no; {no}; {one}\n"));
    let yes =
        "thinned at 12 cm: at that moment the cart was in the box or within 12 cm of the box, \
        and if it was in the box earlier in the window, outside the silence, \
        it was within 12 cm of an edge";
    ask("aged --box 390 400 80 90 --window 0 320 --json").says(&format!(
        "{{\"file\":\"aged\",\"unit\":\"cm\",\"crosses\":true,\"numerator\":300,\"denominator\":1,\
         \"first\":0,\"mark\":12,\"silences\":1,\"means\":\"{yes}; {one}\"}}\n"
    ));
    // beside the silence the sentence is as without it
    let no = "thinned at 12 cm: if it was in the box then, it was within 12 cm of an edge";
    ask("aged --box 18 22 -1 1 --window 15 30").says(&format!("no; {no}\n"));
}

#[test]
fn a_trail_with_silences_is_aged_stretch_by_stretch() {
    let folder = with_silent_h();
    folder
        .run(&["age", "--tolerance", "12", "h", "-o", "new"])
        .says("h: kept 6 of 7 fixes, measured 4, mark 12 cm, freed 9 bytes\n");
    assert_eq!(folder.get("new"), silent_h_at_12());
    folder.put("calls", "tolerance 12\ndays 90\n");
    folder.run(&["replay", "h", "calls"]).says(
        "tolerance 12: kept 6, measured 4\ndays 90: kept 4, measured 2\nE 400 cm\n\
         trail 4 400\nfix 0 0 0\nfix 30 0 0 silence\nfix 300 400 90\nfix 320 440 90\nend\n",
    );
    let json = folder.run(&["replay", "--json", "h", "calls"]);
    let end = "\"fixes\":[[0,0,0,0],[30,0,0,1],[300,400,90,0],[320,440,90,0]]}\n";
    assert!(json.text().ends_with(end), "{}", json.text());
    folder.run(&["age", "--days", "90", "--json", "h"]).says(
        "{\"file\":\"h\",\"unit\":\"cm\",\"mark\":400,\"before\":7,\"count\":4,\"measured\":3,\
         \"bytes_before\":73,\"bytes\":46,\"freed\":27,\"dry_run\":false}\n",
    );
}
