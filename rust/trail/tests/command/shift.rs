//! A whole shift: texts of any length and number, written into a folder and aged from it.

use std::fs;

use trails_tests::plain::kinds::{Kind, KINDS, MILLIMETRES, SILENCES};
use trails_tests::plain::{self, Fix, Trail};

use crate::folder::{
    fine_h, fine_h_at_105, record, silent_h, silent_h_at_12, silent_record, trail_h, trail_h_at_12,
    Folder,
};

/// So many fixes, a second apart. Where a kind has silences, every fifth fix says one.
fn fixes(kind: Kind, count: u32) -> Vec<Fix> {
    let fix = |t: u32| {
        let (x, y) = ((t % 700) as i32, -((t % 13) as i32));
        let silence = u8::from(kind.silences && t.is_multiple_of(5) && t + 1 < count);
        Fix::from((t, x, y, silence))
    };
    (0..count).map(fix).collect()
}

/// A line for each fix, which says nothing of silences where its kind has none.
fn text(kind: Kind, fixes: &[Fix]) -> String {
    let line = |fix: &Fix| {
        let silence = match kind.silences {
            true => format!(" {}", fix.silence),
            false => String::new(),
        };
        format!("{} {} {}{silence}\n", fix.t, fix.x, fix.y)
    };
    fixes.iter().map(line).collect()
}

/// The words that write a text of this kind.
fn write(kind: Kind, more: &str) -> String {
    match kind {
        MILLIMETRES => format!("write --millimetres {more}"),
        _ => format!("write {more}"),
    }
}

// ---- texts that are split

/// So many fixes, as people read it.
fn words_of(count: usize) -> String {
    match count {
        1 => "1 fix".into(),
        thousands @ 1_000.. => format!("{},{:03} fixes", thousands / 1_000, thousands % 1_000),
        few => format!("{few} fixes"),
    }
}

/// The first fix of each record but the first is the last one of the record before, without its silence there.
#[test]
fn a_split_text_has_every_leg_in_one_record() {
    let folder = Folder::new();
    for kind in KINDS {
        for (count, sizes) in [
            (1, &[1][..]),
            (4_096, &[4_096]),
            (4_097, &[4_096, 2]),
            (8_191, &[4_096, 4_096]),
            (
                28_800,
                &[4_096, 4_096, 4_096, 4_096, 4_096, 4_096, 4_096, 135],
            ),
        ] {
            let all = fixes(kind, count);
            folder.put("cart.txt", text(kind, &all));
            let parts = sizes.len();
            let trails = match parts {
                1 => "in 1 trail, cart-001.trail".to_string(),
                _ => format!("in {parts} trails, cart-001.trail to cart-{parts:03}.trail"),
            };
            let ran = folder.run_line(&write(kind, "--split cart.txt -o cart.trail"));
            let fixes = words_of(count as usize);
            ran.says(&format!("cart.txt: {fixes} {trails}\n"));
            let mut from = 0;
            for (number, size) in (1..).zip(sizes) {
                let mut part = all[from..from + size].to_vec();
                from += size - 1;
                if number < parts {
                    part.last_mut().expect("a fix").silence = 0;
                }
                let name = format!("cart-{number:03}.trail");
                let expected = Trail::never_thinned(kind, part).bytes();
                assert!(folder.get(&name) == expected, "{kind:?}, {count}: {name}");
                fs::remove_file(folder.path().join(name)).expect("it is ours");
            }
            assert_eq!(folder.names(), ["cart.txt"]);
        }
    }
}

/// The shared fix may be the one before a silence: the record that begins with it says so.
#[test]
fn a_silence_between_two_records_is_in_the_second() {
    let folder = Folder::new();
    folder.put("t", "0 0 0\n65535 1 1\n70000 2 2\n");
    folder
        .run_line("write --split --silence-after 01:00:00 t -o out/")
        .says("t: 3 fixes in 2 trails, out/t-001.trail to out/t-002.trail\n");
    let first = silent_record(&[(0, 0, 0, 1), (65_535, 1, 1, 0)]);
    assert_eq!(folder.get("out/t-001.trail"), first);
    let second = silent_record(&[(65_535, 1, 1, 1), (70_000, 2, 2, 0)]);
    assert_eq!(folder.get("out/t-002.trail"), second);
}

/// The last second that fits a record is still in it.
#[test]
fn a_record_of_a_split_has_up_to_65535_seconds() {
    let folder = Folder::new();
    for kind in KINDS {
        let fix = |t: u32| Fix::from((t, 1, 2, 0));
        let all = [5, 6, 65_540, 65_541].map(fix);
        folder.put("t", text(kind, &all));
        folder
            .run_line(&write(kind, "--split t -o c"))
            .says("t: 4 fixes in 2 trails, c-001 to c-002\n");
        for (name, part) in [("c-001", &all[..3]), ("c-002", &all[2..])] {
            let expected = Trail::never_thinned(kind, part.to_vec()).bytes();
            assert_eq!(folder.get(name), expected, "{}", kind.name);
        }
    }
}

#[test]
fn a_refused_split_stores_nothing() {
    let folder = Folder::new();
    let long = text(SILENCES, &fixes(SILENCES, 5_000));
    for (more, line, refusal) in [
        (
            "# behind the cold store\n70536 0 0\n",
            5_002,
            "9: The last time less the first is above 65,535. \
             Two neighbouring fixes are 65537 seconds apart, and no trail has both.",
        ),
        (
            "4999 0 0\n",
            5_001,
            "8: Some fix's time isn't later than the time before it.",
        ),
        (
            "5000 16001 0\n",
            5_001,
            "7: Some x or y is outside −16,000 to 16,000.",
        ),
        (
            "5000 0 0 silence\n",
            5_001,
            "20: A silence byte is neither 0 nor 1, or the last fix has 1.",
        ),
    ] {
        folder.put("t", format!("{long}{more}"));
        for out in ["cart.trail", "out/"] {
            let ran = folder.run(&["write", "--split", "t", "-o", out]);
            ran.fails(1, &format!("t, line {line}: refused {refusal}"));
        }
        assert_eq!(folder.names(), ["t"]);
    }
    folder.put("t", "# nothing\n");
    let ran = folder.run_line("write --split t -o cart.trail");
    let none = "t: refused 3: The count is 0 or above 4,096. The count is 0.";
    ran.fails(1, none);
}

#[test]
fn what_an_earlier_split_left_is_named() {
    let folder = Folder::new();
    let all = fixes(SILENCES, 9_000);
    // what has another's name isn't a split's
    for other in [
        "cart-0009",
        "cart-x",
        "cart-05",
        "carts-007",
        "cart-008.trail",
    ] {
        folder.put(other, "");
    }
    for (count, left) in [
        (9_000, None),
        (4_097, Some("cart-003")),
        (100, Some("cart-002, cart-003")),
    ] {
        folder.put("t", text(SILENCES, &all[..count]));
        let ran = folder.run_line("write --split t -o cart");
        let told = left.map(|names| format!("t: not of this split, but there before: {names}\n"));
        assert_eq!((ran.status, ran.err), (Some(0), told.unwrap_or_default()));
    }
    fs::remove_file(folder.path().join("cart-002")).expect("it is there");
    let ran = folder.run_line("write --split t -o ./cart");
    assert!(ran.err.ends_with(": ./cart-003\n"), "{}", ran.err);
    assert_eq!(folder.names().len(), 8);
}

#[test]
fn programs_are_told_of_each_record_of_a_split() {
    let folder = Folder::new();
    folder.put("t", "0 0 0\n65535 1 1\n70000 2 2\n70001 2 2\n");
    let line = |number, count, bytes| {
        format!(
            "{{\"file\":\"c-00{number}.t\",\"unit\":\"mm\",\"count\":{count},\"silences\":null,\
             \"bytes\":{bytes}}}\n"
        )
    };
    let lines = line(1, 2, 34) + &line(2, 3, 46);
    folder
        .run_line("write --split --json --millimetres t -o c.t")
        .says(&lines);
    // readings are told of once, with the last record of their text
    folder.put("sent", "0 absolute 1 1\n65536 step 1 0\n65537 step 1 0.1\n");
    let ran = folder.run_line("write --anchors --split sent -o s.t");
    let sentence = "refused 17: A value isn't finite, or isn't a whole number of sixteenths.";
    let refused = format!("sent, line 3: {sentence}\n");
    let long = "sent, line 2: refused 9: The last time less the first is above 65,535. \
                Two neighbouring fixes are 65536 seconds apart, and no trail has both.\n";
    assert_eq!(ran.ended(), (Some(1), "", (refused + long).as_str()));
    folder.put("sent", "0 absolute 1 1\n65535 step 1 0\n65536 step 1 0\n");
    folder
        .run_line("write --anchors --split sent -o s.t")
        .says("sent: readings 3, refused 0, fixes 3 in 2 trails, s-001.t to s-002.t\n");
    let ran = folder.run_line("write --anchors --split --json sent -o s.t");
    let read = |line: &str| line.contains("\"readings\":3,\"turned_away\":0}");
    let told: Vec<bool> = ran.text().lines().map(read).collect();
    assert_eq!(told, [false, true]);
    assert_eq!(
        folder.get("s-002.t"),
        record(&[(65_535, 2, 1), (65_536, 3, 1)])
    );
}

// ---- many texts

#[test]
fn many_texts_go_to_a_folder_and_are_summed_up() {
    let folder = Folder::new();
    folder.put("a.txt", "0 0 0\n10 20 0\n20 20 0\n30 0 0\n");
    folder.put("b.csv", "t,x_mm,y_mm\n0,0,0\n10,204,0\n20,200,0\n30,0,0\n");
    folder.put(
        "c",
        "0 0 0\n10 20 0\n20 20 0\n30 0 0 silence\n300 400 90\n310 420 75\n320 440 90\n",
    );
    folder.put("bad.txt", "0 0 0\n1 0\n");
    folder.put("back.txt", "5 0 0\n4 0 0\n");
    let texts = "a.txt missing.txt bad.txt back.txt b.csv c";
    let ran = folder.run_line(&format!("write {texts} -o shift"));
    let missing = "missing.txt: No such file or directory (os error 2)\n";
    let bad =
        "bad.txt, line 2: a fix is 'time x y' or 'time x y silence', and here stand 2 fields\n";
    let back =
        "back.txt, line 2: refused 8: Some fix's time isn't later than the time before it.\n";
    let summary = "6 files: 3 written, 1 refused, 2 failed; 15 fixes in 3 trails; \
                   refused: back.txt; failed: missing.txt, bad.txt\n";
    let err = format!("{missing}{bad}{back}{summary}");
    assert_eq!(ran.ended(), (Some(3), "", err.as_str()));
    assert_eq!(folder.get("shift/a.trail"), trail_h());
    assert_eq!(folder.get("shift/b.trail"), fine_h());
    assert_eq!(folder.get("shift/c.trail"), silent_h());
    // again, into what is there; bad lines count more than refusals
    let ran = folder.run_line("write --json a.txt bad.txt back.txt -o shift/");
    assert_eq!(ran.status, Some(2));
    let lines: Vec<&str> = ran.text().lines().collect();
    assert!(lines[0].starts_with("{\"file\":\"shift/a.trail\",\"unit\":\"cm\",\"count\":4,"));
    assert!(lines[1].starts_with("{\"file\":\"bad.txt\",\"line\":2,\"failed\":"));
    assert!(lines[2].starts_with("{\"file\":\"back.txt\",\"line\":2,\"refused\":8,"));
    let total = "{\"files\":3,\"written\":1,\"refused\":[\"back.txt\"],\"failed\":[\"bad.txt\"],\
                 \"trails\":1,\"count\":4,\"bytes\":42}";
    assert_eq!(lines[3..], [total]);
}

#[test]
fn one_text_may_go_to_a_folder_too() {
    let folder = Folder::new();
    folder.put("cart.17.txt", "7 -1 2\n");
    for out in ["new/", "new", "new/."] {
        folder.run(&["write", "cart.17.txt", "-o", out]).says("");
        assert_eq!(folder.get("new/cart.17.trail"), record(&[(7, -1, 2)]));
        fs::remove_file(folder.path().join("new/cart.17.trail")).expect("it is ours");
    }
    assert_eq!(folder.names(), ["cart.17.txt", "new"]);
}

/// A shift with a refused reading is stored, and its status is told.
#[test]
fn many_texts_of_readings_are_summed_up() {
    let folder = Folder::new();
    folder.put("a", "0 step 1 1\n1 absolute 5 5\n");
    folder.put("b", "1 absolute 6 6\n");
    let ran = folder.run_line("write --anchors a b -o shift");
    assert_eq!(ran.status, Some(1));
    let said = "a: readings 2, refused 1, fixes 1\nb: readings 1, refused 0, fixes 1\n";
    assert_eq!(ran.text(), said);
    let summary = "\n2 files: 2 written, 0 refused, 0 failed; 2 fixes in 2 trails\n";
    assert!(ran.err.ends_with(summary), "{}", ran.err);
    assert_eq!(folder.get("shift/a.trail"), record(&[(1, 5, 5)]));
}

/// Words that would lose a file, or that name one twice, and why.
const CLASHES: [(&str, &str); 9] = [
    (
        "write a.txt d/a.csv -o out",
        "two files would become out/a.trail",
    ),
    (
        "write a.txt a.txt -o out",
        "two files would become out/a.trail",
    ),
    (
        "write a.txt - -o out",
        "standard input has no name for a file in a folder",
    ),
    (
        "write .. a.txt -o out",
        ".. has no name for a file in a folder",
    ),
    (
        "write a.txt a.trail -o .",
        "two files would become ./a.trail",
    ),
    ("write b.trail a.txt -o .", "an output is one of the texts"),
    (
        "write --force b.trail a.txt -o .",
        "an output is one of the texts",
    ),
    (
        "write b.trail -o .",
        "-o names the text itself; --force replaces it",
    ),
    (
        "write a.txt d/a.csv -o a.txt",
        "what is made of several files goes to a folder",
    ),
];

#[test]
fn no_text_is_lost_to_the_trail_of_another() {
    let folder = Folder::new();
    fs::create_dir(folder.path().join("d")).expect("a folder");
    for name in ["a.txt", "a.trail", "b.trail", "d/a.csv"] {
        folder.put(name, "0 0 0\n");
    }
    let names = folder.names();
    for (words, what) in CLASHES {
        let message = format!("trail: write: {what}; try 'trail write --help'");
        folder.run_line(words).fails(2, &message);
        assert_eq!(folder.names(), names, "{words}");
    }
    // the outputs of a split are known once it is made
    folder.put("a-001.txt", "0 0 0\n");
    let ran = folder.run_line("write --split a.txt a-001.txt -o a-001.txt");
    assert_eq!(ran.status, Some(2), "{}", ran.err);
    folder.put("b-001.t", "0 0 0\n");
    let ran = folder.run_line("write --split b-001.t -o b.t");
    let what = "-o names the text itself; --force replaces it";
    ran.fails(
        2,
        &format!("trail: write: {what}; try 'trail write --help'"),
    );
    assert_eq!(folder.get("b-001.t"), b"0 0 0\n");
    folder.run_line("write --force --split b-001.t -o b.t");
    assert_eq!(folder.get("b-001.t"), record(&[(0, 0, 0)]));
    // answers aren't lost to a trail either
    let ran = folder.run_in_shell("\"$@\" > d/a.trail", &["write", "a.txt", "-o", "d"]);
    let what = "-o and the standard output are one file";
    ran.fails(
        2,
        &format!("trail: write: {what}; try 'trail write --help'"),
    );
}

#[test]
fn a_folder_is_made_once_there_is_something_for_it() {
    let folder = Folder::new();
    folder.put("a", "no fix\n");
    folder.put("b", "no fix\n");
    folder.put("plain", "a file");
    assert_eq!(folder.run_line("write a b -o out").status, Some(2));
    assert_eq!(folder.names(), ["a", "b", "plain"]);
    folder.put("a", "0 0 0\n");
    for (out, what) in [
        ("no/out", "no/out: No such file or directory (os error 2)"),
        ("plain/", "plain/: it isn't a folder"),
    ] {
        let ran = folder.run_line(&format!("write a b -o {out}"));
        assert_eq!(ran.status, Some(3), "{}", ran.err);
        assert!(ran.err.starts_with(what), "{}", ran.err);
    }
    assert_eq!(folder.names(), ["a", "b", "plain"]);
}

/// Names that steer a terminal, that aren't UTF-8 and that look like options.
#[test]
fn odd_names_keep_their_bytes_in_a_folder() {
    let folder = Folder::new();
    let line = "mkdir texts && cd texts && printf '0 0 0\\n' > \"$(printf 'a\\377.txt')\" && \
                printf '0 0 0\\n' > '-o.txt' && printf '0 0 0\\n' > \"$(printf 'x\\033[2J,')\" && \
                \"$@\" -o ../out -- * && cd ../out && ls -b";
    let ran = folder.run_in_shell(line, &["write"]);
    assert_eq!(ran.status, Some(0), "{}", ran.err);
    assert_eq!(ran.text(), "-o.trail\na\\377.trail\nx\\033[2J,.trail\n");
}

// ---- aging a shift

/// A trail of each kind.
fn with_shift() -> Folder {
    let folder = Folder::new();
    fs::create_dir(folder.path().join("shift")).expect("a folder");
    folder.put("shift/one", trail_h());
    folder.put("shift/fine", [fine_h(), b"what follows".to_vec()].concat());
    folder.put("shift/silent", silent_h());
    folder
}

const SHIFT: &str = "shift/one shift/fine shift/silent";

fn is_as_it_was(folder: &Folder) {
    assert_eq!(folder.get("shift/one"), trail_h());
    let fine = [fine_h(), b"what follows".to_vec()].concat();
    assert_eq!(folder.get("shift/fine"), fine);
    assert_eq!(folder.get("shift/silent"), silent_h());
    let names = fs::read_dir(folder.path().join("shift")).expect("it is there");
    assert_eq!(names.count(), 3);
}

#[test]
fn a_shift_is_aged_into_a_folder() {
    let folder = with_shift();
    let ran = folder.run_line(&format!("age --tolerance 12 {SHIFT} -o aged"));
    let answers = "shift/one: kept 3 of 4 fixes, measured 3, mark 12 cm, freed 8 bytes\n\
        shift/fine: kept 4 of 4 fixes, measured 3, mark 12 mm, freed 0 bytes\n\
        shift/silent: kept 6 of 7 fixes, measured 4, mark 12 cm, freed 9 bytes\n";
    let summary = "3 files: 3 aged, 0 refused, 0 failed; 15 fixes to 13, 173 bytes to 156\n";
    assert_eq!(ran.ended(), (Some(0), answers, summary));
    is_as_it_was(&folder);
    assert_eq!(folder.get("aged/one"), trail_h_at_12());
    assert_eq!(folder.get("aged/silent"), silent_h_at_12());
    // one file too, over what is there, with what follows its record
    folder
        .run_line("age --tolerance 105 shift/fine -o aged")
        .says("shift/fine: kept 3 of 4 fixes, measured 3, mark 105 mm, freed 12 bytes\n");
    let fine = [fine_h_at_105(), b"what follows".to_vec()].concat();
    assert_eq!(folder.get("aged/fine"), fine);
    assert_eq!(folder.names(), ["aged", "shift"]);
}

#[test]
fn a_dry_run_says_the_same_and_stores_nothing() {
    let folder = with_shift();
    folder.put("b", "no trail");
    for name in ["shift/one", "shift/fine", "shift/silent"] {
        folder.permit(name, 0o444);
    }
    let answers =
        "shift/one: would keep 3 of 4 fixes, measured 3, mark 12 cm, would free 8 bytes\n\
        shift/fine: would keep 4 of 4 fixes, measured 3, mark 12 mm, would free 0 bytes\n\
        shift/silent: would keep 6 of 7 fixes, measured 4, mark 12 cm, would free 9 bytes\n";
    let err = "b: refused 1: The lent bytes are fewer than 10.\n\
        4 files: 3 aged, 1 refused, 0 failed; 15 fixes to 13, 173 bytes to 156; \
        nothing is stored; refused: b\n";
    for out in ["", " -o aged"] {
        let ran = folder.run_line(&format!("age --dry-run --tolerance 12 {SHIFT} b{out}"));
        assert_eq!(ran.ended(), (Some(1), answers, err));
        is_as_it_was(&folder);
        assert_eq!(folder.names(), ["b", "shift"]);
    }
    let ran = folder.run_line(&format!("age --json --dry-run --days 2 {SHIFT}"));
    let lines: Vec<&str> = ran.text().lines().collect();
    let fine = "{\"file\":\"shift/fine\",\"unit\":\"mm\",\"mark\":100,\"before\":4,\"count\":3,\
                \"measured\":3,\"bytes_before\":58,\"bytes\":46,\"freed\":12,\"dry_run\":true}";
    assert_eq!(lines[1], fine);
    let total = "{\"files\":3,\"aged\":3,\"refused\":[],\"failed\":[],\"before\":15,\"count\":12,\
                 \"measured\":10,\"bytes_before\":173,\"bytes\":144,\"freed\":29,\"dry_run\":true}";
    assert_eq!(lines[3..], [total]);
    is_as_it_was(&folder);
}

/// Somebody may hold the lock for ever, and what isn't a plain file is turned away as it is without a dry run.
#[test]
fn a_dry_run_takes_no_lock_and_waits_for_nobody() {
    let folder = Folder::with_h();
    let held = fs::File::open(folder.path().join("h")).expect("it is there");
    held.lock().expect("it is ours");
    folder
        .run_line("age --dry-run --tolerance 12 h")
        .says("h: would keep 3 of 4 fixes, measured 3, mark 12 cm, would free 8 bytes\n");
    let line = "mkfifo pipe && timeout 20 \"$@\"";
    let ran = folder.run_in_shell(line, &["age", "--dry-run", "--days", "7", "pipe"]);
    ran.fails(3, "pipe: it isn't a plain file");
}

/// Words that would lose a trail, and why.
const LOST: [(&str, &str); 6] = [
    (
        "age --days 7 shift/one shift/fine -o shift",
        "an output is one of the trails; leave -o out to age them in their places",
    ),
    (
        "age --days 7 shift/one -o shift",
        "-o names the trail itself; leave -o out to age it in its place",
    ),
    (
        "age --days 7 shift/one other/one -o aged",
        "two files would become aged/one",
    ),
    (
        "age --days 7 shift/one - -o aged",
        "standard input has no name for a file in a folder",
    ),
    (
        "age --days 7 shift/one shift/fine -o shift/one",
        "what is made of several files goes to a folder",
    ),
    (
        "age --days 7 --table other/one shift/one shift/fine -o other",
        "-o names the table",
    ),
];

#[test]
fn no_trail_is_lost_to_another() {
    let folder = with_shift();
    fs::create_dir(folder.path().join("other")).expect("a folder");
    folder.put("other/one", "2 10\n");
    for (words, what) in LOST {
        for dry in ["", " --dry-run"] {
            let message = format!("trail: age: {what}; try 'trail age --help'");
            folder.run_line(&format!("{words}{dry}")).fails(2, &message);
        }
        is_as_it_was(&folder);
    }
    assert_eq!(folder.get("other/one"), b"2 10\n");
    assert_eq!(folder.names(), ["other", "shift"]);
}

/// From texts to an aged folder: what is left of each record is what aging it alone leaves.
#[test]
fn a_split_shift_of_every_kind_is_aged() {
    let folder = Folder::new();
    for kind in KINDS {
        folder.put("cart.txt", text(kind, &fixes(kind, 5_000)));
        let ran = folder.run_line(&write(kind, "--split cart.txt -o shift/"));
        assert_eq!(ran.status, Some(0), "{}", ran.err);
        let parts = "shift/cart-001.trail shift/cart-002.trail";
        let ran = folder.run_line(&format!("age --tolerance 30 {parts} -o aged/"));
        assert_eq!(ran.status, Some(0), "{}", ran.err);
        for name in ["cart-001.trail", "cart-002.trail"] {
            let mut alone = folder.get(&format!("shift/{name}"));
            plain::thinning::age(&mut alone, 30).expect("it is a trail");
            let aged = plain::read(&folder.get(&format!("aged/{name}"))).expect("a trail");
            assert_eq!(aged.mark, 30);
            assert!(plain::read(&alone) == Ok(aged), "{} {name}", kind.name);
        }
    }
}
