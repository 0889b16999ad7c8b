//! Questions of many trails: a line for each, and how many said what.

use crate::folder::{fine_h, silent_h, trail_h_at_12, Folder, NEVER};

/// Three trails of three kinds, and what isn't one.
fn shift() -> Folder {
    let folder = Folder::with_h();
    folder.put("fine", fine_h());
    folder.put("silent", silent_h());
    folder.put("bad", b"no trail");
    folder
}

#[test]
fn each_trail_is_answered_in_a_line() {
    let folder = shift();
    let ran = folder.run_line("cross h fine silent --box 15 25 -5 5 --window 0 30");
    let lines = [
        format!("h: yes, 150/20 seconds after the first fix, at 7.500; {NEVER}\n"),
        format!(
            "fine: yes, 150/204 seconds after the first fix, at 0.735, the box in mm; {NEVER}\n"
        ),
        format!("silent: yes, 150/20 seconds after the first fix, at 7.500; {NEVER}\n"),
    ];
    assert_eq!(ran.text(), lines.concat());
    let summary = "3 files: 3 yes, 0 no, 0 refused, 0 failed; yes: h, fine, silent\n";
    assert_eq!((ran.status, ran.err.as_str()), (Some(0), summary));
    let ran = folder.run_line("near h silent --point 400 90 --radius 5 --epoch 06:00:00");
    let unknown = "; of the silence nothing is known";
    let at = "on leg 3, closest 300/1 seconds after the first fix, at 06:05:00.000";
    let lines = [
        format!("h: no; {NEVER}\n"),
        format!("silent: yes, {at}; {NEVER}{unknown}\n"),
    ];
    assert_eq!(ran.text(), lines.concat());
    assert_eq!(
        ran.err,
        "2 files: 1 yes, 1 no, 0 refused, 0 failed; yes: silent\n"
    );
    let ran = folder.run_line("place h silent 5.25");
    let place = format!("place 11 0 cm; exact 105000/10000 0/10000; {NEVER}\n");
    assert_eq!(ran.text(), format!("h: {place}silent: {place}"));
    assert_eq!(ran.err, "2 files: 2 told, 0 refused, 0 failed\n");
}

/// What is refused doesn't stand in the way of the others, and the worst status counts.
#[test]
fn refused_files_are_named_and_passed() {
    let folder = shift();
    let ran = folder.run_line("cross bad h none --box 15 25 -5 5 --window 0 30");
    assert_eq!(ran.status, Some(3));
    assert_eq!(ran.text().lines().count(), 1);
    let told: Vec<&str> = ran.err.lines().collect();
    assert!(told[0].starts_with("bad: refused 1: "), "{told:?}");
    assert!(told[1].starts_with("none: "), "{told:?}");
    let summary = "3 files: 1 yes, 0 no, 1 refused, 1 failed; yes: h; refused: bad; failed: none";
    assert_eq!(told[2..], [summary]);
    let ran = folder.run_line("place bad h 5 --json");
    assert_eq!(ran.status, Some(1));
    let lines: Vec<&str> = ran.text().lines().collect();
    assert!(
        lines[0].starts_with("{\"file\":\"bad\",\"refused\":1,"),
        "{lines:?}"
    );
    assert!(
        lines[1].starts_with("{\"file\":\"h\",\"unit\":\"cm\",\"x\":10,"),
        "{lines:?}"
    );
    let total = "{\"files\":2,\"told\":1,\"refused\":[\"bad\"],\"failed\":[]}";
    assert_eq!(lines[2..], [total]);
    // a question that no trail takes is refused by each
    let ran = folder.run_line("near h silent --point 0 0 --radius 40000");
    assert_eq!((ran.status, ran.text()), (Some(1), ""));
    assert_eq!(ran.err.matches("refused 16: ").count(), 2);
}

#[test]
fn a_window_is_cut_to_each_trails_times() {
    let folder = shift();
    folder.put("aged", trail_h_at_12());
    let asked = "h silent --box 395 425 70 95 --window 25 310";
    let refused = folder.run_line(&format!("cross {asked}"));
    assert_eq!(refused.status, Some(1));
    assert!(
        refused.err.starts_with("h: refused 13: "),
        "{}",
        refused.err
    );
    let ran = folder.run_line(&format!("cross {asked} --within"));
    assert_eq!(ran.status, Some(0));
    let unknown = "; of the silence in the window nothing is known";
    let yes = format!("yes, 300/1 seconds after the first fix, at 300.000; {NEVER}{unknown}");
    assert_eq!(ran.text(), format!("h: no; {NEVER}\nsilent: {yes}\n"));
    // a trail that has no time of the window isn't asked
    let ran = folder.run_line("cross h silent --box 0 9 0 9 --window 31 310 --within");
    let line = "h: not asked; the trail has seconds 0 to 30\n";
    assert!(ran.text().starts_with(line), "{}", ran.text());
    let summary = "2 files: 0 yes, 1 no, 1 outside, 0 refused, 0 failed\n";
    assert_eq!((ran.status, ran.err.as_str()), (Some(0), summary));
    // without a window all times are asked
    let ran = folder.run_line("cross aged --box 0 9 0 9 --within");
    assert!(
        ran.text().starts_with("yes, 0/1 seconds after "),
        "{}",
        ran.text()
    );
}

/// `--within` lets nothing pass that is bad in itself.
#[test]
fn bad_windows_and_boxes_are_still_refused() {
    let folder = shift();
    for (line, number) in [
        ("cross h --box 0 9 0 9 --window 30 0 --within", 13),
        ("cross h --box 0 9 0 9 --window 90 80 --within", 13),
        ("cross h --box 9 0 0 9 --window 80 90 --within", 14),
        ("cross h --box 0 16001 0 9 --within", 14),
        ("cross h --box 0 16001 0 9 --within --all", 14),
        ("place silent 100 --within", 21),
    ] {
        let ran = folder.run_line(line);
        let told = format!(": refused {number}: ");
        assert_eq!((ran.status, ran.text()), (Some(1), ""), "{line}");
        assert!(ran.err.contains(&told), "{line}: {}", ran.err);
    }
}

#[test]
fn a_moment_may_be_within_some_trails_alone() {
    let folder = shift();
    let ran = folder.run_line("place h silent 30.001 --within");
    assert_eq!(ran.status, Some(1));
    assert_eq!(ran.text(), "h: not asked; the trail has seconds 0 to 30\n");
    let ran = folder.run_line("place h silent 310 --within --json");
    let lines: Vec<&str> = ran.text().lines().collect();
    let outside = "{\"file\":\"h\",\"unit\":\"cm\",\"outside\":true,\"first\":0,\"last\":30}";
    assert_eq!(lines[0], outside);
    assert!(lines[1].starts_with("{\"file\":\"silent\",\"unit\":\"cm\",\"x\":420,"));
    let total = "{\"files\":2,\"told\":1,\"outside\":1,\"refused\":[],\"failed\":[]}";
    assert_eq!(lines[2..], [total]);
    // its last moment is its own, and the next thousandth isn't
    assert_eq!(folder.run_line("place h 30 --within").status, Some(0));
    let ran = folder.run_line("place h 30.001 --within");
    ran.says("not asked; the trail has seconds 0 to 30\n");
}

#[test]
fn the_standard_input_is_one_file_of_many() {
    let folder = shift();
    let words = ["cross", "-", "h", "--box", "0", "9", "0", "9", "--within"];
    let ran = folder.run_with(&words, &fine_h());
    assert_eq!(ran.status, Some(0));
    assert!(
        ran.text().starts_with("standard input: yes, "),
        "{}",
        ran.text()
    );
    let words = ["cross", "-", "-", "--box", "0", "9", "0", "9", "--within"];
    assert_eq!(folder.run_with(&words, &fine_h()).status, Some(2));
}

/// Answers that nobody hears aren't asked for, and no summary says that they were given.
#[test]
fn without_a_reader_the_round_ends() {
    let folder = shift();
    let words = [
        "cross", "h", "silent", "--box", "0", "9", "0", "9", "--within",
    ];
    let ran = folder.run_in_shell("\"$@\" > /dev/full", &words);
    ran.fails(3, "standard output: No space left on device (os error 28)");
}
