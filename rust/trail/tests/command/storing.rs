//! No trail is ever lost: full disks, folders and files that can't be written, interrupted runs, many files.

use std::fs;
use std::os::unix::fs::MetadataExt;
use std::os::unix::process::CommandExt;
use std::process::{Command, Stdio};
use std::time::Duration;

use crate::folder::{trail_h, trail_h_at_12, Folder, Ran, AGED_H, AGE_H, PROGRAM};

#[test]
fn a_full_disk_is_told() {
    let folder = Folder::with_h();
    let told = |ran: Ran, file: &str| {
        ran.fails(3, &format!("{file}: No space left on device (os error 28)"));
        assert_eq!(folder.names(), ["h"]);
        assert_eq!(folder.get("h"), trail_h());
    };
    let words = [&AGE_H[..], &["-o", "/dev/full"]].concat();
    told(folder.run(&words), "/dev/full");
    let words = ["write", "-", "-o", "/dev/full"];
    told(folder.run_with(&words, b"1 2 3"), "/dev/full");
    // and where not even a message can be written
    let ran = folder.run_in_shell("\"$@\" 2> /dev/full", &["list", "missing"]);
    assert_eq!(ran.status, Some(3));
}

/// On a disk of 32 KiB, which a user may have in a namespace of their own where the system lets them.
#[test]
fn aging_in_place_on_a_full_disk_leaves_the_trail() {
    let folder = Folder::with_h();
    let line = "mkdir disk && mount -t tmpfs -o size=32k none disk || exit 99
        cp h disk/h && head -c 32768 /dev/zero > disk/rest 2> rest.log
        cd disk && \"$@\" > answer; echo $? > ../status; cmp h ../h && ls > ../names";
    let mut namespace = Command::new("unshare");
    namespace.args(["--user", "--map-root-user", "--mount", "sh", "-c", line]);
    namespace.args(["sh", PROGRAM]).args(AGE_H);
    let ran = namespace.current_dir(folder.path()).output();
    let Some(ran) = ran.ok().filter(|ran| ran.status.success()) else {
        eprintln!("skipped: no disk can be had here");
        return;
    };
    let message = String::from_utf8_lossy(&ran.stderr);
    assert_eq!(message, "h: No space left on device (os error 28)\n");
    assert_eq!(folder.get("status"), b"3\n");
    assert_eq!(folder.get("names"), b"answer\nh\nrest\n");
}

#[test]
fn a_write_that_fails_leaves_the_trail_and_nothing_beside_it() {
    let folder = Folder::with_h();
    let limited = "trap '' XFSZ; ulimit -f 0; exec \"$@\"";
    let ran = folder.run_in_shell(limited, &AGE_H);
    ran.fails(3, "h: File too large (os error 27)");
    assert_eq!(folder.get("h"), trail_h());
    assert_eq!(folder.names(), ["h"]);
}

#[test]
fn a_run_that_dies_while_it_writes_leaves_the_trail() {
    let folder = Folder::with_h();
    // the first byte that is written kills it
    let ran = folder.run_in_shell("ulimit -c 0; ulimit -f 0; exec \"$@\"", &AGE_H);
    assert_eq!(ran.status, None);
    assert_eq!(folder.get("h"), trail_h());
    assert_eq!(folder.names().len(), 2);
    assert!(folder.names()[1].starts_with("h.tmp-"));
    // and the next run isn't disturbed by what that one left
    folder.run(&AGE_H).says(AGED_H);
    assert_eq!(folder.get("h"), trail_h_at_12());
}

/// Each round kills the run a little after it has aged another file than the round before.
#[test]
fn runs_killed_at_any_moment_leave_whole_trails() {
    let folder = Folder::new();
    let names: Vec<String> = (0..16).map(|k| format!("t{k}")).collect();
    for (round, reached) in (0..).zip(&names) {
        names.iter().for_each(|name| folder.put(name, trail_h()));
        let mut run = Command::new(PROGRAM)
            .args(["age", "--tolerance", "12"])
            .args(&names)
            .current_dir(folder.path())
            .stdout(Stdio::null())
            .stderr(Stdio::null())
            .spawn()
            .expect("it starts");
        while folder.get(reached) == trail_h() && run.try_wait().is_ok_and(|end| end.is_none()) {
            std::thread::sleep(Duration::from_micros(20));
        }
        std::thread::sleep(Duration::from_micros(7 * round));
        run.kill().expect("it is ours");
        run.wait().expect("it ends");
        for name in &names {
            let bytes = folder.get(name);
            assert!(bytes == trail_h() || bytes == trail_h_at_12(), "{name}");
        }
    }
}

/// Runs the command as somebody whom permissions bind, which they don't the superuser.
fn run_bound(folder: &Folder, words: &[&str]) -> Ran {
    let program = folder.copied_program();
    let mut command = Command::new(&program);
    command.args(words).current_dir(folder.path());
    if fs::metadata("/proc/self").is_ok_and(|me| me.uid() == 0) {
        command.uid(65_534).gid(65_534);
    }
    let ran = command.output().expect("it runs");
    fs::remove_file(program).expect("it is ours");
    Ran::from(ran)
}

#[test]
fn in_a_folder_that_cannot_be_written_the_trail_stays() {
    let folder = Folder::with_h();
    fs::create_dir(folder.path().join("shut")).expect("a folder");
    folder.put("shut/h", trail_h());
    folder.permit(".", 0o755);
    folder.permit("h", 0o644);
    folder.permit("shut/h", 0o666);
    folder.permit("shut", 0o555);
    for words in [
        &["age", "--tolerance", "12", "shut/h"][..],
        &["age", "--tolerance", "12", "h", "-o", "shut/h"],
    ] {
        let ran = run_bound(&folder, words);
        ran.fails(3, "shut/h: Permission denied (os error 13)");
        assert_eq!(folder.get("shut/h"), trail_h());
    }
    let ran = run_bound(&folder, &["age", "--days", "7", "shut/h", "-o", "shut/t"]);
    ran.fails(3, "shut/t: Permission denied (os error 13)");
    for out in ["shut/new/", "shut"] {
        let ran = run_bound(&folder, &["age", "--days", "7", "h", "program", "-o", out]);
        assert_eq!(ran.status, Some(3));
        assert!(ran.err.starts_with("shut/"), "{}", ran.err);
        assert!(ran.err.contains(": Permission denied (os error 13)\n"));
    }
    folder.permit("shut", 0o755);
    assert_eq!(
        fs::read_dir(folder.path().join("shut"))
            .expect("it is there")
            .count(),
        1
    );
}

#[test]
fn a_trail_that_is_protected_from_writing_isnt_aged() {
    let folder = Folder::with_h();
    folder.permit("h", 0o444);
    folder.permit(".", 0o777);
    let ran = run_bound(&folder, &AGE_H);
    ran.fails(3, "h: Permission denied (os error 13)");
    for words in [
        &["list", "h"][..],
        &["age", "--dry-run", "--tolerance", "12", "h"],
    ] {
        assert_eq!(run_bound(&folder, words).status, Some(0), "{words:?}");
    }
    assert_eq!(folder.get("h"), trail_h());
    assert_eq!(folder.names(), ["h"]);
}

#[test]
fn work_goes_on_past_a_refused_file_and_is_summed_up() {
    let folder = Folder::new();
    folder.put("a", trail_h());
    folder.put("b", "no trail");
    folder.put("c", trail_h());
    let ran = folder.run(&["age", "--tolerance", "12", "a", "b", "c"]);
    assert_eq!(ran.status, Some(1));
    assert_eq!(
        ran.text(),
        "a: kept 3 of 4 fixes, measured 3, mark 12 cm, freed 8 bytes\nc: kept 3 of 4 fixes, measured 3, mark 12 cm, freed 8 bytes\n"
    );
    assert_eq!(
        ran.err,
        "b: refused 1: The lent bytes are fewer than 10.\n\
         3 files: 2 aged, 1 refused, 0 failed; 8 fixes to 6, 84 bytes to 68; refused: b\n"
    );
    assert_eq!(folder.get("b"), b"no trail");
    let ran = folder.run(&["age", "--json", "--days", "90", "a", "missing", "b"]);
    assert_eq!(ran.status, Some(3));
    assert_eq!(
        ran.text(),
        "{\"file\":\"a\",\"unit\":\"cm\",\"mark\":400,\"before\":3,\"count\":2,\"measured\":1,\
         \"bytes_before\":34,\"bytes\":26,\"freed\":8,\"dry_run\":false}\n\
         {\"file\":\"missing\",\"failed\":\"No such file or directory (os error 2)\"}\n\
         {\"file\":\"b\",\"refused\":1,\"sentence\":\"The lent bytes are fewer than 10.\"}\n\
         {\"files\":3,\"aged\":1,\"refused\":[\"b\"],\"failed\":[\"missing\"],\
         \"before\":3,\"count\":2,\"measured\":1,\
         \"bytes_before\":34,\"bytes\":26,\"freed\":8,\"dry_run\":false}\n"
    );
    let summary = "\n3 files: 1 aged, 1 refused, 1 failed; 3 fixes to 2, 34 bytes to 26; \
                   refused: b; failed: missing\n";
    assert!(ran.err.ends_with(summary), "{}", ran.err);
}

#[test]
fn the_longest_name_is_aged() {
    let folder = Folder::new();
    let name = "n".repeat(255);
    folder.put(&name, trail_h());
    let ran = folder.run(&["age", "--tolerance", "12", &name]);
    assert_eq!(ran.status, Some(0), "{}", ran.err);
    assert_eq!(folder.get(&name), trail_h_at_12());
    assert_eq!(folder.names(), [name]);
}

/// `script` runs a command at a terminal of its own.
#[test]
fn people_at_a_terminal_see_how_far_the_work_is() {
    let folder = Folder::with_h();
    folder.put("t", trail_h());
    let line = "command -v script > /dev/null || exit 99
        script -qec \"$1 age --tolerance 12 h t\" /dev/null";
    let ran = folder.run_in_shell(line, &[]);
    if ran.status == Some(99) {
        eprintln!("skipped: no terminal can be had here");
        return;
    }
    assert!(ran.text().contains("1 of 2 files"), "{}", ran.text());
    assert!(ran
        .text()
        .contains("2 files: 2 aged, 0 refused, 0 failed; 8 fixes to 6, 84 bytes to 68"));
}

#[test]
fn the_deepest_trail_is_aged_under_a_small_stack_limit() {
    let folder = Folder::new();
    folder.run_line("dearest 4096 -o t").says("");
    let words = ["age", "--tolerance", "1", "t"];
    let ran = folder.run_in_shell("ulimit -s 256; exec \"$@\"", &words);
    ran.says("t: kept 4096 of 4096 fixes, measured 8382465, mark 1 cm, freed 0 bytes\n");
}
