//! README's walk through the command, word for word.

use std::fs;
use std::os::unix::fs::{symlink, PermissionsExt};
use std::process::Command;

use trails_tests::programs::project;

use crate::folder::{Folder, PROGRAM};

/// The lines of both walks, one after the other, each with what it prints.
fn walk() -> Vec<(String, String)> {
    let readme = fs::read_to_string(project().join("README.md")).expect("it is there");
    let (_, sections) = readme
        .split_once("\n## The command\n")
        .expect("its section");
    let (sections, _) = sections.split_once("\n## Map\n").expect("the next");
    assert_eq!(sections.matches("\n## ").count(), 1, "A shift");
    let mut walk: Vec<(String, String)> = Vec::new();
    for line in sections
        .lines()
        .filter_map(|line| line.strip_prefix("    "))
    {
        match (line.strip_prefix("# "), walk.last_mut()) {
            (Some(printed), Some((_, all))) => all.extend([printed, "\n"]),
            _ => walk.push((line.to_string(), String::new())),
        }
    }
    walk
}

/// A folder that is like a clone after `./demo`, which stands here for a script that has nothing left to do.
fn clone() -> Folder {
    let folder = Folder::new();
    let examples = folder.path().join("examples");
    symlink(project().join("examples"), examples).expect("a link");
    folder.put("demo", "#!/bin/sh\n");
    let run = fs::Permissions::from_mode(0o755);
    fs::set_permissions(folder.path().join("demo"), run).expect("it is ours");
    let built = folder.path().join("rust/target/release");
    fs::create_dir_all(&built).expect("a folder");
    symlink(PROGRAM, built.join("trail")).expect("a link");
    folder
}

#[test]
fn the_walk_works_word_for_word() {
    let folder = clone();
    let walk = walk();
    let mut script = String::from("set -eu\n");
    for (k, (line, _)) in walk.iter().enumerate() {
        let file = folder.path().join(k.to_string());
        script += &format!("{{ {line}\n}} > '{}'\n", file.display());
    }
    let mut shell = Command::new("sh");
    let ran = folder.finish(shell.args(["-c", &script]), b"");
    assert_eq!((ran.status, ran.err.as_str()), (Some(0), ""));
    for (k, (line, printed)) in walk.iter().enumerate() {
        let got = folder.get(&k.to_string());
        assert_eq!(String::from_utf8_lossy(&got), *printed, "{line}");
    }
    let picture = folder.get("target/tour/cart.svg");
    let picture = String::from_utf8_lossy(&picture);
    // it compares two trails that differ
    assert!(picture.contains("fixes: 2 of the original's 4;"));
    assert!(walk.len() > 12, "{walk:?}");
}
