//! Files that others have too: agings at once, locks, folders of several users, and access lists.

use std::collections::BTreeSet;
use std::fs::{self, File};
use std::os::unix::fs::{chown, MetadataExt};
use std::process::{Child, Command, Stdio};
use std::sync::atomic::{AtomicBool, Ordering};
use std::thread;
use std::time::Duration;

use trails::interface::system::{access_list, set_access_list};
use trails_tests::cases::Random;

use crate::folder::{trail_h, trail_h_at_12, Folder, Ran, AGED_H, AGE_H, PROGRAM};

/// Starts an aging of h, with its answers thrown away.
fn start(folder: &Folder, tolerance: u16) -> Child {
    Command::new(PROGRAM)
        .args(["age", "--tolerance", &tolerance.to_string(), "h"])
        .current_dir(folder.path())
        .stdout(Stdio::null())
        .stderr(Stdio::null())
        .spawn()
        .expect("it starts")
}

/// Of two or three agings at once each that says it is done is done: the mark is the greatest of theirs.
#[test]
fn agings_at_once_are_all_made() {
    let folder = Folder::new();
    let mut random = Random::new(12);
    for round in 0..2_000 {
        folder.put("h", trail_h());
        let tolerances = (0..2 + round % 2).map(|_| random.between(0, 60) as u16);
        let runs: Vec<(u16, Child)> = tolerances.map(|e| (e, start(&folder, e))).collect();
        for (e, mut run) in runs {
            assert!(run.wait().expect("it ends").success(), "round {round}");
            let mark = folder.get("h")[6..8].try_into().map(u16::from_le_bytes);
            assert!(mark.expect("two bytes") >= e, "round {round}");
        }
    }
    assert_eq!(folder.names(), ["h"]);
}

#[test]
fn a_lock_is_waited_for() {
    let folder = Folder::with_h();
    let file = File::open(folder.path().join("h")).expect("it is there");
    file.lock().expect("nobody else has it");
    let mut run = start(&folder, 12);
    thread::sleep(Duration::from_millis(200));
    assert!(run.try_wait().expect("it is ours").is_none());
    assert_eq!(folder.get("h"), trail_h());
    drop(file);
    assert!(run.wait().expect("it ends").success());
    assert_eq!(folder.get("h"), trail_h_at_12());
}

#[test]
fn a_lock_that_is_never_given_back_is_told() {
    let folder = Folder::with_h();
    let file = File::open(folder.path().join("h")).expect("it is there");
    file.lock().expect("nobody else has it");
    let ran = folder.run(&AGE_H);
    ran.fails(3, "h: somebody else has locked it");
    let ran = folder.run(&["list", "h"]);
    assert_eq!(ran.status, Some(0));
    assert_eq!(folder.get("h"), trail_h());
    assert_eq!(folder.names(), ["h"]);
}

/// Three people and the team of two of them.
const ANNA: u32 = 61_001;
const BERT: u32 = 61_002;
const CARLA: u32 = 61_003;
const TEAM: u32 = 62_000;

/// A folder in which everybody may write, with a trail of Anna's and her team's. Only the superuser can make it.
fn shared(mode: u32) -> Option<Folder> {
    let folder = Folder::with_h();
    folder.copied_program();
    folder.permit(".", 0o777);
    let found = Command::new("setpriv").arg("--version").output().is_ok();
    if !found || chown(folder.path().join("h"), Some(ANNA), Some(TEAM)).is_err() {
        eprintln!("skipped: nobody else can be had here");
        return None;
    }
    folder.permit("h", mode);
    Some(folder)
}

/// Runs the command as another user, who is in a group of their own and maybe in the team, under the usual mask.
fn as_user(folder: &Folder, user: u32, team: Option<u32>, words: &[&str]) -> Ran {
    let mut command = Command::new("setpriv");
    command.args([format!("--reuid={user}"), format!("--regid={user}")]);
    match team {
        Some(team) => command.arg(format!("--groups={team}")),
        None => command.arg("--clear-groups"),
    };
    command.args(["sh", "-c", "umask 022; exec ./program \"$@\"", "sh"]);
    folder.finish(command.args(words), b"")
}

/// Owner, group and permissions.
fn access(folder: &Folder, name: &str) -> (u32, u32, u32) {
    let of = fs::metadata(folder.path().join(name)).expect("it is there");
    (of.uid(), of.gid(), of.mode() & 0o7777)
}

#[test]
fn a_colleague_ages_a_trail_and_its_group_keeps_it() {
    let Some(folder) = shared(0o660) else { return };
    as_user(&folder, BERT, Some(TEAM), &AGE_H).says(AGED_H);
    assert_eq!(access(&folder, "h"), (BERT, TEAM, 0o660));
    // for the superuser it stays its owner's
    chown(folder.path().join("h"), Some(ANNA), Some(TEAM)).expect("we may");
    let ran = folder.run(&["age", "--tolerance", "25", "h"]);
    assert_eq!(ran.status, Some(0));
    assert_eq!(access(&folder, "h"), (ANNA, TEAM, 0o660));
    // and a colleague's -o over it likewise
    folder.put("t", trail_h());
    folder.permit("t", 0o644);
    let words = ["age", "--tolerance", "12", "t", "-o", "h"];
    let ran = as_user(&folder, BERT, Some(TEAM), &words);
    assert_eq!(ran.status, Some(0), "{}", ran.err);
    assert_eq!(access(&folder, "h"), (BERT, TEAM, 0o660));
    assert_eq!(folder.get("h"), trail_h_at_12());
}

#[test]
fn who_cannot_keep_the_group_changes_nothing() {
    let Some(folder) = shared(0o666) else { return };
    folder.put("t", trail_h());
    folder.put("fixes", "1 2 3");
    folder.permit("t", 0o644);
    folder.permit("fixes", 0o644);
    for words in [
        &AGE_H[..],
        &["age", "--tolerance", "12", "t", "-o", "h"],
        &["write", "fixes", "-o", "h"],
        &["plot", "t", "--force", "-o", "h"],
    ] {
        let ran = as_user(&folder, CARLA, None, words);
        ran.fails(3, "h: its group can't be kept");
        assert_eq!(access(&folder, "h"), (ANNA, TEAM, 0o666));
        assert_eq!(folder.get("h"), trail_h());
    }
    assert_eq!(folder.names(), ["fixes", "h", "program", "t"]);
    let ran = as_user(&folder, CARLA, None, &["list", "h"]);
    assert_eq!(ran.status, Some(0));
    // nor does a picture go over what may be a trail, but can't be read
    folder.permit("h", 0o622);
    let ran = as_user(&folder, CARLA, None, &["plot", "t", "-o", "h"]);
    assert_eq!(ran.status, Some(2));
}

#[test]
fn a_new_file_is_for_those_who_read_its_sources() {
    let Some(folder) = shared(0o660) else { return };
    let copy = |user, team, mode| {
        folder.permit("h", mode);
        let words = [&AGE_H[..], &["-o", "new"]].concat();
        as_user(&folder, user, team, &words).says(AGED_H);
        let access = access(&folder, "new");
        fs::remove_file(folder.path().join("new")).expect("we may");
        access
    };
    assert_eq!(copy(BERT, Some(TEAM), 0o660), (BERT, TEAM, 0o640));
    // what everybody reads needs no group
    assert_eq!(copy(BERT, Some(TEAM), 0o664), (BERT, BERT, 0o644));
    assert_eq!(copy(CARLA, None, 0o664), (CARLA, CARLA, 0o644));
    // who isn't in the team reads this one, and the team doesn't
    assert_eq!(copy(CARLA, None, 0o604), (CARLA, CARLA, 0o600));
    // a picture shows two trails
    folder.put("t", trail_h());
    for (mode, other) in [(0o600, 0o644), (0o660, 0o640), (0o644, 0o640)] {
        folder.permit("h", mode);
        folder.permit("t", other);
        let words = ["plot", "t", "--original", "h", "-o", "new"];
        folder.run_in_shell("umask 022; \"$@\"", &words).says("");
        // of two groups no one is theirs
        let alone = access(&folder, "new").2 == 0o600;
        assert_eq!(alone, mode != 0o644, "{mode:o} {other:o}");
        fs::remove_file(folder.path().join("new")).expect("it is ours");
    }
}

/// What is seen of the files beside `h` while something is done a hundred times: group and permissions.
fn watched(folder: &Folder, act: impl Fn() -> Ran) -> (Vec<Ran>, BTreeSet<(u32, u32)>) {
    let done = AtomicBool::new(false);
    thread::scope(|scope| {
        let watch = scope.spawn(|| {
            let mut seen = BTreeSet::new();
            while !done.load(Ordering::Relaxed) {
                let entries = fs::read_dir(folder.path()).expect("the folder can be read");
                let beside = entries
                    .flatten()
                    .filter(|entry| entry.file_name() != "program");
                // some are gone before they are looked at
                let found = beside.filter_map(|entry| entry.metadata().ok());
                seen.extend(found.map(|of| (of.gid(), of.mode() & 0o777)));
            }
            seen
        });
        let runs = (0..100).map(|_| act()).collect();
        done.store(true, Ordering::Relaxed);
        (runs, watch.join().expect("it ends"))
    })
}

/// Group and others read nothing that isn't the team's.
#[test]
fn nobody_reads_a_new_file_at_any_moment_who_could_not_before() {
    let Some(folder) = shared(0o660) else { return };
    let long = [trail_h(), vec![7; 1 << 20]].concat();
    let words = [&AGE_H[..], &["-o", "new"]].concat();
    let acts: [&(dyn Fn() -> Ran + Sync); 2] = [
        &|| {
            folder.put("h", &long);
            as_user(&folder, BERT, Some(TEAM), &AGE_H)
        },
        &|| {
            let ran = as_user(&folder, BERT, Some(TEAM), &words);
            let _ = fs::remove_file(folder.path().join("new"));
            ran
        },
    ];
    for act in acts {
        folder.put("h", &long);
        let (runs, seen) = watched(&folder, act);
        runs.iter().for_each(|ran| ran.says(AGED_H));
        let stranger = |(group, mode): &&(u32, u32)| *group != TEAM && mode & 0o077 != 0;
        assert_eq!(seen.iter().find(stranger), None, "{seen:?}");
        assert!(seen.iter().all(|(_, mode)| mode & 0o007 == 0), "{seen:?}");
    }
}

/// An access list as Linux stores it: the owner reads and writes, and so does Carla; the group and others don't.
fn list_with_carla() -> Vec<u8> {
    const NOBODY: u32 = u32::MAX;
    let entries: [(u16, u16, u32); 5] = [
        (0x01, 6, NOBODY),
        (0x02, 6, CARLA),
        (0x04, 0, NOBODY),
        (0x10, 6, NOBODY),
        (0x20, 0, NOBODY),
    ];
    let mut list = vec![2, 0, 0, 0];
    for (tag, permissions, id) in entries {
        list.extend(tag.to_le_bytes());
        list.extend(permissions.to_le_bytes());
        list.extend(id.to_le_bytes());
    }
    list
}

#[test]
fn an_access_list_stays() {
    let Some(folder) = shared(0o600) else { return };
    let list = || access_list(&File::open(folder.path().join("h")).expect("it is there"));
    let file = File::open(folder.path().join("h")).expect("it is there");
    if set_access_list(&file, &list_with_carla()).is_err() {
        eprintln!("skipped: no access list can be had here");
        return;
    }
    // its mask, which isn't what the group may do
    assert_eq!(access(&folder, "h").2, 0o660);
    folder.run(&AGE_H).says(AGED_H);
    assert_eq!(list().expect("it is there"), Some(list_with_carla()));
    assert_eq!(access(&folder, "h"), (ANNA, TEAM, 0o660));
    let ran = as_user(&folder, BERT, Some(TEAM), &["list", "h"]);
    assert_eq!(ran.status, Some(3));
    let ran = as_user(&folder, CARLA, None, &["list", "h"]);
    assert_eq!(ran.status, Some(0));
    // a copy is for nobody else
    folder.run_line("age --days 7 h -o new");
    assert_eq!(access(&folder, "new").2, 0o600);
}

/// A list that a folder gives its new files opens none that had none.
#[test]
fn a_folders_access_list_opens_nothing() {
    let Some(folder) = shared(0o640) else { return };
    let list: String = list_with_carla()
        .iter()
        .map(|byte| format!("{byte:02x}"))
        .collect();
    let line =
        format!("import os; os.setxattr('.', 'system.posix_acl_default', bytes.fromhex('{list}'))");
    let given = Command::new("python3")
        .args(["-c", &line])
        .current_dir(folder.path())
        .status();
    if !given.is_ok_and(|status| status.success()) {
        eprintln!("skipped: no access list can be had here");
        return;
    }
    folder.run(&AGE_H).says(AGED_H);
    folder.run_line("age --days 7 h -o new");
    for name in ["h", "new"] {
        let file = File::open(folder.path().join(name)).expect("it is there");
        assert_eq!(access_list(&file).expect("it is there"), None);
        assert_eq!(access(&folder, name).2 & 0o007, 0);
        let ran = as_user(&folder, CARLA, None, &["list", name]);
        assert_eq!(ran.status, Some(3), "{name}");
    }
}
