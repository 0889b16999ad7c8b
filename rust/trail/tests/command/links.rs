//! Names that lead to other files, files with several names, and outputs that are inputs.

use std::fs;
use std::os::unix::fs::symlink;
use std::path::Path;

use crate::folder::{trail_h, trail_h_at_12, Folder, AGED_H, AGE_H};

#[test]
fn a_link_stays_a_link() {
    let folder = Folder::with_h();
    fs::create_dir(folder.path().join("shelf")).expect("a folder");
    let links = [
        ("link", "h"),
        ("shelf/chain", "../link"),
        ("empty", "shelf/new"),
        ("loop", "loop"),
    ];
    for (link, to) in links {
        symlink(to, folder.path().join(link)).expect("a link");
    }
    let ran = folder.run_line("age --tolerance 12 shelf/chain");
    assert_eq!(ran.status, Some(0), "{}", ran.err);
    assert_eq!(folder.get("h"), trail_h_at_12());
    // one that points nowhere yet is filled
    folder.put("fixes", "0 0 0\n10 20 0\n20 20 0\n30 0 0\n");
    folder.run_line("write fixes -o empty").says("");
    assert_eq!(folder.get("shelf/new"), trail_h());
    let ran = folder.run_line("write fixes -o loop");
    assert_eq!(ran.status, Some(3), "{}", ran.err);
    for (link, to) in links {
        let there = fs::read_link(folder.path().join(link)).expect("it is a link");
        assert_eq!(there, Path::new(to));
    }
    let names = ["empty", "fixes", "h", "link", "loop", "shelf"];
    assert_eq!(folder.names(), names);
}

/// As many as the system follows.
#[test]
fn forty_links_are_followed() {
    let folder = Folder::with_h();
    fs::rename(folder.path().join("h"), folder.path().join("0")).expect("it is ours");
    for k in 1..=40 {
        let link = folder.path().join(k.to_string());
        symlink((k - 1).to_string(), link).expect("a link");
    }
    let ran = folder.run_line("age --tolerance 12 40");
    assert_eq!(ran.status, Some(0), "{}", ran.err);
    assert_eq!(folder.get("0"), trail_h_at_12());
}

#[test]
fn a_file_with_several_names_is_told() {
    let folder = Folder::with_h();
    fs::hard_link(folder.path().join("h"), folder.path().join("other")).expect("a link");
    let told = "h: the file had 2 names; under the others it stays as it was\n";
    let ran = folder.run(&AGE_H);
    let what = (ran.status, ran.text(), ran.err.as_str());
    assert_eq!(what, (Some(0), AGED_H, told));
    assert_eq!(folder.get("h"), trail_h_at_12());
    assert_eq!(folder.get("other"), trail_h());
    folder
        .run(&AGE_H)
        .says("h: kept 3 of 3 fixes, measured 1, mark 12 cm, freed 0 bytes\n");
}

/// Outputs that are inputs, or a trail: `"$@"` is the command. `link` and `same` are other names of h, and `fixes` stands for
/// every text.
const OVER: [&str; 16] = [
    "\"$@\" plot h -o h",
    "\"$@\" plot h -o link",
    "\"$@\" plot h -o ./same --force",
    "\"$@\" plot t --original h -o h --force",
    "\"$@\" plot - -o h --force < h",
    "\"$@\" plot t -o h",
    "\"$@\" write fixes -o fixes",
    "\"$@\" write - -o fixes < fixes",
    "\"$@\" age --days 7 h -o h",
    "\"$@\" age --days 7 h -o same",
    "\"$@\" age --days 7 - -o link < h",
    "\"$@\" age --days 7 h -o - >> h",
    "\"$@\" age --days 7 h -o /dev/stdout >> h",
    "\"$@\" age --days 7 t -o h >> h",
    "\"$@\" age --days 7 t --table fixes -o fixes",
    "\"$@\" age --days 7 t --table - -o fixes < fixes",
];

#[test]
fn an_output_that_is_an_input_is_wrong_usage() {
    let folder = Folder::with_h();
    folder.put("t", trail_h());
    folder.put("fixes", "1 2 3");
    fs::hard_link(folder.path().join("h"), folder.path().join("same")).expect("a link");
    symlink("h", folder.path().join("link")).expect("a link");
    for line in OVER {
        let ran = folder.run_in_shell(line, &[]);
        assert_eq!(ran.status, Some(2), "{line}: {}", ran.err);
        assert_eq!(ran.err.lines().count(), 1, "{line}: {}", ran.err);
        assert_eq!(folder.get("h"), trail_h(), "{line}");
        assert_eq!(folder.get("fixes"), b"1 2 3", "{line}");
    }
    // where a person may mean it
    folder.run_line("plot h -o t --force").says("");
    assert!(folder.get("t").starts_with(b"<svg "));
    folder.run_line("write fixes -o fixes --force").says("");
    assert_eq!(folder.get("fixes").len(), 18);
}

/// The standard output by its other names is added to as by `-`, and another open file is told to have a name.
#[test]
fn open_files_are_not_replaced() {
    let folder = Folder::with_h();
    folder.put("fixes", "0 0 0\n10 20 0\n20 20 0\n30 0 0\n");
    for name in ["/dev/stdout", "/dev/fd/1", "/proc/self/fd/1"] {
        folder.put("log", "before");
        let line = format!("\"$@\" write fixes -o {name} >> log; echo $?");
        folder.run_in_shell(&line, &[]).says("0\n");
        assert_eq!(folder.get("log"), [b"before", &trail_h()[..]].concat());
        let line = format!("\"$@\" write fixes -o {name} >&-");
        let ran = folder.run_in_shell(&line, &[]);
        ran.fails(3, "standard output: it is closed");
    }
    let told = "/dev/fd/4: it stands for an open file; give the file's own name, or '-'";
    for line in ["write fixes -o /dev/fd/4", "age --days 7 /dev/fd/4"] {
        let ran = folder.run_in_shell(&format!("exec 4<> h; \"$@\" {line}"), &[]);
        ran.fails(3, told);
        assert_eq!(folder.get("h"), trail_h());
    }
    // a pipe is written to
    let line = "{ \"$@\" write fixes -o /dev/fd/4 4>&1 >&3 | cat > copy; } 3>&1";
    folder.run_in_shell(line, &[]).says("");
    assert_eq!(folder.get("copy"), trail_h());
}
