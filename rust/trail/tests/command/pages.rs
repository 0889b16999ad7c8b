//! What is made of the helps and the options: the manual page and the completion for bash; and the version.

use std::process::Command;

use crate::folder::{Folder, PROGRAM};

/// The commands that the help lists.
fn commands(folder: &Folder) -> Vec<String> {
    let help = folder.run(&["--help"]);
    let entries = help
        .text()
        .lines()
        .filter_map(|line| line.strip_prefix("  "));
    let names = entries.filter_map(|entry| entry.split_once("  "));
    let names = names.filter(|(name, _)| name.bytes().all(|byte| byte.is_ascii_lowercase()));
    names.map(|(name, _)| name.to_string()).collect()
}

#[test]
fn the_version_is_the_packages() {
    let folder = Folder::new();
    let version = env!("CARGO_PKG_VERSION");
    let says = format!("trail {version}\nlibrary trails {version}\n");
    folder.run(&["--version"]).says(&says);
    folder.run(&["-V"]).says(&says);
    let wrong = folder.run(&["--version", "list"]);
    wrong.fails(2, "trail: --version takes no words; try 'trail --help'");
}

#[test]
fn pages_take_no_words_and_have_a_help() {
    let folder = Folder::with_h();
    for name in ["manual", "completion"] {
        let help = folder.run(&["help", name]);
        assert!(help.text().starts_with(&format!("usage: trail {name}\n")));
        assert!(help.text().lines().all(|line| line.chars().count() <= 80));
        assert!(commands(&folder).contains(&name.to_string()));
        let usage = format!("try 'trail {name} --help'");
        let what = format!("trail: {name}: it takes no words; {usage}");
        folder.run(&[name, "h"]).fails(2, &what);
        let what = format!("trail: {name}: there is no option '--json'; {usage}");
        folder.run(&[name, "--json"]).fails(2, &what);
        let full = folder.run_in_shell("\"$@\" > /dev/full", &[name]);
        assert_eq!(full.status, Some(3), "{}", full.err);
    }
}

// ---- the manual page

/// What a page looks like, and what is complained of. None if there is no groff.
fn formatted(folder: &Folder, page: &str) -> Option<String> {
    if Command::new("groff").arg("--version").output().is_err() {
        println!("groff isn't there, so the page isn't formatted");
        return None;
    }
    let mut groff = Command::new("groff");
    groff.args(["-ww", "-man", "-Tascii", "-P-cbou"]);
    let ran = folder.finish(&mut groff, page.as_bytes());
    assert_eq!((ran.status, ran.err.as_str()), (Some(0), ""));
    Some(ran.text().to_string())
}

fn in_one_line(text: &str) -> String {
    text.split_whitespace().collect::<Vec<_>>().join(" ")
}

/// Word for word, in their order, whatever the lines. A page has no colon after its usage.
#[test]
fn the_manual_has_every_help() {
    let folder = Folder::new();
    let page = folder.run(&["manual"]);
    assert_eq!((page.status, page.err.as_str()), (Some(0), ""));
    let Some(text) = formatted(&folder, page.text()) else {
        return;
    };
    assert!(text.lines().all(|line| line.chars().count() <= 80));
    let text = in_one_line(&text);
    let names = commands(&folder);
    assert!(names.len() >= 13, "{names:?}");
    for name in names {
        let help = folder.run(&["help", &name]);
        let help = in_one_line(help.text().trim_start_matches("usage: "));
        assert!(text.contains(&help), "{name}: {help}\n\n{text}");
    }
    let help = folder.run(&["help"]);
    let (usage, rest) = help.text().split_once("\n\n").expect("its usage");
    assert!(text.contains(&in_one_line(usage.trim_start_matches("usage: "))));
    assert!(text.contains(&in_one_line(rest)), "{rest}\n\n{text}");
}

/// The page's own lines alone are requests, and its signs are those that a shell takes.
#[test]
fn nothing_in_a_help_is_obeyed() {
    let folder = Folder::new();
    let page = folder.run(&["manual"]);
    let known = [
        ".TH", ".nh", ".ad", ".ss", ".SH", ".SS", ".PP", ".TP", ".nf", ".fi",
    ];
    for line in page.text().lines() {
        assert!(!line.starts_with('\''), "{line}");
        let request = line.split(' ').next().unwrap_or_default();
        assert!(
            !request.starts_with('.') || known.contains(&request),
            "{line}"
        );
    }
    // a backslash of the help's own, and options that can be copied
    assert!(page.text().contains("\\eudc80"));
    assert!(page.text().contains("\\-\\-json"));
}

// ---- the completion

/// What bash completes the last of these words to, and whether it then goes on to names of files. It has put an option's
/// `=` into a word of its own.
fn completed(words: &[&str]) -> (Vec<String>, bool) {
    let folder = Folder::new();
    let script = r#"
        set -u
        program=$1; shift
        source <("$program" completion)
        files=yes
        compopt() { [[ "$*" == '+o default' ]] && files=no; }
        COMP_WORDS=(trail "$@") COMP_CWORD=$#
        _trail
        printf '%s\n' "$files" "${COMPREPLY[@]}"
    "#;
    let mut bash = Command::new("bash");
    bash.args(["-c", script, "bash", PROGRAM]).args(words);
    let ran = folder.finish(&mut bash, b"");
    assert_eq!((ran.status, ran.err.as_str()), (Some(0), ""), "{words:?}");
    let mut lines = ran.text().lines().map(str::to_string);
    let files = lines.next().expect("a line");
    let names = lines.filter(|line| !line.is_empty());
    (names.collect(), files == "yes")
}

#[test]
fn commands_are_completed() {
    let folder = Folder::new();
    let (all, files) = completed(&[""]);
    assert!(!files);
    let others = ["help", "--help", "--version"].map(str::to_string);
    assert_eq!(all, [commands(&folder), others.into()].concat());
    assert_eq!(completed(&["che"]).0, ["check"]);
    assert_eq!(completed(&["--v"]).0, ["--version"]);
    assert_eq!(completed(&["help", "che"]).0, ["check"]);
    assert_eq!(completed(&["help", ""]).0, commands(&folder));
    assert_eq!(completed(&["zzz"]), (Vec::new(), false));
}

/// Those that the usage has, and none that the help doesn't say.
#[test]
fn options_are_those_of_the_command() {
    let folder = Folder::new();
    for name in commands(&folder) {
        let help = folder.run(&["help", &name]);
        let (usage, _) = help.text().split_once("\n\n").expect("its usage");
        let (options, _) = completed(&[&name, "-"]);
        let used = usage.split(|c: char| c.is_whitespace() || "[]()|".contains(c));
        for option in used.filter(|word| word.starts_with('-')) {
            assert!(options.iter().any(|one| one == option), "{name} {option}");
        }
        let told = |option: &String| option == "--help" || help.text().contains(option.as_str());
        assert!(options.iter().all(told), "{name}: {options:?}");
    }
    assert_eq!(completed(&["age", "--t"]).0, ["--tolerance", "--table"]);
    assert_eq!(completed(&["list", "--t"]).0, [""; 0]);
    assert_eq!(completed(&["zzz", "-"]).0, [""; 0]);
    // each is given once
    assert_eq!(completed(&["age", "--json", "--j"]).0, [""; 0]);
    assert_eq!(
        completed(&["age", "h", "--tolerance", "5", "--t"]).0,
        ["--table"]
    );
}

#[test]
fn files_are_completed_and_numbers_are_not() {
    let files = (Vec::new(), true);
    let nothing = (Vec::new(), false);
    for words in [
        &["list", ""][..],
        &["age", "--table", ""],
        &["age", "--table", "=", "ha"],
        &["age", "--tolerance", "5", ""],
        &["cross", "--box", "1", "-2", "3", "4", ""],
        &["cross", "--box", "=", "1,2,3,4", ""],
        &["write", "-o", ""],
        &["list", "--", "-"],
        &["list", "--", "--json", "-"],
    ] {
        assert_eq!(completed(words), files, "{words:?}");
    }
    for words in [
        &["age", "--tolerance", ""][..],
        &["age", "--tolerance", "=", ""],
        &["age", "--tolerance", "="],
        &["cross", "--box", "1", "-2", "3", ""],
        &["cross", "--box", "1", "-2", "3", "-"],
        &["cross", "--box", "=", "1,2"],
        &["cross", "h", "--window", "0", ""],
        &["list", "--epoch", ""],
    ] {
        assert_eq!(completed(words), nothing, "{words:?}");
    }
    assert_eq!(
        completed(&["plot", "--zoom", "b"]),
        (vec!["box".to_string()], false)
    );
    assert_eq!(
        completed(&["plot", "--zoom", ""]).0,
        ["window", "box", "point"]
    );
    assert_eq!(completed(&["plot", "--zoom", "box", ""]), files);
    // an option ends the values of the one before
    let (options, _) = completed(&["cross", "--box", "1", "--json", "--w"]);
    assert_eq!(options, ["--window", "--within"]);
    let (options, _) = completed(&["cross", "--box", "=", "1,2,3,4", "--w"]);
    assert_eq!(options, ["--window", "--within"]);
}
