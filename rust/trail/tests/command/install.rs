//! `./install`: into empty folders, and what is there then used without the source tree.

use std::fs;
use std::os::unix::fs::PermissionsExt;
use std::path::{Path, PathBuf};
use std::process::Command;

use trails_tests::programs::project;

use crate::folder::{fine_h, silent_h, trail_h, Folder, Ran};

/// The version's three numbers, and the two that say the interface.
const VERSION: &str = env!("CARGO_PKG_VERSION");
const INTERFACE: &str = concat!(
    env!("CARGO_PKG_VERSION_MAJOR"),
    ".",
    env!("CARGO_PKG_VERSION_MINOR")
);

/// Runs a script in a folder, with these words.
fn sh(folder: &Folder, script: &str, words: &[&Path]) -> Ran {
    let mut shell = Command::new("sh");
    shell.args(["-euc", script, "sh"]).args(words);
    finished(folder, &mut shell)
}

/// Runs a command in a folder without what the caller's environment may say of other installations.
fn finished(folder: &Folder, command: &mut Command) -> Ran {
    let command = command.env_remove("DESTDIR").env_remove("TRAILS_LIBRARY");
    folder.finish(command, b"")
}

fn done(ran: &Ran) {
    assert_eq!(ran.status, Some(0), "{}\n{}", ran.text(), ran.err);
}

/// Whether a program is there; if not, that is said.
fn is_there(program: &str) -> bool {
    let found = Command::new(program).arg("--version").output().is_ok();
    if !found {
        println!("{program} isn't there, so what needs it isn't tried");
    }
    found
}

/// Runs the script with these words, from a folder, in which relative names are.
fn install(folder: &Folder, words: &[&str]) -> Ran {
    let mut command = Command::new(project().join("install"));
    // a shell that looks for folders elsewhere too prints where it found them
    let command = command.env("CDPATH", project());
    finished(folder, command.args(words))
}

/// An installation, moved after it was made, so that nothing can hang on its first place.
fn installed(folder: &Folder) -> PathBuf {
    done(&install(folder, &["first"]));
    let moved = folder.path().join("a moved prefix");
    fs::rename(folder.path().join("first"), &moved).expect("it can be moved");
    moved
}

/// All files below a folder but folders, by their names from there, in order.
fn files(below: &Path) -> Vec<String> {
    let mut found = Vec::new();
    let mut folders = vec![below.to_path_buf()];
    while let Some(folder) = folders.pop() {
        let entries = fs::read_dir(&folder).expect("it can be read");
        let paths = entries.map(|entry| entry.expect("an entry").path());
        let (inner, plain): (Vec<_>, Vec<_>) =
            paths.partition(|path| path.is_dir() && !path.is_symlink());
        folders.extend(inner);
        found.extend(plain);
    }
    let name = |path: PathBuf| path.strip_prefix(below).expect("it is below").to_path_buf();
    let names = found.into_iter().map(name);
    let mut names: Vec<String> = names.map(|name| name.display().to_string()).collect();
    names.sort();
    names
}

/// What is installed, but for the sources of the package for Rust.
fn expected() -> Vec<String> {
    let sources = files(&project().join("rust/trails/src"));
    let sources = sources
        .iter()
        .map(|name| format!("share/trails/rust/src/{name}"));
    let mut all = vec![
        "bin/trail".to_string(),
        "include/trails.h".into(),
        "lib/libtrails.a".into(),
        "lib/libtrails.so".into(),
        format!("lib/libtrails.so.{INTERFACE}"),
        format!("lib/libtrails.so.{VERSION}"),
        "lib/pkgconfig/trails.pc".into(),
        "share/bash-completion/completions/trail".into(),
        "share/man/man1/trail.1".into(),
        "share/trails/python/trails.py".into(),
        "share/trails/rust/Cargo.toml".into(),
        "share/trails/rust/build.rs".into(),
        "share/trails/rust/libtrails.a".into(),
    ];
    all.extend(sources);
    all.sort();
    all
}

/// Whatever the umask: all may read all files and enter all folders, and run what is a program.
#[test]
fn each_file_is_there_for_everybody() {
    let folder = Folder::new();
    let ran = sh(
        &folder,
        "umask 077; exec \"$1\" 'new/a prefix'",
        &[&project().join("install")],
    );
    done(&ran);
    let prefix = folder.path().join("new/a prefix");
    assert_eq!(files(&prefix), expected());
    let start = format!("{}/", prefix.display());
    let mut named: Vec<&str> = ran.text().lines().collect();
    named.sort_unstable();
    let want: Vec<String> = expected()
        .iter()
        .map(|name| format!("{start}{name}"))
        .collect();
    assert_eq!(named, want);
    for name in expected() {
        let mode = fs::metadata(prefix.join(&name))
            .expect("it is there")
            .permissions();
        let program = name == "bin/trail" || name.contains(".so");
        let want = if program { 0o755 } else { 0o644 };
        assert_eq!(mode.mode() & 0o7777, want, "{name}");
    }
    for name in ["", "lib/pkgconfig", "share/trails/rust/src"] {
        let mode = fs::metadata(prefix.join(name))
            .expect("it is there")
            .permissions();
        assert_eq!(mode.mode() & 0o7777, 0o755, "{name}");
    }
}

#[test]
fn a_second_run_replaces_the_first() {
    let folder = Folder::new();
    done(&install(&folder, &["prefix"]));
    let prefix = folder.path().join("prefix");
    fs::write(prefix.join("bin/trail"), "old").expect("it is ours");
    fs::remove_file(prefix.join("lib/libtrails.so")).expect("it is ours");
    fs::write(prefix.join("lib/libtrails.so"), "old").expect("it is ours");
    done(&install(&folder, &["prefix"]));
    assert_eq!(files(&prefix), expected());
    let to = fs::read_link(prefix.join("lib/libtrails.so")).expect("a link");
    assert_eq!(to, Path::new(&format!("libtrails.so.{INTERFACE}")));
    done(&sh(&folder, "prefix/bin/trail --version", &[]));
}

/// It keeps its file: a new one has taken the name.
#[test]
fn a_command_that_runs_is_not_disturbed() {
    let folder = Folder::with_h();
    done(&install(&folder, &["prefix"]));
    let script = "mkfifo input; prefix/bin/trail list - < input > listing & exec 3> input
        \"$1\" prefix > names; cat h >&3; exec 3>&-; wait $!; cat listing";
    let ran = sh(&folder, script, &[&project().join("install")]);
    done(&ran);
    assert!(ran.text().starts_with("trail 4 never\n"), "{}", ran.text());
}

/// The names are printed when all is there.
#[test]
fn a_reader_that_hangs_up_stops_nothing() {
    let folder = Folder::new();
    let install = project().join("install");
    done(&sh(&folder, "\"$1\" prefix | true", &[&install]));
    assert_eq!(files(&folder.path().join("prefix")), expected());
}

#[test]
fn a_package_is_made_below_destdir() {
    let folder = Folder::new();
    let script =
        "DESTDIR=$PWD/stage \"$1\" /usr/local; DESTDIR=relative \"$1\" /usr/ > names; cat names";
    let ran = sh(&folder, script, &[&project().join("install")]);
    done(&ran);
    assert_eq!(files(&folder.path().join("stage/usr/local")), expected());
    assert_eq!(files(&folder.path().join("relative/usr")), expected());
    assert!(ran.text().contains("\n/usr/bin/trail\n"), "{}", ran.text());
}

#[test]
fn wrong_words_install_nothing() {
    let folder = Folder::new();
    for (words, what) in [
        (&[][..], "it takes one folder"),
        (&["a", "b"], "it takes one folder"),
        (&[""], "the folder has no name"),
        (&["--prefix"], "there is no option '--prefix'"),
    ] {
        let message = format!("install: {what}; try './install --help'");
        install(&folder, words).fails(2, &message);
    }
    let help = install(&folder, &["--help"]);
    assert_eq!((help.status, help.err.as_str()), (Some(0), ""));
    assert!(help.text().starts_with("usage: ./install PREFIX\n"));
    assert!(help.text().lines().all(|line| line.chars().count() <= 80));
    folder.put("file", "mine");
    assert_eq!(install(&folder, &["file"]).status, Some(1));
    assert_eq!(folder.get("file"), b"mine");
    assert_eq!(folder.names(), ["file"]);
}

/// A folder with the script alone is a tree in which nothing was built.
#[test]
fn a_missing_archive_says_what_to_run() {
    let folder = Folder::new();
    let script = "cp \"$1\" install; ./install prefix";
    let ran = sh(&folder, script, &[&project().join("install")]);
    ran.fails(
        1,
        "install: target/staticlib/libexport.a, the archive of the proved functions, isn't there: run './demo', which \
         proves and builds everything, or './build'",
    );
    assert_eq!(folder.names(), ["install"]);
}

// ---- the command

const EVERY_KIND: &str = r#"
    PATH=$1/bin:$PATH
    trail --version
    for kind in cm mm gap; do
        trail check --epoch 06:00:00 $kind
        trail list $kind > $kind.list
        trail list --csv --epoch 06:00:00 $kind > $kind.csv
        trail list --geojson $kind > $kind.geojson
        trail list --json $kind
        trail place $kind 5
        trail cross $kind --box 0 9 -1 1 --window 0 30
        trail cross $kind --box 0 9 -1 1 --within --all --epoch 06:00:00
        trail near $kind --point 0 5 --radius 5
        echo 'tolerance 5' | trail replay $kind - > $kind.replay
        trail plot $kind -o $kind.svg
        trail age --dry-run --days 7 $kind
        trail age --days 7 $kind -o $kind.aged
        trail plot $kind.aged --original $kind --epoch 06:00:00 -o $kind.aged.svg
        trail write --split --epoch 06:00:00 $kind.csv -o $kind.again
        cmp $kind $kind-001.again
    done
    trail write cm.list -o cm.again
    trail write --millimetres mm.list -o mm.again
    trail write gap.list -o gap.again
    for kind in cm mm gap; do cmp $kind $kind.again; done
    trail place cm mm gap 30 --within 2> place.err
    trail cross cm mm gap --box 0 9 -1 1 --within 2> cross.err
    trail near cm mm gap --point 0 5 --radius 5 2> near.err
    trail age --tolerance 5 cm mm gap -o aged/ 2> age.err
    trail write cm.csv mm.csv gap.csv --epoch 06:00:00 -o again/ 2> write.err
    for kind in cm mm gap; do cmp $kind again/$kind.trail; done
    trail plot cm gap --box 0 9 -1 1 --window 10 300 --within -o both.svg
    trail dearest 64 -o dear
    trail table > table
    trail completion | cmp - "$1/share/bash-completion/completions/trail"
    trail manual | cmp - "$1/share/man/man1/trail.1"
    bash -c 'source "$1" && complete -p trail' bash "$1/share/bash-completion/completions/trail"
"#;

/// The installed command with every kind of record, through each command that takes one.
#[test]
fn the_command_takes_every_kind() {
    let folder = Folder::new();
    let prefix = installed(&folder);
    for (name, record) in [("cm", trail_h()), ("mm", fine_h()), ("gap", silent_h())] {
        folder.put(name, record);
    }
    let ran = sh(&folder, EVERY_KIND, &[&prefix]);
    done(&ran);
    let version = format!("trail {VERSION}\nlibrary trails {VERSION}\n");
    assert!(ran.text().starts_with(&version), "{}", ran.text());
    let end = "complete -o default -F _trail trail\n";
    assert!(ran.text().ends_with(end), "{}", ran.text());
}

#[test]
fn the_manual_page_is_shown() {
    let folder = Folder::new();
    let prefix = installed(&folder);
    if !is_there("man") {
        return;
    }
    let script = "MANWIDTH=80 man --warnings -l \"$1\"";
    let ran = sh(&folder, script, &[&prefix.join("share/man/man1/trail.1")]);
    // some systems have a man that only says that there are no pages
    if !ran.text().contains("TRAIL(1)") {
        println!("man shows no pages here");
        return;
    }
    assert_eq!((ran.status, ran.err.as_str()), (Some(0), ""));
    assert!(ran.text().contains("\nSYNOPSIS\n"), "{}", ran.text());
}

// ---- C

/// How a C program is compiled: by pkg-config if it is there, and else by the folders.
const COMPILE: &str = r#"
    if pkg-config --version > /dev/null 2>&1; then
        export PKG_CONFIG_PATH="$1/lib/pkgconfig"
        eval "set -- \"\$1\" $(pkg-config --cflags --libs trails)"
    else
        set -- "$1" "-I$1/include" "-L$1/lib" -ltrails
    fi
    prefix=$1; shift
    compile() { ${CC:-cc} -std=c99 -Wall -Wextra -Wpedantic -Werror "$@"; }
"#;

#[test]
fn a_c_program_is_linked_with_the_prefix_alone() {
    let folder = Folder::new();
    let prefix = installed(&folder);
    let examples = project().join("examples");
    folder.put(
        "cart.c",
        fs::read(examples.join("cart.c")).expect("it is there"),
    );
    let stored = fs::read_to_string(examples.join("cart.out")).expect("it is stored");
    let shared = r#"compile cart.c "$@" -o cart; LD_LIBRARY_PATH="$prefix/lib" ./cart"#;
    let ran = sh(&folder, &format!("{COMPILE}{shared}"), &[&prefix]);
    ran.says(&stored);
    let fixed =
        r#"compile cart.c -I "$prefix/include" "$prefix/lib/libtrails.a" -o fixed; ./fixed"#;
    let ran = sh(&folder, &format!("{COMPILE}{fixed}"), &[&prefix]);
    ran.says(&stored);
}

/// Without optimising too, in the other languages that read the header.
#[test]
fn the_header_is_for_other_standards_too() {
    let folder = Folder::new();
    let prefix = installed(&folder);
    let source = "#include <trails.h>
#include <stdio.h>
#define PRINT(name, number, sentence) puts(sentence);
int main(void) {
    TRAILS_REFUSALS(PRINT)
    puts(trails_sentence(TRAILS_BAD_BOX));
    return trails_check((const uint8_t *)\"\", 0).refusal == TRAILS_FEW_BYTES ? 0 : 1;
}
";
    folder.put("own.c", source);
    folder.put("own.cpp", source);
    let compile = r#"
        warn='-Wall -Wextra -Wpedantic -Werror'
        for std in c99 c11; do
            ${CC:-cc} -O0 -std=$std $warn own.c -I "$1/include" "$1/lib/libtrails.a" -o own; ./own > $std
        done
        cp c11 c++98; cp c11 c++17
        if c++ --version > /dev/null 2>&1; then
            for std in c++98 c++17; do
                c++ -O0 -std=$std $warn own.cpp -I "$1/include" "$1/lib/libtrails.a" -o own; ./own > $std
            done
        fi
        cmp c99 c11; cmp c99 c++98; cmp c99 c++17; cat c99
    "#;
    let ran = sh(&folder, compile, &[&prefix]);
    done(&ran);
    assert_eq!(ran.text().lines().count(), 24, "{}", ran.text());
}

/// The functions that the header declares.
fn declared(header: &str) -> Vec<String> {
    let lines = header
        .lines()
        .filter(|line| !line.starts_with([' ', '#', '/']));
    let calls = lines.filter_map(|line| line.split_once('('));
    let names = calls.filter_map(|(before, _)| before.rsplit([' ', '*']).next());
    let mut names: Vec<String> = names.map(str::to_string).collect();
    names.sort();
    names
}

#[test]
fn the_shared_library_has_its_name_and_shows_the_header_alone() {
    let folder = Folder::new();
    let prefix = installed(&folder);
    let library = prefix.join("lib/libtrails.so");
    if !is_there("readelf") || !is_there("nm") {
        return;
    }
    let script = "readelf -dW \"$1\"; readelf -lW \"$1\"";
    let ran = sh(&folder, script, &[&library]);
    let soname = format!("soname: [libtrails.so.{INTERFACE}]");
    assert!(ran.text().contains(&soname), "{}", ran.text());
    assert!(ran.text().contains("BIND_NOW"), "{}", ran.text());
    assert!(ran.text().contains("GNU_RELRO"), "{}", ran.text());
    let stack = ran.text().lines().find(|line| line.contains("GNU_STACK"));
    assert!(stack.is_some_and(|line| line.contains(" RW ")), "{stack:?}");
    let ran = sh(&folder, "nm -D --defined-only -P \"$1\"", &[&library]);
    let shown = ran.text().lines().filter_map(|line| line.split(' ').next());
    let header = fs::read_to_string(prefix.join("include/trails.h")).expect("it is there");
    assert_eq!(shown.collect::<Vec<_>>(), declared(&header));
}

// ---- Rust and Python

const RUST_PROGRAM: &str = r#"
use trails::{Fix, MillimetreFix, SilenceFix};

fn main() -> Result<(), trails::Refusal> {
    let fix = |t, x| Fix { t, x, y: 0 };
    let fine = |t, x| MillimetreFix { t, x, y: 0 };
    let silent = |t, x, silence| SilenceFix { t, x, y: 0, silence };
    let records = [
        trails::write(&[fix(0, 0), fix(10, 9), fix(20, 20)])?,
        trails::write(&[fine(0, 0), fine(10, 9), fine(20, 20)])?,
        trails::write(&[silent(0, 0, false), silent(10, 9, true), silent(20, 20, false)])?,
    ];
    for mut record in records {
        trails::age(&mut record, 5)?;
        print!("{}", trails::list(&record)?);
    }
    println!("{}", trails::VERSION);
    Ok(())
}
"#;

/// A Rust program in a folder of its own, which depends on a package there.
fn rust_program(folder: &Folder, package: &Path) -> Ran {
    let source = folder.path().join("cart/src");
    fs::create_dir_all(&source).expect("a folder");
    let manifest = format!(
        "[package]\nname = \"cart\"\nversion = \"1.0.0\"\nedition = \"2021\"\n\n\
         [dependencies]\ntrails = {{ path = '{}' }}\n",
        package.display()
    );
    folder.put("cart/Cargo.toml", manifest);
    folder.put("cart/src/main.rs", RUST_PROGRAM);
    let script = "cd cart; CARGO_TARGET_DIR=$PWD/target cargo run --quiet --offline";
    sh(folder, script, &[])
}

#[test]
fn a_rust_program_depends_on_the_prefix_alone() {
    let folder = Folder::new();
    let prefix = installed(&folder);
    let both = "fix 0 0 0\nfix 20 20 0\nend\n";
    let silent = "fix 0 0 0\nfix 10 9 0 silence\nfix 20 20 0\nend\n";
    let want = format!("trail 2 5\n{both}trail 2 5\n{both}trail 3 5\n{silent}{VERSION}\n");
    rust_program(&folder, &prefix.join("share/trails/rust")).says(&want);
}

#[test]
fn a_rust_package_without_its_archive_says_what_to_run() {
    let folder = Folder::new();
    let package = installed(&folder).join("share/trails/rust");
    fs::remove_file(package.join("libtrails.a")).expect("it is ours");
    let ran = rust_program(&folder, &package);
    assert_eq!(ran.status, Some(101), "{}", ran.text());
    let lines: Vec<&str> = ran.err.lines().map(str::trim).collect();
    let said = lines.join(" ");
    let what = "The archive of the proved functions isn't there. In the source tree, run './build', which proves \
                everything first.";
    assert!(said.contains(what), "{}", ran.err);
}

/// The module's own tests, beside nothing of the tree.
#[test]
fn a_python_program_needs_the_prefix_alone() {
    let folder = Folder::new();
    let prefix = installed(&folder);
    if !is_there("python3") {
        return;
    }
    let tests = fs::read(project().join("python/test_trails.py")).expect("it is there");
    folder.put("test_trails.py", tests);
    let script =
        "PYTHONDONTWRITEBYTECODE=1 PYTHONPATH=\"$1\" python3 -W error -m unittest test_trails";
    let ran = sh(&folder, script, &[&prefix.join("share/trails/python")]);
    done(&ran);
    assert!(ran.err.trim_end().ends_with("\nOK"), "{}", ran.err);
}
