//! Programs around the interface: the proved ones, which are run, and C ones, which are compiled first.

use std::io::{ErrorKind, Write};
use std::path::{Path, PathBuf};
use std::process::{ChildStdin, Command, Stdio};

/// The folder that has the crates, the header and what `./build` puts there.
pub fn project() -> PathBuf {
    Path::new(env!("CARGO_MANIFEST_DIR")).join("../..")
}

/// A program that `./build` puts there, or what a variable like TRAILS_LISTING names in its place.
pub fn proved(name: &str) -> PathBuf {
    let variable = format!("TRAILS_{}", name.to_uppercase());
    let built = project().join("target/bin").join(name);
    std::env::var_os(variable).map_or(built, PathBuf::from)
}

/// Sends the input in pieces. A program that has read all it wants may hang up before the end.
fn send(mut to: ChildStdin, input: &[u8], piece: usize) {
    for part in input.chunks(piece) {
        match to.write_all(part).and_then(|()| to.flush()) {
            Err(error) if error.kind() == ErrorKind::BrokenPipe => return,
            other => other.expect("the program takes its input"),
        }
    }
}

/// What a program prints, given this input in pieces.
pub fn printed(program: &Path, input: &[u8], piece: usize) -> Vec<u8> {
    let name = program.display();
    let mut child = Command::new(program)
        .stdin(Stdio::piped())
        .stdout(Stdio::piped())
        .spawn()
        .unwrap_or_else(|error| panic!("{name}: {error}; is it built?"));
    let to = child.stdin.take().expect("its input is a pipe");
    // the program may print before it has read everything, so both ends are served at once
    std::thread::scope(|scope| {
        scope.spawn(|| send(to, input, piece));
        let output = child.wait_with_output().expect("the program ends");
        assert!(output.status.success(), "{name}: {}", output.status);
        output.stdout
    })
}

/// Compiles a C program against `include/trails.h`, with every warning an error, and links the archive of the proved
/// functions and the file that stands beside them in the library. The compiler is `cc`, or what CC names.
pub fn compile(source: &Path, program: &Path) {
    let compiler = std::env::var("CC").unwrap_or_else(|_| "cc".to_string());
    let output = Command::new(&compiler)
        .args(["-std=c99", "-Wall", "-Wextra", "-Wpedantic", "-Werror"])
        .arg("-I")
        .arg(project().join("include"))
        .arg(source)
        .arg(project().join("library/trails.c"))
        .arg(project().join("target/staticlib/libexport.a"))
        .arg("-o")
        .arg(program)
        .output()
        .unwrap_or_else(|error| panic!("{compiler}: {error}"));
    let complaints = String::from_utf8_lossy(&output.stderr);
    assert!(output.status.success(), "{compiler}: {complaints}");
}
