//! A folder for one test, and runs of the command in it.

use std::fs;
use std::io::Write;
use std::os::unix::fs::PermissionsExt;
use std::path::{Path, PathBuf};
use std::process::{Command, Output, Stdio};
use std::sync::atomic::{AtomicUsize, Ordering};

use trails_tests::plain::kinds::{Kind, CENTIMETRES, MILLIMETRES, SILENCES};
use trails_tests::plain::{Fix, Trail};

pub const PROGRAM: &str = env!("CARGO_BIN_EXE_trail");

static FOLDERS: AtomicUsize = AtomicUsize::new(0);

/// How a run ended and what it printed.
#[derive(Debug)]
pub struct Ran {
    pub status: Option<i32>,
    pub out: Vec<u8>,
    pub err: String,
}

impl From<Output> for Ran {
    fn from(output: Output) -> Ran {
        let err = String::from_utf8(output.stderr).expect("messages are text");
        assert!(!err.contains("panicked"), "{err}");
        Ran {
            status: output.status.code(),
            out: output.stdout,
            err,
        }
    }
}

impl Ran {
    pub fn text(&self) -> &str {
        std::str::from_utf8(&self.out).expect("answers are text")
    }

    /// Its status, answers and messages.
    pub fn ended(&self) -> (Option<i32>, &str, &str) {
        (self.status, self.text(), self.err.as_str())
    }

    /// Done, with this answer and no message.
    pub fn says(&self, text: &str) {
        assert_eq!(self.ended(), (Some(0), text, ""));
    }

    /// Ended with this status and one line of message, and answered nothing.
    pub fn fails(&self, status: i32, message: &str) {
        let message = format!("{message}\n");
        assert_eq!(self.ended(), (Some(status), "", message.as_str()));
    }
}

pub struct Folder(PathBuf);

impl Drop for Folder {
    fn drop(&mut self) {
        // what stays of a failed test hurts nobody
        let _ = fs::remove_dir_all(&self.0);
    }
}

impl Folder {
    pub fn new() -> Folder {
        let number = FOLDERS.fetch_add(1, Ordering::Relaxed);
        let name = format!("trail-test-{}-{number}", std::process::id());
        let path = std::env::temp_dir().join(name);
        fs::create_dir(&path).expect("a new folder");
        Folder(path)
    }

    pub fn path(&self) -> &Path {
        &self.0
    }

    pub fn put(&self, name: &str, bytes: impl AsRef<[u8]>) {
        fs::write(self.0.join(name), bytes).expect("a file can be put there");
    }

    pub fn permit(&self, name: &str, mode: u32) {
        let mode = fs::Permissions::from_mode(mode);
        fs::set_permissions(self.0.join(name), mode).expect("it is ours");
    }

    pub fn with_h() -> Folder {
        let folder = Folder::new();
        folder.put("h", trail_h());
        folder
    }

    pub fn get(&self, name: &str) -> Vec<u8> {
        fs::read(self.0.join(name)).unwrap_or_else(|error| panic!("{name}: {error}"))
    }

    /// The names of all files, in order.
    pub fn names(&self) -> Vec<String> {
        let all = fs::read_dir(&self.0).expect("the folder can be read");
        let name = |entry: std::io::Result<fs::DirEntry>| entry.expect("an entry").file_name();
        let mut names: Vec<String> = all
            .map(|entry| name(entry).into_string().expect("a name in UTF-8"))
            .collect();
        names.sort();
        names
    }

    /// A copy of the program that every user may run. It is made by another process: a file that this one writes may
    /// still be open in what other tests have just started, and can't be run then.
    pub fn copied_program(&self) -> PathBuf {
        let program = self.0.join("program");
        let copied = Command::new("cp").arg(PROGRAM).arg(&program).status();
        assert!(copied.is_ok_and(|status| status.success()));
        self.permit("program", 0o755);
        program
    }

    pub fn run(&self, words: &[&str]) -> Ran {
        self.run_with(words, b"")
    }

    /// Runs the command with words that stand in one line.
    pub fn run_line(&self, line: &str) -> Ran {
        self.run(&line.split_whitespace().collect::<Vec<_>>())
    }

    pub fn run_with(&self, words: &[&str], input: &[u8]) -> Ran {
        let mut command = Command::new(PROGRAM);
        command.args(words);
        self.finish(&mut command, input)
    }

    /// Runs the command by a line of shell, in which `"$@"` is the command with its words.
    pub fn run_in_shell(&self, line: &str, words: &[&str]) -> Ran {
        let mut shell = Command::new("sh");
        shell.args(["-c", line, "sh", PROGRAM]).args(words);
        self.finish(&mut shell, b"")
    }

    pub fn finish(&self, command: &mut Command, input: &[u8]) -> Ran {
        let mut child = command
            .current_dir(&self.0)
            .stdin(Stdio::piped())
            .stdout(Stdio::piped())
            .stderr(Stdio::piped())
            .spawn()
            .expect("it starts");
        let mut to = child.stdin.take().expect("its input is a pipe");
        std::thread::scope(|scope| {
            // a run that doesn't read its input may hang up
            scope.spawn(move || to.write_all(input));
            Ran::from(child.wait_with_output().expect("it ends"))
        })
    }
}

fn record_of<F: Copy>(kind: Kind, fixes: &[F]) -> Vec<u8>
where
    Fix: From<F>,
{
    let fixes = fixes.iter().copied().map(Fix::from).collect();
    Trail::never_thinned(kind, fixes).bytes()
}

/// The record of some fixes in centimetres, marked never thinned.
pub fn record(fixes: &[(u32, i32, i32)]) -> Vec<u8> {
    record_of(CENTIMETRES, fixes)
}

/// The record of some fixes in millimetres, marked never thinned.
pub fn fine_record(fixes: &[(u32, i32, i32)]) -> Vec<u8> {
    record_of(MILLIMETRES, fixes)
}

/// The record of some fixes in centimetres with their silence bytes, marked never thinned.
pub fn silent_record(fixes: &[(u32, i32, i32, u8)]) -> Vec<u8> {
    record_of(SILENCES, fixes)
}

/// The same record with this mark.
fn marked(mut record: Vec<u8>, mark: u16) -> Vec<u8> {
    record[6..8].copy_from_slice(&mark.to_le_bytes());
    record
}

/// What answers about a trail that was never thinned end with.
pub const NEVER: &str = "never thinned: this is the trail as the cart reported it";

/// An aging of h, and its answer.
pub const AGE_H: [&str; 4] = ["age", "--tolerance", "12", "h"];
pub const AGED_H: &str = "h: kept 3 of 4 fixes, measured 3, mark 12 cm, freed 8 bytes\n";

/// Document 01's trail h.
pub fn trail_h() -> Vec<u8> {
    record(&[(0, 0, 0), (10, 20, 0), (20, 20, 0), (30, 0, 0)])
}

/// Trail h aged at 12, by hand.
pub fn trail_h_at_12() -> Vec<u8> {
    marked(record(&[(0, 0, 0), (10, 20, 0), (30, 0, 0)]), 12)
}

/// Trail h in millimetres, with a corner that centimetres don't have.
pub fn fine_h() -> Vec<u8> {
    fine_record(&[(0, 0, 0), (10, 204, 0), (20, 200, 0), (30, 0, 0)])
}

/// The same aged at 105, by hand: the third fix is 98 from where the chord of its neighbours has the cart.
pub fn fine_h_at_105() -> Vec<u8> {
    marked(fine_record(&[(0, 0, 0), (10, 204, 0), (30, 0, 0)]), 105)
}

/// Trail h, then silent until second 300, and then on for a stretch that bends by 15.
pub fn silent_h() -> Vec<u8> {
    silent_record(&[
        (0, 0, 0, 0),
        (10, 20, 0, 0),
        (20, 20, 0, 0),
        (30, 0, 0, 1),
        (300, 400, 90, 0),
        (310, 420, 75, 0),
        (320, 440, 90, 0),
    ])
}

/// The same aged at 12, by hand: h as without the silence, and all of what follows.
pub fn silent_h_at_12() -> Vec<u8> {
    let fixes = [
        (0, 0, 0, 0),
        (10, 20, 0, 0),
        (30, 0, 0, 1),
        (300, 400, 90, 0),
        (310, 420, 75, 0),
        (320, 440, 90, 0),
    ];
    marked(silent_record(&fixes), 12)
}
