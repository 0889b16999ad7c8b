//! Files that are stored: there is always a whole one, the old or the new, no change of somebody else's is lost, and
//! nobody reads a file who couldn't before.

use std::ffi::OsStr;
use std::fs::{self, File, Metadata, OpenOptions, TryLockError};
use std::io::{self, ErrorKind, Read};
use std::os::unix::fs::{FileExt, MetadataExt};
use std::path::{Path, PathBuf};
use std::thread;
use std::time::{Duration, Instant};

use trails::interface::system;

use crate::beside::{folder, mask, Beside, OWNER};
use crate::failure::Failure;
use crate::files::{are_one, failed, fill, input, open};
use crate::{output, words};

/// How long a run waits for others that age the same file. Each takes some milliseconds.
const PATIENCE: Duration = Duration::from_secs(10);

/// Permissions of a file that everybody reads and writes, and of one that everybody reads.
const ALL: u32 = 0o666;
const READ_BY_ALL: u32 = 0o444;

/// The file that a name leads to through links, whether or not it is there, so that a link stays a link.
fn target(name: &OsStr) -> io::Result<PathBuf> {
    let mut path = PathBuf::from(name);
    // as many links as Linux follows
    for _ in 0..=40 {
        // no link, or nothing there
        let Ok(next) = fs::read_link(&path) else {
            return Ok(path);
        };
        let at = folder(&path);
        if fs::canonicalize(at)?.starts_with("/proc") {
            let what = "it stands for an open file; give the file's own name, or '-'";
            return Err(io::Error::other(what));
        }
        path = at.join(next);
    }
    Err(io::Error::other("its links lead nowhere"))
}

/// Whether a file can be replaced. A folder and a pipe can't, and opening a pipe might wait for ever.
pub fn is_plain(name: &OsStr) -> io::Result<()> {
    match fs::metadata(name)?.is_file() {
        true => Ok(()),
        false => Err(io::Error::other("it isn't a plain file")),
    }
}

/// A plain file that is to be replaced. It is locked against other runs of this command, from before it is read until
/// it is replaced or let go.
pub struct Locked {
    path: PathBuf,
    pub file: File,
    before: Metadata,
    list: Option<Vec<u8>>,
}

impl Locked {
    /// Locks a file that is to be read and replaced. It is opened to be written, although it won't be: who protects a
    /// trail from writing protects it from aging.
    pub fn read(name: &OsStr) -> Result<Locked, Failure> {
        let mut options = OpenOptions::new();
        Locked::open(name, options.read(true).write(true)).map_err(failed(name))
    }

    fn open(name: &OsStr, options: &OpenOptions) -> io::Result<Locked> {
        is_plain(name)?;
        let path = target(name)?;
        let patience = Instant::now() + PATIENCE;
        loop {
            let file = options.open(&path)?;
            lock(&file, patience)?;
            let before = file.metadata()?;
            // the run that had the lock may have put a new file in the place of the one that was opened
            if are_one(&before, &fs::metadata(&path)?) {
                return Ok(Locked {
                    list: system::access_list(&file)?,
                    path,
                    file,
                    before,
                });
            }
            if Instant::now() > patience {
                return Err(io::Error::other("somebody else goes on replacing it"));
            }
        }
    }

    /// Puts a new file in the old one's place, which must still begin with what the caller has read of it.
    pub fn replace(&self, name: &OsStr, was: &[u8], contents: impl Read) -> Result<(), Failure> {
        self.put(was, contents).map_err(failed(name))?;
        let names = self.before.nlink();
        if names > 1 {
            let name = words::shown(name);
            output::message(&format!(
                "{name}: the file had {names} names; under the others it stays as it was"
            ));
        }
        Ok(())
    }

    fn put(&self, was: &[u8], contents: impl Read) -> io::Result<()> {
        let beside = Beside::create(&self.path)?;
        beside.give_to(&self.before)?;
        fill(&beside.file, contents)?;
        match &self.list {
            Some(list) => system::set_access_list(&beside.file, list)?,
            None => beside.permit(self.before.mode())?,
        }
        beside.file.sync_all()?;
        self.unchanged(was)?;
        beside.rename(&self.path)
    }

    /// Fails if somebody who asks for no lock has changed the file meanwhile, or who may read it.
    fn unchanged(&self, was: &[u8]) -> io::Result<()> {
        let state = |of: &Metadata| {
            let access = (of.mode(), of.uid(), of.gid(), of.nlink());
            let changed = (of.mtime(), of.mtime_nsec(), of.ctime(), of.ctime_nsec());
            (of.dev(), of.ino(), of.len(), access, changed)
        };
        let same = state(&fs::metadata(&self.path)?) == state(&self.before);
        // the clock of a disk may stand still between two changes
        let mut now = vec![0; was.len()];
        let read = self.file.read_exact_at(&mut now, 0).is_ok();
        let same_list = system::access_list(&self.file)? == self.list;
        match same && same_list && read && now == was {
            true => Ok(()),
            false => Err(io::Error::other("somebody else has changed it meanwhile")),
        }
    }
}

/// Waits for the lock, but not for ever: anybody who may read the file may hold it.
fn lock(file: &File, patience: Instant) -> io::Result<()> {
    loop {
        match file.try_lock() {
            Ok(()) => return Ok(()),
            Err(TryLockError::Error(error)) => return Err(error),
            Err(TryLockError::WouldBlock) if Instant::now() < patience => {
                thread::sleep(Duration::from_millis(1));
            }
            Err(TryLockError::WouldBlock) => {
                return Err(io::Error::other("somebody else has locked it"));
            }
        }
    }
}

/// Stores a file, new or not, or prints it if its name is `-`. The sources are what it is made of.
pub fn store(name: &OsStr, sources: &[&OsStr], contents: impl Read) -> Result<(), Failure> {
    if name == "-" {
        return output::print_all(contents);
    }
    let stored = match fs::metadata(name) {
        Ok(there) if there.is_file() => {
            let mut options = OpenOptions::new();
            let locked = Locked::open(name, options.write(true)).map_err(failed(name))?;
            return locked.replace(name, &[], contents);
        }
        // a device or a pipe takes the bytes and can't be replaced
        Ok(_) => OpenOptions::new()
            .write(true)
            .open(name)
            .and_then(|to| fill(&to, contents)),
        Err(error) if error.kind() == ErrorKind::NotFound => {
            target(name).and_then(|path| create(&path, sources, contents))
        }
        Err(error) => Err(error),
    };
    stored.map_err(failed(name))
}

/// Makes a new file.
fn create(path: &Path, sources: &[&OsStr], contents: impl Read) -> io::Result<()> {
    let sources: Vec<Source> = sources
        .iter()
        .filter_map(|name| Source::of(name).transpose())
        .collect::<io::Result<_>>()?;
    let beside = Beside::create(path)?;
    fill(&beside.file, contents)?;
    let group = one_group(&sources).filter(|group| beside.give_to_group(*group));
    beside.permit(permissions(&sources, group))?;
    beside.file.sync_all()?;
    if fs::symlink_metadata(path).is_ok() {
        return Err(io::Error::other("somebody else has made it meanwhile"));
    }
    beside.rename(path)
}

/// A plain file that a new one is made of.
struct Source {
    access: Metadata,
    listed: bool,
}

impl Source {
    /// None for a pipe and the like, of which the system says nothing.
    fn of(name: &OsStr) -> io::Result<Option<Source>> {
        if !input(name).is_ok_and(|of| of.is_file()) {
            return Ok(None);
        }
        let file = open(name)?;
        Ok(Some(Source {
            access: file.metadata()?,
            listed: system::access_list(&file)?.is_some(),
        }))
    }

    fn is_for_all(&self) -> bool {
        !self.listed && self.access.mode() & READ_BY_ALL == READ_BY_ALL
    }
}

/// The group of the sources that not everybody reads, if it is one.
fn one_group(sources: &[Source]) -> Option<u32> {
    let mut closed = sources.iter().filter(|source| !source.is_for_all());
    let group = closed.next()?.access.gid();
    closed
        .all(|source| source.access.gid() == group)
        .then_some(group)
}

/// The permissions of a new file that was given to this group, if to any: nobody reads it who can't read all sources.
fn permissions(sources: &[Source], group: Option<u32>) -> u32 {
    let listed = sources.iter().any(|source| source.listed);
    let for_all = sources.iter().all(Source::is_for_all);
    let modes = sources.iter().map(|source| source.access.mode());
    let mode = modes.fold(ALL, |mode, other| mode & other) | OWNER;
    match for_all || group.is_some() && !listed {
        true => mode & !mask(),
        false => OWNER,
    }
}

#[cfg(test)]
mod tests {
    use super::*;
    use std::fs::Permissions;
    use std::os::unix::fs::PermissionsExt;

    /// Fails to replace a file after this has happened to it, and leaves nothing else in its folder.
    fn fails_after(number: u32, happens: impl FnOnce(&Path)) {
        let name = format!("trail-store-test-{}-{number}", std::process::id());
        let folder = std::env::temp_dir().join(name);
        fs::create_dir(&folder).expect("a new folder");
        let file = folder.join("t");
        fs::write(&file, "old").expect("a file");
        let locked = Locked::read(file.as_os_str()).expect("it is there");
        happens(&file);
        let state = || {
            (
                fs::read(&file).ok(),
                fs::metadata(&file).map(|of| of.mode()).ok(),
            )
        };
        let there = state();
        let replaced = locked.replace(file.as_os_str(), b"old", &b"aged"[..]);
        let after = state();
        let files = fs::read_dir(&folder).expect("it is there").count();
        fs::remove_dir_all(&folder).expect("it is ours");
        assert!(replaced.is_err());
        assert_eq!(after, there);
        assert!(files < 2);
    }

    #[test]
    fn what_somebody_else_has_changed_meanwhile_stays() {
        fails_after(1, |file| fs::write(file, "newer").expect("it is ours"));
        fails_after(2, |file| fs::write(file, "owl").expect("it is ours"));
        let private = Permissions::from_mode(OWNER);
        fails_after(3, |file| {
            fs::set_permissions(file, private).expect("it is ours")
        });
        fails_after(4, |file| fs::remove_file(file).expect("it is ours"));
    }
}
