//! A new file beside the one whose name it is to get.

use std::ffi::OsStr;
use std::fs::{self, File, Metadata, OpenOptions, Permissions};
use std::io::{self, ErrorKind};
use std::os::unix::ffi::OsStrExt;
use std::os::unix::fs::{fchown, MetadataExt, OpenOptionsExt, PermissionsExt};
use std::path::{Path, PathBuf};

use trails::interface::system;

/// Permissions of a file that its owner alone reads and writes.
pub const OWNER: u32 = 0o600;

/// The folder that a file is in.
pub fn folder(path: &Path) -> &Path {
    match path.parent() {
        Some(parent) if parent.as_os_str().is_empty() => Path::new("."),
        Some(parent) => parent,
        None => path,
    }
}

/// A new file beside another, which is removed unless it gets the other's name.
pub struct Beside {
    path: PathBuf,
    pub file: File,
    named: bool,
}

impl Drop for Beside {
    fn drop(&mut self) {
        if !self.named {
            // what can't be removed stays beside a trail that is whole
            let _ = fs::remove_file(&self.path);
        }
        // Without this a power cut may bring the old file back, whole. So if a disk can't do it, nothing is lost.
        let _ = File::open(folder(&self.path)).and_then(|folder| folder.sync_all());
    }
}

impl Beside {
    /// `NAME.tmp-PROCESS`, or with a further number if an interrupted run has left one. It is its owner's alone, and
    /// stays so until `permit`: who opens a file may read all that is written to it later.
    pub fn create(path: &Path) -> io::Result<Beside> {
        let name = path.file_name();
        let name = name.ok_or_else(|| io::Error::other("it isn't a file's name"))?;
        // a name has at most 255 bytes
        let start = name.as_bytes().get(..200).unwrap_or(name.as_bytes());
        let mut options = OpenOptions::new();
        options.write(true).create_new(true).mode(OWNER);
        let mut last = io::Error::from(ErrorKind::AlreadyExists);
        for k in 0..100 {
            let mut beside = OsStr::from_bytes(start).to_os_string();
            beside.push(format!(".tmp-{}", std::process::id()));
            if k > 0 {
                beside.push(format!("-{k}"));
            }
            let path = path.with_file_name(beside);
            match options.open(&path) {
                Ok(file) => return Beside::new(path, file),
                Err(error) if error.kind() == ErrorKind::AlreadyExists => last = error,
                Err(error) => return Err(error),
            }
        }
        Err(last)
    }

    /// A folder may give its new files an access list.
    fn new(path: PathBuf, file: File) -> io::Result<Beside> {
        let named = false;
        let beside = Beside { path, file, named };
        system::remove_access_list(&beside.file)?;
        Ok(beside)
    }

    /// Gives it to a group, and says whether that could be done.
    pub fn give_to_group(&self, group: u32) -> bool {
        let _ = fchown(&self.file, None, Some(group));
        let now = self.file.metadata();
        now.is_ok_and(|now| now.gid() == group)
    }

    /// Gives it another's owner and group. Only the superuser may give files away, so it may become the caller's own;
    /// but its group must stay: else strangers would read it, and colleagues wouldn't.
    pub fn give_to(&self, other: &Metadata) -> io::Result<()> {
        let _ = fchown(&self.file, Some(other.uid()), None);
        match self.give_to_group(other.gid()) {
            true => Ok(()),
            false => Err(io::Error::other("its group can't be kept")),
        }
    }

    pub fn permit(&self, mode: u32) -> io::Result<()> {
        let mode = Permissions::from_mode(mode & 0o777);
        self.file.set_permissions(mode)
    }

    pub fn rename(mut self, path: &Path) -> io::Result<()> {
        fs::rename(&self.path, path)?;
        self.named = true;
        Ok(())
    }
}

/// The shell's mask: whom new files are closed to. Where the system doesn't tell, to all but the owner.
pub fn mask() -> u32 {
    let status = fs::read_to_string("/proc/self/status").unwrap_or_default();
    let mask = status.lines().find_map(|line| line.strip_prefix("Umask:"));
    let mask = mask.and_then(|mask| u32::from_str_radix(mask.trim(), 8).ok());
    mask.unwrap_or(0o077)
}
