//! Where what is made of files goes: one output, or a folder with a file for each.

use std::collections::HashSet;
use std::ffi::{OsStr, OsString};
use std::fs;
use std::io::{self, ErrorKind};
use std::os::unix::ffi::OsStrExt;
use std::path::Path;

use crate::arguments::Arguments;
use crate::failure::Failure;
use crate::files::{failed, Inputs};
use crate::words;

pub struct Outputs {
    /// the folder that the outputs are in, unless there is one output alone
    folder: Option<OsString>,
    /// an output for each input, in their order
    pub names: Vec<OsString>,
}

fn is_there(folder: &OsStr) -> bool {
    fs::metadata(folder).is_ok_and(|there| there.is_dir())
}

/// Whether a name is a folder's: of one that is there, or of one that isn't yet if it ends so.
fn is_folder(name: &OsStr) -> bool {
    name.as_bytes().ends_with(b"/") || name != "-" && is_there(name)
}

impl Outputs {
    /// As `-o` says. In a folder an input's output has the name that is made of the input's own.
    pub fn of(
        arguments: &Arguments,
        inputs: &[OsString],
        name: impl Fn(&Path) -> Option<OsString>,
    ) -> Result<Outputs, Failure> {
        let to = arguments.output()?;
        if inputs.len() == 1 && !is_folder(to) {
            return Ok(Outputs {
                folder: None,
                names: vec![to.to_os_string()],
            });
        }
        if to == "-" || fs::metadata(to).is_ok_and(|there| !there.is_dir()) {
            return Err(arguments.wrong("what is made of several files goes to a folder"));
        }
        let output = |input: &OsString| {
            let own = Some(Path::new(input)).filter(|_| input != "-");
            let name = own.and_then(&name).ok_or_else(|| {
                let input = words::shown(input);
                arguments.wrong(&format!("{input} has no name for a file in a folder"))
            })?;
            Ok(Path::new(to).join(name).into_os_string())
        };
        let names: Result<Vec<OsString>, Failure> = inputs.iter().map(output).collect();
        let outputs = Outputs {
            folder: Some(to.to_os_string()),
            names: names?,
        };
        outputs.all_differ(arguments)
    }

    fn all_differ(self, arguments: &Arguments) -> Result<Outputs, Failure> {
        let mut seen = HashSet::new();
        let twice = self.names.iter().find(|name| !seen.insert(*name));
        let twice = twice.map(|name| words::shown(name));
        match twice {
            Some(name) => Err(arguments.wrong(&format!("two files would become {name}"))),
            None => Ok(self),
        }
    }

    /// Makes the folder, if there is to be one and there isn't. It is called once something is there to be stored.
    pub fn make_folder(&self) -> Result<(), Failure> {
        let Some(folder) = &self.folder else {
            return Ok(());
        };
        let made = match fs::create_dir(folder) {
            Err(error) if error.kind() == ErrorKind::AlreadyExists => match is_there(folder) {
                true => Ok(()),
                false => Err(io::Error::other("it isn't a folder")),
            },
            made => made,
        };
        made.map_err(failed(folder))
    }
}

/// Wrong usage, put so, if an output is an input; or if one is the file that answers are printed to.
pub fn keep_apart(
    arguments: &Arguments,
    outputs: &[OsString],
    inputs: &Inputs,
    what: &str,
) -> Result<(), Failure> {
    if outputs.iter().any(|to| inputs.have(to)) {
        return Err(arguments.wrong(what));
    }
    let mut outputs = outputs.iter();
    outputs.try_for_each(|to| arguments.not_printed_to(to))
}
