//! What is printed: answers on standard output, messages on standard error.

use std::io::{self, Read, Write};

use trails::interface::system;

use crate::failure::{Failure, Status};
use crate::files;
use crate::json::Json;

/// Prints all that is read, or fails.
pub fn print_all(contents: impl Read) -> Result<(), Failure> {
    if system::began_without_output() {
        return Err(Failure::Unheard("it is closed".into()));
    }
    let printed = files::behind(io::stdout()).and_then(|to| files::fill(&to, contents));
    printed.map_err(|error| Failure::Unheard(error.to_string()))
}

pub fn print(text: &str) -> Result<(), Failure> {
    print_all(text.as_bytes())
}

/// Prints an answer that programs read, on a line of its own.
pub fn print_json(answer: Json) -> Result<(), Failure> {
    print(&format!("{answer}\n"))
}

/// Tells people something. If even that fails, nobody can be told.
pub fn message(text: &str) {
    let _ = writeln!(io::stderr(), "{text}");
}

/// Tells people of a failure on standard error and, if they listen, programs on standard output.
pub fn report(failure: &Failure, json: bool) -> Status {
    message(&failure.to_string());
    let told = match failure.answer() {
        Some(answer) if json => print_json(answer),
        _ => Ok(()),
    };
    match told {
        Ok(()) => failure.status(),
        Err(unheard) => {
            message(&unheard.to_string());
            unheard.status()
        }
    }
}
