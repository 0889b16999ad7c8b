//! `trail manual`: prints the manual page. It has the helps and nothing else, so that both always say the same.

use crate::arguments::{Arguments, Command};
use crate::failure::{Failure, Status};
use crate::output;

pub const COMMAND: Command = Command {
    name: "manual",
    help: HELP,
    options: &[],
    run,
};

const HELP: &str = "\
usage: trail manual

Prints the manual page, which has all that 'trail help' says of trail and of
each command. 'trail manual | man -l -' shows it.
";

/// What stands at the page's start: words aren't cut at a line's end, and lines and sentences keep plain spaces.
const STYLE: &str = ".nh\n.ad l\n.ss 12 0\n";

/// A character as roff prints it unchanged. A bare hyphen or quote would come out as another sign, and couldn't be
/// pasted into a shell.
fn escaped(c: char) -> String {
    match c {
        '\\' => "\\e".into(),
        '-' => "\\-".into(),
        '\'' => "\\(aq".into(),
        '`' => "\\(ga".into(),
        '^' => "\\(ha".into(),
        '~' => "\\(ti".into(),
        c => c.into(),
    }
}

/// A line of text. At its start a dot would be a request.
fn line(text: &str) -> String {
    let text: String = text.chars().map(escaped).collect();
    match text.starts_with('.') {
        true => format!("\\&{text}\n"),
        false => format!("{text}\n"),
    }
}

/// Lines that stay as they are, but for their common indent.
fn unfilled<'a>(lines: impl Iterator<Item = &'a str>, indent: usize) -> String {
    let start = |text: &'a str| text.get(indent..).unwrap_or(text.trim_start());
    let lines: String = lines.map(|text| line(start(text))).collect();
    format!(".nf\n{lines}.fi\n")
}

/// A line of an option's help: the option, maybe with what it does, or more of that.
fn of_option(text: &str) -> String {
    if !text.starts_with("  -") {
        return line(text.trim_start());
    }
    let text = text.trim_start();
    let (option, does) = text.split_once("  ").unwrap_or((text, ""));
    let option: String = option.chars().map(escaped).collect();
    match does.trim_start() {
        "" => format!(".TP\n\\fB{option}\\fR\n"),
        does => format!(".TP\n\\fB{option}\\fR\n{}", line(does)),
    }
}

/// Lines of a help without an empty one: options, or a list or an example, which are indented, or a paragraph.
fn block(text: &str) -> String {
    if text.starts_with("  -") {
        return text.lines().map(of_option).collect();
    }
    let lines = match text.starts_with(' ') {
        true => unfilled(text.lines(), 2),
        false => text.lines().map(line).collect(),
    };
    format!(".PP\n{lines}")
}

/// A help's usage, and the rest.
fn parts(help: &str) -> (String, String) {
    let (usage, rest) = help.split_once("\n\n").unwrap_or((help, ""));
    let usage = unfilled(usage.lines(), "usage: ".len());
    (usage, rest.split("\n\n").map(block).collect())
}

fn command(command: &Command) -> String {
    let (usage, rest) = parts(command.help);
    format!(".SS trail {}\n{usage}{rest}", command.name)
}

fn page() -> String {
    let version = env!("CARGO_PKG_VERSION");
    let description = env!("CARGO_PKG_DESCRIPTION");
    let (usage, rest) = parts(crate::HELP);
    let commands: String = crate::COMMANDS.iter().map(command).collect();
    format!(
        ".TH TRAIL 1 \"\" \"trail {version}\" \"Cart trails\"\n{STYLE}.SH NAME\ntrail \\- {description}\n\
         .SH SYNOPSIS\n{usage}.SH DESCRIPTION\n{rest}.SH COMMANDS\n{commands}"
    )
}

fn run(arguments: &Arguments) -> Result<Status, Failure> {
    let []: &[_; 0] = arguments.exactly("no words")?;
    output::print(&page())?;
    Ok(Status::Done)
}

#[cfg(test)]
mod tests {
    use super::*;

    #[test]
    fn what_roff_would_obey_is_escaped() {
        assert_eq!(line("a\\nb -o 'c'"), "a\\enb \\-o \\(aqc\\(aq\n");
        assert_eq!(line(".so /etc/passwd"), "\\&.so /etc/passwd\n");
        assert_eq!(line("'so x"), "\\(aqso x\n");
        assert_eq!(line("^~`"), "\\(ha\\(ti\\(ga\n");
    }

    #[test]
    fn blocks_are_options_lists_or_paragraphs() {
        let options = "  -o FILE  where\n           it goes\n  --box X0 X1\n           a box";
        assert_eq!(
            block(options),
            ".TP\n\\fB\\-o FILE\\fR\nwhere\nit goes\n.TP\n\\fB\\-\\-box X0 X1\\fR\na box\n"
        );
        assert_eq!(block("  day e\n   more"), ".PP\n.nf\nday e\n more\n.fi\n");
        assert_eq!(block("Says\nit."), ".PP\nSays\nit.\n");
    }
}
