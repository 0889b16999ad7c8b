//! `trail completion`: prints what bash completes the command's words by. It is made of the commands and their options,
//! so that none is missing.

use crate::arguments::{Arguments, Command};
use crate::failure::{Failure, Status};
use crate::options::{Choice, OPTIONS};
use crate::output;

pub const COMMAND: Command = Command {
    name: "completion",
    help: HELP,
    options: &[],
    run,
};

const HELP: &str = "\
usage: trail completion

Prints a script by which bash completes the words of trail: its commands, the
options of each that aren't given yet, and names of files. Where a number
stands nothing is completed. 'source <(trail completion)' is for one shell; as
the file 'trail' in a folder that bash-completion reads it is for all.
";

/// The script, in which names stand for what is made. Where it completes nothing, bash itself completes a file's name
/// unless it is told not to.
const SCRIPT: &str = r#"# What bash completes the words of trail by. 'trail completion' prints it.
_trail() {
    local word=${COMP_WORDS[COMP_CWORD]} words='' values=0 number='' only='' k
    COMPREPLY=()
    case $COMP_CWORD:${COMP_WORDS[1]} in
    1:* | 2:help)
        words='{commands}'
        ((COMP_CWORD > 1)) || words+=' {others}'
        compopt +o default
        mapfile -t COMPREPLY < <(compgen -W "$words" -- "$word")
        return
        ;;
{options}    esac
    for ((k = 2; k < COMP_CWORD; k++)); do
        case ${COMP_WORDS[k]} in
        --) return ;;
        # values after it are one word
        =) ((values = values > 0)) ;;
{values}        *) ((values -= values > 0)) ;;
        esac
        words=${words/ "${COMP_WORDS[k]}" / }
    done
    if ((values > 0)); then
        [[ -z $number$only ]] || compopt +o default
        [[ -z $only ]] || mapfile -t COMPREPLY < <(compgen -W "$only" -- "$word")
    elif [[ $word == -* ]]; then
        mapfile -t COMPREPLY < <(compgen -W "$words" -- "$word")
    fi
}
complete -o default -F _trail trail
"#;

/// What may stand in a command's place.
const OTHERS: [&str; 3] = ["help", "--help", "--version"];

/// The options that a command takes.
fn options(command: &Command) -> String {
    let Command { name, options, .. } = command;
    let options = options.join(" ");
    format!("    *:{name}) words=' {options} --help ' ;;\n")
}

/// How many values an option takes, whether they are numbers, and the words that it takes if only some may stand there.
fn values(choice: &Choice) -> String {
    let (name, values, words) = (choice.name, choice.values.len(), choice.words.join(" "));
    let number = if choice.range.is_some() { "yes" } else { "" };
    format!("        {name}) values={values} number={number} only='{words}' ;;\n")
}

fn script() -> String {
    let names = crate::COMMANDS.iter().map(|command| command.name);
    let names: Vec<&str> = names.collect();
    let options: String = crate::COMMANDS.iter().map(options).collect();
    let values: String = OPTIONS.iter().map(values).collect();
    SCRIPT
        .replace("{commands}", &names.join(" "))
        .replace("{others}", &OTHERS.join(" "))
        .replace("{options}", &options)
        .replace("{values}", &values)
}

fn run(arguments: &Arguments) -> Result<Status, Failure> {
    let []: &[_; 0] = arguments.exactly("no words")?;
    output::print(&script())?;
    Ok(Status::Done)
}
