//! Many random cases of all operations, by the C interface and by the plain version, and moved in time and of other
//! kinds by the C interface again, and many more readings of anchors: `compare [--cases N] [--readings N] [--seed S]`. A
//! difference is printed with the smallest trail found that shows it, and the exit status is 1.
#![forbid(unsafe_code)]

use std::process::ExitCode;

use trails_tests::cases::Settings;
use trails_tests::compare::{plain, proved, readings, recast, run, twin, Case, Outcome, Sides};

/// How many of each are tried.
struct Asked {
    cases: usize,
    readings: usize,
    seed: u64,
}

const USUAL: Asked = Asked {
    cases: 30_000,
    readings: 1_000_000,
    seed: 20_240_229,
};

fn main() -> ExitCode {
    let arguments: Vec<String> = std::env::args().skip(1).collect();
    let Some(asked) = asked(&arguments) else {
        eprintln!("usage: compare [--cases N] [--readings N] [--seed S]");
        return ExitCode::from(2);
    };
    let Asked {
        cases,
        readings,
        seed,
    } = asked;
    println!("{cases} cases and {readings} readings, seed {seed}");
    let missing = match records(Settings { seed, cases }) {
        Some(missing) => missing,
        None => return ExitCode::FAILURE,
    };
    let cases = readings;
    let more = match anchors(Settings { seed, cases }) {
        Some(missing) => missing,
        None => return ExitCode::FAILURE,
    };
    let missing = [missing, more].concat();
    for what in &missing {
        println!("never met: {what}");
    }
    ExitCode::from(u8::from(!missing.is_empty()))
}

fn asked(arguments: &[String]) -> Option<Asked> {
    let mut asked = USUAL;
    for pair in arguments.chunks(2) {
        let [name, value] = pair else {
            return None;
        };
        match name.as_str() {
            "--cases" => asked.cases = value.parse().ok()?,
            "--readings" => asked.readings = value.parse().ok()?,
            "--seed" => asked.seed = value.parse().ok()?,
            _ => return None,
        }
    }
    Some(asked)
}

/// Tries cases of records, and prints what was met, or a difference. Gives what should have been met and wasn't.
fn records(settings: Settings) -> Option<Vec<String>> {
    let sides = Sides {
        proved: &proved,
        plain: &plain,
    };
    match run(settings, sides) {
        Ok(met) if settings.cases > 0 => {
            println!("{met}\n");
            Some(met.missing())
        }
        Ok(_) => Some(Vec::new()),
        Err(case) => {
            show(&case);
            None
        }
    }
}

/// The same of readings.
fn anchors(settings: Settings) -> Option<Vec<String>> {
    match readings::run(settings, readings::PROVED) {
        Ok(met) if settings.cases > 0 => {
            println!("{met}");
            Some(met.missing())
        }
        Ok(_) => Some(Vec::new()),
        Err(difference) => {
            println!("a difference:\n{difference}");
            None
        }
    }
}

fn hex(bytes: &[u8]) -> String {
    let all: Vec<String> = bytes.iter().map(|byte| format!("{byte:02X}")).collect();
    all.join(" ")
}

fn show(case: &Case) {
    println!("a difference, made as small as it is still one:");
    show_given(case);
    show_outcome("interface", case, &proved(case));
    show_outcome("plain", case, &plain(case));
    let others = [
        ("moved in time", twin::differing(&proved, case)),
        ("of another kind", recast::differing(&proved, case)),
    ];
    for (how, other) in others {
        if let Some(other) = other {
            println!("{how} it comes out otherwise:");
            show_given(&other);
            show_outcome("interface", &other, &proved(&other));
        }
    }
}

fn show_given(case: &Case) {
    println!("operation  {:?}", case.operation);
    println!("buffer     {}", hex(&case.buffer));
}

/// The answer, and what was lent where it isn't as before.
fn show_outcome(side: &str, case: &Case, outcome: &Outcome) {
    println!("{side}: {:?}", outcome.reply);
    if outcome.after.buffer != case.buffer {
        println!("{side}: buffer then {}", hex(&outcome.after.buffer));
    }
    if outcome.after.operation != case.operation {
        println!("{side}: lent lists then {:?}", outcome.after.operation);
    }
    if !outcome.text.is_empty() {
        let text = String::from_utf8_lossy(&outcome.text);
        println!("{side}: output then {:?}", text.trim_end_matches('Z'));
    }
}
