//! One table of what the proved calls cost: an aging beside plain Rust, questions per second, how an aging's time grows
//! with the fixes, and the stack that it takes at most. It reports; it fails only if the two thinnings differ.
#![forbid(unsafe_code)]

mod aging;
mod beside;
mod growth;
mod layout;
mod questions;
mod sorts;
mod stack;
mod thinning;
mod timing;

use std::process::ExitCode;

fn table() -> ExitCode {
    println!("Times are medians of {} runs.", timing::RUNS);
    beside::section();
    questions::section();
    growth::section();
    stack::section();
    ExitCode::SUCCESS
}

fn main() -> ExitCode {
    let arguments: Vec<String> = std::env::args().skip(1).collect();
    let arguments: Vec<&str> = arguments.iter().map(String::as_str).collect();
    match arguments[..] {
        [] => table(),
        // how the table's last section starts this program again
        [stack::ARGUMENT, name, bytes] => stack::age_within(name, bytes),
        _ => {
            eprintln!("the bench takes no arguments");
            ExitCode::from(2)
        }
    }
}
