//! How the table looks: a name, and columns that end at the same place in every section.

use trails::in_threes;

const NAME: usize = 26;
const COLUMN: usize = 12;

pub fn row(name: &str, cells: &[String]) {
    let columns = cells.iter().map(|cell| format!("{cell:>COLUMN$}"));
    let line = format!("{name:<NAME$}{}", columns.collect::<String>());
    println!("{}", line.trim_end());
}

/// Begins a section.
pub fn heading(name: &str, columns: &[&str]) {
    let cells: Vec<String> = columns.iter().map(|column| column.to_string()).collect();
    println!();
    row(name, &cells);
    println!("{}", "-".repeat(NAME + COLUMN * columns.len()));
}

/// A number with two decimals.
fn decimal(number: f64) -> String {
    let hundredths = (number * 100.0).round() as u64;
    format!("{}.{:02}", in_threes(hundredths / 100), hundredths % 100)
}

pub fn microseconds(seconds: f64) -> String {
    decimal(seconds * 1e6)
}

pub fn factor(of: f64, to: f64) -> String {
    decimal(of / to)
}
