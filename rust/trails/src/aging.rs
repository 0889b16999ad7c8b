//! Aging: thinning again what was thinned.

use crate::interface;
use crate::record::check;
use crate::refusal::{value, Refusal};
use crate::table::Table;

/// An aging that can be asked.
#[derive(Clone, Copy, Debug, PartialEq, Eq, Hash)]
pub enum Aging {
    /// At this tolerance, in the record's unit.
    Tolerance(u16),
    /// At the tolerance that so many days give by this table.
    Days(u16, Table),
}

impl Aging {
    /// The tolerance that this aging would apply to the record, in its unit: none if the table has no row for the days.
    /// Makes the checks that the aging makes.
    pub fn applies(self, record: &[u8]) -> Result<Option<u16>, Refusal> {
        match self {
            Aging::Tolerance(e) => match e <= check(record)?.unit().limits().tolerance {
                true => Ok(Some(e)),
                false => Err(Refusal::HighTolerance),
            },
            Aging::Days(days, table) => {
                let found = interface::days_apply(record, days, table.lent());
                Refusal::none_in(found.refusal)?;
                let applied = Some(found.tolerance).filter(|_| found.applies != 0);
                Ok(applied.and_then(|e| u16::try_from(e).ok()))
            }
        }
    }

    /// Ages the record that the bytes begin with. See `age` and `age_by_days`.
    pub fn apply(self, record: &mut [u8]) -> Result<u32, Refusal> {
        match self {
            Aging::Tolerance(tolerance) => age(record, tolerance),
            Aging::Days(days, table) => age_by_days(record, days, &table),
        }
    }

    /// Its number in a list that is lent to the interface with these tables, which get its own if they haven't it.
    fn number(self, tables: &mut Vec<Table>) -> u64 {
        match self {
            Aging::Tolerance(tolerance) => tolerance.into(),
            Aging::Days(days, table) => {
                let lent = tables.iter().position(|one| *one == table);
                let k = lent.unwrap_or(tables.len());
                if k == tables.len() {
                    tables.push(table);
                }
                interface::by_table(k, days)
            }
        }
    }
}

/// Ages the record by tolerance, in its unit: its fixes are thinned, the kept ones close up at its start, length
/// and count follow, and the mark becomes the greatest tolerance applied. Each stretch between silences is thinned by
/// itself, so that both ends of every silence stay. All bytes from the new length on stay too: fixes that were thinned
/// away may still be among them, so what is stored of a buffer ends at `Head::length`. Answers how many fixes were
/// measured. Makes checks 1 to 9, 20 and 10.
///
/// STACK. An aging takes up to 792,000 bytes of stack, for a record of 4,096 fixes. Rust's threads have more unless they
/// are asked to have less; one with less must not age long trails.
pub fn age(record: &mut [u8], tolerance: u16) -> Result<u32, Refusal> {
    value(interface::age(record, tolerance))
}

/// Ages the record by days: at the tolerance of the table's last row whose day isn't above them. Before the first row
/// nothing is changed. Makes checks 1 to 9 and 20; 22 and 23 turn no such table away. STACK: as `age`.
pub fn age_by_days(record: &mut [u8], days: u16, table: &Table) -> Result<u32, Refusal> {
    value(interface::age_by_days(record, days, table.lent()))
}

/// Makes all agings of a list, one after the other, each on the record as the one before left it. Those that are turned
/// away, by a tolerance above the unit's greatest, change nothing, and those after them are made. Answers how many they
/// were. Makes checks 1 to 9 and 20, and where one fails makes no aging. STACK: as `age`.
pub fn run(record: &mut [u8], list: &[Aging]) -> Result<usize, Refusal> {
    let List { calls, tables } = List::of(list);
    let run = interface::run(record, &calls, &tables);
    Refusal::none_in(run.refusal)?;
    Ok(run.turned_away)
}

/// A list as it is lent to the interface: its calls, and the tables of its agings by days, each once.
pub(crate) struct List {
    pub calls: Vec<u64>,
    pub tables: Vec<u16>,
}

impl List {
    pub fn of(list: &[Aging]) -> List {
        let mut tables = Vec::new();
        let calls = list.iter().map(|aging| aging.number(&mut tables)).collect();
        let numbers = |table: &Table| table.lent().numbers().collect::<Vec<_>>();
        List {
            calls,
            tables: tables.iter().flat_map(numbers).collect(),
        }
    }
}
