//! A hall's own aging table.

use crate::interface;
pub use crate::interface::Row;
use crate::refusal::Refusal;

/// What agings by days take their tolerance from: rows of a day and a tolerance in centimetres. A record gets that of
/// the last row whose day isn't above the asked one, and nothing before the first row; one in millimetres gets the lesser
/// of ten times the row's and 60,000. Only `load` and `built_in` make a table, so no call turns one away.
#[derive(Clone, Copy, Debug, PartialEq, Eq, Hash)]
pub struct Table(interface::Table);

impl Table {
    /// The table of these rows. Makes checks 22 and 23: 1 to 32 rows, whose days rise strictly, whose tolerances don't
    /// fall and are at most 32,000.
    pub fn load(rows: &[Row]) -> Result<Table, Refusal> {
        let days: Vec<u16> = rows.iter().map(|row| row.day).collect();
        let tolerances: Vec<u16> = rows.iter().map(|row| row.tolerance).collect();
        let loaded = interface::load(&days, &tolerances);
        Refusal::none_in(loaded.refusal)?;
        Ok(Table(loaded.table))
    }

    /// The built-in one: from day 2 on 10 centimetres, from day 7 on 25, from day 30 on 100, and from day 90 on 400.
    pub fn built_in() -> Table {
        Table(interface::built_in())
    }

    /// Its rows, in order.
    pub fn rows(&self) -> &[Row] {
        // a table that was loaded has no more of them than there is room for
        let count = usize::from(self.0.count);
        self.0.rows.get(..count).unwrap_or_default()
    }

    /// As it is handed to the interface.
    pub(crate) fn lent(&self) -> interface::Table {
        self.0
    }
}
