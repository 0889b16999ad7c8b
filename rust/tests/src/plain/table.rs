//! A plain version of a hall's own aging table: document 02's item 6.

use std::fmt;

use super::kinds::Kind;
use super::refuse_if;

/// The most rows of a table.
pub const ROWS: usize = 32;

/// The numbers of a table in a lent list: its count, and then day and tolerance of each row by turns.
pub const NUMBERS: usize = 1 + 2 * ROWS;

/// From this day on, this tolerance, in centimetres.
#[derive(Clone, Copy, Debug, Default, PartialEq, Eq)]
pub struct Row {
    pub day: u16,
    pub tolerance: u16,
}

impl From<(u16, u16)> for Row {
    fn from((day, tolerance): (u16, u16)) -> Row {
        Row { day, tolerance }
    }
}

/// A table as it is handed over: a count, and room for as many rows as there can be. Anybody may have made it, so the
/// count may be any, and so may what stands in the rows after it.
#[derive(Clone, Copy, Default, PartialEq, Eq)]
pub struct Table {
    pub count: u16,
    pub rows: [Row; ROWS],
}

/// Its count, and its rows as far as there is anything in them.
impl fmt::Debug for Table {
    fn fmt(&self, to: &mut fmt::Formatter) -> fmt::Result {
        let last = self.rows.iter().rposition(|row| *row != Row::default());
        let rows = &self.rows[..last.map_or(0, |last| last + 1)];
        let mut table = to.debug_struct("Table");
        table.field("count", &self.count).field("rows", &rows);
        table.finish()
    }
}

/// "from day 2, 10; from day 7, 25; from day 30, 100; from day 90, 400"
const BUILT_IN: [(u16, u16); 4] = [(2, 10), (7, 25), (30, 100), (90, 400)];

/// "22, if there are no rows or more than 32; 23, next, if days don't rise strictly, tolerances fall, or one is above
/// 32,000."
fn check(rows: &[Row]) -> Result<(), u8> {
    refuse_if(22, rows.is_empty() || rows.len() > ROWS)?;
    let rise = rows.windows(2).all(|pair| pair[0].day < pair[1].day);
    let fall = rows
        .windows(2)
        .any(|pair| pair[0].tolerance > pair[1].tolerance);
    let high = rows.iter().any(|row| row.tolerance > 32_000);
    refuse_if(23, !rise || fall || high)
}

impl Table {
    /// The table of at most 32 rows, good or bad, with nothing after them.
    pub fn of(rows: &[Row]) -> Table {
        let mut table = Table {
            count: rows.len() as u16,
            ..Table::default()
        };
        table.rows[..rows.len()].copy_from_slice(rows);
        table
    }

    pub fn built_in() -> Table {
        Table::of(&BUILT_IN.map(Row::from))
    }

    /// Loading: the table of these rows.
    pub fn load(rows: &[Row]) -> Result<Table, u8> {
        check(rows).map(|()| Table::of(rows))
    }

    /// The rows that it has, if loading accepts them. A count that there is no room for is above 32, and that is 22.
    pub fn checked(&self) -> Result<&[Row], u8> {
        let rows = self.rows.get(..self.count.into()).ok_or(22)?;
        check(rows).map(|()| rows)
    }

    /// The tolerance that days give a record of this kind: that of "the last row whose day isn't above the asked one, and
    /// nothing before the first row", of kind 2 "the lesser of 60,000 and ten times the row".
    pub fn gives(&self, days: u16, kind: Kind) -> Result<Option<u16>, u8> {
        let mut rows = self.checked()?.iter().rev();
        let row = rows.find(|row| row.day <= days);
        let taken = |row: &Row| u32::from(kind.times) * u32::from(row.tolerance);
        Ok(row.map(|row| taken(row).min(kind.top.into()) as u16))
    }

    pub fn of_numbers(numbers: &[u16]) -> Table {
        let mut table = Table {
            count: numbers[0],
            ..Table::default()
        };
        for (row, pair) in table.rows.iter_mut().zip(numbers[1..].chunks_exact(2)) {
            *row = Row::from((pair[0], pair[1]));
        }
        table
    }

    pub fn numbers(&self) -> Vec<u16> {
        let rows = self.rows.iter().flat_map(|row| [row.day, row.tolerance]);
        [self.count].into_iter().chain(rows).collect()
    }
}
