//! Tables of days to try, good and bad, in the forms in which they are lent: handed over, in columns to load, and in lists
//! of agings.

use std::collections::BTreeSet;

use crate::cases::Random;
use crate::interface::by_table;
use crate::plain::lists::{Call, List};
use crate::plain::table::{Row, Table, NUMBERS, ROWS};

/// Days and tolerances at limits: of 16 bits, of rows, and of what kind 2 takes ten times.
const DAYS: [u16; 6] = [0, 1, 2, 7, 65_534, 65_535];
const TOLERANCES: [u16; 8] = [0, 1, 10, 5_999, 6_000, 6_001, 31_999, 32_000];

/// A number at a limit, or up to the most.
fn some(limits: &[u16], most: i64, random: &mut Random) -> u16 {
    let any = random.between(0, most) as u16;
    match random.one_in(5) {
        true => random.pick(limits),
        false => any,
    }
}

/// So many rows of which only their number can be wrong: days near each other or far, and tolerances low, high or all
/// the same.
fn rising(many: usize, random: &mut Random) -> Vec<Row> {
    let latest = random.pick(&[120, 400, 65_535]);
    let highest = random.pick(&[0, 30, 400, 7_000, 32_000]);
    let mut days = BTreeSet::new();
    while days.len() < many {
        days.insert(some(&DAYS, latest, random));
    }
    let tolerance = |_| some(&TOLERANCES, highest, random);
    let mut tolerances: Vec<u16> = (0..many).map(tolerance).collect();
    tolerances.sort_unstable();
    days.into_iter().zip(tolerances).map(Row::from).collect()
}

/// Rows that loading accepts.
fn good(random: &mut Random) -> Vec<Row> {
    let any = random.between(1, ROWS as i64) as usize;
    let many = random.pick(&[1, 1, 2, 2, 3, 4, any, ROWS - 1, ROWS]);
    rising(many, random)
}

/// Check 23 fails, by a small change of rows that were good: one is above 32,000, or not as it must be after the one
/// before it.
fn disorder(rows: &mut [Row], random: &mut Random) {
    let last = rows.len() - 1;
    let at = random.between(0, last as i64) as usize;
    let high = random.between(32_001, 65_535) as u16;
    let Some(before) = at.checked_sub(1).filter(|_| !random.one_in(3)) else {
        rows[random.pick(&[at, last])].tolerance = random.pick(&[32_001, 65_535, high]);
        return;
    };
    let earlier = random.between(0, rows[before].day.into()) as u16;
    match random.between(0, 3) {
        0 => rows[at].day = rows[before].day,
        1 => rows[at].day = earlier,
        2 => (rows[before].day, rows[at].day) = (rows[at].day, rows[before].day),
        _ => rows[before].tolerance = rows[at].tolerance + 1,
    }
}

impl Table {
    /// One that loading accepts: the built-in one, or any.
    pub fn good(random: &mut Random) -> Table {
        let any = Table::of(&good(random));
        random.pick(&[Table::built_in(), any, any])
    }

    /// Any, of which five in thirteen are refused.
    pub fn any(random: &mut Random) -> Table {
        let mut table = Table::good(random);
        match random.between(0, 12) {
            0..=1 => table.spoil(23, random),
            2 => table.spoil(22, random),
            3 => {
                table.spoil(23, random);
                table.spoil(22, random);
            }
            // what no loaded table has, and somebody's own may
            4..=7 => table.scribble(random),
            8 => table = Table::default(),
            _ => {}
        }
        table
    }

    /// Makes the sentence of check 22 or 23 true of a table that is accepted. Then its rows are as they were but for one,
    /// or their number is any.
    pub fn spoil(&mut self, fault: u8, random: &mut Random) {
        let any = random.between(33, 65_535) as u16;
        match fault {
            // 256 and more would be good if it were cut to 8 bits
            22 => self.count = random.pick(&[0, 0, 33, 40, 256, 257, 65_535, any]),
            23 => disorder(&mut self.rows[..self.count.into()], random),
            other => panic!("no fault of a table has the number {other}"),
        }
    }

    /// Puts anything after its rows.
    fn scribble(&mut self, random: &mut Random) {
        for row in self.rows.iter_mut().skip(self.count.into()) {
            let mut any = || random.between(0, 65_535) as u16;
            *row = Row::from((any(), any()));
        }
    }

    /// Days to ask it for: those of a row, next to them, or any.
    pub fn days(&self, random: &mut Random) -> u16 {
        let rows = usize::from(self.count).clamp(1, ROWS);
        let Row { day, .. } = random.pick(&self.rows[..rows]);
        let any = random.between(0, 65_535) as u16;
        let near = [day, day, day.saturating_sub(1), day.saturating_add(1)];
        random.pick(&[near[0], near[1], near[2], near[3], 0, 65_535, any])
    }
}

/// Rows as they are lent to be loaded: a column of days and one of tolerances, which need not be of one length.
#[derive(Clone, Debug, PartialEq, Eq)]
pub struct RowColumns {
    pub days: Vec<u16>,
    pub tolerances: Vec<u16>,
}

impl RowColumns {
    pub fn of(rows: &[Row]) -> RowColumns {
        RowColumns {
            days: rows.iter().map(|row| row.day).collect(),
            tolerances: rows.iter().map(|row| row.tolerance).collect(),
        }
    }

    /// "as many as the shorter of the two columns has"
    pub fn rows(&self) -> Vec<Row> {
        let both = self
            .days
            .iter()
            .copied()
            .zip(self.tolerances.iter().copied());
        both.map(Row::from).collect()
    }

    /// Rows good or bad, of which in some cases one column goes on, with anything.
    pub fn any(random: &mut Random) -> RowColumns {
        let many = random.between(33, 120) as usize;
        let mut rows = match random.between(0, 9) {
            0 => Vec::new(),
            1..=2 => rising(random.pick(&[33, 34, 40, many]), random),
            _ => good(random),
        };
        if !rows.is_empty() && random.one_in(3) {
            disorder(&mut rows, random);
        }
        let mut columns = RowColumns::of(&rows);
        let more = random.pick(&[0, 0, 1, 40]);
        let goes_on = match random.one_in(2) {
            true => &mut columns.days,
            false => &mut columns.tolerances,
        };
        goes_on.extend((0..more).map(|_| random.between(0, 65_535) as u16));
        columns
    }
}

/// What a list has for an aging by a table that it isn't lent: next to the last one, or as far as 64 bits go, or where
/// fewer bits would have a lent one.
fn not_lent(tables: usize, days: u16, random: &mut Random) -> u64 {
    let cut = random.pick(&[1 << 16, 1 << 32, (1 << 48) - 1]);
    let k = random.pick(&[tables, tables + 1, cut - 1, cut]);
    by_table(k.min((1 << 48) - 2), days)
}

impl List {
    /// A list of these calls. An equal table is mostly lent once, there may be one that no call has, and one without
    /// rows may be one that isn't lent, or not all of it.
    pub fn lending(calls: &[Call], random: &mut Random) -> List {
        let mut tables: Vec<Table> = Vec::new();
        tables.extend(random.one_in(3).then(|| Table::any(random)));
        let mut missing = Vec::new();
        let mut number = |(at, call): (usize, &Call)| match call {
            Call::Tolerance(e) => u64::from(*e),
            Call::Days(days, table) => {
                if *table == Table::default() && random.one_in(2) {
                    missing.push((at, *days));
                }
                let lent = tables.iter().position(|one| one == table);
                let lent = lent.filter(|_| !random.one_in(4)).unwrap_or(tables.len());
                tables.extend((lent == tables.len()).then_some(*table));
                by_table(lent, *days)
            }
        };
        let mut calls: Vec<u64> = calls.iter().enumerate().map(&mut number).collect();
        for (at, days) in missing {
            calls[at] = not_lent(tables.len(), days, random);
        }
        let mut tables: Vec<u16> = tables.iter().flat_map(Table::numbers).collect();
        let part = random.between(0, NUMBERS as i64 - 1) as usize;
        let part = random.pick(&[0, part, NUMBERS - 1]);
        tables.extend(&Table::good(random).numbers()[..part]);
        List { calls, tables }
    }
}
