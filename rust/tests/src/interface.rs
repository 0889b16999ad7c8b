//! The functions of `include/trails.h`, as the package `trails` offers them, with this package's columns and questions.

use trails::interface as offered;

pub use offered::{age, built_in, by_table, check, dearest, list, place, read};
pub use offered::{
    AnchorState, Anchored, Answer, Applied, Approach, Crossing, Head, Loaded, Place, Row, Run,
    Step, Table,
};
pub use offered::{LONGEST_TEXT, ROWS, TABLE_NUMBERS};

use crate::columns::Columns;
use crate::plain::anchors::Reading;
use crate::plain::approach::Circle;
use crate::plain::crossing::Question;
use crate::plain::kinds::{Kind, CENTIMETRES, MILLIMETRES};
use crate::plain::lists::List;
use crate::plain::{self, table, Fix};
use crate::readings::ReadingColumns;
use crate::tables::RowColumns;

pub fn read_all(record: &[u8], columns: &mut Columns) -> Answer {
    let Columns { t, x, y, silence } = columns;
    offered::read_all(record, t, x, y, silence)
}

/// By the writer of this kind.
pub fn write(kind: Kind, columns: &Columns, output: &mut [u8]) -> Answer {
    let Columns { t, x, y, silence } = columns;
    match kind {
        CENTIMETRES => offered::write(t, x, y, output),
        MILLIMETRES => offered::write_millimetres(t, x, y, output),
        _ => offered::write_silences(t, x, y, silence, output),
    }
}

/// The fixes of the dearest trail, as the package writes it.
pub fn dearest_fixes(n: usize) -> Vec<Fix> {
    let record = trails::dearest(n).expect("a record has so many fixes");
    plain::read(&record).expect("it is accepted").fixes
}

pub fn load(columns: &RowColumns) -> Loaded {
    offered::load(&columns.days, &columns.tolerances)
}

/// A table as it is handed to the interface.
pub fn handed(table: &table::Table) -> Table {
    let row = |&table::Row { day, tolerance }: &table::Row| Row { day, tolerance };
    Table {
        count: table.count,
        rows: table.rows.each_ref().map(row),
    }
}

pub fn age_by_days(record: &mut [u8], days: u16, table: &table::Table) -> Answer {
    offered::age_by_days(record, days, handed(table))
}

pub fn days_apply(record: &[u8], days: u16, table: &table::Table) -> Applied {
    offered::days_apply(record, days, handed(table))
}

pub fn run(record: &mut [u8], list: &List) -> Run {
    offered::run(record, &list.calls, &list.tables)
}

/// A question as it is lent to the interface.
fn asked(question: &Question) -> offered::Question {
    let Question { window, area } = question;
    offered::Question {
        start: window.start,
        end: window.end,
        left: area.left,
        right: area.right,
        bottom: area.bottom,
        top: area.top,
    }
}

/// All that an answer to the crossing question says: refusal, yes, numerator and denominator.
pub fn numbers(answer: Crossing) -> [u64; 4] {
    let Crossing {
        refusal,
        crosses,
        numerator,
        denominator,
    } = answer;
    [
        refusal.into(),
        crosses.into(),
        numerator,
        denominator.into(),
    ]
}

pub fn crosses(record: &[u8], question: &Question) -> Crossing {
    offered::crosses(record, asked(question))
}

pub fn crosses_after(record: &mut [u8], list: &List, question: &Question) -> Crossing {
    let List { calls, tables } = list;
    offered::crosses_after(record, calls, tables, asked(question))
}

/// A point and a radius as they are lent to the interface.
fn about(&Circle { x, y, radius }: &Circle) -> offered::Circle {
    offered::Circle { x, y, radius }
}

/// All that an answer to the radius question says: refusal, yes, leg, numerator and denominator.
pub fn numbers_near(answer: Approach) -> [u64; 5] {
    let Approach {
        refusal,
        approaches,
        leg,
        numerator,
        denominator,
    } = answer;
    let [refusal, approaches, leg] = [refusal, approaches, leg].map(u64::from);
    [refusal, approaches, leg, numerator, denominator]
}

pub fn near(record: &[u8], circle: &Circle) -> Approach {
    offered::near(record, about(circle))
}

pub fn near_after(record: &mut [u8], list: &List, circle: &Circle) -> Approach {
    let List { calls, tables } = list;
    offered::near_after(record, calls, tables, about(circle))
}

pub fn anchor(state: AnchorState, reading: Reading) -> Anchored {
    match reading {
        Reading::Absolute(x, y) => offered::anchor_absolute(state, x, y),
        Reading::Step(dx, dy) => offered::anchor_step(state, dx, dy),
    }
}

pub fn anchor_all(state: AnchorState, columns: &ReadingColumns) -> AnchorState {
    let ReadingColumns { step, x, y } = columns;
    offered::anchor_all(state, step, x, y)
}

/// All that a state holds, its floats by their bits.
pub fn bits(state: AnchorState) -> [u32; 3] {
    let AnchorState { x, y, seen } = state;
    [x.to_bits(), y.to_bits(), seen]
}

/// All that is answered to a reading, floats by their bits: refusal, rounded place and state.
pub fn numbers_anchored(answer: Anchored) -> [i64; 6] {
    let [x, y, seen] = bits(answer.state).map(i64::from);
    let place = [answer.x, answer.y].map(i64::from);
    [answer.refusal.into(), place[0], place[1], x, y, seen]
}
