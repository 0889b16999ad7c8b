//! All that a call is lent and given, a value for each name of a parameter, and what is there afterwards.
//!
//! No two values are so that exchanging them goes unseen, where their types would allow it.

use trails_tests::columns::Columns;
use trails_tests::interface::{by_table, AnchorState, LONGEST_TEXT};
use trails_tests::plain::anchors::Reading;
use trails_tests::plain::approach::Circle;
use trails_tests::plain::crossing::{Area, Question, Window};
use trails_tests::plain::kinds::SILENCES;
use trails_tests::plain::lists::List;
use trails_tests::plain::table::{Row, Table};
use trails_tests::plain::{Fix, Trail};
use trails_tests::readings::ReadingColumns;
use trails_tests::tables::RowColumns;

pub const POSITION: usize = 2;

/// Where a fix is before a silence. That is 1 and else 0, as two other fields of a step are, so both fixes are read.
pub const BEFORE_SILENCE: usize = 0;
pub const TOLERANCE: u16 = 120;
pub const DAYS: u16 = 7;
pub const SECOND: u32 = 103;
pub const THOUSANDTHS: u16 = 250;
pub const OUTPUT_BYTES: usize = 40;

/// How many fixes the dearest trail has: there is room for so many.
pub const N: usize = 3;

/// How many elements are lent of each column.
pub const COUNTS: [usize; 4] = [1, 2, 3, 4];

/// How many are lent of the columns of a table's rows.
pub const ROW_COUNTS: [usize; 2] = [2, 3];

/// How many elements everything has that is lent, so that exchanging two numbers of elements reaches none that isn't
/// there.
pub const ROOM: usize = 140;

/// Rows of a hall's own table, as a list to load. Tolerances and days exchanged are a table too, and another one.
const ROWS: [(u16, u16); 4] = [(3, 130), (9, 200), (10, 300), (12, 400)];

pub fn table() -> Table {
    Table::of(&ROWS.map(Row::from)[..2])
}

pub fn rows() -> RowColumns {
    RowColumns::of(&ROWS.map(Row::from))
}

/// The parts of the rows that are lent.
pub fn lent_rows() -> RowColumns {
    let RowColumns { days, tolerances } = rows();
    let [a, b] = ROW_COUNTS;
    RowColumns {
        days: days[..a].to_vec(),
        tolerances: tolerances[..b].to_vec(),
    }
}

/// A tolerance, one that is turned away, and days by the second table, which have a greater tolerance than the first
/// call, and by the first table a lesser one.
pub fn agings() -> List {
    let tables = [Table::built_in(), table()].map(|table| table.numbers());
    List {
        calls: vec![TOLERANCE.into(), 60_001, by_table(1, DAYS)],
        tables: tables.concat(),
    }
}

/// The table, for C.
fn table_in_c() -> String {
    let row = |row: &Row| format!("{{{}, {}}}", row.day, row.tolerance);
    let Table { count, rows } = table();
    let rows: Vec<String> = rows.iter().map(row).collect();
    format!("(struct trails_table){{{count}, {{{}}}}}", rows.join(", "))
}

/// The cart comes to the box from below, after it was beside it and under it: in the boxes that two exchanged edges give
/// it is earlier or never. It was silent before, so that the kind is another number than what stands beside it, and a
/// column of silences isn't all 0.
const FIXES: [(u32, i32, i32, u8); 4] = [
    (90, 20, 30, 1),
    (100, 700, 400, 0),
    (110, 450, 100, 0),
    (120, 450, 600, 0),
];

pub const QUESTION: Question = Question {
    window: Window {
        start: 101,
        end: 119,
    },
    area: Area {
        left: 100,
        right: 500,
        bottom: 300,
        top: 800,
    },
};

/// Near the third leg alone, as its image with x and y exchanged is, at another time.
pub const CIRCLE: Circle = Circle {
    x: 500,
    y: 400,
    radius: 60,
};

/// An anchor's state, and a step from it. An absolute place is the circle's.
pub const STATE: AnchorState = AnchorState {
    x: 12.25,
    y: -7.5,
    seen: 1,
};
pub const STEP: [f32; 2] = [0.5, 3.0625];

/// How many are lent of the columns of readings.
pub const READING_COUNTS: [usize; 3] = [4, COUNTS[1], COUNTS[2]];

/// Readings as a list: two steps, so that the state counts, and two more that not all columns are lent for.
pub fn readings() -> ReadingColumns {
    ReadingColumns::of(&[
        Reading::Step(0.25, 20.5),
        Reading::Step(100.0, -3.5),
        Reading::Absolute(7.0, 8.0),
        Reading::Step(1.0, 1.0),
    ])
}

/// The parts of them that are lent.
pub fn lent_readings() -> ReadingColumns {
    let ReadingColumns { step, x, y } = readings();
    let [a, b, c] = READING_COUNTS;
    ReadingColumns {
        step: step[..a].to_vec(),
        x: x[..b].to_vec(),
        y: y[..c].to_vec(),
    }
}

/// The state, for C.
pub fn state_in_c() -> String {
    let AnchorState { x, y, seen } = STATE;
    format!("(struct trails_anchor_state){{{x}, {y}, {seen}}}")
}

/// What stands in the columns beforehand, and is a list to write.
const COLUMNS: [(u32, i32, i32, u8); 5] = [
    (7, 1, -5, 0),
    (8, 2, -6, 11),
    (9, 3, -7, 12),
    (10, 4, -8, 13),
    (11, 5, -9, 14),
];

/// The argument of each parameter that isn't lent, for C.
pub fn arguments() -> Vec<(&'static str, String)> {
    let Question { window, area } = QUESTION;
    let [t, x, y, silence] = COUNTS;
    let [day_count, tolerance_count] = ROW_COUNTS;
    let List { calls, tables } = agings();
    vec![
        ("lent", Lent::new().record.len().to_string()),
        ("position", POSITION.to_string()),
        ("t_count", t.to_string()),
        ("x_count", x.to_string()),
        ("y_count", y.to_string()),
        ("silence_count", silence.to_string()),
        ("output_bytes", OUTPUT_BYTES.to_string()),
        ("n", N.to_string()),
        ("tolerance", TOLERANCE.to_string()),
        ("days", DAYS.to_string()),
        ("second", SECOND.to_string()),
        ("thousandths", THOUSANDTHS.to_string()),
        ("table", table_in_c()),
        ("day_count", day_count.to_string()),
        ("tolerance_count", tolerance_count.to_string()),
        ("call_count", calls.len().to_string()),
        ("table_numbers", tables.len().to_string()),
        ("start", window.start.to_string()),
        ("end", window.end.to_string()),
        ("left", area.left.to_string()),
        ("right", area.right.to_string()),
        ("bottom", area.bottom.to_string()),
        ("top", area.top.to_string()),
        ("x", CIRCLE.x.to_string()),
        ("y", CIRCLE.y.to_string()),
        ("radius", CIRCLE.radius.to_string()),
        ("state", state_in_c()),
        ("dx", STEP[0].to_string()),
        ("dy", STEP[1].to_string()),
        ("step_count", READING_COUNTS[0].to_string()),
    ]
}

/// All that is lent to be written.
pub struct Lent {
    pub record: Vec<u8>,
    pub columns: Columns,
    pub output: Box<[u8; LONGEST_TEXT]>,
}

impl Lent {
    pub fn new() -> Lent {
        let output = vec![0; LONGEST_TEXT].into_boxed_slice();
        let fixes = FIXES.map(Fix::from).into();
        Lent {
            record: Trail::never_thinned(SILENCES, fixes).bytes(),
            columns: Columns::of(&COLUMNS.map(Fix::from)),
            output: output.try_into().expect("it has that length"),
        }
    }

    /// The parts of the columns that are lent.
    pub fn lent_columns(&self) -> Columns {
        let Columns { t, x, y, silence } = &self.columns;
        let [a, b, c, d] = COUNTS;
        Columns {
            t: t[..a].to_vec(),
            x: x[..b].to_vec(),
            y: y[..c].to_vec(),
            silence: silence[..d].to_vec(),
        }
    }

    /// Takes these parts back.
    pub fn give_back(&mut self, lent: Columns) {
        let Columns { t, x, y, silence } = &mut self.columns;
        let [a, b, c, d] = COUNTS;
        t[..a].copy_from_slice(&lent.t);
        x[..b].copy_from_slice(&lent.x);
        y[..c].copy_from_slice(&lent.y);
        silence[..d].copy_from_slice(&lent.silence);
    }

    /// Everything as numbers, in the order in which the C program prints it.
    pub fn numbers(&self) -> Vec<i64> {
        let Columns { t, x, y, silence } = &self.columns;
        let mut all: Vec<i64> = self.record.iter().map(|&n| n.into()).collect();
        all.extend(t.iter().map(|&n| i64::from(n)));
        all.extend(x.iter().chain(y).map(|&n| i64::from(n)));
        all.extend(silence.iter().map(|&n| i64::from(n)));
        all.extend(self.output[..OUTPUT_BYTES].iter().map(|&n| i64::from(n)));
        all
    }
}
