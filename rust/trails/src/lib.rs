//! Trails of tray carts: reading, writing, aging and asking them.
//!
//! The work is done by the proved functions of `include/trails.h`. This package lends them slices and turns their
//! answers into Rust's types: a refusal is an `Err` with the documents' number and sentence, and every content and
//! every length of a slice has an answer. Nothing here panics, and only the module `interface` has `unsafe`.
//!
//! Times are in seconds. A record has its lengths in centimetres or in millimetres, and is asked and aged in its own
//! unit. One of kind 3 has silences: between a fix that says so and the next one nobody knows where the cart was. Ceiling
//! anchors report in floats, of which each reading gives a place for a fix.
//!
//! ```
//! use trails::{AnchorState, Area, Fix, Fixes, MillimetreFix, Moment, Point, Reading, Refusal, Row, SilenceFix};
//! use trails::{Table, Unit, Window};
//!
//! let fix = |t, x| Fix { t, x, y: 0 };
//! let mut record = trails::write(&[fix(0, 0), fix(10, 100), fix(20, 200)])?;
//! assert_eq!(trails::age(&mut record, 40_000), Err(Refusal::HighTolerance));
//! assert_eq!(trails::age(&mut record, 0), Ok(1));
//! assert_eq!(trails::fixes(&record)?, Fixes::Centimetres(vec![fix(0, 0), fix(20, 200)]));
//!
//! // within 30 cm of the washer: on the first leg, and closest to it after 40,000 / 40,000 seconds
//! let washer = Point { x: 10, y: 30 };
//! assert_eq!(trails::near(&record, washer, 29)?, None);
//! let approach = trails::near(&record, washer, 30)?.expect("30 is near");
//! assert_eq!((approach.leg, approach.numerator, approach.denominator), (0, 40_000, 40_000));
//!
//! let fix = |t, x| MillimetreFix { t, x, y: 0 };
//! let mut record = trails::write(&[fix(0, 0), fix(10, 1_004), fix(20, 2_000)])?;
//! assert_eq!(trails::check(&record)?.unit(), Unit::Millimetres);
//! assert_eq!(trails::age(&mut record, 40_000), Ok(1));
//!
//! // silent from second 10 to second 300, while it went 500 cm: both these fixes stay, whatever the tolerance
//! let fix = |t, x, silence| SilenceFix { t, x, y: 0, silence };
//! let list = [fix(0, 0, false), fix(5, 51, false), fix(10, 100, true), fix(300, 600, false)];
//! let mut record = trails::write(&list)?;
//! assert_eq!(trails::age(&mut record, 32_000), Ok(1));
//! assert_eq!(trails::fixes(&record)?, Fixes::Silences(vec![list[0], list[2], list[3]]));
//! let at = |second| trails::place(&record, Moment { second, thousandths: 0 });
//! assert_eq!(at(11), Err(Refusal::InSilence));
//! assert_eq!(at(300)?.whole_x, 600);
//! let between = Area { left: 200, right: 400, bottom: -9, top: 9 };
//! assert_eq!(trails::crosses(&record, between, Window { start: 0, end: 300 })?, None);
//!
//! // a hall that leaves its trails alone for two weeks, and then thins them at 5 centimetres
//! let row = |day, tolerance| Row { day, tolerance };
//! let table = Table::load(&[row(14, 5), row(60, 50)])?;
//! assert_eq!(Table::load(&[row(14, 50), row(60, 5)]), Err(Refusal::BadRows));
//! let fix = |t, x| Fix { t, x, y: 0 };
//! let mut record = trails::write(&[fix(0, 0), fix(5, 51), fix(10, 100)])?;
//! assert_eq!(trails::age_by_days(&mut record, 13, &table), Ok(0));
//! assert_eq!(trails::check(&record)?.mark, None);
//! assert_eq!(trails::age_by_days(&mut record, 14, &table), Ok(1));
//! assert_eq!(trails::check(&record)?.mark, Some(5));
//!
//! // an anchor in the ceiling sends a place in centimetres, and then how far the cart went from it
//! let step = Reading::Step { dx: 0.25, dy: -7.0625 };
//! assert_eq!(trails::read_anchor(AnchorState::default(), step), Err(Refusal::BadState));
//! let sent = trails::read_anchor(AnchorState::default(), Reading::Absolute { x: 12.25, y: 0.5 })?;
//! let sent = trails::read_anchor(sent.state, step)?;
//! assert_eq!((sent.state.x, sent.state.y), (12.5, -6.5625));
//! assert_eq!(Fix { t: 30, x: sent.x, y: sent.y }, Fix { t: 30, x: 13, y: -7 });
//!
//! // what a controller must have time and stack for: of 4,096 fixes no aging measures more
//! let mut record = trails::dearest(4_096)?;
//! assert_eq!(trails::age(&mut record, 1), Ok(8_382_465));
//! # Ok::<(), Refusal>(())
//! ```
#![deny(unsafe_code)]
#![deny(missing_docs)]

mod aging;
mod anchors;
mod fix;
pub mod interface;
mod kind;
mod questions;
mod record;
mod refusal;
mod table;
mod unit;

pub use aging::{age, age_by_days, run, Aging};
pub use anchors::{read_anchor, read_anchors, AnchorState, Anchored, Reading};
pub use fix::{AnyFix, Fix, Fixes, MillimetreFix, OfKind, SilenceFix};
pub use kind::{of_every_kind, Kind};
pub use questions::{crosses, crosses_after, near, near_after, place};
pub use questions::{Approach, Area, Crossing, Moment, Place, Point, Window};
pub use record::{check, claimed_count, claimed_kind, fixes, list};
pub use record::{dearest, dearest_into, write, write_into, write_kind};
pub use record::{Head, LONGEST, MOST_FIXES};
pub use refusal::Refusal;
pub use table::{Row, Table};
pub use unit::{in_threes, Limits, Unit};

/// The version of this package, which is that of the header it was made with, `TRAILS_VERSION`.
pub const VERSION: &str = env!("CARGO_PKG_VERSION");
