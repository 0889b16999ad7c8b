//! The three kinds of record: document 01's in centimetres, in millimetres that of document 02's item 8, and with
//! silences that of its item 5.

use std::fmt;

use super::HEAD;

/// A kind's numbers. All lengths are in its unit.
#[derive(Clone, Copy, PartialEq, Eq)]
pub struct Kind {
    pub name: &'static str,
    pub unit: &'static str,
    /// what the kind field has
    pub code: u16,
    /// the bytes of an x and of a y
    pub width: usize,
    /// whether a byte after each fix says if a silence follows
    pub silences: bool,
    /// a place, a point and a box's edge are from minus this to this
    pub limit: i32,
    /// the greatest tolerance, and the greatest mark but never
    pub top: u16,
    /// what a row of a table of days is taken times
    pub times: u16,
    /// the greatest denominator of a crossing's fraction
    pub denominator: u32,
    /// the greatest radius about a point
    pub radius: u32,
}

/// "kind (2 bytes, 1 = trail)"
pub const CENTIMETRES: Kind = Kind {
    name: "centimetres",
    unit: "centimetres",
    code: 1,
    width: 2,
    silences: false,
    limit: 16_000,
    top: 32_000,
    times: 1,
    denominator: 32_000,
    radius: 32_000,
};

/// "Kind 2 has fixes of 12 bytes: time, x, y of 4 bytes each, places −160,000 to 160,000, length 10 + 12n, tolerance
/// and mark up to 60,000 or never, all in millimetres."
pub const MILLIMETRES: Kind = Kind {
    name: "millimetres",
    unit: "millimetres",
    code: 2,
    width: 4,
    silences: false,
    limit: 160_000,
    top: 60_000,
    times: 10,
    denominator: 320_000,
    radius: 320_000,
};

/// "Kind 3 is kind 1 with one byte after each fix, which reader and writer pass on: 1 = silence follows, 0 = none; its
/// length is 10 + 9n."
pub const SILENCES: Kind = Kind {
    name: "silences",
    code: 3,
    silences: true,
    ..CENTIMETRES
};

pub const KINDS: [Kind; 3] = [CENTIMETRES, MILLIMETRES, SILENCES];

impl Kind {
    pub fn with_code(code: u16) -> Option<Kind> {
        KINDS.into_iter().find(|kind| kind.code == code)
    }

    /// A time, two coordinates, and maybe the silence byte.
    pub fn fix_bytes(self) -> usize {
        4 + 2 * self.width + usize::from(self.silences)
    }

    pub fn record_length(self, fixes: usize) -> usize {
        HEAD + self.fix_bytes() * fixes
    }

    /// Whether records of this kind can be turned away for it: checks 20 and 21 are about silences.
    pub fn can_fail(self, check: u32) -> bool {
        self.silences || ![20, 21].contains(&check)
    }

    /// Whether a coordinate or an edge is beyond the limits.
    pub fn is_outside(self, length: i32) -> bool {
        !(-self.limit..=self.limit).contains(&length)
    }
}

impl fmt::Display for Kind {
    fn fmt(&self, to: &mut fmt::Formatter) -> fmt::Result {
        to.write_str(self.name)
    }
}

/// Its name says all its numbers.
impl fmt::Debug for Kind {
    fn fmt(&self, to: &mut fmt::Formatter) -> fmt::Result {
        fmt::Display::fmt(self, to)
    }
}
