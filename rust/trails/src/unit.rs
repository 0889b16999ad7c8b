//! The two units that a record's lengths may be in, with the limits of each.

use std::fmt;

/// The unit of a record's lengths: of its places and its mark, and of the tolerances, boxes, points and radii that it is
/// asked with.
#[derive(Clone, Copy, Debug, PartialEq, Eq, Hash)]
pub enum Unit {
    /// Of records of kinds 1 and 3.
    Centimetres,
    /// Of records of kind 2.
    Millimetres,
}

/// What lengths may be, in their unit.
#[derive(Clone, Copy, Debug, PartialEq, Eq)]
pub struct Limits {
    /// How far from 0 an x, a y, also of a point, and a box's edge may be.
    pub place: i32,
    /// The greatest radius about a point.
    pub radius: u32,
    /// The greatest tolerance, and the greatest mark.
    pub tolerance: u16,
    /// How many of the unit are a centimetre, in which tables of days have their tolerances.
    pub per_centimetre: u16,
}

impl Unit {
    /// Every unit there is.
    pub const ALL: [Unit; 2] = [Unit::Centimetres, Unit::Millimetres];

    /// Its numbers.
    pub const fn limits(self) -> Limits {
        match self {
            Unit::Centimetres => Limits {
                place: 16_000,
                radius: 32_000,
                tolerance: 32_000,
                per_centimetre: 1,
            },
            Unit::Millimetres => Limits {
                place: 160_000,
                radius: 320_000,
                tolerance: 60_000,
                per_centimetre: 10,
            },
        }
    }

    /// As it stands after a number: `cm` or `mm`.
    pub fn symbol(self) -> &'static str {
        match self {
            Unit::Centimetres => "cm",
            Unit::Millimetres => "mm",
        }
    }
}

impl fmt::Display for Unit {
    fn fmt(&self, to: &mut fmt::Formatter) -> fmt::Result {
        to.write_str(match self {
            Unit::Centimetres => "centimetres",
            Unit::Millimetres => "millimetres",
        })
    }
}

/// A whole number as document 01 writes it, with its digits in threes.
pub fn in_threes(number: impl Into<u64>) -> String {
    let digits = number.into().to_string();
    let mut text = String::new();
    for (k, digit) in digits.chars().enumerate() {
        if k > 0 && (digits.len() - k).is_multiple_of(3) {
            text.push(',');
        }
        text.push(digit);
    }
    text
}

#[cfg(test)]
mod tests {
    use super::in_threes;

    #[test]
    fn numbers_stand_in_threes() {
        for (number, text) in [(0, "0"), (999, "999"), (1_000, "1,000")] {
            assert_eq!(in_threes(number as u32), text);
        }
        assert_eq!(in_threes(u64::MAX), "18,446,744,073,709,551,615");
    }
}
