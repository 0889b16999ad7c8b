//! The three kinds of record, with the numbers of each.

use std::fmt;

use crate::unit::Unit;

/// The kind of a record: the unit of its lengths, and whether it has silences. No kind has millimetres and silences.
#[derive(Clone, Copy, Debug, PartialEq, Eq, Hash)]
pub enum Kind {
    /// Kind 1: in centimetres.
    Centimetres,
    /// Kind 2: in millimetres.
    Millimetres,
    /// Kind 3: in centimetres, and each fix says whether a silence follows it.
    Silences,
}

impl Kind {
    /// Every kind there is.
    pub const ALL: [Kind; 3] = [Kind::Centimetres, Kind::Millimetres, Kind::Silences];

    /// What a record of it has in its kind field.
    pub const fn code(self) -> u16 {
        match self {
            Kind::Centimetres => 1,
            Kind::Millimetres => 2,
            Kind::Silences => 3,
        }
    }

    /// The bytes of each fix.
    pub const fn fix_bytes(self) -> usize {
        match self {
            Kind::Centimetres => 8,
            Kind::Millimetres => 12,
            Kind::Silences => 9,
        }
    }

    /// The unit of its lengths, which has their limits too.
    pub const fn unit(self) -> Unit {
        match self {
            Kind::Centimetres | Kind::Silences => Unit::Centimetres,
            Kind::Millimetres => Unit::Millimetres,
        }
    }

    /// Whether its fixes say if a silence follows them. A record of another kind has no silence.
    pub const fn has_silences(self) -> bool {
        matches!(self, Kind::Silences)
    }

    /// The kind that has this code, if there is one.
    pub fn of_code(code: impl Into<u32>) -> Option<Kind> {
        let code = code.into();
        let mut all = Kind::ALL.into_iter();
        all.find(|kind| u32::from(kind.code()) == code)
    }
}

impl fmt::Display for Kind {
    fn fmt(&self, to: &mut fmt::Formatter) -> fmt::Result {
        let silences = if self.has_silences() {
            " with silences"
        } else {
            ""
        };
        write!(to, "{}{silences}", self.unit())
    }
}

/// What each kind has for itself, put for who doesn't know the kind: `8 (in millimetres 12, with silences 9)`. What
/// silences leave as it is isn't said twice: `32,000 (in millimetres 60,000)`.
pub fn of_every_kind(number: impl Fn(Kind) -> String) -> String {
    let [one, fine, silent] = Kind::ALL.map(number);
    let silent = match silent == one {
        true => String::new(),
        false => format!(", with silences {silent}"),
    };
    format!("{one} (in millimetres {fine}{silent})")
}

#[cfg(test)]
mod tests {
    use super::{of_every_kind, Kind};

    #[test]
    fn codes_lead_to_kinds_and_back() {
        for code in (0..=300_u32).chain([65_535, 65_537, u32::MAX]) {
            let back = Kind::of_code(code).map(|kind| u32::from(kind.code()));
            assert_eq!(back, Some(code).filter(|code| (1..=3).contains(code)));
        }
    }

    #[test]
    fn what_kinds_share_is_said_once() {
        let bytes = of_every_kind(|kind| kind.fix_bytes().to_string());
        assert_eq!(bytes, "8 (in millimetres 12, with silences 9)");
        let places = of_every_kind(|kind| kind.unit().limits().place.to_string());
        assert_eq!(places, "16000 (in millimetres 160000)");
        let names = Kind::ALL.map(|kind| kind.to_string());
        assert_eq!(names[1..], ["millimetres", "centimetres with silences"]);
    }
}
