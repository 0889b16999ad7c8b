//! Fixes, of each of the kinds.

use std::str::FromStr;

use crate::interface::{self, Answer};
use crate::kind::Kind;

/// Where a cart was at a second, in centimetres.
#[derive(Clone, Copy, Debug, PartialEq, Eq, Hash)]
pub struct Fix {
    /// Seconds.
    pub t: u32,
    /// Centimetres.
    pub x: i16,
    /// Centimetres.
    pub y: i16,
}

/// Where a cart was at a second, in millimetres.
#[derive(Clone, Copy, Debug, PartialEq, Eq, Hash)]
pub struct MillimetreFix {
    /// Seconds.
    pub t: u32,
    /// Millimetres.
    pub x: i32,
    /// Millimetres.
    pub y: i32,
}

/// Where a cart was at a second, in centimetres, and whether it fell silent then.
#[derive(Clone, Copy, Debug, PartialEq, Eq, Hash)]
pub struct SilenceFix {
    /// Seconds.
    pub t: u32,
    /// Centimetres.
    pub x: i16,
    /// Centimetres.
    pub y: i16,
    /// Whether a silence follows: until the next fix nothing is known of the cart. The last fix has no next one.
    pub silence: bool,
}

/// A fix of whatever kind, its place in the record's unit: for what is the same of every kind.
#[derive(Clone, Copy, Debug, PartialEq, Eq, Hash)]
pub struct AnyFix {
    /// Seconds.
    pub t: u32,
    /// In the record's unit.
    pub x: i32,
    /// In the record's unit.
    pub y: i32,
    /// Whether a silence follows; never so if the record's kind has none.
    pub silence: bool,
}

/// A fix whose type says its kind. So a list of them becomes a record of that kind and of no other.
pub trait OfKind: Copy + lent::Lent {
    /// The kind.
    const KIND: Kind;

    /// An x or a y.
    type Length: Copy + FromStr;

    /// A fix of its time, x and y, which no silence follows.
    fn new(t: u32, x: Self::Length, y: Self::Length) -> Self;

    /// Its numbers.
    fn any(self) -> AnyFix;
}

pub(crate) mod lent {
    use super::{Answer, AnyFix};

    /// Fixes as they are lent to the interface.
    #[derive(Default)]
    pub struct Columns {
        pub t: Vec<u32>,
        pub x: Vec<i32>,
        pub y: Vec<i32>,
        pub silence: Vec<u8>,
    }

    impl Columns {
        /// Room for so many fixes.
        pub fn room(count: usize) -> Columns {
            Columns {
                t: vec![0; count],
                x: vec![0; count],
                y: vec![0; count],
                silence: vec![0; count],
            }
        }

        /// The columns that fixes have.
        pub fn of(fixes: impl Iterator<Item = AnyFix>) -> Columns {
            let mut columns = Columns::default();
            for fix in fixes {
                columns.t.push(fix.t);
                columns.x.push(fix.x);
                columns.y.push(fix.y);
                columns.silence.push(fix.silence.into());
            }
            columns
        }

        /// The fix in each row.
        pub fn rows(self) -> impl Iterator<Item = AnyFix> {
            let places = self.x.into_iter().zip(self.y);
            let rows = self.t.into_iter().zip(places).zip(self.silence);
            rows.map(|((t, (x, y)), silence)| AnyFix {
                t,
                x,
                y,
                silence: silence != 0,
            })
        }
    }

    /// How columns of such fixes are lent to the interface. It can't be named outside, so there are no other types of
    /// fixes.
    pub trait Lent {
        fn write(columns: &Columns, output: &mut [u8]) -> Answer;
    }
}

use lent::Columns;

macro_rules! without_silences {
    ($fix:ident, $length:ty, $kind:expr, $write:path) => {
        impl lent::Lent for $fix {
            fn write(columns: &Columns, output: &mut [u8]) -> Answer {
                $write(&columns.t, &columns.x, &columns.y, output)
            }
        }

        impl OfKind for $fix {
            const KIND: Kind = $kind;

            type Length = $length;

            fn new(t: u32, x: $length, y: $length) -> $fix {
                $fix { t, x, y }
            }

            fn any(self) -> AnyFix {
                AnyFix {
                    t: self.t,
                    x: self.x.into(),
                    y: self.y.into(),
                    silence: false,
                }
            }
        }
    };
}

without_silences!(Fix, i16, Kind::Centimetres, interface::write);
without_silences!(
    MillimetreFix,
    i32,
    Kind::Millimetres,
    interface::write_millimetres
);

impl lent::Lent for SilenceFix {
    fn write(columns: &Columns, output: &mut [u8]) -> Answer {
        let Columns { t, x, y, silence } = columns;
        interface::write_silences(t, x, y, silence, output)
    }
}

impl OfKind for SilenceFix {
    const KIND: Kind = Kind::Silences;

    type Length = i16;

    fn new(t: u32, x: i16, y: i16) -> SilenceFix {
        let silence = false;
        SilenceFix { t, x, y, silence }
    }

    fn any(self) -> AnyFix {
        AnyFix {
            silence: self.silence,
            ..Fix::new(self.t, self.x, self.y).any()
        }
    }
}

/// The fixes of a record, of its kind.
#[derive(Clone, Debug, PartialEq, Eq)]
pub enum Fixes {
    /// Those of a record in centimetres.
    Centimetres(Vec<Fix>),
    /// Those of a record in millimetres.
    Millimetres(Vec<MillimetreFix>),
    /// Those of a record with silences.
    Silences(Vec<SilenceFix>),
}

impl Fixes {
    /// Their kind.
    pub fn kind(&self) -> Kind {
        match self {
            Fixes::Centimetres(_) => Kind::Centimetres,
            Fixes::Millimetres(_) => Kind::Millimetres,
            Fixes::Silences(_) => Kind::Silences,
        }
    }

    /// How many they are.
    pub fn count(&self) -> usize {
        match self {
            Fixes::Centimetres(list) => list.len(),
            Fixes::Millimetres(list) => list.len(),
            Fixes::Silences(list) => list.len(),
        }
    }

    /// The same fixes without their kind.
    pub fn any(&self) -> Vec<AnyFix> {
        match self {
            Fixes::Centimetres(list) => list.iter().map(|fix| fix.any()).collect(),
            Fixes::Millimetres(list) => list.iter().map(|fix| fix.any()).collect(),
            Fixes::Silences(list) => list.iter().map(|fix| fix.any()).collect(),
        }
    }
}
