//! A plain version of lists of agings: the calls, the book beside them, and the questions asked after them.

use super::approach::{self, Approach, Circle};
use super::crossing::{self, Question};
use super::kinds::Kind;
use super::place::Time;
use super::table::{Table, NUMBERS};
use super::thinning::{age, age_by_days, thin};
use super::{read, Trail, NEVER};

/// A call of aging, with its argument, and by days with its table.
#[derive(Clone, Copy, Debug, PartialEq, Eq)]
pub enum Call {
    Tolerance(u16),
    Days(u16, Table),
}

/// A list of calls as it is lent, with the numbers of the tables that it has. Document 01 leaves the form open;
/// `include/trails.h` has it.
#[derive(Clone, Debug, Default, PartialEq, Eq)]
pub struct List {
    pub calls: Vec<u64>,
    pub tables: Vec<u16>,
}

impl List {
    pub fn of_tolerances(tolerances: &[u16]) -> List {
        List {
            calls: tolerances.iter().copied().map(u64::from).collect(),
            tables: Vec::new(),
        }
    }

    /// The table with this number: "one of which not all 65 are lent is a table without rows".
    pub fn table(&self, k: u64) -> Table {
        let k = usize::try_from(k).unwrap_or(usize::MAX);
        let lent = self.tables.chunks_exact(NUMBERS).nth(k);
        lent.map_or(Table::default(), Table::of_numbers)
    }

    /// The call that a number is.
    pub fn call(&self, number: u64) -> Call {
        match u16::try_from(number) {
            Ok(e) => Call::Tolerance(e),
            Err(_) => {
                let table = self.table(number / 65_536 - 1);
                Call::Days((number % 65_536) as u16, table)
            }
        }
    }

    /// All its calls, in order.
    pub fn all(&self) -> Vec<Call> {
        self.calls.iter().map(|&number| self.call(number)).collect()
    }
}

impl Call {
    /// Makes the call.
    pub fn make(self, lent: &mut [u8]) -> Result<u32, u8> {
        match self {
            Call::Tolerance(e) => age(lent, e),
            Call::Days(days, table) => age_by_days(lent, days, &table),
        }
    }

    /// The tolerance that it applies to an accepted record of this kind, none if its days give none; or the check that
    /// turns it away.
    pub fn applies(self, kind: Kind) -> Result<Option<u16>, u8> {
        match self {
            Call::Tolerance(e) if e > kind.top => Err(10),
            Call::Tolerance(e) => Ok(Some(e)),
            Call::Days(days, table) => table.gives(days, kind),
        }
    }
}

/// Makes the calls one after the other, and answers how many of them were turned away. Of a record that is refused
/// itself nothing is done.
pub fn run(lent: &mut [u8], calls: &[Call]) -> Result<usize, u8> {
    read(lent)?;
    let answers = calls.iter().map(|call| call.make(lent));
    Ok(answers.filter(Result::is_err).count())
}

/// What a question is answered of what the list leaves. Where it is refused, the list isn't made.
fn after<T>(
    lent: &mut [u8],
    calls: &[Call],
    ask: impl Fn(&[u8]) -> Result<T, u8>,
) -> Result<T, u8> {
    ask(lent)?;
    run(lent, calls)?;
    ask(lent)
}

/// The crossing of what the list leaves.
pub fn crosses_after(
    lent: &mut [u8],
    calls: &[Call],
    question: &Question,
) -> Result<Option<Time>, u8> {
    after(lent, calls, |lent| crossing::crosses(lent, question))
}

/// When what the list leaves came near a point.
pub fn near_after(
    lent: &mut [u8],
    calls: &[Call],
    circle: &Circle,
) -> Result<Option<Approach>, u8> {
    after(lent, calls, |lent| approach::near(lent, circle))
}

/// The plain book: the original, and E, at first none. It is fed the calls and sees no record.
pub struct Book {
    original: Trail,
    pub e: Option<u16>,
}

impl Book {
    pub fn of(original: &Trail) -> Book {
        Book {
            original: original.clone(),
            e: None,
        }
    }

    /// "A call that one of its checks turns away leaves E."
    pub fn feed(&mut self, call: Call) {
        let applied = call.applies(self.original.kind);
        // none is less than any tolerance
        self.e = self.e.max(applied.unwrap_or(None));
    }

    /// What is left after the calls.
    pub fn expected(&self) -> Trail {
        let Trail { kind, fixes, .. } = &self.original;
        let (mark, fixes) = match self.e {
            None => (NEVER, fixes.clone()),
            Some(e) => (e, thin(fixes, e).kept),
        };
        let kind = *kind;
        Trail { kind, mark, fixes }
    }
}
