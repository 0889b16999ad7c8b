//! The trail record: its head, its fixes, writing one, the dearest one, and its listing.

use crate::fix::lent::{Columns, Lent};
use crate::fix::{AnyFix, Fix, Fixes, MillimetreFix, OfKind, SilenceFix};
use crate::interface::{self, Answer, LONGEST_TEXT};
use crate::kind::Kind;
use crate::refusal::{value, Refusal};
use crate::unit::Unit;

/// The bytes before a record's fixes.
const HEAD: usize = 10;

/// The most fixes that a record has.
pub const MOST_FIXES: usize = 4_096;

/// The most bytes that a record has, of whatever kind.
pub const LONGEST: usize = length(Kind::Millimetres, MOST_FIXES);

/// The mark of a trail that was never thinned, as a record has it.
const NEVER: u32 = 65_535;

const fn length(kind: Kind, count: usize) -> usize {
    HEAD + kind.fix_bytes() * count
}

/// What an accepted record's head says.
#[derive(Clone, Copy, Debug, PartialEq, Eq, Hash)]
pub struct Head {
    /// Its kind, which says the unit of its lengths and whether it has silences.
    pub kind: Kind,
    /// How many fixes it has.
    pub count: u32,
    /// The greatest tolerance applied so far, in the unit; `None` for a trail that was never thinned.
    pub mark: Option<u16>,
}

impl Head {
    /// The unit of all its lengths.
    pub fn unit(&self) -> Unit {
        self.kind.unit()
    }

    /// How many bytes the record has.
    pub fn length(&self) -> usize {
        length(self.kind, self.count as usize)
    }
}

/// Two bytes of the head, if the bytes are as many as a head has.
fn field(record: &[u8], at: usize) -> Option<u16> {
    let field = record.get(..HEAD)?.get(at..)?.first_chunk()?;
    Some(u16::from_le_bytes(*field))
}

/// The count that the bytes give, whatever else is wrong with them: none if they are fewer than 10.
pub fn claimed_count(record: &[u8]) -> Option<u16> {
    field(record, 8)
}

/// The kind that the bytes give, whatever else is wrong with them: none if they are fewer than 10, or of another kind.
pub fn claimed_kind(record: &[u8]) -> Option<Kind> {
    field(record, 4).and_then(Kind::of_code)
}

/// Whether the bytes begin with a record; bytes after it are ignored. Makes checks 1 to 9 and 20.
pub fn check(record: &[u8]) -> Result<Head, Refusal> {
    let head = interface::check(record);
    Refusal::none_in(head.refusal)?;
    let thinned = Some(head.mark).filter(|mark| *mark != NEVER);
    Ok(Head {
        // only an archive of another version could accept another kind
        kind: Kind::of_code(head.kind).ok_or(Refusal::OtherKind)?,
        count: head.count,
        mark: thinned.and_then(|mark| u16::try_from(mark).ok()),
    })
}

/// The fixes of the record that the bytes begin with, in order, of its kind. Makes checks 1 to 9 and 20.
pub fn fixes(record: &[u8]) -> Result<Fixes, Refusal> {
    let Head { kind, count, .. } = check(record)?;
    let mut columns = Columns::room(count as usize);
    let Columns { t, x, y, silence } = &mut columns;
    value(interface::read_all(record, t, x, y, silence))?;
    let rows = columns.rows();
    Ok(match kind {
        Kind::Centimetres => Fixes::Centimetres(rows.map(centimetres).collect()),
        Kind::Millimetres => Fixes::Millimetres(rows.map(millimetres).collect()),
        Kind::Silences => Fixes::Silences(rows.map(with_silence).collect()),
    })
}

fn centimetres(AnyFix { t, x, y, .. }: AnyFix) -> Fix {
    // a record in centimetres has them in two bytes each
    Fix::new(t, x as i16, y as i16)
}

fn millimetres(AnyFix { t, x, y, .. }: AnyFix) -> MillimetreFix {
    MillimetreFix::new(t, x, y)
}

fn with_silence(fix: AnyFix) -> SilenceFix {
    let Fix { t, x, y } = centimetres(fix);
    let silence = fix.silence;
    SilenceFix { t, x, y, silence }
}

/// Puts the record of a list of fixes at the output's start, of their kind and marked never thinned, and answers its
/// length; later bytes of the output stay. Makes checks 3, 7, 8, 9, 20 and 15.
pub fn write_into<F: OfKind>(list: &[F], output: &mut [u8]) -> Result<usize, Refusal> {
    let columns = Columns::of(list.iter().map(|fix| fix.any()));
    written(F::write(&columns, output))
}

/// The record of a list of fixes, of their kind and marked never thinned. Makes checks 3, 7, 8, 9 and 20.
pub fn write<F: OfKind>(list: &[F]) -> Result<Vec<u8>, Refusal> {
    alone(|output| write_into(list, output))
}

/// The record of a list of fixes, marked never thinned, for who learns its kind only from what is read. Of other kinds
/// than 3 nothing is said of silences, whatever the fixes say. Makes checks 3, 7, 8, 9 and 20.
pub fn write_kind(kind: Kind, list: &[AnyFix]) -> Result<Vec<u8>, Refusal> {
    let columns = Columns::of(list.iter().copied());
    let write = match kind {
        Kind::Centimetres => Fix::write,
        Kind::Millimetres => MillimetreFix::write,
        Kind::Silences => SilenceFix::write,
    };
    alone(|output| written(write(&columns, output)))
}

/// Puts the record of the dearest trail of n fixes at the output's start, in centimetres and marked never thinned, and
/// answers its length; later bytes of the output stay. Makes checks 3 and 15.
///
/// It is for sizing a controller: `age` at tolerance 1 measures (n − 1)(n − 2)/2 fixes of it, and no record of n fixes,
/// of whatever kind and at whatever tolerance, measures more. Its splits nest as deep as any can, and every fix stays.
pub fn dearest_into(n: usize, output: &mut [u8]) -> Result<usize, Refusal> {
    written(interface::dearest(n, output))
}

/// The record of the dearest trail of n fixes: see `dearest_into`. Makes check 3.
pub fn dearest(n: usize) -> Result<Vec<u8>, Refusal> {
    alone(|output| dearest_into(n, output))
}

/// The length of the record that a writer has put down.
fn written(answer: Answer) -> Result<usize, Refusal> {
    value(answer).map(|length| length as usize)
}

/// What is written into an output that has room for every record, and nothing after it.
fn alone(write_into: impl FnOnce(&mut [u8]) -> Result<usize, Refusal>) -> Result<Vec<u8>, Refusal> {
    let mut record = vec![0; LONGEST];
    let length = write_into(&mut record)?;
    record.truncate(length);
    Ok(record)
}

/// The listing of the record that the bytes begin with, as the listing program prints it: count and mark, then each
/// fix, with `silence` where one follows, then `end`. Makes checks 1 to 9 and 20.
pub fn list(record: &[u8]) -> Result<String, Refusal> {
    check(record)?;
    let mut text = vec![0; LONGEST_TEXT];
    // there is always room, since the text was made as long as is asked
    let length = text
        .first_chunk_mut()
        .map_or(0, |room| interface::list(record, room));
    text.truncate(length);
    Ok(String::from_utf8_lossy(&text).into_owned())
}
