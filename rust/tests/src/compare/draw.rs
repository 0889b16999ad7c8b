//! Cases for the comparison: a buffer, mostly with a small trail, and an operation that fits it or is refused.

use super::{Case, Operation};
use crate::cases::{faults, faults_of_fixes, in_columns, kind_of, some_faults, spoil};
use crate::cases::{Draft, Random};
use crate::columns::Columns;
use crate::plain::approach::Circle;
use crate::plain::crossing::Question;
use crate::plain::dearest;
use crate::plain::kinds::{Kind, CENTIMETRES, KINDS};
use crate::plain::lists::{Call, List};
use crate::plain::table::Table;
use crate::plain::{read, Fix, Trail, MOST_FIXES, NEVER};
use crate::questions::{Asked, Moment, Spoiled};
use crate::shapes::{trail, SHAPES};
use crate::tables::RowColumns;

/// A case, and the kind that its record was made as, before it was damaged.
pub struct Drawn {
    pub made: Kind,
    pub case: Case,
}

pub fn drawn(random: &mut Random) -> Drawn {
    let made = random.pick(&KINDS);
    let case = case(made, random);
    Drawn { made, case }
}

fn case(made: Kind, random: &mut Random) -> Case {
    let buffer = buffer(made, random);
    let kind = kind_of(&buffer, made);
    let operation = match random.between(0, 15) {
        0 => Operation::Check,
        1 => Operation::Read(positions(random)),
        2 => return writing(made, random),
        3 => Operation::List,
        4 => Operation::Age(tolerance(kind, random)),
        5 => by_days(Operation::Days, random),
        6 => Operation::Run(agings(kind, random)),
        7 => Operation::Place(asked::<Moment>(&buffer, &[11, 12, 21], random)),
        8 => Operation::Crosses(asked::<Question>(&buffer, &[13, 14], random)),
        9 => Operation::ReadAll(lent_columns(&buffer, random)),
        10 => by_days(Operation::Apply, random),
        11 => return loading(random),
        12 => Operation::Near(asked::<Circle>(&buffer, &[16], random)),
        13 => {
            let circle = asked::<Circle>(&buffer, &[16], random);
            Operation::NearAfter(agings(kind, random), circle)
        }
        14 if random.one_in(3) => return aging_the_dearest(random),
        14 => return writing_the_dearest(random),
        _ => {
            let question = asked::<Question>(&buffer, &[13, 14], random);
            Operation::CrossesAfter(agings(kind, random), question)
        }
    };
    Case { buffer, operation }
}

// ---- buffers

/// How many fixes: mostly few, and now and then as many as a record can have.
fn size(random: &mut Random) -> usize {
    let any = random.between(1, MOST_FIXES as i64);
    let n = match random.between(0, 599) {
        0..=3 => random.pick(&[any, any, 4_095, 4_096]),
        4..=33 => random.between(1, 400),
        34..=233 => random.between(1, 6),
        _ => random.between(1, 60),
    };
    n as usize
}

/// A trail of any shape.
fn any(kind: Kind, n: usize, random: &mut Random) -> Trail {
    let shape = random.pick(&SHAPES);
    trail(kind, shape, n, random)
}

/// A mark that others may have left, or none.
pub fn mark(kind: Kind, random: &mut Random) -> u16 {
    let foreign = random.between(0, kind.top.into()) as u16;
    let low = random.between(0, 300) as u16;
    random.pick(&[NEVER, NEVER, 0, kind.top, low, foreign])
}

/// A record of this many fixes with any mark, half of the time with bytes after it.
fn accepted(kind: Kind, n: usize, random: &mut Random) -> Draft {
    let trail = Trail {
        mark: mark(kind, random),
        ..any(kind, n, random)
    };
    followed(trail, random)
}

/// A record that half of the time has bytes after it.
fn followed(trail: Trail, random: &mut Random) -> Draft {
    let after = random.between(-20, 20).max(0) as usize;
    Draft::new(trail, random.bytes(after))
}

fn buffer(kind: Kind, random: &mut Random) -> Vec<u8> {
    let n = size(random);
    match random.between(0, 99) {
        0..=59 => accepted(kind, n, random).bytes(),
        60..=86 => damaged(kind, n, random).bytes(),
        87..=89 => {
            let mut draft = accepted(kind, n, random);
            draft.claim_another_kind(random);
            draft.bytes()
        }
        90..=94 => turned(accepted(kind, n, random).bytes(), random),
        95..=97 => {
            let size = random.between(0, 60) as usize;
            random.bytes(size)
        }
        _ => {
            let n = random.between(1, 6) as usize;
            Draft::noise(kind, random, n, 10).bytes()
        }
    }
}

/// A record with one fault or some, made from the latest check's to the first's.
fn damaged(kind: Kind, n: usize, random: &mut Random) -> Draft {
    let mut draft = accepted(kind, n, random);
    let most = random.pick(&[1, 1, 1, 2, 3]);
    let mut all = faults(kind);
    // a lone fix has nobody to be out of order with
    all.retain(|fault| n > 1 || ![8, 9].contains(fault));
    for fault in some_faults(&all, most, random) {
        draft.spoil(fault, random);
    }
    draft
}

/// A bit or a whole byte is another one, in the head as likely as in all the rest.
fn turned(mut bytes: Vec<u8>, random: &mut Random) -> Vec<u8> {
    let head = random.between(0, 9);
    let any = random.between(0, bytes.len() as i64 - 1);
    let at = random.pick(&[head, any]) as usize;
    let bit = 1 << random.between(0, 7);
    let byte = random.between(1, 255) as u8;
    bytes[at] ^= random.pick(&[bit, byte]);
    bytes
}

// ---- what operations are given

fn positions(random: &mut Random) -> Vec<usize> {
    let many = random.between(1, 6);
    let mut position = |_| {
        let near = random.between(0, 8) as usize;
        let any = random.between(0, 70) as usize;
        let far = 1 << random.between(7, i64::from(usize::BITS) - 1);
        let last = random.pick(&[4_095, 4_096, 65_535, usize::MAX / 8, usize::MAX]);
        random.pick(&[near, near, near, any, any, far, last])
    };
    (0..many).map(&mut position).collect()
}

/// Columns to read into: each as long as the record has fixes, shorter, longer or of no length, half of the time all of
/// one length.
fn lent_columns(buffer: &[u8], random: &mut Random) -> Columns {
    let count = read(buffer).map_or(6, |trail| trail.fixes.len()) as i64;
    let mut length = || {
        let less = random.between(0, count - 1);
        let more = count + random.between(1, 9);
        random.pick(&[0, less, count - 1, count, count, count + 1, more]) as usize
    };
    let each = [length(), length(), length(), length()];
    let lengths = random.pick(&[[each[0]; 4], each]);
    Columns::any(lengths, random)
}

fn tolerance(kind: Kind, random: &mut Random) -> u16 {
    loop {
        if let Call::Tolerance(e) = Call::any(kind, random) {
            return e;
        }
    }
}

fn by_days(operation: fn(u16, Table) -> Operation, random: &mut Random) -> Operation {
    let table = Table::any(random);
    operation(table.days(random), table)
}

/// Rows to load, for which no buffer is lent.
fn loading(random: &mut Random) -> Case {
    Case {
        buffer: Vec::new(),
        operation: Operation::Load(RowColumns::any(random)),
    }
}

/// A list of agings, which may be empty and in few cases is long.
fn agings(kind: Kind, random: &mut Random) -> List {
    let most = random.pick(&[3, 8, 8, 8, 40]);
    let many = random.between(0, most);
    let calls: Vec<Call> = (0..many).map(|_| Call::any(kind, random)).collect();
    List::lending(&calls, random)
}

/// A question of which two in three are good, and others have one of these faults or two.
fn asked<Q: Asked>(buffer: &[u8], faults: &[u8], random: &mut Random) -> Q {
    let many = match random.between(0, 15) {
        0..=3 => 1,
        4 => 2,
        _ => 0,
    };
    let some = some_faults(faults, many, random);
    let Spoiled { question, .. } = Q::spoiled(buffer, &some, random);
    question
}

// ---- the writers

/// An output for a record of so many fixes, which in two of five cases is too short.
fn output(kind: Kind, count: usize, random: &mut Random) -> Vec<u8> {
    let length = kind.record_length(count) as i64;
    let short = random.between(0, length - 1);
    let long = random.between(length, length + 40);
    let bytes = random.pick(&[length, long, long, short, length - 1]);
    random.bytes(bytes as usize)
}

/// The dearest trail, of a number of fixes that a record has or that none has, also one whose low bits, or those of its
/// record's length, are those of a few; into an output for as many, or for a few.
fn writing_the_dearest(random: &mut Random) -> Case {
    let few = random.between(1, 60) as usize;
    let any = random.between(1, MOST_FIXES as i64) as usize;
    let edge = random.pick(&[0, 1, 2, 3, MOST_FIXES - 1, MOST_FIXES, MOST_FIXES + 1]);
    let wide = few + (1 << random.pick(&[16, 32, 61]));
    let n = random.pick(&[few, few, any, edge, edge, wide, usize::MAX]);
    let count = random.pick(&[few, n]).min(MOST_FIXES);
    Case {
        buffer: output(CENTIMETRES, count, random),
        operation: Operation::Dearest(n),
    }
}

/// The dearest trail of few fixes, which is aged at 1 or at any tolerance.
fn aging_the_dearest(random: &mut Random) -> Case {
    let n = random.between(1, 60) as usize;
    let any = tolerance(CENTIMETRES, random);
    Case {
        buffer: followed(dearest::trail(n), random).bytes(),
        operation: Operation::Age(random.pick(&[1, 1, any])),
    }
}

/// A list to write.
fn writing(kind: Kind, random: &mut Random) -> Case {
    let list = list(kind, random);
    Case {
        buffer: output(kind, list.len(), random),
        operation: Operation::Write(kind, columns(kind, &list, random)),
    }
}

/// A list of fixes, good or refused by one of the checks 3, 7, 8, 9 and 20, or some.
fn list(kind: Kind, random: &mut Random) -> Vec<Fix> {
    let n = size(random).max(2);
    let mut list = any(kind, n, random).fixes;
    let kind = in_columns(kind);
    let faults = faults_of_fixes(kind);
    match random.between(0, 19) {
        0 => list.clear(),
        1 if random.one_in(20) => list.resize(MOST_FIXES + 1, list[0]),
        2..=6 => {
            for fault in some_faults(&faults, 2, random) {
                spoil(fault, kind, &mut list, random);
            }
        }
        // which maybe was before a silence
        7 => list.truncate(1),
        8 => {
            list.truncate(1);
            spoil(7, kind, &mut list, random);
        }
        _ => {}
    }
    list
}

/// The columns of a list, of which all but one in some cases go on, with anything. What the writer isn't lent is empty.
fn columns(kind: Kind, list: &[Fix], random: &mut Random) -> Columns {
    let mut columns = Columns::of(list);
    let shortest = random.between(0, 7) as usize;
    let mut more = [0; 4].map(|_| random.between(0, 9) as usize);
    match more.get_mut(shortest) {
        Some(more) => *more = 0,
        None => more = [0; 4],
    }
    let Columns { t, x, y, silence } = &mut columns;
    t.resize(t.len() + more[0], 9);
    x.resize(x.len() + more[1], 5);
    y.resize(y.len() + more[2], -7);
    match kind.silences {
        true => silence.resize(silence.len() + more[3], 7),
        false => silence.clear(),
    }
    columns
}
