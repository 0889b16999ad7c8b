//! What is answered to a question of yes or no, put so that the two sides can be compared.

use crate::interface::{self, Approach, Crossing};
use crate::plain::approach;
use crate::plain::kinds::Kind;
use crate::plain::place::Time;

/// An answer to a question of yes or no, with what a yes tells. Two times are equal by value, since the plain version
/// has a form of its own.
#[derive(Clone, Debug, PartialEq)]
pub enum Told<Y> {
    Refused(u32),
    No,
    Yes(Y),
    /// what no answer may be: a denominator that the record's kind can't have, or a no or a refusal that carries
    /// something; all its numbers
    Never(Vec<u64>),
}

/// Of the crossing question.
pub type Crossed = Told<Time>;

/// Of the radius question.
pub type Approached = Told<approach::Approach>;

impl<Y> Told<Y> {
    /// All numbers of an answer: the refusal, 1 for a yes, and what `tells` reads, if it is what a yes may tell.
    fn of_numbers(numbers: &[u64], tells: impl FnOnce(&[u64]) -> Option<Y>) -> Told<Y> {
        let never = || Told::Never(numbers.to_vec());
        match numbers {
            [refusal, carried @ ..] if carried.iter().all(|n| *n == 0) => match *refusal {
                0 => Told::No,
                number => u32::try_from(number).map_or_else(|_| never(), Told::Refused),
            },
            [0, 1, told @ ..] => tells(told).map_or_else(never, Told::Yes),
            _ => never(),
        }
    }

    /// The refusal, 0 for none.
    pub fn refusal(&self) -> u32 {
        match self {
            Told::Refused(number) => *number,
            _ => 0,
        }
    }

    /// What a yes tells.
    pub fn yes(self) -> Option<Y> {
        match self {
            Told::Yes(tells) => Some(tells),
            _ => None,
        }
    }
}

impl<Y> From<Result<Option<Y>, u8>> for Told<Y> {
    fn from(result: Result<Option<Y>, u8>) -> Told<Y> {
        match result {
            Err(number) => Told::Refused(number.into()),
            Ok(None) => Told::No,
            Ok(Some(tells)) => Told::Yes(tells),
        }
    }
}

/// A fraction of seconds, if its denominator is from 1 to the greatest.
fn time(p: u64, q: u64, greatest: u64) -> Option<Time> {
    (1..=greatest).contains(&q).then(|| Time {
        p: p.into(),
        q: q.into(),
    })
}

impl Crossed {
    /// What is answered about a record of this kind.
    pub fn of(kind: Kind, answer: Crossing) -> Crossed {
        Told::of_numbers(&interface::numbers(answer), |told| match told {
            [p, q] => time(*p, *q, kind.denominator.into()),
            _ => None,
        })
    }
}

impl Approached {
    /// What is answered about a record of this kind. No leg is longer than from one corner of the hall to the other.
    pub fn of(kind: Kind, answer: Approach) -> Approached {
        let side = 2 * u64::from(kind.limit.unsigned_abs());
        Told::of_numbers(&interface::numbers_near(answer), |told| match told {
            [leg, p, q] => Some(approach::Approach {
                leg: usize::try_from(*leg).ok()?,
                time: time(*p, *q, 2 * side * side)?,
            }),
            _ => None,
        })
    }
}
