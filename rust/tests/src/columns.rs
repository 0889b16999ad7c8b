//! Fixes as the interface has them for other languages: a column for the times, one for x, one for y and one for
//! silences, which need not be of one length.

use crate::cases::Random;
use crate::plain::kinds::Kind;
use crate::plain::Fix;

#[derive(Clone, Debug, PartialEq, Eq)]
pub struct Columns {
    pub t: Vec<u32>,
    pub x: Vec<i32>,
    pub y: Vec<i32>,
    /// which the writers of kinds without silences aren't lent
    pub silence: Vec<u8>,
}

impl Columns {
    pub fn of(fixes: &[Fix]) -> Columns {
        Columns {
            t: fixes.iter().map(|fix| fix.t).collect(),
            x: fixes.iter().map(|fix| fix.x).collect(),
            y: fixes.iter().map(|fix| fix.y).collect(),
            silence: fixes.iter().map(|fix| fix.silence).collect(),
        }
    }

    /// Columns of these lengths, with anything in them.
    pub fn any([t, x, y, silence]: [usize; 4], random: &mut Random) -> Columns {
        let mut coordinates = |n| (0..n).map(|_| random.between(-9, 9) as i32).collect();
        let (x, y) = (coordinates(x), coordinates(y));
        let t = (0..t).map(|_| random.between(0, 99) as u32).collect();
        let silence = random.bytes(silence);
        Columns { t, x, y, silence }
    }

    /// "the list is as long as the shortest" of the columns that the kind's writer is lent
    pub fn fixes(&self, kind: Kind) -> Vec<Fix> {
        let all = self.t.iter().zip(&self.x).zip(&self.y);
        let fixes = all.map(|((&t, &x), &y)| Fix::from((t, x, y)));
        if !kind.silences {
            return fixes.collect();
        }
        let both = fixes.zip(&self.silence);
        both.map(|(fix, &silence)| Fix { silence, ..fix }).collect()
    }

    pub fn lengths(&self) -> [usize; 4] {
        let Columns { t, x, y, silence } = self;
        [t.len(), x.len(), y.len(), silence.len()]
    }

    /// Puts a list's fixes down, in each column as many as it holds.
    pub fn fill(&mut self, fixes: &[Fix]) {
        let from = Columns::of(fixes);
        put(&mut self.t, &from.t);
        put(&mut self.x, &from.x);
        put(&mut self.y, &from.y);
        put(&mut self.silence, &from.silence);
    }
}

fn put<T: Copy>(to: &mut [T], from: &[T]) {
    let many = to.len().min(from.len());
    to[..many].copy_from_slice(&from[..many]);
}
