//! A plain version of the place question: where the cart was at a moment.

use super::place::{is_silent, Time};
use super::{read, refuse_if, Fix};

/// The place (x/denominator, y/denominator), not reduced, and the rounded one beside it.
#[derive(Clone, Copy, Debug, PartialEq, Eq)]
pub struct Whereabouts {
    pub denominator: i128,
    pub x: i128,
    pub y: i128,
    pub whole_x: i128,
    pub whole_y: i128,
}

impl Whereabouts {
    fn new(x: i128, y: i128, denominator: i128) -> Whereabouts {
        Whereabouts {
            denominator,
            x,
            y,
            whole_x: rounded(x, denominator),
            whole_y: rounded(y, denominator),
        }
    }

    /// "denominator 1000·D and numerator x_i·1000·D + (x_j − x_i)·(1000·(s − t_i) + m), likewise y"
    fn on_leg(i: Fix, j: Fix, moment: i128) -> Whereabouts {
        let d = thousandths_of(j) - thousandths_of(i);
        let since = moment - thousandths_of(i);
        let axis = |i: i32, j: i32| {
            let (i, j) = (i128::from(i), i128::from(j));
            i * d + (j - i) * since
        };
        Whereabouts::new(axis(i.x, j.x), axis(i.y, j.y), d)
    }

    /// The place at a moment, in thousandths, from the first fix to the last.
    fn at(fixes: &[Fix], moment: i128) -> Whereabouts {
        // "the first whose end isn't earlier than the moment"; a lone fix has no leg
        let mut legs = fixes.windows(2);
        match legs.find(|leg| thousandths_of(leg[1]) >= moment) {
            Some(leg) => Whereabouts::on_leg(leg[0], leg[1], moment),
            None => Whereabouts::new(fixes[0].x.into(), fixes[0].y.into(), 1),
        }
    }
}

/// "the nearest whole number", and of document 02's item 1 "halves away from zero": n/d and a half more on its own side of 0,
/// cut off towards 0.
pub(super) fn rounded(n: i128, d: i128) -> i128 {
    (2 * n + n.signum() * d) / (2 * d)
}

fn thousandths_of(fix: Fix) -> i128 {
    1_000 * i128::from(fix.t)
}

/// The place question: checks 1 to 9, 20, 11, 12 and 21.
pub fn place(lent: &[u8], second: u32, thousandths: u16) -> Result<Whereabouts, u8> {
    let fixes = read(lent)?.fixes;
    refuse_if(11, thousandths > 999)?;
    let moment = 1_000 * i128::from(second) + i128::from(thousandths);
    let (first, last) = (fixes[0], fixes[fixes.len() - 1]);
    let outside = moment < thousandths_of(first) || moment > thousandths_of(last);
    refuse_if(12, outside)?;
    let time = Time {
        p: moment,
        q: 1_000,
    };
    refuse_if(21, is_silent(&fixes, time))?;
    Ok(Whereabouts::at(&fixes, moment))
}
