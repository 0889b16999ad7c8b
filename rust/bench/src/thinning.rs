//! Thinning as a Rust programmer would write it: fixes in a list, and numbers of 64 bits, or of 128 where 64 don't hold
//! a sum of squares.
//!
//! The plain version in the tests says the same, but is made to be seen right: in numbers of 128 bits, with a list of all
//! distances for each span. Beside that one the proved call would only look quick. So this one is written to be quick, is
//! held to the proved call's answer before the clock starts, and is only timed.

use trails::OfKind;

/// A fix of which a list can be thinned.
pub trait Thinned: OfKind {
    /// What stays at a tolerance, and the count.
    fn thin(fixes: &[Self], e: u16) -> (Vec<Self>, u32);
}

/// The text stands once, for the fixes of each unit, and is no generic function: as such the one for centimetres was
/// seen to take a fifth more time.
macro_rules! thinning {
    ($unit:ident: $fix:ident, $length:ty, squares $square:ty, sums $sum:ty) => {
        mod $unit {
            use super::Thinned;
            use trails::$fix as Fix;

            fn deviation(i: Fix, m: Fix, j: Fix) -> $sum {
                let d = i64::from(j.t - i.t);
                let s = i64::from(m.t - i.t);
                let n = |i: $length, m: $length, j: $length| {
                    let (i, m, j) = (i64::from(i), i64::from(m), i64::from(j));
                    <$square>::from((m - i) * d - (j - i) * s)
                };
                let (nx, ny) = (n(i.x, m.x, j.x), n(i.y, m.y, j.y));
                (nx * nx + ny * ny) as $sum
            }

            fn allowance(e: u16, i: Fix, j: Fix) -> $sum {
                let reach = <$sum>::from(e) * <$sum>::from(j.t - i.t);
                reach * reach
            }

            /// Marks what stays between two positions, and counts.
            fn split(fixes: &[Fix], keep: &mut [bool], from: usize, to: usize, e: u16) -> u32 {
                if to - from < 2 {
                    return 0;
                }
                let (i, j) = (fixes[from], fixes[to]);
                let (mut at, mut furthest) = (from, 0);
                for (k, &m) in (from + 1..).zip(&fixes[from + 1..to]) {
                    let far = deviation(i, m, j);
                    if far > furthest {
                        (at, furthest) = (k, far);
                    }
                }
                let count = (to - from - 1) as u32;
                if furthest <= allowance(e, i, j) {
                    return count;
                }
                keep[at] = true;
                count + split(fixes, keep, from, at, e) + split(fixes, keep, at, to, e)
            }

            impl Thinned for Fix {
                fn thin(fixes: &[Fix], e: u16) -> (Vec<Fix>, u32) {
                    let last = fixes.len() - 1;
                    let mut keep = vec![false; fixes.len()];
                    keep[0] = true;
                    keep[last] = true;
                    let count = split(fixes, &mut keep, 0, last, e);
                    let stays = fixes.iter().zip(&keep).filter(|(_, &keep)| keep);
                    (stays.map(|(&fix, _)| fix).collect(), count)
                }
            }
        }
    };
}

thinning!(centimetres: Fix, i16, squares i64, sums u64);
thinning!(millimetres: MillimetreFix, i32, squares i128, sums u128);
