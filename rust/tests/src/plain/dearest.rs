//! A plain version of the dearest trail: document 02's item 13.

use super::kinds::CENTIMETRES;
use super::{bad_count, refuse_if, Fix, Trail};

/// "Fix i at second i, x 0, y equal to n − 1 − i, plus for even i and minus for odd", "kind 1 marked never".
pub fn trail(n: usize) -> Trail {
    let fix = |i: usize| {
        let y = (n - 1 - i) as i32;
        let sign = if i.is_multiple_of(2) { 1 } else { -1 };
        Fix::from((i as u32, 0, sign * y))
    };
    Trail::never_thinned(CENTIMETRES, (0..n).map(fix).collect())
}

/// What it counts at tolerance 1, "exactly (n − 1)(n − 2)/2", and "no record of n fixes counts more at any tolerance".
pub fn count(n: usize) -> u32 {
    // of one fix the first factor is 0
    ((n - 1) * n.saturating_sub(2) / 2) as u32
}

/// Writes it "into a lent buffer" and answers the record's length. "Checks: 3 and 15 apply."
pub fn write(n: usize, output: &mut [u8]) -> Result<usize, u8> {
    refuse_if(3, bad_count(n))?;
    trail(n).put(output)
}
