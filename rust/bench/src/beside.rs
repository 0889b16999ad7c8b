//! The aging call beside a straightforward Rust thinning, which is lent fixes and makes no check.

use trails_tests::plain::MOST_FIXES;

use crate::aging::Aging;
use crate::layout::{factor, heading, microseconds, row};
use crate::sorts::{in_centimetres, in_millimetres, slowly, SORTS};
use crate::thinning::Thinned;
use crate::timing::by_turns;

fn times<F: Thinned>(name: &str, fixes: Vec<F>, tolerance: u16) {
    let aging = Aging::new(name, fixes, tolerance);
    let times = by_turns(&mut [aging.proved(), aging.plain()]);
    let (proved, plain) = (times[0], times[1]);
    row(
        &format!("{name}, tolerance {tolerance}"),
        &[
            microseconds(proved),
            microseconds(plain),
            factor(proved, plain),
        ],
    );
}

/// In centimetres beside numbers of 64 bits, and the same trails in millimetres beside numbers of 128. The last ones
/// take hours, so that 64 bits hold the sums of their shorter spans only.
pub fn section() {
    let columns = ["proved, µs", "plain, µs", "ratio"];
    heading("One aging, 4,096 fixes", &columns);
    for sort in &SORTS {
        let fixes = (sort.fixes)(MOST_FIXES);
        times(sort.name, in_centimetres(&fixes), sort.tolerance);
    }
    heading("In millimetres", &columns);
    for sort in &SORTS {
        let fixes = (sort.fixes)(MOST_FIXES);
        times(sort.name, in_millimetres(&fixes), 10 * sort.tolerance);
    }
    heading("In millimetres, over hours", &columns);
    for sort in &SORTS {
        let fixes = slowly((sort.fixes)(MOST_FIXES));
        times(sort.name, in_millimetres(&fixes), 10 * sort.tolerance);
    }
}
