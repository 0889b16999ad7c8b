//! How the time of one aging grows with the number of fixes. Twice as many cost the dear trail four times as much,
//! since it is split as unevenly as can be, and other trails a little more than twice as much.

use trails::in_threes;

use crate::aging::Aging;
use crate::layout::{factor, heading, microseconds, row};
use crate::sorts::{in_centimetres, Sort, SORTS};
use crate::timing::by_turns;

const SIZES: [usize; 7] = [64, 128, 256, 512, 1_024, 2_048, 4_096];

/// The seconds of one aging for each size.
fn times(sort: &Sort) -> Vec<f64> {
    let fixes = |n| in_centimetres(&(sort.fixes)(n));
    let agings = SIZES.map(|n| Aging::new(sort.name, fixes(n), sort.tolerance));
    let mut runs = agings.each_ref().map(Aging::proved);
    by_turns(&mut runs)
}

pub fn section() {
    let names = SORTS.each_ref().map(|sort| format!("{}, µs", sort.name));
    let columns = names.iter().flat_map(|name| [name.as_str(), "factor"]);
    heading("Growth of one aging", &columns.collect::<Vec<_>>());
    let sorts = SORTS.each_ref().map(times);
    for (k, n) in SIZES.into_iter().enumerate() {
        let cells = sorts.iter().flat_map(|times| {
            let before = k.checked_sub(1).map(|before| times[before]);
            let growth = before.map(|before| factor(times[k], before));
            [microseconds(times[k]), growth.unwrap_or_default()]
        });
        let name = format!("{} fixes", in_threes(n as u64));
        row(&name, &cells.collect::<Vec<_>>());
    }
    let all = sorts.iter().flat_map(|times| {
        let growth = factor(times[SIZES.len() - 1], times[0]);
        [String::new(), growth]
    });
    row("from 64 to 4,096", &all.collect::<Vec<_>>());
}
