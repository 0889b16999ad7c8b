//! A plain version of thinning and of aging.

use super::table::Table;
use super::{read, refuse_if, stretches, Fix, Trail, NEVER};

/// What a thinning keeps, and the count: one for each inner fix measured in each span examined.
#[derive(Debug, PartialEq, Eq)]
pub struct Thinned {
    pub kept: Vec<Fix>,
    pub count: u32,
}

/// The two ends of a span, and D, its seconds.
struct Span {
    i: Fix,
    j: Fix,
    d: i128,
}

fn seconds(from: Fix, to: Fix) -> i128 {
    i128::from(to.t) - i128::from(from.t)
}

impl Span {
    fn new(i: Fix, j: Fix) -> Span {
        let d = seconds(i, j);
        Span { i, j, d }
    }

    /// Nx² + Ny² of an inner fix. "Per axis, N = (x_m − x_i)·D − (x_j − x_i)·(t_m − t_i)."
    fn sum(&self, m: Fix) -> i128 {
        let since = seconds(self.i, m);
        let n = |i: i32, m: i32, j: i32| {
            let (i, m, j) = (i128::from(i), i128::from(m), i128::from(j));
            (m - i) * self.d - (j - i) * since
        };
        let nx = n(self.i.x, m.x, self.j.x);
        let ny = n(self.i.y, m.y, self.j.y);
        nx * nx + ny * ny
    }

    /// e²·D²: "The distance is at most e exactly if Nx² + Ny² ≤ e²·D²."
    fn allowance(&self, e: u16) -> i128 {
        let e = i128::from(e);
        e * e * self.d * self.d
    }
}

/// The sum of each inner fix of a span, whose ends are the first of these fixes and the last.
pub fn sums(fixes: &[Fix]) -> Vec<i128> {
    let [i, inner @ .., j] = fixes else {
        // a lone fix is a span with no inner fix too
        return Vec::new();
    };
    let span = Span::new(*i, *j);
    inner.iter().map(|&m| span.sum(m)).collect()
}

/// "Each stretch between silences is thinned by itself, the counts added."
pub fn thin(fixes: &[Fix], e: u16) -> Thinned {
    let pieces: Vec<Thinned> = stretches(fixes)
        .map(|stretch| thin_stretch(stretch, e))
        .collect();
    Thinned {
        count: pieces.iter().map(|piece| piece.count).sum(),
        kept: pieces.into_iter().flat_map(|piece| piece.kept).collect(),
    }
}

/// Douglas-Peucker. Spans that are still to be examined wait in a list, so no depth of splitting can matter.
fn thin_stretch(fixes: &[Fix], e: u16) -> Thinned {
    let last = fixes.len() - 1;
    let mut keep = vec![false; fixes.len()];
    keep[0] = true;
    keep[last] = true;
    let mut count = 0;
    let mut waiting = vec![(0, last)];
    while let Some((from, to)) = waiting.pop() {
        let sums = sums(&fixes[from..=to]);
        count += sums.len() as u32;
        let most = sums.iter().copied().max().unwrap_or(0);
        if most <= Span::new(fixes[from], fixes[to]).allowance(e) {
            continue;
        }
        // "the furthest, the earliest of equals"
        let first = sums.iter().position(|&one| one == most);
        let split = from + 1 + first.expect("the greatest is one of them");
        keep[split] = true;
        waiting.push((from, split));
        waiting.push((split, to));
    }
    let all = fixes.iter().zip(&keep);
    let kept = all.filter(|(_, &keep)| keep).map(|(&fix, _)| fix).collect();
    Thinned { kept, count }
}

/// Thins the record at the buffer's start, and answers the count. The bytes after the new record stay.
fn rewrite(lent: &mut [u8], trail: &Trail, e: u16) -> u32 {
    let Thinned { kept, count } = thin(&trail.fixes, e);
    let aged = Trail {
        kind: trail.kind,
        mark: match trail.mark {
            NEVER => e,
            mark => mark.max(e),
        },
        fixes: kept,
    };
    let bytes = aged.bytes();
    lent[..bytes.len()].copy_from_slice(&bytes);
    count
}

/// Aging by tolerance: checks 1 to 9, 20 and 10.
pub fn age(lent: &mut [u8], e: u16) -> Result<u32, u8> {
    let trail = read(lent)?;
    refuse_if(10, e > trail.kind.top)?;
    Ok(rewrite(lent, &trail, e))
}

/// What aging by days applies: checks 1 to 9 and 20, and "directly after" them 22 and 23.
pub fn days_apply(lent: &[u8], days: u16, table: &Table) -> Result<Option<u16>, u8> {
    let trail = read(lent)?;
    table.gives(days, trail.kind)
}

/// Aging by days, which makes the same checks.
pub fn age_by_days(lent: &mut [u8], days: u16, table: &Table) -> Result<u32, u8> {
    let applied = days_apply(lent, days, table)?;
    applied.map_or(Ok(0), |e| age(lent, e))
}
