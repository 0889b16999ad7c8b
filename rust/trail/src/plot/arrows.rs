//! Heads of arrows along a trail, which say where it goes: few, and none where it turns too soon to be read.

use super::path::{length, spaced};
use super::svg::Spot;

/// How far from one head to the next, at least.
const APART: f64 = 95.0;

/// Where in its part of the way a head stands. It isn't the middle, so that the heads of a way there and back aren't one
/// upon the other.
const ASIDE: f64 = 0.35;

/// Half of the way whose direction a head has, and how straight that must be.
const HALF: f64 = 6.0;
const STRAIGHT: f64 = 0.9;

/// How far from a fix a head can be seen well.
const CLEAR: f64 = 11.0;

/// Wobble that is smaller than this has no direction.
const WOBBLE: f64 = 4.0;

/// Where a line is after this length.
fn along(line: &[Spot], mut after: f64) -> Option<Spot> {
    for (from, to) in line.iter().zip(line.iter().skip(1)) {
        let leg = length(&[*from, *to]);
        if after <= leg && leg > 0.0 {
            let share = after.max(0.0) / leg;
            let between = |a: f64, b: f64| a + share * (b - a);
            return Some((between(from.0, to.0), between(from.1, to.1)));
        }
        after -= leg;
    }
    None
}

/// The three corners of a head after this length, if the line is straight there.
fn head(line: &[Spot], after: f64) -> Option<[Spot; 3]> {
    let (back, front) = (along(line, after - HALF)?, along(line, after + HALF)?);
    let way = (front.0 - back.0, front.1 - back.1);
    let far = way.0.hypot(way.1);
    if after < HALF || far < STRAIGHT * 2.0 * HALF {
        return None;
    }
    let middle = ((back.0 + front.0) / 2.0, (back.1 + front.1) / 2.0);
    let (x, y) = (way.0 / far, way.1 / far);
    let at = |ahead: f64, aside: f64| {
        let (x, y) = (ahead * x - aside * y, ahead * y + aside * x);
        (middle.0 + x, middle.1 + y)
    };
    Some([at(6.0, 0.0), at(-4.0, 4.2), at(-4.0, -4.2)])
}

/// Whether a head is away from all the line's spots, where fixes may cover it.
fn is_clear(line: &[Spot], [tip, one, other]: &[Spot; 3]) -> bool {
    let middle = |of: fn(&Spot) -> f64| (of(tip) + of(one) + of(other)) / 3.0;
    let middle = (middle(|spot| spot.0), middle(|spot| spot.1));
    line.iter().all(|spot| length(&[*spot, middle]) > CLEAR)
}

/// A head near this length, where the line is straight, and away from its spots if there is such a place.
fn head_near(line: &[Spot], after: f64) -> Option<[Spot; 3]> {
    let beside = (0..8).flat_map(|k| [3.0, -3.0].map(|by| by * f64::from(k)));
    let all: Vec<[Spot; 3]> = beside.filter_map(|by| head(line, after + by)).collect();
    let clear = all.iter().find(|head| is_clear(line, head));
    clear.or(all.first()).copied()
}

/// The heads along all lines of a trail, so many at most.
pub fn heads(lines: &[Vec<Spot>], most: usize) -> Vec<[Spot; 3]> {
    let lines: Vec<Vec<Spot>> = lines.iter().map(|line| spaced(line, WOBBLE)).collect();
    let all: f64 = lines.iter().map(|line| length(line)).sum();
    let many = ((all / APART).round() as usize).clamp(1, most.max(1));
    let part = all / many as f64;
    // few lines have one each, also if they are short
    let each = lines.len() <= most;
    let (mut heads, mut before) = (Vec::new(), 0.0);
    for line in &lines {
        let long = length(line);
        let wanted = (0..many).map(|k| (k as f64 + ASIDE) * part - before);
        let mut here: Vec<f64> = wanted.filter(|after| (0.0..long).contains(after)).collect();
        if here.is_empty() && each {
            here.push(ASIDE * long);
        }
        heads.extend(here.iter().filter_map(|after| head_near(line, *after)));
        before += long;
    }
    heads
}

#[cfg(test)]
mod tests {
    use super::*;

    #[test]
    fn heads_point_along_the_line() {
        let there = vec![(0.0, 50.0), (300.0, 50.0)];
        let found = heads(&[there], 24);
        assert_eq!(found.len(), 3);
        for [tip, one, other] in found {
            assert!(tip.0 > one.0 && one.0 == other.0 && tip.1 == 50.0);
        }
        let up = vec![(0.0, 50.0), (0.0, 20.0)];
        let [[tip, one, _]] = heads(&[up], 24)[..] else {
            panic!("one head");
        };
        assert!(tip.1 < one.1);
    }

    #[test]
    fn heads_are_few_and_only_where_they_can_be_read() {
        let far = vec![(0.0, 0.0), (1e5, 0.0)];
        assert_eq!(heads(std::slice::from_ref(&far), 24).len(), 24);
        assert_eq!(heads(&[far.clone(), far], 5).len(), 5);
        let short = vec![(0.0, 0.0), (5.0, 0.0)];
        assert!(heads(&[short], 24).is_empty());
        let zigzag = (0..90).map(|k| (f64::from(k) * 0.1, f64::from(k % 2) * 5.0));
        assert!(heads(&[zigzag.collect()], 24).is_empty());
        assert!(heads(&[vec![(3.0, 3.0); 2]], 24).is_empty());
        assert!(heads(&[], 24).is_empty());
    }
}
