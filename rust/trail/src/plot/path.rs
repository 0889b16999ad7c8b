//! Lines as they are drawn: cut off where the panel ends, and without spots that nobody could tell apart.

use super::svg::Spot;

/// Two opposite corners, the one nearest to the picture's own corner first.
pub type Corners = (Spot, Spot);

/// The corners, this much further out.
pub fn wider((one, other): Corners, by: f64) -> Corners {
    ((one.0 - by, one.1 - by), (other.0 + by, other.1 + by))
}

/// From which share of a way to which one of its two coordinates is between two edges.
fn shares(start: f64, way: f64, low: f64, high: f64) -> (f64, f64) {
    if way == 0.0 {
        return match (low..=high).contains(&start) {
            true => (0.0, 1.0),
            false => (1.0, 0.0),
        };
    }
    let (one, other) = ((low - start) / way, (high - start) / way);
    (one.min(other).max(0.0), one.max(other).min(1.0))
}

/// The part of a straight line that is between the corners.
fn cut(from: Spot, to: Spot, (one, other): Corners) -> Option<(Spot, Spot)> {
    let way = (to.0 - from.0, to.1 - from.1);
    let across = shares(from.0, way.0, one.0, other.0);
    let down = shares(from.1, way.1, one.1, other.1);
    let (enter, leave) = (across.0.max(down.0), across.1.min(down.1));
    let at = |share: f64| (from.0 + share * way.0, from.1 + share * way.1);
    let (enters, leaves) = (enter > 0.0, leave < 1.0);
    (enter <= leave).then(|| {
        let start = if enters { at(enter) } else { from };
        (start, if leaves { at(leave) } else { to })
    })
}

/// A line through spots, as far as it is between the corners: it ends where it leaves, and begins anew where it comes
/// back. So no spot is so far away that a viewer would put it wrongly. A lone spot is there twice, which makes a dot.
pub fn inside(spots: &[Spot], corners: Corners) -> Vec<Vec<Spot>> {
    let mut lines: Vec<Vec<Spot>> = Vec::new();
    let nexts = spots.iter().skip(1).chain(spots.last());
    for (from, to) in spots.iter().zip(nexts) {
        let Some((from, to)) = cut(*from, *to, corners) else {
            continue;
        };
        match lines.last_mut() {
            Some(line) if line.last() == Some(&from) => line.extend((from != to).then_some(to)),
            _ => lines.push(vec![from, to]),
        }
    }
    lines
}

/// The spots that are at least so far from the one before, and both ends.
pub fn spaced(line: &[Spot], apart: f64) -> Vec<Spot> {
    let mut kept: Vec<Spot> = line.first().copied().into_iter().collect();
    let far = |a: &Spot, b: &Spot| (a.0 - b.0).abs().max((a.1 - b.1).abs()) >= apart;
    let middle = line.get(1..line.len().saturating_sub(1));
    for spot in middle.unwrap_or_default() {
        if kept.last().is_some_and(|last| far(last, spot)) {
            kept.push(*spot);
        }
    }
    kept.extend(line.last());
    kept
}

pub fn length(line: &[Spot]) -> f64 {
    let legs = line.iter().zip(line.iter().skip(1));
    legs.map(|(a, b)| (b.0 - a.0).hypot(b.1 - a.1)).sum()
}

#[cfg(test)]
mod tests {
    use super::*;

    const CORNERS: Corners = ((0.0, 0.0), (10.0, 10.0));

    #[test]
    fn lines_end_where_they_leave() {
        let whole = [(1.0, 1.0), (9.0, 2.0), (9.0, 9.0)];
        assert_eq!(inside(&whole, CORNERS), [whole.to_vec()]);
        let out = [(5.0, 5.0), (15.0, 5.0), (15.0, 7.0), (5.0, 7.0)];
        assert_eq!(
            inside(&out, CORNERS),
            [[(5.0, 5.0), (10.0, 5.0)], [(10.0, 7.0), (5.0, 7.0)]]
        );
        let through = [(-10.0, 5.0), (30.0, 5.0)];
        assert_eq!(inside(&through, CORNERS), [[(0.0, 5.0), (10.0, 5.0)]]);
        let beside = [(-5.0, 0.0), (-5.0, 10.0), (0.0, 20.0)];
        assert!(inside(&beside, CORNERS).is_empty());
    }

    #[test]
    fn a_lone_spot_is_a_dot() {
        assert_eq!(inside(&[(5.0, 5.0)], CORNERS), [[(5.0, 5.0); 2]]);
        assert!(inside(&[(15.0, 5.0)], CORNERS).is_empty());
        assert!(inside(&[], CORNERS).is_empty());
    }

    #[test]
    fn spots_that_nobody_tells_apart_are_one() {
        let line = [(0.0, 0.0), (0.1, 0.0), (0.4, 0.0), (0.5, 0.0)];
        assert_eq!(spaced(&line, 0.3), [(0.0, 0.0), (0.4, 0.0), (0.5, 0.0)]);
        assert_eq!(length(&line), 0.5);
    }
}
