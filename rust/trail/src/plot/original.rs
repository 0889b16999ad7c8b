//! A trail's original: whether it is that, and where it is beside the trail.

use trails::AnyFix;

use crate::trail::Trail;

use super::drawn::{at_second, placed, Placed};
use super::layers::{View, BEYOND};
use super::path::length;
use super::picture::Picture;
use super::svg::Spot;

/// Where a fix is, for messages.
fn at(fix: &AnyFix, of: &Trail) -> String {
    format!("at {} {} {}", fix.x, fix.y, of.unit().symbol())
}

/// How a fix of the trail isn't the original's, whose fix at that second is given, if it has one.
fn unlike(fix: &AnyFix, other: Option<&AnyFix>, trail: &Trail) -> Option<String> {
    let second = trail.clock.named(fix.t);
    let Some(other) = other else {
        return Some(format!("it has no fix at {second}, and the trail has one"));
    };
    if (fix.x, fix.y) != (other.x, other.y) {
        let (here, there) = (at(fix, trail), at(other, trail));
        return Some(format!("at {second} it is {there}, and the trail {here}"));
    }
    match (fix.silence, other.silence) {
        (true, false) => Some(format!(
            "the trail falls silent at {second}, and it doesn't"
        )),
        (false, true) => Some(format!(
            "it falls silent at {second}, and the trail doesn't"
        )),
        _ => None,
    }
}

/// The first fix of the trail that isn't the original's.
fn unlike_fix(trail: &Trail, original: &Trail) -> Option<String> {
    let mut rest = original.fixes.iter().peekable();
    trail.fixes.iter().find_map(|fix| {
        while rest.next_if(|other| other.t < fix.t).is_some() {}
        unlike(
            fix,
            rest.peek().copied().filter(|other| other.t == fix.t),
            trail,
        )
    })
}

/// The first silence of the original that the trail hasn't.
fn lost_silence(trail: &Trail, original: &Trail) -> Option<String> {
    let kept: Vec<_> = trail.silences().collect();
    let lost = original
        .silences()
        .find(|silence| !kept.contains(silence))?;
    let second = trail.clock.named(lost.0);
    Some(format!(
        "it falls silent at {second}, and the trail doesn't"
    ))
}

/// What says that a trail isn't what aging has left of the original. An aged trail is of the same kind, has the same
/// ends and the same silences, and no fix that the original hasn't.
pub fn differs(trail: &Trail, original: &Trail) -> Option<String> {
    if trail.unit() != original.unit() {
        return Some("the trail and the original are in different units".into());
    }
    let silent = |of: &Trail| of.kind.has_silences();
    let named = |second| trail.clock.named(second);
    let ends = |verb: &str, of: fn(&Trail) -> u32| {
        let (here, there) = (of(trail), of(original));
        let what = format!(
            "it {verb} at {}, and the trail at {}",
            named(there),
            named(here)
        );
        (here != there).then_some(what)
    };
    let kinds = match (silent(trail), silent(original)) {
        (true, false) => Some("it is of a kind without silences, and the trail isn't".into()),
        (false, true) => Some("it is of a kind with silences, and the trail isn't".into()),
        _ => None,
    };
    let what = kinds
        .or_else(|| ends("begins", Trail::first))
        .or_else(|| ends("ends", Trail::last))
        .or_else(|| unlike_fix(trail, original))
        .or_else(|| lost_silence(trail, original))?;
    Some(format!("the original isn't this trail's: {what}"))
}

/// How far apart two spots are told apart beside each other's lines.
const APART: f64 = 3.0;

/// An original, and where the trail is at the time of each of its fixes.
pub struct Original {
    pub trail: Trail,
    beside: Vec<Placed>,
}

impl Original {
    /// The original of a trail, which it must be.
    pub fn of(trail: &Trail, original: Trail) -> Original {
        let beside = |fix: &AnyFix| {
            // the two have the same silences, so that there is a place
            placed(trail, at_second(fix.t)).unwrap_or(Placed::from(fix))
        };
        Original {
            beside: original.fixes.iter().map(beside).collect(),
            trail: original,
        }
    }

    /// Whether a view tells it from the trail at the time of a fix.
    fn is_beside(&self, view: &View, fix: &Placed) -> bool {
        let second = |of: &Placed| of.moment.second;
        let found = self.beside.binary_search_by_key(&second(fix), second);
        let trail = found.ok().and_then(|k| self.beside.get(k));
        let apart = |trail| length(&[(view.spot)(trail), (view.spot)(fix)]);
        trail.is_some_and(|trail| apart(trail) >= APART)
    }

    /// A stretch in pieces, by turns beside the trail and not.
    fn pieces(&self, view: &View, stretch: &[Placed]) -> Vec<(bool, Vec<Placed>)> {
        let fixes = stretch.iter().map(|fix| (self.is_beside(view, fix), *fix));
        let mut pieces: Vec<(bool, Vec<Placed>)> = Vec::new();
        let mut before: Option<(bool, Placed)> = None;
        for (beside, fix) in fixes {
            let leg = beside || before.is_some_and(|(beside, _)| beside);
            match pieces.last_mut() {
                Some((same, piece)) if *same == leg => piece.push(fix),
                _ => pieces.push((
                    leg,
                    before
                        .map(|(_, fix)| fix)
                        .into_iter()
                        .chain([fix])
                        .collect(),
                )),
            }
            before = Some((beside, fix));
        }
        pieces
    }

    /// Its lines in a view: those that are beside the trail, or the others.
    pub fn lines(&self, picture: &Picture, view: &View, beside: bool) -> Vec<Vec<Spot>> {
        let stretches = picture.stretches(view, &self.trail);
        let pieces = stretches.flat_map(|stretch| self.pieces(view, &stretch));
        let wanted = pieces.filter(|(is_beside, _)| *is_beside == beside);
        let lines = wanted.flat_map(|(_, piece)| view.lines(&piece, BEYOND));
        lines.collect()
    }
}
