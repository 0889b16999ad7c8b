//! A trail that is read from a file.

use std::ffi::{OsStr, OsString};

use trails::{AnyFix, Area, Head, Kind, Moment, Refusal, Unit, Window};

use crate::clock::{self, Clock};
use crate::failure::{Fact, Failure, Refused, Spot};
use crate::files;

/// Both ends of a silence, in seconds.
pub type Silence = (u32, u32);

pub struct Trail {
    pub name: OsString,
    /// what the file begins with: the record, and maybe more
    pub bytes: Vec<u8>,
    pub kind: Kind,
    /// the greatest tolerance applied so far, none for a trail that was never thinned
    pub mark: Option<u16>,
    pub fixes: Vec<AnyFix>,
    /// what its seconds are told on
    pub clock: Clock,
}

/// The stretches between silences: of a trail without any, all of it.
pub fn stretches(fixes: &[AnyFix]) -> impl Iterator<Item = &[AnyFix]> {
    fixes.split_inclusive(|fix| fix.silence)
}

impl Trail {
    pub fn read(name: &OsStr, clock: Clock) -> Result<Trail, Failure> {
        let (bytes, _) = files::begin(name)?;
        let head = trails::check(&bytes).map_err(refused(name, &bytes))?;
        let fixes = trails::fixes(&bytes).map_err(refused(name, &bytes))?;
        let Head { kind, mark, .. } = head;
        Ok(Trail {
            name: name.to_os_string(),
            bytes,
            kind,
            mark,
            fixes: fixes.any(),
            clock,
        })
    }

    /// The unit of all its lengths.
    pub fn unit(&self) -> Unit {
        self.kind.unit()
    }

    /// The fixes at both ends of each silence, in order.
    pub fn silent_legs(&self) -> impl Iterator<Item = (&AnyFix, &AnyFix)> {
        let legs = self.fixes.iter().zip(self.fixes.iter().skip(1));
        legs.filter(|(from, _)| from.silence)
    }

    /// Its silences, in order.
    pub fn silences(&self) -> impl Iterator<Item = Silence> + '_ {
        self.silent_legs().map(|(from, to)| (from.t, to.t))
    }

    /// A time that an answer tells in seconds after the first fix, on the trail's own clock and cut off after the
    /// thousandths.
    pub fn moment(&self, numerator: u64, denominator: u64) -> Moment {
        clock::cut(self.first(), numerator, denominator)
    }

    /// How many of its silences have some time of a window strictly inside them.
    pub fn silences_in(&self, window: Window) -> usize {
        let meets = |(from, to): &Silence| window.start < *to && *from < window.end;
        self.silences().filter(meets).count()
    }

    /// The silence that a moment is strictly inside.
    fn silence_at(&self, moment: Moment) -> Option<Silence> {
        let after = |from: u32| (moment.second, moment.thousandths) > (from, 0);
        let mut silences = self.silences();
        silences.find(|(from, to)| after(*from) && moment.second < *to)
    }

    /// Its first second: an accepted trail has a fix.
    pub fn first(&self) -> u32 {
        self.fixes.first().map_or(0, |fix| fix.t)
    }

    /// Its last second.
    pub fn last(&self) -> u32 {
        self.fixes.last().map_or(0, |fix| fix.t)
    }

    /// All its times.
    pub fn times(&self) -> Window {
        Window {
            start: self.first(),
            end: self.last(),
        }
    }

    /// Whether a moment is one of its times.
    pub fn has(&self, moment: Moment) -> bool {
        let Moment {
            second,
            thousandths,
        } = moment;
        let at_end = second == self.last() && thousandths == 0;
        self.first() <= second && (second < self.last() || at_end)
    }

    /// The part of a window that it has, which may be none. A window that ends before it starts has no parts, and is left
    /// to be refused.
    fn within(&self, Window { start, end }: Window) -> Option<Window> {
        if end < start {
            return Some(Window { start, end });
        }
        let (start, end) = (start.max(self.first()), end.min(self.last()));
        (start <= end).then_some(Window { start, end })
    }

    /// The window in which it is asked about a box: as it is given, or all its times; and if it is to be cut to its
    /// times, the part that it has. If it has none it isn't asked, but a bad box is refused then too.
    pub fn asked(
        &self,
        area: Area,
        window: Option<Window>,
        within: bool,
    ) -> Result<Option<Window>, Failure> {
        let all = self.times();
        let window = window.unwrap_or(all);
        if !within {
            return Ok(Some(window));
        }
        let part = self.within(window);
        if part.is_none() {
            let asked = trails::crosses(&self.bytes, area, all);
            asked.map_err(|refusal| self.refused(refusal))?;
        }
        Ok(part)
    }

    /// A question that is turned away, with the trail's times if it is about them.
    pub fn refused(&self, refusal: Refusal) -> Failure {
        let about_times = matches!(refusal, Refusal::BadMoment | Refusal::BadWindow);
        let seconds = about_times.then_some(Fact::Seconds(self.clock, self.first(), self.last()));
        self.refused_with(refusal, seconds)
    }

    /// A place that is turned away, also with the silence if it is in one.
    pub fn refused_at(&self, moment: Moment) -> impl FnOnce(Refusal) -> Failure + '_ {
        move |refusal| match refusal {
            Refusal::InSilence => {
                let silence = self.silence_at(moment);
                self.refused_with(
                    refusal,
                    silence.map(|(from, to)| Fact::Silence(self.clock, from, to)),
                )
            }
            other => self.refused(other),
        }
    }

    fn refused_with(&self, refusal: Refusal, fact: Option<Fact>) -> Failure {
        Failure::Refused(Refused {
            spot: Spot::file(&self.name),
            refusal,
            kind: self.kind,
            fact,
        })
    }
}

/// A record that is turned away, with its count if it is about that.
pub fn refused<'a>(name: &'a OsStr, bytes: &'a [u8]) -> impl FnOnce(Refusal) -> Failure + 'a {
    move |refusal| {
        let count = trails::claimed_count(bytes);
        Failure::Refused(Refused {
            spot: Spot::file(name),
            refusal,
            // bytes that say no kind are refused by sentences that have no limit
            kind: trails::claimed_kind(bytes).unwrap_or(Kind::Centimetres),
            fact: count.and_then(|count| Fact::count(refusal, count)),
        })
    }
}
