//! How a question of yes or no is answered.

use trails::{Crossing, Unit};

use crate::answer::{Answer, Sort};
use crate::json::Json;
use crate::trail::Trail;
use crate::visits::Visit;
use crate::words;

/// What a yes tells: a time in seconds after the first fix, and maybe the leg of which it is.
pub struct Time {
    pub leg: Option<u32>,
    pub numerator: u64,
    pub denominator: u64,
}

/// When it was.
pub enum When {
    Never,
    /// At this time, and maybe later again.
    At(Time),
    /// Whenever it was, if it ever was.
    Visits(Vec<Visit>),
}

pub struct YesOrNo<'a> {
    pub trail: &'a Trail,
    /// what programs read for yes or no
    pub name: &'static str,
    /// what it was asked with, in the trail's unit
    pub asked: &'static str,
    pub when: When,
    /// of how many silences nothing is known
    pub silences: usize,
    /// what it means of the original
    pub means: String,
}

impl From<Crossing> for Time {
    fn from(crossing: Crossing) -> Time {
        Time {
            leg: None,
            numerator: crossing.numerator,
            denominator: crossing.denominator.into(),
        }
    }
}

impl Time {
    /// The time as it is, and on the clock, cut off after the thousandths.
    pub fn text(&self, trail: &Trail) -> String {
        let (numerator, denominator) = (self.numerator, self.denominator);
        let leg = self.leg.map(|leg| format!("on leg {leg}, closest "));
        let moment = trail.moment(numerator, denominator);
        let at = trail.clock.show_moment(moment);
        let leg = leg.unwrap_or_default();
        format!("{leg}{numerator}/{denominator} seconds after the first fix, at {at}")
    }

    fn fields(&self) -> Vec<(&'static str, Json)> {
        let leg = self.leg.map(|leg| ("leg", Json::Whole(leg.into())));
        let time = [
            ("numerator", Json::Whole(self.numerator.into())),
            ("denominator", Json::Whole(self.denominator.into())),
        ];
        leg.into_iter().chain(time).collect()
    }
}

impl When {
    fn sort(&self) -> Sort {
        match self {
            When::Never => Sort::No,
            When::Visits(visits) if visits.is_empty() => Sort::No,
            When::At(_) | When::Visits(_) => Sort::Yes,
        }
    }

    fn text(&self, trail: &Trail) -> String {
        match self {
            When::At(time) => format!("yes, {}", time.text(trail)),
            When::Visits(visits) if visits.is_empty() => "no".into(),
            When::Visits(visits) => {
                let visits = words::count(visits.len() as u64, "visit", "visits");
                format!("yes, {visits}")
            }
            When::Never => "no".into(),
        }
    }

    fn fields(&self) -> Vec<(&'static str, Json)> {
        match self {
            When::Never => Vec::new(),
            When::At(time) => time.fields(),
            When::Visits(visits) => {
                let visits = visits.iter().map(Visit::answer).collect();
                vec![("visits", Json::List(visits))]
            }
        }
    }

    fn visits(&self) -> &[Visit] {
        match self {
            When::Visits(visits) => visits,
            When::Never | When::At(_) => &[],
        }
    }
}

impl YesOrNo<'_> {
    pub fn answer(self) -> Answer {
        let (trail, sort) = (self.trail, self.when.sort());
        let asked = match trail.unit() {
            Unit::Centimetres => String::new(),
            // who has asked in centimetres is to see that the trail isn't
            Unit::Millimetres => format!(", {} in {}", self.asked, trail.unit().symbol()),
        };
        let line = format!("{}{asked}; {}", self.when.text(trail), self.means);
        let visits = self.when.visits().iter();
        Answer {
            sort,
            lines: vec![line],
            visits: visits.map(|visit| visit.text(trail)).collect(),
            fields: self.fields(sort),
        }
    }

    fn fields(self, sort: Sort) -> Vec<(&'static str, Json)> {
        let trail = self.trail;
        let mut fields = vec![(self.name, Json::Truth(sort == Sort::Yes))];
        fields.extend(self.when.fields());
        if sort == Sort::Yes {
            fields.push(("first", Json::Whole(trail.first().into())));
        }
        fields.push(("mark", Json::mark(trail.mark)));
        fields.push(("silences", Json::silences(trail.kind, self.silences)));
        fields.push(("means", Json::text(self.means)));
        fields
    }
}
