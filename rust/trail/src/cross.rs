//! `trail cross`: says whether a cart was in a box, and when first, or when at all.

use trails::{Area, Window};

use crate::answer::{of_each, Answer, Sort};
use crate::arguments::{Arguments, Command};
use crate::failure::{Failure, Status};
use crate::meaning;
use crate::trail::Trail;
use crate::visits::visits;
use crate::yes_or_no::{Time, When, YesOrNo};

pub const COMMAND: Command = Command {
    name: "cross",
    help: HELP,
    options: &[
        "--box", "--window", "--within", "--all", "--epoch", "--json",
    ],
    run,
};

const HELP: &str = "\
usage: trail cross [--all] [--epoch TIME] [--json] FILE...
                   --box X0 X1 Y0 Y1 --window S E
       trail cross [--all] [--epoch TIME] [--json] FILE...
                   --box X0 X1 Y0 Y1 [--window S E] --within

Says whether the cart was in the box, x from X0 to X1 and y from Y0 to Y1, at
some time from second S to second E, edges and both ends included. The box is
in the trail's unit: centimetres, or, and then the answer says so, millimetres.
A yes comes with the earliest time: the seconds after the first fix as a
fraction, and the same on the trail's own clock, cut off after the thousandths.
The fraction isn't reduced; it is the same for the same trail and window at
another time. Of a silence only its two ends count: a window inside one has a
no.

Then it says what that means of the original, the trail as the cart reported
it, straight between its fixes: a no of a thinned trail is no proof that the
cart wasn't in the box, but then it was near an edge. The mark is believed: of
a record from elsewhere this holds if its mark is right. And it says how many
silences the window has, in which nobody knows where the cart was.

Of several FILEs each answer is in a line that begins with the file's name, and
at the end standard error has how many said yes and no. Goes on past a refused
file.

  --within      cut the window to each trail's own times; without --window it is
                all of them. A trail that has no time of the window isn't asked,
                and says so. Without --within such a window is refused
  --all         list every visit, each in a line: when it began, and between
                which two whole seconds it ended. At the first of the two the
                cart was still in the box, and at the second it wasn't; if it
                was there at no whole second, only the later one is told. If it
                was out and in again between two of them, that is one visit.
                A silence ends a visit: nobody knows whether the cart left. So
                does a trail's end: of a split one the next may go on with it
  --epoch TIME  tell times on the clock; see 'trail help'
  --json        print one line for each file: {\"file\", \"unit\",
                \"crosses\": true, \"numerator\", \"denominator\",
                \"first\": the first fix's second, \"mark\", \"silences\": how many
                the window has, null if the trail can have none, \"means\"} or
                the same with \"crosses\": false and without numerator,
                denominator and first. With --all there is \"visits\" in place of
                the fraction, a list of {\"numerator\", \"denominator\", \"last\",
                \"out\", \"silent_to\"}: the last whole second in the box, null if
                there is none, the next, null if it isn't out then, and the end
                of the silence that it fell into, or null. Of a trail that isn't
                asked: {\"file\", \"unit\", \"outside\": true, \"first\", \"last\"}.
                Of several files a last line has {\"files\", \"yes\", \"no\",
                \"refused\", \"failed\"}, the last two as names, and with
                --within \"outside\", how many weren't asked
";

/// What is asked of each trail.
struct Question {
    area: Area,
    window: Option<Window>,
    within: bool,
    all: bool,
}

impl Question {
    fn of(arguments: &Arguments) -> Result<Question, Failure> {
        let area = arguments.area()?;
        let question = Question {
            area: area.ok_or_else(|| arguments.wrong("--box X0 X1 Y0 Y1 is missing"))?,
            window: arguments.window()?,
            within: arguments.has("--within"),
            all: arguments.has("--all"),
        };
        match question.window.is_none() && !question.within {
            true => Err(arguments.wrong("--window S E is missing")),
            false => Ok(question),
        }
    }

    fn ask(&self, trail: &Trail) -> Result<Answer, Failure> {
        let refused = |refusal| trail.refused(refusal);
        let Some(window) = trail.asked(self.area, self.window, self.within)? else {
            return Ok(Answer::outside(trail));
        };
        let silences = trail.silences_in(window);
        let (when, means) = match self.all {
            true => {
                let visits = visits(trail, self.area, window).map_err(refused)?;
                let means = meaning::of_visits(trail, !visits.is_empty(), silences);
                (When::Visits(visits), means)
            }
            false => {
                let first = trails::crosses(&trail.bytes, self.area, window).map_err(refused)?;
                let means = meaning::of_crossing(trail, first.is_some(), silences);
                let time = first.map(Time::from);
                (time.map_or(When::Never, When::At), means)
            }
        };
        let answer = YesOrNo {
            trail,
            name: "crosses",
            asked: "the box",
            when,
            silences,
            means,
        };
        Ok(answer.answer())
    }
}

fn run(arguments: &Arguments) -> Result<Status, Failure> {
    let names = arguments.several("one file or more")?;
    let question = Question::of(arguments)?;
    let sorts: &[Sort] = match question.within {
        true => &[Sort::Yes, Sort::No, Sort::Outside],
        false => &[Sort::Yes, Sort::No],
    };
    of_each(arguments, names, sorts, |trail| question.ask(trail))
}
