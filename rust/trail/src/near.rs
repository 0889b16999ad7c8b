//! `trail near`: says whether a cart came near a point, and when.

use trails::Point;

use crate::answer::{of_each, Answer, Sort};
use crate::arguments::{Arguments, Command};
use crate::failure::{Failure, Status};
use crate::meaning;
use crate::trail::Trail;
use crate::yes_or_no::{Time, When, YesOrNo};

pub const COMMAND: Command = Command {
    name: "near",
    help: HELP,
    options: &["--point", "--radius", "--epoch", "--json"],
    run,
};

const HELP: &str = "\
usage: trail near [--epoch TIME] [--json] FILE... --point X Y --radius R

Says whether the cart came within R of the point X Y, just R included, at some
time of the trail. Both are in the trail's unit: centimetres, or, and then the
answer says so, millimetres. A yes comes with the first leg that comes so near,
from the fix of this number to the next, counted from 0, and with the earliest
time at which the cart is closest to the point on this leg: the seconds after
the first fix as a fraction, and the same on the trail's own clock, cut off
after the thousandths. A later leg may come nearer: a smaller R asks for it. The
fraction isn't reduced; it is the same for the same trail at another time. Of a
silence only its two ends count.

Then it says what that means of the original, the trail as the cart reported
it, straight between its fixes: if FILE's trail was thinned at E, the original
was within R + E at the time of a yes, and of a no never within R - E; where R
is less than E, a no says nothing of it. The mark is believed: of a record from
elsewhere this holds if its mark is right. And it says how many silences the
trail has, in which nobody knows where the cart was.

Of several FILEs each answer is in a line that begins with the file's name, and
at the end standard error has how many said yes and no. Goes on past a refused
file.

  --epoch TIME  tell times on the clock; see 'trail help'
  --json        print one line for each file: {\"file\", \"unit\",
                \"near\": true, \"leg\", \"numerator\", \"denominator\",
                \"first\": the first fix's second, \"mark\", \"silences\": how many
                the trail has, null if it can have none, \"means\"} or the same
                with \"near\": false and without leg, numerator, denominator and
                first. Of several files a last line has {\"files\", \"yes\",
                \"no\", \"refused\", \"failed\"}, the last two as names
";

fn ask(trail: &Trail, point: Point, radius: u32) -> Result<Answer, Failure> {
    let approach = trails::near(&trail.bytes, point, radius);
    let approach = approach.map_err(|refusal| trail.refused(refusal))?;
    let silences = trail.silences().count();
    let time = approach.map(|approach| Time {
        leg: Some(approach.leg),
        numerator: approach.numerator,
        denominator: approach.denominator,
    });
    let answer = YesOrNo {
        trail,
        name: "near",
        asked: "the point and the radius",
        when: time.map_or(When::Never, When::At),
        silences,
        means: meaning::of_approach(trail, approach.is_some(), radius, silences),
    };
    Ok(answer.answer())
}

fn run(arguments: &Arguments) -> Result<Status, Failure> {
    let names = arguments.several("one file or more")?;
    let point = arguments.point()?;
    let point = point.ok_or_else(|| arguments.wrong("--point X Y is missing"))?;
    let radius = arguments.number("--radius")?;
    let radius: u32 = radius.ok_or_else(|| arguments.wrong("--radius R is missing"))?;
    let sorts = [Sort::Yes, Sort::No];
    of_each(arguments, names, &sorts, |trail| ask(trail, point, radius))
}
