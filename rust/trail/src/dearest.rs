//! `trail dearest`: makes the trail that costs most to age.

use std::ffi::{OsStr, OsString};

use trails::{Kind, Refusal};

use crate::arguments::{Arguments, Command};
use crate::failure::{Fact, Failure, Refused, Spot, Status};
use crate::made::Made;
use crate::numbers::{whole, Range};

pub const COMMAND: Command = Command {
    name: "dearest",
    help: HELP,
    options: &["-o", "--json"],
    run,
};

const HELP: &str = "\
usage: trail dearest [--json] N -o FILE

Makes the trail of N fixes, 1 to 4,096, that costs most to age, for sizing a
controller: 'trail age --tolerance 1' measures as many fixes of it as any aging
of N fixes can, splits as deep, and keeps every fix, so that it can be aged so
again. It is in centimetres and marked never thinned. A FILE that is there
already is replaced only by a whole new one.

  -o FILE  where the trail goes; '-' is the standard output
  --json   print one line: {\"file\", \"unit\", \"count\", \"silences\", \"bytes\"},
           with null for the silences, since it can have none
";

/// A number of fixes that is turned away. There is no input that it could be about, so it is about the output.
fn refused(to: &OsStr, n: usize) -> impl FnOnce(Refusal) -> Failure + '_ {
    let about = match to == "-" {
        true => OsStr::new("standard output"),
        false => to,
    };
    move |refusal| {
        Failure::Refused(Refused {
            spot: Spot::file(about),
            refusal,
            kind: Kind::Centimetres,
            fact: Fact::count(refusal, n),
        })
    }
}

fn run(arguments: &Arguments) -> Result<Status, Failure> {
    let [n]: &[OsString; 1] = arguments.exactly("one number of fixes")?;
    let to = arguments.output()?;
    let count =
        whole(&n.to_string_lossy(), Range::Counts).map_err(|what| arguments.wrong(&what))?;
    let made = Made {
        record: trails::dearest(count).map_err(refused(to, count))?,
        kind: Kind::Centimetres,
        count,
        silences: 0,
    };
    made.store(to, &[], arguments.has("--json"))
}
