//! How often each operation met each refusal, with records of each kind.

use std::cmp::Ordering;
use std::collections::BTreeMap;
use std::fmt;

use super::near;
use super::recast::{self, OTHERS};
use super::{Case, Operation, Reply};
use crate::interface::Answer;
use crate::plain;
use crate::plain::crossing::earliest;
use crate::plain::dearest;
use crate::plain::kinds::{Kind, CENTIMETRES, KINDS, MILLIMETRES, SILENCES};
use crate::plain::lists::List;
use crate::plain::table::{Table, NUMBERS};
use crate::plain::thinning;
use crate::plain::{Fix, Trail, MOST_FIXES};
use crate::told::Told;

/// The operations, and what each can be refused for besides checks 1 to 9 and 20; the writer and the dearest trail make
/// only some of those, and loading none. `after` is the crossing after a list, and `neared` the approach.
/// The listing tells its refusal in its text, so it is counted by what the checks say of its record.
const OPERATIONS: [(&str, &[usize]); 16] = [
    ("check", &[]),
    ("read", &[]),
    ("columns", &[]),
    ("write", &[15]),
    ("dearest", &[15]),
    ("list", &[]),
    ("age", &[10]),
    ("load", &[22, 23]),
    ("days", &[22, 23]),
    ("apply", &[22, 23]),
    ("run", &[]),
    ("place", &[11, 12, 21]),
    ("crosses", &[13, 14]),
    ("after", &[13, 14]),
    ("near", &[16]),
    ("neared", &[16]),
];

/// With so many cases none of them may be missing.
const ENOUGH: usize = 30_000;

/// No refusal, and all that there are, in checking order.
const REFUSALS: [usize; 21] = [
    0, 1, 2, 3, 4, 5, 6, 7, 8, 9, 20, 22, 23, 16, 10, 11, 12, 21, 13, 14, 15,
];

/// What was met with records of one kind.
#[derive(Default)]
struct Block {
    /// by refusal, 0 for none, and operation
    met: [[usize; OPERATIONS.len()]; 24],
    said: BTreeMap<Said, usize>,
}

#[derive(Default)]
pub struct Met {
    /// in the order of `KINDS`
    blocks: [Block; KINDS.len()],
    pub(super) twins: usize,
    /// in the order of `OTHERS`
    others: [usize; OTHERS.len()],
}

/// What an answer says, or what it is given to: the group's name, and its own.
pub(super) type Said = (&'static str, &'static str);

fn in_group(group: &'static str, said: Vec<&'static str>) -> Vec<Said> {
    said.into_iter().map(|what| (group, what)).collect()
}

/// What is met of a group.
pub(super) fn met(
    group: &'static str,
    sorts: impl IntoIterator<Item = (bool, &'static str)>,
) -> Vec<Said> {
    let met = sorts.into_iter().filter(|(is_met, _)| *is_met);
    met.map(|(_, what)| (group, what)).collect()
}

/// What answers may say, or what they may be given to, each by its name; with what `near` has of approaches.
const SAID: [(&str, &[&str]); 8] = [
    ("crossings", &["yes", "no", NOT_STRAIGHT]),
    ("lists", &["with calls turned away", "with none"]),
    (
        "tables of lists",
        &[ACCEPTED, SEVERAL, "refused 22", "refused 23", NOT_LENT],
    ),
    (
        "days",
        &["before the first row", "on it", "on a later one", CAPPED],
    ),
    (
        "columns",
        &["empty", "too short", "just enough", "longer", "unequal"],
    ),
    (DEAREST, &[LONE, MOST, JUST_ENOUGH, MORE, TOO_FEW, BOTH]),
    ("agings", &[AS_DEAR, WIDE, APART, NOT_ACROSS]),
    ("silences of agings", &["none", "one", "some", EVERY]),
];

/// The dearest trails: how many fixes those have that are written, and what outputs there are, also beside a number of
/// fixes that check 3 turns away. They are of kind 1.
const DEAREST: &str = "dearest trails";
const LONE: &str = "of one fix";
const MOST: &str = "of 4,096";
const JUST_ENOUGH: &str = "into just enough";
const MORE: &str = "into more";
const TOO_FEW: &str = "into one byte too few";
const BOTH: &str = "with 3 and 15 at once";

/// Of agings of more than three fixes, since all of three are: as many are measured as of the dearest trail, which is
/// drawn for it.
const AS_DEAR: &str = "as dear as can be";

/// Of agings: a sum of squares that 64 bits don't hold, and two of which only the part above 64 bits differs. Kind 1
/// has neither.
const WIDE: &str = "with sums above 64 bits";
const APART: &str = "with sums apart above 64 bits only";

/// Of crossings and agings: those of which something else came if silences were straight legs. And of agings, how many
/// silences there were. Only kind 3 has any.
pub(super) const NOT_STRAIGHT: &str = "other than by straight legs";
const NOT_ACROSS: &str = "other than across silences";
const EVERY: &str = "after every fix but the last of several";

/// Of the tables of lists: one that is accepted, or several, and a call by one that isn't lent, or not all of it. And of
/// agings by days: a row of more than kind 2 has.
const ACCEPTED: &str = "one accepted";
const SEVERAL: &str = "several accepted";
const NOT_LENT: &str = "not lent";
const CAPPED: &str = "on one of more than 6,000 centimetres";

/// Whether document 02 lets answers about this kind say it, or be given to it.
fn can_be_said(kind: Kind, group: &str, what: &str) -> bool {
    let of_silences = [NOT_STRAIGHT, NOT_ACROSS].contains(&what) || group.starts_with("silences");
    match what {
        AS_DEAR => kind == CENTIMETRES,
        _ if group == DEAREST => kind == CENTIMETRES,
        WIDE | APART | CAPPED | near::WIDE => kind == MILLIMETRES,
        _ => kind == SILENCES || !of_silences,
    }
}

fn column(operation: &Operation) -> usize {
    match operation {
        Operation::Check => 0,
        Operation::Read(_) => 1,
        Operation::ReadAll(_) => 2,
        Operation::Write(..) => 3,
        Operation::Dearest(_) => 4,
        Operation::List => 5,
        Operation::Age(_) => 6,
        Operation::Load(_) => 7,
        Operation::Days(..) => 8,
        Operation::Apply(..) => 9,
        Operation::Run(_) => 10,
        Operation::Place(_) => 11,
        Operation::Crosses(_) => 12,
        Operation::CrossesAfter(..) => 13,
        Operation::Near(_) => 14,
        Operation::NearAfter(..) => 15,
    }
}

fn said(case: &Case, reply: &Reply) -> Vec<Said> {
    match (&case.operation, reply) {
        (_, Reply::Crossing(told)) => match yes_or_no(told) {
            Some(answer) => in_group("crossings", said_of_crossing(case, answer)),
            None => Vec::new(),
        },
        (_, Reply::Approach(told)) => said_of_approach(case, told),
        (Operation::Run(list), Reply::Run(run)) if run.refusal == 0 => {
            let turned_away = match run.turned_away {
                0 => "with none",
                _ => "with calls turned away",
            };
            let tables = in_group("tables of lists", said_of_tables(list));
            [vec![("lists", turned_away)], tables].concat()
        }
        (Operation::Days(days, table), Reply::Answer(Answer { refusal: 0, .. })) => {
            in_group("days", said_of_days(*days, table))
        }
        (Operation::ReadAll(columns), Reply::Answer(answer)) if answer.refusal == 0 => {
            let said = said_of_columns(columns.lengths(), answer.value as usize);
            in_group("columns", said)
        }
        (Operation::Dearest(n), _) => said_of_dearest(*n, case.buffer.len()),
        (Operation::Age(e), Reply::Answer(answer)) if answer.refusal == 0 => {
            let trail = plain::read(&case.buffer);
            trail.map_or(Vec::new(), |trail| match trail.kind {
                CENTIMETRES => said_of_count(trail.fixes.len(), answer.value),
                MILLIMETRES => said_of_sums(&trail),
                _ => said_of_silences(&trail, *e),
            })
        }
        _ => Vec::new(),
    }
}

fn yes_or_no<Y>(told: &Told<Y>) -> Option<&'static str> {
    match told {
        Told::Yes(_) => Some("yes"),
        Told::No => Some("no"),
        _ => None,
    }
}

/// Of an approach, and of what is asked if that is turned away; of one after a list no more than yes or no.
fn said_of_approach<Y>(case: &Case, told: &Told<Y>) -> Vec<Said> {
    let (Operation::Near(circle) | Operation::NearAfter(_, circle)) = &case.operation else {
        return Vec::new();
    };
    let answer = yes_or_no(told).map(|answer| (near::APPROACHES, answer));
    let more = match (&case.operation, plain::read(&case.buffer)) {
        (_, Ok(trail)) if told.refusal() == 16 => near::said_of_refused(trail.kind, circle),
        (Operation::Near(_), Ok(trail)) => near::said_of(&trail, circle, &unbroken(&trail.fixes)),
        _ => Vec::new(),
    };
    answer.into_iter().chain(more).collect()
}

/// Of the tables that a list's calls have.
fn said_of_tables(list: &List) -> Vec<&'static str> {
    let numbers = list.calls.iter().map(|call| call >> 16);
    let mut numbers: Vec<u64> = numbers.filter(|number| *number > 0).collect();
    numbers.sort_unstable();
    numbers.dedup();
    let lent = list.tables.len() / NUMBERS;
    let one = |number: &u64| match list.table(number - 1).checked() {
        _ if *number > lent as u64 => NOT_LENT,
        Ok(_) => ACCEPTED,
        Err(22) => "refused 22",
        Err(_) => "refused 23",
    };
    let mut said: Vec<&str> = numbers.iter().map(one).collect();
    said.sort_unstable();
    let several = said.windows(2).any(|pair| pair == [ACCEPTED; 2]);
    said.dedup();
    said.extend(several.then_some(SEVERAL));
    said
}

/// Of the row that days get.
fn said_of_days(days: u16, table: &Table) -> Vec<&'static str> {
    let rows = table.checked().unwrap_or_default();
    let reached = rows.iter().take_while(|row| row.day <= days);
    let mut said = vec![match reached.clone().count() {
        0 => "before the first row",
        1 => "on it",
        _ => "on a later one",
    }];
    let high = reached.last().is_some_and(|row| row.tolerance > 6_000);
    said.extend(high.then_some(CAPPED));
    said
}

/// The same fixes with no silence.
fn unbroken(fixes: &[Fix]) -> Vec<Fix> {
    let unbroken = |fix: &Fix| Fix { silence: 0, ..*fix };
    fixes.iter().map(unbroken).collect()
}

fn said_of_crossing(case: &Case, answer: &'static str) -> Vec<&'static str> {
    let (Operation::Crosses(question), Ok(trail)) = (&case.operation, plain::read(&case.buffer))
    else {
        return vec![answer];
    };
    let [one, other] = [&trail.fixes, &unbroken(&trail.fixes)].map(|of| earliest(of, question));
    let same = match (one, other) {
        (Some(one), Some(other)) => one.order(&other).is_eq(),
        (one, other) => one.is_none() && other.is_none(),
    };
    match same {
        true => vec![answer],
        false => vec![answer, NOT_STRAIGHT],
    }
}

/// Of the dearest trail of n fixes, and an output of so many bytes.
fn said_of_dearest(n: usize, bytes: usize) -> Vec<Said> {
    // a trail that is longer than the longest needs more
    let needed = CENTIMETRES.record_length(n.min(MOST_FIXES + 1));
    let good = (1..=MOST_FIXES).contains(&n);
    let sorts = [
        (n == 1 && bytes >= needed, LONE),
        (n == MOST_FIXES && bytes >= needed, MOST),
        (good && bytes == needed, JUST_ENOUGH),
        (good && bytes > needed, MORE),
        (good && bytes + 1 == needed, TOO_FEW),
        (!good && bytes < needed, BOTH),
    ];
    met(DEAREST, sorts)
}

/// Of how many of n fixes an aging has measured.
fn said_of_count(n: usize, measured: u32) -> Vec<Said> {
    let as_dear = n > 3 && measured == dearest::count(n);
    met("agings", [(as_dear, AS_DEAR)])
}

fn said_of_silences(trail: &Trail, e: u16) -> Vec<Said> {
    let Trail { fixes, .. } = trail;
    let silent = fixes.iter().filter(|fix| fix.is_before_silence()).count();
    let silences = match silent {
        0 => "none",
        1 => "one",
        many if many + 1 == fixes.len() => EVERY,
        _ => "some",
    };
    let mut said = vec![("silences of agings", silences)];
    let times = |fixes: &[Fix]| -> Vec<u32> {
        let kept = thinning::thin(fixes, e).kept;
        kept.iter().map(|fix| fix.t).collect()
    };
    if times(fixes) != times(&unbroken(fixes)) {
        said.push(("agings", NOT_ACROSS));
    }
    said
}

fn said_of_columns(lengths: [usize; 4], count: usize) -> Vec<&'static str> {
    let one = |length: usize| match length.cmp(&count) {
        _ if length == 0 => "empty",
        Ordering::Less => "too short",
        Ordering::Equal => "just enough",
        Ordering::Greater => "longer",
    };
    let mut said: Vec<&str> = lengths.map(one).into();
    if lengths != [lengths[0]; 4] {
        said.push("unequal");
    }
    said
}

/// Of the sums that the whole trail's inner fixes have.
fn said_of_sums(trail: &Trail) -> Vec<Said> {
    let mut sums = thinning::sums(&trail.fixes);
    let low = |sum: &i128| *sum as u64;
    sums.sort_by_key(|sum| (low(sum), *sum));
    let mut pairs = sums.windows(2);
    let wide = sums.iter().any(|&sum| sum != low(&sum).into());
    let apart = pairs.any(|pair| low(&pair[0]) == low(&pair[1]) && pair[0] != pair[1]);
    met("agings", [(wide, WIDE), (apart, APART)])
}

/// Whether the documents have this refusal among the operation's, about this kind.
fn possible(kind: Kind, column: usize, refusal: usize) -> bool {
    let (name, own) = OPERATIONS[column];
    let makes = match (refusal, name) {
        // which is always of kind 1
        (_, "dearest") if kind != CENTIMETRES => false,
        (0, _) => true,
        (1..=9 | 20, "load") => false,
        (1..=9 | 20, "dearest") => refusal == 3,
        (1..=9, "write") => [3, 7, 8, 9].contains(&refusal),
        (1..=9 | 20, _) => true,
        _ => own.contains(&refusal),
    };
    makes && kind.can_fail(refusal as u32)
}

impl Block {
    fn cases(&self) -> usize {
        self.met.iter().flatten().sum()
    }

    fn missing(&self, kind: Kind) -> Vec<String> {
        let mut missing = Vec::new();
        for (column, (name, _)) in OPERATIONS.iter().enumerate() {
            let unmet = |&refusal: &usize| {
                possible(kind, column, refusal) && self.met[refusal][column] == 0
            };
            let unmet = REFUSALS.into_iter().filter(unmet);
            missing.extend(unmet.map(|refusal| format!("{kind}: {name} with refusal {refusal}")));
        }
        for (group, all) in SAID.into_iter().chain(near::SAID) {
            let unmet = |what: &&&'static str| {
                can_be_said(kind, group, what) && !self.said.contains_key(&(group, **what))
            };
            let unmet = all.iter().filter(unmet);
            missing.extend(unmet.map(|what| format!("{kind}: {group} {what}")));
        }
        missing
    }

    fn row(&self, f: &mut fmt::Formatter, kind: Kind, refusal: usize) -> fmt::Result {
        let name = match refusal {
            0 => "accepted".to_string(),
            number => format!("refused {number}"),
        };
        write!(f, "{name:12}")?;
        for (column, many) in self.met[refusal].iter().enumerate() {
            let shown = match many {
                0 if !possible(kind, column, refusal) => "-".to_string(),
                many => many.to_string(),
            };
            write!(f, "{shown:>8}")?;
        }
        writeln!(f, "{:>9}", self.met[refusal].iter().sum::<usize>())
    }

    /// The table of one kind, under its name.
    fn show(&self, f: &mut fmt::Formatter, kind: Kind) -> fmt::Result {
        write!(f, "{:12}", kind.name)?;
        for (name, _) in OPERATIONS {
            write!(f, "{name:>8}")?;
        }
        writeln!(f, "{:>9}", "all")?;
        // of a kind that can't meet them, the rows are left out
        let can = |&refusal: &usize| kind.can_fail(refusal as u32);
        for refusal in REFUSALS.into_iter().filter(can) {
            self.row(f, kind, refusal)?;
        }
        write!(f, "{:12}", "all")?;
        for column in 0..OPERATIONS.len() {
            let all: usize = self.met.iter().map(|row| row[column]).sum();
            write!(f, "{all:>8}")?;
        }
        writeln!(f, "{:>9}", self.cases())?;
        for (group, all) in SAID.into_iter().chain(near::SAID) {
            let can = all.iter().filter(|what| can_be_said(kind, group, what));
            let met = |what| self.said.get(&(group, what)).copied().unwrap_or(0);
            let shown: Vec<String> = can.map(|&what| format!("{} {what}", met(what))).collect();
            if !shown.is_empty() {
                writeln!(f, "{group}: {}", shown.join(", "))?;
            }
        }
        Ok(())
    }
}

impl Met {
    /// Counts a case whose record was made as this kind.
    pub fn count(&mut self, case: &Case, made: Kind, reply: &Reply) {
        let kind = case.kind(made);
        let checked = || plain::read(&case.buffer).err().unwrap_or(0).into();
        let refusal = reply.refusal().unwrap_or_else(checked);
        let blocks = KINDS.into_iter().zip(&mut self.blocks);
        for (_, block) in blocks.filter(|(of, _)| *of == kind) {
            block.met[refusal as usize][column(&case.operation)] += 1;
            for what in said(case, reply) {
                *block.said.entry(what).or_default() += 1;
            }
        }
    }

    /// Counts the other kinds that a case is asked of.
    pub fn recast(&mut self, case: &Case) {
        for ((kind, _), many) in OTHERS.into_iter().zip(&mut self.others) {
            *many += usize::from(recast::recast(case, kind).is_some());
        }
    }

    fn cases(&self) -> usize {
        self.blocks.iter().map(Block::cases).sum()
    }

    /// What else the proved side was asked of cases, and how often.
    fn relations(&self) -> Vec<(&'static str, usize)> {
        let others = OTHERS.map(|(_, what)| what).into_iter().zip(self.others);
        [("twins", self.twins)].into_iter().chain(others).collect()
    }

    /// What should have been met and wasn't, where the cases are enough.
    pub fn missing(&self) -> Vec<String> {
        let mut missing = Vec::new();
        if self.cases() < ENOUGH {
            return missing;
        }
        for (kind, block) in KINDS.into_iter().zip(&self.blocks) {
            missing.extend(block.missing(kind));
        }
        let unmet = self.relations().into_iter().filter(|(_, many)| *many == 0);
        missing.extend(unmet.map(|(what, _)| what.to_string()));
        missing
    }
}

impl fmt::Display for Met {
    fn fmt(&self, f: &mut fmt::Formatter) -> fmt::Result {
        for (kind, block) in KINDS.into_iter().zip(&self.blocks) {
            block.show(f, kind)?;
            writeln!(f)?;
        }
        for (what, many) in self.relations() {
            writeln!(f, "{what}: {many}")?;
        }
        write!(f, "{} cases, 0 differences", self.cases())
    }
}
