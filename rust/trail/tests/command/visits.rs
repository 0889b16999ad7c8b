//! `cross --all`: every visit to a box, held to the plain version at all telling times.

use trails_tests::cases::{fixes, Random};
use trails_tests::plain::crossing::{earliest, telling_times, Question, Window};
use trails_tests::plain::kinds::{Kind, KINDS};
use trails_tests::plain::place::{is_silent, Place, Time};
use trails_tests::plain::{Fix, Trail};
use trails_tests::questions::Asked;

use crate::folder::{silent_record, trail_h_at_12, Folder, NEVER};

/// Lines of visits: when each began, as a fraction and on the clock, and how it ended.
fn visits_told(visits: &[(&str, &str, &str)]) -> String {
    let line = |(fraction, at, end): &(&str, &str, &str)| {
        format!("visit: in {fraction} seconds after the first fix, at {at}, {end}\n")
    };
    visits.iter().map(line).collect()
}

#[test]
fn visits_are_listed_with_their_seconds() {
    let folder = Folder::with_h();
    let asked = "cross h --all --window 0 30 --box";
    let ask = |edges: &str| folder.run_line(&format!("{asked} {edges}"));
    // h is at 5 to 10 on its way out and on its way back
    let visits = visits_told(&[
        ("50/20", "2.500", "out between 5 and 6"),
        ("500/20", "25.000", "out between 27 and 28"),
    ]);
    ask("5 10 -1 1").says(&format!("yes, 2 visits; {NEVER}\n{visits}"));
    // it passes 7 between two whole seconds
    let visits = visits_told(&[
        ("70/20", "3.500", "out before 4"),
        ("530/20", "26.500", "out before 27"),
    ]);
    ask("7 7 0 0").says(&format!("yes, 2 visits; {NEVER}\n{visits}"));
    let visit = visits_told(&[("0/1", "0.000", "still in at 30, when the window ends")]);
    ask("0 20 0 0").says(&format!("yes, 1 visit; {NEVER}\n{visit}"));
    ask("21 30 0 0").says(&format!("no; {NEVER}\n"));
    let answer = folder.run_line("cross h --all --window 0 30 --box 5 10 -1 1 --json");
    let means = format!("\"mark\":null,\"silences\":null,\"means\":\"{NEVER}\"}}\n");
    answer.says(&format!(
        "{{\"file\":\"h\",\"unit\":\"cm\",\"crosses\":true,\"visits\":[\
         {{\"numerator\":50,\"denominator\":20,\"last\":5,\"out\":6,\"silent_to\":null}},\
         {{\"numerator\":500,\"denominator\":20,\"last\":27,\"out\":28,\"silent_to\":null}}],\
         \"first\":0,{means}"
    ));
    let none = folder.run_line("cross h --all --window 0 30 --box 21 30 0 0 --json");
    let visits = "\"crosses\":false,\"visits\":[]";
    none.says(&format!(
        "{{\"file\":\"h\",\"unit\":\"cm\",{visits},{means}"
    ));
}

/// Nobody knows whether the cart left between the two ends of a silence, also if it lasts a second.
#[test]
fn a_silence_ends_a_visit() {
    let folder = Folder::new();
    let fixes = [
        (0, 0, 0, 0),
        (10, 9, 0, 1),
        (11, 9, 0, 1),
        (40, 5, 0, 0),
        (50, 5, 0, 0),
    ];
    folder.put("s", silent_record(&fixes));
    let answer = folder.run_line("cross s --all --box 5 9 0 0 --within");
    let unknown = "of the 2 silences in the window nothing is known";
    let visits = visits_told(&[
        ("50/9", "5.555", "silent from 10 to 11"),
        ("11/1", "11.000", "silent from 11 to 40"),
        ("40/1", "40.000", "still in at 50, when the window ends"),
    ]);
    answer.says(&format!("yes, 3 visits; {NEVER}; {unknown}\n{visits}"));
    let json = folder.run_line("cross s --all --box 5 9 0 0 --within --json");
    assert!(json
        .text()
        .contains("\"last\":10,\"out\":null,\"silent_to\":11}"));
}

#[test]
fn visits_of_a_thinned_trail_say_what_they_mean() {
    let folder = Folder::new();
    folder.put("aged", trail_h_at_12());
    let told =
        "thinned at 12 cm: when a visit began, and at each of its whole seconds, the cart was \
                in the box or within 12 cm of the box, and if it was in the box at a time of the \
                window outside these visits, it was within 12 cm of an edge";
    let visits = visits_told(&[
        ("50/20", "2.500", "out between 5 and 6"),
        ("400/20", "20.000", "out between 25 and 26"),
    ]);
    let answer = folder.run_line("cross aged --all --box 5 10 -1 1 --within");
    answer.says(&format!("yes, 2 visits; {told}\n{visits}"));
    let no = folder.run_line("cross aged --all --box 21 30 0 0 --within");
    no.says("no; thinned at 12 cm: if it was in the box then, it was within 12 cm of an edge\n");
}

/// A visit as programs are told it.
#[derive(Debug)]
struct Visit {
    begin: Time,
    last: Option<u32>,
    out: Option<u32>,
    silent_to: Option<u32>,
}

fn visits(answer: &str, first: u32) -> Vec<Visit> {
    let number = |text: &str, name: &str| {
        let (_, after) = text.split_once(&format!("\"{name}\":")).expect("a field");
        let end = after.find([',', '}']).expect("its end");
        after[..end].parse::<i128>().ok()
    };
    let visits = answer.split("{\"numerator\"").skip(1);
    let visit = |rest: &str| {
        let text = format!("\"numerator\"{rest}");
        let second = |name: &str| number(&text, name).map(|n| n as u32);
        let q = number(&text, "denominator").expect("a number");
        let after = number(&text, "numerator").expect("a number");
        Visit {
            begin: Time {
                p: after + q * i128::from(first),
                q,
            },
            last: second("last"),
            out: second("out"),
            silent_to: second("silent_to"),
        }
    };
    visits.map(visit).collect()
}

impl Visit {
    /// Whether a time may belong to it: it isn't before its begin, and before the second at which it is over.
    fn may_have(&self, time: &Time, window: Window) -> bool {
        let over = self.out.map(Time::whole);
        let over = over.is_none_or(|over| time.order(&over).is_lt());
        let last = match (self.silent_to, self.last) {
            (Some(_), Some(last)) => last,
            _ => window.end,
        };
        self.begin.order(time).is_le() && over && time.order(&Time::whole(last)).is_le()
    }

    /// The cart is there at each of its whole seconds, and not at the one at which it is out.
    fn is_so(&self, inside: impl Fn(u32) -> bool, fixes: &[Fix], window: Window) {
        let begin = (self.begin.p + self.begin.q - 1) / self.begin.q;
        for second in begin as u32..=self.last.unwrap_or(0) {
            assert!(inside(second), "{self:?} {second}");
        }
        match (self.out, self.silent_to, self.last) {
            (Some(out), None, _) => assert!(!inside(out), "{self:?}"),
            (None, Some(to), Some(last)) => {
                let silent = |leg: &[Fix]| (leg[0].t, leg[0].silence, leg[1].t) == (last, 1, to);
                assert!(fixes.windows(2).any(silent), "{self:?}");
            }
            (None, None, Some(last)) => assert_eq!(last, window.end),
            _ => panic!("{self:?}"),
        }
    }
}

fn visits_are_so(kind: Kind, random: &mut Random) -> usize {
    let n = random.between(1, 12) as usize;
    let mut fixes = fixes(kind, random, n);
    // a trail of a minute or two, so that not every second must be asked for
    let times = fixes.len() as u32;
    for (k, fix) in (0..times).zip(&mut fixes) {
        fix.t = 1_000 + 11 * k + u32::from(k % 3 == 0);
    }
    let trail = Trail::never_thinned(kind, fixes);
    let Question { window, area } = Question::good(&trail, random);
    let folder = Folder::new();
    folder.put("t", trail.bytes());
    let (start, end) = (window.start, window.end);
    let edges = format!("{},{},{},{}", area.left, area.right, area.bottom, area.top);
    let line = format!("cross t --all --json --box={edges} --window={start},{end}");
    let answer = folder.run_line(&line);
    assert_eq!(
        (answer.status, answer.err.as_str()),
        (Some(0), ""),
        "{line}"
    );
    let fixes = &trail.fixes;
    let visits = visits(answer.text(), fixes[0].t);
    let at = |time: Time| !is_silent(fixes, time) && area.holds(&Place::at(fixes, time));
    let mut rest = window;
    for visit in &visits {
        let first = earliest(fixes, &Question { window: rest, area });
        assert_eq!(first, Some(visit.begin), "{line} {visit:?}");
        visit.is_so(|second| at(Time::whole(second)), fixes, window);
        // the next begins later than the last second of this one
        let floor = (visit.begin.p / visit.begin.q) as u32;
        rest.start = visit.last.unwrap_or(floor).saturating_add(1);
    }
    for time in telling_times(fixes, &Question { window, area }, 0) {
        let told = visits.iter().any(|visit| visit.may_have(&time, window));
        assert!(told || !at(time), "{line} {time:?}");
    }
    visits.len()
}

#[test]
fn visits_are_all_and_none_else() {
    let mut random = Random::new(20_261_117);
    for kind in KINDS {
        let counts: Vec<usize> = (0..120).map(|_| visits_are_so(kind, &mut random)).collect();
        let with = |least: usize| counts.iter().filter(|count| **count >= least).count();
        assert!(with(0) > with(1) && with(2) > 3, "{counts:?}");
    }
}
