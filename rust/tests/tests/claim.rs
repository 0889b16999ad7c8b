//! The claim about whole lists of agings with a question asked after them, as one call: what the record is then, and
//! what a yes and a no say about the original.
#![forbid(unsafe_code)]

use trails_tests::agings::{some_calls, Buffer};
use trails_tests::cases::{kind_of, Random, Settings, Tally};
use trails_tests::interface::{self, crosses_after, near_after, run};
use trails_tests::plain::approach::{self, near, Circle};
use trails_tests::plain::crossing::{crosses, telling_times, Area, Question, Window};
use trails_tests::plain::kinds::{Kind, CENTIMETRES, KINDS, MILLIMETRES, SILENCES};
use trails_tests::plain::lists::{self, Book, Call, List};
use trails_tests::plain::place::{is_silent, Place, Time};
use trails_tests::plain::table::{Row, Table};
use trails_tests::plain::{Fix, Trail, MOST_FIXES};
use trails_tests::questions::{agrees, refused_in_order, Asked};
use trails_tests::shapes::{every_kind_and_shape, ten_times, trail, SHAPES};
use trails_tests::told::{Approached, Crossed, Told};

/// A list and a question, and how many answers were of each sort, so that none can be missing unseen.
struct Run {
    random: Random,
    refused: usize,
    /// yes: as the original has it at that time, and as it has it only with E more
    told: [usize; 2],
    /// no: as the original has it, and as it has it only with E less
    denied: [usize; 2],
}

/// A question that is asked after lists, and what is promised of its answers.
trait Promised: Asked {
    /// What a yes tells.
    type Yes: PartialEq + std::fmt::Debug;

    /// The checks that it makes besides those of every record, in checking order.
    const CHECKS: &'static [u8];

    /// By the proved call, of a record of this kind.
    fn after(&self, kind: Kind, record: &mut [u8], list: &List) -> Told<Self::Yes>;

    /// By the plain version.
    fn plainly_after(&self, record: &mut [u8], calls: &[Call]) -> Result<Option<Self::Yes>, u8>;

    fn plainly(&self, record: &[u8]) -> Result<Option<Self::Yes>, u8>;

    /// Holds a yes to what it promises of the original. Answers 0 if the original says the same, and 1 if it does so
    /// only with E more.
    fn yes_holds(&self, told: Self::Yes, original: &[Fix], e: u16, name: &str) -> usize;

    /// The same of a no.
    fn no_holds(&self, original: &[Fix], e: u16, name: &str) -> usize;
}

impl Run {
    fn new() -> Run {
        Run {
            random: Random::new(Settings::get().seed),
            refused: 0,
            told: [0; 2],
            denied: [0; 2],
        }
    }

    /// Makes the calls and asks, and holds the claim to what came of it.
    fn case<Q: Promised>(&mut self, name: &str, original: &Trail, calls: &[Call], question: &Q) {
        let name = format!("{name}, {calls:?}, {question:?}");
        let Trail { kind, fixes, .. } = original;
        let list = List::lending(calls, &mut self.random);
        let mut buffer = Buffer::of(name, original, &mut self.random);
        let before = buffer.bytes.clone();
        let answer = question.after(*kind, &mut buffer.bytes, &list);
        let mut aged = Buffer::new(buffer.name.clone(), before.clone());
        let run = run(&mut aged.bytes, &list);
        assert_eq!(run, tells_the_calls(*kind, calls), "{}", buffer.name);
        let book = leaves_what_the_book_says(&aged, &before, original, calls);
        let refusal = answer.refusal();
        let (left, name) = (buffer.bytes, &buffer.name);
        let same = if refusal == 0 { &aged.bytes } else { &before };
        assert!(left == *same, "{name}: other bytes");
        // refused or not, the question is of the trail before as it is of the trail after
        agrees(&answer, question.plainly(&aged.bytes), name);
        let e = book.e.unwrap_or(0);
        match answer.yes() {
            _ if refusal != 0 => self.refused += 1,
            Some(told) => self.told[question.yes_holds(told, fixes, e, name)] += 1,
            None => self.denied[question.no_holds(fixes, e, name)] += 1,
        }
    }

    fn question<Q: Promised>(&mut self, trail: &Trail) -> Q {
        let mut question = Q::good(trail, &mut self.random);
        if self.random.one_in(10) {
            let fault = self.random.pick(Q::CHECKS);
            question.spoil(fault, trail, &mut self.random);
        }
        question
    }

    fn expect_all_sorts(&self) {
        let ([yes, more], [no, less]) = (self.told, self.denied);
        println!("claim: {yes} told as by the original, {more} with E more");
        println!("claim: {no} denied as by the original, {less} with E less");
        println!("claim: {} refused", self.refused);
        let all = [yes, more, no, less, self.refused];
        assert!(all.iter().all(|&many| many > 0));
    }
}

/// Of an accepted record: none refused it, and so many calls were turned away.
fn tells_the_calls(kind: Kind, calls: &[Call]) -> interface::Run {
    let refused = |call: &&Call| call.applies(kind).is_err();
    interface::Run {
        refusal: 0,
        turned_away: calls.iter().filter(refused).count(),
    }
}

/// The record is the book's, and every byte is as the plain agings leave it.
fn leaves_what_the_book_says(
    buffer: &Buffer,
    before: &[u8],
    original: &Trail,
    calls: &[Call],
) -> Book {
    let mut book = Book::of(original);
    let mut plain = before.to_vec();
    for &call in calls {
        book.feed(call);
        // a refused call leaves the buffer
        let _ = call.make(&mut plain);
    }
    let name = &buffer.name;
    assert_eq!(buffer.trail(), book.expected(), "{name}");
    assert!(buffer.bytes == plain, "{name}: other bytes");
    let after = original.bytes().len();
    assert!(buffer.bytes[after..] == before[after..], "{name}: the tail");
    book
}

/// The original's place at a told time from its first second on, which isn't inside a silence.
fn place_then(original: &[Fix], told: Time, name: &str) -> (Time, Place) {
    let time = Time {
        p: told.p + told.q * i128::from(original[0].t),
        q: told.q,
    };
    let last = original[original.len() - 1].t;
    assert!(time.from_to(original[0].t, last), "{name}: {time:?}");
    assert!(!is_silent(original, time), "{name}: {time:?}");
    (time, Place::at(original, time))
}

impl Promised for Question {
    type Yes = Time;

    const CHECKS: &'static [u8] = &[13, 14];

    fn after(&self, kind: Kind, record: &mut [u8], list: &List) -> Crossed {
        Crossed::of(kind, crosses_after(record, list, self))
    }

    fn plainly_after(&self, record: &mut [u8], calls: &[Call]) -> Result<Option<Time>, u8> {
        lists::crosses_after(record, calls, self)
    }

    fn plainly(&self, record: &[u8]) -> Result<Option<Time>, u8> {
        crosses(record, self)
    }

    /// At its time the original is within E of the box.
    fn yes_holds(&self, told: Time, original: &[Fix], e: u16, name: &str) -> usize {
        let (time, place) = place_then(original, told, name);
        let Window { start, end } = self.window;
        assert!(time.from_to(start, end), "{name}: {time:?}");
        assert!(self.area.within(&place, e), "{name}: {place:?}");
        usize::from(!self.area.holds(&place))
    }

    /// Whenever the original is in the box outside silences, it is at most E from one of its sides.
    fn no_holds(&self, original: &[Fix], e: u16, name: &str) -> usize {
        let mut ever = 0;
        for time in telling_times(original, self, e) {
            let place = Place::at(original, time);
            if self.area.holds(&place) {
                ever = 1;
                let beside = self.area.beside(&place, e);
                assert!(beside, "{name}, at {time:?}: {place:?}");
            }
        }
        ever
    }
}

impl Promised for Circle {
    type Yes = approach::Approach;

    const CHECKS: &'static [u8] = &[16];

    fn after(&self, kind: Kind, record: &mut [u8], list: &List) -> Approached {
        Approached::of(kind, near_after(record, list, self))
    }

    fn plainly_after(&self, record: &mut [u8], calls: &[Call]) -> Result<Option<Self::Yes>, u8> {
        lists::near_after(record, calls, self)
    }

    fn plainly(&self, record: &[u8]) -> Result<Option<Self::Yes>, u8> {
        near(record, self)
    }

    /// At its time the original is at most r + E from the point.
    fn yes_holds(&self, told: Self::Yes, original: &[Fix], e: u16, name: &str) -> usize {
        let (_, place) = place_then(original, told.time, name);
        let wider = self.radius + u32::from(e);
        assert!(place.near(&self.point(), wider), "{name}: {place:?}");
        usize::from(!self.holds(&place))
    }

    /// At no time outside silences the original is at most r − E from the point, if r is at least E.
    fn no_holds(&self, original: &[Fix], e: u16, name: &str) -> usize {
        if let Some(radius) = self.radius.checked_sub(e.into()) {
            let narrower = Circle { radius, ..*self };
            let nearer = approach::first(original, &narrower);
            assert!(nearer.is_none(), "{name}: {nearer:?}");
        }
        usize::from(approach::first(original, self).is_some())
    }
}

#[test]
fn any_list_and_question() {
    any_list::<Question>();
    any_list::<Circle>();
}

fn any_list<Q: Promised>() {
    let settings = Settings::get();
    let mut run = Run::new();
    for k in 0..settings.cases {
        let shape = SHAPES[k % SHAPES.len()];
        let n = run
            .random
            .between(1, if k.is_multiple_of(20) { 400 } else { 60 });
        let kind = run.random.pick(&KINDS);
        let original = trail(kind, shape, n as usize, &mut run.random);
        let calls = some_calls(kind, &mut run.random);
        let question: Q = run.question(&original);
        let name = format!("seed {}: {kind}, {shape:?}, {n} fixes", settings.seed);
        run.case(&name, &original, &calls, &question);
    }
    run.expect_all_sorts();
}

/// Tolerances that thin but leave something, where yes and no are the hardest to have right.
#[test]
fn lists_of_small_tolerances() {
    for kind in KINDS {
        small_tolerances::<Question>(kind);
        small_tolerances::<Circle>(kind);
    }
}

fn small_tolerances<Q: Promised>(kind: Kind) {
    let settings = Settings::get();
    let mut run = Run::new();
    for k in 0..settings.cases / 2 {
        let shape = SHAPES[k % SHAPES.len()];
        let original = trail(kind, shape, 40, &mut run.random);
        let most = i64::from(40 * kind.times);
        let mut small = |most| run.random.between(0, most) as u16;
        let row = Row::from((5, small(40)));
        let calls = [
            Call::Tolerance(small(most)),
            Call::Days(4, Table::of(&[row])),
            Call::Days(5, Table::of(&[row])),
            Call::Days(5, Table::default()),
            Call::Tolerance(small(most)),
            Call::Tolerance(kind.top + 1),
        ];
        let question: Q = run.question(&original);
        let name = format!("seed {}: {kind}, {shape:?}", settings.seed);
        run.case(&name, &original, &calls, &question);
    }
    run.expect_all_sorts();
}

// A yes and a no that are as far off as 50 centimetres let them be, so that the claim is no weaker than it says.

/// Agings whose greatest tolerance is 50 centimetres.
fn bound(kind: Kind) -> [Call; 3] {
    let [one, other] = [12, 50].map(|e| Call::Tolerance(e * kind.times));
    [one, other, Call::Days(7, Table::built_in())]
}

/// The trail of these fixes, and in millimetres of the same.
fn in_both_units(fixes: &[Fix]) -> [Trail; 2] {
    [
        Trail::never_thinned(CENTIMETRES, fixes.to_vec()),
        Trail::never_thinned(MILLIMETRES, ten_times(fixes)),
    ]
}

fn at_second(second: u32, area: Area) -> Question {
    let (start, end) = (second, second);
    let window = Window { start, end };
    Question { window, area }
}

/// Document 01's trail c: at second 10 the record has the cart in the box, a point, and the original 50 from it.
#[test]
fn a_yes_may_be_off_by_all_of_e() {
    let fixes = [(0, 0, 0), (10, 30, 40), (20, 0, 0)].map(Fix::from);
    let question = at_second(10, Area::new((0, 0), (0, 0)));
    for original in in_both_units(&fixes) {
        let mut run = Run::new();
        run.case("c", &original, &bound(original.kind), &question);
        assert_eq!(run.told, [0, 1]);
        let place = Place::at(&original.fixes, Time::whole(10));
        let e = 50 * original.kind.times;
        assert!(question.area.within(&place, e) && !question.area.within(&place, e - 1));
    }
}

/// From second 3 to 6 the original is 50 ahead of the line between its ends, which is all that is left. At second 5 the
/// record has x at 5/3, left of the box, and the original at 155/3, which is 149/3 from the left edge; in millimetres
/// ten times as far, and the edge a millimetre nearer to 50/3, of which 5/3 times ten is 16 and two thirds.
#[test]
fn a_no_may_be_off_by_more_than_the_whole_number_below_e() {
    let fixes = [(0, 0, 0), (3, 51, 0), (6, 52, 0), (9, 3, 0)].map(Fix::from);
    for (original, left) in in_both_units(&fixes).into_iter().zip([2, 17]) {
        let far = i32::from(original.kind.times) * 200;
        let question = at_second(5, Area::new((left, far), (-far, far)));
        let mut run = Run::new();
        run.case("ahead", &original, &bound(original.kind), &question);
        assert_eq!(run.denied, [0, 1]);
        let place = Place::at(&original.fixes, Time::whole(5));
        let e = 50 * original.kind.times;
        assert!(question.area.beside(&place, e) && !question.area.beside(&place, e - 1));
    }
}

/// Document 01's trail c, with another cart's way before it and a silence between them. What an aging leaves out of one
/// stretch is as far off as E lets it be, and inside the silence, where a straight line has the cart in the box, it
/// says no.
#[test]
fn a_no_inside_a_silence_says_nothing_of_it() {
    let fixes = [
        (0, 0, 0, 0),
        (5, 0, 1, 0),
        (10, 0, 0, 1),
        (20, 100, 0, 0),
        (30, 130, 40, 0),
        (40, 100, 0, 0),
    ];
    let original = Trail::never_thinned(SILENCES, fixes.map(Fix::from).into());
    let calls = bound(SILENCES);
    let mut run = Run::new();
    // in the midst of the silence, and of all the time but its ends
    let area = Area::new((50, 60), (-5, 5));
    for window in [(15, 15), (11, 19), (0, 40)] {
        let (start, end) = window;
        let window = Window { start, end };
        run.case("silence", &original, &calls, &Question { window, area });
    }
    assert_eq!((run.told, run.denied), ([0, 0], [3, 0]));
    // 50 from the box at second 30, as c is without the silence
    let question = at_second(30, Area::new((100, 100), (0, 0)));
    run.case("silence", &original, &calls, &question);
    assert_eq!(run.told, [0, 1]);
}

/// From its start to its end the original goes round a corner that is 50 from the straight way, which is all that is left.
const CORNER: [(u32, i32, i32); 3] = [(0, 0, 0), (10, 100, 50), (20, 200, 0)];

/// A circle that is thought of in centimetres, and in the second of two trails is in millimetres.
fn circle(kind: Kind, x: i32, y: i32, radius: u32) -> Circle {
    let times = i32::from(kind.times);
    Circle {
        x: times * x,
        y: times * y,
        radius: u32::from(kind.times) * radius,
    }
}

/// At second 10 the record has the cart 30 from the point, as near as is asked, and the original is 80 from it.
#[test]
fn an_approach_may_be_off_by_all_of_e() {
    for original in in_both_units(&CORNER.map(Fix::from)) {
        let kind = original.kind;
        let asked = circle(kind, 100, -30, 30);
        let mut run = Run::new();
        run.case("corner", &original, &bound(kind), &asked);
        assert_eq!(run.told, [0, 1]);
        let place = Place::at(&original.fixes, Time::whole(10));
        assert_eq!(asked.reach(&place), 80 * u32::from(kind.times));
        // a radius that is one less reaches nothing of what is left
        let radius = asked.radius - 1;
        run.case(
            "corner",
            &original,
            &bound(kind),
            &Circle { radius, ..asked },
        );
        assert_eq!(run.denied, [1, 0]);
    }
}

/// The record stays one more than the radius from the point, and the original comes as near as one more than the radius
/// less E. With a radius below E it may come as near as it likes.
#[test]
fn a_denied_approach_may_be_off_by_all_of_e() {
    for original in in_both_units(&CORNER.map(Fix::from)) {
        let kind = original.kind;
        let asked = circle(kind, 100, 90, 90);
        let radius = asked.radius - 1;
        let mut run = Run::new();
        let denied = Circle { radius, ..asked };
        run.case("corner", &original, &bound(kind), &denied);
        let place = Place::at(&original.fixes, Time::whole(10));
        let e = 50 * u32::from(kind.times);
        assert_eq!(denied.reach(&place), radius - e + 1);
        // straight through the point
        let asked = circle(kind, 100, 50, 49);
        run.case("corner", &original, &bound(kind), &asked);
        assert_eq!((run.told, run.denied), ([0, 0], [0, 2]));
        assert_eq!(asked.reach(&place), 0);
    }
}

/// In the midst of a silence a straight line has the cart at the point, and the answer is no, whatever the original was.
#[test]
fn a_denied_approach_says_nothing_of_a_silence() {
    let fixes = [(0, 0, 0, 0), (10, 1, 9, 0), (20, 0, 0, 1), (30, 200, 0, 0)];
    let original = Trail::never_thinned(SILENCES, fixes.map(Fix::from).into());
    let mut run = Run::new();
    for radius in [99, 100] {
        let asked = circle(SILENCES, 100, 0, radius);
        run.case("silence", &original, &bound(SILENCES), &asked);
    }
    // its ends are 100 from the point
    assert_eq!((run.told, run.denied), ([1, 0], [1, 0]));
}

#[test]
fn the_longest_trails_and_a_long_list() {
    let mut run = Run::new();
    for (kind, shape) in every_kind_and_shape() {
        let original = trail(kind, shape, MOST_FIXES, &mut run.random);
        let mut long: Vec<Call> = (0..20).map(|k| Call::Tolerance(k % 7)).collect();
        long.push(Call::Days(65_535, Table::built_in()));
        let name = format!("{kind}, {shape:?}, the longest");
        let day_0 = Call::Days(0, Table::built_in());
        for calls in [&[][..], &[day_0], &[Call::Tolerance(3)], &long] {
            let question: Question = run.question(&original);
            run.case(&name, &original, calls, &question);
            let circle: Circle = run.question(&original);
            run.case(&name, &original, calls, &circle);
        }
    }
}

/// A record that is turned away, or a question: no call of the list is made, and no byte is changed.
#[test]
fn what_is_refused_is_left_as_it_was() {
    are_left::<Question>("crossing", &[&[], &[13], &[14], &[14, 13]]);
    are_left::<Circle>("approach", &[&[], &[16]]);
}

fn are_left<Q: Promised>(what: &str, faults: &[&[u8]]) {
    let calls = [
        Call::Tolerance(12),
        Call::Tolerance(32_001),
        Call::Days(7, Table::built_in()),
        Call::Days(7, Table::default()),
    ];
    let list = List::lending(&calls, &mut Random::new(0));
    let mut tally = Tally::default();
    refused_in_order(faults, &mut tally, |record, question: &Q, name| {
        let (mut bytes, mut plain) = (record.to_vec(), record.to_vec());
        let answer = question.after(kind_of(record, CENTIMETRES), &mut bytes, &list);
        let name = format!("{name}, {question:?}");
        let refusal = answer.refusal();
        agrees(&answer, question.plainly_after(&mut plain, &calls), &name);
        assert!(bytes == plain, "{name}: other bytes");
        assert!(refusal == 0 || bytes == record, "{name}: refused");
        refusal
    });
    let checks = (1..=9).chain([20]).chain(Q::CHECKS.iter().copied());
    let checks: Vec<u32> = checks.map(u32::from).collect();
    tally.expect(&format!("{what} after a list"), &checks);
}
