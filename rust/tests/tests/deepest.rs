//! Document 02's dearest trail in both directions and units: the most measuring that n fixes can cost, and the deepest that
//! splits can nest.
#![forbid(unsafe_code)]

use trails_tests::agings::Buffer;
use trails_tests::cases::Random;
use trails_tests::interface::{dearest_fixes, Answer};
use trails_tests::plain::dearest::count;
use trails_tests::plain::kinds::{CENTIMETRES, MILLIMETRES};
use trails_tests::plain::lists::Call;
use trails_tests::plain::{Trail, MOST_FIXES};
use trails_tests::shapes::{backwards, ten_times};

/// In both directions and, ten times as far, in millimetres.
fn costs_the_most(n: usize) {
    let value = count(n);
    let there = dearest_fixes(n);
    for fixes in [backwards(&there), there] {
        for (kind, fixes) in [(MILLIMETRES, ten_times(&fixes)), (CENTIMETRES, fixes)] {
            let mut random = Random::new(n as u64);
            let name = format!("the dearest trail of {n} fixes in {kind}");
            let trail = Trail::never_thinned(kind, fixes);
            let mut buffer = Buffer::of(name, &trail, &mut random);
            let answer = buffer.age(Call::Tolerance(kind.times));
            assert_eq!(answer, Answer { refusal: 0, value }, "{}", buffer.name);
        }
    }
}

#[test]
fn short_ones_count_every_pair() {
    (1..=200).for_each(costs_the_most);
}

/// In a thread with the stack that Rust gives a thread unless asked, however the tests are run.
#[test]
fn the_longest_runs_on_a_usual_stack() {
    let run = std::thread::spawn(|| costs_the_most(MOST_FIXES));
    run.join().expect("it ends, with the right answer");
}
