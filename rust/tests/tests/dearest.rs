//! Document 02's dearest trail: its record, what is turned away, and what aging it counts. `deepest.rs` has it backwards
//! and in millimetres, and `aging.rs` that no other trail counts more.
#![forbid(unsafe_code)]

use trails_tests::cases::{Random, Settings};
use trails_tests::interface::{self, dearest_fixes, Answer};
use trails_tests::plain::dearest::{count, trail};
use trails_tests::plain::kinds::CENTIMETRES;
use trails_tests::plain::{Trail, MOST_FIXES};
use trails_tests::shapes::so_many_times;

/// Every number of fixes up to 300, some above, and the greatest.
fn sizes() -> impl Iterator<Item = usize> {
    let great = [511, 512, 1_000, 1_023, 2_047, 2_048, 2_049, 3_001];
    let greatest = MOST_FIXES - 2..=MOST_FIXES;
    (1..=300).chain(great).chain(greatest)
}

fn accepted(value: usize) -> Answer {
    Answer {
        refusal: 0,
        value: value as u32,
    }
}

/// The call is turned away whatever it is lent, and no byte changes.
fn is_refused(n: usize, output: usize, refusal: u32, random: &mut Random) {
    let before = random.bytes(output);
    let mut after = before.clone();
    let answer = interface::dearest(n, &mut after);
    let value = 0;
    let name = format!("{n} fixes into {output} bytes");
    assert_eq!(answer, Answer { refusal, value }, "{name}");
    assert!(after == before, "{name}: other bytes");
}

/// Of every number of fixes, into an output that is just long enough, and into one that goes on.
#[test]
fn it_is_written_and_later_bytes_stay() {
    let mut random = Random::new(Settings::get().seed);
    for n in 1..=MOST_FIXES {
        let record = trail(n).bytes();
        assert_eq!(record.len(), 10 + 8 * n);
        for more in [0, 1 + n % 40] {
            let before = random.bytes(record.len() + more);
            let mut output = before.clone();
            let answer = interface::dearest(n, &mut output);
            assert_eq!(answer, accepted(record.len()), "{n} fixes");
            let (written, rest) = output.split_at(record.len());
            assert!(written == record, "{n} fixes: other bytes");
            assert_eq!(rest, &before[record.len()..], "{n} fixes");
        }
    }
}

/// By hand: one fix, and four, into an output that goes on.
#[test]
fn short_ones_are_written() {
    let mut output = [7; 44];
    assert_eq!(interface::dearest(1, &mut output), accepted(18));
    let one = [
        &[18, 0, 0, 0, 1, 0, 0xFF, 0xFF, 1, 0][..],
        &[0; 8],
        &[7; 26],
    ];
    assert_eq!(output[..], one.concat());
    assert_eq!(interface::dearest(4, &mut output), accepted(42));
    let four = [
        &[42, 0, 0, 0, 1, 0, 0xFF, 0xFF, 4, 0][..],
        &[0, 0, 0, 0, 0, 0, 3, 0],
        &[1, 0, 0, 0, 0, 0, 0xFE, 0xFF],
        &[2, 0, 0, 0, 0, 0, 1, 0],
        &[3, 0, 0, 0, 0, 0, 0, 0],
        &[7, 7],
    ];
    assert_eq!(output[..], four.concat());
}

/// Also a number whose low 16 or 32 bits are a count, and one whose record would have a length of 34 in 64 bits; and
/// before an output that is too short is.
#[test]
fn a_number_that_no_record_has_is_turned_away_first() {
    let mut random = Random::new(Settings::get().seed);
    for n in [
        0,
        MOST_FIXES + 1,
        65_535,
        65_536 + 3,
        (1 << 32) + 3,
        (1 << 61) + 3,
        usize::MAX,
    ] {
        for output in [0, 9, 10, 17, 34, 32_778, 32_786, 70_000] {
            is_refused(n, output, 3, &mut random);
        }
    }
}

#[test]
fn an_output_that_is_too_short_is_turned_away() {
    let mut random = Random::new(Settings::get().seed);
    for n in sizes() {
        let length = 10 + 8 * n;
        for output in [0, 9, 10, length - 8, length - 1] {
            is_refused(n, output, 15, &mut random);
        }
    }
}

/// At 1 it counts what it is to count and every fix stays, so that afterwards it counts as much again.
#[test]
fn aging_it_counts_the_most_again_and_again() {
    for n in sizes() {
        let mut record = trails::dearest(n).expect("a record has so many");
        for _ in 0..2 {
            let answer = interface::age(&mut record, 1);
            assert_eq!(answer, accepted(count(n) as usize), "{n} fixes");
            let aged = Trail {
                mark: 1,
                ..trail(n)
            };
            assert!(record == aged.bytes(), "{n} fixes: other bytes");
        }
    }
    let by_hand = [1, 2, 3, 4, 5, 6, 100, 4_095, 4_096].map(count);
    assert_eq!(by_hand, [0, 0, 1, 3, 6, 10, 4_851, 8_378_371, 8_382_465]);
}

/// With minus for even and plus for odd it is as dear.
#[test]
fn the_other_signs_count_as_much() {
    for n in 1..=100 {
        let mirrored = so_many_times(-1, &dearest_fixes(n));
        let mut record = Trail::never_thinned(CENTIMETRES, mirrored).bytes();
        let answer = interface::age(&mut record, 1);
        assert_eq!(answer, accepted(count(n) as usize), "{n} fixes");
    }
}
