//! Readings of ceiling anchors: each check at its limits, the very state that a refusal leaves, the rounded place, and what
//! is left of a list, counted in sixteenths.
#![forbid(unsafe_code)]

use trails_tests::cases::{Random, Settings};
use trails_tests::interface::{anchor, anchor_all, bits, numbers_anchored, AnchorState, Anchored};
use trails_tests::plain::anchors::{sixteenths, Reading};
use trails_tests::readings::{any_state, of_sixteenths, ReadingColumns, EDGES};
use trails_tests::{expected, interface};
use Reading::{Absolute, Step};

const START: AnchorState = AnchorState {
    x: 0.0,
    y: 0.0,
    seen: 0,
};

fn at(x: f32, y: f32) -> AnchorState {
    AnchorState { x, y, seen: 1 }
}

/// What the proved function answers, which must be what the plain version does, in every bit.
fn read(state: AnchorState, reading: Reading) -> Anchored {
    let answer = anchor(state, reading);
    let (told, want) = (answer, expected::anchor(state, reading));
    assert_eq!(
        numbers_anchored(told),
        numbers_anchored(want),
        "{state:?}, {reading:?}: {told:?} and not {want:?}"
    );
    answer
}

fn refusal(state: AnchorState, reading: Reading) -> u32 {
    read(state, reading).refusal
}

/// The rounded place and the new one.
fn accepted(state: AnchorState, reading: Reading) -> ((i32, i32), (f32, f32)) {
    let answer = read(state, reading);
    assert_eq!((answer.refusal, answer.state.seen), (0, 1), "{reading:?}");
    ((answer.x, answer.y), (answer.state.x, answer.state.y))
}

/// Each edge with both signs.
fn edges() -> impl Iterator<Item = f32> {
    EDGES.into_iter().flat_map(|edge| [edge, -edge])
}

// ---- by hand

#[test]
fn places_and_steps_are_taken() {
    assert_eq!(
        accepted(START, Absolute(12.25, -0.5)),
        ((12, -1), (12.25, -0.5))
    );
    assert_eq!(
        accepted(at(12.25, -0.5), Step(0.25, -7.0625)),
        ((13, -8), (12.5, -7.5625))
    );
    // whatever the state, an absolute place is taken
    let forged = AnchorState {
        x: f32::NAN,
        y: 1e30,
        seen: 7,
    };
    assert_eq!(accepted(forged, Absolute(1.0, 2.0)), ((1, 2), (1.0, 2.0)));
}

#[test]
fn halves_go_away_from_0() {
    for (value, whole) in [
        (0.4375, 0),
        (0.5, 1),
        (0.5625, 1),
        (1.4375, 1),
        (1.5, 2),
        (15_999.437_5, 15_999),
        (15_999.5, 16_000),
    ] {
        let ((x, y), _) = accepted(START, Absolute(value, -value));
        assert_eq!((x, y), (whole, -whole), "{value}");
        let ((y, x), _) = accepted(at(0.0, 0.0), Step(-value, value));
        assert_eq!((x, y), (whole, -whole), "{value}");
    }
}

/// A minus before 0 stays where it is sent, and is 0 wherever a value counts.
#[test]
fn the_two_zeros_are_one() {
    let minus = (-0.0_f32).to_bits();
    let sent = read(START, Absolute(-0.0, 0.0));
    assert_eq!((sent.x, sent.y), (0, 0));
    assert_eq!(bits(sent.state), [minus, 0, 1]);
    let both = read(sent.state, Step(-0.0, -0.0));
    assert_eq!(bits(both.state), [minus, 0, 1]);
    let one = read(sent.state, Step(0.0, -0.0));
    assert_eq!(bits(one.state), [0, 0, 1]);
    let back = read(at(-0.0, 5.0), Step(3.0, -5.0));
    assert_eq!((back.state.x, bits(back.state)[1]), (3.0, 0));
}

// ---- the checks

/// 17 looks at both values of either form, and at nothing else.
#[test]
fn what_is_not_finite_or_no_sixteenths_is_refused_by_17() {
    let mut met = 0;
    for value in edges().filter(|value| sixteenths(*value).is_err()) {
        for state in [START, at(1.0, 2.0), at(f32::NAN, f32::INFINITY)] {
            for reading in [
                Absolute(value, 0.0),
                Absolute(0.0, value),
                Step(value, 0.0),
                Step(0.0, value),
                Absolute(value, 1e30),
                Step(1e30, value),
            ] {
                assert_eq!(refusal(state, reading), 17, "{state:?}, {reading:?}");
                met += 1;
            }
        }
    }
    assert!(met > 500, "{met}");
}

/// From 524,288 up every float is a whole number of sixteenths, and is too far.
#[test]
fn great_values_are_refused_by_19_or_18() {
    let limit = 524_288.0_f32;
    let below = limit.next_down();
    assert_eq!((below, sixteenths(below)), (524_287.97, Err(17)));
    let great = [limit, limit.next_up(), 1e9, 1e30, f32::MAX];
    for value in great.into_iter().flat_map(|value| [value, -value]) {
        assert_eq!(refusal(START, Absolute(value, 0.0)), 19);
        assert_eq!(refusal(at(0.0, 0.0), Step(0.0, value)), 19);
        assert_eq!(refusal(at(16_000.0, -16_000.0), Step(value, value)), 19);
        assert_eq!(refusal(START, Step(value, 0.0)), 18);
    }
    assert_eq!(refusal(START, Absolute(below, 0.0)), 17);
}

/// A sixteenth more than 16,000, on each side and each axis.
#[test]
fn places_end_at_16_000() {
    let (most, more) = (16_000.0, 16_000.062_5);
    for sign in [1.0, -1.0] {
        let (most, more) = (sign * most, sign * more);
        accepted(START, Absolute(most, most));
        accepted(START, Absolute(-most, most));
        assert_eq!(refusal(START, Absolute(more, 0.0)), 19);
        assert_eq!(refusal(START, Absolute(most, more)), 19);
        // from the other wall and from near, to the wall and a sixteenth over it
        for from in [-most, 0.0, most - sign * 0.0625, most] {
            let (to, over) = (most - from, more - from);
            accepted(at(from, 0.0), Step(to, 0.0));
            accepted(at(0.0, from), Step(0.0, to));
            assert_eq!(refusal(at(from, 0.0), Step(over, 0.0)), 19, "{from}");
            assert_eq!(refusal(at(0.0, from), Step(0.0, over)), 19, "{from}");
        }
    }
}

/// A step asks for a place that 17 and 19 let pass, and for the flag; an absolute place asks for neither.
#[test]
fn steps_from_no_place_are_refused_by_18() {
    let mut met = 0;
    for value in edges() {
        let bad = sixteenths(value).map_or(true, |n| n.unsigned_abs() > 256_000);
        let want = if bad { 18 } else { 0 };
        for state in [at(value, 1.0), at(1.0, value)] {
            assert_eq!(refusal(state, Step(0.0, 0.0)), want, "{state:?}");
            let off = AnchorState { seen: 0, ..state };
            assert_eq!(refusal(off, Step(0.0, 0.0)), 18);
            assert_eq!(refusal(off, Absolute(0.0, 0.0)), 0);
            met += u32::from(bad);
        }
    }
    assert!(met > 40, "{met}");
}

#[test]
fn checks_are_made_in_order() {
    let no_place = [
        START,
        at(f32::NAN, 0.0),
        at(0.0, 0.03125),
        at(0.0, 16_001.0),
    ];
    for state in no_place {
        // 17, 18 and 19 at once, then 18 and 19
        assert_eq!(refusal(state, Step(f32::NAN, 1e30)), 17);
        assert_eq!(refusal(state, Step(0.03125, 1e30)), 17);
        assert_eq!(refusal(state, Step(1.0, 1e30)), 18);
    }
    assert_eq!(refusal(at(0.0, 0.0), Step(0.03125, 1e30)), 17);
    assert_eq!(refusal(at(0.0, 0.0), Step(1.0, 1e30)), 19);
    assert_eq!(refusal(START, Absolute(1e30, 0.03125)), 17);
}

/// What is handed in comes back, in every bit: of each NaN too, and the number that says whether there is a place.
#[test]
fn a_refused_reading_leaves_the_very_state() {
    let seen = [0, 1, 2, 255, 256, 65_536, 1 << 31, u32::MAX];
    for value in edges() {
        for seen in seen {
            for (x, y) in [(value, 0.5), (0.5, value), (value, value)] {
                let state = AnchorState { x, y, seen };
                for reading in [
                    Absolute(f32::NAN, 0.0),
                    Absolute(0.0, 16_001.0),
                    Step(0.0, f32::INFINITY),
                    Step(1e30, 0.0),
                ] {
                    let answer = read(state, reading);
                    assert_ne!(answer.refusal, 0);
                    assert_eq!(bits(answer.state), bits(state), "{reading:?}");
                    assert_eq!((answer.x, answer.y), (0, 0));
                }
            }
        }
    }
}

// ---- floats of every sort

/// Every sign and exponent with the least rests of the mantissa, the greatest and some between.
fn all_exponents() -> Vec<f32> {
    let mut rests: Vec<u32> = vec![0, 1, 2, 3, 0x0055_5555, 0x002A_AAAA];
    for bit in 0..23 {
        let one = 1 << bit;
        rests.extend([
            one,
            one - 1,
            one + 1,
            0x007F_FFFF ^ one,
            0x007F_FFFF & !(one - 1),
        ]);
    }
    rests.extend([0x003F_FFFF, 0x0040_0001, 0x007F_FFFE, 0x007F_FFFF]);
    rests.sort_unstable();
    rests.dedup();
    let heads = 0..512_u32;
    heads
        .flat_map(|head| rests.iter().map(move |rest| head << 23 | rest))
        .map(f32::from_bits)
        .collect()
}

#[test]
fn floats_of_every_exponent_are_read_as_the_plain_version_does() {
    let all = all_exponents();
    let mut met = [0; 20];
    for &value in &all {
        for reading in [
            Absolute(value, 0.25),
            Absolute(-3.0, value),
            Step(value, 0.25),
            Step(-3.0, value),
        ] {
            met[refusal(at(-7.5, 100.0), reading) as usize] += 1;
        }
        // the same as a state's place
        for state in [at(value, 1.0), at(1.0, value)] {
            met[refusal(state, Step(0.5, -0.5)) as usize] += 1;
        }
    }
    println!("{} floats, {met:?}", all.len());
    assert!(all.len() > 50_000);
    assert!([0, 17, 18, 19].iter().all(|&refusal| met[refusal] > 1_000));
}

/// Each place of a coordinate that there is: 512,001 of them, and the next one on each side.
#[test]
fn every_sixteenth_of_the_hall_is_exact() {
    for n in -256_001..=256_001 {
        let value = of_sixteenths(n);
        let answer = read(START, Absolute(value, -value));
        assert_eq!(answer.refusal == 0, n.abs() <= 256_000, "{n}");
        // the same by a step from one wall
        let stepped = read(
            at(-16_000.0, 16_000.0),
            Step(of_sixteenths(n + 256_000), 0.0),
        );
        assert_eq!(stepped.refusal, answer.refusal, "{n}");
        if answer.refusal == 0 {
            assert_eq!((stepped.x, stepped.state.x), (answer.x, value), "{n}");
        }
    }
}

// ---- lists

/// A list of readings, each for the state that the one before left.
fn any_list(mut state: AnchorState, random: &mut Random) -> Vec<Reading> {
    let many = random.pick(&[0, 1, 2, 5, 20, 200]);
    let mut next = |_| {
        let reading = Reading::any(&state, random);
        state = anchor(state, reading).state;
        reading
    };
    (0..many).map(&mut next).collect()
}

/// The place that the document claims, in sixteenths: "the exact sum [...] of the last accepted absolute place and the steps
/// accepted since". None if no absolute place was accepted.
fn claimed(state: AnchorState, readings: &[Reading]) -> Option<[i128; 2]> {
    let mut state = state;
    let mut sum = None;
    for &reading in readings {
        let answer = anchor(state, reading);
        state = answer.state;
        if answer.refusal != 0 {
            continue;
        }
        let sent = reading
            .values()
            .map(|c| sixteenths(c).expect("17 lets it pass"));
        sum = match reading {
            Absolute(..) => Some(sent),
            Step(..) => sum.map(|[x, y]: [i128; 2]| [x + sent[0], y + sent[1]]),
        };
    }
    sum
}

#[test]
fn a_list_leaves_the_last_place_and_the_steps_since() {
    let settings = Settings::get();
    let mut random = Random::new(settings.seed);
    let (mut with, mut without) = (0, 0);
    for _ in 0..settings.cases {
        let state = any_state(&mut random);
        let list = any_list(state, &mut random);
        let columns = ReadingColumns::of(&list);
        let left = anchor_all(state, &columns);
        assert_eq!(bits(left), bits(expected::anchor_all(state, &columns)));
        let one_by_one = list
            .iter()
            .fold(state, |state, one| anchor(state, *one).state);
        let flag = u32::from(one_by_one.seen != 0);
        assert_eq!(
            bits(left),
            bits(AnchorState {
                seen: flag,
                ..one_by_one
            })
        );
        match claimed(state, &list) {
            Some(place) => {
                assert_eq!(left.seen, 1);
                assert_eq!([left.x, left.y].map(sixteenths), place.map(Ok), "{list:?}");
                with += 1;
            }
            None => without += 1,
        }
    }
    assert!(
        with > settings.cases / 3 && without > 0,
        "{with}, {without}"
    );
}

/// Two lists that have one accepted absolute place in common from there on leave the same, whatever was before.
#[test]
fn what_was_before_an_absolute_place_is_forgotten() {
    let mut random = Random::new(Settings::get().seed);
    for _ in 0..1_000 {
        let later = any_list(at(1.5, -2.0), &mut random);
        let list = [vec![Absolute(1.5, -2.0)], later].concat();
        let all = |state| bits(anchor_all(state, &ReadingColumns::of(&list)));
        assert_eq!(all(any_state(&mut random)), all(START));
    }
}

/// A thousand steps there and back, a sixteenth each: nothing is lost, at the wall as at 0.
#[test]
fn many_small_steps_add_up() {
    for from in [-16_000.0, -62.5, 0.0, 15_937.5] {
        let there = vec![Step(0.0625, -0.0625); 1_000];
        let back = vec![Step(-0.0625, 0.0625); 1_000];
        let start = Absolute(from, -from);
        let columns = |parts: &[&[Reading]]| ReadingColumns::of(&parts.concat());
        let away = anchor_all(START, &columns(&[&[start], &there]));
        assert_eq!((away.x, away.y), (from + 62.5, -from - 62.5));
        let home = anchor_all(START, &columns(&[&[start], &there, &back]));
        assert_eq!((home.x, home.y), (from, -from));
    }
}

/// As many readings as the shortest column has, and a step wherever its number isn't 0.
#[test]
fn lists_are_as_long_as_the_shortest_column() {
    let readings = [
        Absolute(1.0, 2.0),
        Step(10.0, 20.0),
        Step(100.0, 200.0),
        Absolute(5.0, 6.0),
        Step(0.25, 0.5),
    ];
    let whole = ReadingColumns::of(&readings);
    for lengths in 0..6 * 6 * 6_usize {
        let [a, b, c] = [lengths % 6, lengths / 6 % 6, lengths / 36].map(|n| n.min(5));
        let columns = ReadingColumns {
            step: whole.step[..a].to_vec(),
            x: whole.x[..b].to_vec(),
            y: whole.y[..c].to_vec(),
        };
        let left = anchor_all(START, &columns);
        let shortest = a.min(b).min(c);
        let same = anchor_all(START, &ReadingColumns::of(&readings[..shortest]));
        assert_eq!(bits(left), bits(same), "{a}, {b}, {c}");
        assert_eq!(bits(left), bits(expected::anchor_all(START, &columns)));
    }
    let place = |n: usize| {
        let left = anchor_all(START, &ReadingColumns::of(&readings[..n]));
        (left.x, left.y, left.seen)
    };
    assert_eq!(place(0), (0.0, 0.0, 0));
    assert_eq!(place(3), (111.0, 222.0, 1));
    assert_eq!(place(5), (5.25, 6.5, 1));
    for step in [1, 2, 128, 255] {
        let mut columns = whole.clone();
        columns.step[1] = step;
        assert_eq!(
            bits(anchor_all(START, &columns)),
            bits(anchor_all(START, &whole))
        );
    }
}

/// A list answers 1 for a state with a place and 0 for one without, whatever number was handed in.
#[test]
fn a_list_answers_a_flag_of_0_or_1() {
    for seen in [0, 1, 2, 256, u32::MAX] {
        let state = AnchorState {
            x: f32::NAN,
            y: 0.03125,
            seen,
        };
        let nothing = interface::anchor_all(state, &ReadingColumns::default());
        let want = [state.x.to_bits(), state.y.to_bits(), u32::from(seen != 0)];
        assert_eq!(bits(nothing), want);
        let refused = ReadingColumns::of(&[Step(1.0, 1.0), Absolute(f32::NAN, 0.0)]);
        assert_eq!(bits(anchor_all(state, &refused)), want);
    }
}
