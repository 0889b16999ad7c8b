//! Lists of agings, in any order and with refused ones among them: what is left is the original thinned once, at the
//! greatest tolerance that was applied.
#![forbid(unsafe_code)]

use trails_tests::agings::{some_calls, stays_near, Buffer};
use trails_tests::cases::{Cases, Random, Settings, Tally};
use trails_tests::expected;
use trails_tests::interface::{by_table, run};
use trails_tests::plain::kinds::KINDS;
use trails_tests::plain::lists::{Book, Call, List};
use trails_tests::plain::table::{Row, Table};
use trails_tests::plain::{Trail, MOST_FIXES, NEVER};
use trails_tests::shapes::{every_kind_and_shape, trail, SHAPES};

/// Makes the calls one after the other on one buffer. The claim is about whole lists, and each beginning of a list
/// is one.
fn ages(name: String, original: &Trail, calls: &[Call], random: &mut Random) {
    let mut buffer = Buffer::of(name, original, random);
    let mut book = Book::of(original);
    assert_eq!(buffer.trail(), book.expected(), "{}", buffer.name);
    for &call in calls {
        buffer.age(call);
        book.feed(call);
        assert_eq!(buffer.trail(), book.expected(), "{}", buffer.name);
    }
    let aged = buffer.trail().fixes;
    let e = book.e.unwrap_or(0);
    stays_near(&original.fixes, &aged, e, &buffer.name, random);
}

#[test]
fn any_list_leaves_the_original_thinned_at_the_greatest() {
    let settings = Settings::get();
    let mut random = Random::new(settings.seed);
    for k in 0..settings.cases {
        let shape = SHAPES[k % SHAPES.len()];
        let kind = random.pick(&KINDS);
        let n = random.between(1, if k.is_multiple_of(20) { 400 } else { 60 });
        let original = trail(kind, shape, n as usize, &mut random);
        let calls = some_calls(kind, &mut random);
        let seed = settings.seed;
        let name = format!("seed {seed}: {kind}, {shape:?}, {n} fixes, {calls:?}");
        ages(name, &original, &calls, &mut random);
    }
}

/// A hall's own table, which on day 7 has more than the built-in one.
fn hall() -> Table {
    Table::of(&[(5, 40), (30, 60)].map(Row::from))
}

/// One that is refused.
fn falling() -> Table {
    Table::of(&[(5, 60), (30, 40)].map(Row::from))
}

#[test]
fn so_do_lists_on_the_longest_trails() {
    let mut random = Random::new(Settings::get().seed);
    let built_in = Table::built_in();
    let calls = [
        Call::Days(2, built_in),
        Call::Tolerance(3),
        Call::Tolerance(32_001),
        Call::Days(30, hall()),
        Call::Days(30, built_in),
        Call::Days(1, built_in),
        Call::Tolerance(60),
        Call::Tolerance(60_001),
        Call::Days(30, falling()),
        Call::Days(90, built_in),
    ];
    for (kind, shape) in every_kind_and_shape() {
        let original = trail(kind, shape, MOST_FIXES, &mut random);
        let name = format!("{kind}, {shape:?}, the longest, {calls:?}");
        ages(name, &original, &calls, &mut random);
    }
}

/// Every order of the calls.
fn orders(calls: &[Call]) -> Vec<Vec<Call>> {
    let Some((&first, rest)) = calls.split_first() else {
        return vec![Vec::new()];
    };
    let mut all = Vec::new();
    for order in orders(rest) {
        for at in 0..=order.len() {
            let mut longer = order.clone();
            longer.insert(at, first);
            all.push(longer);
        }
    }
    all
}

#[test]
fn every_order_of_the_same_calls_is_a_list() {
    let mut random = Random::new(Settings::get().seed);
    let calls = [
        Call::Tolerance(5),
        Call::Days(7, Table::built_in()),
        Call::Tolerance(32_001),
        Call::Days(7, hall()),
        Call::Days(60, falling()),
    ];
    for (kind, shape) in every_kind_and_shape() {
        let original = trail(kind, shape, 100, &mut random);
        for order in orders(&calls) {
            let name = format!("{kind}, {shape:?}, {order:?}");
            ages(name, &original, &order, &mut random);
        }
    }
}

/// As one call: it tells why the record is refused, and then nothing is done; or how many calls were turned away.
#[test]
fn a_list_as_one_call_tells_what_became_of_it() {
    let settings = Settings::get();
    let mut random = Random::new(settings.seed);
    let mut tally = Tally::default();
    let mut most = 0;
    for case in Cases::all(settings) {
        let calls = some_calls(case.kind(), &mut random);
        let list = List::lending(&calls, &mut random);
        assert_eq!(list.all(), calls, "{}", case.name);
        let name = format!("{}, {calls:?}", case.name);
        let (mut bytes, mut plain) = (case.bytes.clone(), case.bytes.clone());
        let told = run(&mut bytes, &list);
        assert_eq!(told, expected::run(&mut plain, &list), "{name}");
        assert!(bytes == plain, "{name}: other bytes");
        if let Some(known) = case.known {
            assert_eq!(told.refusal, known.into(), "{name}");
        }
        if told.refusal != 0 {
            assert_eq!((told.turned_away, &bytes), (0, &case.bytes), "{name}");
        }
        tally.count(case.kind(), told.refusal);
        most = most.max(told.turned_away);
    }
    tally.expect("list", &[1, 2, 3, 4, 5, 6, 7, 8, 9, 20]);
    println!("list: up to {most} calls turned away");
    assert!(most > 1);
}

/// A call of every number of a table: by those of which all 65 numbers are lent, and turned away by those of which one is
/// missing or all are.
#[test]
fn tables_of_which_a_number_is_missing_have_no_rows() {
    let mut random = Random::new(Settings::get().seed);
    let original = trail(KINDS[0], SHAPES[0], 40, &mut random);
    let lent = [hall(), Table::built_in(), hall()].map(|table| table.numbers());
    let lent = lent.concat();
    for many in [0, 1, 64, 65, 66, 129, 130, 131, 194, 195] {
        for k in [0, 1, 2, 3, 65_535, 65_536, (1 << 32), (1 << 48) - 2] {
            let list = List {
                calls: vec![by_table(k, 7)],
                tables: lent[..many].to_vec(),
            };
            let mut buffer =
                Buffer::of(format!("{many} numbers, table {k}"), &original, &mut random);
            let told = run(&mut buffer.bytes, &list);
            let there = 65 * (k + 1) <= many;
            let away = usize::from(!there);
            assert_eq!(
                (told.refusal, told.turned_away),
                (0, away),
                "{}",
                buffer.name
            );
            let mark = match k {
                _ if !there => NEVER,
                1 => 25,
                _ => 40,
            };
            assert_eq!(buffer.trail().mark, mark, "{}", buffer.name);
        }
    }
}
