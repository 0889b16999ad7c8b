//! The program that reads a record's fixes and writes them anew, by the writer over a lent list of fixes, which the
//! interface for other languages can't have.
#![forbid(unsafe_code)]

use trails_tests::cases::{faults, Cases, Draft, Random, Settings};
use trails_tests::plain::kinds::{Kind, KINDS};
use trails_tests::plain::{read, rewritten, Trail, LONGEST, MOST_FIXES, NEVER};
use trails_tests::programs::{printed, proved};
use trails_tests::shapes::{trail, SHAPES};

fn rewrites(input: &[u8], piece: usize, what: &str) {
    let printed = printed(&proved("rewrite"), input, piece);
    let want = rewritten(input);
    assert!(printed == want, "{what}, in pieces of {piece}: {printed:?}");
}

/// Marked never and with tolerances, alone and with bytes after the record.
#[test]
fn records_of_all_sizes_are_written_anew() {
    KINDS.into_iter().for_each(all_sizes_are_written_anew);
}

fn all_sizes_are_written_anew(kind: Kind) {
    let mut random = Random::new(Settings::get().seed);
    for n in [1, 2, 300, MOST_FIXES] {
        for shape in SHAPES {
            for (mark, after) in [(NEVER, 0), (NEVER, 90), (0, 1), (25, 0), (kind.top, 17)] {
                let trail = Trail {
                    mark,
                    ..trail(kind, shape, n, &mut random)
                };
                let draft = Draft::new(trail, random.bytes(after));
                let what = format!("{kind}, {shape:?}, {n} fixes, mark {mark}, {after} bytes more");
                rewrites(&draft.bytes(), LONGEST, &what);
            }
        }
    }
}

/// What comes out is the record that went in, but for its mark and what stood after it.
#[test]
fn a_record_marked_never_comes_out_as_it_went_in() {
    let mut random = Random::new(Settings::get().seed);
    for n in [1, 2, 300, MOST_FIXES] {
        for kind in KINDS {
            let mut draft = Draft::accepted(kind, &mut random, n);
            draft.head.mark = NEVER;
            let bytes = draft.bytes();
            let printed = printed(&proved("rewrite"), &bytes, 999);
            let record = &bytes[..kind.record_length(n)];
            assert!(printed == record, "{kind}, {n} fixes");
        }
    }
}

/// By hand: document 01's 18 bytes and the same in millimetres and with a silence byte, marked 12 and with a byte more.
#[test]
fn the_papers_record_is_written_anew() {
    let centimetres = [0xE8, 3, 0, 0, 0xFF, 0xFF, 2, 0];
    let millimetres = [0xE8, 3, 0, 0, 0xF6, 0xFF, 0xFF, 0xFF, 20, 0, 0, 0];
    let silent = [0xE8, 3, 0, 0, 0xFF, 0xFF, 2, 0, 0];
    for (kind, fix) in [(1, &centimetres[..]), (2, &millimetres), (3, &silent)] {
        let length = 10 + fix.len() as u8;
        let given = [&[length, 0, 0, 0, kind, 0, 12, 0, 1, 0], fix, &[7]].concat();
        let printed = printed(&proved("rewrite"), &given, 1);
        let want = [&[length, 0, 0, 0, kind, 0, 0xFF, 0xFF, 1, 0], fix].concat();
        assert_eq!(printed, want);
    }
}

#[test]
fn no_more_than_the_longest_record_is_read() {
    let mut random = Random::new(Settings::get().seed);
    for kind in KINDS {
        let mut draft = Draft::accepted(kind, &mut random, MOST_FIXES);
        draft.tail = random.bytes(100_000);
        for piece in [4_096, LONGEST - 1, 1 << 20] {
            rewrites(&draft.bytes(), piece, "the longest and more");
        }
        draft.lent = Some(kind.record_length(MOST_FIXES) - 1);
        rewrites(&draft.bytes(), 4_096, "the longest less a byte");
    }
}

#[test]
fn refused_records_give_their_number() {
    let settings = Settings {
        cases: 100,
        ..Settings::get()
    };
    let refused = |number: u8, bytes: &[u8]| read(bytes).err() == Some(number);
    let cases = Cases::all(settings);
    let of_kind = |kind| faults(kind).into_iter().map(move |number| (number, kind));
    for (number, kind) in KINDS.into_iter().flat_map(of_kind) {
        // a program's start is slow beside a call, so only some of each are run
        let some = cases.iter().filter(|case| case.kind() == kind);
        let some = some.filter(|case| refused(number, &case.bytes));
        let some: Vec<_> = some.take(5).collect();
        assert!(!some.is_empty(), "{kind}: none is refused for {number}");
        for case in some {
            assert_eq!(
                rewritten(&case.bytes),
                format!("refused {number}\n").as_bytes()
            );
            rewrites(&case.bytes, 7, &case.name);
        }
    }
}
