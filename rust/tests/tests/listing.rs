//! The listing program, run on whole inputs and in small pieces.
#![forbid(unsafe_code)]

use trails_tests::cases::{Cases, Draft, Random, Settings};
use trails_tests::interface::{self, LONGEST_TEXT};
use trails_tests::plain::kinds::{KINDS, MILLIMETRES, SILENCES};
use trails_tests::plain::{self, Fix, Trail, LONGEST, MOST_FIXES};
use trails_tests::programs::{printed, proved};

fn lists_as(input: &[u8], piece: usize, text: &str, what: &str) {
    let printed = printed(&proved("listing"), input, piece);
    let listed = String::from_utf8_lossy(&printed);
    assert!(
        listed == text,
        "{what}, in pieces of {piece}:\n{listed}instead of\n{text}"
    );
}

fn lists_like_plain(input: &[u8], piece: usize, what: &str) {
    lists_as(input, piece, &plain::listing(input), what);
}

/// Inputs with their text, both by hand.
const STORED: [(&str, &str); 28] = [
    (
        "12 00 00 00 01 00 FF FF 01 00 E8 03 00 00 FF FF 02 00",
        "trail 1 never\nfix 1000 -1 2\nend\n",
    ),
    (
        "12 00 00 00 01 00 FF FF 01 00 E8 03 00 00 FF FF 02 00 12 00 00",
        "trail 1 never\nfix 1000 -1 2\nend\n",
    ),
    (
        "12 00 00 00 01 00 00 00 01 00 00 00 00 00 00 00 00 00",
        "trail 1 0\nfix 0 0 0\nend\n",
    ),
    (
        "1A 00 00 00 01 00 00 7D 02 00 00 00 FF FF 80 3E 80 C1 FF FF FF FF 80 C1 80 3E",
        "trail 2 32000\nfix 4294901760 16000 -16000\nfix 4294967295 -16000 16000\nend\n",
    ),
    ("", "refused 1\n"),
    ("12 00 00 00 01 00 FF FF 01", "refused 1\n"),
    ("12 00 00 00 04 00 FF FF 01 00", "refused 2\n"),
    ("12 00 00 00 01 02 FF FF 01 00", "refused 2\n"),
    ("0A 00 00 00 01 00 FF FF 00 00", "refused 3\n"),
    ("12 80 00 00 01 00 FF FF 01 10", "refused 3\n"),
    ("13 00 00 00 01 00 FF FF 01 00", "refused 4\n"),
    ("12 00 00 00 01 00 FF FF 01 00", "refused 5\n"),
    (
        "12 00 00 00 01 00 01 7D 01 00 E8 03 00 00 FF FF 02 00",
        "refused 6\n",
    ),
    (
        "12 00 00 00 01 00 FF FF 01 00 E8 03 00 00 81 3E 02 00",
        "refused 7\n",
    ),
    (
        "12 00 00 00 01 00 FF FF 01 00 E8 03 00 00 00 00 7F C1",
        "refused 7\n",
    ),
    (
        "1A 00 00 00 01 00 FF FF 02 00 E8 03 00 00 00 00 00 00 E8 03 00 00 00 00 00 00",
        "refused 8\n",
    ),
    (
        "1A 00 00 00 01 00 FF FF 02 00 00 00 00 00 00 00 00 00 00 00 01 00 00 00 00 00",
        "refused 9\n",
    ),
    (
        "1A 00 00 00 01 00 FF FF 02 00 00 00 00 00 00 00 00 00 FF FF 00 00 00 00 00 00",
        "trail 2 never\nfix 0 0 0\nfix 65535 0 0\nend\n",
    ),
    // in millimetres: both ends of the hall, and each limit passed by one
    (
        "22 00 00 00 02 00 60 EA 02 00 00 00 FF FF 00 8F FD FF 00 71 02 00 FF FF FF FF 0A 00 00 00 F6 FF FF FF 01",
        "trail 2 60000\nfix 4294901760 -160000 160000\nfix 4294967295 10 -10\nend\n",
    ),
    ("12 00 00 00 02 00 FF FF 01 00", "refused 4\n"),
    (
        "16 00 00 00 02 00 FF FF 01 00 E8 03 00 00 FF FF FF FF 02 00 00",
        "refused 5\n",
    ),
    (
        "16 00 00 00 02 00 61 EA 01 00 E8 03 00 00 FF FF FF FF 02 00 00 00",
        "refused 6\n",
    ),
    (
        "16 00 00 00 02 00 FF FF 01 00 E8 03 00 00 FF FF FF FF 01 71 02 00",
        "refused 7\n",
    ),
    // with silences: one, none, and what each of checks 4, 5 and 20 turns away
    (
        "1C 00 00 00 03 00 19 00 02 00 E8 03 00 00 FF FF 02 00 01 E9 03 00 00 80 3E 80 C1 00 01",
        "trail 2 25\nfix 1000 -1 2 silence\nfix 1001 16000 -16000\nend\n",
    ),
    (
        "13 00 00 00 03 00 FF FF 01 00 E8 03 00 00 FF FF 02 00 00",
        "trail 1 never\nfix 1000 -1 2\nend\n",
    ),
    ("12 00 00 00 03 00 FF FF 01 00", "refused 4\n"),
    (
        "13 00 00 00 03 00 FF FF 01 00 E8 03 00 00 FF FF 02 00",
        "refused 5\n",
    ),
    (
        "13 00 00 00 03 00 FF FF 01 00 E8 03 00 00 FF FF 02 00 01",
        "refused 20\n",
    ),
];

fn bytes(hex: &str) -> Vec<u8> {
    let byte = |digits| u8::from_str_radix(digits, 16).expect("two digits");
    hex.split_whitespace().map(byte).collect()
}

#[test]
fn stored_inputs_give_their_text() {
    for (hex, text) in STORED {
        let input = bytes(hex);
        assert_eq!(plain::listing(&input), text, "the plain version, {hex}");
        for piece in [1, 7, LONGEST] {
            lists_as(&input, piece, text, hex);
        }
    }
}

#[test]
fn long_inputs_are_read_to_the_last_byte_of_the_longest_record_and_no_further() {
    let settings = Settings::get();
    let mut random = Random::new(settings.seed);
    for (after, kind) in [0, 1, 8, LONGEST, 1_000_000]
        .into_iter()
        .flat_map(|after| KINDS.map(|kind| (after, kind)))
    {
        let mut draft = Draft::accepted(kind, &mut random, MOST_FIXES);
        draft.tail = random.bytes(after);
        let seed = settings.seed;
        let what = format!("seed {seed}: the longest in {kind} and {after} more");
        for piece in [999, LONGEST - 1, 1 << 20] {
            lists_like_plain(&draft.bytes(), piece, &what);
        }
        draft.tail.clear();
        draft.lent = Some(kind.record_length(MOST_FIXES) - 1);
        lists_like_plain(&draft.bytes(), 4_096, &what);
    }
}

#[test]
fn the_longest_text_is_printed_whole() {
    // each number as long as it can be; with silences a line is longer than one in millimetres, but for the last
    for (kind, mark, length, bytes) in [
        (MILLIMETRES, 60_000, 49_162, 17 + 31 * MOST_FIXES + 4),
        (SILENCES, 32_000, 36_874, 17 + 37 * MOST_FIXES - 8 + 4),
    ] {
        let far = -kind.limit;
        let place = |t: u32| Fix {
            silence: u8::from(kind.silences && t < u32::MAX),
            ..Fix::from((t, far, far))
        };
        let first = u32::MAX - (MOST_FIXES as u32 - 1);
        let fixes = (first..=u32::MAX).map(place).collect();
        let input = Trail { kind, mark, fixes }.bytes();
        assert_eq!(input.len(), length);
        assert_eq!(plain::listing(&input).len(), bytes);
        // the room is for lines of a kind that has the longest of all
        assert!(bytes < LONGEST_TEXT && LONGEST_TEXT == 17 + 39 * MOST_FIXES + 4);
        lists_like_plain(&input, LONGEST, "the longest text");
    }
}

#[test]
fn random_records_are_listed_as_the_plain_version_does() {
    let settings = Settings::get();
    // a program's start is slow beside a call, so only some of the cases are run
    let every = 1 + settings.cases / 250;
    let mut random = Random::new(settings.seed);
    let cases = Cases::all(settings);
    for case in cases.iter().step_by(every) {
        let piece = random
            .pick(&[1, 3, 10, 64, 1 << 16])
            .max(case.bytes.len() / 100);
        lists_like_plain(&case.bytes, piece.max(1), &case.name);
    }
    println!("listing: {} of {} cases", cases.len() / every, cases.len());
}

#[test]
fn the_interface_lists_every_case_and_leaves_the_rest_of_the_output() {
    let cases = Cases::all(Settings::get());
    let mut output = [0x5A; LONGEST_TEXT];
    for case in cases.iter() {
        let length = interface::list(&case.bytes, &mut output);
        let (text, rest) = output.split_at(length);
        assert_eq!(
            text,
            plain::listing(&case.bytes).as_bytes(),
            "{}",
            case.name
        );
        assert!(rest.iter().all(|&byte| byte == 0x5A), "{}", case.name);
        output[..length].fill(0x5A);
    }
}
