//! The writers of all kinds: the answer, the record, the bytes after it, and an output that no refusal touches.
#![forbid(unsafe_code)]

use trails_tests::cases::{faults_of_fixes, fixes, in_columns, spoil, Random, Settings, Tally};
use trails_tests::columns::Columns;
use trails_tests::expected;
use trails_tests::interface::{self, Answer};
use trails_tests::plain::kinds::{Kind, KINDS, MILLIMETRES, SILENCES};
use trails_tests::plain::{Fix, MOST_FIXES};

/// A list of fixes as columns, and an output with something in it.
struct Written {
    answer: Answer,
    output: Vec<u8>,
}

fn write(kind: Kind, columns: &Columns, before: &[u8]) -> Written {
    let mut output = before.to_vec();
    let answer = interface::write(kind, columns, &mut output);
    Written { answer, output }
}

fn plain_write(kind: Kind, list: &[Fix], before: &[u8]) -> Written {
    let mut output = before.to_vec();
    let answer = expected::write(kind, list, &mut output);
    Written { answer, output }
}

/// What was written reads as the list again.
fn reads_back(kind: Kind, list: &[Fix], output: &[u8], name: &str) {
    let head = interface::check(output);
    let facts = (head.refusal, head.count as usize, head.mark);
    assert_eq!(facts, (0, list.len(), 65_535), "{name}");
    assert_eq!(head.kind, kind.code.into(), "{name}");
    let before = Fix::from((0, 0, 0, 9));
    let mut columns = Columns::of(&vec![before; list.len()]);
    let answer = interface::read_all(output, &mut columns);
    // with silences, which of the other kinds are all 0
    let read = (
        answer.refusal,
        answer.value as usize,
        columns.fixes(SILENCES),
    );
    assert_eq!(read, (0, list.len(), list.to_vec()), "{name}");
}

/// A run of a writer's tests: where its cases come from, and what they were refused for.
struct Run {
    settings: Settings,
    random: Random,
    kind: Kind,
    tally: Tally,
}

impl Run {
    fn new() -> Run {
        let settings = Settings::get();
        Run {
            settings,
            random: Random::new(settings.seed),
            kind: KINDS[0],
            tally: Tally::default(),
        }
    }

    fn fixes(&mut self, n: usize) -> Vec<Fix> {
        fixes(self.kind, &mut self.random, n)
    }

    fn spoil(&mut self, fault: u8, list: &mut [Fix]) {
        spoil(fault, in_columns(self.kind), list, &mut self.random);
    }

    /// One list into one output. `known` is the refusal that it must get, 0 for none.
    fn case(&mut self, list: &[Fix], output: usize, known: u32, what: &str) {
        let (seed, kind) = (self.settings.seed, self.kind);
        let name = format!("seed {seed}: {kind}, {what} into {output} bytes");
        let before = self.random.bytes(output);
        let written = write(kind, &Columns::of(list), &before);
        let want = plain_write(kind, list, &before);
        assert_eq!(written.answer, want.answer, "{name}");
        assert_eq!(written.answer.refusal, known, "{name}");
        assert_eq!(written.output, want.output, "{name}");
        if known == 0 {
            let after = written.answer.value as usize;
            assert_eq!(written.output[after..], before[after..], "{name}");
            reads_back(kind, list, &written.output, &name);
        } else {
            assert_eq!(written.output, before, "{name}");
        }
        self.tally.count(kind, known);
    }

    /// One list into outputs that are too short, just long enough, and longer. `fault` is what is wrong with the
    /// list itself, which every output gets to hear before its own shortness.
    fn outputs(&mut self, list: &[Fix], fault: u32, what: &str) {
        let length = self.kind.record_length(list.len());
        for output in [0, 9, 10, length - 1] {
            let short = if output < length { 15 } else { 0 };
            let known = if fault == 0 { short } else { fault };
            self.case(list, output, known, what);
        }
        for output in [length, length + 1, length + 33] {
            self.case(list, output, fault, what);
        }
    }

    /// Lists of every size that matters.
    fn sizes(&mut self) {
        for n in [1, 2, 3, 17, 256, 4_095, MOST_FIXES] {
            let list = self.fixes(n);
            self.outputs(&list, 0, &format!("{n} fixes"));
        }
    }

    /// No fix, and too many, with a later check's fault among them.
    fn counts(&mut self) {
        for n in [0, MOST_FIXES + 1, 5_000, 65_536 + 1] {
            let mut list = self.fixes(2);
            self.spoil(7, &mut list);
            list.resize(n, list[0]);
            self.outputs(&list, 3, &format!("{n} fixes"));
        }
    }

    /// A list of n fixes with these faults, the latest check's first; the last of them is the answer.
    fn faults(&mut self, n: usize, faults: &[u8]) {
        let mut list = self.fixes(n);
        for &fault in faults {
            self.spoil(fault, &mut list);
        }
        let known = faults.last().copied().unwrap_or(0);
        self.outputs(
            &list,
            known.into(),
            &format!("{n} fixes, faults {faults:?}"),
        );
    }
}

#[test]
fn lists_are_written_or_refused_as_the_plain_version_does() {
    let mut run = Run::new();
    for kind in KINDS {
        run.kind = kind;
        run.sizes();
        run.counts();
        let faults = none_one_or_two(&faults_of_fixes(kind));
        for n in [2, 3, 20, MOST_FIXES] {
            for some in &faults {
                run.faults(n, some);
            }
        }
        for _ in 0..run.settings.cases / 2 {
            let n = run.random.between(2, 40) as usize;
            let some = run.random.between(0, faults.len() as i64 - 1);
            run.faults(n, &faults[some as usize]);
        }
    }
    run.tally.expect("write", &[3, 7, 8, 9, 20, 15]);
}

/// No fault, each of these alone, and every two of them, the later one first.
fn none_one_or_two(all: &[u8]) -> Vec<Vec<u8>> {
    let mut sets = vec![Vec::new()];
    for (k, &first) in all.iter().enumerate() {
        sets.push(vec![first]);
        sets.extend(all[k + 1..].iter().map(|&second| vec![second, first]));
    }
    sets
}

#[test]
fn columns_of_other_lengths_are_as_long_as_the_shortest() {
    for kind in KINDS {
        lists_end_with_the_shortest(kind);
    }
}

fn lists_end_with_the_shortest(kind: Kind) {
    let mut random = Random::new(Settings::get().seed);
    let all = fixes(kind, &mut random, 5);
    for lengths in [
        [5, 4, 3, 5],
        [3, 5, 4, 5],
        [4, 3, 5, 5],
        [5, 5, 0, 5],
        [0, 5, 5, 5],
        [5, 0, 5, 5],
        [5, 4, 5, 3],
        [5, 5, 5, 1],
        [5, 5, 5, 0],
    ] {
        let Columns { t, x, y, silence } = Columns::of(&all);
        let [a, b, c, d] = lengths;
        let columns = Columns {
            t: t[..a].to_vec(),
            x: x[..b].to_vec(),
            y: y[..c].to_vec(),
            silence: silence[..d].to_vec(),
        };
        let three = a.min(b).min(c);
        let list = if kind.silences { three.min(d) } else { three };
        let before = random.bytes(80);
        let written = write(kind, &columns, &before);
        let want = plain_write(kind, &all[..list], &before);
        assert_eq!(written.answer, want.answer, "{kind}, {lengths:?}");
        assert_eq!(written.output, want.output, "{kind}, {lengths:?}");
    }
}

/// By hand: two fixes at the limits of kind 2, into an output that is one byte short, and into one that isn't.
#[test]
fn a_record_in_millimetres_is_written() {
    let columns = Columns {
        t: vec![5, 65_540],
        x: vec![-160_000, 65_536],
        y: vec![160_000, -1],
        silence: vec![],
    };
    let refused = write(MILLIMETRES, &columns, &[7; 33]);
    assert_eq!((refused.answer.refusal, refused.answer.value), (15, 0));
    assert_eq!(refused.output, [7; 33]);
    let written = write(MILLIMETRES, &columns, &[7; 35]);
    assert_eq!((written.answer.refusal, written.answer.value), (0, 34));
    let record = [
        &[34, 0, 0, 0, 2, 0, 0xFF, 0xFF, 2, 0][..],
        &[5, 0, 0, 0, 0, 0x8F, 0xFD, 0xFF, 0, 0x71, 2, 0],
        &[4, 0, 1, 0, 0, 0, 1, 0, 0xFF, 0xFF, 0xFF, 0xFF],
        &[7],
    ];
    assert_eq!(written.output, record.concat());
    for far in [160_001, -160_001] {
        let mut columns = columns.clone();
        columns.y[1] = far;
        assert_eq!(write(MILLIMETRES, &columns, &[]).answer.refusal, 7);
    }
}

/// By hand: two fixes with a silence between them; a silence after the last, and bytes that say neither.
#[test]
fn a_record_with_a_silence_is_written() {
    let columns = Columns {
        t: vec![5, 65_540],
        x: vec![-16_000, 2],
        y: vec![16_000, -1],
        silence: vec![1, 0],
    };
    let refused = write(SILENCES, &columns, &[7; 27]);
    assert_eq!((refused.answer.refusal, refused.answer.value), (15, 0));
    assert_eq!(refused.output, [7; 27]);
    let written = write(SILENCES, &columns, &[7; 29]);
    assert_eq!((written.answer.refusal, written.answer.value), (0, 28));
    let record = [
        &[28, 0, 0, 0, 3, 0, 0xFF, 0xFF, 2, 0][..],
        &[5, 0, 0, 0, 0x80, 0xC1, 0x80, 0x3E, 1],
        &[4, 0, 1, 0, 2, 0, 0xFF, 0xFF, 0],
        &[7],
    ];
    assert_eq!(written.output, record.concat());
    // into no byte at all, so that check 15 is seen to come later; and one second more is check 9's
    for (last, silence, refusal) in [
        (65_540, [0, 1], 20),
        (65_540, [2, 0], 20),
        (65_540, [0, 255], 20),
        (65_540, [0, 0], 15),
        (65_541, [1, 1], 9),
    ] {
        let columns = Columns {
            t: vec![5, last],
            silence: silence.into(),
            ..columns.clone()
        };
        let answer = write(SILENCES, &columns, &[]).answer;
        assert_eq!(answer.refusal, refusal, "{last}, {silence:?}");
    }
}
