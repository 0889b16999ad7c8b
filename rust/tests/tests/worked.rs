//! Trails with results by hand: document 01's a to j, in millimetres too, the counterexamples of source document 003,
//! trails in millimetres whose sums need two words, and trails with silences.
#![forbid(unsafe_code)]

use trails_tests::agings::{stays_near, Buffer};
use trails_tests::cases::Random;
use trails_tests::interface::Answer;
use trails_tests::plain::kinds::{Kind, CENTIMETRES, MILLIMETRES, SILENCES};
use trails_tests::plain::lists::Call;
use trails_tests::plain::{Fix, Trail};
use trails_tests::shapes::ten_times;

/// A trail, the tolerances at which it is aged one after the other, the positions that stay, and the count of each
/// aging.
struct Row {
    name: &'static str,
    fixes: &'static [(u32, i32, i32)],
    tolerances: &'static [u16],
    stay: &'static [usize],
    counts: &'static [u32],
}

const fn row(
    name: &'static str,
    fixes: &'static [(u32, i32, i32)],
    tolerances: &'static [u16],
    stay: &'static [usize],
    counts: &'static [u32],
) -> Row {
    Row {
        name,
        fixes,
        tolerances,
        stay,
        counts,
    }
}

impl Row {
    fn fixes(&self) -> Vec<Fix> {
        self.fixes.iter().copied().map(Fix::from).collect()
    }

    /// In centimetres, also of the kind that could have silences, and ten times as far, at ten times the tolerances, in
    /// millimetres.
    fn holds(&self) {
        self.holds_of(CENTIMETRES, self.fixes(), self.tolerances);
        self.holds_of(SILENCES, self.fixes(), self.tolerances);
        let further: Vec<u16> = self.tolerances.iter().map(|e| 10 * e).collect();
        self.holds_of(MILLIMETRES, ten_times(&self.fixes()), &further);
    }

    /// With a silence after each of these fixes.
    fn holds_with_silences(&self, silent: &[usize]) {
        let mut fixes = self.fixes();
        silent.iter().for_each(|&k| fixes[k].silence = 1);
        self.holds_of(SILENCES, fixes, self.tolerances);
    }

    fn holds_in_millimetres(&self) {
        self.holds_of(MILLIMETRES, self.fixes(), self.tolerances);
    }

    /// Nothing but the fixes that stay are left, with the greatest tolerance as the mark.
    fn holds_of(&self, kind: Kind, fixes: Vec<Fix>, tolerances: &[u16]) {
        let name = format!("{} in {kind}", self.name);
        let mut random = Random::new(1);
        let original = Trail::never_thinned(kind, fixes);
        let mut buffer = Buffer::of(name.clone(), &original, &mut random);
        assert_eq!(tolerances.len(), self.counts.len(), "{name}");
        for (&e, &value) in tolerances.iter().zip(self.counts) {
            let answer = buffer.age(Call::Tolerance(e));
            assert_eq!(answer, Answer { refusal: 0, value }, "{name} {e}");
        }
        let stay: Vec<Fix> = self.stay.iter().map(|&k| original.fixes[k]).collect();
        let greatest = tolerances.iter().copied().max().unwrap_or(0);
        let left = buffer.trail();
        assert_eq!(left.fixes, stay, "{name}");
        assert_eq!(left.mark, greatest, "{name}");
        stays_near(&original.fixes, &left.fixes, greatest, &name, &mut random);
    }
}

const B: &[(u32, i32, i32)] = &[(0, 0, 0), (10, 100, 0), (20, 200, 0)];
const C: &[(u32, i32, i32)] = &[(0, 0, 0), (10, 30, 40), (20, 0, 0)];
const E: &[(u32, i32, i32)] = &[(0, 0, 0), (10, 90, 0), (20, 100, 0)];
const G: &[(u32, i32, i32)] = &[(0, 0, 0), (1, 0, 0), (3, 1, 0)];
const H: &[(u32, i32, i32)] = &[(0, 0, 0), (10, 20, 0), (20, 20, 0), (30, 0, 0)];

const DOCUMENT_01: [Row; 10] = [
    row("a", &[(5, 1, 1)], &[0], &[0], &[0]),
    row("b", B, &[0], &[0, 2], &[1]),
    row("c", C, &[50], &[0, 2], &[1]),
    row("d", C, &[49], &[0, 1, 2], &[1]),
    row("e", E, &[39], &[0, 1, 2], &[1]),
    row("f", E, &[40], &[0, 2], &[1]),
    row("g", G, &[0], &[0, 1, 2], &[1]),
    row("h", H, &[12], &[0, 1, 3], &[3]),
    row("i", H, &[25, 12], &[0, 3], &[2, 0]),
    row("j", H, &[12, 25], &[0, 3], &[3, 1]),
];

#[test]
fn the_trails_of_document_01() {
    DOCUMENT_01.iter().for_each(Row::holds);
}

// In millimetres: c and h times ten, with tolerances between those that centimetres have.

const C_TIMES_TEN: &[(u32, i32, i32)] = &[(0, 0, 0), (10, 300, 400), (20, 0, 0)];

// Both inner fixes are 200 from where the chord of the whole has the cart. After the split at the first, the other is
// 100 from its chord.
const H_TIMES_TEN: &[(u32, i32, i32)] = &[(0, 0, 0), (10, 200, 0), (20, 200, 0), (30, 0, 0)];

// D is 32,768, and the inner fixes are 245,760 and 278,528 from where the cart was and is again. Their sums are
// 64,851,834,634,135,142,400 and 83,298,578,707,844,694,016, which is 3 and 4 times 2⁶⁴ and 9,511,602,413,006,487,552
// more. So the second is further, by what stands above 64 bits alone. From the first fix to it the other, where the
// chord has 245,760.6, is near; were the split at the other, which is the earlier, both would stay.
const APART_IN_THE_UPPER_WORD: &[(u32, i32, i32)] = &[
    (0, -140_000, 0),
    (17_647, 105_760, 0),
    (20_000, 138_528, 0),
    (32_768, -140_000, 0),
];

// The same 131,072 away: the sum is 2⁶⁴ exactly, and nothing is left of it in 64 bits.
const NOTHING_IN_THE_LOWER_WORD: &[(u32, i32, i32)] =
    &[(0, 0, 7), (20_000, 131_072, 7), (32_768, 0, 7)];

// From one corner to the other and back in the longest span: N is 320,000 · 65,535 along both axes, and the sum
// 879,582,458,880,000,000,000, which has 70 bits.
const CORNERS: &[(u32, i32, i32)] = &[
    (4_294_901_760, -160_000, -160_000),
    (4_294_934_528, 160_000, 160_000),
    (4_294_967_295, -160_000, -160_000),
];

// 60,000 away in the longest span: the sum and e²·D² are 15,461,410,410,000,000,000, above 2⁶³ and below 2⁶⁴.
const AS_FAR_AS_A_TOLERANCE: &[(u32, i32, i32)] =
    &[(0, 0, 0), (9, -36_000, 48_000), (65_535, 0, 0)];

const IN_MILLIMETRES: [Row; 12] = [
    row("c", C_TIMES_TEN, &[500], &[0, 2], &[1]),
    row("c", C_TIMES_TEN, &[499], &[0, 1, 2], &[1]),
    row("h", H_TIMES_TEN, &[120], &[0, 1, 3], &[3]),
    row("h", H_TIMES_TEN, &[100], &[0, 1, 3], &[3]),
    row("h", H_TIMES_TEN, &[99], &[0, 1, 2, 3], &[3]),
    row("h", H_TIMES_TEN, &[200], &[0, 3], &[2]),
    row("h", H_TIMES_TEN, &[199], &[0, 1, 3], &[3]),
    row(
        "apart",
        APART_IN_THE_UPPER_WORD,
        &[60_000],
        &[0, 2, 3],
        &[3],
    ),
    row(
        "nothing",
        NOTHING_IN_THE_LOWER_WORD,
        &[60_000],
        &[0, 1, 2],
        &[1],
    ),
    row("corners", CORNERS, &[60_000], &[0, 1, 2], &[1]),
    row("far", AS_FAR_AS_A_TOLERANCE, &[60_000], &[0, 2], &[1]),
    row("far", AS_FAR_AS_A_TOLERANCE, &[59_999], &[0, 1, 2], &[1]),
];

#[test]
fn trails_in_millimetres() {
    IN_MILLIMETRES.iter().for_each(Row::holds_in_millimetres);
}

// Document 01's h, then b, then c, with a silence after each of the first two: what stays of each, and the counts, are
// as they are of each alone.
const H_B_C: &[(u32, i32, i32)] = &[
    (0, 0, 0),
    (10, 20, 0),
    (20, 20, 0),
    (30, 0, 0),
    (100, 0, 0),
    (110, 100, 0),
    (120, 200, 0),
    (121, 0, 0),
    (131, 30, 40),
    (141, 0, 0),
];

// After which fixes of a trail there is a silence.
const SILENT: [(&[usize], Row); 9] = [
    (
        &[3, 6],
        row("h, b, c", H_B_C, &[12], &[0, 1, 3, 4, 6, 7, 8, 9], &[5]),
    ),
    (
        &[3, 6],
        row("h, b, c", H_B_C, &[25, 12], &[0, 3, 4, 6, 7, 8, 9], &[4, 1]),
    ),
    (
        &[3, 6],
        row("h, b, c", H_B_C, &[50], &[0, 3, 4, 6, 7, 9], &[4]),
    ),
    // a silence inside h: both its ends stay at any tolerance, and nothing is measured
    (&[1], row("h", H, &[32_000], &[0, 1, 2, 3], &[0])),
    // at the start the rest is a span of three, 10 from its chord
    (&[0], row("h", H, &[10], &[0, 1, 3], &[1])),
    (&[0], row("h", H, &[9], &[0, 1, 2, 3], &[1])),
    // before the last fix, 10 from its chord too
    (&[2], row("h", H, &[10], &[0, 2, 3], &[1])),
    // after every fix, and of two fixes
    (
        &[0, 1, 2],
        row("h", H, &[32_000, 0], &[0, 1, 2, 3], &[0, 0]),
    ),
    (
        &[0],
        row("two", &[(5, 1, 1), (6, 2, 2)], &[400], &[0, 1], &[0]),
    ),
];

#[test]
fn trails_with_silences() {
    for (silent, row) in &SILENT {
        row.holds_with_silences(silent);
    }
}

// Document 003 has miles and minutes, and points (x, y, t). Here its unit of length is 100 cm, and its unit of time a
// second, or where it halves one, two seconds. So its tolerance of 1 is 100, and 0.85 is 85.

// Theorem 3 at ε = 1, δ = 1 (Fig. 4a): a cart that goes 10 units in the first minute and stands in the next. Its
// distance E_3 would let the middle fix go at 1; by time, it is 5 from the chord.
const THEOREM_3: &[(u32, i32, i32)] = &[(0, 0, 0), (1, 1_000, 0), (2, 1_000, 0)];

// Theorem 5 at ε = 1, δ = 1 (Fig. 4b): one unit in 10 minutes and one in the next. By time the middle fix is 9/11 from
// the chord, so at 1 it goes: what a cart passed when isn't kept within any bound, and where it was is.
const THEOREM_5: &[(u32, i32, i32)] = &[(0, 0, 0), (10, 100, 0), (11, 200, 0)];

// Fig. 8, with two seconds for each unit of time: optimal thinning at 1 and then at 1.8 isn't optimal thinning at 1.8.
const FIGURE_8: &[(u32, i32, i32)] = &[
    (0, 0, 0),
    (10, 200, 0),
    (12, 300, 0),
    (23, 200, 0),
    (24, 0, 0),
];

// Fig. 9, where d is (1, 2.2, 3) and f is (3, 2.2, 5): optimal thinning at 0.85 and then at 2 leaves d further than 2.
// By time d and f are equally far from the chord of the whole, and d is the earlier.
const FIGURE_9: &[(u32, i32, i32)] = &[
    (0, 0, 0),
    (1, 0, 100),
    (2, 100, 100),
    (3, 100, 220),
    (4, 200, 200),
    (5, 300, 220),
    (6, 300, 100),
    (7, 400, 100),
    (8, 400, 0),
];

const DOCUMENT_003: [Row; 14] = [
    row("Theorem 3", THEOREM_3, &[100], &[0, 1, 2], &[1]),
    row("Theorem 3", THEOREM_3, &[499], &[0, 1, 2], &[1]),
    row("Theorem 3", THEOREM_3, &[500], &[0, 2], &[1]),
    row("Theorem 5", THEOREM_5, &[81], &[0, 1, 2], &[1]),
    row("Theorem 5", THEOREM_5, &[82], &[0, 2], &[1]),
    row("Theorem 5", THEOREM_5, &[100], &[0, 2], &[1]),
    row("Fig. 8", FIGURE_8, &[100], &[0, 2, 3, 4], &[5]),
    row("Fig. 8", FIGURE_8, &[180], &[0, 2, 4], &[5]),
    row("Fig. 8", FIGURE_8, &[100, 180], &[0, 2, 4], &[5, 3]),
    row("Fig. 8", FIGURE_8, &[180, 100], &[0, 2, 4], &[5, 1]),
    row("Fig. 9", FIGURE_9, &[85], &[0, 3, 5, 8], &[16]),
    row("Fig. 9", FIGURE_9, &[200], &[0, 3, 8], &[13]),
    row("Fig. 9", FIGURE_9, &[85, 200], &[0, 3, 8], &[16, 3]),
    row("Fig. 9", FIGURE_9, &[200, 85], &[0, 3, 8], &[13, 1]),
];

#[test]
fn the_counterexamples_of_document_003() {
    DOCUMENT_003.iter().for_each(Row::holds);
}
