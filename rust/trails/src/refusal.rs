//! What is turned away, in the documents' words.

use std::fmt;

use crate::interface::Answer;
use crate::kind::{of_every_kind, Kind};
use crate::unit::in_threes;

/// Why a call was turned away, in the order in which a call makes its checks. A refused call leaves all lent bytes as
/// they were. What has a limit here has that of kind 1, and 19 and 23 that of every kind; `sentence` says each with the
/// limits of a record's own kind.
#[derive(Clone, Copy, Debug, PartialEq, Eq, Hash)]
pub enum Refusal {
    /// 1: the lent bytes are fewer than 10.
    FewBytes,
    /// 2: the kind isn't 1, 2 or 3.
    OtherKind,
    /// 3: the count is 0 or above 4,096.
    BadCount,
    /// 4: the length field isn't 10 + 8 times the count.
    BadLength,
    /// 5: the lent bytes are fewer than the length field.
    ShortRecord,
    /// 6: the mark is above 32,000 and isn't 65,535.
    BadMark,
    /// 7: some x or y is outside −16,000 to 16,000.
    Misplaced,
    /// 8: some fix's time isn't later than the time before it.
    Unordered,
    /// 9: the last time less the first is above 65,535.
    LongSpan,
    /// 20: a silence byte is neither 0 nor 1, or the last fix has 1.
    BadSilence,
    /// 22: the table has no rows, or more than 32.
    BadRowCount,
    /// 23: the table's days don't rise strictly, its tolerances fall, or one is above 32,000.
    BadRows,
    /// 16: the point is outside −16,000 to 16,000, or the radius is above 32,000.
    BadPoint,
    /// 10: the asked tolerance is above 32,000.
    HighTolerance,
    /// 11: the asked thousandths are above 999.
    BadThousandths,
    /// 12: the asked moment is before the first fix or after the last.
    BadMoment,
    /// 21: the moment is strictly inside a silence.
    InSilence,
    /// 13: the window's end is before its start, or either is outside the trail's times.
    BadWindow,
    /// 14: a box edge is outside −16,000 to 16,000, or a low edge is above its high edge.
    BadBox,
    /// 15: the output has fewer than 10 + 8n bytes.
    ShortOutput,
    /// 17: an anchor's value isn't finite, or isn't a whole number of sixteenths.
    BadReading,
    /// 18: a step comes with a state that has no place yet, or one that 17 or 19 would turn away.
    BadState,
    /// 19: the anchor's new place is outside −16,000 to 16,000.
    BadNewPlace,
    /// A number that isn't the documents'. Only an archive of another version could answer it.
    Unknown(u32),
}

/// All of them, in checking order, each with its number and its sentence, in which the names of `LIMITS` stand for a
/// kind's numbers.
const SENTENCES: [(u32, Refusal, &str); 23] = [
    (1, Refusal::FewBytes, "The lent bytes are fewer than 10."),
    (2, Refusal::OtherKind, "The kind isn't 1, 2 or 3."),
    (3, Refusal::BadCount, "The count is 0 or above 4,096."),
    (
        4,
        Refusal::BadLength,
        "The length field isn't 10 + {fix} times the count.",
    ),
    (
        5,
        Refusal::ShortRecord,
        "The lent bytes are fewer than the length field.",
    ),
    (
        6,
        Refusal::BadMark,
        "The mark is above {tolerance} and isn't 65,535.",
    ),
    (7, Refusal::Misplaced, "Some x or y is outside {places}."),
    (
        8,
        Refusal::Unordered,
        "Some fix's time isn't later than the time before it.",
    ),
    (
        9,
        Refusal::LongSpan,
        "The last time less the first is above 65,535.",
    ),
    (
        20,
        Refusal::BadSilence,
        "A silence byte is neither 0 nor 1, or the last fix has 1.",
    ),
    (
        22,
        Refusal::BadRowCount,
        "The table has no rows, or more than 32.",
    ),
    (
        23,
        Refusal::BadRows,
        "The table's days don't rise strictly, its tolerances fall, or one is above 32,000.",
    ),
    (
        16,
        Refusal::BadPoint,
        "The point is outside {places}, or the radius is above {radius}.",
    ),
    (
        10,
        Refusal::HighTolerance,
        "The asked tolerance is above {tolerance}.",
    ),
    (
        11,
        Refusal::BadThousandths,
        "The asked thousandths are above 999.",
    ),
    (
        12,
        Refusal::BadMoment,
        "The asked moment is before the first fix or after the last.",
    ),
    (
        21,
        Refusal::InSilence,
        "The moment is strictly inside a silence.",
    ),
    (
        13,
        Refusal::BadWindow,
        "The window's end is before its start, or either is outside the trail's times.",
    ),
    (
        14,
        Refusal::BadBox,
        "A box edge is outside {places}, or a low edge is above its high edge.",
    ),
    (
        15,
        Refusal::ShortOutput,
        "The output has fewer than {length} bytes.",
    ),
    (
        17,
        Refusal::BadReading,
        "A value isn't finite, or isn't a whole number of sixteenths.",
    ),
    (
        18,
        Refusal::BadState,
        "A step comes with a state that has no place yet, or one that 17 or 19 would turn away.",
    ),
    (
        19,
        Refusal::BadNewPlace,
        "The new place is outside −16,000 to 16,000.",
    ),
];

/// A number that each kind has for itself, as sentences have it.
type Limit = fn(Kind) -> String;

const LIMITS: [(&str, Limit); 5] = [
    ("{fix}", |kind| kind.fix_bytes().to_string()),
    ("{length}", |kind| format!("10 + {}n", kind.fix_bytes())),
    ("{tolerance}", |kind| {
        in_threes(kind.unit().limits().tolerance)
    }),
    ("{radius}", |kind| in_threes(kind.unit().limits().radius)),
    ("{places}", |kind| {
        let most = in_threes(kind.unit().limits().place.unsigned_abs());
        format!("−{most} to {most}")
    }),
];

impl Refusal {
    /// What the interface's number says: 0 is no refusal.
    pub(crate) fn none_in(number: u32) -> Result<(), Refusal> {
        match number {
            0 => Ok(()),
            number => Err(Refusal::from_number(number)),
        }
    }

    /// The refusal that has this number in the documents.
    pub fn from_number(number: u32) -> Refusal {
        let known = SENTENCES.iter().find(|(of, ..)| *of == number);
        known.map_or(Refusal::Unknown(number), |(_, refusal, _)| *refusal)
    }

    /// Its number in the documents: 1 to 15 in document 01, 16 to 23 in document 02.
    pub fn number(self) -> u32 {
        match self {
            Refusal::Unknown(number) => number,
            known => {
                let mut all = SENTENCES.iter();
                let found = all.find(|(_, refusal, _)| *refusal == known);
                found.map_or(0, |(number, ..)| *number)
            }
        }
    }

    /// Its sentence, with the numbers that `told` has for each limit.
    fn with(self, told: impl Fn(Limit) -> String) -> String {
        let known = SENTENCES.iter().find(|(_, refusal, _)| *refusal == self);
        let sentence = known.map_or("The number isn't the documents'.", |(.., sentence)| {
            sentence
        });
        LIMITS
            .iter()
            .fold(sentence.to_string(), |sentence, (name, limit)| {
                sentence.replace(name, &told(*limit))
            })
    }

    /// Its sentence about records of this kind. About those of kind 1 it is document 01's, which had no other kind yet.
    pub fn sentence(self, kind: Kind) -> String {
        self.with(|limit| limit(kind))
    }
}

/// The value of an answer, or why there is none.
pub(crate) fn value(answer: Answer) -> Result<u32, Refusal> {
    Refusal::none_in(answer.refusal)?;
    Ok(answer.value)
}

/// For who doesn't know the record's kind: the sentence with the numbers of all.
impl fmt::Display for Refusal {
    fn fmt(&self, to: &mut fmt::Formatter) -> fmt::Result {
        to.write_str(&self.with(of_every_kind))
    }
}

impl std::error::Error for Refusal {}

#[cfg(test)]
mod tests {
    use super::{Kind, Refusal};

    #[test]
    fn numbers_lead_to_refusals_and_back() {
        for number in (1..=100).chain([u32::MAX]) {
            let refusal = Refusal::from_number(number);
            assert_eq!(refusal.number(), number);
            let known = matches!(number, 1..=23);
            assert_eq!(matches!(refusal, Refusal::Unknown(_)), !known);
            let sentences = Kind::ALL.map(|kind| refusal.sentence(kind));
            for sentence in sentences.into_iter().chain([refusal.to_string()]) {
                assert!(sentence.ends_with('.') && !sentence.contains(['{', '}']));
            }
        }
        assert_eq!(Refusal::none_in(0), Ok(()));
    }

    #[test]
    fn the_names_stand_at_their_numbers() {
        assert_eq!(Refusal::FewBytes.number(), 1);
        assert_eq!(Refusal::Unordered.number(), 8);
        assert_eq!(Refusal::HighTolerance.number(), 10);
        assert_eq!(Refusal::ShortOutput.number(), 15);
        assert_eq!(Refusal::BadPoint.number(), 16);
        assert_eq!(Refusal::BadReading.number(), 17);
        assert_eq!(Refusal::BadState.number(), 18);
        assert_eq!(Refusal::BadNewPlace.number(), 19);
        assert_eq!(Refusal::BadSilence.number(), 20);
        assert_eq!(Refusal::InSilence.number(), 21);
        assert_eq!(Refusal::BadRowCount.number(), 22);
        assert_eq!(Refusal::BadRows.number(), 23);
    }

    #[test]
    fn sentences_have_the_numbers_of_the_kind_or_of_all() {
        let all = |refusal: Refusal| {
            let [one, other, third] = Kind::ALL.map(|kind| refusal.sentence(kind));
            [one, other, third, refusal.to_string()]
        };
        let places = "Some x or y is outside";
        assert_eq!(
            all(Refusal::Misplaced),
            [
                format!("{places} −16,000 to 16,000."),
                format!("{places} −160,000 to 160,000."),
                format!("{places} −16,000 to 16,000."),
                format!("{places} −16,000 to 16,000 (in millimetres −160,000 to 160,000)."),
            ]
        );
        assert_eq!(
            all(Refusal::BadLength),
            [
                "The length field isn't 10 + 8 times the count.",
                "The length field isn't 10 + 12 times the count.",
                "The length field isn't 10 + 9 times the count.",
                "The length field isn't 10 + 8 (in millimetres 12, with silences 9) times the count.",
            ]
        );
        assert_eq!(
            Refusal::ShortOutput.to_string(),
            "The output has fewer than 10 + 8n (in millimetres 10 + 12n, with silences 10 + 9n) bytes."
        );
        assert_eq!(
            all(Refusal::BadPoint)[..2],
            [
                "The point is outside −16,000 to 16,000, or the radius is above 32,000.",
                "The point is outside −160,000 to 160,000, or the radius is above 320,000.",
            ]
        );
        let of_none = "The kind isn't 1, 2 or 3.";
        assert_eq!(all(Refusal::OtherKind), [of_none; 4]);
    }
}
