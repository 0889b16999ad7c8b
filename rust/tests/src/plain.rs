//! A plain version of document 01 and of what document 02 has changed since: the trail record with its checks, reader,
//! writers and listing here, its three kinds in `kinds`, tables of days in `table`, thinning and aging in `thinning`, lists
//! of agings in `lists`, places at fractional times in `place`, the three questions in `moment`, `crossing` and
//! `approach`, readings of anchors in `anchors`, and the dearest trail in `dearest`.
//!
//! It follows the documents' sentences one by one. It takes nothing from the proved code, so that a misreading there
//! would show as a difference here.

pub mod anchors;
pub mod approach;
pub mod crossing;
pub mod dearest;
pub mod kinds;
pub mod lists;
pub mod moment;
pub mod place;
pub mod table;
pub mod thinning;

use kinds::Kind;

/// The mark of a trail that was never thinned.
pub const NEVER: u16 = 65_535;

/// The most fixes of a record.
pub const MOST_FIXES: usize = 4_096;

/// The most bytes of a record, and the most that the listing reads.
pub const LONGEST: usize = 49_162;

const HEAD: usize = 10;

/// A time in seconds, a place in the record's unit, and kind 3's byte after them, which of other kinds is 0.
#[derive(Clone, Copy, Debug, PartialEq, Eq)]
pub struct Fix {
    pub t: u32,
    pub x: i32,
    pub y: i32,
    /// "1 = silence follows, 0 = none"
    pub silence: u8,
}

/// Time, x and y, as trails are written by hand.
impl From<(u32, i32, i32)> for Fix {
    fn from((t, x, y): (u32, i32, i32)) -> Fix {
        Fix::from((t, x, y, 0))
    }
}

/// The same, and the silence byte.
impl From<(u32, i32, i32, u8)> for Fix {
    fn from((t, x, y, silence): (u32, i32, i32, u8)) -> Fix {
        Fix { t, x, y, silence }
    }
}

/// What an accepted record holds.
#[derive(Clone, Debug, PartialEq, Eq)]
pub struct Trail {
    pub kind: Kind,
    pub mark: u16,
    pub fixes: Vec<Fix>,
}

/// The fields before the fixes, as the bytes have them and true or not.
#[derive(Clone, Copy, Debug)]
pub struct Head {
    pub length: u32,
    pub kind: u16,
    pub mark: u16,
    pub count: u16,
}

fn two(bytes: &[u8], at: usize) -> u16 {
    u16::from_le_bytes([bytes[at], bytes[at + 1]])
}

fn four(bytes: &[u8], at: usize) -> u32 {
    u32::from(two(bytes, at)) | u32::from(two(bytes, at + 2)) << 16
}

impl Head {
    /// The head of a record of so many fixes.
    pub fn of(kind: Kind, mark: u16, count: usize) -> Head {
        Head {
            length: kind.record_length(count) as u32,
            kind: kind.code,
            mark,
            count: count as u16,
        }
    }

    fn decode(bytes: &[u8]) -> Option<Head> {
        (bytes.len() >= HEAD).then(|| Head {
            length: four(bytes, 0),
            kind: two(bytes, 4),
            mark: two(bytes, 6),
            count: two(bytes, 8),
        })
    }
}

impl Fix {
    fn decode(kind: Kind, bytes: &[u8]) -> Fix {
        let coordinate = |at: usize| match kind.width {
            2 => i32::from(two(bytes, at) as i16),
            _ => four(bytes, at) as i32,
        };
        Fix {
            t: four(bytes, 0),
            x: coordinate(4),
            y: coordinate(4 + kind.width),
            silence: match kind.silences {
                true => bytes[4 + 2 * kind.width],
                false => 0,
            },
        }
    }

    pub fn is_before_silence(&self) -> bool {
        self.silence == 1
    }
}

/// The stretches between silences: each "runs from a fix after a silence, or the first, to the next fix whose byte is
/// 1, or the last".
pub fn stretches(fixes: &[Fix]) -> impl Iterator<Item = &[Fix]> {
    fixes.split_inclusive(Fix::is_before_silence)
}

/// The bytes of a head and of fixes as this kind has them, which need not fit each other.
pub fn encode(kind: Kind, head: Head, fixes: &[Fix]) -> Vec<u8> {
    let mut bytes = Vec::with_capacity(kind.record_length(fixes.len()));
    bytes.extend(head.length.to_le_bytes());
    bytes.extend(head.kind.to_le_bytes());
    bytes.extend(head.mark.to_le_bytes());
    bytes.extend(head.count.to_le_bytes());
    for fix in fixes {
        bytes.extend(fix.t.to_le_bytes());
        // in two's complement a number that fits fewer bytes has its lowest ones there
        bytes.extend(&fix.x.to_le_bytes()[..kind.width]);
        bytes.extend(&fix.y.to_le_bytes()[..kind.width]);
        bytes.extend(kind.silences.then_some(fix.silence));
    }
    bytes
}

impl Trail {
    pub fn never_thinned(kind: Kind, fixes: Vec<Fix>) -> Trail {
        let mark = NEVER;
        Trail { kind, mark, fixes }
    }

    /// The record.
    pub fn bytes(&self) -> Vec<u8> {
        let head = Head::of(self.kind, self.mark, self.fixes.len());
        encode(self.kind, head, &self.fixes)
    }

    /// Puts the record at the output's start and answers its length: check 15.
    fn put(&self, output: &mut [u8]) -> Result<usize, u8> {
        let bytes = self.bytes();
        refuse_if(15, output.len() < bytes.len())?;
        output[..bytes.len()].copy_from_slice(&bytes);
        Ok(bytes.len())
    }
}

fn refuse_if(number: u8, sentence: bool) -> Result<(), u8> {
    if sentence {
        Err(number)
    } else {
        Ok(())
    }
}

fn bad_count(count: usize) -> bool {
    count == 0 || count > MOST_FIXES
}

/// Checks 7 to 9 and, "directly after 9", 20.
fn check_fixes(kind: Kind, fixes: &[Fix]) -> Result<(), u8> {
    let outside = |fix: &Fix| kind.is_outside(fix.x) || kind.is_outside(fix.y);
    refuse_if(7, fixes.iter().any(outside))?;
    refuse_if(8, fixes.windows(2).any(|pair| pair[1].t <= pair[0].t))?;
    let time = |fix: Option<&Fix>| fix.map_or(0, |fix| i64::from(fix.t));
    refuse_if(9, time(fixes.last()) - time(fixes.first()) > 65_535)?;
    refuse_if(20, kind.silences && bad_silences(fixes))
}

/// "a silence byte is neither 0 nor 1 or the last fix has 1"
fn bad_silences(fixes: &[Fix]) -> bool {
    fixes.iter().any(|fix| fix.silence > 1) || fixes.last().is_some_and(Fix::is_before_silence)
}

/// The record that the lent bytes begin with, or the number of the refusal: checks 1 to 9 and 20.
pub fn read(lent: &[u8]) -> Result<Trail, u8> {
    let head = Head::decode(lent).ok_or(1)?;
    let kind = Kind::with_code(head.kind).ok_or(2)?;
    let count = usize::from(head.count);
    refuse_if(3, bad_count(count))?;
    refuse_if(4, head.length as usize != kind.record_length(count))?;
    refuse_if(5, lent.len() < head.length as usize)?;
    refuse_if(6, head.mark > kind.top && head.mark != NEVER)?;
    let all = lent[HEAD..kind.record_length(count)].chunks_exact(kind.fix_bytes());
    let fixes: Vec<Fix> = all.map(|bytes| Fix::decode(kind, bytes)).collect();
    check_fixes(kind, &fixes)?;
    Ok(Trail {
        kind,
        mark: head.mark,
        fixes,
    })
}

/// The writer of a kind, which makes checks 3, 7, 8, 9, 20 and 15 and answers the record's length.
pub fn write(kind: Kind, fixes: &[Fix], output: &mut [u8]) -> Result<usize, u8> {
    refuse_if(3, bad_count(fixes.len()))?;
    check_fixes(kind, fixes)?;
    Trail::never_thinned(kind, fixes.to_vec()).put(output)
}

/// The record that a program takes from its whole standard input, or the line that it prints instead.
fn received(input: &[u8]) -> Result<Trail, String> {
    let first = &input[..input.len().min(LONGEST)];
    read(first).map_err(|number| format!("refused {number}\n"))
}

/// What the program that writes records anew prints: the record, marked never and with nothing after it.
pub fn rewritten(input: &[u8]) -> Vec<u8> {
    match received(input) {
        Ok(trail) => Trail::never_thinned(trail.kind, trail.fixes).bytes(),
        Err(line) => line.into_bytes(),
    }
}

/// What the listing program prints.
pub fn listing(input: &[u8]) -> String {
    let trail = match received(input) {
        Ok(trail) => trail,
        Err(line) => return line,
    };
    let mark = match trail.mark {
        NEVER => String::from("never"),
        mark => mark.to_string(),
    };
    let mut text = format!("trail {} {mark}\n", trail.fixes.len());
    for fix in &trail.fixes {
        // "ends a fix's line with ` silence` where one follows"
        let silence = if fix.is_before_silence() {
            " silence"
        } else {
            ""
        };
        text += &format!("fix {} {} {}{silence}\n", fix.t, fix.x, fix.y);
    }
    text + "end\n"
}
