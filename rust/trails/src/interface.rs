//! The proved functions of `include/trails.h`, one for one: slices in place of pointers, and answers in numbers as the
//! header has them. The rest of this package puts types in their place, so a program wants these only to see the numbers
//! themselves.
//!
//! This is the only file with `unsafe`, so the module `system` stands here too.
#![allow(unsafe_code)]

/// What a record's head says.
#[repr(C)]
#[derive(Clone, Copy, Debug, PartialEq, Eq)]
pub struct Head {
    /// 0 for none; else all that follows is 0.
    pub refusal: u32,
    /// 1 for a record in centimetres, 2 for one in millimetres, 3 for one in centimetres with silences.
    pub kind: u32,
    /// How many fixes the record has.
    pub count: u32,
    /// The greatest tolerance applied so far, or 65,535 for a trail that was never thinned.
    pub mark: u32,
}

/// What a reader says at a position.
#[repr(C)]
#[derive(Clone, Copy, Debug, Default, PartialEq, Eq)]
pub struct Step {
    /// 0 for none; else all that follows is 0.
    pub refusal: u32,
    /// 1 and the fix follows; or 0, and everything is: none is left.
    pub found: u32,
    /// The record's, which says the unit of x and y.
    pub kind: u32,
    /// Seconds.
    pub t: u32,
    /// In the record's unit.
    pub x: i32,
    /// In the record's unit.
    pub y: i32,
    /// 1 if a silence follows the fix, else 0.
    pub silence: u32,
}

/// A refusal, or a value.
#[repr(C)]
#[derive(Clone, Copy, Debug, PartialEq, Eq)]
pub struct Answer {
    /// 0 for none; else the value is 0.
    pub refusal: u32,
    /// What it is stands with each function.
    pub value: u32,
}

/// The most rows of a table.
pub const ROWS: usize = 32;

/// The numbers of a table, as lists of agings are lent them.
pub const TABLE_NUMBERS: usize = 65;

/// A row of a table: from this day on, this tolerance.
#[repr(C)]
#[derive(Clone, Copy, Debug, Default, PartialEq, Eq, Hash)]
pub struct Row {
    /// The first day that it is for.
    pub day: u16,
    /// In centimetres, whatever records it is for.
    pub tolerance: u16,
}

/// A table: the first `count` of the rows. Whoever made it, each call that takes one checks it.
#[repr(C)]
#[derive(Clone, Copy, Debug, Default, PartialEq, Eq, Hash)]
pub struct Table {
    /// 1 to 32 of a table that is accepted.
    pub count: u16,
    /// Of a loaded one those from the count on are 0.
    pub rows: [Row; ROWS],
}

impl Table {
    /// Its numbers, in order.
    pub fn numbers(&self) -> impl Iterator<Item = u16> + '_ {
        let rows = self.rows.iter().flat_map(|row| [row.day, row.tolerance]);
        [self.count].into_iter().chain(rows)
    }
}

/// A table that was loaded.
#[repr(C)]
#[derive(Clone, Copy, Debug, Default, PartialEq, Eq)]
pub struct Loaded {
    /// 0 for none; else the table has no rows.
    pub refusal: u32,
    /// The rows that were loaded.
    pub table: Table,
}

/// What an aging by days applies.
#[repr(C)]
#[derive(Clone, Copy, Debug, Default, PartialEq, Eq)]
pub struct Applied {
    /// 0 for none; else all that follows is 0.
    pub refusal: u32,
    /// 1 and the tolerance follows; or 0, and so is that: nothing.
    pub applies: u32,
    /// In the record's unit.
    pub tolerance: u32,
}

/// What became of a list of agings.
#[repr(C)]
#[derive(Clone, Copy, Debug, PartialEq, Eq)]
pub struct Run {
    /// 0 for none; else nothing was done, and what follows is 0.
    pub refusal: u32,
    /// How many of the list's calls were refused.
    pub turned_away: usize,
}

/// Where a cart was: (x / denominator, y / denominator), in the record's unit.
#[repr(C)]
#[derive(Clone, Copy, Debug, Default, PartialEq, Eq)]
pub struct Place {
    /// 0 for none; else all that follows is 0.
    pub refusal: u32,
    /// At least 1.
    pub denominator: u32,
    /// Times the denominator.
    pub x: i64,
    /// Times the denominator.
    pub y: i64,
    /// x as a whole number, halves away from 0.
    pub whole_x: i32,
    /// y as a whole number, halves away from 0.
    pub whole_y: i32,
}

/// Whether a cart was in a box. No `PartialEq`: fractions of one value may have different forms.
#[repr(C)]
#[derive(Clone, Copy, Debug)]
pub struct Crossing {
    /// 0 for none; else all that follows is 0.
    pub refusal: u32,
    /// 1 for yes; 0 for no, and then all that follows is 0.
    pub crosses: u32,
    /// Seconds after the first fix, times the denominator.
    pub numerator: u64,
    /// From 1 to 32,000, or to 320,000 of a record in millimetres.
    pub denominator: u32,
}

/// A window and a box in the record's unit, as the functions take them.
#[derive(Clone, Copy, Debug)]
pub struct Question {
    /// The window's first second.
    pub start: u32,
    /// Its last.
    pub end: u32,
    /// The least x.
    pub left: i32,
    /// The greatest.
    pub right: i32,
    /// The least y.
    pub bottom: i32,
    /// The greatest.
    pub top: i32,
}

/// Whether a cart came near a point. No `PartialEq`: fractions of one value may have different forms.
#[repr(C)]
#[derive(Clone, Copy, Debug)]
pub struct Approach {
    /// 0 for none; else all that follows is 0.
    pub refusal: u32,
    /// 1 for yes; 0 for no, and then all that follows is 0.
    pub approaches: u32,
    /// The first leg that comes within the radius, counted from 0.
    pub leg: u32,
    /// Seconds after the first fix, times the denominator.
    pub numerator: u64,
    /// From 1 to 2,048,000,000, or to 204,800,000,000 of a record in millimetres.
    pub denominator: u64,
}

/// A point and a radius about it in the record's unit, as the functions take them.
#[derive(Clone, Copy, Debug)]
pub struct Circle {
    /// The point's x.
    pub x: i32,
    /// Its y.
    pub y: i32,
    /// How far from it still is near.
    pub radius: u32,
}

/// An anchor's state: its last place, and whether there is one. Any bits are a state. No `PartialEq`: a NaN isn't equal to
/// itself, and -0.0 is equal to 0.0.
#[repr(C)]
#[derive(Clone, Copy, Debug, Default)]
pub struct AnchorState {
    /// Centimetres.
    pub x: f32,
    /// Centimetres.
    pub y: f32,
    /// 0 if there is no place yet, and anything else if there is one.
    pub seen: u32,
}

/// What became of a reading.
#[repr(C)]
#[derive(Clone, Copy, Debug)]
pub struct Anchored {
    /// 0 for none; else x and y are 0, and the state is the very one that was handed in.
    pub refusal: u32,
    /// The new place's x as a whole number of centimetres, halves away from 0.
    pub x: i32,
    /// Its y, likewise.
    pub y: i32,
    /// The new state.
    pub state: AnchorState,
}

/// Room for every listing: none has more bytes.
pub const LONGEST_TEXT: usize = 159_765;

extern "C" {
    fn trails_check(record: *const u8, lent: usize) -> Head;
    fn trails_read(record: *const u8, lent: usize, position: usize) -> Step;
    fn trails_read_all(
        record: *const u8,
        lent: usize,
        t: *mut u32,
        t_count: usize,
        x: *mut i32,
        x_count: usize,
        y: *mut i32,
        y_count: usize,
        silence: *mut u8,
        silence_count: usize,
    ) -> Answer;
    fn trails_write(
        t: *const u32,
        t_count: usize,
        x: *const i32,
        x_count: usize,
        y: *const i32,
        y_count: usize,
        output: *mut u8,
        output_bytes: usize,
    ) -> Answer;
    fn trails_write_millimetres(
        t: *const u32,
        t_count: usize,
        x: *const i32,
        x_count: usize,
        y: *const i32,
        y_count: usize,
        output: *mut u8,
        output_bytes: usize,
    ) -> Answer;
    fn trails_write_silences(
        t: *const u32,
        t_count: usize,
        x: *const i32,
        x_count: usize,
        y: *const i32,
        y_count: usize,
        silence: *const u8,
        silence_count: usize,
        output: *mut u8,
        output_bytes: usize,
    ) -> Answer;
    fn trails_dearest(n: usize, output: *mut u8, output_bytes: usize) -> Answer;
    fn trails_list(record: *const u8, lent: usize, output: *mut [u8; LONGEST_TEXT]) -> usize;
    fn trails_age(record: *mut u8, lent: usize, tolerance: u16) -> Answer;
    fn trails_load(
        days: *const u16,
        day_count: usize,
        tolerances: *const u16,
        tolerance_count: usize,
    ) -> Loaded;
    fn trails_built_in() -> Table;
    fn trails_age_by_days(record: *mut u8, lent: usize, days: u16, table: Table) -> Answer;
    fn trails_days_apply(record: *const u8, lent: usize, days: u16, table: Table) -> Applied;
    fn trails_place(record: *const u8, lent: usize, second: u32, thousandths: u16) -> Place;
    fn trails_crosses(
        record: *const u8,
        lent: usize,
        start: u32,
        end: u32,
        left: i32,
        right: i32,
        bottom: i32,
        top: i32,
    ) -> Crossing;
    fn trails_near(record: *const u8, lent: usize, x: i32, y: i32, radius: u32) -> Approach;
    fn trails_run(
        record: *mut u8,
        lent: usize,
        calls: *const u64,
        call_count: usize,
        tables: *const u16,
        table_numbers: usize,
    ) -> Run;
    fn trails_crosses_after(
        record: *mut u8,
        lent: usize,
        calls: *const u64,
        call_count: usize,
        tables: *const u16,
        table_numbers: usize,
        start: u32,
        end: u32,
        left: i32,
        right: i32,
        bottom: i32,
        top: i32,
    ) -> Crossing;
    fn trails_near_after(
        record: *mut u8,
        lent: usize,
        calls: *const u64,
        call_count: usize,
        tables: *const u16,
        table_numbers: usize,
        x: i32,
        y: i32,
        radius: u32,
    ) -> Approach;
    fn trails_anchor_absolute(state: AnchorState, x: f32, y: f32) -> Anchored;
    fn trails_anchor_step(state: AnchorState, dx: f32, dy: f32) -> Anchored;
    fn trails_anchor_all(
        state: AnchorState,
        step: *const u8,
        step_count: usize,
        x: *const f32,
        x_count: usize,
        y: *const f32,
        y_count: usize,
    ) -> AnchorState;
}

/// Whether the bytes begin with a record: checks 1 to 9 and 20.
pub fn check(record: &[u8]) -> Head {
    // SAFETY: a slice's pointer isn't null, is aligned, and reaches as many elements as its length says, all of
    // them readable; the header asks nothing else. The calls below say only what they have more than this one.
    unsafe { trails_check(record.as_ptr(), record.len()) }
}

/// The fix at a position: checks 1 to 9 and 20.
pub fn read(record: &[u8], position: usize) -> Step {
    // SAFETY: as in `check`.
    unsafe { trails_read(record.as_ptr(), record.len(), position) }
}

/// All fixes, into four columns, of which each gets as many as it holds: checks 1 to 9 and 20. The value is the
/// record's count, x and y are in the record's unit, and a silence is 1 if one follows, else 0.
pub fn read_all(
    record: &[u8],
    t: &mut [u32],
    x: &mut [i32],
    y: &mut [i32],
    silence: &mut [u8],
) -> Answer {
    // SAFETY: as in `check`; each column is lent alone, so that it may be written and overlaps nothing else.
    unsafe {
        trails_read_all(
            record.as_ptr(),
            record.len(),
            t.as_mut_ptr(),
            t.len(),
            x.as_mut_ptr(),
            x.len(),
            y.as_mut_ptr(),
            y.len(),
            silence.as_mut_ptr(),
            silence.len(),
        )
    }
}

/// A writer of the header that takes three columns.
type Writer = unsafe extern "C" fn(
    *const u32,
    usize,
    *const i32,
    usize,
    *const i32,
    usize,
    *mut u8,
    usize,
) -> Answer;

fn written(writer: Writer, t: &[u32], x: &[i32], y: &[i32], output: &mut [u8]) -> Answer {
    // SAFETY: as in `check`; the output is lent alone, so that it may be written and overlaps no column.
    unsafe {
        writer(
            t.as_ptr(),
            t.len(),
            x.as_ptr(),
            x.len(),
            y.as_ptr(),
            y.len(),
            output.as_mut_ptr(),
            output.len(),
        )
    }
}

/// The record, in centimetres, of the fixes in three columns, as long as the shortest: checks 3, 7, 8, 9 and 15. The
/// value is its length.
pub fn write(t: &[u32], x: &[i32], y: &[i32], output: &mut [u8]) -> Answer {
    written(trails_write, t, x, y, output)
}

/// The record, in millimetres, of the fixes in three columns: as `write`.
pub fn write_millimetres(t: &[u32], x: &[i32], y: &[i32], output: &mut [u8]) -> Answer {
    written(trails_write_millimetres, t, x, y, output)
}

/// The record, in centimetres with silences, of the fixes in four columns, as long as the shortest: checks 3, 7, 8, 9,
/// 20 and 15. The value is its length.
pub fn write_silences(
    t: &[u32],
    x: &[i32],
    y: &[i32],
    silence: &[u8],
    output: &mut [u8],
) -> Answer {
    // SAFETY: as in `written`.
    unsafe {
        trails_write_silences(
            t.as_ptr(),
            t.len(),
            x.as_ptr(),
            x.len(),
            y.as_ptr(),
            y.len(),
            silence.as_ptr(),
            silence.len(),
            output.as_mut_ptr(),
            output.len(),
        )
    }
}

/// The record of the dearest trail of n fixes: checks 3 and 15. The value is its length.
pub fn dearest(n: usize, output: &mut [u8]) -> Answer {
    // SAFETY: as in `check`; the output is lent alone, so that it may be written. Every n has an answer.
    unsafe { trails_dearest(n, output.as_mut_ptr(), output.len()) }
}

/// The listing's text, at the output's start: answers its length.
pub fn list(record: &[u8], output: &mut [u8; LONGEST_TEXT]) -> usize {
    // SAFETY: as in `check`; the output is lent alone, so that it may be written, and has the bytes that are asked.
    unsafe { trails_list(record.as_ptr(), record.len(), output) }
}

/// Ages by tolerance: checks 1 to 9, 20 and 10. The value is how many fixes were measured.
pub fn age(record: &mut [u8], tolerance: u16) -> Answer {
    // SAFETY: as in `check`; the record is lent alone, so that it may be written.
    unsafe { trails_age(record.as_mut_ptr(), record.len(), tolerance) }
}

/// The table of the rows in two columns, as many as the shorter has: checks 22 and 23.
pub fn load(days: &[u16], tolerances: &[u16]) -> Loaded {
    // SAFETY: as in `check`.
    unsafe {
        trails_load(
            days.as_ptr(),
            days.len(),
            tolerances.as_ptr(),
            tolerances.len(),
        )
    }
}

/// The built-in table.
pub fn built_in() -> Table {
    // SAFETY: it is lent nothing.
    unsafe { trails_built_in() }
}

/// Ages by days, by a table: checks 1 to 9, 20, 22 and 23. The value is how many fixes were measured.
pub fn age_by_days(record: &mut [u8], days: u16, table: Table) -> Answer {
    // SAFETY: as in `age`; every content of a table has an answer.
    unsafe { trails_age_by_days(record.as_mut_ptr(), record.len(), days, table) }
}

/// What `age_by_days` would apply: the same checks.
pub fn days_apply(record: &[u8], days: u16, table: Table) -> Applied {
    // SAFETY: as in `check`, and of the table as in `age_by_days`.
    unsafe { trails_days_apply(record.as_ptr(), record.len(), days, table) }
}

/// Where the cart was at a moment: checks 1 to 9, 20, 11, 12 and 21.
pub fn place(record: &[u8], second: u32, thousandths: u16) -> Place {
    // SAFETY: as in `check`.
    unsafe { trails_place(record.as_ptr(), record.len(), second, thousandths) }
}

/// Whether the cart was in a box: checks 1 to 9, 20, 13 and 14.
pub fn crosses(record: &[u8], asked: Question) -> Crossing {
    // SAFETY: as in `check`.
    unsafe {
        trails_crosses(
            record.as_ptr(),
            record.len(),
            asked.start,
            asked.end,
            asked.left,
            asked.right,
            asked.bottom,
            asked.top,
        )
    }
}

/// Whether the cart came near a point: checks 1 to 9, 20 and 16.
pub fn near(record: &[u8], Circle { x, y, radius }: Circle) -> Approach {
    // SAFETY: as in `check`.
    unsafe { trails_near(record.as_ptr(), record.len(), x, y, radius) }
}

/// What a list of agings has for one by days: by the lent table k, counted from 0.
pub fn by_table(k: usize, days: u16) -> u64 {
    ((k as u64 + 1) << 16) + u64::from(days)
}

/// Makes all agings of a list: checks 1 to 9 and 20. A call below 65,536 is a tolerance, and one from there on is as
/// `by_table` has it. The tables are lent one after the other, each as its numbers; one of which not all are lent has no
/// rows.
pub fn run(record: &mut [u8], calls: &[u64], tables: &[u16]) -> Run {
    // SAFETY: as in `age`; the record overlaps no call and no table.
    unsafe {
        trails_run(
            record.as_mut_ptr(),
            record.len(),
            calls.as_ptr(),
            calls.len(),
            tables.as_ptr(),
            tables.len(),
        )
    }
}

/// Makes all agings of a list, as `run` does, and then asks as `crosses` does: checks 1 to 9, 20, 13 and 14, before any
/// aging.
pub fn crosses_after(
    record: &mut [u8],
    calls: &[u64],
    tables: &[u16],
    asked: Question,
) -> Crossing {
    // SAFETY: as in `run`.
    unsafe {
        trails_crosses_after(
            record.as_mut_ptr(),
            record.len(),
            calls.as_ptr(),
            calls.len(),
            tables.as_ptr(),
            tables.len(),
            asked.start,
            asked.end,
            asked.left,
            asked.right,
            asked.bottom,
            asked.top,
        )
    }
}

/// Makes all agings of a list, as `run` does, and then asks as `near` does: checks 1 to 9, 20 and 16, before any aging.
pub fn near_after(record: &mut [u8], calls: &[u64], tables: &[u16], asked: Circle) -> Approach {
    // SAFETY: as in `run`.
    unsafe {
        trails_near_after(
            record.as_mut_ptr(),
            record.len(),
            calls.as_ptr(),
            calls.len(),
            tables.as_ptr(),
            tables.len(),
            asked.x,
            asked.y,
            asked.radius,
        )
    }
}

/// Takes an absolute place that an anchor has sent: checks 17 and 19.
pub fn anchor_absolute(state: AnchorState, x: f32, y: f32) -> Anchored {
    // SAFETY: it is lent nothing, and all bits of a state and of a float have an answer.
    unsafe { trails_anchor_absolute(state, x, y) }
}

/// Takes a step from the last place that an anchor has sent: checks 17, 18 and 19.
pub fn anchor_step(state: AnchorState, dx: f32, dy: f32) -> Anchored {
    // SAFETY: as in `anchor_absolute`.
    unsafe { trails_anchor_step(state, dx, dy) }
}

/// Takes the readings in three columns, as many as the shortest has, each with the state that the one before left: an
/// absolute place where `step` is 0, and else a step. Answers the state after all, whose `seen` is 0 or 1.
pub fn anchor_all(state: AnchorState, step: &[u8], x: &[f32], y: &[f32]) -> AnchorState {
    // SAFETY: as in `check`, and of the rest as in `anchor_absolute`.
    unsafe {
        trails_anchor_all(
            state,
            step.as_ptr(),
            step.len(),
            x.as_ptr(),
            x.len(),
            y.as_ptr(),
            y.len(),
        )
    }
}

/// What the command must ask of Linux and Rust's library can't.
pub mod system {
    use std::ffi::{c_char, c_int, c_void, CStr};
    use std::fs::File;
    use std::io;
    use std::os::fd::AsRawFd;
    use std::sync::atomic::{AtomicBool, Ordering};

    extern "C" {
        fn fcntl(descriptor: c_int, command: c_int, ...) -> c_int;
        fn fgetxattr(
            descriptor: c_int,
            name: *const c_char,
            value: *mut c_void,
            size: usize,
        ) -> isize;
        fn fsetxattr(
            descriptor: c_int,
            name: *const c_char,
            value: *const c_void,
            size: usize,
            flags: c_int,
        ) -> c_int;
        fn fremovexattr(descriptor: c_int, name: *const c_char) -> c_int;
    }

    static WITHOUT_OUTPUT: AtomicBool = AtomicBool::new(false);

    /// Whether the program began with its standard output closed. Rust's runtime then puts `/dev/null` in its place,
    /// where answers would be lost without a word, so this is asked before the runtime starts; afterwards nothing tells
    /// it from an output that somebody has sent there.
    pub fn began_without_output() -> bool {
        WITHOUT_OUTPUT.load(Ordering::Relaxed)
    }

    extern "C" fn look_at_output() {
        const STANDARD_OUTPUT: c_int = 1;
        const F_GETFD: c_int = 1;
        // SAFETY: this command takes no further argument, and only asks; it fails if nothing is open.
        let closed = unsafe { fcntl(STANDARD_OUTPUT, F_GETFD) } == -1;
        WITHOUT_OUTPUT.store(closed, Ordering::Relaxed);
    }

    // SAFETY: what stands in this section is called before Rust's runtime starts, and the function uses nothing of it.
    #[used]
    #[link_section = ".init_array"]
    static LOOK: extern "C" fn() = look_at_output;

    /// Where a file has its access list: who may read and write it besides what its permissions say.
    const LIST: &CStr = c"system.posix_acl_access";

    /// The most bytes that such a list has.
    const LONGEST_LIST: usize = 65_536;

    /// Whether the last call failed since there is no list, or can be none on this disk.
    fn no_list(error: &io::Error) -> bool {
        const ENODATA: i32 = 61;
        const EOPNOTSUPP: i32 = 95;
        matches!(error.raw_os_error(), Some(ENODATA | EOPNOTSUPP))
    }

    /// A file's access list, if it has one.
    pub fn access_list(file: &File) -> io::Result<Option<Vec<u8>>> {
        let mut list = vec![0_u8; LONGEST_LIST];
        let (value, size) = (list.as_mut_ptr().cast(), list.len());
        // SAFETY: the descriptor is open as long as the file is, the name ends with 0, and the value has so many bytes.
        let length = unsafe { fgetxattr(file.as_raw_fd(), LIST.as_ptr(), value, size) };
        match usize::try_from(length) {
            Ok(length) => {
                list.truncate(length);
                Ok(Some(list))
            }
            Err(_) => {
                let error = io::Error::last_os_error();
                no_list(&error).then_some(None).ok_or(error)
            }
        }
    }

    /// Gives a file an access list, in place of its permissions.
    pub fn set_access_list(file: &File, list: &[u8]) -> io::Result<()> {
        let (value, size) = (list.as_ptr().cast(), list.len());
        // SAFETY: as in `access_list`.
        let done = unsafe { fsetxattr(file.as_raw_fd(), LIST.as_ptr(), value, size, 0) };
        match done {
            0 => Ok(()),
            _ => Err(io::Error::last_os_error()),
        }
    }

    /// Takes a file's access list away, if it has one.
    pub fn remove_access_list(file: &File) -> io::Result<()> {
        // SAFETY: as in `access_list`.
        let done = unsafe { fremovexattr(file.as_raw_fd(), LIST.as_ptr()) };
        let error = io::Error::last_os_error();
        match done == 0 || no_list(&error) {
            true => Ok(()),
            false => Err(error),
        }
    }
}
