//! A case that shows something, made as small as it still shows it. The search is greedy and bounded, and what it draws
//! is from a fixed seed, so a case is always made into the same one.

use std::ops::Range;

use super::{Case, Operation};
use crate::cases::Random;
use crate::columns::Columns;
use crate::plain::approach::Circle;
use crate::plain::crossing::Question;
use crate::plain::kinds::{Kind, CENTIMETRES};
use crate::plain::lists::List;
use crate::plain::table::{Table, NUMBERS};
use crate::tables::RowColumns;

/// How many bytes of buffers may be tried, with some more for each try: a few seconds, after which each of the faults
/// that the tests make has come down to a few fixes.
const EFFORT: usize = 200_000_000;
const EACH: usize = 64;

/// How often small numbers are drawn for a whole case, and how many of them it may have.
const DRAWS: usize = 20_000;
const FEW: usize = 40;

/// The smallest case found that still fails. The one that is given must.
pub fn minimised(case: Case, fails: &dyn Fn(&Case) -> bool) -> Case {
    let mut search = Search {
        case,
        fails,
        left: EFFORT,
    };
    while search.pass() {}
    search.case
}

struct Search<'a> {
    case: Case,
    fails: &'a dyn Fn(&Case) -> bool,
    left: usize,
}

impl Search<'_> {
    /// Whether the candidate still fails; then it is the case from now on.
    fn keep(&mut self, candidate: Case) -> bool {
        let effort = EACH + candidate.buffer.len();
        self.left = self.left.saturating_sub(effort);
        let smaller = self.left > 0 && (self.fails)(&candidate);
        if smaller {
            self.case = candidate;
        }
        smaller
    }

    /// Every way to make it smaller, once. Says whether one did.
    fn pass(&mut self) -> bool {
        let before = self.case.clone();
        self.shorten(Case::fixes_read, Case::without_fixes_and_rows);
        self.shorten(Case::fixes, Case::without_fixes_before_positions);
        self.shorten(Case::fixes, Case::without_fixes);
        self.shorten(Case::rows, Case::without_rows_and_output);
        self.shorten(Case::rows, Case::without_rows);
        self.lessen(&Case::dearest, &Case::with_dearest_and_output);
        self.shorten_columns();
        self.shorten(Case::listed, Case::without_listed);
        self.shorten(Case::tables_lent, Case::without_tables);
        self.shorten(Case::table_numbers, Case::without_table_numbers);
        self.shorten_tables();
        self.shorten(Case::loaded, Case::without_loaded);
        self.shorten(Case::rest, Case::without_rest);
        self.earlier();
        self.nearer_to_0();
        if let Some(candidate) = self.case.in_centimetres() {
            self.keep(candidate);
        }
        self.case != before || self.small_at_once()
    }

    /// Leaves out parts of a sequence: all, halves, and so on to single ones.
    fn shorten(
        &mut self,
        length: impl Fn(&Case) -> usize,
        without: impl Fn(&Case, Range<usize>) -> Case,
    ) {
        let mut many = length(&self.case);
        while many > 0 {
            let mut from = 0;
            while from < length(&self.case) {
                let to = length(&self.case).min(from + many);
                let candidate = without(&self.case, from..to);
                if !self.keep(candidate) {
                    from += many;
                }
            }
            many /= 2;
        }
    }

    /// Leaves out parts of each column that is to be filled, alone.
    fn shorten_columns(&mut self) {
        self.shorten(
            |case| case.filled().map_or(0, |columns| columns.t.len()),
            |case, range| case.with_columns(|columns| cut(&mut columns.t, &range)),
        );
        self.shorten(
            |case| case.filled().map_or(0, |columns| columns.x.len()),
            |case, range| case.with_columns(|columns| cut(&mut columns.x, &range)),
        );
        self.shorten(
            |case| case.filled().map_or(0, |columns| columns.y.len()),
            |case, range| case.with_columns(|columns| cut(&mut columns.y, &range)),
        );
        self.shorten(
            |case| case.filled().map_or(0, |columns| columns.silence.len()),
            |case, range| case.with_columns(|columns| cut(&mut columns.silence, &range)),
        );
    }

    /// Leaves out rows of each table that is handed over or lent to a list.
    fn shorten_tables(&mut self) {
        for k in 0..self.case.tables() {
            self.shorten(
                |case| case.table(k).rows.len().min(case.table(k).count.into()),
                |case, range| case.without_rows_of(k, range),
            );
        }
    }

    /// Moves each fix and all that is later, the asked seconds too, closer to the time before it, or to 0.
    fn earlier(&mut self) {
        for k in 0..self.case.times().len() {
            self.lessen(&|case| case.gap(k), &|case, gap| case.with_gap(k, gap));
        }
    }

    /// Brings every other number closer to 0.
    fn nearer_to_0(&mut self) {
        for k in 0..self.case.numbers().len() {
            self.lessen(&|case| case.numbers()[k], &|case, n| case.with(k, n));
        }
    }

    /// Draws small numbers for many at once, which helps where only some together still fail. Says whether it did.
    fn small_at_once(&mut self) -> bool {
        let mut random = Random::new(0);
        let few = self.case.numbers().len() <= FEW;
        (0..if few { DRAWS } else { 0 }).any(|_| {
            let candidate = self.case.small(&mut random);
            candidate.weight() < self.case.weight() && self.keep(candidate)
        })
    }

    /// Puts a smaller number in the place of one as long as that still fails: 0 if it may be, or else half of it, or
    /// else three quarters, and so on.
    fn lessen(&mut self, get: &dyn Fn(&Case) -> i128, set: &dyn Fn(&Case, i128) -> Case) {
        loop {
            let n = get(&self.case);
            let steps = std::iter::successors(Some(n), |step| Some(step / 2));
            let mut steps = steps.take_while(|&step| step != 0);
            let found = steps.any(|step| {
                let candidate = set(&self.case, n - step);
                get(&candidate) == n - step && self.keep(candidate)
            });
            if !found {
                return;
            }
        }
    }
}

// ---- the parts of a case

const HEAD: usize = 10;

impl Case {
    /// The columns that are written.
    fn written(&self) -> Option<&Columns> {
        match &self.operation {
            Operation::Write(_, columns) => Some(columns),
            _ => None,
        }
    }

    /// Whether the buffer has a head: an output holds no record yet.
    fn has_head(&self) -> bool {
        let is_output = matches!(self.operation, Operation::Write(..) | Operation::Dearest(_));
        !is_output && self.buffer.len() >= HEAD
    }

    /// The columns that a record is read into.
    fn filled(&self) -> Option<&Columns> {
        match &self.operation {
            Operation::ReadAll(columns) => Some(columns),
            _ => None,
        }
    }

    fn with_columns(&self, change: impl FnOnce(&mut Columns)) -> Case {
        let mut case = self.clone();
        if let Operation::Write(_, columns) | Operation::ReadAll(columns) = &mut case.operation {
            change(columns);
        }
        case
    }

    /// The kind in whose form the buffer has its fixes: of bytes that have no kind, whatever kind that is.
    fn form(&self) -> Kind {
        self.kind(CENTIMETRES)
    }

    /// Where a fix begins.
    fn at(&self, fix: usize) -> usize {
        self.form().record_length(fix)
    }

    /// How many fixes the buffer has in full, if it holds a record, damaged or not.
    fn fixes(&self) -> usize {
        if !self.has_head() {
            return 0;
        }
        let count = u16::from_le_bytes([self.buffer[8], self.buffer[9]]);
        usize::from(count).min((self.buffer.len() - HEAD) / self.form().fix_bytes())
    }

    /// Length and count follow, and are as wrong as they were.
    fn without_fixes(&self, range: Range<usize>) -> Case {
        let mut case = self.clone();
        let bytes = self.at(range.start)..self.at(range.end);
        let fewer = range.len() as u16;
        let length = u32::from_le_bytes(self.array(0)).wrapping_sub(bytes.len() as u32);
        let count = u16::from_le_bytes(self.array(8)).wrapping_sub(fewer);
        case.buffer[..4].copy_from_slice(&length.to_le_bytes());
        case.buffer[8..HEAD].copy_from_slice(&count.to_le_bytes());
        case.buffer.drain(bytes);
        case
    }

    /// So that the fixes after these are read where they are then.
    fn without_fixes_before_positions(&self, range: Range<usize>) -> Case {
        let mut case = self.without_fixes(range.clone());
        if let Operation::Read(positions) = &mut case.operation {
            let later = positions.iter_mut().filter(|at| **at >= range.end);
            later.for_each(|at| *at -= range.len());
        }
        case
    }

    /// How many fixes are read into columns.
    fn fixes_read(&self) -> usize {
        self.filled().map_or(0, |_| self.fixes())
    }

    /// So that a column is as much too short, or too long, as it was.
    fn without_fixes_and_rows(&self, range: Range<usize>) -> Case {
        self.without_fixes(range.clone()).without_rows(range)
    }

    fn array<const N: usize>(&self, at: usize) -> [u8; N] {
        let bytes = &self.buffer[at..at + N];
        bytes.try_into().expect("it has that length")
    }

    /// How many rows the writer's longest column has.
    fn rows(&self) -> usize {
        let lengths = self.written().map_or([0; 4], Columns::lengths);
        lengths.into_iter().max().unwrap_or(0)
    }

    fn without_rows(&self, range: Range<usize>) -> Case {
        self.with_columns(|columns| {
            cut(&mut columns.t, &range);
            cut(&mut columns.x, &range);
            cut(&mut columns.y, &range);
            cut(&mut columns.silence, &range);
        })
    }

    /// So that an output is as much too short, or too long, as it was.
    fn without_rows_and_output(&self, range: Range<usize>) -> Case {
        let mut case = self.without_rows(range.clone());
        let less = self.form().fix_bytes() * range.len();
        case.buffer.truncate(self.buffer.len().saturating_sub(less));
        case
    }

    /// How many fixes the dearest trail is to have.
    fn dearest(&self) -> i128 {
        match self.operation {
            Operation::Dearest(n) => n as i128,
            _ => 0,
        }
    }

    /// The dearest trail of fewer fixes, so that an output is as much too short, or too long, as it was.
    fn with_dearest_and_output(&self, n: i128) -> Case {
        let mut case = self.clone();
        let less = CENTIMETRES.fix_bytes() as i128 * (self.dearest() - n);
        let left = (self.buffer.len() as i128 - less).max(0);
        case.buffer.truncate(left as usize);
        case.operation = Operation::Dearest(n as usize);
        case
    }

    /// The same numbers in the form of kind 1, if they are in another and a record's bytes hold each; of kind 3 the
    /// silence bytes go. An output is as much too short, or too long, as it was, and a length as wrong.
    fn in_centimetres(&self) -> Option<Case> {
        let mut case = self.clone();
        let form = self.form();
        let less = form.fix_bytes() - CENTIMETRES.fix_bytes();
        if form == CENTIMETRES {
            return None;
        }
        if let Operation::Write(kind, columns) = &mut case.operation {
            let shorter = less * columns.fixes(form).len();
            let left = self.buffer.len().saturating_sub(shorter);
            case.buffer.truncate(left);
            columns.silence.clear();
            *kind = CENTIMETRES;
            return Some(case);
        }
        for k in (0..self.fixes()).rev() {
            let at = self.at(k);
            if form.silences {
                case.buffer.remove(at + 8);
                continue;
            }
            for at in [at + 8, at + 4] {
                i16::try_from(i32::from_le_bytes(self.array(at))).ok()?;
                // the upper two bytes say only the sign
                case.buffer.drain(at + 2..at + 4);
            }
        }
        let shorter = (less * self.fixes()) as u32;
        let length = u32::from_le_bytes(self.array(0)).wrapping_sub(shorter);
        case.buffer[..4].copy_from_slice(&length.to_le_bytes());
        case.buffer[4..6].copy_from_slice(&CENTIMETRES.code.to_le_bytes());
        Some(case)
    }

    /// How many calls or positions are listed.
    fn listed(&self) -> usize {
        match &self.operation {
            Operation::Read(positions) => positions.len(),
            _ => self.agings().map_or(0, |list| list.calls.len()),
        }
    }

    fn without_listed(&self, range: Range<usize>) -> Case {
        let mut case = self.with_agings(|list| cut(&mut list.calls, &range));
        if let Operation::Read(positions) = &mut case.operation {
            cut(positions, &range);
        }
        case
    }

    fn agings(&self) -> Option<&List> {
        match &self.operation {
            Operation::Run(list)
            | Operation::CrossesAfter(list, _)
            | Operation::NearAfter(list, _) => Some(list),
            _ => None,
        }
    }

    fn with_agings(&self, change: impl FnOnce(&mut List)) -> Case {
        let mut case = self.clone();
        if let Operation::Run(list)
        | Operation::CrossesAfter(list, _)
        | Operation::NearAfter(list, _) = &mut case.operation
        {
            change(list);
        }
        case
    }

    /// How many numbers of tables a list is lent.
    fn table_numbers(&self) -> usize {
        self.agings().map_or(0, |list| list.tables.len())
    }

    fn without_table_numbers(&self, range: Range<usize>) -> Case {
        self.with_agings(|list| cut(&mut list.tables, &range))
    }

    /// How many tables that is.
    fn tables_lent(&self) -> usize {
        self.table_numbers() / NUMBERS
    }

    /// So that the calls by later tables are by the same ones.
    fn without_tables(&self, range: Range<usize>) -> Case {
        let fewer = range.len() as u64;
        let numbers = NUMBERS * range.start..NUMBERS * range.end;
        self.without_table_numbers(numbers).with_agings(|list| {
            let later = |call: &&mut u64| **call >> 16 > range.end as u64;
            let later = list.calls.iter_mut().filter(later);
            later.for_each(|call| *call -= fewer << 16);
        })
    }

    /// How many tables there are, lent to a list or the one that is handed over.
    fn tables(&self) -> usize {
        match &self.operation {
            Operation::Days(..) | Operation::Apply(..) => 1,
            _ => self.tables_lent(),
        }
    }

    fn table(&self, k: usize) -> Table {
        match &self.operation {
            Operation::Days(_, table) | Operation::Apply(_, table) => *table,
            _ => self
                .agings()
                .map_or(Table::default(), |list| list.table(k as u64)),
        }
    }

    /// So that the later rows follow the earlier ones.
    fn without_rows_of(&self, k: usize, range: Range<usize>) -> Case {
        let mut shorter = self.table(k);
        shorter.rows[range.start..].rotate_left(range.len());
        shorter.count -= range.len() as u16;
        let mut case = self.with_agings(|list| {
            let numbers = list.tables.chunks_exact_mut(NUMBERS).nth(k);
            let numbers = numbers.into_iter().flatten().zip(shorter.numbers());
            numbers.for_each(|(number, other)| *number = other);
        });
        if let Operation::Days(_, table) | Operation::Apply(_, table) = &mut case.operation {
            *table = shorter;
        }
        case
    }

    /// How many rows there are to load, by the longer column.
    fn loaded(&self) -> usize {
        match &self.operation {
            Operation::Load(RowColumns { days, tolerances }) => days.len().max(tolerances.len()),
            _ => 0,
        }
    }

    fn without_loaded(&self, range: Range<usize>) -> Case {
        let mut case = self.clone();
        if let Operation::Load(RowColumns { days, tolerances }) = &mut case.operation {
            cut(days, &range);
            cut(tolerances, &range);
        }
        case
    }

    /// Where the bytes begin that are no head and no fix in full: of an output, all.
    fn rest_from(&self) -> usize {
        if !self.has_head() {
            return 0;
        }
        self.at(self.fixes())
    }

    fn rest(&self) -> usize {
        self.buffer.len() - self.rest_from()
    }

    fn without_rest(&self, range: Range<usize>) -> Case {
        let mut case = self.clone();
        let from = self.rest_from();
        case.buffer.drain(from + range.start..from + range.end);
        case
    }

    /// The times of the writer's column or of the buffer's fixes.
    pub(super) fn times(&self) -> Vec<u32> {
        let many = self
            .written()
            .map_or(self.fixes(), |columns| columns.t.len());
        (0..many).map(|k| self.time(k)).collect()
    }

    fn time(&self, k: usize) -> u32 {
        match self.written() {
            Some(columns) => columns.t[k],
            None => u32::from_le_bytes(self.array(self.at(k))),
        }
    }

    fn set_time(&mut self, k: usize, t: u32) {
        let at = self.at(k);
        match &mut self.operation {
            Operation::Write(_, columns) => columns.t[k] = t,
            _ => self.buffer[at..at + 4].copy_from_slice(&t.to_le_bytes()),
        }
    }

    /// The seconds from the time before to a fix's time; to the first one's, from 0.
    fn gap(&self, k: usize) -> i128 {
        let times = self.times();
        let before = if k == 0 { 0 } else { times[k - 1] };
        i128::from(times[k]) - i128::from(before)
    }

    /// Moves the fix's time, and all that are as late or later, to where the gap is this.
    fn with_gap(&self, k: usize, gap: i128) -> Case {
        let by = (gap - self.gap(k)) as u32;
        let times = self.times();
        self.moved(k..times.len(), times[k], by)
    }

    /// Moves the times at these positions, and those asked seconds that aren't before `from`, by so many seconds modulo
    /// 2³².
    pub(super) fn moved(&self, positions: Range<usize>, from: u32, by: u32) -> Case {
        let mut case = self.clone();
        for k in positions {
            case.set_time(k, self.time(k).wrapping_add(by));
        }
        for second in case.asked_seconds() {
            if *second >= from {
                *second = second.wrapping_add(by);
            }
        }
        case
    }

    /// The seconds that are asked about.
    pub(super) fn asked_seconds(&mut self) -> Vec<&mut u32> {
        match &mut self.operation {
            Operation::Place(moment) => vec![&mut moment.second],
            Operation::Crosses(Question { window, .. })
            | Operation::CrossesAfter(_, Question { window, .. }) => {
                vec![&mut window.start, &mut window.end]
            }
            _ => Vec::new(),
        }
    }
}

fn cut<T>(list: &mut Vec<T>, range: &Range<usize>) {
    let to = range.end.min(list.len());
    list.drain(range.start.min(to)..to);
}

// ---- all numbers of a case but times

/// What is done with each number, in order.
type Visit<'a> = &'a mut dyn FnMut(i128) -> i128;

/// A number that isn't of its type afterwards stays as it was.
fn visit<T: Copy + TryInto<i128> + TryFrom<i128>>(n: &mut T, change: Visit) {
    if let Ok(wide) = (*n).try_into() {
        *n = T::try_from(change(wide)).unwrap_or(*n);
    }
}

impl Case {
    fn numbers(&self) -> Vec<i128> {
        let mut all = Vec::new();
        self.clone().visit(&mut |n| {
            all.push(n);
            n
        });
        all
    }

    /// The case with another number at this position of all numbers.
    fn with(&self, k: usize, number: i128) -> Case {
        let mut case = self.clone();
        let mut position = 0;
        case.visit(&mut |n| {
            position += 1;
            if position == k + 1 {
                number
            } else {
                n
            }
        });
        case
    }

    /// The same with some numbers from -3 to 3 instead, and times that begin at 0 and are at most 3 seconds apart.
    fn small(&self, random: &mut Random) -> Case {
        let mut case = self.clone();
        case.visit(&mut |n| match random.between(0, 3) {
            0 => n,
            1 => random.between(-3, 0).into(),
            _ => random.between(0, 3).into(),
        });
        let mut t = 0;
        for k in 0..self.times().len() {
            case.set_time(k, t);
            t += random.between(0, 3) as u32;
        }
        case
    }

    /// How much its numbers and times come to.
    fn weight(&self) -> i128 {
        let numbers: i128 = self.numbers().iter().map(|n| n.abs()).sum();
        let gaps: i128 = (0..self.times().len()).map(|k| self.gap(k).abs()).sum();
        numbers + gaps
    }

    fn visit(&mut self, change: Visit) {
        self.visit_arguments(change);
        if self.rest_from() > 0 {
            self.visit_at(6, change, u16::from_le_bytes, u16::to_le_bytes);
        }
        let Kind {
            width, silences, ..
        } = self.form();
        for k in 0..self.fixes() {
            let x = self.at(k) + 4;
            for at in [x, x + width] {
                match width {
                    2 => self.visit_at(at, change, i16::from_le_bytes, i16::to_le_bytes),
                    _ => self.visit_at(at, change, i32::from_le_bytes, i32::to_le_bytes),
                }
            }
            if silences {
                visit(&mut self.buffer[x + 2 * width], change);
            }
        }
        let from = self.rest_from();
        for byte in &mut self.buffer[from..] {
            visit(byte, change);
        }
    }

    fn visit_at<const N: usize, T: Copy + TryInto<i128> + TryFrom<i128>>(
        &mut self,
        at: usize,
        change: Visit,
        from: fn([u8; N]) -> T,
        to: fn(T) -> [u8; N],
    ) {
        let mut n = from(self.array(at));
        visit(&mut n, change);
        self.buffer[at..at + N].copy_from_slice(&to(n));
    }

    fn visit_arguments(&mut self, change: Visit) {
        match &mut self.operation {
            Operation::Check | Operation::List => {}
            Operation::Read(positions) => positions.iter_mut().for_each(|n| visit(n, change)),
            Operation::ReadAll(Columns { t, x, y, silence }) => {
                t.iter_mut().for_each(|n| visit(n, change));
                x.iter_mut().chain(y).for_each(|n| visit(n, change));
                silence.iter_mut().for_each(|n| visit(n, change));
            }
            Operation::Write(_, Columns { x, y, silence, .. }) => {
                x.iter_mut().chain(y).for_each(|n| visit(n, change));
                silence.iter_mut().for_each(|n| visit(n, change));
            }
            Operation::Dearest(n) => visit(n, change),
            Operation::Age(n) => visit(n, change),
            Operation::Load(RowColumns { days, tolerances }) => {
                let both = days.iter_mut().chain(tolerances);
                both.for_each(|n| visit(n, change));
            }
            Operation::Days(n, table) | Operation::Apply(n, table) => {
                visit(n, change);
                visit_table(table, change);
            }
            Operation::Run(list) => visit_list(list, change),
            Operation::Place(moment) => {
                visit(&mut moment.second, change);
                visit(&mut moment.thousandths, change);
            }
            Operation::Crosses(question) => visit_question(question, change),
            Operation::CrossesAfter(list, question) => {
                visit_list(list, change);
                visit_question(question, change);
            }
            Operation::Near(circle) => visit_circle(circle, change),
            Operation::NearAfter(list, circle) => {
                visit_list(list, change);
                visit_circle(circle, change);
            }
        }
    }
}

fn visit_table(table: &mut Table, change: Visit) {
    visit(&mut table.count, change);
    for row in &mut table.rows {
        visit(&mut row.day, change);
        visit(&mut row.tolerance, change);
    }
}

fn visit_list(list: &mut List, change: Visit) {
    list.calls.iter_mut().for_each(|n| visit(n, change));
    list.tables.iter_mut().for_each(|n| visit(n, change));
}

fn visit_question(question: &mut Question, change: Visit) {
    let Question { window, area } = question;
    visit(&mut window.start, change);
    visit(&mut window.end, change);
    for edge in [
        &mut area.left,
        &mut area.right,
        &mut area.bottom,
        &mut area.top,
    ] {
        visit(edge, change);
    }
}

fn visit_circle(Circle { x, y, radius }: &mut Circle, change: Visit) {
    visit(x, change);
    visit(y, change);
    visit(radius, change);
}
