//! Records and lists of fixes to try, all from one seed.

use std::collections::BTreeMap;

use crate::plain::kinds::{Kind, CENTIMETRES, KINDS, MILLIMETRES, SILENCES};
use crate::plain::{encode, Fix, Head, Trail, LONGEST, MOST_FIXES, NEVER};

/// What a run tries: a fixed seed and count, unless TRAILS_SEED and TRAILS_CASES say otherwise.
#[derive(Clone, Copy)]
pub struct Settings {
    pub seed: u64,
    pub cases: usize,
}

impl Settings {
    pub fn get() -> Settings {
        Settings {
            seed: number("TRAILS_SEED", 20_240_229),
            cases: number("TRAILS_CASES", 10_000) as usize,
        }
    }
}

fn number(variable: &str, usual: u64) -> u64 {
    match std::env::var(variable) {
        Ok(text) => text.parse().expect("a whole number"),
        Err(_) => usual,
    }
}

/// Splitmix64: small, and the same on every machine.
pub struct Random(u64);

impl Random {
    pub fn new(seed: u64) -> Random {
        Random(seed)
    }

    fn draw(&mut self) -> u64 {
        self.0 = self.0.wrapping_add(0x9E37_79B9_7F4A_7C15);
        let z = (self.0 ^ (self.0 >> 30)).wrapping_mul(0xBF58_476D_1CE4_E5B9);
        let z = (z ^ (z >> 27)).wrapping_mul(0x94D0_49BB_1331_11EB);
        z ^ (z >> 31)
    }

    /// A number from low to high, both included.
    pub fn between(&mut self, low: i64, high: i64) -> i64 {
        low + (self.draw() % (high - low + 1) as u64) as i64
    }

    pub fn one_in(&mut self, n: i64) -> bool {
        self.between(1, n) == 1
    }

    pub fn pick<T: Copy>(&mut self, from: &[T]) -> T {
        from[self.between(0, from.len() as i64 - 1) as usize]
    }

    pub fn bytes(&mut self, n: usize) -> Vec<u8> {
        (0..n).map(|_| self.draw() as u8).collect()
    }
}

// ---- lists of fixes

/// A time for each of n fixes: rising, and at most 65,535 seconds from first to last. One list in three has
/// exactly that span; some begin at 0, and some end at the last second that 32 bits hold.
pub fn times(random: &mut Random, n: usize) -> Vec<u32> {
    let whole = random.one_in(3);
    times_within(65_535, whole, random, n)
}

/// The same within so many seconds, or with exactly that span.
pub fn times_within(span: i64, whole: bool, random: &mut Random, n: usize) -> Vec<u32> {
    let legs = n as i64 - 1;
    let mut offsets = vec![0];
    let mut spare = span - legs;
    for left in (1..=legs).rev() {
        let extra = match (left, whole) {
            (1, true) => spare,
            _ => random.between(0, spare.min(2 * spare / left + 1)),
        };
        spare -= extra;
        offsets.push(offsets[offsets.len() - 1] + 1 + extra);
    }
    let latest = i64::from(u32::MAX) - offsets[offsets.len() - 1];
    let middle = random.between(0, latest);
    let first = random.pick(&[0, middle, latest]);
    offsets
        .iter()
        .map(|offset| (first + offset) as u32)
        .collect()
}

fn coordinate(kind: Kind, random: &mut Random) -> i32 {
    let limit = kind.limit;
    match random.between(0, 9) {
        0 => -limit,
        1 => limit,
        2 => random.between(-1, 1) as i32,
        _ => random.between((-limit).into(), limit.into()) as i32,
    }
}

/// An accepted list of n fixes.
pub fn fixes(kind: Kind, random: &mut Random, n: usize) -> Vec<Fix> {
    let times = times(random, n);
    let place = |t| Fix::from((t, coordinate(kind, random), coordinate(kind, random)));
    let mut fixes: Vec<Fix> = times.into_iter().map(place).collect();
    fall_silent(kind, &mut fixes, random);
    fixes
}

/// Sets the silence bytes, if the kind has them: to 1 for no fix, the first alone, the last that can have it, both
/// these, all that can, or some.
pub fn fall_silent(kind: Kind, fixes: &mut [Fix], random: &mut Random) {
    let Some((_, all)) = fixes.split_last_mut().filter(|_| kind.silences) else {
        return;
    };
    let last = all.len().saturating_sub(1);
    let sort = random.between(0, 7);
    let one_in = random.pick(&[2, 3, 10, 40]);
    for (k, fix) in all.iter_mut().enumerate() {
        let silent = match sort {
            0 => false,
            1 => k == 0,
            2 => k == last,
            3 => k == 0 || k == last,
            4 => true,
            _ => random.one_in(one_in),
        };
        fix.silence = silent.into();
    }
}

/// Coordinates outside the hall: next to it, as far as their bytes go, and where they are four, also some that two of
/// them would have inside.
fn outside(kind: Kind) -> Vec<i32> {
    let wide = [i32::MIN, i32::MAX, 3 << 16, -(3 << 16)];
    let narrow = [i16::MIN, i16::MAX].map(i32::from);
    let far = match kind.width {
        2 => &narrow[..],
        _ => &wide[..],
    };
    [&[-kind.limit - 1, kind.limit + 1], far].concat()
}

/// Check 7 fails: a place outside the hall.
fn misplace(kind: Kind, fixes: &mut [Fix], random: &mut Random) {
    let far = random.pick(&outside(kind));
    let at = random.between(0, fixes.len() as i64 - 1) as usize;
    if random.one_in(2) {
        fixes[at].x = far;
    } else {
        fixes[at].y = far;
    }
}

/// Check 8 fails: a time that isn't later than the one before. The last of three or more stays, and so does the
/// span.
fn disorder(fixes: &mut [Fix], random: &mut Random) {
    let inner = (fixes.len() as i64 - 2).max(1);
    let at = random.between(1, inner) as usize;
    let before = i64::from(fixes[at - 1].t);
    let earlier = random.between(0, before);
    fixes[at].t = random.pick(&[before, (before - 1).max(0), earlier]) as u32;
}

/// Check 9 fails: a span above 65,535 seconds, with the times in order.
fn overrun(fixes: &mut [Fix], random: &mut Random) {
    let more = random.between(0, 1_000_000);
    let span = 65_536 + random.pick(&[0, more]) as u32;
    let last = fixes.len() - 1;
    match fixes[0].t.checked_add(span) {
        Some(t) => fixes[last].t = t,
        None => fixes[0].t = fixes[last].t - span,
    }
}

/// Check 20 fails: a silence byte that is neither 0 nor 1, or a last fix that says a silence follows.
fn missay(fixes: &mut [Fix], random: &mut Random) {
    let last = fixes.len() - 1;
    let at = random.between(0, last as i64) as usize;
    let any = random.between(2, 255) as u8;
    match random.between(0, 2) {
        0 => fixes[last].silence = 1,
        1 => fixes[at].silence = random.pick(&[2, 3, 128, 254, 255, any]),
        _ => fixes[last].silence = any,
    }
}

/// A kind whose fixes are lent to its writer, in columns of four bytes whatever a record has.
pub fn in_columns(kind: Kind) -> Kind {
    Kind { width: 4, ..kind }
}

/// Makes the sentence of check 7, 8, 9 or 20 true of two or more fixes that are accepted, or have faults of later
/// checks only. Of one fix 8 and 9 can't be.
pub fn spoil(fault: u8, kind: Kind, fixes: &mut [Fix], random: &mut Random) {
    match fault {
        7 => misplace(kind, fixes, random),
        8 => disorder(fixes, random),
        9 => overrun(fixes, random),
        20 => missay(fixes, random),
        other => panic!("no fault of fixes has the number {other}"),
    }
}

/// What a list of this kind can be refused for besides its count, in checking order.
pub fn faults_of_fixes(kind: Kind) -> Vec<u8> {
    faults(kind)
        .into_iter()
        .filter(|&fault| fault >= 7)
        .collect()
}

/// What a record of this kind can be refused for, in checking order.
pub fn faults(kind: Kind) -> Vec<u8> {
    let checks = (1..=9).chain([20]);
    checks
        .filter(|&check| kind.can_fail(check.into()))
        .collect()
}

/// So many faults, or less if some are the same, from the latest check's to the first's.
pub fn some_faults(from: &[u8], many: i64, random: &mut Random) -> Vec<u8> {
    let mut some: Vec<u8> = (0..many).map(|_| random.pick(from)).collect();
    some.sort_by(|a, b| b.cmp(a));
    some.dedup();
    some
}

// ---- records

/// A record in the making, whose parts may be made wrong one by one.
pub struct Draft {
    /// what it is made as, whatever its head says then
    pub kind: Kind,
    pub head: Head,
    pub fixes: Vec<Fix>,
    /// what the buffer has after the record
    pub tail: Vec<u8>,
    /// how many bytes are lent, if not all
    pub lent: Option<usize>,
}

impl Draft {
    pub fn new(trail: Trail, tail: Vec<u8>) -> Draft {
        let Trail { kind, mark, fixes } = trail;
        Draft {
            kind,
            head: Head::of(kind, mark, fixes.len()),
            fixes,
            tail,
            lent: None,
        }
    }

    /// An accepted record of n fixes.
    pub fn accepted(kind: Kind, random: &mut Random, n: usize) -> Draft {
        let fixes = fixes(kind, random, n);
        let tolerance = random.between(0, kind.top.into()) as u16;
        let mark = random.pick(&[NEVER, 0, kind.top, tolerance]);
        // half of the buffers end with their record
        let after = random.between(-20, 20).max(0) as usize;
        let tail = random.bytes(after);
        Draft::new(Trail { kind, mark, fixes }, tail)
    }

    /// A head that fits, and bytes as many as its fixes have and some more, with anything in them.
    pub fn noise(kind: Kind, random: &mut Random, n: usize, more: usize) -> Draft {
        let tail = random.bytes(kind.fix_bytes() * n + more);
        let mut draft = Draft::new(Trail::never_thinned(kind, Vec::new()), tail);
        draft.set_count(n as u16);
        draft
    }

    pub fn bytes(&self) -> Vec<u8> {
        let mut bytes = encode(self.kind, self.head, &self.fixes);
        bytes.extend(&self.tail);
        bytes.truncate(self.lent.unwrap_or(bytes.len()));
        bytes
    }

    fn set_count(&mut self, count: u16) {
        self.head.count = count;
        self.head.length = self.kind.record_length(count.into()) as u32;
    }

    /// Says that it is of another kind. Half of the time the length stays, and is wrong then; else it is the other
    /// kind's of as many fixes, and bytes may follow, so that these are there in full.
    pub fn claim_another_kind(&mut self, random: &mut Random) {
        let other = another(self.kind, random);
        let length = other.record_length(self.fixes.len());
        self.head.kind = other.code;
        if random.one_in(2) {
            self.head.length = length as u32;
            let more = random.pick(&[0, length]);
            self.tail.extend(random.bytes(more));
        }
    }

    /// Makes the sentence of a check true, and none of an earlier one. So of several faults made from the last to
    /// the first, the first is what the record is turned away for.
    pub fn spoil(&mut self, fault: u8, random: &mut Random) {
        let count = usize::from(self.head.count);
        let length = self.kind.record_length(count) as u32;
        match fault {
            1 => self.lent = Some(random.between(0, 9) as usize),
            2 => self.head.kind = random.pick(&[0, 4, 256, 257, 258, 259, 512, 768, 65_535]),
            3 => {
                // a length that was wrong already stays so
                let wrong = (self.head.length != length).then_some(self.head.length);
                self.set_count(random.pick(&[0, 4_097, 4_352, 65_535]));
                self.head.length = wrong.unwrap_or(self.head.length);
            }
            4 => {
                let wrong = [
                    0,
                    10,
                    length - 1,
                    length + 1,
                    length + self.kind.fix_bytes() as u32,
                    another(self.kind, random).record_length(count) as u32,
                    length << 8,
                    u32::MAX,
                ];
                self.head.length = random.pick(&wrong);
            }
            5 => self.lent = Some(random.between(10, i64::from(length) - 1) as usize),
            6 => {
                let above = self.kind.top + 1;
                let inside = random.between(above.into(), 65_534) as u16;
                self.head.mark = random.pick(&[above, 65_534, inside]);
            }
            _ => spoil(fault, self.kind, &mut self.fixes, random),
        }
    }
}

/// One of the other kinds.
fn another(kind: Kind, random: &mut Random) -> Kind {
    let others: Vec<Kind> = KINDS.into_iter().filter(|one| *one != kind).collect();
    random.pick(&others)
}

/// A buffer that begins with the record of a trail, and goes on.
pub fn buffer(trail: &Trail) -> Vec<u8> {
    Draft::new(trail.clone(), vec![0xAB; 5]).bytes()
}

/// The same of a trail of these fixes, never thinned.
pub fn buffer_of(kind: Kind, fixes: impl IntoIterator<Item = Fix>) -> Vec<u8> {
    buffer(&Trail::never_thinned(kind, fixes.into_iter().collect()))
}

/// The fixes of a trail by hand, with a silence after those at these positions.
pub fn by_hand(fixes: &[(u32, i32, i32)], silent: &[usize]) -> Vec<Fix> {
    let mut fixes: Vec<Fix> = fixes.iter().copied().map(Fix::from).collect();
    silent.iter().for_each(|&k| fixes[k].silence = 1);
    fixes
}

/// Where a trail of so many seconds begins that is asked at several times: at 0, with 65,536 in its midst and at its
/// start, and so that it ends with the last second.
pub fn firsts(seconds: u32) -> [u32; 4] {
    [0, 65_536 - seconds / 2, 65_536, u32::MAX - seconds]
}

/// The longest span at the end of the clock, from one corner of the hall to the other; and the same in millimetres.
pub const CORNERS: [(u32, i32, i32); 2] = [
    (4_294_901_760, -16_000, 16_000),
    (4_294_967_295, 16_000, -16_000),
];
pub const FAR_CORNERS: [(u32, i32, i32); 2] = [
    (4_294_901_760, -160_000, 160_000),
    (4_294_967_295, 160_000, -160_000),
];

/// Records of three fixes at seconds 0, 1 and 3 and no further than 2 from the middle, with silences and without: one for
/// so many cases of the run.
pub fn small_records(one_for: usize) -> impl Iterator<Item = Vec<u8>> {
    let settings = Settings::get();
    let mut random = Random::new(settings.seed);
    (0..settings.cases / one_for).map(move |_| {
        let mut coordinate = || random.between(-2, 2) as i32;
        let mut small = |t| (t, coordinate(), coordinate());
        let small = [small(0), small(1), small(3)].map(Fix::from);
        let silent = [0, 1].map(|_| random.between(0, 1) as u8);
        with_silences(small, silent)
    })
}

/// The record of three fixes with these bytes after the first two; if both are 0, in centimetres.
fn with_silences(mut fixes: [Fix; 3], silent: [u8; 2]) -> Vec<u8> {
    (fixes[0].silence, fixes[1].silence) = (silent[0], silent[1]);
    let kind = match silent {
        [0, 0] => CENTIMETRES,
        _ => SILENCES,
    };
    buffer_of(kind, fixes)
}

/// Lent bytes, and what they must be refused for if that is known beforehand: 0 is accepted.
pub struct Case {
    pub name: String,
    /// what they were made as
    made: Kind,
    pub bytes: Vec<u8>,
    pub known: Option<u8>,
}

impl Case {
    pub fn kind(&self) -> Kind {
        kind_of(&self.bytes, self.made)
    }
}

/// The kind whose limits the bytes are held to: the one that their head has. Of bytes that have none, what they were
/// made as.
pub fn kind_of(bytes: &[u8], made: Kind) -> Kind {
    let code = bytes.get(..10).map(|head| [head[4], head[5]]);
    let claimed = code.and_then(|code| Kind::with_code(u16::from_le_bytes(code)));
    claimed.unwrap_or(made)
}

/// All cases of a run. Their names have the seed, so that a failed one can be had again.
pub struct Cases {
    settings: Settings,
    random: Random,
    kind: Kind,
    all: Vec<Case>,
}

impl Cases {
    pub fn all(settings: Settings) -> Vec<Case> {
        let mut all = Vec::new();
        for kind in KINDS {
            let mut cases = Cases {
                settings,
                random: Random::new(settings.seed),
                kind,
                all: Vec::new(),
            };
            cases.sizes();
            cases.edges();
            cases.silences();
            cases.pairs();
            cases.lengths();
            cases.other_kind();
            cases.bits();
            cases.noise();
            cases.mixed();
            all.append(&mut cases.all);
        }
        all
    }

    fn add(&mut self, name: String, bytes: Vec<u8>, known: Option<u8>) {
        let (seed, made) = (self.settings.seed, self.kind);
        self.all.push(Case {
            name: format!("seed {seed}: {made}, {name}"),
            made,
            bytes,
            known,
        });
    }

    fn accepted(&mut self, n: usize) -> Draft {
        Draft::accepted(self.kind, &mut self.random, n)
    }

    /// How many of the run's cases are this kind's.
    fn share(&self) -> usize {
        self.settings.cases / KINDS.len()
    }

    /// Accepted records of every size that matters.
    fn sizes(&mut self) {
        for n in [1, 2, 3, 4, 10, 255, 256, 257, 4_095, MOST_FIXES] {
            for tail in [0, 1, self.kind.fix_bytes(), 70] {
                let mut draft = self.accepted(n);
                draft.tail = self.random.bytes(tail);
                let name = format!("{n} fixes and {tail} bytes more");
                self.add(name, draft.bytes(), Some(0));
            }
        }
        let longest = self.accepted(MOST_FIXES);
        let length = longest.bytes().len() - longest.tail.len();
        assert_eq!(length == LONGEST, self.kind == MILLIMETRES);
    }

    /// Each limit met, and passed by one.
    fn edges(&mut self) {
        let fix = |t, x, y| Fix::from((t, x, y));
        let top = u32::MAX;
        let most = self.kind.limit;
        let mut trails = vec![
            (0, vec![fix(0, -most, most)]),
            (0, vec![fix(top, most, -most)]),
            (8, vec![fix(5, 0, 0), fix(5, 0, 0)]),
            (8, vec![fix(5, 0, 0), fix(4, 0, 0), fix(99_999, 0, 0)]),
            (8, vec![fix(top, 0, 0), fix(0, 0, 0)]),
            (0, vec![fix(0, 0, 0), fix(65_535, 0, 0)]),
            (9, vec![fix(0, 0, 0), fix(65_536, 0, 0)]),
            (0, vec![fix(top - 65_535, 0, 0), fix(top, 0, 0)]),
            (9, vec![fix(top - 65_536, 0, 0), fix(top, 0, 0)]),
            (9, vec![fix(0, 0, 0), fix(1, 0, 0), fix(top, 0, 0)]),
        ];
        for far in outside(self.kind) {
            let late = [fix(5, 0, 0), fix(5, 0, 0), fix(9, far, 0)];
            let alone = [vec![fix(0, far, 0)], vec![fix(0, 0, far)], late.to_vec()];
            trails.extend(alone.map(|fixes| (7, fixes)));
        }
        for (number, fixes) in trails {
            self.edge(fixes, NEVER, number);
        }
        let top = self.kind.top;
        for (number, mark) in [(0, 0), (0, top), (6, top + 1), (6, 65_534), (0, NEVER)] {
            self.edge(vec![fix(1, 2, 3)], mark, number);
        }
    }

    /// Silence bytes that can be and can't, also beside the faults of checks before and after 20.
    fn silences(&mut self) {
        if !self.kind.silences {
            return;
        }
        let two = |a, b| vec![Fix::from((5, 0, 0, a)), Fix::from((6, 0, 0, b))];
        let mut late = two(1, 1);
        late[1].t = 65_541;
        for (number, fixes) in [
            (0, two(0, 0)),
            (0, two(1, 0)),
            (20, two(0, 1)),
            (20, two(1, 1)),
            (20, two(2, 0)),
            (20, two(255, 0)),
            (20, two(0, 128)),
            (20, vec![Fix::from((5, 0, 0, 1))]),
            (20, vec![Fix::from((5, 0, 0, 2))]),
            (9, late),
        ] {
            self.edge(fixes, NEVER, number);
        }
    }

    fn edge(&mut self, fixes: Vec<Fix>, mark: u16, known: u8) {
        let name = format!("{fixes:?}, mark {mark}");
        let kind = self.kind;
        let bytes = Trail { kind, mark, fixes }.bytes();
        self.add(name, bytes, Some(known));
    }

    /// Every fault, and every two at once: the earlier one's number is the answer.
    fn pairs(&mut self) {
        let all = faults(self.kind);
        for n in [2, 3, 20] {
            for (k, &first) in all.iter().enumerate() {
                for &second in &all[k..] {
                    let mut faults = vec![second, first];
                    faults.dedup();
                    self.faults(n, &faults);
                }
            }
        }
    }

    /// A record of n fixes with these faults, the latest check's first.
    fn faults(&mut self, n: usize, faults: &[u8]) {
        let mut draft = self.accepted(n);
        for &fault in faults {
            draft.spoil(fault, &mut self.random);
        }
        let name = format!("{n} fixes with faults {faults:?}");
        let known = faults.last().copied().unwrap_or(0);
        self.add(name, draft.bytes(), Some(known));
    }

    /// Every number of lent bytes from none to past the record's end.
    fn lengths(&mut self) {
        for n in 1..=4 {
            let mut bytes = self.accepted(n).bytes();
            bytes.extend([0xAB; 13]);
            for lent in 0..=bytes.len() {
                let known = match lent {
                    0..=9 => 1,
                    _ if lent < self.kind.record_length(n) => 5,
                    _ => 0,
                };
                let name = format!("the first {lent} bytes of a record of {n} fixes");
                self.add(name, bytes[..lent].to_vec(), Some(known));
            }
        }
    }

    /// Records that say they are of another kind. A record has another length in each, so if that stays it is wrong.
    fn other_kind(&mut self) {
        for n in 1..=30 {
            let mut draft = self.accepted(n);
            let before = draft.head.length;
            draft.claim_another_kind(&mut self.random);
            let known = (draft.head.length == before).then_some(4);
            let name = format!("{n} fixes that say they are of another kind");
            self.add(name, draft.bytes(), known);
        }
    }

    /// Every single bit of a small record turned over: each field is damaged in every way that one bit can.
    fn bits(&mut self) {
        let bytes = self.accepted(3).bytes();
        for bit in 0..8 * bytes.len() {
            let mut turned = bytes.clone();
            turned[bit / 8] ^= 1 << (bit % 8);
            self.add(format!("bit {bit} turned over"), turned, None);
        }
    }

    /// Random bytes, and a head that fits before random fixes.
    fn noise(&mut self) {
        for k in 0..self.share() {
            let size = self.random.between(0, 60) as usize;
            let bytes = self.random.bytes(size);
            self.add(format!("random bytes {k}"), bytes, None);
            let n = self.random.between(1, 6) as usize;
            let draft = Draft::noise(self.kind, &mut self.random, n, size);
            self.add(format!("random fixes {k}"), draft.bytes(), None);
        }
    }

    /// Records of random size with random faults, or none.
    fn mixed(&mut self) {
        for _ in 0..self.share() {
            let n = self.random.between(2, 40) as usize;
            let most = self.random.between(0, 3);
            let faults = some_faults(&faults(self.kind), most, &mut self.random);
            self.faults(n, &faults);
        }
    }
}

/// How often records of each kind were given each refusal, 0 for none, so that a test can say that all were reached.
#[derive(Default)]
pub struct Tally(BTreeMap<(u16, u32), usize>);

impl Tally {
    pub fn count(&mut self, kind: Kind, refusal: u32) {
        *self.0.entry((kind.code, refusal)).or_default() += 1;
    }

    /// Prints the counts and fails if one of these refusals, or none at all, was never given to a kind that can have
    /// it.
    pub fn expect(&self, what: &str, refusals: &[u32]) {
        for kind in KINDS {
            let all = [&[0], refusals].concat();
            for refusal in all.into_iter().filter(|&refusal| kind.can_fail(refusal)) {
                let many = self.0.get(&(kind.code, refusal)).copied().unwrap_or(0);
                println!("{what}, {kind}: refusal {refusal} given {many} times");
                assert!(many > 0, "{what}, {kind}: refusal {refusal} never given");
            }
        }
    }
}
