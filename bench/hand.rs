//! The guard of document 01 by hand in Rust, with the shuffled fragments of document 02, its ranges without an upper end, its sheet writer and its player: the same tables and masks as bench/hand.c.
//! Words in quotes are document 01's.

use std::mem::MaybeUninit;

const NAMES: usize = 64;
const RULES: usize = 16;
const FRAGMENTS: usize = 16;
const RANGES: usize = 8;

// ---- the book

#[derive(Clone, Copy, PartialEq, Eq)]
enum Kind {
    Once,
    Repeated,
    Timed,
}

#[derive(Clone, Copy)]
struct Join {
    any: bool,
    shuffled: bool,
}

impl Join {
    const ALL: Join = Join { any: false, shuffled: false };

    fn from_number(n: u8) -> Join {
        Join { any: n & 1 == 1, shuffled: n & 2 == 2 }
    }

    fn number(self) -> u8 {
        u8::from(self.any) | u8::from(self.shuffled) << 1
    }
}

/// A set of names, one bit a name.
#[derive(Clone, Copy)]
struct Names(u64);

impl Names {
    fn has(self, name: u8) -> bool {
        self.0 >> name & 1 == 1
    }

    fn add(&mut self, name: u8) {
        self.0 |= 1 << name;
    }
}

#[derive(Clone, Copy)]
struct Range {
    name: u8,
    u: u16,
    /// 0: no upper end.
    v: u16,
}

#[derive(Clone, Copy)]
struct Fragment {
    names: Names,
    join: Join,
    count: u8,
    ranges: [Range; RANGES],
}

impl Fragment {
    const EMPTY: Fragment = Fragment { names: Names(0), join: Join::ALL, count: 0, ranges: [Range { name: 0, u: 1, v: 1 }; RANGES] };

    fn push(&mut self, range: Range) {
        self.ranges[usize::from(self.count)] = range;
        self.count += 1;
        self.names.add(range.name);
    }

    fn ranges(&self) -> &[Range] {
        &self.ranges[..usize::from(self.count)]
    }
}

#[derive(Clone, Copy)]
struct Rule {
    kind: Kind,
    /// Fragments in P.
    in_p: u8,
    /// Fragments in P and Q. "A trigger counts as a last fragment of one range [1,1]."
    in_round: u8,
    limit: u32,
    fragments: [Fragment; FRAGMENTS],
}

impl Rule {
    /// Those of the sheet: a trigger's fragment is not there.
    fn fragments(&self) -> &[Fragment] {
        &self.fragments[..usize::from(if self.kind == Kind::Timed { self.in_round } else { self.in_p })]
    }

    const EMPTY: Rule = Rule { kind: Kind::Once, in_p: 0, in_round: 0, limit: 0, fragments: [Fragment::EMPTY; FRAGMENTS] };
}

pub struct Book {
    count: u8,
    rules: [Rule; RULES],
    /// Bit r: rule r has this name.
    holders: [u16; NAMES],
    /// The sheet's version and outputs, which writing gives back.
    version: u16,
    outputs: Names,
}

// ---- the sheet

struct Fault {
    number: u8,
    place: usize,
}

/// A sheet, read field by field; the first faulty field decides.
struct Reader<'a> {
    sheet: &'a [u8],
    at: usize,
    outputs: Names,
    /// The names of the rule so far.
    used: Names,
    version: u16,
    last_join: u64,
    /// A range may have no upper end.
    endless: bool,
}

impl Reader<'_> {
    /// A field of `n` bytes; `fault` gives the refusal that its value is due, or 0.
    fn field(&mut self, n: usize, fault: impl FnOnce(u64) -> u8) -> Result<u64, Fault> {
        let place = self.at;
        let bytes = self.sheet.get(place..place + n).ok_or(Fault { number: 1, place })?;
        let value = bytes.iter().rev().fold(0, |x, &b| x << 8 | u64::from(b));
        match fault(value) {
            0 => {
                self.at += n;
                Ok(value)
            }
            number => Err(Fault { number, place }),
        }
    }

    fn exactly(&mut self, n: usize, due: u64, fault: u8) -> Result<u64, Fault> {
        self.field(n, |x| if x == due { 0 } else { fault })
    }

    /// A count, a kind or a join.
    fn between(&mut self, first: u64, last: u64) -> Result<u8, Fault> {
        let value = self.field(1, |x| if (first..=last).contains(&x) { 0 } else { 4 })?;
        Ok(value as u8)
    }

    /// A u or a v. A v may be 0, which is no upper end, where the version has that.
    fn bound(&mut self, least: u16, or_none: bool) -> Result<u16, Fault> {
        let value = self.field(2, |x| if x < u64::from(least) && !(or_none && x == 0) { 7 } else { 0 })?;
        Ok(value as u16)
    }

    /// A trigger or a range's name: by document 02 "At a range name the order becomes 1, 6, 9, 8". At a trigger the rule has no name yet, so that 8 is not met.
    fn name(&mut self, wrong_way: Names) -> Result<u8, Fault> {
        let used = self.used;
        let name = self.field(1, |x| match x as u8 {
            64.. => 6,
            n if wrong_way.has(n) => 9,
            n if used.has(n) => 8,
            _ => 0,
        })? as u8;
        self.used.add(name);
        Ok(name)
    }

    /// The version says which joins there are: 0 and 1, and from version 2 on the shuffled ones; and from version 2 on a range may have no upper end.
    fn version(&mut self) -> Result<(), Fault> {
        let version = self.field(2, |x| if x == 1 || x == 2 { 0 } else { 3 })?;
        self.version = version as u16;
        self.last_join = if version == 1 { 1 } else { 3 };
        self.endless = version > 1;
        Ok(())
    }

    fn fragment(&mut self, of_q: bool) -> Result<Fragment, Fault> {
        let wrong_way = if of_q { Names(!self.outputs.0) } else { Names(0) };
        let join = Join::from_number(self.between(0, self.last_join)?);
        let mut fragment = Fragment { join, ..Fragment::EMPTY };
        for _ in 0..self.between(1, 8)? {
            let name = self.name(wrong_way)?;
            let u = self.bound(1, false)?;
            let v = self.bound(u, self.endless)?;
            fragment.push(Range { name, u, v });
        }
        Ok(fragment)
    }

    /// What follows the count of fragments in P, up to the rule's first fragment.
    fn heading(&mut self, rule: &mut Rule) -> Result<(), Fault> {
        if rule.kind == Kind::Timed {
            rule.in_round = rule.in_p + self.between(1, 8)?;
            self.exactly(1, 0, 5)?;
            rule.limit = self.field(4, |_| 0)? as u32;
        } else {
            self.exactly(1, 0, 5)?;
            let name = self.name(self.outputs)?;
            self.exactly(4, 0, 5)?;
            rule.in_round = rule.in_p + 1;
            rule.fragments[usize::from(rule.in_p)].push(Range { name, u: 1, v: 1 });
        }
        Ok(())
    }

    fn rule(&mut self) -> Result<Rule, Fault> {
        self.used = Names(0);
        let kind = [Kind::Once, Kind::Repeated, Kind::Timed][usize::from(self.between(0, 2)?)];
        let mut rule = Rule { kind, in_p: self.between(1, 8)?, ..Rule::EMPTY };
        self.heading(&mut rule)?;
        let in_sheet = if kind == Kind::Timed { rule.in_round } else { rule.in_p };
        for f in 0..in_sheet {
            rule.fragments[usize::from(f)] = self.fragment(f >= rule.in_p)?;
        }
        Ok(rule)
    }

    fn book(&mut self) -> Result<Book, Fault> {
        self.exactly(3, 0x424F4C, 2)?;
        self.version()?;
        self.outputs = Names(self.field(8, |_| 0)?);
        let (version, outputs) = (self.version, self.outputs);
        let mut book = Book { count: self.between(1, 16)?, rules: [Rule::EMPTY; RULES], holders: [0; NAMES], version, outputs };
        for r in 0..usize::from(book.count) {
            book.rules[r] = self.rule()?;
            for name in 0..NAMES as u8 {
                book.holders[usize::from(name)] |= u16::from(self.used.has(name)) << r;
            }
        }
        if self.at < self.sheet.len() {
            return Err(Fault { number: 10, place: self.at });
        }
        Ok(book)
    }
}

fn read(sheet: &[u8]) -> Result<Book, Fault> {
    Reader { sheet, at: 0, outputs: Names(0), used: Names(0), version: 0, last_join: 0, endless: false }.book()
}

// ---- the recogniser of a range

#[derive(Clone, Copy, PartialEq, Eq)]
enum State {
    Idle,
    NotBegun,
    Waiting,
    Counting,
    Done,
    Error,
}

/// The table's columns "own", "sibling" and "next".
impl State {
    fn after_own(self, count: u16, v: u16) -> State {
        match self {
            State::NotBegun | State::Waiting => State::Counting,
            State::Counting if v == 0 || count < v => State::Counting,
            _ => State::Error,
        }
    }

    fn after_sibling(self, count: u16, u: u16, join: Join) -> State {
        match self {
            State::NotBegun | State::Waiting => State::Waiting,
            State::Counting if join.shuffled => State::Counting,
            State::Counting if count >= u => State::Done,
            State::Done => State::Done,
            _ => State::Error,
        }
    }

    /// Whether the range goes idle at *next*, and not to error.
    fn closes(self, count: u16, u: u16, join: Join) -> bool {
        match self {
            State::Waiting => join.any,
            State::Counting => count >= u,
            State::Done => true,
            _ => false,
        }
    }
}

// ---- one rule

/// "The monitor's state holds, for each rule, its fragment number, eight recogniser states, one count and the end time of P"; by document 02 "eight counts for a
/// fragment where it kept one".
#[derive(Clone, Copy)]
struct RuleState {
    fragment: u8,
    states: [State; RANGES],
    /// 0 of a range that has not begun; 65,535 and more are the same, and no bound is above that.
    counts: [u16; RANGES],
    end: u32,
}

/// Due is open with a deadline that runs: the rule's next event would have to be of Q and in time.
#[derive(Clone, Copy, PartialEq, Eq)]
enum Standing {
    Whole,
    Open,
    Due,
    Broken,
}

impl RuleState {
    fn fresh(rule: &Rule) -> RuleState {
        let mut states = [State::Idle; RANGES];
        states[..rule.fragments[0].ranges().len()].fill(State::NotBegun);
        RuleState { fragment: 0, states, counts: [0; RANGES], end: 0 }
    }

    /// The fragment's ranges, each with its state and its count.
    fn slots<'a>(&'a self, fragment: &'a Fragment) -> impl Iterator<Item = (&'a Range, State, u16)> {
        fragment.ranges().iter().zip(&self.states).zip(&self.counts).map(|((range, &state), &count)| (range, state, count))
    }

    /// An event on a name of the fragment; false at a range's error.
    fn moves(&mut self, fragment: &Fragment, name: u8) -> bool {
        for ((range, state), count) in fragment.ranges().iter().zip(&mut self.states).zip(&mut self.counts) {
            if range.name == name {
                *state = state.after_own(*count, range.v);
                *count = count.saturating_add(1);
            } else {
                *state = state.after_sibling(*count, range.u, fragment.join);
            }
            if *state == State::Error {
                return false;
            }
        }
        true
    }

    /// The first event of a fragment.
    fn begin(&mut self, fragment: &Fragment, name: u8) {
        for ((range, state), count) in fragment.ranges().iter().zip(&mut self.states).zip(&mut self.counts) {
            let own = range.name == name;
            *state = if own { State::Counting } else { State::Waiting };
            *count = u16::from(own);
        }
    }

    /// The fragment may be followed.
    fn complete(&self, fragment: &Fragment) -> bool {
        self.slots(fragment).all(|(range, state, count)| state.closes(count, range.u, fragment.join))
    }

    /// The fragment can take one more event.
    fn grows(&self, fragment: &Fragment) -> bool {
        self.slots(fragment).any(|(range, state, count)| state.after_own(count, range.v) == State::Counting)
    }

    fn late(&self, rule: &Rule, time: u32) -> bool {
        rule.kind == Kind::Timed && u64::from(time) > u64::from(self.end) + u64::from(rule.limit)
    }

    fn standing(&self, rule: &Rule, fragment: &Fragment) -> Standing {
        let next = self.fragment + 1;
        if next == rule.in_round && self.complete(fragment) {
            Standing::Whole
        } else if rule.kind != Kind::Timed || next < rule.in_p {
            Standing::Open
        } else if next > rule.in_p || self.complete(fragment) && !self.grows(fragment) {
            Standing::Due
        } else {
            Standing::Open // a longer P may come
        }
    }

    /// An event on one of the rule's names.
    fn step(&mut self, rule: &Rule, name: u8, time: u32) -> Standing {
        if rule.kind == Kind::Once && self.fragment == rule.in_p {
            return Standing::Whole; // "Kind 0 is released by its first valid trigger."
        }
        let mut fragment = &rule.fragments[usize::from(self.fragment)];
        if fragment.names.has(name) {
            if self.fragment >= rule.in_p && self.late(rule, time) || !self.moves(fragment, name) {
                return Standing::Broken;
            }
        } else {
            let next = if self.fragment + 1 == rule.in_round { 0 } else { self.fragment + 1 }; // "the first fragment follows the last"
            let following = &rule.fragments[usize::from(next)];
            if !following.names.has(name) || !self.complete(fragment) || next >= rule.in_p && self.late(rule, time) {
                return Standing::Broken;
            }
            self.fragment = next;
            self.begin(following, name);
            fragment = following;
        }
        if self.fragment < rule.in_p {
            self.end = time;
        }
        self.standing(rule, fragment)
    }
}

// ---- observing

#[derive(Clone, Copy, PartialEq, Eq)]
enum Verdict {
    Whole,
    Open,
    Broken,
}

/// A verdict, with the mask of the open rules or of those that broke.
#[derive(Clone, Copy)]
struct Answer {
    verdict: Verdict,
    mask: u16,
}

pub struct Monitor {
    rules: [RuleState; RULES],
    taken: u32,
    latest: u32,
    answer: Answer,
    /// The rules whose deadline runs.
    dues: u16,
}

impl Monitor {
    fn fresh(book: &Book) -> Monitor {
        Monitor { rules: book.rules.each_ref().map(RuleState::fresh), taken: 0, latest: 0, answer: Answer { verdict: Verdict::Whole, mask: 0 }, dues: 0 }
    }

    /// An event: the refusal, or the answer that the monitor then holds.
    fn event(&mut self, book: &Book, name: u32, time: u32) -> Result<Answer, u8> {
        if self.answer.verdict == Verdict::Broken {
            return Ok(self.answer);
        }
        let concerned = *book.holders.get(name as usize).ok_or(12)?;
        self.observe(book, concerned, name as u8, time)
    }

    fn clock(&mut self, book: &Book, time: u32) -> Result<Answer, u8> {
        if self.answer.verdict == Verdict::Broken {
            return Ok(self.answer);
        }
        self.observe(book, 0, 0, time)
    }

    fn observe(&mut self, book: &Book, concerned: u16, name: u8, time: u32) -> Result<Answer, u8> {
        if time < self.latest {
            return Err(11);
        }
        self.taken = self.taken.checked_add(1).ok_or(13)?;
        self.latest = time;
        let answer = self.pass(book, concerned, name, time);
        self.answer = answer;
        Ok(answer)
    }

    /// Only the rules that have the name or a deadline that runs are looked at; the others stay as they are.
    fn pass(&mut self, book: &Book, concerned: u16, name: u8, time: u32) -> Answer {
        let touched = concerned | self.dues;
        let (mut broken, mut open, mut dues) = (0, self.answer.mask & !touched, 0);
        let mut todo = touched;
        while todo != 0 {
            let r = todo.trailing_zeros() as usize;
            let bit = 1 << r;
            todo &= todo - 1;
            let (rule, state) = (&book.rules[r], &mut self.rules[r]);
            let standing = if concerned & bit != 0 {
                state.step(rule, name, time)
            } else if state.late(rule, time) {
                Standing::Broken
            } else {
                Standing::Due
            };
            match standing {
                Standing::Whole => {}
                Standing::Open => open |= bit,
                Standing::Due => {
                    open |= bit;
                    dues |= bit;
                }
                Standing::Broken => broken |= bit,
            }
        }
        self.dues = dues;
        match (broken, open) {
            (0, 0) => Answer { verdict: Verdict::Whole, mask: 0 },
            (0, mask) => Answer { verdict: Verdict::Open, mask },
            (mask, _) => Answer { verdict: Verdict::Broken, mask },
        }
    }

    /// "Place is k for broken", and nothing is taken after a break.
    fn place(&self, answer: Answer) -> u32 {
        if answer.verdict == Verdict::Broken {
            self.taken
        } else {
            0
        }
    }
}

// ---- running a log

struct Outcome {
    answer: u8,
    refusal: u8,
    mask: u16,
    taken: u32,
    place: u32,
}

const REFUSED: u8 = 3;

impl Outcome {
    fn turned_away(refusal: u8, place: usize) -> Outcome {
        Outcome { answer: REFUSED, refusal, mask: 0, taken: 0, place: place as u32 }
    }

    fn bytes(&self) -> [u8; 12] {
        let mut out = [0; 12];
        out[0] = self.answer;
        out[1] = self.refusal;
        out[2..4].copy_from_slice(&self.mask.to_le_bytes());
        out[4..8].copy_from_slice(&self.taken.to_le_bytes());
        out[8..].copy_from_slice(&self.place.to_le_bytes());
        out
    }
}

/// "Only a refusal or a break stops it before the budget or the log is used up."
fn play(book: &Book, log: &[u8], budget: u32) -> Outcome {
    let mut m = Monitor::fresh(book);
    for (i, record) in log.chunks_exact(5).take(budget as usize).enumerate() {
        let time = u32::from_le_bytes([record[1], record[2], record[3], record[4]]);
        let answer = match record[0] {
            0xFF => m.clock(book, time),
            name => m.event(book, u32::from(name), time),
        };
        match answer {
            Err(refusal) => return Outcome { answer: REFUSED, refusal, mask: m.answer.mask, taken: m.taken, place: 5 * i as u32 },
            Ok(answer) if answer.verdict == Verdict::Broken => break,
            Ok(_) => {}
        }
    }
    Outcome { answer: m.answer.verdict as u8, refusal: 0, mask: m.answer.mask, taken: m.taken, place: m.place(m.answer) }
}

fn run(sheet: &[u8], log: &[u8], budget: u32) -> Outcome {
    match read(sheet) {
        Err(fault) => Outcome::turned_away(fault.number, fault.place),
        Ok(_) if !log.len().is_multiple_of(5) || log.len() > u32::MAX as usize => Outcome::turned_away(14, 0),
        Ok(book) => play(&book, log, budget),
    }
}

// ---- writing a sheet back

/// A buffer that is filled from its start.
struct Writer<'a> {
    buffer: &'a mut [u8],
    at: usize,
}

impl Writer<'_> {
    fn put<const N: usize>(&mut self, bytes: [u8; N]) {
        self.buffer[self.at..self.at + N].copy_from_slice(&bytes);
        self.at += N;
    }

    fn fragment(&mut self, fragment: &Fragment) {
        self.put([fragment.join.number(), fragment.count]);
        for range in fragment.ranges() {
            self.put([range.name]);
            self.put(range.u.to_le_bytes());
            self.put(range.v.to_le_bytes());
        }
    }

    fn rule(&mut self, rule: &Rule) {
        let (in_q, trigger) = match rule.kind {
            Kind::Timed => (rule.in_round - rule.in_p, 0),
            _ => (0, rule.fragments[usize::from(rule.in_p)].ranges[0].name),
        };
        self.put([rule.kind as u8, rule.in_p, in_q, trigger]);
        self.put(rule.limit.to_le_bytes());
        rule.fragments().iter().for_each(|fragment| self.fragment(fragment));
    }
}

impl Book {
    fn rules(&self) -> &[Rule] {
        &self.rules[..usize::from(self.count)]
    }

    fn size(&self) -> usize {
        let of_rule = |rule: &Rule| 8 + rule.fragments().iter().map(|f| 2 + 5 * usize::from(f.count)).sum::<usize>();
        14 + self.rules().iter().map(of_rule).sum::<usize>()
    }

    /// The number of bytes, or the refusal 16.
    fn write(&self, buffer: &mut [u8]) -> Result<usize, u8> {
        let size = self.size();
        if buffer.len() < size {
            return Err(16);
        }
        let mut w = Writer { buffer, at: 0 };
        w.put(*b"LOB");
        w.put(self.version.to_le_bytes());
        w.put(self.outputs.0.to_le_bytes());
        w.put([self.count]);
        self.rules().iter().for_each(|rule| w.rule(rule));
        Ok(size)
    }
}

// ---- playing a round, as docs/PLAYING.md has it

/// How often each name of the fragment has come, and the range that came last.
struct Filling {
    counts: [usize; RANGES],
    last: Option<usize>,
}

impl Filling {
    fn may_come(&self, fragment: &Fragment, i: usize) -> bool {
        let Range { v, .. } = fragment.ranges[i];
        match self.last {
            _ if fragment.join.shuffled => v == 0 || self.counts[i] < usize::from(v),
            Some(last) if last == i => v == 0 || self.counts[i] < usize::from(v),
            Some(last) => self.counts[i] == 0 && self.counts[last] >= usize::from(fragment.ranges[last].u),
            None => true,
        }
    }

    /// The range that is needed, or none if the fragment may be left: a range that has begun comes first, and of the others none where some will do.
    fn needed(&self, fragment: &Fragment) -> Option<usize> {
        let mut first = None;
        for (i, (range, &count)) in fragment.ranges().iter().zip(&self.counts).enumerate() {
            if count >= usize::from(range.u) {
                continue;
            }
            if count > 0 {
                return Some(i);
            }
            first = first.or(Some(i));
        }
        first.filter(|_| !fragment.join.any || self.last.is_none())
    }

    /// One step: the range whose name comes, or none if the fragment is left.
    fn step(&self, fragment: &Fragment, byte: u8) -> Option<usize> {
        match usize::from(byte % (fragment.count + 1)) {
            k if k > 0 && self.may_come(fragment, k - 1) => Some(k - 1),
            _ => self.needed(fragment),
        }
    }
}

impl Rule {
    /// The name of each record of the round, up to where `take` refuses one: whether all were taken.
    fn round(&self, choice: &[u8], mut take: impl FnMut(u8) -> bool) -> bool {
        let mut bytes = choice.iter().copied();
        for fragment in &self.fragments[..usize::from(self.in_round)] {
            let mut filling = Filling { counts: [0; RANGES], last: None };
            while let Some(i) = filling.step(fragment, bytes.next().unwrap_or(0)) {
                if !take(fragment.ranges[i].name) {
                    return false;
                }
                filling.counts[i] += 1;
                filling.last = Some(i);
            }
        }
        true
    }
}

impl Book {
    /// The number of records, or the refusal 17 or 18.
    fn play(&self, rule: u32, time: u32, choice: &[u8], out: &mut [u8]) -> Result<usize, u8> {
        let rule = self.rules().get(rule as usize).ok_or(17)?;
        let (room, mut count) = (out.len() / 5, 0);
        if !rule.round(choice, |_| {
            count += 1;
            count <= room
        }) {
            return Err(18);
        }
        let mut records = out.chunks_exact_mut(5);
        rule.round(choice, |name| {
            let Some(record) = records.next() else { return false };
            record[0] = name;
            record[1..].copy_from_slice(&time.to_le_bytes());
            true
        });
        Ok(count)
    }
}

// ---- what C calls: answers as in bench/hand.h

fn word(answer: u8, refusal: u8, mask: u16, place: u32) -> u64 {
    u64::from(answer) | u64::from(refusal) << 8 | u64::from(mask) << 16 | u64::from(place) << 32
}

fn answered(m: &Monitor, answer: Result<Answer, u8>) -> u64 {
    match answer {
        Ok(answer) => word(answer.verdict as u8, 0, answer.mask, m.place(answer)),
        Err(refusal) => word(REFUSED, refusal, 0, 0),
    }
}

/// The C host's slice; any pointer will do for a length of 0.
unsafe fn slice<'a>(bytes: *const u8, length: usize) -> &'a [u8] {
    if length == 0 {
        return &[];
    }
    unsafe { std::slice::from_raw_parts(bytes, length) }
}

/// # Safety
/// Each pointer is valid for its length, and `out` overlaps neither of the others.
#[no_mangle]
pub unsafe extern "C" fn hand_rs_run(sheet: *const u8, sheet_length: usize, log: *const u8, log_length: usize, budget: u32, out: *mut u8, out_length: usize) -> u32 {
    if out_length < 12 {
        return 15;
    }
    let (sheet, log, out) = unsafe { (slice(sheet, sheet_length), slice(log, log_length), &mut *out.cast::<[u8; 12]>()) };
    *out = run(sheet, log, budget).bytes();
    0
}

/// # Safety
/// `sheet` is valid for its length.
#[no_mangle]
pub unsafe extern "C" fn hand_rs_open(book: &mut MaybeUninit<Book>, m: &mut MaybeUninit<Monitor>, sheet: *const u8, length: usize) -> u64 {
    match read(unsafe { slice(sheet, length) }) {
        Err(fault) => word(REFUSED, fault.number, 0, fault.place as u32),
        Ok(read) => {
            m.write(Monitor::fresh(book.write(read)));
            0
        }
    }
}

#[no_mangle]
pub extern "C" fn hand_rs_event(book: &Book, m: &mut Monitor, name: u32, time: u32) -> u64 {
    let answer = m.event(book, name, time);
    answered(m, answer)
}

#[no_mangle]
pub extern "C" fn hand_rs_clock(book: &Book, m: &mut Monitor, time: u32) -> u64 {
    let answer = m.clock(book, time);
    answered(m, answer)
}

#[no_mangle]
pub extern "C" fn hand_rs_verdict(m: &Monitor) -> u64 {
    answered(m, Ok(m.answer))
}

#[no_mangle]
pub extern "C" fn hand_rs_taken(m: &Monitor) -> u32 {
    m.taken
}

/// The same, to be written to.
unsafe fn slice_mut<'a>(bytes: *mut u8, length: usize) -> &'a mut [u8] {
    if length == 0 {
        return &mut [];
    }
    unsafe { std::slice::from_raw_parts_mut(bytes, length) }
}

/// How many bytes or records were written, or minus a refusal's number.
fn counted(written: Result<usize, u8>) -> i64 {
    match written {
        Ok(count) => count as i64,
        Err(refusal) => -i64::from(refusal),
    }
}

/// # Safety
/// The buffer is valid for its length, and apart from the book.
#[no_mangle]
pub unsafe extern "C" fn hand_rs_write(book: &Book, buffer: *mut u8, length: usize) -> i64 {
    counted(book.write(unsafe { slice_mut(buffer, length) }))
}

/// # Safety
/// Choice and output are valid for their lengths, and the output is apart from the choice and the book.
#[no_mangle]
pub unsafe extern "C" fn hand_rs_play(book: &Book, rule: u32, time: u32, choice: *const u8, choice_length: usize, out: *mut u8, out_length: usize) -> i64 {
    let (choice, out) = unsafe { (slice(choice, choice_length), slice_mut(out, out_length)) };
    counted(book.play(rule, time, choice, out))
}

// What the host lends (bench/contestants.h) is large enough.
const _: () = assert!(size_of::<Book>() <= 20480 && size_of::<Monitor>() <= 528);
