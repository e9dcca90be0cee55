//! The most that a sporadic thread takes at its upper priority (G1), on the code alone. Over random
//! sequences of events, with preemption, blocks and wakes, the ticks that a thread runs at its upper
//! priority while nobody sets it are at most what the function answers, in each window of them: from
//! each tick on and of each length. And there are sequences that reach it.
//!
//! The ticks are seen from outside: time goes on by clock readings, none of them past a moment, and
//! before each the answer says who runs, and the state whether it has its upper priority.

use crate::case::Case;
use crate::coverage::{row, Group};
use crate::most::same;
use crate::told::lent;
use differential as board;
use model::random::Random;
use model::{
    status, Counts, Event, Parameters, BLOCK, CLOCK, FIFO, MAX_STEP, NOBODY, PENDING, RR, SET,
};
use model::{SPORADIC, THREADS, WAKE, YIELD};

/// What a record begins with.
#[derive(Clone, Copy, Debug)]
enum From {
    Opening,
    MadeUp,
    Set,
    /// The middle of a history: the record before it became long.
    Middle,
}

/// How a thread stands before a tick.
const STANDINGS: usize = 6;
const PENDS: usize = 0;
const CHARGED: usize = 1;
const LOW: usize = 2;
const ASLEEP: usize = 3;
const PREEMPTED: usize = 4;
const RUNS: usize = 5;

#[derive(Clone, Copy)]
struct Tick {
    /// Run at its upper priority.
    taken: bool,
    stands: [bool; STANDINGS],
}

/// What happens between two ticks.
const HAPPENINGS: usize = 9;
#[derive(Clone, Copy)]
enum Happening {
    Block,
    Wake,
    Yield,
    Limit,
    Due,
    AtOnce,
    RefusedSet,
    OtherSet,
}
/// The last place is for preemption, which lasts for ticks.
const KEPT: usize = HAPPENINGS - 1;

/// What is seen of a sporadic thread while nobody sets it.
struct Record {
    from: From,
    parameters: Parameters,
    ticks: Vec<Tick>,
    /// Each with the number of ticks before it.
    happened: Vec<(usize, Happening)>,
}

/// A record of so many ticks ends, and another begins.
const LONG: usize = 160;

impl Record {
    fn new(from: From, p: Parameters) -> Option<Record> {
        (p.policy == SPORADIC).then_some(Record {
            from,
            parameters: p,
            ticks: Vec::new(),
            happened: Vec::new(),
        })
    }

    fn happens(&mut self, what: Happening) {
        self.happened.push((self.ticks.len(), what));
    }

    /// No window takes more than the function answers for its length.
    fn judge(&self, case: &Case, seen: &mut Seen) {
        let p = &self.parameters;
        let mut sums = vec![0];
        for tick in &self.ticks {
            sums.push(sums[sums.len() - 1] + tick.taken as u64);
        }
        for length in 0..=self.ticks.len() {
            // the code's answer, which is the model's
            let bound = same(case, p, length as u64).unwrap_or_else(|status| {
                case.differ("a thread's parameters", format!("{status} {p:?}"));
            });
            let (mut from, mut most) = (0, 0);
            for start in 0..=self.ticks.len() - length {
                let taken = sums[start + length] - sums[start];
                if taken > most {
                    (from, most) = (start, taken);
                }
            }
            if most > bound {
                let drawn = self.drawn();
                let detail =
                    format!("{most} of {length} ticks, {bound} allowed, from tick {from} on");
                let of = format!("of those since {:?}\n{p:?}\n{drawn}", self.from);
                case.differ("the ticks taken at the upper priority", detail + "\n" + &of);
            }
            seen.window(self, from, length, most, bound);
        }
    }

    /// The record as a line: a tick taken, at low, asleep, another.
    fn drawn(&self) -> String {
        let tick = |t: &Tick| match t.stands {
            _ if t.taken => '#',
            stands if stands[LOW] => '_',
            stands if stands[ASLEEP] => 'z',
            _ => '.',
        };
        self.ticks.iter().map(tick).collect()
    }
}

// -------------------------------------------------------------------- a sequence

struct Sequence<'a> {
    case: &'a Case,
    state: board::State,
    /// Who runs, 255 for none, and the next moment, 0 for none.
    runs: u8,
    next: u64,
    /// Whether every tick is read, or only moments.
    each: bool,
    records: [Option<Record>; THREADS],
    seen: &'a mut Seen,
}

impl Sequence<'_> {
    fn differ(&self, why: &str, detail: String) -> ! {
        let state = model::State::from(&self.state);
        self.case.differ(
            "a sequence of windows",
            format!("{why}\n{detail}\n{state:?}"),
        )
    }

    fn now(&self) -> u64 {
        self.state.core.now
    }

    /// 01 State 9: whether a sporadic thread's assigned priority is its upper one.
    fn upper(&self, i: usize) -> bool {
        let t = &self.state.core.threads[i];
        t.server.capacity > 0 && self.state.core.counts[i] < t.parameters.max_repl
    }

    /// The next ticks, up to a moment at most: one like the other.
    fn watch(&mut self, ticks: u64) {
        for i in 0..THREADS {
            if self.records[i].is_none() {
                continue;
            }
            let t = &self.state.core.threads[i];
            let (runs, upper, asleep) = (self.runs as usize == i, self.upper(i), t.blocked != 0);
            let mut stands = [false; STANDINGS];
            stands[PENDS] = self.state.core.counts[i] > 0;
            stands[CHARGED] = t.server.used > 0;
            stands[LOW] = !asleep && !upper;
            stands[ASLEEP] = asleep;
            stands[PREEMPTED] = !asleep && upper && !runs;
            stands[RUNS] = runs && upper;
            let tick = Tick {
                taken: runs && upper,
                stands,
            };
            let record = self.records[i].as_mut().expect("a record");
            record.ticks.extend((0..ticks).map(|_| tick));
        }
    }

    /// Goes on to a time that no moment lies before.
    fn read(&mut self, to: u64) {
        let ticks = to - self.now();
        let ran = |s: &board::State, i: u8| match i {
            NOBODY => s.core.idle,
            _ => s.core.threads[i as usize].total,
        };
        let (runs, before) = (self.runs, ran(&self.state, self.runs));
        self.watch(ticks);
        self.call(&reading(to));
        if ran(&self.state, runs) != before + ticks {
            self.differ(
                "another thread ran than was said",
                format!("{runs} up to {to}"),
            );
        }
    }

    /// One event that has to be accepted, at most one moment after the last.
    fn call(&mut self, e: &Event) {
        let (before, ran) = (self.state, self.runs as usize);
        let mut told = lent(e);
        let reply = board::event(&mut self.state, &mut told, (*e).into());
        if reply.status != status::ACCEPTED {
            self.differ(
                "an accepted event is refused",
                format!("{reply:?} to {e:?}"),
            );
        }
        (self.runs, self.next) = (reply.running, reply.next);
        let told = board::counts_of(&told);
        for i in 0..THREADS {
            let set = e.kind == SET && e.thread as usize == i;
            if set {
                self.end(i, From::Set);
            } else if let Some(record) = &mut self.records[i] {
                let due = (0..before.core.counts[i] as usize)
                    .filter(|k| before.dues[i * PENDING + k] == e.time)
                    .count() as u64;
                happened(record, e, i, ran, due, &told[i]);
                if record.ticks.len() >= LONG {
                    self.end(i, From::Middle);
                }
            }
        }
    }

    /// Ends a record, and begins another where the thread is sporadic.
    fn end(&mut self, i: usize, from: From) {
        if let Some(record) = self.records[i].take() {
            record.judge(self.case, self.seen);
        }
        let p = self.state.core.threads[i].parameters;
        self.records[i] = Record::new(from, p.into());
    }

    /// Gives an event. An accepted one is first given alone, to a copy; then clock readings go to
    /// its time, and they and it do what it did alone.
    fn give(&mut self, e: &Event) {
        let mut alone = self.state;
        let reply = board::event(&mut alone, &mut lent(e), (*e).into());
        if reply.status != status::ACCEPTED {
            self.seen.refused += 1;
            if e.kind == SET {
                let record = self.records.get_mut(e.thread as usize);
                if let Some(record) = record.and_then(Option::as_mut) {
                    record.happens(Happening::RefusedSet);
                }
            }
            if alone != self.state {
                self.differ("a refused event changes the state", format!("{e:?}"));
            }
            return;
        }
        self.seen.accepted += 1;
        while self.now() < e.time {
            let to = match self.next {
                _ if self.each => self.now() + 1,
                0 => e.time,
                next => next.min(e.time),
            };
            self.read(to);
        }
        self.call(e);
        if self.state != alone {
            self.differ("another state with clock readings", format!("{e:?}"));
        }
    }
}

/// What an accepted event that doesn't set a thread does to it.
fn happened(record: &mut Record, e: &Event, i: usize, ran: usize, due: u64, told: &Counts) {
    let own = match e.kind {
        BLOCK if ran == i => Some(Happening::Block),
        YIELD if ran == i => Some(Happening::Yield),
        WAKE if e.thread as usize == i => Some(Happening::Wake),
        SET => Some(Happening::OtherSet),
        _ => None,
    };
    let limit = (told.limits > 0).then_some(Happening::Limit);
    let back = (due > 0).then_some(Happening::Due);
    let at_once = (told.replenishments > due).then_some(Happening::AtOnce);
    for what in [own, limit, back, at_once].into_iter().flatten() {
        record.happens(what);
    }
}

fn reading(time: u64) -> Event {
    Event {
        time,
        ..Event::default()
    }
}

// ------------------------------------------------------------------- generation

/// A worker with a small budget and a small period.
fn worker(r: &mut Random) -> Parameters {
    let budget = r.between(1, 5);
    let low = r.pick(&[1, 2, 6]);
    Parameters {
        policy: SPORADIC,
        priority: r.between(low + 1, 10) as u8,
        low: low as u8,
        max_repl: r.pick(&[1, 1, 2, 2, 3, 8]) as u8,
        flag: 0,
        budget,
        period: r.between(budget, 12),
    }
}

/// Threads above and below a worker, of which one is another worker now and then.
fn other(r: &mut Random) -> Parameters {
    let mut p = worker(r);
    let priority = r.pick(&[1, 3, 7, 20, 20, 32]) as u8;
    match r.below(6) {
        0 => p.priority = p.priority.max(priority),
        1 | 2 => {
            p = Parameters {
                policy: RR,
                priority,
                budget: r.between(1, 6),
                ..Parameters::default()
            }
        }
        _ => {
            p = Parameters {
                policy: FIFO,
                priority,
                ..Parameters::default()
            }
        }
    }
    p
}

/// A state to begin with, and what it is.
fn begun(case: &Case, r: &mut Random) -> (board::State, From) {
    if r.one_in(8) {
        return (board::State::from(&r.sound_state()), From::MadeUp);
    }
    let n = r.between(2, 5) as usize;
    let mut table = [Parameters::default(); THREADS];
    table[..n].fill_with(|| other(r));
    table[r.below(n as u64) as usize] = worker(r);
    for p in &mut table[..n] {
        p.flag = r.below(2) as u32;
    }
    let opened = board::open(r.start(), n as u32, board::table_of(&table));
    if opened.status != status::ACCEPTED {
        case.differ("an opening", format!("{} of {table:?}", opened.status));
    }
    (opened.state, From::Opening)
}

/// No event is further away.
const FAR: u64 = 30;

impl Sequence<'_> {
    /// A worker to look at, if there is one.
    fn watched(&self, r: &mut Random) -> Option<usize> {
        let first = r.below(THREADS as u64) as usize;
        (first..THREADS)
            .chain(0..first)
            .find(|i| self.records[*i].is_some())
    }

    /// A blocked thread, if there is one, with a priority from `least` on.
    fn sleeper(&self, r: &mut Random, least: u8) -> Option<usize> {
        let n = self.state.core.header.n as usize;
        let first = r.below(n as u64) as usize;
        let asleep = |i: &usize| {
            let t = &self.state.core.threads[*i];
            t.blocked != 0 && t.parameters.priority >= least
        };
        (first..n).chain(0..first).find(asleep)
    }

    /// An event of any kind, at a time at which something happens for the most part.
    fn any(&self, r: &mut Random, watched: usize) -> Event {
        let now = self.now();
        let t = &self.state.core.threads[watched];
        let back = t.server.activation + t.parameters.period;
        let (short, near) = (now + r.between(1, 3), now + r.between(1, 12));
        let times = [
            now,
            short,
            short,
            near,
            self.next,
            back,
            back.saturating_sub(t.server.capacity),
        ];
        let mut e = reading(r.pick(&times));
        e.kind = r.pick(&[0, 1, 1, 2, 3, 3, 3]) as u8;
        if e.kind == WAKE {
            match self.sleeper(r, 0) {
                Some(i) => e.thread = i as u8,
                None => e.kind = r.pick(&[CLOCK as u64, BLOCK as u64]) as u8,
            }
        }
        if r.one_in(20) {
            self.set(r, watched, &mut e);
        }
        if r.one_in(40) {
            e.time = r.pick(&[now.wrapping_sub(1), now + MAX_STEP + 1]);
        }
        e
    }

    /// A set: of the worker, refused for the most part, or of any thread.
    fn set(&self, r: &mut Random, watched: usize, e: &mut Event) {
        e.kind = SET;
        e.thread = watched as u8;
        e.parameters = worker(r);
        match r.below(4) {
            0 => e.parameters.budget = e.parameters.period + 1,
            1 => e.parameters.max_repl = 0,
            2 => {
                e.thread = r.below(self.state.core.header.n as u64) as u8;
                e.parameters = other(r);
            }
            _ if r.one_in(2) => e.parameters.flag = 1,
            _ => {}
        }
    }

    /// Keeps the worker from running under an old activation time: a thread above it wakes where the
    /// worker becomes active, and blocks where just as many ticks as the capacity are left until what
    /// they charge comes back at once.
    fn keep(&self, r: &mut Random, watched: usize) -> Option<Event> {
        let now = self.now();
        let t = &self.state.core.threads[watched];
        let (p, account) = (t.parameters, t.server);
        let back = account.activation + p.period;
        if t.blocked != 0 {
            return Some(Event {
                kind: WAKE,
                thread: watched as u8,
                ..reading(now)
            });
        }
        if !self.upper(watched) || self.runs == NOBODY {
            return (self.next > now).then(|| reading(self.next));
        }
        let runs = self.runs as usize;
        if runs != watched {
            let end = back.saturating_sub(account.capacity).max(now);
            return Some(Event {
                kind: BLOCK,
                ..reading(end + r.pick(&[0, 0, 0, 0, 1]))
            });
        }
        if account.activation == now && account.used == 0 && back > now + account.capacity {
            let above = self.sleeper(r, p.priority + 1)?;
            return Some(Event {
                kind: WAKE,
                thread: above as u8,
                ..reading(now)
            });
        }
        (self.next > now).then(|| reading(self.next))
    }
}

/// A sequence of events from some state on.
pub fn sequence(case: &Case, r: &mut Random, seen: &mut Seen) {
    let (state, from) = begun(case, r);
    let mut all = Sequence {
        case,
        state,
        runs: NOBODY,
        next: 0,
        each: r.one_in(4),
        records: [const { None }; THREADS],
        seen,
    };
    for (record, t) in all.records.iter_mut().zip(&state.core.threads) {
        *record = Record::new(from, t.parameters.into());
    }
    all.call(&reading(state.core.now));
    let noise = r.pick(&[1, 1, 5, 20]);
    for _ in 0..r.pick(&[20, 40, 80]) {
        let Some(watched) = all.watched(r) else {
            break;
        };
        let kept = match r.one_in(noise) {
            true => None,
            false => all.keep(r, watched),
        };
        let mut e = kept.unwrap_or_else(|| all.any(r, watched));
        if e.time > all.now() && e.time - all.now() <= MAX_STEP {
            e.time = e.time.min(all.now() + FAR);
        }
        all.give(&e);
    }
    for i in 0..THREADS {
        if let Some(record) = all.records[i].take() {
            record.judge(case, all.seen);
        }
    }
}

// ---------------------------------------------------------------------- coverage

/// Budgets and stretches are told apart up to these.
const BUDGETS: usize = 5;
const STRETCHES: usize = 4;

/// Of each record and length, the first window that takes most. Where budget and period are equal a
/// thread may run all the time, and its windows are not counted here.
#[derive(Default)]
pub struct Seen {
    accepted: u64,
    refused: u64,
    records: [u64; 4],
    windows: [u64; STRETCHES],
    /// Two budgets within a period; by budget.
    within_period: [u64; BUDGETS],
    /// Two budgets in a stretch, which is the bound.
    reached: [u64; BUDGETS],
    /// More than that in one tick more.
    past: [u64; BUDGETS],
    /// The bound in so many whole stretches.
    several: [u64; STRETCHES],
    reached_from: [u64; 4],
    /// How windows of a stretch begin and what happens in them: of those that take anything, and of
    /// those that reach the bound.
    begun: [[u64; STANDINGS]; 2],
    happened: [[u64; HAPPENINGS]; 2],
}

impl Seen {
    fn window(&mut self, record: &Record, start: usize, length: usize, taken: u64, bound: u64) {
        let Parameters { budget, period, .. } = record.parameters;
        let (ticks, stretch) = (length as u64, period + budget);
        self.records[record.from as usize] += (length == 0) as u64;
        if length == 0 || budget == period {
            return;
        }
        let begun = (ticks.div_ceil(stretch) as usize).min(STRETCHES) - 1;
        let by = (budget as usize).min(BUDGETS) - 1;
        let reached = taken == bound;
        self.windows[begun] += 1;
        self.within_period[by] += (ticks <= period && taken == 2 * budget) as u64;
        self.past[by] += (ticks == stretch + 1 && taken > 2 * budget) as u64;
        self.several[begun] += (ticks % stretch == 0 && reached) as u64;
        if ticks == stretch && taken > 0 {
            self.stretch(record, start, length, 0);
        }
        if ticks == stretch && reached {
            self.reached[by] += 1;
            self.reached_from[record.from as usize] += 1;
            self.stretch(record, start, length, 1);
        }
    }

    fn stretch(&mut self, record: &Record, start: usize, length: usize, sort: usize) {
        let ticks = &record.ticks[start..][..length];
        for (count, here) in self.begun[sort].iter_mut().zip(ticks[0].stands) {
            *count += here as u64;
        }
        let mut happened = [false; HAPPENINGS];
        for (at, what) in &record.happened {
            happened[*what as usize] |= start < *at && *at < start + length;
        }
        happened[KEPT] = ticks.iter().any(|tick| tick.stands[PREEMPTED]);
        for (count, here) in self.happened[sort].iter_mut().zip(happened) {
            *count += here as u64;
        }
    }

    pub fn print(&self) {
        let sum = |counts: &[u64]| counts.iter().sum::<u64>();
        let (accepted, refused) = (self.accepted, self.refused);
        let (windows, period) = (sum(&self.windows), sum(&self.within_period));
        println!("events in windows: {accepted} accepted, {refused} refused");
        println!(
            "windows: {windows}; two budgets within a period {period}; the bound in whole stretches, by their number {:?}",
            self.several
        );
    }

    pub fn group(&self) -> Group {
        let [taking, reaching] = &self.begun;
        // none of these was found to begin at low or blocked
        let reaching = [PENDS, CHARGED, PREEMPTED, RUNS].map(|k| reaching[k]);
        Group {
            sorts: &["most"],
            rows: vec![
                row(
                    "watched from an opening, a made-up state, a set, the middle of a history",
                    &self.records,
                ),
                row(
                    "windows of one, two, three, more begun stretches",
                    &self.windows,
                ),
                row(
                    "two budgets taken within a period, by budget 1 to 5",
                    &self.within_period,
                ),
                row(
                    "the bound reached in a stretch, by budget 1 to 5",
                    &self.reached,
                ),
                row(
                    "more than that in a stretch and a tick, by budget 1 to 5",
                    &self.past,
                ),
                row("the bound reached in two stretches", [&self.several[1]]),
                row(
                    "the bound reached from an opening, a made-up state, a set, the middle",
                    &self.reached_from,
                ),
                row(
                    "windows begun with entries pending, U, at low, blocked, preempted, running",
                    taking,
                ),
                row(
                    "the bound reached, begun with entries pending, U, preempted, running",
                    &reaching,
                ),
                row(
                    "windows, and those at the bound, with block, wake, yield, limit, due, at once, sets, preemption",
                    self.happened.as_flattened(),
                ),
            ],
        }
    }
}
