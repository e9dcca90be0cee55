//! The budget seen from the history (02 E6), on the code alone. From a sporadic thread's opening or
//! last accepted set that doesn't carry over (02 E7 8) on, the ticks run at its upper priority are
//! budget - capacity + the amounts returned, which are those told (02 E3), with the budget now in force;
//! and each of these comes back no earlier than a period, the one in force when it was scheduled, after
//! the activation time under which it was run.
//!
//! The ticks are seen from outside: time goes on by clock readings, and before each the state says
//! who heads the highest list, whether that is a sporadic thread's upper one, and since when it is
//! active. A history keeps them, by this time, until they are told to be back.

use crate::carry;
use crate::case::{cases, Case};
use crate::coverage::{row, Coverage, Group, Tally};
use crate::events::table;
use crate::told::{add, lent, same_told};
use differential as board;
use model::random::Random;
use model::{status, Counts, Event, Parameters, BLOCK, PRIORITIES, SET, SPORADIC, THREADS};

/// Ticks run at the upper priority under one activation time.
#[derive(Debug)]
struct Run {
    activation: u64,
    ticks: u64,
}

/// What a history begins with.
#[derive(Clone, Copy, Debug)]
enum From {
    Opening,
    Set,
}

/// What schedules an entry.
#[derive(Clone, Copy, Debug)]
enum Cause {
    Limit,
    Block,
}

/// All that is run from one entry on to the next comes back together.
#[derive(Debug)]
struct Entry {
    runs: Vec<Run>,
    at: u64,
    /// The parameters in force when it was scheduled.
    parameters: Parameters,
    cause: Cause,
    preempted: bool,
    /// Not the first block within a period.
    again: bool,
    /// How many sets had carried the account over.
    carried: u64,
    /// It was put before an older one.
    before: bool,
}

impl Entry {
    /// A period after the last of its runs became active.
    fn due(&self) -> u64 {
        let activation = self.runs.iter().map(|r| r.activation).max();
        activation.unwrap_or(0) + self.parameters.period
    }
}

/// What is known of a sporadic thread from an opening or a set that doesn't carry over on.
#[derive(Debug)]
struct History {
    from: From,
    /// Those now in force.
    parameters: Parameters,
    ran: u64,
    returned: u64,
    /// Run since the last entry.
    charged: Vec<Run>,
    preempted: bool,
    /// In due order, after those of equal due.
    entries: Vec<Entry>,
    last_block: Option<u64>,
    carried: u64,
    /// A set refused after some ticks: for any reason; with 15.
    refused_set: [bool; 2],
}

impl History {
    fn new(from: From, p: &Parameters) -> Option<History> {
        (p.policy == SPORADIC).then_some(History {
            from,
            parameters: *p,
            ran: 0,
            returned: 0,
            charged: Vec::new(),
            preempted: false,
            entries: Vec::new(),
            last_block: None,
            carried: 0,
            refused_set: [false; 2],
        })
    }

    fn run(&mut self, activation: u64, ticks: u64) {
        self.ran += ticks;
        match self.charged.last_mut() {
            Some(run) if run.activation == activation => run.ticks += ticks,
            _ => self.charged.push(Run { activation, ticks }),
        }
    }

    /// What was run since the last entry becomes one; nothing where nothing was run.
    fn enter(&mut self, at: u64, cause: Cause) {
        let runs = std::mem::take(&mut self.charged);
        let preempted = std::mem::take(&mut self.preempted);
        let mut again = false;
        if runs.is_empty() {
            return;
        }
        if let Cause::Block = cause {
            let within = |last| at - last < self.parameters.period;
            again = self.last_block.is_some_and(within);
            self.last_block = Some(at);
        }
        let mut entry = Entry {
            runs,
            at,
            parameters: self.parameters,
            cause,
            preempted,
            again,
            carried: self.carried,
            before: false,
        };
        let later = |other: &Entry| other.due() > entry.due();
        let place = self.entries.iter().position(later);
        entry.before = place.is_some();
        self.entries
            .insert(place.unwrap_or(self.entries.len()), entry);
    }

    /// The account is carried over: what was run and what is pending stays.
    fn carry(&mut self, p: &Parameters) {
        self.parameters = *p;
        self.carried += 1;
    }

    /// So many entries come back, with these amounts together: those that are due first, and each run
    /// under an activation time that lies its period before.
    fn give_back(&mut self, at: u64, told: &Counts, seen: &mut Seen) -> Result<(), &'static str> {
        let mut amounts = 0;
        for _ in 0..told.replenishments {
            if self.entries.is_empty() {
                return Err("more came back than was scheduled");
            }
            let entry = self.entries.remove(0);
            let period = entry.parameters.period;
            if entry.runs.iter().any(|r| r.activation + period > at) {
                return Err("an amount came back too early");
            }
            amounts += entry.runs.iter().map(|r| r.ticks).sum::<u64>();
            seen.returned(self, &entry, at, told.replenishments > 1);
        }
        self.returned += amounts;
        if amounts != told.amounts {
            return Err("the amounts told are not those that were run");
        }
        Ok(())
    }

    /// Ticks run at the upper priority = budget - capacity + amounts returned.
    fn balanced(&self, capacity: u64) -> bool {
        let budget = self.parameters.budget;
        self.ran as u128 + capacity as u128 == budget as u128 + self.returned as u128
    }
}

// ---------------------------------------------------------------- the state seen

/// The thread that runs, and the priority of its list.
fn runner(t: &board::State) -> Option<(usize, u8)> {
    let list = |level: &usize| &t.core.lists[(level - 1) * board::ROW..];
    let mut down = (1..=PRIORITIES).rev();
    let highest = down.find(|level| list(level)[0] > 0)?;
    Some((list(&highest)[1] as usize, highest as u8))
}

/// 02 E7 2: a set to sporadic of a thread already sporadic carries its account over.
fn carries(t: &board::State, e: &Event) -> bool {
    let before = &t.core.threads[e.thread as usize].parameters;
    before.policy == SPORADIC && e.parameters.policy == SPORADIC
}

/// 01 State 9: whether a sporadic thread's assigned priority is its upper one.
fn at_upper(t: &board::State, i: usize) -> bool {
    let thread = &t.core.threads[i];
    thread.server.capacity > 0 && t.core.counts[i] < thread.parameters.max_repl
}

// -------------------------------------------------------------------- a sequence

struct Sequence<'a> {
    case: &'a Case,
    state: board::State,
    /// Its next moment, 0 for none.
    next: u64,
    histories: [Option<History>; THREADS],
    seen: &'a mut Seen,
}

impl Sequence<'_> {
    fn differ(&self, why: &str, detail: String) -> ! {
        let state = model::State::from(&self.state);
        let detail = format!("{why}\n{detail}\n{state:?}");
        self.case.differ("the budget seen from the history", detail)
    }

    /// Who runs the next ticks; it stands in the list of its assigned priority.
    fn watch(&mut self, ticks: u64) {
        let Some((i, level)) = runner(&self.state) else {
            return;
        };
        for (k, history) in self.histories.iter_mut().enumerate() {
            let p = &self.state.core.threads[k].parameters;
            if let Some(h) = history {
                h.preempted |= !h.charged.is_empty() && level > p.priority;
            }
        }
        let t = self.state.core.threads[i];
        if t.parameters.policy != SPORADIC {
            return;
        }
        let upper = at_upper(&self.state, i);
        if upper != (level == t.parameters.priority) {
            self.differ("a thread runs elsewhere than it is assigned", i.to_string());
        }
        if let (Some(h), true) = (&mut self.histories[i], upper) {
            h.run(t.server.activation, ticks);
        }
    }

    /// One event that has to be accepted, at most one moment after the last; what it tells.
    fn call(&mut self, e: &Event) -> board::Told {
        let runs = runner(&self.state);
        let carries = e.kind == SET && carries(&self.state, e);
        let mut told = lent(e);
        let reply = board::event(&mut self.state, &mut told, (*e).into());
        self.next = reply.next;
        if reply.status != status::ACCEPTED {
            self.differ(
                "an accepted event is refused",
                format!("{reply:?} to {e:?}"),
            );
        }
        let counts = board::counts_of(&told);
        for (i, n) in counts.iter().enumerate() {
            if e.kind == SET && e.thread as usize == i {
                self.set(e, n, carries);
            }
            let blocks = e.kind == BLOCK && runs.is_some_and(|(k, _)| k == i);
            self.account(e, i, n, blocks);
        }
        told
    }

    /// A set that doesn't carry over begins the history anew; one that does changes the parameters
    /// now in force, and begins none.
    fn set(&mut self, e: &Event, told: &Counts, carries: bool) {
        if *told != Counts::default() {
            self.differ("a set tells what it does", format!("{told:?} of {e:?}"));
        }
        let history = &mut self.histories[e.thread as usize];
        match history {
            Some(h) if carries => h.carry(&e.parameters),
            None if carries => {}
            _ => *history = History::new(From::Set, &e.parameters),
        }
    }

    /// What one event tells of a thread.
    fn account(&mut self, e: &Event, i: usize, told: &Counts, blocks: bool) {
        let Some(mut h) = self.histories[i].take() else {
            return;
        };
        if told.limits > 0 {
            h.enter(e.time, Cause::Limit);
        }
        if blocks {
            h.enter(e.time, Cause::Block);
        }
        let back = h.give_back(e.time, told, self.seen);
        let why = match back {
            Err(why) => Some(why),
            Ok(()) if h.balanced(self.state.core.threads[i].server.capacity) => None,
            Ok(()) => Some("ticks run at upper priority are not budget - capacity + returned"),
        };
        if let Some(why) = why {
            self.differ(why, format!("{e:?} told {told:?} of thread {i}\n{h:?}"));
        }
        self.histories[i] = Some(h);
    }

    /// Gives an event. An accepted one is first given alone, to a copy; then clock readings go to
    /// its time, and all of them together do and tell what it did alone.
    fn give(&mut self, e: &Event) -> u8 {
        let mut alone = self.state;
        let mut told = lent(e);
        let reply = board::event(&mut alone, &mut told, (*e).into());
        if reply.status != status::ACCEPTED {
            self.state = alone;
            self.refused(e, reply.status, &told);
            return reply.status;
        }
        let mut sums = board::NOTHING_TOLD;
        while self.state.core.now < e.time {
            let now = self.state.core.now;
            let ticks = step(now, self.next, e.time);
            self.watch(ticks);
            add(&mut sums, &self.call(&reading(now + ticks)));
        }
        add(&mut sums, &self.call(e));
        if self.state != alone {
            self.differ("another state with clock readings", format!("{e:?}"));
        }
        let input = || format!("{e:?}");
        same_told(self.case, "an event read by ticks", input, &told, &sums);
        status::ACCEPTED
    }

    /// A refused event tells nothing and begins no history; no event leaves a state that isn't sound.
    fn refused(&mut self, e: &Event, status: u8, told: &board::Told) {
        if status == status::UNSOUND {
            self.differ("a state that was left is not sound", format!("{e:?}"));
        }
        let input = || format!("{e:?}");
        let nothing = &board::NOTHING_TOLD;
        same_told(self.case, "a refused event", input, nothing, told);
        for i in 0..THREADS {
            self.account(e, i, &Counts::default(), false);
        }
        if e.kind == SET {
            let history = self.histories.get_mut(e.thread as usize);
            if let Some(h) = history.and_then(Option::as_mut) {
                h.refused_set[0] |= h.ran > 0;
                h.refused_set[1] |= h.ran > 0 && status == status::NOT_CARRIED;
            }
        }
    }
}

/// So many ticks are read one by one; a longer way goes from moment to moment.
const EACH: u64 = 30;
/// No event is further away: a moment may fall on each of the ticks.
const FAR: u64 = 2_000;

/// The ticks to the next reading.
fn step(now: u64, next: u64, to: u64) -> u64 {
    match next {
        _ if to - now <= EACH => 1,
        0 => to - now,
        _ => next.min(to).saturating_sub(now).max(1),
    }
}

fn reading(time: u64) -> Event {
    Event {
        time,
        ..Event::default()
    }
}

/// What a sequence begins with: a state, the histories that begin there, and the thread whose account
/// is carried over again and again.
type Begun = (board::State, [Option<History>; THREADS], Option<usize>);

/// A few threads, now and then one of them being such a thread; or a made-up state, where only sets
/// begin any history.
fn begun(case: &Case, r: &mut Random) -> Begun {
    let mut histories = [const { None }; THREADS];
    let (n, table, one) = match r.below(6) {
        0 => return (board::State::from(&r.sound_state()), histories, None),
        1 => {
            let (n, table, one) = carry::opening(r);
            (n, table, Some(one))
        }
        _ => {
            let aim = r.aim();
            let n = r.between(1, 6) as u32;
            (n, table(r, n, aim), None)
        }
    };
    let opened = board::open(r.start(), n, board::table_of(&table));
    if opened.status != status::ACCEPTED {
        case.differ("an opening", format!("{} of {table:?}", opened.status));
    }
    for (history, p) in histories.iter_mut().zip(&table[..n as usize]) {
        *history = History::new(From::Opening, p);
    }
    (opened.state, histories, one)
}

fn sequence(case: &Case, tally: &mut Tally, seen: &mut Seen) -> u64 {
    let r = &mut case.random();
    let (state, histories, one) = begun(case, r);
    let mut sequence = Sequence {
        case,
        state,
        next: 0,
        histories,
        seen,
    };
    sequence.call(&reading(state.core.now));
    let mut aim = r.aim();
    let length = r.pick(&[20, 50, 100]);
    for _ in 0..length {
        if r.one_in(30) {
            aim = r.aim();
        }
        let s = model::State::from(&sequence.state);
        let mut e = match one {
            Some(i) => carry::event(r, &s, i),
            None => r.aimed_event(&s, aim, 6),
        };
        if e.time > s.now && e.time - s.now <= model::MAX_STEP {
            e.time = e.time.min(s.now + FAR);
        }
        tally.add(sequence.give(&e));
    }
    length
}

/// Sequences of at least `count` events together.
pub fn histories(count: u64, seed: u64, covered: &mut Coverage) {
    let (mut tally, mut seen) = (Tally::default(), Seen::default());
    let mut done = 0;
    for case in cases("history", seed) {
        if done >= count {
            break;
        }
        done += sequence(&case, &mut tally, &mut seen);
    }
    tally.print("events of histories");
    covered.others.push(seen.group());
}

// ---------------------------------------------------------------------- coverage

/// What came back.
#[derive(Default)]
struct Seen {
    /// By cause; later, at once.
    causes: [[u64; 2]; 2],
    /// A period after the activation time, and later than that.
    ages: [u64; 2],
    /// Of a preempted thread; of a block that isn't the first in a period; with other entries
    /// pending; with a refused set before.
    histories: [u64; 4],
    from: [u64; 2],
    /// Scheduled before a set that carried the account over; under a longer period than now in force,
    /// under a shorter one; under a larger budget, under a smaller one; put before an older entry;
    /// back together with another; with a set refused with 15 before.
    carried: [u64; 8],
}

impl Seen {
    fn returned(&mut self, h: &History, entry: &Entry, at: u64, together: bool) {
        let at_once = entry.at == at;
        self.causes[entry.cause as usize][at_once as usize] += 1;
        self.ages[(entry.due() != at) as usize] += 1;
        let others = !h.entries.is_empty();
        let [refused, not_carried] = h.refused_set;
        let here = [entry.preempted, entry.again, others, refused];
        count(&mut self.histories, here);
        self.from[h.from as usize] += 1;
        let (then, now) = (&entry.parameters, &h.parameters);
        let here = [
            entry.carried < h.carried,
            then.period > now.period,
            then.period < now.period,
            then.budget > now.budget,
            then.budget < now.budget,
            entry.before,
            together,
            not_carried,
        ];
        count(&mut self.carried, here);
    }

    fn group(&self) -> Group {
        Group {
            sorts: &["history"],
            rows: vec![
                row(
                    "returned after a limit, after a block; later, at once",
                    self.causes.as_flattened(),
                ),
                row(
                    "returned a period after the activation time, and after that",
                    &self.ages,
                ),
                row(
                    "returned: preempted, another block in a period, others pending, a refused set before",
                    &self.histories,
                ),
                row("returned since an opening, since a set", &self.from),
                row(
                    "returned: carried since; period, budget less or more now; before an older; several; 15",
                    &self.carried,
                ),
            ],
        }
    }
}

fn count<const N: usize>(seen: &mut [u64; N], here: [bool; N]) {
    for (count, here) in seen.iter_mut().zip(here) {
        *count += here as u64;
    }
}
