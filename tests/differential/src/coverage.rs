//! What a run covered, counted from the model's states and listings. A row of the summary stands
//! for situations of one sort: how many of them came up, and how often the rarest did.

use crate::{carry, told};
use model::{status, Answer, Event, State, Thread, Told, BLOCK, MAX_STEP, MAX_TIME, NOBODY};
use model::{PENDING, RR, SET, SPORADIC, THREADS, WAKE, YIELD};
use std::cmp::Ordering;

const KINDS: usize = 5;
const POLICIES: usize = 3;
const STATUSES: usize = 16;
/// Charges are told apart up to this number of ticks.
const TICKS: usize = 10;
/// FIFO, RR, sporadic at its upper priority and at low.
const STANDINGS: usize = 4;
/// Where a sporadic thread stands: blocked, at its upper priority, at low without capacity, at low
/// with all pending.
pub const PLACES: usize = 4;
pub const BLOCKED: usize = 0;
pub const UPPER: usize = 1;
pub const NO_CAPACITY: usize = 2;
pub const ALL_PENDING: usize = 3;
/// The most digits of a listed moment, which may lie after the last time.
const MOMENT_DIGITS: usize = 16;
/// The most digits of a listed capacity, run time or idle time.
const TICKS_DIGITS: usize = 10;
const WIDE: u64 = 1 << 32;
/// So many moments of an event are looked at; a long step may hold a million, much alike.
const MOMENTS: usize = 100;

/// How often each status was answered.
#[derive(Default)]
pub struct Tally([u64; STATUSES]);

impl Tally {
    pub fn add(&mut self, status: u8) {
        self.0[status as usize] += 1;
    }

    pub fn print(&self, what: &str) {
        let n: u64 = self.0.iter().sum();
        if n == 0 {
            return;
        }
        print!("{what}: {n}; by status");
        for (k, n) in self.0.iter().enumerate().filter(|(_, n)| **n > 0) {
            print!(" {k}:{n}");
        }
        println!();
    }
}

#[derive(Default)]
pub struct Coverage {
    pub openings: Tally,
    pub reads: Tally,
    pub copies: Tally,
    pub listings: Tally,
    /// By kind; the last stands for all that don't exist.
    events: [Tally; KINDS + 1],
    accepted: [[u64; KINDS]; THREADS],
    bounds: [u64; 7],
    /// The running thread's number, its priority; the lengths of lists.
    places: [[u64; THREADS]; 3],
    /// By N and whose ticks they are; the last place is for idle ones.
    charges: [[[u64; TICKS]; STANDINGS + 1]; THREADS],
    /// Idle time, run time, time now.
    wide: [u64; 3],
    /// A due, several; a quantum's end, with a due; a limit, with its thread's own due, with another.
    moments: [u64; 7],
    at_moment: [u64; KINDS],
    /// At a limit, at a block; due before now, now, later.
    scheduled: [[u64; 3]; 2],
    replenished: [u64; PLACES],
    pending: [u64; PENDING + 1],
    /// By block, yield, wake.
    moved: [[u64; STANDINGS]; 3],
    /// Runnable, blocked; from a policy to a policy.
    set: [[[u64; POLICIES]; POLICIES]; 2],
    listed_n: [u64; THREADS],
    listed_pending: [u64; PENDING + 1],
    listed_moments: [u64; MOMENT_DIGITS],
    /// Capacity, run time, idle time.
    listed_ticks: [[u64; TICKS_DIGITS]; 3],
    listed_events: Tally,
    listed_refusals: Tally,
    pub told: told::Seen,
    pub carry: carry::Seen,
    /// What sorts with rows of their own covered.
    pub others: Vec<Group>,
}

// ------------------------------------------------------------------- events

impl Coverage {
    /// An event, its answer, what it told, and the states before and after it.
    pub fn event(&mut self, before: &State, e: &Event, (a, told): (&Answer, &Told), after: &State) {
        self.events[(e.kind as usize).min(KINDS)].add(a.status);
        for (k, (here, status)) in bounds(before, e).into_iter().enumerate() {
            self.bounds[k] += (here && a.status == status) as u64;
        }
        let mut s = *before;
        match a.status {
            status::ACCEPTED => {
                self.accepted[before.n as usize - 1][e.kind as usize] += 1;
                let moments = self.passing(&mut s, e);
                self.effect(&s, e, &moments, told);
                self.reached(after);
                let t = &s.threads[e.thread as usize];
                if e.kind == SET && model::carries(t, &e.parameters) {
                    self.carry.set(before, &s, e, true, after);
                }
            }
            status::NOT_CARRIED => {
                model::pass(&mut s, e.time);
                self.carry.set(before, &s, e, false, after);
            }
            _ => {}
        }
    }

    /// Goes to the event's time from moment to moment; what they tell.
    fn passing(&mut self, s: &mut State, e: &Event) -> Told {
        let mut told = model::NOTHING_TOLD;
        let mut add = |more: &Told| {
            for (sum, numbers) in told.iter_mut().zip(more) {
                *sum += *numbers;
            }
        };
        for _ in 0..MOMENTS {
            let next = model::next_moment(s);
            if next == 0 || next > e.time {
                self.charge(s, e.time - s.now);
                break;
            }
            self.charge(s, next - s.now);
            self.moment(s, next);
            self.at_moment[e.kind as usize] += (next == e.time) as u64;
            let runs = model::running(s) as usize;
            let none_due = runner(s).is_some_and(|t| t.pending == 0 || t.dues[0] != next);
            let at = model::pass(s, next);
            if none_due {
                self.told.limit(&at[runs]);
            }
            add(&at);
        }
        add(&model::pass(s, e.time));
        told
    }

    fn charge(&mut self, s: &State, ticks: u64) {
        if ticks == 0 {
            return;
        }
        let t = runner(s);
        let charged = t.map_or(s.idle, |t| t.total) + ticks;
        self.wide[t.is_some() as usize] += (charged >= WIDE) as u64;
        self.wide[2] += (s.now < WIDE && s.now + ticks >= WIDE) as u64;
        if ticks <= TICKS as u64 {
            let whose = t.map_or(STANDINGS, standing);
            self.charges[s.n as usize - 1][whose][ticks as usize - 1] += 1;
        }
    }

    /// The next moment, of a state before it.
    fn moment(&mut self, s: &State, at: u64) {
        let due = |t: &&Thread| t.pending > 0 && t.dues[0] == at;
        let dues = s.threads.iter().filter(due).count();
        for t in s.threads.iter().filter(due) {
            self.replenished[place(t)] += 1;
        }
        let ends = runner(s).filter(|t| ends(t, at - s.now));
        self.carry.moment(s, at, ends);
        let rr = ends.is_some_and(|t| t.parameters.policy == RR);
        let sort = match (ends, dues) {
            (None, 1) => 0,
            (None, _) => 1,
            (Some(_), 0) if rr => 2,
            (Some(_), _) if rr => 3,
            (Some(_), 0) => 4,
            (Some(t), _) if due(&t) => 5,
            _ => 6,
        };
        self.moments[sort] += 1;
        if let Some(t) = ends.filter(|_| !rr) {
            self.schedule(0, t, at);
        }
    }

    fn schedule(&mut self, cause: usize, t: &Thread, now: u64) {
        let place = match (t.activation + t.parameters.period).cmp(&now) {
            Ordering::Less => 0,
            Ordering::Equal => 1,
            Ordering::Greater => 2,
        };
        self.scheduled[cause][place] += 1;
        if place == 2 {
            self.carry.entry(cause, t);
        }
    }

    /// What an event does at its time; what was told of the moments before, and of all.
    fn effect(&mut self, s: &State, e: &Event, moments: &Told, told: &Told) {
        let i = match e.kind {
            BLOCK | YIELD => model::running(s),
            _ => e.thread,
        };
        let t = &s.threads[i as usize];
        match e.kind {
            BLOCK | YIELD | WAKE => self.moved[(e.kind - BLOCK) as usize][standing(t)] += 1,
            SET => {
                let (old, new) = (t.parameters.policy, e.parameters.policy);
                self.set[t.blocked as usize][old as usize][new as usize] += 1;
            }
            _ => {}
        }
        if e.kind == BLOCK && t.used > 0 {
            self.schedule(1, t, s.now);
        }
        self.told
            .effect(e.kind, t.parameters.policy, moments != told);
    }

    /// What the state after an event holds.
    fn reached(&mut self, s: &State) {
        if let Some(t) = runner(s) {
            self.places[0][model::running(s) as usize] += 1;
            self.places[1][model::assigned(t) as usize - 1] += 1;
        }
        for list in s.lists.iter().filter(|list| list.length > 0) {
            self.places[2][list.length as usize - 1] += 1;
        }
        let threads = s.threads[..s.n as usize].iter();
        for t in threads.filter(|t| t.parameters.policy == SPORADIC) {
            self.pending[t.pending as usize] += 1;
        }
    }
}

/// Bounds of an event's fields, and what is answered there if nothing else is at fault.
fn bounds(s: &State, e: &Event) -> [(bool, u8); 7] {
    let step = e.time.wrapping_sub(s.now);
    [
        (step == 0, status::ACCEPTED),
        (step == MAX_STEP, status::ACCEPTED),
        (e.time == MAX_TIME, status::ACCEPTED),
        (step == u64::MAX, status::EARLY),
        (step == MAX_STEP + 1, status::FAR),
        (e.time == MAX_TIME + 1, status::TIME),
        (e.kind == WAKE && e.thread as u32 == s.n, status::THREAD),
    ]
}

fn runner(s: &State) -> Option<&Thread> {
    match model::running(s) {
        NOBODY => None,
        i => Some(&s.threads[i as usize]),
    }
}

/// Of a sporadic thread.
pub fn place(t: &Thread) -> usize {
    match (t.runnable(), model::upper(t), t.capacity) {
        (false, ..) => BLOCKED,
        (_, true, _) => UPPER,
        (.., 0) => NO_CAPACITY,
        _ => ALL_PENDING,
    }
}

fn standing(t: &Thread) -> usize {
    let low = t.parameters.policy == SPORADIC && !model::upper(t);
    t.parameters.policy as usize + low as usize
}

/// Whether so many ticks use up a running thread's quantum or capacity.
fn ends(t: &Thread, ticks: u64) -> bool {
    match t.parameters.policy {
        RR => t.quantum == ticks,
        SPORADIC => model::upper(t) && t.capacity == ticks,
        _ => false,
    }
}

// ----------------------------------------------------------------- listings

impl Coverage {
    /// A file's listing.
    pub fn listing(&mut self, text: &[u8]) {
        let text = std::str::from_utf8(text).expect("a listing is text");
        let mut n = 0;
        for line in text.lines() {
            let words: Vec<&str> = line.split(' ').collect();
            match words[..] {
                ["refused", status] => return self.listed_refusals.add(number(status) as u8),
                ["event", ..] => {}
                ["thread", _, capacity, pending, total] => {
                    n += 1;
                    self.listed_ticks[0][capacity.len() - 1] += 1;
                    self.listed_pending[number(pending)] += 1;
                    self.listed_ticks[1][total.len() - 1] += 1;
                }
                ["idle", ticks] => self.listed_ticks[2][ticks.len() - 1] += 1,
                [_, status, _, next] => {
                    self.listed_events.add(number(status) as u8);
                    self.listed_moments[next.len() - 1] += 1;
                }
                _ => unreachable!("{line} in a listing"),
            }
        }
        self.listed_n[n - 1] += 1;
    }
}

fn number(word: &str) -> usize {
    word.parse().expect("a number in a listing")
}

// ------------------------------------------------------------------ summary

/// Situations of one sort, and how often each came up.
pub struct Row {
    what: &'static str,
    counts: Vec<u64>,
}

/// Rows, and the sorts of cases that have to be run for all of their situations to come up.
pub struct Group {
    pub sorts: &'static [&'static str],
    pub rows: Vec<Row>,
}

pub fn row<'a>(what: &'static str, counts: impl IntoIterator<Item = &'a u64>) -> Row {
    Row {
        what,
        counts: counts.into_iter().copied().collect(),
    }
}

impl Row {
    /// Prints the row; whether each of its situations came up.
    pub fn print(&self) -> bool {
        let all = self.counts.len();
        let covered = self.counts.iter().filter(|n| **n > 0).count();
        let least = self.counts.iter().min().unwrap_or(&0);
        println!("{covered:6} of {all:4} {least:6}  {}", self.what);
        covered == all
    }
}

/// A row over the statuses that each tally can have.
pub fn answers(what: &'static str, tallies: &[(&Tally, &[usize])]) -> Row {
    let counts = tallies
        .iter()
        .flat_map(|(t, of)| of.iter().map(|&k| &t.0[k]));
    row(what, counts)
}

impl Coverage {
    fn event_rows(&self) -> Vec<Row> {
        vec![
            row(
                "accepted events, by N and kind",
                self.accepted.as_flattened(),
            ),
            self.refused_row(),
            row(
                "times and thread numbers at a bound, or one past it",
                &self.bounds,
            ),
            row(
                "running, by thread and by priority; lists, by length",
                self.places.as_flattened(),
            ),
            row(
                "charges of 1 to 10 ticks, by N and runner (FIFO, RR, upper, low, none)",
                self.charges.as_flattened().as_flattened(),
            ),
            row(
                "charges above 2^32 to idle and run time, time passing 2^32",
                &self.wide,
            ),
            row(
                "moments: limit, quantum end, due, and several at one instant",
                &self.moments,
            ),
            row(
                "events at the instant of a moment, by kind",
                &self.at_moment,
            ),
            row(
                "U scheduled at limit or block, due before now, now or later",
                self.scheduled.as_flattened(),
            ),
            row(
                "replenished: blocked, upper, no capacity, all pending",
                &self.replenished,
            ),
            row("pending counts 0 to 8", &self.pending),
            row(
                "block, yield and wake, by the thread's standing",
                self.moved.as_flattened(),
            ),
            row(
                "set, runnable or blocked, by old and new policy",
                self.set.as_flattened().as_flattened(),
            ),
        ]
    }

    fn refused_row(&self) -> Row {
        let [clock, block, yield_, wake, set, other] = &self.events;
        answers(
            "refused events, by kind and status",
            &[
                (clock, &[1, 2, 3, 5, 6, 9]),
                (block, &[1, 2, 3, 5, 6, 7, 9]),
                (yield_, &[1, 2, 3, 5, 6, 7, 9]),
                (wake, &[1, 2, 3, 5, 6, 8, 9]),
                (set, &[1, 2, 3, 5, 6, 9, 15]),
                (other, &[4, 9]),
            ],
        )
    }

    fn file_rows(&self) -> Vec<Row> {
        vec![
            answers(
                "openings, files read, copied and listed, by status",
                &[
                    (&self.openings, &[0, 3, 5, 6]),
                    (&self.reads, &[0, 10, 11, 13]),
                    (&self.copies, &[0, 10, 11, 12, 13]),
                    (&self.listings, &[0, 12]),
                ],
            ),
            row("listings by N", &self.listed_n),
            row("listed pending counts 0 to 8", &self.listed_pending),
            row("listed moments of 1 to 16 digits", &self.listed_moments),
            row(
                "listed capacities, run times and idle times of 1 to 10 digits",
                self.listed_ticks.as_flattened(),
            ),
            answers(
                "listed statuses, and refused listings by status",
                &[
                    (&self.listed_events, &[0, 1, 2, 3, 4, 5, 6, 7, 8, 15]),
                    (&self.listed_refusals, &[3, 6, 10, 11, 13]),
                ],
            ),
        ]
    }

    /// The situations of events and files.
    pub fn group(&self) -> Group {
        let mut rows = self.event_rows();
        rows.extend(self.told.rows());
        rows.extend(self.file_rows());
        Group {
            sorts: &["events", "files", "singles"],
            rows,
        }
    }
}
