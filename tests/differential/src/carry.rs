//! Sets that carry an account over (02 E7): sequences of events of one account that is carried over
//! again and again, the edges of what is asked of dues, and the stored cases.

use crate::case::{cases, Case};
use crate::coverage::{place, row, Coverage, Group, Row, Tally};
use crate::coverage::{ALL_PENDING, BLOCKED, NO_CAPACITY, PLACES, UPPER};
use crate::events::{both, both_open, same_soundness};
use crate::stored::{bytes, inputs};
use crate::told::{self, with_readings};
use differential as board;
use model::random::{Aim, Random};
use model::{status, Event, Parameters, State, Thread, FARTHEST_DUE, MAX_STEP, PENDING, SET};
use model::{SPORADIC, THREADS, WAKE};
use std::cmp::Ordering;

/// The stored cases; then events, until at least `count` were compared, and before each sequence of
/// them a state at each edge of soundness.
pub fn accounts(count: u64, seed: u64, covered: &mut Coverage) {
    let mut tally = Tally::default();
    for case in cases("accounts", seed).take(count.min(1) as usize) {
        stored(&case, &mut covered.carry);
    }
    let mut done = 0;
    for case in cases("accounts", seed) {
        if done >= count {
            break;
        }
        let r = &mut case.random();
        edges(&case, r, covered);
        done += sequence(&case, r, &mut tally, covered);
    }
    tally.print("events of accounts");
    covered.others.push(covered.carry.group());
}

// ------------------------------------------------------------------ sequences

/// A few threads, and the place of one above the others, with room for entries.
pub fn opening(r: &mut Random) -> (u32, [Parameters; THREADS], usize) {
    let n = r.between(1, 5) as u32;
    let mut table = r.table(n);
    let i = r.below(n as u64) as usize;
    let priority = r.pick(&[32, 32, 32, 20]) as u8;
    let budget = r.between(4, 40);
    let rest = r.pick(&[20, 100, 500]);
    table[i] = Parameters {
        policy: SPORADIC,
        priority,
        low: r.between(1, priority as u64 - 1) as u8,
        max_repl: r.pick(&[1, 2, 3, 4, 5, 6, 7, 8, 8, 8]) as u8,
        flag: 1,
        budget,
        period: budget + r.between(10, rest),
    };
    (n, table, i)
}

/// An event that lets the account of thread `i` go on: short runs that end in a block, wakes, and sets
/// that carry it over.
pub fn event(r: &mut Random, s: &State, i: usize) -> Event {
    let t = &s.threads[i];
    if t.parameters.policy != SPORADIC || r.one_in(12) {
        return r.aimed_event(s, Aim::Carry, 6);
    }
    let runs = model::running(s) as usize == i;
    let kind = match (t.runnable(), runs) {
        (false, _) => r.pick(&[3, 3, 3, 3, 4, 4, 0]),
        (_, true) => r.pick(&[1, 1, 1, 4, 4, 2, 0]),
        _ => r.pick(&[0, 0, 1, 1, 4]),
    } as u8;
    let next = model::next_moment(s).clamp(s.now, s.now + MAX_STEP);
    let (short, wide) = (s.now + r.between(1, 3), s.now + r.below(40));
    let time = r.pick(&[s.now, short, short, short, short, next, next + 1, wide]);
    let mut e = Event {
        time,
        kind,
        ..Event::default()
    };
    if let WAKE | SET = kind {
        e.thread = i as u8;
    }
    if kind == SET {
        e.parameters = r.carrying(s, i, time);
    }
    e
}

/// One opening and the events after it; how many they are.
fn sequence(case: &Case, r: &mut Random, tally: &mut Tally, seen: &mut Coverage) -> u64 {
    let (n, table, i) = opening(r);
    let (_, mut s, mut t) = both_open(case, r.start(), n, &table);
    let length = r.pick(&[20, 50, 100]);
    for _ in 0..length {
        let e = event(r, &s, i);
        let given = t;
        let (a, told) = both(case, "an account's events", &mut s, &mut t, &e, seen);
        if a.status == status::ACCEPTED && r.one_in(3) {
            let made = (a.into(), &board::told_of(&told), &t);
            with_readings(case, r, &given, &e, made, &mut seen.told);
        }
        tally.add(a.status);
    }
    length
}

// --------------------------------------------------------------- stored cases

/// The stored traces through the code: their listings and their numbers.
fn stored(case: &Case, seen: &mut Seen) {
    for path in inputs("carry", "bin") {
        let file = bytes(&path);
        let said = bytes(&path.with_extension("txt"));
        let mut listing = vec![0; said.len() + 1];
        let listed = board::listing(&file, &mut listing);
        listing.truncate(listed.length);
        let counts = told::counts(&file).into_bytes();
        for (said, ours) in [
            (said, listing),
            (bytes(&path.with_extension("counts")), counts),
        ] {
            if said != ours {
                let text = |bytes: &[u8]| String::from_utf8_lossy(bytes).into_owned();
                let (said, ours) = (text(&said), text(&ours));
                let detail = format!("{}\nstored\n{said}\ncode\n{ours}", path.display());
                case.differ("a stored case", detail);
            }
        }
        let name = path.file_name().expect("a name").to_string_lossy();
        seen.stored[name.starts_with("trap-") as usize] += 1;
    }
}

// --------------------------------------------------------------- dues of a state

/// What 02 E7 4 asks of dues, at its edges, and what 01 asked of them before.
#[derive(Clone, Copy, Debug)]
enum Edge {
    Equal,
    AllEqual,
    Falling,
    Farthest,
    TooFar,
    Now,
    NextTick,
    PastPeriod,
    PastActivation,
}
use Edge::*;

const EDGES: [Edge; 9] = [
    Equal,
    AllEqual,
    Falling,
    Farthest,
    TooFar,
    Now,
    NextTick,
    PastPeriod,
    PastActivation,
];

/// Brings a thread's dues to an edge, if it has as many; whether the state is still sound.
fn to_edge(r: &mut Random, t: &mut Thread, now: u64, edge: Edge) -> Option<bool> {
    let count = t.pending as usize;
    let dues = &mut t.dues[..count];
    let last = count.checked_sub(1)?;
    // one of several and the next one
    let k = match edge {
        Equal | AllEqual | Falling if last == 0 => return None,
        _ => r.below(last.max(1) as u64) as usize,
    };
    match edge {
        Equal => dues[k] = dues[k + 1],
        AllEqual => dues.fill(dues[last]),
        Falling if dues[k] == now + 1 => return None,
        Falling => dues[k + 1] = dues[k] - 1,
        Farthest => dues[last] = now + FARTHEST_DUE,
        TooFar => dues[last] = now + FARTHEST_DUE + 1,
        Now => dues[0] = now,
        NextTick => dues[0] = now + 1,
        PastPeriod => dues[last] = dues[last].max(now + t.parameters.period),
        PastActivation => dues[last] = dues[last].max(t.activation + t.parameters.period),
    }
    Some(!matches!(edge, Falling | TooFar | Now))
}

/// A made-up state at each edge in turn: both say what is sound, and an event on it is answered alike.
fn edges(case: &Case, r: &mut Random, seen: &mut Coverage) {
    let given = r.sound_state();
    for edge in EDGES {
        let mut s = given;
        let n = given.n as usize;
        let first = r.below(given.n as u64) as usize;
        // entries are pending of sporadic threads only
        let several = |i: &usize| given.threads[*i].pending > 1;
        let i = (first..n).chain(0..first).find(several).unwrap_or(first);
        let t = &mut s.threads[i];
        let Some(sound) = to_edge(r, t, given.now, edge) else {
            continue;
        };
        let at = place(t);
        let mut t = board::State::from(&s);
        same_soundness(case, &s, &t);
        if model::sound(&s) != sound {
            case.differ("an edge of soundness", format!("{edge:?} of {i} in {s:?}"));
        }
        let e = r.aimed_event(&s, Aim::Instants, 0);
        let (a, _) = both(case, "an edge of soundness", &mut s, &mut t, &e, seen);
        let answered = sound == (a.status != status::UNSOUND);
        seen.carry.edges[edge as usize][at] += answered as u64;
    }
}

// ------------------------------------------------------------------- coverage

/// What came up, counted from the model's states; by place: blocked, at the upper priority, at low
/// without capacity, at low with all pending.
#[derive(Default)]
pub struct Seen {
    /// Random traces, traps.
    stored: [u64; 2],
    edges: [[u64; PLACES]; EDGES.len()],
    /// Accepted: the budget grows, stays, shrinks.
    budgets: [[u64; PLACES]; 3],
    /// It shrinks by a tick less than the capacity; by the capacity, by more, and with no capacity at
    /// all, each refused for this alone.
    shrinks: [[u64; PLACES]; 4],
    /// max_repl above, at and below the pending count, and the answer is by that alone.
    rooms: [[u64; PLACES]; 3],
    both_faults: u64,
    /// At low before: to upper by capacity, by room; still low without capacity, without room.
    from_low: [u64; 4],
    /// Accepted, by the pending count; and with U, none or some pending.
    pending: [u64; PENDING + 1],
    used: [u64; 2],
    /// After it at low, at upper; in the same list, in another; alone, behind others.
    lists: [[[u64; 2]; 2]; 2],
    /// Accepted, refused; moments on the way, of which a refusal tells nothing, one at the event's
    /// time, and judged at the given state it would have been answered otherwise.
    ways: [[u64; 3]; 2],
    /// Scheduled at a limit, at a block; alone, behind all, behind an equal due, between an equal and a
    /// later one, between an earlier and a later one, before all.
    entered: [[u64; 6]; 2],
    /// Two entries of a thread due at one instant, more of them.
    due: [[u64; PLACES]; 2],
    /// Several of a thread alone, beside another thread's, beside several of another; at its limit, at
    /// another's, at the end of a quantum. One at a limit whose U is back at once.
    together: [u64; 7],
}

impl Seen {
    /// A carrying set that is accepted or refused with 15; the state given, the one at the event's time
    /// and the one after it.
    pub fn set(&mut self, given: &State, at: &State, e: &Event, accepted: bool, after: &State) {
        let (t, p) = (&at.threads[e.thread as usize], &e.parameters);
        let here = place(t);
        let less = t.parameters.budget.saturating_sub(p.budget);
        let enough = less == 0 || less < t.capacity;
        let shrinks = match t.capacity {
            _ if less == 0 => None,
            0 => Some(3),
            capacity if less > capacity => Some(2),
            capacity if less == capacity => Some(1),
            capacity => (less + 1 == capacity).then_some(0),
        };
        let (room, roomy) = match p.max_repl.cmp(&t.pending) {
            Ordering::Greater => (0, true),
            Ordering::Equal => (1, here != UPPER),
            Ordering::Less => (2, false),
        };
        if let Some(k) = shrinks.filter(|_| roomy && accepted == enough) {
            self.shrinks[k][here] += 1;
        }
        self.rooms[room][here] += (enough && accepted == roomy) as u64;
        self.both_faults += (!enough && !roomy && !accepted) as u64;
        let way = way(given, e, accepted);
        for (count, here) in self.ways[!accepted as usize].iter_mut().zip(way) {
            *count += here as u64;
        }
        if accepted {
            let budget = match p.budget.cmp(&t.parameters.budget) {
                Ordering::Greater => 0,
                Ordering::Equal => 1,
                Ordering::Less => 2,
            };
            self.budgets[budget][here] += 1;
            self.carried(t, &after.threads[e.thread as usize], after);
        }
    }

    fn carried(&mut self, old: &Thread, new: &Thread, after: &State) {
        self.pending[new.pending as usize] += 1;
        if new.used > 0 {
            self.used[(new.pending > 0) as usize] += 1;
        }
        if !new.runnable() {
            return;
        }
        let upper = model::upper(new);
        if !model::upper(old) {
            let from_low = match (upper, old.capacity, new.capacity) {
                (true, 0, _) => 0,
                (true, ..) => 1,
                (.., 0) => 2,
                _ => 3,
            };
            self.from_low[from_low] += 1;
        }
        let own = model::assigned(new);
        let moved = own != model::assigned(old);
        let others = after.lists[own as usize - 1].length > 1;
        self.lists[upper as usize][moved as usize][others as usize] += 1;
    }

    /// U is scheduled for later, at a limit or at a block.
    pub fn entry(&mut self, cause: usize, t: &Thread) {
        let due = t.activation + t.parameters.period;
        let some = |order| {
            let dues = &t.dues[..t.pending as usize];
            dues.iter().any(|other| other.cmp(&due) == order)
        };
        let (earlier, equal) = (some(Ordering::Less), some(Ordering::Equal));
        let place = match (earlier, equal, some(Ordering::Greater)) {
            (false, false, false) => 0,
            (true, false, false) => 1,
            (_, true, false) => 2,
            (_, true, true) => 3,
            (true, false, true) => 4,
            (false, false, true) => 5,
        };
        self.entered[cause][place] += 1;
    }

    /// The next moment, of a state before it, and the thread whose limit or quantum's end it is.
    pub fn moment(&mut self, s: &State, at: u64, ends: Option<&Thread>) {
        // dues don't fall, and none lies before the moment
        let due = |t: &Thread, k: usize| t.pending as usize > k && t.dues[k] == at;
        let limit = ends.filter(|t| t.parameters.policy == SPORADIC);
        let at_once = |t: &Thread| t.activation + t.parameters.period <= at;
        self.together[6] += limit.is_some_and(|t| due(t, 0) && at_once(t)) as u64;
        let (mut threads, mut several) = (0, 0);
        for t in s.threads[..s.n as usize].iter().filter(|t| due(t, 0)) {
            threads += 1;
            if due(t, 1) {
                several += 1;
                self.due[due(t, 2) as usize][place(t)] += 1;
            }
        }
        let beside = match (several, threads) {
            (0, _) => return,
            (1, 1) => 0,
            (1, _) => 1,
            _ => 2,
        };
        self.together[beside] += 1;
        let end = match (ends, limit) {
            (None, _) => return,
            (_, Some(t)) if due(t, 1) => 3,
            (_, Some(_)) => 4,
            _ => 5,
        };
        self.together[end] += 1;
    }

    fn group(&self) -> Group {
        Group {
            sorts: &["accounts"],
            rows: self.rows(),
        }
    }

    fn rows(&self) -> Vec<Row> {
        // where there is capacity to take, and where there is none
        let capacity = [BLOCKED, UPPER, ALL_PENDING];
        let none = [BLOCKED, NO_CAPACITY];
        let [grows, stays, shrinks] = &self.budgets;
        let [edge @ .., at_none] = &self.shrinks;
        vec![
            row("stored accounts: random traces, traps", &self.stored),
            row(
                "dues at each edge of soundness: blocked, upper, no capacity, all pending",
                self.edges.as_flattened(),
            ),
            row(
                "carried: budget grows, stays, shrinks; blocked, upper, no capacity, all pending",
                (grows.iter().chain(stays)).chain(capacity.map(|k| &shrinks[k])),
            ),
            row(
                "budget shrinks to a capacity of 1; 15 by one more, by more, at 0; blocked, upper, low",
                (edge.iter().flat_map(|by| capacity.map(|k| &by[k]))).chain(none.map(|k| &at_none[k])),
            ),
            row(
                "max_repl above, at, below the pending count, by place; budget too small as well",
                self.rooms.as_flattened().iter().chain([&self.both_faults]),
            ),
            row(
                "carried at low: to upper by capacity, by room; still low without either",
                &self.from_low,
            ),
            row(
                "carried with 0 to 8 pending; with U and none or some pending",
                self.pending.iter().chain(&self.used),
            ),
            row(
                "carried to low, to upper; the same list, another; alone, behind others",
                self.lists.as_flattened().as_flattened(),
            ),
            row(
                "carrying sets, accepted, 15: moments on the way, at its time; judged at its time",
                self.ways.as_flattened(),
            ),
            row(
                "entries at limit, block: alone, last, after an equal; before others: equal, between, first",
                self.entered.as_flattened(),
            ),
            row(
                "two, more entries of a thread due at one instant, by place",
                self.due.as_flattened(),
            ),
            row(
                "several entries at one instant, others' beside them; at a limit, a quantum's end, at once",
                &self.together,
            ),
        ]
    }
}

/// What lies between the given state and a carrying set.
fn way(given: &State, e: &Event, accepted: bool) -> [bool; 3] {
    let next = model::next_moment(given);
    let moments = next != 0 && next <= e.time;
    let mut s = *given;
    let at_its_time = e.time > given.now && {
        model::pass(&mut s, e.time - 1);
        model::next_moment(&s) == e.time
    };
    let now = Event {
        time: given.now,
        ..*e
    };
    let judged_now = model::event(&mut given.clone(), &now).status == status::ACCEPTED;
    [moments, at_its_time, judged_now != accepted]
}
