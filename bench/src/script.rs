//! The events that are measured, and the states that they start from: of both the benchmark and
//! `bench/entries32`, which compiles this with 32 entries to a thread.

use plain::random::Random;
use plain::YIELD;
use plain::{Event, Parameters, State, BLOCK, CLOCK, PENDING, RR, SET, SPORADIC, THREADS, WAKE};

/// One row of the table.
#[derive(Clone, Copy)]
pub struct Setting {
    pub n: u32,
    pub many: bool,
    pub small: bool,
}

const BUDGET: u64 = PENDING as u64;
const PERIOD: u64 = 50 * BUDGET;

fn sporadic(n: u32) -> usize {
    if n == 2 {
        1
    } else {
        8
    }
}

/// Eight sporadic threads (one where N is 2) above RR threads that share a priority.
pub fn table(x: Setting) -> [Parameters; THREADS] {
    let mut table = [Parameters::default(); THREADS];
    for (i, p) in table[..x.n as usize].iter_mut().enumerate() {
        p.flag = 1;
        if i < sporadic(x.n) {
            p.policy = SPORADIC;
            p.priority = 20 + i as u8;
            p.low = 5;
            p.max_repl = if x.many { PENDING as u8 } else { 1 };
            p.budget = BUDGET;
            p.period = PERIOD;
        } else {
            p.policy = RR;
            p.priority = 10;
            p.budget = if x.small { 4 } else { 1_000_000 };
        }
    }
    table
}

/// The state that a row starts from, and the events since its opening. With many pending, the budgets
/// are split into entries of one tick, as many to a thread as it has room for.
pub fn opened(x: Setting) -> (State, Vec<Event>) {
    let sporadic = sporadic(x.n);
    let (answer, mut s) = plain::open(0, x.n, &table(x));
    assert_eq!(answer.status, 0);
    let mut events = Vec::new();
    if x.many {
        while s.threads[..sporadic]
            .iter()
            .any(|t| t.used + t.capacity > 0)
        {
            let running = plain::running(&s);
            let now = s.now;
            events.push(accept(&mut s, event(now + 1, CLOCK, 0)));
            if (running as usize) < sporadic && s.threads[running as usize].used > 0 {
                events.push(accept(&mut s, event(now + 1, BLOCK, 0)));
                events.push(accept(&mut s, event(now + 1, WAKE, running)));
            }
        }
    }
    // the same phase of the period for all rows
    let to = s.now.next_multiple_of(PERIOD) + 3 * PERIOD;
    events.push(accept(&mut s, event(to, CLOCK, 0)));
    (s, events)
}

pub fn event(time: u64, kind: u8, thread: u8) -> Event {
    Event {
        time,
        kind,
        thread,
        ..Event::default()
    }
}

pub fn accept(s: &mut State, e: Event) -> Event {
    let a = plain::event(s, &e);
    assert_eq!(a.status, 0, "{e:?}");
    e
}

/// An event of any kind that the state accepts.
pub fn mixed(s: &State, r: &mut Random) -> Event {
    let time = s.now + r.between(1, 3);
    let blocked = s.threads[..s.n as usize].iter().position(|t| t.blocked);
    match (r.below(5), blocked) {
        (0, _) => event(time, CLOCK, 0),
        (1, _) => event(time, YIELD, 0),
        (2 | 3, Some(i)) => event(time, WAKE, i as u8),
        (2 | 3, None) => event(time, BLOCK, 0),
        _ => {
            // an RR thread keeps its parameters; it goes to the tail with a full quantum
            let i = s.n as u8 - 1;
            Event {
                parameters: s.threads[i as usize].parameters,
                ..event(time, SET, i)
            }
        }
    }
}

/// The number of instants up to a time at which something happens.
pub fn moments_until(s: &State, time: u64) -> u64 {
    let mut s = *s;
    let mut count = 0;
    loop {
        let next = plain::next_moment(&s);
        if next == 0 || next > time {
            return count;
        }
        count += 1;
        accept(&mut s, event(next, CLOCK, 0));
    }
}
