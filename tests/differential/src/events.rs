//! Openings and events: in sequences, and singly from made-up states.

use crate::case::{cases, Case};
use crate::coverage::{Coverage, Tally};
use crate::told::{lent, same_told, stored, with_readings};
use differential as board;
use model::random::{Aim, Random};
use model::{Event, Parameters, State, THREADS};

// --------------------------------------------------------- both on one input

pub fn same_answer(
    case: &Case,
    what: &str,
    input: impl Fn() -> String,
    (a, s): (model::Answer, &State),
    (b, t): (board::Reply, &board::State),
) {
    let answers = (a.status, a.running, a.next) == (b.status, b.running, b.next);
    if !answers || State::from(t) != *s {
        let (input, t) = (input(), State::from(t));
        let detail = format!("{input}\nmodel {a:?}\ncode {b:?}\nmodel {s:?}\ncode {t:?}");
        case.differ(what, detail);
    }
}

/// One event on both states; the model's answer and what it told.
pub fn both(
    case: &Case,
    what: &str,
    s: &mut State,
    t: &mut board::State,
    e: &Event,
    seen: &mut Coverage,
) -> (model::Answer, model::Told) {
    let before = *s;
    let (a, told) = model::event_told(s, e);
    let mut numbers = lent(e);
    let b = board::event(t, &mut numbers, (*e).into());
    let input = || format!("{e:?} on {before:?}");
    same_answer(case, what, input, (a, s), (b, t));
    same_told(case, what, input, &board::told_of(&told), &numbers);
    seen.event(&before, e, (&a, &told), s);
    (a, told)
}

/// One opening by both.
pub fn both_open(
    case: &Case,
    start: u64,
    n: u32,
    table: &[Parameters; THREADS],
) -> (model::Answer, State, board::State) {
    let (a, s) = model::open(start, n, table);
    let b = board::open(start, n, board::table_of(table));
    let input = || format!("start {start} n {n} {table:?}");
    same_answer(case, "opening", input, (a, &s), (b.reply(), &b.state));
    (a, s, b.state)
}

// ----------------------------------------------------------------- sequences

/// A table that suits the aim: few threads runnable, or room for many pending replenishments.
pub fn table(r: &mut Random, n: u32, aim: Aim) -> [Parameters; THREADS] {
    let mut table = r.table(n);
    let used = &mut table[..n as usize];
    if r.one_in(2) {
        share(r, used);
    }
    for p in used {
        match aim {
            Aim::Idle if !r.one_in(n as u64) => p.flag = 0,
            Aim::Pending if p.policy == model::SPORADIC => {
                p.max_repl = r.between(5, 8) as u8;
                p.budget = r.between(8, 60);
                p.period = r.between(100, 1_000);
            }
            _ => {}
        }
    }
    table
}

/// Gives the threads one budget and one period, so that limits, quanta and dues of several fall on
/// one instant.
fn share(r: &mut Random, table: &mut [Parameters]) {
    let (budget, period) = (r.between(1, 6), r.between(6, 40));
    let upper = r.between(2, 32) as u8;
    for p in table {
        match p.policy {
            model::RR => p.budget = budget,
            model::SPORADIC => {
                p.budget = budget;
                p.period = period;
                if r.one_in(2) {
                    p.priority = upper;
                    p.low = r.between(1, upper as u64 - 1) as u8;
                }
            }
            _ => {}
        }
    }
}

/// An opening; about `damage` in a hundred have a fault, some of them several.
pub fn opening(r: &mut Random, aim: Aim, damage: u64) -> (u64, u32, [Parameters; THREADS]) {
    let full = r.one_in(16);
    let mut n = if full { THREADS as u32 } else { r.threads() };
    let mut table = table(r, n, aim);
    if full {
        // every thread runnable in one list, for the most part
        let priority = r.pick(&[2, 16, 32]) as u8;
        for p in &mut table {
            p.flag = 1;
            p.priority = priority;
            p.low = p.low.min(1);
        }
    }
    let mut start = r.start();
    while r.below(100) < damage {
        match r.below(4) {
            0 => n = r.pick(&[0, 33, 255, 1 << 31]) as u32,
            1 => start = r.pick(&[model::MAX_TIME, model::MAX_TIME + 1, u64::MAX]),
            _ => {
                let i = r.below(THREADS as u64) as usize;
                r.damage_parameters(&mut table[i]);
            }
        }
    }
    (start, n, table)
}

/// The stored numbers; then events from openings, until at least `count` events were compared.
pub fn sequences(count: u64, seed: u64, seen: &mut Coverage) {
    let mut tally = Tally::default();
    for case in cases("events", seed).take(count.min(1) as usize) {
        stored(&case, &mut seen.told);
    }
    let mut done = 0;
    for case in cases("events", seed) {
        if done >= count {
            break;
        }
        done += sequence(&case, &mut tally, seen);
    }
    seen.openings.print("openings");
    tally.print("events");
}

/// One opening and the events after it; how many they are.
fn sequence(case: &Case, tally: &mut Tally, seen: &mut Coverage) -> u64 {
    let r = &mut case.random();
    // the readings have a stream of their own: which events come doesn't depend on them
    let readings = &mut Random::new(!r.seed);
    let mut aim = r.aim();
    let (start, n, table) = opening(r, aim, 10);
    let (a, mut s, mut t) = both_open(case, start, n, &table);
    seen.openings.add(a.status);
    seen.told.begin();
    let length = r.pick(&[5, 20, 50, 100, 300]);
    for done in 1..=length {
        if r.one_in(60) {
            aim = r.aim();
        }
        let e = r.aimed_event(&s, aim, 6);
        let given = t;
        let (a, told) = both(case, "a sequence", &mut s, &mut t, &e, seen);
        seen.told.event(&a, &told);
        if a.status == model::status::ACCEPTED && readings.one_in(3) {
            let made = (a.into(), &board::told_of(&told), &t);
            with_readings(case, readings, &given, &e, made, &mut seen.told);
        }
        tally.add(a.status);
        // from a refused opening every event is refused with 9: one is enough
        if a.status == model::status::UNSOUND {
            return done;
        }
    }
    length
}

// ------------------------------------------------------------- single events

/// A state to give a single event: some are made up sound, some come from openings and events;
/// half of them are then damaged in one to three fields.
pub fn state(r: &mut Random, aim: Aim) -> State {
    let mut s = if r.one_in(2) {
        r.sound_state()
    } else {
        let (start, n, table) = opening(r, aim, 0);
        let (_, mut s) = model::open(start, n, &table);
        for _ in 0..r.below(40) {
            let e = r.aimed_event(&s, aim, 0);
            model::event(&mut s, &e);
        }
        s
    };
    if r.one_in(2) {
        for _ in 0..r.pick(&[1, 1, 1, 2, 3]) {
            r.damage_state(&mut s);
        }
    }
    s
}

pub fn same_soundness(case: &Case, s: &State, t: &board::State) {
    let (a, b) = (model::sound(s), board::sound(t));
    if a as u8 != b {
        let detail = format!("model {a} code {b} of {s:?}");
        case.differ("soundness", detail);
    }
}

/// Single events from made-up states, with and without extra clock readings, and the soundness of
/// these states.
pub fn singles(count: u64, seed: u64, seen: &mut Coverage) {
    let mut tally = Tally::default();
    for case in cases("singles", seed).take(count as usize) {
        let r = &mut case.random();
        let aim = r.aim();
        let mut s = state(r, aim);
        let mut t = board::State::from(&s);
        same_soundness(&case, &s, &t);
        let e = r.aimed_event(&s, aim, 25);
        let given = t;
        let (a, told) = both(&case, "a single event", &mut s, &mut t, &e, seen);
        if a.status == model::status::ACCEPTED && r.one_in(3) {
            let made = (a.into(), &board::told_of(&told), &t);
            with_readings(&case, r, &given, &e, made, &mut seen.told);
        }
        tally.add(a.status);
    }
    tally.print("single events");
}
