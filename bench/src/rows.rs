//! The worst that is known: a whole file with few moments in it, replayed or listed, where every
//! event is stepped and no state tested; and a moment and a replenishment at every tick.

use crate::script::{accept, event, mixed, table, Setting};
use crate::{agree, replay, Case, Size, What, COUNTED, SIDES, STEP};
use plain::random::Random;
use plain::{Parameters, State, CLOCK, MAX_EVENTS, SPORADIC, THREADS, WAKE};
use std::hint::black_box;

/// A line of its own below the table: what it measures, and the fastest time of each case by the
/// code and by plain Rust.
pub struct Row {
    name: &'static str,
    cases: Vec<Case>,
    best: [Vec<f64>; 2],
}

pub fn worst(size: &Size) -> Vec<Row> {
    let row = |name, cases: Vec<Case>| Row {
        name,
        best: [0, 1].map(|_| vec![f64::INFINITY; cases.len()]),
        cases,
    };
    let ticks = |apart| {
        let cases = [What::Moments, What::Readings].map(|w| Case::new(&turns(apart), w, size));
        assert_eq!(cases[0].moments, cases[0].events.len() as u64 * STEP);
        cases
    };
    vec![
        row(
            "1,500 events of a file replayed, an event",
            vec![file(What::Replay)],
        ),
        row(
            "1,500 events of a file listed, an event",
            vec![file(What::Listing)],
        ),
        row("a replenishment at every tick, a tick", ticks(true).into()),
        row(
            "32 replenishments at every 32nd tick, a tick",
            ticks(false).into(),
        ),
    ]
}

impl Row {
    /// Each case once by each side, for callgrind.
    pub fn once(&self) {
        for case in &self.cases {
            for side in &SIDES[..2] {
                replay(case, *side);
            }
        }
    }

    pub fn agree(&self) {
        self.cases.iter().for_each(agree);
    }

    pub fn round(&mut self) {
        for (side, best) in self.best.iter_mut().enumerate() {
            for (case, best) in self.cases.iter().zip(best) {
                *best = best.min(replay(case, SIDES[side]));
            }
        }
    }

    pub fn timed(&self) -> String {
        self.line(&self.best)
    }

    /// For one of its events, or, less what the readings cost, for one of its moments.
    fn cost(&self, totals: &[f64]) -> f64 {
        let events = self.cases[0].events.len() as f64;
        match self.cases.get(1) {
            None => totals[0] / events,
            Some(readings) => {
                let reading = totals[1] / readings.events.len() as f64;
                (totals[0] - reading * events) / self.cases[0].moments as f64
            }
        }
    }

    fn line(&self, totals: &[Vec<f64>; 2]) -> String {
        let [a, b] = [0, 1].map(|side| self.cost(&totals[side]));
        format!("{}: {a:.1} / {b:.1} = {:.2}", self.name, a / b)
    }
}

/// The lines of what callgrind counted: for each case the code's and then plain Rust's.
pub fn counted(counts: &[f64]) -> Vec<String> {
    let mut counts = counts.iter();
    let mut lines = Vec::new();
    for row in worst(&COUNTED) {
        let mut totals = [Vec::new(), Vec::new()];
        for _ in &row.cases {
            for side in &mut totals {
                side.push(*counts.next().expect("a count for each case and side"));
            }
        }
        lines.push(row.line(&totals));
    }
    lines
}

/// A file of as many events of all kinds as one holds; few moments fall into them.
fn file(what: What) -> Case {
    let table = table(Setting {
        n: THREADS as u32,
        many: false,
        small: false,
    });
    let mut s = opened(&table);
    let none = Size {
        events: 0,
        ..COUNTED
    };
    let mut case = Case::new(&s, what, &none);
    let mut r = Random::new(7);
    for _ in 0..MAX_EVENTS {
        let e = mixed(&s, &mut r);
        case.events.push(accept(&mut s, e));
    }
    case.text = vec![0; plain::total_bytes(THREADS, MAX_EVENTS)];
    plain::write(0, THREADS as u32, &table, &case.events, &mut case.text).expect("a file");
    case
}

/// Plain Rust's replay of a file.
pub fn replayed(file: &[u8]) -> State {
    let trace = plain::read(file).expect("a file");
    let (answer, mut s) = plain::open(trace.start, trace.n, &trace.table());
    assert_eq!(answer.status, 0);
    for e in trace {
        black_box(plain::step(&mut s, &e));
    }
    s
}

fn opened(table: &[Parameters; THREADS]) -> State {
    let (answer, s) = plain::open(0, THREADS as u32, table);
    assert_eq!(answer.status, 0);
    s
}

/// 32 sporadic threads that run a tick each in turn. Woken a tick apart, one reaches its limit and
/// another is replenished at every tick; else all are replenished at one instant in 32.
fn turns(apart: bool) -> State {
    let mut table = [Parameters::default(); THREADS];
    for p in &mut table {
        *p = Parameters {
            policy: SPORADIC,
            priority: 10,
            low: 5,
            max_repl: 1,
            flag: !apart as u32,
            budget: 1,
            period: THREADS as u64,
        };
    }
    let mut s = opened(&table);
    if apart {
        for i in 0..THREADS as u8 {
            accept(&mut s, event(i as u64, WAKE, i));
        }
    }
    accept(&mut s, event(2 * THREADS as u64, CLOCK, 0));
    s
}
