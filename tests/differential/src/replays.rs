//! Replays: the state after some of a file's events, in every field. The code steps from one event
//! to the next without testing the state's soundness; the model tests it each time.

use crate::case::{cases, Case};
use crate::coverage::{answers, row, Coverage, Group, Tally};
use crate::events::same_answer;
use crate::files::{damage_file, file};
use differential as board;
use model::{State, PENDING, SPORADIC};

/// The answer to the last of a file's first `count` events, or to its opening; all its events
/// where it has fewer. A file that can't be replayed is answered as a refused opening is.
fn model_replay(file: &[u8], count: usize) -> (model::Answer, State) {
    let refused = |status| model::Answer {
        status,
        running: model::NOBODY,
        next: 0,
    };
    match model::read(file) {
        Err(status) => (refused(status), State::default()),
        Ok(trace) => {
            let (mut a, mut s) = model::open(trace.start, trace.n, &trace.table());
            if a.status == model::status::ACCEPTED {
                for e in trace.take(count) {
                    a = model::event(&mut s, &e);
                }
            }
            (a, s)
        }
    }
}

fn same_replay(case: &Case, file: &[u8], count: usize, seen: &mut Seen) {
    let (a, s) = model_replay(file, count);
    let b = board::replay(file, count);
    let input = || format!("{count} events of {file:?}");
    let reply = (b.reply(), &b.state);
    same_answer(case, "a replay", input, (a, &s), reply);
    let events = model::read(file).map_or(0, |trace| trace.events as usize);
    seen.add(events, count, a.status, &s);
}

/// Files, a few damaged, each replayed up to some of its events, to its end and past it.
pub fn replays(count: u64, seed: u64, covered: &mut Coverage) {
    let seen = &mut Seen::default();
    for case in cases("replays", seed).take(count as usize) {
        let r = &mut case.random();
        let mut file = file(r);
        if r.one_in(4) {
            damage_file(r, &mut file);
        }
        let events = model::read(&file).map_or(0, |trace| trace.events as u64);
        let (one, other) = (r.below(events + 1), r.below(events + 1));
        let past = events + 1 + r.odd().min(u64::MAX - events - 1);
        for count in [0, one, other, events, past] {
            same_replay(&case, &file, count as usize, seen);
        }
    }
    seen.replays.print("replays");
    covered.others.push(seen.group());
}

// ------------------------------------------------------------------ coverage

/// What the replays covered.
#[derive(Default)]
struct Seen {
    replays: Tally,
    /// No event of some, a part of them, all, and a count past them; all of none.
    counts: [u64; 5],
    pending: [u64; PENDING + 1],
}

impl Seen {
    /// A replay of `count` of a file's events; the last status and the state at its end.
    fn add(&mut self, events: usize, count: usize, status: u8, s: &State) {
        self.replays.add(status);
        let place = match (count, events) {
            (_, 0) => 4,
            (0, _) => 0,
            _ if count < events => 1,
            _ if count == events => 2,
            _ => 3,
        };
        self.counts[place] += 1;
        let threads = s.threads[..s.n as usize].iter();
        for t in threads.filter(|t| t.parameters.policy == SPORADIC) {
            self.pending[t.pending as usize] += 1;
        }
    }

    fn group(&self) -> Group {
        Group {
            sorts: &["replays"],
            rows: vec![
                answers(
                    "replays, by the last status or the refusal",
                    &[(&self.replays, &[0, 1, 2, 3, 4, 5, 6, 7, 8, 10, 11, 13, 15])],
                ),
                row(
                    "replays of none, some and all events, and past them",
                    &self.counts,
                ),
                row("pending counts 0 to 8 after a replay", &self.pending),
            ],
        }
    }
}
