//! The search for the next due (02 E2), over any counts and entries, sound or not.

use crate::case::{cases, Case};
use crate::coverage::{answers, row, Coverage, Group, Tally};
use differential as board;
use model::random::Random;
use model::{Dues, PENDING, THREADS};

/// Counts and entries, with none, one, some or all threads pending and dues that are often equal.
fn any(r: &mut Random) -> Dues {
    let density = r.below(4);
    let one = r.below(THREADS as u64) as usize;
    let mut counts = [0; THREADS];
    for (i, count) in counts.iter_mut().enumerate() {
        let pending = match density {
            0 => false,
            1 => i == one,
            2 => r.one_in(4),
            _ => true,
        };
        if pending {
            *count = 1 + match r.below(3) {
                0 => r.below(PENDING as u64),
                1 => r.below(255),
                _ => r.pick(&[PENDING as u64, 254]),
            } as u8;
        }
    }
    let small = r.one_in(2);
    let rows = [(); THREADS].map(|()| [(); PENDING].map(|()| due(r, small)));
    Dues { counts, rows }
}

fn due(r: &mut Random, small: bool) -> u64 {
    match r.below(12) {
        0 => 0,
        1 => u64::MAX,
        _ if small => r.below(40),
        _ => r.bits(),
    }
}

/// Other numbers in every place that the search may not read: each count that isn't 0 stays so, the
/// first dues of the pending threads stay, and all else may change.
fn elsewhere(r: &mut Random, all: &Dues, n: u32) -> Dues {
    let mut other = any(r);
    for i in 0..(n as usize).min(THREADS) {
        let pending = all.counts[i] != 0;
        other.counts[i] = if pending { 1 + r.below(255) as u8 } else { 0 };
        if pending {
            other.rows[i][0] = all.rows[i][0];
        }
    }
    other
}

fn number_of_threads(r: &mut Random) -> u32 {
    match r.below(20) {
        0 => r.pick(&[0, THREADS as u64 + 1, u32::MAX as u64]) as u32,
        1 => r.bits() as u32,
        2..=8 => THREADS as u32,
        _ => r.between(1, THREADS as u64) as u32,
    }
}

fn same(case: &Case, all: &Dues, n: u32, expected: board::NextDue) {
    let b = board::next_due(&all.counts, all.rows.as_flattened(), n);
    if b != expected {
        case.differ(
            "a search",
            format!("model {expected:?} code {b:?} of {n} {all:?}"),
        );
    }
}

/// Each case is searched, and searched again with other numbers where they may not matter.
pub fn searches(count: u64, seed: u64, covered: &mut Coverage) {
    let seen = &mut Seen::default();
    for case in cases("dues", seed).take(count as usize) {
        let r = &mut case.random();
        let all = any(r);
        let n = number_of_threads(r);
        let a = model::next_due(&all, n);
        let answer = a.into();
        same(&case, &all, n, answer);
        let other = elsewhere(r, &all, n);
        if model::next_due(&other, n) != a {
            case.differ(
                "the model's search",
                format!("{a:?} of {n} {all:?} and {other:?}"),
            );
        }
        same(&case, &other, n, answer);
        seen.add(&all, n, a);
    }
    seen.answers.print("searches");
    covered.others.push(seen.group());
}

// ------------------------------------------------------------------ coverage

#[derive(Default)]
struct Seen {
    answers: Tally,
    found: [u64; THREADS],
    none: u64,
    by_n: [u64; THREADS],
    /// None, one, several, all of the threads pending.
    pending: [u64; 4],
    /// The count of the thread found: 1 to 8, 9, 255, others.
    counts: [u64; 11],
    /// Its due: 0, the largest, another.
    dues: [u64; 3],
    /// A lesser number that isn't to be read: a later entry of the thread found, of another one that
    /// is pending, the first of one that isn't, the first of a pending one from N on.
    lesser: [u64; 4],
    /// Another pending thread has the same first due.
    equal: u64,
}

impl Seen {
    fn add(&mut self, all: &Dues, n: u32, a: Result<Option<(usize, u64)>, u8>) {
        self.answers.add(a.err().unwrap_or(0));
        let Ok(found) = a else {
            return;
        };
        let n = n as usize;
        self.by_n[n - 1] += 1;
        let pending = all.counts[..n].iter().filter(|c| **c != 0).count();
        let how_many = match pending {
            0 => 0,
            1 => 1,
            _ if pending < n => 2,
            _ => 3,
        };
        self.pending[how_many] += 1;
        let Some((thread, due)) = found else {
            self.none += 1;
            return;
        };
        self.found[thread] += 1;
        let place = match all.counts[thread] {
            255 => 9,
            count @ 1..=9 => count as usize - 1,
            _ => 10,
        };
        self.counts[place] += 1;
        self.dues[match due {
            0 => 0,
            u64::MAX => 1,
            _ => 2,
        }] += 1;
        for (i, entries) in all.rows.iter().enumerate() {
            let is_pending = all.counts[i] != 0;
            let later = entries[1..].iter().any(|d| *d < due);
            let first = entries[0] < due;
            self.lesser[0] += (i == thread && later) as u64;
            self.lesser[1] += (i != thread && i < n && is_pending && later) as u64;
            self.lesser[2] += (i < n && !is_pending && first) as u64;
            self.lesser[3] += (i >= n && is_pending && first) as u64;
            self.equal += (i != thread && i < n && is_pending && entries[0] == due) as u64;
        }
    }

    fn group(&self) -> Group {
        Group {
            sorts: &["dues"],
            rows: vec![
                answers("searches, by status", &[(&self.answers, &[0, 5])]),
                row("searches by N", &self.by_n),
                row(
                    "found, by thread, and none",
                    self.found.iter().chain([&self.none]),
                ),
                row("none, one, several, all threads pending", &self.pending),
                row("found with a count of 1 to 9, 255 and others", &self.counts),
                row("found a due of 0, the largest, another", &self.dues),
                row(
                    "a lesser number: later entry of it, of another; of one not pending; past N",
                    &self.lesser,
                ),
                row("equal first dues", [&self.equal]),
            ],
        }
    }
}
