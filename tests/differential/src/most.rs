//! The most that a sporadic thread takes at its upper priority (G1): the code's function beside the
//! model's on any parameters and lengths. What the compiled events run is held to it in `windows`.

use crate::case::{cases, Case};
use crate::coverage::{answers, row, Coverage, Group, Tally};
use crate::windows;
use differential as board;
use model::random::Random;
use model::{Parameters, FIFO, MAX_TICKS, PENDING, PRIORITIES, RR, SPORADIC};

/// So many parameters and lengths for each sequence of events.
const ASKED: usize = 30;

/// Each case asks the function, and holds a sequence of events to it.
pub fn most(count: u64, seed: u64, covered: &mut Coverage) {
    let (mut seen, mut windows) = (Seen::default(), windows::Seen::default());
    for case in cases("most", seed).take(count as usize) {
        let r = &mut case.random();
        for _ in 0..ASKED {
            let p = parameters(r);
            let (length, place) = length(r, &p);
            let a = same(&case, &p, length);
            seen.add(&p, (length, place), a);
        }
        windows::sequence(&case, r, &mut windows);
    }
    seen.answers.print("asked for the most of a length");
    windows.print();
    covered.others.push(seen.group());
    covered.others.push(windows.group());
}

/// The code's answer is the model's, which is given.
pub fn same(case: &Case, p: &Parameters, length: u64) -> Result<u64, u8> {
    let a = model::bound(p, length);
    let b = board::bound((*p).into(), length);
    if b != a.into() {
        case.differ(
            "the most of a length",
            format!("model {a:?} code {b:?} of {length} {p:?}"),
        );
    }
    a
}

/// Sporadic ones in range, small, large or at a bound.
fn sporadic(r: &mut Random) -> Parameters {
    let priority = r.between(2, PRIORITIES as u64);
    let any = r.between(1, MAX_TICKS);
    let (small, near) = (r.between(1, 12), MAX_TICKS - r.below(3));
    let period = r.pick(&[1, small, small, any, near]);
    let part = r.between(1, period);
    Parameters {
        policy: SPORADIC,
        priority: priority as u8,
        low: r.between(1, priority - 1) as u8,
        max_repl: r.between(1, PENDING as u64) as u8,
        flag: r.below(2) as u32,
        budget: r.pick(&[1, part, part, period]),
        period,
    }
}

/// Of each policy, in range or with a field or two that may be out of it.
fn parameters(r: &mut Random) -> Parameters {
    let mut p = match r.below(8) {
        0 => r.parameters(),
        _ => sporadic(r),
    };
    let odd = r.odd();
    match r.below(24) {
        0 => p.policy = r.pick(&[0, 1, 3, 255]) as u8,
        1 => p.priority = r.pick(&[0, 33, 255, p.low as u64]) as u8,
        2 => p.low = r.pick(&[0, p.priority as u64, 33, 255]) as u8,
        3 => p.max_repl = r.pick(&[0, 9, 255]) as u8,
        4 => p.budget = r.pick(&[0, p.period + 1, u64::MAX, odd]),
        5 => p.period = r.pick(&[0, p.budget.wrapping_sub(1), MAX_TICKS + 1, u64::MAX, odd]),
        6 => (p.budget, p.period) = (MAX_TICKS + 1, MAX_TICKS + 1),
        7 => {
            r.damage_parameters(&mut p);
            r.damage_parameters(&mut p);
        }
        8 => p.flag = r.pick(&[1, 2, u32::MAX as u64, odd]) as u32,
        _ => {}
    }
    p
}

/// Lengths are told apart by how they are made: 0, 1, beside two budgets (3), beside a stretch (3),
/// beside several (3), the last and near it, others.
const LENGTHS: usize = 14;

fn length(r: &mut Random, p: &Parameters) -> (u64, usize) {
    let stretch = p.period.wrapping_add(p.budget);
    let most = u64::MAX / stretch.max(1);
    let (few, any) = (r.between(2, 9), r.between(1, most.max(1)));
    let several = stretch.wrapping_mul(r.pick(&[few, few, any, most]));
    let place = r.below(LENGTHS as u64) as usize;
    let length = match place {
        0 | 1 => place as u64,
        2..=4 => p
            .budget
            .wrapping_mul(2)
            .wrapping_add(place as u64)
            .wrapping_sub(3),
        5..=7 => stretch.wrapping_add(place as u64).wrapping_sub(6),
        8..=10 => several.wrapping_add(place as u64).wrapping_sub(9),
        11 => u64::MAX,
        12 => u64::MAX - r.below(1 << 32),
        _ => r.odd(),
    };
    (length, place)
}

// ------------------------------------------------------------------ coverage

#[derive(Default)]
struct Seen {
    answers: Tally,
    /// Of the answers that aren't refused: the length itself, and what its stretches allow.
    by: [u64; 2],
    lengths: [u64; LENGTHS],
    /// FIFO and RR in range.
    others: [u64; 2],
    /// Policy above 2; priority 0, above 32; low 0, not below priority; max_repl 0, above 8; budget 0,
    /// above the period; both, the period alone above the range; start flag above 1. Nothing else of
    /// the parameters is out of range.
    refused: [u64; 12],
    /// Start flags 0, 1.
    flags: [u64; 2],
}

impl Seen {
    fn add(&mut self, p: &Parameters, (length, place): (u64, usize), a: Result<u64, u8>) {
        self.answers.add(a.err().unwrap_or(0));
        if let Ok(most) = a {
            self.by[(most < length) as usize] += 1;
            self.lengths[place] += 1;
            self.flags[p.flag as usize] += 1;
            return;
        }
        for (count, policy) in self.others.iter_mut().zip([FIFO, RR]) {
            *count += (p.policy == policy && model::in_range(p)) as u64;
        }
        let top = Parameters {
            priority: PRIORITIES as u8,
            ..*p
        };
        let least = Parameters { low: 1, ..*p };
        let one = Parameters { max_repl: 1, ..*p };
        let each = Parameters { budget: 1, ..*p };
        let short = Parameters {
            period: p.budget,
            ..*p
        };
        let full = Parameters {
            budget: MAX_TICKS,
            period: MAX_TICKS,
            ..*p
        };
        let unset = Parameters { flag: 0, ..*p };
        let sporadic = Parameters {
            policy: SPORADIC,
            ..*p
        };
        let cases = [
            (p.policy > SPORADIC, sporadic),
            (p.priority == 0, top),
            (p.priority as usize > PRIORITIES, top),
            (p.low == 0, least),
            (p.low >= p.priority, least),
            (p.max_repl == 0, one),
            (p.max_repl as usize > PENDING, one),
            (p.budget == 0, each),
            (p.budget > p.period, each),
            (p.budget > MAX_TICKS && p.budget == p.period, full),
            (p.period > MAX_TICKS, short),
            (p.flag > 1, unset),
        ];
        for (count, (here, mended)) in self.refused.iter_mut().zip(cases) {
            *count += (here && model::bound(&mended, length).is_ok()) as u64;
        }
    }

    fn group(&self) -> Group {
        Group {
            sorts: &["most"],
            rows: vec![
                answers("most of a length, by status", &[(&self.answers, &[0, 6])]),
                row(
                    "most of a length: all of it, what its stretches allow",
                    &self.by,
                ),
                row(
                    "lengths: 0, 1, beside two budgets, a stretch, several; the last, near it",
                    &self.lengths,
                ),
                row("asked of FIFO, of RR in range", &self.others),
                row(
                    "asked of sporadic ones with one field out of range, by field and side",
                    &self.refused,
                ),
                row("asked with start flag 0, 1", &self.flags),
            ],
        }
    }
}
