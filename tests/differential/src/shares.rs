//! Shares for the plot (02 E13): beside the model's and beside one division, bit for bit.

use crate::case::{cases, Case};
use crate::coverage::{answers, row, Coverage, Group, Tally};
use crate::events::state;
use differential as board;
use model::random::Random;
use model::{open, sound, status, Parameters, State, MAX_TIME, THREADS};

// -------------------------------------------------------------------- inputs

/// A state whose threads are FIFO, with a start and a time that other policies rarely have.
fn plain(r: &mut Random) -> State {
    let n = r.threads();
    let mut table = [Parameters::default(); THREADS];
    for p in &mut table[..n as usize] {
        p.priority = r.between(1, 32) as u8;
        p.flag = r.below(2) as u32;
    }
    let power = 10u64.pow(r.below(16) as u32);
    let double = 1 << r.below(50);
    let few = r.below(40);
    let any = r.below(MAX_TIME + 1);
    let elapsed = r.pick(&[power, double, few, any, MAX_TIME]).min(MAX_TIME);
    let latest = MAX_TIME - elapsed;
    let later = r.below(latest + 1);
    let start = r.pick(&[0, latest, later]);
    let (_, mut s) = open(start, n, &table);
    s.now += elapsed;
    s.idle = elapsed;
    s
}

/// Deals the elapsed time of a state out anew: equal totals, totals of a few ticks' difference, a few
/// different ones, nearly all of it to one thread, or less to one. What is left is idle time.
fn deal(r: &mut Random, s: &mut State) {
    let mut left = s.now - s.start;
    let n = u64::from(s.n);
    let even = left / n;
    let unit = r.pick(&[1, even / 2, even / 3]);
    let any = r.below(n);
    let one = r.pick(&[any, any, n - 1]);
    let less = even.saturating_sub(r.pick(&[1, 2, even]));
    let sort = r.below(6);
    let most = left - r.pick(&[0, 0, 1, 2]).min(left);
    for i in 0..n {
        let total = match sort {
            0 => even,
            1 => even.saturating_sub(2) + r.below(3),
            2 => unit * r.below(3),
            3 if i == one => most,
            3 => r.below(2),
            4 if i == one => less,
            4 => even,
            _ => r.below(left + 1),
        };
        let total = total.min(left);
        s.threads[i as usize].total = total;
        left -= total;
    }
    s.idle = left;
}

/// A state to ask for shares: made up or reached by events, its time often dealt out anew; some are
/// not sound.
fn given(r: &mut Random) -> State {
    let mut s = match r.below(8) {
        0 | 1 => {
            let aim = r.aim();
            state(r, aim)
        }
        2..=5 => r.sound_state(),
        _ => plain(r),
    };
    if sound(&s) && !r.one_in(4) {
        deal(r, &mut s);
    }
    if r.one_in(20) {
        r.damage_state(&mut s);
    }
    s
}

/// The threads that are asked for: some, or now and then every number that can be.
fn asked(r: &mut Random, n: u32) -> Vec<u8> {
    if r.one_in(60) {
        return (0..=u8::MAX).collect();
    }
    let past = u64::from(n).min(255);
    let any = r.below(256);
    let thread = r.below(past.max(1));
    let last = past.saturating_sub(1);
    let bad = r.pick(&[past, past, past + 1, 31, 32, 255, any]);
    [thread, last, bad].map(|i| i.min(255) as u8).to_vec()
}

// --------------------------------------------------------------------- cases

/// The summary and the shares of one state; whether it has shares.
fn same_shares(case: &Case, s: &State, threads: &[u8], seen: &mut Seen) -> bool {
    let t = board::State::from(s);
    let kept = t;
    let summary = model::summary(s);
    let (a, b) = (board::ShareSummary::from(summary), board::share_summary(&t));
    if a != b {
        let detail = format!("model {a:?}\ncode {b:?}\nof {s:?}");
        case.differ("a summary", detail);
    }
    for &thread in threads {
        let share = model::share(s, thread);
        let (a, b) = (board::Share::from(share), board::share(&t, thread));
        if a != b {
            let detail = format!("model {a:?}\ncode {b:?}\nof thread {thread} of {s:?}");
            case.differ("a share", detail);
        }
        if b.form == 0 {
            let (total, elapsed) = (s.threads[thread as usize].total, s.now - s.start);
            let divided = total as f64 / elapsed as f64;
            if b.share.to_bits() != divided.to_bits() {
                let detail = format!("{total} / {elapsed} is {divided:e} code {b:?}");
                case.differ("a share and its division", detail);
            }
        }
        seen.share(s, thread, share);
    }
    if t != kept {
        case.differ("a state that was asked for shares", format!("{s:?}"));
    }
    seen.summary(s, summary);
    matches!(summary, Ok(Some(_)))
}

/// States, sound and not; `count` of them at least have shares.
pub fn shares(count: u64, seed: u64, covered: &mut Coverage) {
    let seen = &mut Seen::default();
    let mut done = 0;
    for case in cases("plots", seed) {
        if done >= count {
            break;
        }
        let r = &mut case.random();
        let s = given(r);
        let threads = asked(r, s.n);
        done += same_shares(&case, &s, &threads, seen) as u64;
    }
    seen.summaries.print("summaries of shares");
    seen.shares.print("shares");
    covered.others.push(seen.group());
}

// ------------------------------------------------------------------ coverage

/// From here on a number of ticks has more than 32 bits, or nearly all that it can have.
const WIDE: [u64; 2] = [1 << 32, 1 << 49];

#[derive(Default)]
struct Seen {
    summaries: Tally,
    shares: Tally,
    /// States with shares, and states without because no time has passed, by N.
    by_n: [[u64; THREADS]; 2],
    /// The largest share's thread, the smallest's.
    threads: [[u64; THREADS]; 2],
    /// Given a share, by thread.
    given: [u64; THREADS],
    /// Asked for a good number and a bad one: time has passed, none has, the state isn't sound.
    asked: [[u64; 3]; 2],
    /// 5 for N, for one more, for 32 and for 255.
    past: [u64; 4],
    /// Unsound states whose start is their now.
    unsound_still: u64,
    /// Of the largest total, the smallest, both at once, all totals; all but one tick's difference.
    ties: [u64; 5],
    /// 0, 1, one tick of 10^15, one less than all of 10^15.
    ends: [u64; 4],
    /// Totals and elapsed times from each width on.
    wide: [[u64; WIDE.len()]; 2],
    /// Quotients that are no f64, and that are one.
    exact: [u64; 2],
}

impl Seen {
    fn summary(&mut self, s: &State, summary: Result<Option<model::Summary>, u8>) {
        self.summaries
            .add(summary.err().unwrap_or(status::ACCEPTED));
        let n = s.n as usize;
        let sum = match summary {
            Err(_) => {
                self.unsound_still += (s.start == s.now) as u64;
                return;
            }
            Ok(None) => {
                self.by_n[1][n - 1] += 1;
                return;
            }
            Ok(Some(sum)) => sum,
        };
        self.by_n[0][n - 1] += 1;
        self.threads[0][sum.largest_thread as usize] += 1;
        self.threads[1][sum.smallest_thread as usize] += 1;
        let mut totals: Vec<u64> = s.threads[..n].iter().map(|t| t.total).collect();
        totals.sort();
        let (least, most) = (totals[0], totals[n - 1]);
        if n == 1 {
            return;
        }
        let all = least == most;
        let (low, high) = (totals[1] == least, totals[n - 2] == most);
        let ties = [
            high && !low,
            low && !high,
            high && low && !all,
            all,
            most - least == 1,
        ];
        for (n, here) in self.ties.iter_mut().zip(ties) {
            *n += here as u64;
        }
    }

    fn share(&mut self, s: &State, thread: u8, share: Result<Option<f64>, u8>) {
        self.shares.add(share.err().unwrap_or(status::ACCEPTED));
        let bad = u32::from(thread) >= s.n;
        let place = match share {
            Err(status::UNSOUND) => 2,
            _ if s.now == s.start => 1,
            _ => 0,
        };
        self.asked[bad as usize][place] += 1;
        if share == Err(status::THREAD) {
            let n = u64::from(s.n);
            for (k, number) in [n, n + 1, 32, 255].into_iter().enumerate() {
                self.past[k] += (u64::from(thread) == number) as u64;
            }
        }
        let Ok(Some(_)) = share else {
            return;
        };
        self.given[thread as usize] += 1;
        let (total, elapsed) = (s.threads[thread as usize].total, s.now - s.start);
        let ends = [
            total == 0,
            total == elapsed,
            (total, elapsed) == (1, MAX_TIME),
            (total, elapsed) == (MAX_TIME - 1, MAX_TIME),
        ];
        for (n, here) in self.ends.iter_mut().zip(ends) {
            *n += here as u64;
        }
        for (k, width) in WIDE.into_iter().enumerate() {
            self.wide[0][k] += (total >= width) as u64;
            self.wide[1][k] += (elapsed >= width) as u64;
        }
        // in lowest terms, a number of less than 2^53 over a power of 2
        let odd = elapsed >> elapsed.trailing_zeros();
        self.exact[(total % odd == 0) as usize] += 1;
    }

    fn group(&self) -> Group {
        Group {
            sorts: &["plots"],
            rows: vec![
                answers(
                    "summaries and shares, by status",
                    &[(&self.summaries, &[0, 9]), (&self.shares, &[0, 5, 9])],
                ),
                row(
                    "states with shares, and where no time has passed, by N",
                    self.by_n.as_flattened(),
                ),
                row(
                    "the largest share, the smallest, and any, by thread",
                    self.threads.as_flattened().iter().chain(&self.given),
                ),
                row(
                    "asked for a thread and past N: time, no time, not sound",
                    self.asked.as_flattened(),
                ),
                row(
                    "5 for N, N + 1, 32, 255; 9 where start is now",
                    self.past.iter().chain([&self.unsound_still]),
                ),
                row(
                    "ties of the largest, the smallest, both, all; totals of one tick's difference",
                    &self.ties,
                ),
                row(
                    "shares of 0, 1, a tick of 10^15, all but a tick of it",
                    &self.ends,
                ),
                row(
                    "totals and elapsed times of 2^32 and 2^49 on",
                    self.wide.as_flattened(),
                ),
                row("quotients that are rounded, and exact", &self.exact),
            ],
        }
    }
}
