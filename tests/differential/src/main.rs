//! Random and damaged inputs through the proved code and through the model, compared in every
//! field. Each case has its own seed: a difference prints it with the command that repeats the
//! case alone, and ends the run with status 1. A summary says what was covered.

mod blocked;
mod carry;
mod case;
mod checks;
mod counter;
mod coverage;
mod events;
mod files;
mod history;
mod most;
mod replays;
mod searches;
mod share_lines;
mod shares;
mod stored;
mod texts;
mod told;
mod windows;
mod writes;

use coverage::Coverage;
use std::panic::resume_unwind;
use std::process::exit;
use std::thread::scope;

/// A sort of cases: the option that counts them, how many the short run has, and how they are run
/// with that count from a first seed. The options differ in their first letter, but for `lines`.
struct Sort {
    option: &'static str,
    short: u64,
    run: fn(u64, u64, &mut Coverage),
}

const fn sort(option: &'static str, short: u64, run: fn(u64, u64, &mut Coverage)) -> Sort {
    Sort { option, short, run }
}

/// So many sorts, the first ones, share their rows of what is covered.
const SHARED: usize = 4;

const SORTS: &[Sort] = &[
    // events after an opening, in sequences
    sort("events", 500_000, events::sequences),
    // trace files, damaged for the most part: read, copied and listed
    sort("files", 20_000, files::files),
    // single events on made-up states
    sort("singles", 30_000, events::singles),
    // events of one account, carried over again and again
    sort("accounts", 120_000, carry::accounts),
    // each byte as `blocked` of each place of a state
    sort("blocked", 6, blocked::blocked),
    // files written from any header, table and events
    sort("writes", 10_000, writes::writes),
    // texts made files and files written as text
    sort("texts", 30_000, texts::texts),
    // another kernel's listings
    sort("checks", 30_000, checks::checks),
    // the step between a file's events, in every field of the state
    sort("replays", 2_500, replays::replays),
    // the search for the next due, over any counts and entries
    sort("dues", 30_000, searches::searches),
    // the budget of a thread seen from outside, tick by tick
    sort("history", 100_000, history::histories),
    // events at a reading of a counter that wraps
    sort("laps", 120_000, counter::readings),
    // shares of the elapsed time
    sort("plots", 100_000, shares::shares),
    // the most that a sporadic thread takes, and the ticks of windows held to it
    sort("most", 4_000, most::most),
    // the lines of shares at the end of a replay
    sort("lines", 4_000, share_lines::share_lines),
];

fn main() {
    let (counts, seed) = arguments();
    println!("seed {seed}");
    let seen = run_all(&counts, seed);
    let complete = covered(&counts, &seen);
    println!("no difference");
    if !complete {
        println!("TOO LITTLE COVERED: a situation never came up");
        exit(1)
    }
}

/// Runs all sorts, on both processors: those that share their rows in one thread, the others, which have rows of their own, beside
/// it.
fn run_all(counts: &[u64], seed: u64) -> Coverage {
    let run = |from: usize, to: usize| {
        let mut seen = Coverage::default();
        for (sort, count) in SORTS[from..to].iter().zip(&counts[from..to]) {
            (sort.run)(*count, seed, &mut seen);
        }
        seen
    };
    scope(|threads| {
        let others = threads.spawn(|| run(SHARED, SORTS.len()));
        let mut seen = run(0, SHARED);
        let others = others.join().unwrap_or_else(|panic| resume_unwind(panic));
        seen.others.extend(others.others);
        seen
    })
}

/// Prints what was covered. Where each sort that a group of situations needs had its short run's
/// count, all of them have to come up.
fn covered(counts: &[u64], seen: &Coverage) -> bool {
    println!("covered: how many situations, and how often the rarest of them");
    let mut complete = true;
    for group in [&seen.group()].into_iter().chain(&seen.others) {
        let needed = || {
            let sorts = SORTS.iter().zip(counts);
            sorts.filter(|(sort, _)| group.sorts.contains(&sort.option))
        };
        if needed().all(|(_, count)| *count == 0) {
            continue;
        }
        let judged = needed().all(|(sort, count)| *count >= sort.short);
        for row in &group.rows {
            complete &= row.print() || !judged;
        }
    }
    complete
}

/// The counts, in the order of the sorts, and the seed. Where no count is given, the short run's.
fn arguments() -> (Vec<u64>, u64) {
    let (mut counts, mut seed) = (vec![0; SORTS.len()], 1);
    let mut words = std::env::args().skip(1);
    while let Some(word) = words.next() {
        let Some(n) = words.next().and_then(|n| n.parse().ok()) else {
            usage()
        };
        let option = word.strip_prefix("--").unwrap_or_else(|| usage());
        match SORTS.iter().position(|sort| sort.option == option) {
            Some(k) => counts[k] = n,
            None if option == "seed" => seed = n,
            None => usage(),
        }
    }
    if counts.iter().all(|n| *n == 0) {
        counts = SORTS.iter().map(|sort| sort.short).collect();
    }
    (counts, seed)
}

fn usage() -> ! {
    let options = SORTS.iter().map(|sort| format!("[--{} N] ", sort.option));
    eprintln!(
        "usage: differential {}[--seed S]",
        options.collect::<String>()
    );
    exit(2)
}
