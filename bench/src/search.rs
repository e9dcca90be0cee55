//! The search for the next due alone, with none, one, eight and all of 32 threads pending: the
//! proved code, plain Rust that does the same by the counts, and the plain pass that reads every
//! slot.
//!
//! `search`: times. `search --once`: each measurement once, for callgrind, which counts inside
//! `bench_measured`. `search --instructions FILE`: times, and the counts of that run, one to a line.

use differential as board;
use plain::random::Random;
use plain::{PENDING, THREADS};
use std::hint::black_box;
use std::time::Instant;

const ROWS: [usize; 4] = [0, 1, 8, THREADS];
/// Different inputs of a row, so that no branch is learnt by heart.
const INPUTS: usize = 64;
const REPEATS: usize = 100;
const ROUNDS: usize = 61;

struct Input {
    counts: [u8; THREADS],
    dues: [u64; THREADS * PENDING],
}

/// So many threads have one to eight entries, whose dues rise.
fn input(r: &mut Random, pending: usize) -> Input {
    let mut x = Input {
        counts: [0; THREADS],
        dues: [0; THREADS * PENDING],
    };
    let mut left = pending;
    while left > 0 {
        let i = r.below(THREADS as u64) as usize;
        if x.counts[i] != 0 {
            continue;
        }
        left -= 1;
        x.counts[i] = r.between(1, PENDING as u64) as u8;
        let mut due = 1_000;
        for slot in &mut x.dues[i * PENDING..][..x.counts[i] as usize] {
            due += r.between(1, 1_000);
            *slot = due;
        }
    }
    x
}

#[derive(Clone, Copy, PartialEq, Debug)]
struct Found {
    thread: usize,
    due: u64,
}

const NONE: Found = Found {
    thread: THREADS,
    due: 0,
};

type Search = fn(&Input, u32) -> Found;
const SIDES: [Search; 3] = [code, by_counts, every_slot];

fn code(x: &Input, n: u32) -> Found {
    let found = board::next_due(&x.counts, &x.dues, n);
    Found {
        thread: found.thread as usize,
        due: found.due,
    }
}

/// Skips threads that have nothing pending and reads the first due of the rest.
#[inline(never)]
fn by_counts(x: &Input, n: u32) -> Found {
    let pending = (0..n as usize).filter(|&i| x.counts[i] != 0);
    pending
        .map(|i| Found {
            thread: i,
            due: x.dues[i * PENDING],
        })
        .min_by_key(|found| found.due)
        .unwrap_or(NONE)
}

/// Looks at every slot of every thread.
#[inline(never)]
fn every_slot(x: &Input, n: u32) -> Found {
    let mut best = NONE;
    for i in 0..n as usize {
        for j in 0..PENDING {
            let due = x.dues[i * PENDING + j];
            if j < x.counts[i] as usize && (best.thread == THREADS || due < best.due) {
                best = Found { thread: i, due };
            }
        }
    }
    best
}

/// Each input searched so many times. Its own function, so that callgrind can count inside it.
#[inline(never)]
#[no_mangle]
extern "C" fn bench_measured(inputs: &[Input; INPUTS], side: &Search, repeats: usize) {
    for _ in 0..repeats {
        for x in inputs {
            black_box(side(black_box(x), black_box(THREADS as u32)));
        }
    }
}

fn inputs(pending: usize) -> [Input; INPUTS] {
    let mut r = Random::new(7);
    std::array::from_fn(|_| input(&mut r, pending))
}

/// Nanoseconds of a search.
fn time(inputs: &[Input; INPUTS], side: &Search) -> f64 {
    let start = Instant::now();
    bench_measured(inputs, side, REPEATS);
    start.elapsed().as_nanos() as f64 / (INPUTS * REPEATS) as f64
}

fn table(unit: &str, rows: &[[f64; SIDES.len()]]) {
    println!("a search, {unit}: code / by the counts, code / every slot");
    for (pending, [code, counts, slots]) in ROWS.iter().zip(rows) {
        println!(
            "{pending:>2} of {THREADS} pending | {code:>6.1} / {counts:>6.1} = {:>4.2} | {code:>6.1} / {slots:>6.1} = {:>4.2}",
            code / counts,
            code / slots
        );
    }
    println!();
}

fn main() {
    let words: Vec<String> = std::env::args().skip(1).collect();
    let words: Vec<&str> = words.iter().map(String::as_str).collect();
    let all = ROWS.map(inputs);
    let counted: Option<Vec<f64>> = match words[..] {
        [] => None,
        ["--once"] => {
            for inputs in &all {
                SIDES
                    .iter()
                    .for_each(|side| bench_measured(inputs, side, 1));
            }
            return;
        }
        ["--instructions", file] => {
            let text = std::fs::read_to_string(file).expect("the counts can be read");
            Some(text.lines().map(|l| l.parse().expect("a number")).collect())
        }
        _ => {
            eprintln!("usage: search [--once | --instructions FILE]");
            std::process::exit(2);
        }
    };
    for x in all.iter().flatten() {
        let found = SIDES.map(|side| side(x, THREADS as u32));
        assert!(found.iter().all(|f| *f == found[0]), "{found:?}");
    }
    let mut best = [[f64::INFINITY; SIDES.len()]; ROWS.len()];
    for _ in 0..ROUNDS {
        for (inputs, row) in all.iter().zip(&mut best) {
            for (side, ns) in SIDES.iter().zip(row) {
                *ns = ns.min(time(inputs, side));
            }
        }
    }
    table("nanoseconds", &best);
    if let Some(counted) = counted {
        let rows: Vec<_> = counted
            .chunks(SIDES.len())
            .map(|row| std::array::from_fn(|k| row[k] / INPUTS as f64))
            .collect();
        table("instructions", &rows);
    }
}
