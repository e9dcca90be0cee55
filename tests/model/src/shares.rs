//! Shares for the plot (02 E13), and the lines of them at the end of a replay.

use crate::decimal::decimal;
use crate::event::{event, open};
use crate::state::{sound, State};
use crate::status;
use crate::trace::read;
use std::fmt::Write;

/// 02 E13 3: the largest and the smallest share, and the thread of each.
#[derive(Clone, Copy, Debug, PartialEq)]
pub struct Summary {
    pub largest_thread: u8,
    pub largest: f64,
    pub smallest_thread: u8,
    pub smallest: f64,
}

/// 02 E13 1: total and elapsed, each converted, and one division. Both are at most 10^15 in a sound
/// state, below 2^53, so that they are converted exactly. 02 E13 2: None where no time has passed.
fn quotient(s: &State, thread: usize) -> Option<f64> {
    let (total, elapsed) = (s.threads[thread].total, s.now - s.start);
    let exact = |ticks: u64| {
        let float = ticks as f64;
        assert_eq!(float as u128, u128::from(ticks));
        float
    };
    if elapsed == 0 {
        None
    } else {
        Some(exact(total) / exact(elapsed))
    }
}

/// A thread's share of the elapsed time. 02 E13 4: 9; then 5 for a thread number >= N.
pub fn share(s: &State, thread: u8) -> Result<Option<f64>, u8> {
    if !sound(s) {
        return Err(status::UNSOUND);
    }
    if u32::from(thread) >= s.n {
        return Err(status::THREAD);
    }
    Ok(quotient(s, thread.into()))
}

/// 02 E13 3: decided by the whole-number totals, the lowest number on a tie; None where no time has
/// passed. It asks for no thread, so that only 9 is left of the refusals.
pub fn summary(s: &State) -> Result<Option<Summary>, u8> {
    if !sound(s) {
        return Err(status::UNSOUND);
    }
    let totals: Vec<u64> = s.threads[..s.n as usize].iter().map(|t| t.total).collect();
    let lowest = |holds: &dyn Fn(u64, u64) -> bool| {
        (0..totals.len())
            .find(|&i| totals.iter().all(|&other| holds(totals[i], other)))
            .expect("one of the totals bounds all of them")
    };
    let largest = lowest(&|own, other| own >= other);
    let smallest = lowest(&|own, other| own <= other);
    let both = quotient(s, largest).zip(quotient(s, smallest));
    Ok(both.map(|(most, least)| Summary {
        largest_thread: largest as u8,
        largest: most,
        smallest_thread: smallest as u8,
        smallest: least,
    }))
}

/// The lines of the shares at the end of a file's replay; `refused n` for a file that can't be
/// replayed. For each thread its number, its total, the elapsed time and its share, which is `none`
/// where no time has passed; then, where some has, the summary's two lines (ours).
pub fn share_listing(file: &[u8]) -> String {
    match at_the_end(file) {
        Ok(s) => lines(&s).expect("a text takes every line"),
        Err(status) => format!("refused {status}\n"),
    }
}

/// The state after all events of a file, the refused ones passed over.
fn at_the_end(file: &[u8]) -> Result<State, u8> {
    let trace = read(file)?;
    let (answer, mut s) = open(trace.start, trace.n, &trace.table());
    if answer.status != status::ACCEPTED {
        return Err(answer.status);
    }
    for e in trace {
        event(&mut s, &e);
    }
    Ok(s)
}

fn lines(s: &State) -> Result<String, std::fmt::Error> {
    let mut text = String::new();
    let elapsed = s.now - s.start;
    for (i, t) in s.threads[..s.n as usize].iter().enumerate() {
        let share = share(s, i as u8).expect("a thread of a sound state");
        let share = share.map_or("none".to_owned(), decimal);
        writeln!(text, "share {i} {} {elapsed} {share}", t.total)?;
    }
    if let Some(sum) = summary(s).expect("a sound state") {
        let (most, least) = (decimal(sum.largest), decimal(sum.smallest));
        writeln!(text, "largest {} {most}", sum.largest_thread)?;
        writeln!(text, "smallest {} {least}", sum.smallest_thread)?;
    }
    Ok(text)
}
