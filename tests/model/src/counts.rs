//! What happened while time passed (02 E3): the numbers of each thread, and those of
//! a whole trace as text, which is the form of the stored cases.

use crate::event::{event_told, open};
use crate::trace::read;
use crate::{status, THREADS};
use std::fmt::Write;
use std::ops::AddAssign;

/// 02 E3 2: limits reached, quanta ended, replenishments carried out, those at once
/// included, and the sum of their amounts.
#[derive(Clone, Copy, Debug, Default, PartialEq, Eq)]
pub struct Counts {
    pub limits: u64,
    pub quanta: u64,
    pub replenishments: u64,
    pub amounts: u64,
}

/// The numbers of each thread.
pub type Told = [Counts; THREADS];

pub const NOTHING_TOLD: Told = [Counts {
    limits: 0,
    quanta: 0,
    replenishments: 0,
    amounts: 0,
}; THREADS];

impl AddAssign for Counts {
    fn add_assign(&mut self, other: Counts) {
        self.limits += other.limits;
        self.quanta += other.quanta;
        self.replenishments += other.replenishments;
        self.amounts += other.amounts;
    }
}

impl Counts {
    fn line(&self, text: &mut String, word: &str, thread: usize) {
        let Counts {
            limits,
            quanta,
            replenishments,
            amounts,
        } = self;
        writeln!(
            text,
            "{word} {thread} {limits} {quanta} {replenishments} {amounts}"
        )
        .expect("a text takes every line");
    }
}

/// The numbers of a replay; `refused n` for a file that can't be replayed.
pub fn counts(file: &[u8]) -> String {
    match replay(file) {
        Ok((n, answers)) => counts_text(n, &answers),
        Err(status) => format!("refused {status}\n"),
    }
}

/// N, and the status and the numbers of each event.
fn replay(file: &[u8]) -> Result<(usize, Vec<(u8, Told)>), u8> {
    let trace = read(file)?;
    let (answer, mut s) = open(trace.start, trace.n, &trace.table());
    if answer.status != status::ACCEPTED {
        return Err(answer.status);
    }
    let answers = trace.map(|e| {
        let (a, told) = event_told(&mut s, &e);
        (a.status, told)
    });
    Ok((trace.n as usize, answers.collect()))
}

/// For each event a line with its status and one for each thread with a number that
/// isn't 0; at the end the sums of each of the `n` threads.
pub fn counts_text(n: usize, answers: &[(u8, Told)]) -> String {
    let mut text = String::new();
    let mut sums = NOTHING_TOLD;
    for (k, (status, told)) in answers.iter().enumerate() {
        writeln!(text, "event {k} {status}").expect("a text takes every line");
        for (i, numbers) in told.iter().enumerate() {
            if *numbers != Counts::default() {
                numbers.line(&mut text, "count", i);
            }
            sums[i] += *numbers;
        }
    }
    for (i, numbers) in sums[..n].iter().enumerate() {
        numbers.line(&mut text, "sum", i);
    }
    text
}
