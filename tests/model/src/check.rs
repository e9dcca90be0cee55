//! The check of another kernel's listing (02 E11).

use crate::event::open;
use crate::status;
use crate::trace::{listing, read};

#[derive(Clone, Copy, Debug, PartialEq, Eq)]
pub enum Verdict {
    /// It agrees byte for byte, last newline included.
    Yes,
    /// The first line that differs, is missing or is surplus, from 1.
    Line(usize),
    /// The trace's reading or opening is refused.
    Refused(u8),
}

/// 02 E11 3: refusals come before any line is compared. 02 E11 2: each line is
/// compared with its newline.
pub fn verdict(file: &[u8], theirs: &[u8]) -> Verdict {
    let trace = match read(file) {
        Err(status) => return Verdict::Refused(status),
        Ok(trace) => trace,
    };
    let (opening, _) = open(trace.start, trace.n, &trace.table());
    if opening.status != status::ACCEPTED {
        return Verdict::Refused(opening.status);
    }
    let ours = listing(file);
    let (ours, theirs) = (lines(&ours), lines(theirs));
    let both = 0..ours.len().max(theirs.len());
    match both.into_iter().find(|&k| ours.get(k) != theirs.get(k)) {
        Some(k) => Verdict::Line(k + 1),
        None => Verdict::Yes,
    }
}

/// The lines of a text, each with its newline; the last may lack it.
fn lines(text: &[u8]) -> Vec<&[u8]> {
    text.split_inclusive(|&b| b == b'\n').collect()
}
