//! An independent model of the executive's rules (01-scope and the change requests,
//! called 01 and 02 here), written from their words alone: it shares no shortcut
//! with the code, and where they say a thing twice, so does the model. A sentence is
//! cited as `01 State 7`, the seventh of its section, or as `02 E1 3`. Speed is not
//! its business.
//!
//! One processor; SCHED_FIFO, SCHED_RR and SCHED_SPORADIC; the state, the events, the
//! trace file's reader and writer, the listing of a replay and the check of another
//! one, traces as text, the search for the next due, what happened while time passed,
//! events at a reading of a counter, shares, and the most that a sporadic thread takes.
#![forbid(unsafe_code)]

mod bound;
mod check;
mod counter;
mod counts;
mod decimal;
mod event;
pub mod random;
mod search;
mod shares;
mod state;
mod text;
mod trace;

pub use bound::bound;
pub use check::{verdict, Verdict};
pub use counter::{counter_event, counter_time, elapsed, CounterEvent};
pub use counts::{counts, counts_text, Counts, Told, NOTHING_TOLD};
pub use decimal::{decimal, significant, SIGNIFICANT};
pub use event::{carries, event, event_told, next_moment, open, pass, running, Answer, Event};
pub use search::{next_due, Dues};
pub use shares::{share, share_listing, summary, Summary};
pub use state::{assigned, in_range, sound, upper, List, Parameters, State, Thread};
pub use text::{from_text, to_text, Made};
pub use trace::{listing, read, total_bytes, write, Trace};

// 01, Numbers.
pub const THREADS: usize = 32;
pub const PRIORITIES: usize = 32;
pub const PENDING: usize = 8;
pub const MAX_TICKS: u64 = 1_000_000_000;
pub const MAX_TIME: u64 = 1_000_000_000_000_000;
pub const MAX_STEP: u64 = 1_000_000;
pub const MAX_EVENTS: usize = 1_500;

/// 02 E7 4: the most ticks by which a due lies after now.
pub const FARTHEST_DUE: u64 = 1_000_000_000;

// 01, Trace file: the policies' numbers.
pub const FIFO: u8 = 0;
pub const RR: u8 = 1;
pub const SPORADIC: u8 = 2;

// 01, Events: the kinds.
pub const CLOCK: u8 = 0;
pub const BLOCK: u8 = 1;
pub const YIELD: u8 = 2;
pub const WAKE: u8 = 3;
pub const SET: u8 = 4;

/// The running thread when nothing runs (01, Events).
pub const NOBODY: u8 = 255;

/// 01, Status numbers.
pub mod status {
    pub const ACCEPTED: u8 = 0;
    pub const EARLY: u8 = 1;
    pub const FAR: u8 = 2;
    pub const TIME: u8 = 3;
    pub const KIND: u8 = 4;
    pub const THREAD: u8 = 5;
    pub const PARAMETERS: u8 = 6;
    pub const NOTHING_RUNS: u8 = 7;
    pub const NOT_BLOCKED: u8 = 8;
    pub const UNSOUND: u8 = 9;
    pub const SHORT: u8 = 10;
    pub const HEADER: u8 = 11;
    pub const BUFFER: u8 = 12;
    pub const FILLER: u8 = 13;
    /// 02 E1
    pub const TEXT: u8 = 14;
    /// 02 E7
    pub const NOT_CARRIED: u8 = 15;
}
