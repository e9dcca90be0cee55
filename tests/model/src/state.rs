//! The state and when it is sound (01, State).

use crate::{FARTHEST_DUE, FIFO, MAX_TICKS, MAX_TIME, PENDING, PRIORITIES, RR, SPORADIC, THREADS};

/// A thread's parameters, as in the file's thread record. `budget` is the
/// quantum for RR. `flag` is the start flag; it is 0 inside a state.
#[derive(Clone, Copy, Debug, Default, PartialEq, Eq)]
pub struct Parameters {
    pub policy: u8,
    pub priority: u8,
    pub low: u8,
    pub max_repl: u8,
    pub flag: u32,
    pub budget: u64,
    pub period: u64,
}

/// One thread. Fields that its policy doesn't use hold 0, and so do the places
/// of `dues` and `amounts` from `pending` on.
#[derive(Clone, Copy, Debug, Default, PartialEq, Eq)]
pub struct Thread {
    pub parameters: Parameters,
    /// 1 where it is blocked, 0 where it is runnable; no other number says either.
    pub blocked: u8,
    pub pending: u8,
    pub total: u64,
    /// Quantum left (RR).
    pub quantum: u64,
    pub capacity: u64,
    /// Charged time not yet scheduled, 01's U.
    pub used: u64,
    pub activation: u64,
    pub dues: [u64; PENDING],
    pub amounts: [u64; PENDING],
}

impl Thread {
    pub fn runnable(&self) -> bool {
        self.blocked == 0
    }
}

/// The list of one priority, head first; places from `length` on hold 0.
#[derive(Clone, Copy, Debug, Default, PartialEq, Eq)]
pub struct List {
    pub length: u8,
    pub members: [u8; THREADS],
}

/// The whole state. Threads from `n` on are all zeros. The list of priority p
/// is `lists[p - 1]`, and bit p - 1 of `word` says whether it holds a thread.
#[derive(Clone, Copy, Debug, Default, PartialEq, Eq)]
pub struct State {
    pub n: u32,
    pub start: u64,
    pub now: u64,
    pub idle: u64,
    pub word: u32,
    pub threads: [Thread; THREADS],
    pub lists: [List; PRIORITIES],
}

/// 01 Numbers 2 to 4 and 8 to 10: the parameters without the start flag, unused
/// fields 0.
pub fn in_range(p: &Parameters) -> bool {
    let priority = 1 <= p.priority && p.priority as usize <= PRIORITIES;
    let budget = 1 <= p.budget && p.budget <= MAX_TICKS;
    let not_sporadic = p.low == 0 && p.max_repl == 0 && p.period == 0;
    match p.policy {
        FIFO => priority && not_sporadic && p.budget == 0,
        RR => priority && not_sporadic && budget,
        SPORADIC => {
            priority
                && 1 <= p.low
                && p.low < p.priority
                && 1 <= p.max_repl
                && p.max_repl as usize <= PENDING
                && budget
                && p.budget <= p.period
                && p.period <= MAX_TICKS
        }
        _ => false,
    }
}

/// 01 State 9: a sporadic thread has its upper priority while it has capacity
/// and fewer than max_repl pending. Meant for sporadic threads only.
pub fn upper(t: &Thread) -> bool {
    t.capacity > 0 && t.pending < t.parameters.max_repl
}

/// 01 State 9: the assigned priority.
pub fn assigned(t: &Thread) -> u8 {
    if t.parameters.policy == SPORADIC && !upper(t) {
        t.parameters.low
    } else {
        t.parameters.priority
    }
}

/// 01 State 5: the list's lines, in 01's order. Decides for any contents of any
/// field: the lines after State 6 may count on N, parameters and times in range,
/// no line on more, and sums are taken in u128.
pub fn sound(s: &State) -> bool {
    if s.n < 1 || s.n as usize > THREADS {
        return false;
    }
    let (threads, past) = s.threads.split_at(s.n as usize);
    // State 6
    threads.iter().all(|t| in_range(&t.parameters))
        && s.start <= s.now
        && s.now <= MAX_TIME
        // State 2, 7, 8
        && threads.iter().all(|t| t.blocked <= 1)
        && stands(s, threads)
        && word_agrees(s)
        // State 10 to 13
        && threads
            .iter()
            .filter(|t| t.parameters.policy == SPORADIC)
            .all(|t| sums(t) && used(s, t) && dues(s, t) && activation(s, t))
        // State 15
        && threads
            .iter()
            .filter(|t| t.parameters.policy == RR)
            .all(|t| 1 <= t.quantum && t.quantum <= t.parameters.budget)
        // State 16
        && threads.iter().map(|t| t.total as u128).sum::<u128>() + s.idle as u128
            == (s.now - s.start) as u128
        // State 17
        && threads.iter().all(unused_are_zero)
        && past.iter().all(|t| *t == Thread::default())
        && s.lists.iter().all(|l| l.members.iter().skip(l.length as usize).all(|&m| m == 0))
}

/// The members of a list; no more than it has places.
fn members(list: &List) -> &[u8] {
    &list.members[..(list.length as usize).min(THREADS)]
}

/// 01 State 7: a runnable thread stands once, in the list of its assigned
/// priority; a blocked one in none. Nothing else stands in a list.
fn stands(s: &State, threads: &[Thread]) -> bool {
    let times = |list: &List, i: usize| members(list).iter().filter(|&&m| m as usize == i).count();
    let once_or_none = |(i, t): (usize, &Thread)| {
        let all: usize = s.lists.iter().map(|list| times(list, i)).sum();
        if t.runnable() {
            all == 1 && times(&s.lists[assigned(t) as usize - 1], i) == 1
        } else {
            all == 0
        }
    };
    threads.iter().enumerate().all(once_or_none)
        && s.lists.iter().all(|list| {
            list.length as usize <= THREADS && members(list).iter().all(|&m| (m as u32) < s.n)
        })
}

/// 01 State 8, and State 4: bit p - 1 is set exactly when list p holds a thread.
fn word_agrees(s: &State) -> bool {
    (1..=PRIORITIES).all(|p| (s.word >> (p - 1) & 1 == 1) == (s.lists[p - 1].length > 0))
}

/// The pending replenishments, each a due time and an amount.
fn pending(t: &Thread) -> impl Iterator<Item = (u64, u64)> + '_ {
    let entries = t.dues.iter().copied().zip(t.amounts);
    entries.take(t.pending as usize)
}

/// 01 State 10: capacity + U + all pending amounts = budget.
fn sums(t: &Thread) -> bool {
    let amounts: u128 = pending(t).map(|(_, amount)| amount as u128).sum();
    t.capacity as u128 + t.used as u128 + amounts == t.parameters.budget as u128
}

/// 01 State 11: U = 0 if the thread is blocked or low; U is at most now -
/// activation time.
fn used(s: &State, t: &Thread) -> bool {
    let must_be_zero = !t.runnable() || !upper(t);
    (!must_be_zero || t.used == 0) && t.used as u128 + t.activation as u128 <= s.now as u128
}

/// 01 State 12: pending count <= max_repl; amounts >= 1. 02 E7 4, in place of what
/// State 12 and 14 ask of dues: they don't fall and lie after now by at most
/// 1,000,000,000 ticks.
fn dues(s: &State, t: &Thread) -> bool {
    let fall = pending(t)
        .zip(pending(t).skip(1))
        .any(|((due, _), (later, _))| later < due);
    t.pending <= t.parameters.max_repl
        && pending(t).all(|(_, amount)| amount >= 1)
        && !fall
        && pending(t).all(|(due, _)| s.now < due && due - s.now <= FARTHEST_DUE)
}

/// 01 State 13: activation time lies between start and now.
fn activation(s: &State, t: &Thread) -> bool {
    s.start <= t.activation && t.activation <= s.now
}

/// 01 State 17: fields that don't apply hold 0. Inside a state the start flag
/// doesn't, nor does a place from the pending count on.
fn unused_are_zero(t: &Thread) -> bool {
    let places = || t.dues.iter().zip(&t.amounts).skip(t.pending as usize);
    let account = t.capacity == 0 && t.used == 0 && t.activation == 0 && t.pending == 0;
    t.parameters.flag == 0
        && (t.parameters.policy == RR || t.quantum == 0)
        && (t.parameters.policy == SPORADIC || account)
        && places().all(|(due, amount)| *due == 0 && *amount == 0)
}
