//! The state and when it is sound (01, State).

use crate::{FIFO, MAX_TICKS, MAX_TIME, PENDING, PRIORITIES, RR, SPORADIC, THREADS};

/// A thread's parameters, as in the file's thread record. `budget` is the
/// quantum for RR. `flag` is the start flag; it is 0 inside a state.
#[derive(Clone, Copy, Debug, Default, PartialEq, Eq)]
pub struct Parameters {
    pub policy: u8,
    pub priority: u8,
    pub low: u8,
    pub max_repl: u8,
    pub flag: u32,
    pub budget: u64,
    pub period: u64,
}

/// One thread. Fields that its policy doesn't use hold 0, and so do the places
/// of `dues` and `amounts` from `pending` on.
#[derive(Clone, Copy, Debug, Default, PartialEq, Eq)]
pub struct Thread {
    pub parameters: Parameters,
    pub blocked: bool,
    pub pending: u8,
    pub total: u64,
    /// Quantum left (RR).
    pub quantum: u64,
    pub capacity: u64,
    /// Charged time not yet scheduled, 01's U.
    pub used: u64,
    pub activation: u64,
    pub dues: [u64; PENDING],
    pub amounts: [u64; PENDING],
}

/// The list of one priority, head first; places from `length` on hold 0.
#[derive(Clone, Copy, Debug, Default, PartialEq, Eq)]
pub struct List {
    pub length: u8,
    pub members: [u8; THREADS],
}

/// The whole state. Threads from `n` on are all zeros. The list of priority p
/// is `lists[p - 1]`, and bit p - 1 of `word` says whether it holds a thread.
#[derive(Clone, Copy, Debug, Default, PartialEq, Eq)]
pub struct State {
    pub n: u32,
    pub start: u64,
    pub now: u64,
    pub idle: u64,
    pub word: u32,
    pub threads: [Thread; THREADS],
    pub lists: [List; PRIORITIES],
}

/// 01, Numbers: the parameters without the start flag, unused fields 0.
pub fn in_range(p: &Parameters) -> bool {
    let priority = 1 <= p.priority && p.priority as usize <= PRIORITIES;
    let budget = 1 <= p.budget && p.budget <= MAX_TICKS;
    let not_sporadic = p.low == 0 && p.max_repl == 0 && p.period == 0;
    match p.policy {
        FIFO => priority && not_sporadic && p.budget == 0,
        RR => priority && not_sporadic && budget,
        SPORADIC => {
            priority
                && 1 <= p.low
                && p.low < p.priority
                && 1 <= p.max_repl
                && p.max_repl as usize <= PENDING
                && budget
                && p.budget <= p.period
                && p.period <= MAX_TICKS
        }
        _ => false,
    }
}

/// 01, State: a sporadic thread has its upper priority while it has capacity
/// and fewer than max_repl pending. Meant for sporadic threads only.
pub fn upper(t: &Thread) -> bool {
    t.capacity > 0 && t.pending < t.parameters.max_repl
}

/// The assigned priority.
pub fn assigned(t: &Thread) -> u8 {
    if t.parameters.policy == SPORADIC && !upper(t) {
        t.parameters.low
    } else {
        t.parameters.priority
    }
}

/// 01, State, "A state is sound when". Decides for any contents of any field:
/// nothing is used as an index or added up before it is known to be in range,
/// and sums over garbage are taken in u128.
pub fn sound(s: &State) -> bool {
    if s.n < 1 || s.n as usize > THREADS || s.start > s.now || s.now > MAX_TIME {
        return false;
    }
    let n = s.n as usize;
    let (used, rest) = s.threads.split_at(n);
    if rest.iter().any(|t| *t != Thread::default()) {
        return false;
    }
    if !used.iter().all(|t| thread_sound(s, t)) {
        return false;
    }
    // All run times + idle time = now - start.
    let run: u128 = used.iter().map(|t| t.total as u128).sum();
    if run + s.idle as u128 != (s.now - s.start) as u128 {
        return false;
    }
    lists_sound(s, used)
}

fn thread_sound(s: &State, t: &Thread) -> bool {
    let p = &t.parameters;
    if !in_range(p) || p.flag != 0 {
        return false;
    }
    let quantum = if p.policy == RR {
        1 <= t.quantum && t.quantum <= p.budget
    } else {
        t.quantum == 0
    };
    quantum
        && if p.policy == SPORADIC {
            account_sound(s, t)
        } else {
            // Fields that don't apply hold 0.
            t.capacity == 0
                && t.used == 0
                && t.activation == 0
                && t.pending == 0
                && t.dues == [0; PENDING]
                && t.amounts == [0; PENDING]
        }
}

/// The lines on capacity, U, pending and activation; parameters are in range.
fn account_sound(s: &State, t: &Thread) -> bool {
    let p = &t.parameters;
    if t.pending > p.max_repl {
        return false;
    }
    if t.activation < s.start || t.activation > s.now {
        return false;
    }
    let (dues, no_dues) = t.dues.split_at(t.pending as usize);
    let (amounts, no_amounts) = t.amounts.split_at(t.pending as usize);
    if no_dues.iter().chain(no_amounts).any(|&x| x != 0) {
        return false;
    }
    // Capacity + U + all pending amounts = budget; amounts >= 1.
    let pending: u128 = amounts.iter().map(|&a| a as u128).sum();
    if t.capacity as u128 + t.used as u128 + pending != p.budget as u128 || amounts.contains(&0) {
        return false;
    }
    // U = 0 if the thread is blocked or low; at most now - activation time.
    if (t.blocked || !upper(t)) && t.used != 0 {
        return false;
    }
    if t.used > s.now - t.activation {
        return false;
    }
    // Dues strictly rise, each after now and at most now + period - 1; for a
    // runnable thread at its upper priority each before activation + period.
    let mut before = s.now;
    for &due in dues {
        if due <= before {
            return false;
        }
        before = due;
    }
    let last = if !t.blocked && upper(t) {
        t.activation
    } else {
        s.now
    } + p.period
        - 1;
    dues.iter().all(|&due| due <= last)
}

/// A runnable thread stands once, in the list of its assigned priority; a
/// blocked one in none; the word agrees; places past a length hold 0.
fn lists_sound(s: &State, threads: &[Thread]) -> bool {
    let mut seen = 0u32;
    for (k, list) in s.lists.iter().enumerate() {
        let length = list.length as usize;
        if length == 0 && s.word >> k & 1 == 0 && list.members == [0; THREADS] {
            continue;
        }
        if length > THREADS || (s.word >> k & 1 == 1) != (length > 0) {
            return false;
        }
        let (members, rest) = list.members.split_at(length);
        if rest.iter().any(|&m| m != 0) {
            return false;
        }
        for &m in members {
            let Some(t) = threads.get(m as usize) else {
                return false;
            };
            if t.blocked || assigned(t) as usize != k + 1 || seen >> m & 1 == 1 {
                return false;
            }
            seen |= 1 << m;
        }
    }
    threads
        .iter()
        .enumerate()
        .all(|(i, t)| t.blocked || seen >> i & 1 == 1)
}
