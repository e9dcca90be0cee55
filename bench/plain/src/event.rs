//! Opening, the passing of time and the events (01, Passing of time, Events,
//! Status numbers).

use crate::state::{assigned, in_range, sound, upper, Parameters, State};
use crate::{status, BLOCK, MAX_STEP, MAX_TIME, NOBODY, PENDING, RR, SET, SPORADIC};
use crate::{THREADS, WAKE, YIELD};

#[derive(Clone, Copy, Debug, Default, PartialEq, Eq)]
pub struct Event {
    pub time: u64,
    pub kind: u8,
    pub thread: u8,
    pub parameters: Parameters,
}

/// Status, running thread (255 for none), next moment (0 for none).
#[derive(Clone, Copy, Debug, PartialEq, Eq)]
pub struct Answer {
    pub status: u8,
    pub running: u8,
    pub next: u64,
}

/// Inside the model "never" stands for no moment and no due.
const NEVER: u64 = u64::MAX;

// ---------------------------------------------------------------- opening

/// Opens a state; refusals 5, 3, 6 in this order. Only the first `n` places of
/// the table are looked at. A refused opening gives a state of zeros.
pub fn open(start: u64, n: u32, table: &[Parameters; THREADS]) -> (Answer, State) {
    let refused = |status| {
        (
            Answer {
                status,
                running: NOBODY,
                next: 0,
            },
            State::default(),
        )
    };
    if n < 1 || n as usize > THREADS {
        return refused(status::THREAD);
    }
    if start > MAX_TIME {
        return refused(status::TIME);
    }
    let table = &table[..n as usize];
    if !table.iter().all(|p| in_range(p) && p.flag <= 1) {
        return refused(status::PARAMETERS);
    }
    let mut s = State {
        n,
        start,
        now: start,
        ..State::default()
    };
    for (i, p) in table.iter().enumerate() {
        renew(&mut s, i, p);
        s.threads[i].blocked = p.flag == 0;
        if p.flag == 1 {
            push(&mut s, p.priority, i);
        }
    }
    let answer = answer(&s, status::ACCEPTED, earliest_due(&s));
    (answer, s)
}

// ----------------------------------------------------------------- events

/// One event on any state: 9 if it isn't sound, else `step`.
pub fn event(s: &mut State, e: &Event) -> Answer {
    if !sound(s) {
        return Answer {
            status: status::UNSOUND,
            running: NOBODY,
            next: 0,
        };
    }
    step(s, e)
}

/// One event on a sound state, for replays. A refused event changes nothing.
pub fn step(s: &mut State, e: &Event) -> Answer {
    let refusal = judge(s, e);
    if refusal != status::ACCEPTED {
        return answer(s, refusal, earliest_due(s));
    }
    let mut due = advance(s, e.time);
    match e.kind {
        BLOCK => due = due.min(block(s)),
        YIELD => yield_(s),
        WAKE => wake(s, e.thread as usize),
        SET => {
            set(s, e.thread as usize, &e.parameters);
            due = earliest_due(s);
        }
        _ => {}
    }
    answer(s, status::ACCEPTED, due)
}

/// The status of an event: 4, 5, 6, 3, 1, 2, then 7 and 8 (01, Status numbers).
///
/// 7 and 8 speak of the event's time. Passing time moves threads between lists
/// but neither blocks nor wakes one, so both can be told from the given state.
fn judge(s: &State, e: &Event) -> u8 {
    if e.kind > SET {
        return status::KIND;
    }
    let thread = if e.kind == WAKE || e.kind == SET {
        (e.thread as u32) < s.n
    } else {
        e.thread == 0
    };
    if !thread {
        return status::THREAD;
    }
    let parameters = if e.kind == SET {
        in_range(&e.parameters) && e.parameters.flag == 0
    } else {
        e.parameters == Parameters::default()
    };
    if !parameters {
        return status::PARAMETERS;
    }
    if e.time > MAX_TIME {
        return status::TIME;
    }
    if e.time < s.now {
        return status::EARLY;
    }
    if e.time - s.now > MAX_STEP {
        return status::FAR;
    }
    match e.kind {
        BLOCK | YIELD if s.word == 0 => status::NOTHING_RUNS,
        WAKE if !s.threads[e.thread as usize].blocked => status::NOT_BLOCKED,
        _ => status::ACCEPTED,
    }
}

/// Block: the running thread leaves its list; if sporadic, U is scheduled.
/// Gives the new pending due, if there is one.
fn block(s: &mut State) -> u64 {
    let (p, i) = head(s);
    remove(s, p, i);
    s.threads[i].blocked = true;
    schedule(s, i)
}

/// Yield: the running thread becomes the tail of its list; RR gets a full
/// quantum. The activation time stays.
fn yield_(s: &mut State) {
    let (p, i) = head(s);
    rotate(s, p);
    refill(s, i);
}

/// Wake: tail of the assigned list; sporadic at upper priority gets a new
/// activation time, RR a full quantum.
fn wake(s: &mut State, i: usize) {
    s.threads[i].blocked = false;
    refill(s, i);
    let p = assigned(&s.threads[i]);
    push(s, p, i);
    let now = s.now;
    let t = &mut s.threads[i];
    if t.parameters.policy == SPORADIC && upper(t) {
        t.activation = now;
    }
}

/// Set: new parameters; a runnable thread becomes the tail of its new list.
fn set(s: &mut State, i: usize, p: &Parameters) {
    let runnable = !s.threads[i].blocked;
    if runnable {
        let old = assigned(&s.threads[i]);
        remove(s, old, i);
    }
    renew(s, i, p);
    if runnable {
        push(s, p.priority, i);
    }
}

/// The account part of set, shared with opening: capacity = budget, U = 0, none
/// pending, activation = now, full quantum; what the policy doesn't use is 0.
/// The total run time stays. A renewed sporadic thread has its upper priority.
fn renew(s: &mut State, i: usize, p: &Parameters) {
    let now = s.now;
    let t = &mut s.threads[i];
    let sporadic = p.policy == SPORADIC;
    t.parameters = Parameters { flag: 0, ..*p };
    t.quantum = if p.policy == RR { p.budget } else { 0 };
    t.capacity = if sporadic { p.budget } else { 0 };
    t.activation = if sporadic { now } else { 0 };
    t.used = 0;
    t.pending = 0;
    t.dues = [0; PENDING];
    t.amounts = [0; PENDING];
}

/// A full quantum, if RR.
fn refill(s: &mut State, i: usize) {
    let t = &mut s.threads[i];
    if t.parameters.policy == RR {
        t.quantum = t.parameters.budget;
    }
}

// --------------------------------------------------------- passing of time

/// Lets time pass to `time`, moments at `time` included; gives the earliest
/// pending due afterwards. In a sound state every moment lies after now.
fn advance(s: &mut State, time: u64) -> u64 {
    let mut due = earliest_due(s);
    while s.now < time {
        let runs = running(s);
        let limit = limit(s, runs);
        let to = time.min(limit).min(due);
        charge(s, runs, to - s.now);
        s.now = to;
        // 1. Limit or end of quantum, before 2. replenishments.
        if to == limit {
            due = due.min(reach_limit(s));
        }
        if to == due {
            replenish_due(s);
            due = earliest_due(s);
        }
    }
    due
}

/// When the running thread reaches its limit or the end of its quantum.
fn limit(s: &State, runs: u8) -> u64 {
    if runs == NOBODY {
        return NEVER;
    }
    let t = &s.threads[runs as usize];
    match t.parameters.policy {
        RR => s.now + t.quantum,
        SPORADIC if upper(t) => s.now + t.capacity,
        _ => NEVER,
    }
}

/// The elapsed ticks go to the running thread's total or to idle, and off the
/// quantum, or from capacity to U. At low priority nothing is charged.
fn charge(s: &mut State, runs: u8, ticks: u64) {
    if runs == NOBODY {
        s.idle += ticks;
        return;
    }
    let t = &mut s.threads[runs as usize];
    t.total += ticks;
    match t.parameters.policy {
        RR => t.quantum -= ticks,
        SPORADIC if upper(t) => {
            t.capacity -= ticks;
            t.used += ticks;
        }
        _ => {}
    }
}

/// Moment, part 1: the running thread has used its quantum (tail of its list,
/// full quantum) or its capacity (tail of its low list, U is scheduled). Gives
/// the new pending due, if there is one.
fn reach_limit(s: &mut State) -> u64 {
    let (p, i) = head(s);
    if s.threads[i].parameters.policy == RR {
        rotate(s, p);
        refill(s, i);
        return NEVER;
    }
    remove(s, p, i);
    let low = s.threads[i].parameters.low;
    push(s, low, i);
    schedule(s, i)
}

/// Moment, part 2: the replenishments due now, by thread number. A thread's
/// dues strictly rise, so it has at most one, its first.
fn replenish_due(s: &mut State) {
    for i in 0..s.n as usize {
        let t = &mut s.threads[i];
        if t.pending == 0 || t.dues[0] != s.now {
            continue;
        }
        // Whether it was at low is judged with this replenishment still pending.
        let was_low = !upper(t);
        let amount = t.amounts[0];
        let count = t.pending as usize;
        t.dues.copy_within(1..count, 0);
        t.amounts.copy_within(1..count, 0);
        t.dues[count - 1] = 0;
        t.amounts[count - 1] = 0;
        t.pending -= 1;
        replenish(s, i, amount, was_low);
    }
}

/// Scheduling U: amount 0 schedules nothing; a due at or before now is carried
/// out at once and never pending. Gives the new pending due, if there is one.
fn schedule(s: &mut State, i: usize) -> u64 {
    let t = &mut s.threads[i];
    let amount = t.used;
    if amount == 0 {
        return NEVER;
    }
    t.used = 0;
    let due = t.activation + t.parameters.period;
    if due <= s.now {
        let was_low = !upper(t);
        replenish(s, i, amount, was_low);
        return NEVER;
    }
    // The thread was at its upper priority: fewer than max_repl are pending,
    // and each of them is due before activation + period.
    let count = t.pending as usize;
    t.dues[count] = due;
    t.amounts[count] = amount;
    t.pending += 1;
    due
}

/// Replenishing: capacity + amount, held at budget. A runnable thread that was
/// at low becomes the tail of its upper list and its activation time is now;
/// any other keeps its place and its activation time.
fn replenish(s: &mut State, i: usize, amount: u64, was_low: bool) {
    let now = s.now;
    let t = &mut s.threads[i];
    t.capacity = (t.capacity + amount).min(t.parameters.budget);
    if was_low && !t.blocked {
        t.activation = now;
        let (low, priority) = (t.parameters.low, t.parameters.priority);
        remove(s, low, i);
        push(s, priority, i);
    }
}

// ------------------------------------------------------------ what is read

/// The running thread: the head of the highest list, found from the word's
/// leading zeros; 255 for none. For sound states.
pub fn running(s: &State) -> u8 {
    if s.word == 0 {
        return NOBODY;
    }
    let highest = 31 - s.word.leading_zeros();
    s.lists[highest as usize].members[0]
}

/// The next moment; 0 for none. For sound states.
pub fn next_moment(s: &State) -> u64 {
    answer(s, status::ACCEPTED, earliest_due(s)).next
}

fn answer(s: &State, status: u8, due: u64) -> Answer {
    let running = running(s);
    let moment = limit(s, running).min(due);
    Answer {
        status,
        running,
        next: if moment == NEVER { 0 } else { moment },
    }
}

/// The earliest pending due; a thread's first due is its earliest.
fn earliest_due(s: &State) -> u64 {
    let threads = &s.threads[..s.n as usize];
    threads
        .iter()
        .filter(|t| t.pending > 0)
        .map(|t| t.dues[0])
        .min()
        .unwrap_or(NEVER)
}

// ------------------------------------------------------------------- lists

/// Priority and number of the running thread, where one runs.
fn head(s: &State) -> (u8, usize) {
    let highest = 31 - s.word.leading_zeros();
    (
        highest as u8 + 1,
        s.lists[highest as usize].members[0] as usize,
    )
}

/// Thread `i` becomes the tail of list `p`.
fn push(s: &mut State, p: u8, i: usize) {
    let list = &mut s.lists[p as usize - 1];
    list.members[list.length as usize] = i as u8;
    list.length += 1;
    s.word |= 1 << (p - 1);
}

/// Thread `i` leaves list `p`; those behind it move up.
fn remove(s: &mut State, p: u8, i: usize) {
    let list = &mut s.lists[p as usize - 1];
    let length = list.length as usize;
    if let Some(at) = list.members[..length].iter().position(|&m| m as usize == i) {
        list.members.copy_within(at + 1..length, at);
        list.members[length - 1] = 0;
        list.length -= 1;
        if list.length == 0 {
            s.word &= !(1 << (p - 1));
        }
    }
}

/// The head of list `p` becomes its tail.
fn rotate(s: &mut State, p: u8) {
    let list = &mut s.lists[p as usize - 1];
    list.members[..list.length as usize].rotate_left(1);
}
