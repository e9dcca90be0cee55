//! Opening, the passing of time and the events (01, Passing of time, Events,
//! Status numbers). Nothing is remembered from one step to the next but the
//! state: who runs and what comes next are looked up anew.

use crate::counts::{Told, NOTHING_TOLD};
use crate::state::{assigned, in_range, sound, upper, Parameters, State, Thread};
use crate::{status, BLOCK, CLOCK, MAX_STEP, MAX_TIME, NOBODY, PENDING, RR, SET, SPORADIC};
use crate::{THREADS, WAKE, YIELD};

#[derive(Clone, Copy, Debug, Default, PartialEq, Eq)]
pub struct Event {
    pub time: u64,
    pub kind: u8,
    pub thread: u8,
    pub parameters: Parameters,
}

/// 01 Events 8: status, running thread (255 for none), next moment (0 for none).
#[derive(Clone, Copy, Debug, PartialEq, Eq)]
pub struct Answer {
    pub status: u8,
    pub running: u8,
    pub next: u64,
}

fn answer(s: &State, status: u8) -> Answer {
    Answer {
        status,
        running: running(s),
        next: next_moment(s),
    }
}

/// The answer where there is no state to speak of.
fn nothing(status: u8) -> Answer {
    Answer {
        status,
        running: NOBODY,
        next: 0,
    }
}

// ---------------------------------------------------------------- opening

/// Opens a state. Only the first `n` places of the table are looked at.
pub fn open(start: u64, n: u32, table: &[Parameters; THREADS]) -> (Answer, State) {
    match opened(start, n, table) {
        Ok(s) => (answer(&s, status::ACCEPTED), s),
        // 01 Status 20
        Err(status) => (nothing(status), State::default()),
    }
}

/// 01 Status 16: 5, 3, 6. 01 Events 7: the same as set for every thread in number
/// order, at the start time; runnable ones enter their lists in that order.
fn opened(start: u64, n: u32, table: &[Parameters; THREADS]) -> Result<State, u8> {
    if n < 1 || n as usize > THREADS {
        return Err(status::THREAD);
    }
    if start > MAX_TIME {
        return Err(status::TIME);
    }
    let table = &table[..n as usize];
    if !table.iter().all(|p| in_range(p) && p.flag <= 1) {
        return Err(status::PARAMETERS);
    }
    let mut s = State {
        n,
        start,
        now: start,
        ..State::default()
    };
    for (i, p) in table.iter().enumerate() {
        renew(&mut s, i, p);
        s.threads[i].blocked = (p.flag == 0) as u8;
        if p.flag == 1 {
            join(&mut s, i, p.priority);
        }
    }
    Ok(s)
}

// ----------------------------------------------------------------- events

/// One event on any state. 01 Status 19: a refused one leaves the given state,
/// time included.
pub fn event(s: &mut State, e: &Event) -> Answer {
    event_told(s, e).0
}

/// The same, and 02 E3 2: what happened to each thread in the moments before the
/// event and in its own effect. 02 E3 5: a refused event reports zeros.
pub fn event_told(s: &mut State, e: &Event) -> (Answer, Told) {
    if !sound(s) {
        return (nothing(status::UNSOUND), NOTHING_TOLD);
    }
    match after(s, e) {
        Ok((new, told)) => {
            *s = new;
            (answer(s, status::ACCEPTED), told)
        }
        Err(status) => (answer(s, status), NOTHING_TOLD),
    }
}

/// The state after an event and what happened, or its refusal. 01 Status 15: 4, 5,
/// 6, 3, 1, 2; then time passes, and 7, 8 and after them 15 (02 E7 9) are judged at
/// the event's time.
fn after(given: &State, e: &Event) -> Result<(State, Told), u8> {
    if e.kind > SET {
        return Err(status::KIND);
    }
    let names_thread = e.kind == WAKE || e.kind == SET;
    if names_thread && e.thread as u32 >= given.n || !names_thread && e.thread != 0 {
        return Err(status::THREAD);
    }
    if e.kind == SET && !(in_range(&e.parameters) && e.parameters.flag == 0)
        || e.kind != SET && e.parameters != Parameters::default()
    {
        return Err(status::PARAMETERS);
    }
    if e.time > MAX_TIME {
        return Err(status::TIME);
    }
    if e.time < given.now {
        return Err(status::EARLY);
    }
    if e.time - given.now > MAX_STEP {
        return Err(status::FAR);
    }
    let mut s = *given;
    let mut told = pass(&mut s, e.time);
    let runs = running(&s);
    let i = e.thread as usize;
    match e.kind {
        BLOCK | YIELD if runs == NOBODY => return Err(status::NOTHING_RUNS),
        WAKE if s.threads[i].runnable() => return Err(status::NOT_BLOCKED),
        SET if carries(&s.threads[i], &e.parameters) => {
            if !can_carry(&s.threads[i], &e.parameters) {
                return Err(status::NOT_CARRIED);
            }
            carry(&mut s, i, &e.parameters);
        }
        BLOCK => block(&mut s, runs as usize, &mut told),
        YIELD => yield_(&mut s, runs as usize),
        WAKE => wake(&mut s, i),
        SET => set(&mut s, i, &e.parameters),
        CLOCK => {}
        _ => unreachable!("a kind above 4 is refused"),
    }
    Ok((s, told))
}

/// 01 Events 3: the running thread leaves its list; if sporadic, U is scheduled.
fn block(s: &mut State, i: usize, told: &mut Told) {
    leave(s, i);
    s.threads[i].blocked = 1;
    if s.threads[i].parameters.policy == SPORADIC {
        schedule(s, i, told);
    }
}

/// 01 Events 4: the running thread becomes the tail of its list; RR gets a full
/// quantum; activation time unchanged. No quantum ended: a refill here, at a wake
/// or at a set tells nothing (ours).
fn yield_(s: &mut State, i: usize) {
    let own = assigned(&s.threads[i]);
    leave(s, i);
    join(s, i, own);
    refill(&mut s.threads[i]);
}

/// 01 Events 5: the thread becomes the tail of its assigned list; sporadic at
/// upper priority: activation time = now; RR: full quantum.
fn wake(s: &mut State, i: usize) {
    let own = assigned(&s.threads[i]);
    s.threads[i].blocked = 0;
    join(s, i, own);
    let t = &mut s.threads[i];
    if t.parameters.policy == SPORADIC && upper(t) {
        t.activation = s.now;
    }
    refill(t);
}

/// 02 E7 2: a set to sporadic of a thread already sporadic carries its account over.
pub fn carries(t: &Thread, p: &Parameters) -> bool {
    p.policy == SPORADIC && t.parameters.policy == SPORADIC
}

/// 02 E7 9: not if C < B and B - C is at least the capacity, or if the new max_repl is
/// below the pending count or equals it for a runnable thread at its upper priority.
fn can_carry(t: &Thread, p: &Parameters) -> bool {
    let (b, c) = (t.parameters.budget, p.budget);
    let too_little = c < b && b - c >= t.capacity;
    let too_many = p.max_repl < t.pending;
    let no_longer_upper = p.max_repl == t.pending && t.runnable() && upper(t);
    !too_little && !too_many && !no_longer_upper
}

/// 02 E7 2 to 6: capacity grows by C - B or shrinks by B - C; U and pending entries
/// stay. The assigned priority follows the usual rule, and a runnable thread that goes
/// from low to upper gets activation time now, any other keeps its own. 01 Events 6: a
/// runnable thread becomes the tail of its new list, a blocked one stays blocked.
fn carry(s: &mut State, i: usize, p: &Parameters) {
    let t = &mut s.threads[i];
    let was_low = !upper(t);
    let (b, c) = (t.parameters.budget, p.budget);
    if c >= b {
        t.capacity += c - b;
    } else {
        t.capacity -= b - c;
    }
    t.parameters = Parameters { flag: 0, ..*p };
    if !t.runnable() {
        return;
    }
    if was_low && upper(t) {
        t.activation = s.now;
    }
    let own = assigned(t);
    leave(s, i);
    join(s, i, own);
}

/// 01 Events 6, and 02 E7 7: any other set stays as it was. A runnable thread becomes
/// the tail of its new list, a blocked one stays blocked.
fn set(s: &mut State, i: usize, p: &Parameters) {
    if s.threads[i].runnable() {
        leave(s, i);
    }
    renew(s, i, p);
    if s.threads[i].runnable() {
        join(s, i, p.priority);
    }
}

/// 01 Events 6: new parameters; capacity = budget, U = 0, none pending,
/// activation = now, full quantum; what the policy doesn't use is 0 (01 State 17).
fn renew(s: &mut State, i: usize, p: &Parameters) {
    let old = s.threads[i];
    let mut t = Thread {
        parameters: Parameters { flag: 0, ..*p },
        blocked: old.blocked,
        total: old.total,
        ..Thread::default()
    };
    if p.policy == SPORADIC {
        t.capacity = p.budget;
        t.activation = s.now;
    }
    refill(&mut t);
    s.threads[i] = t;
}

/// A full quantum, if RR.
fn refill(t: &mut Thread) {
    if t.parameters.policy == RR {
        t.quantum = t.parameters.budget;
    }
}

// --------------------------------------------------------- passing of time

/// 01 Passing 2: now + capacity, if the running thread is sporadic at its upper
/// priority; now + quantum left, if it is RR; any pending due. All of them.
fn moments(s: &State) -> impl Iterator<Item = u64> + '_ {
    let runs = running(s);
    let own = s
        .threads
        .get(runs as usize)
        .and_then(|t| match t.parameters.policy {
            SPORADIC if upper(t) => Some(s.now + t.capacity),
            RR => Some(s.now + t.quantum),
            _ => None,
        });
    let threads = s.threads[..s.n as usize].iter();
    let dues = threads.flat_map(|t| t.dues[..t.pending as usize].iter().copied());
    own.into_iter().chain(dues)
}

/// 01 Passing 1 to 8: moments up to and including a time, and what is left of the
/// way to it; what happened at them. For sound states.
pub fn pass(s: &mut State, time: u64) -> Told {
    let mut told = NOTHING_TOLD;
    while let Some(moment) = moments(s).min().filter(|&m| m <= time) {
        let charged = elapse(s, moment);
        // 1. Limit reached, or quantum 0.
        if let Some(i) = charged {
            limit(s, i, &mut told);
        }
        // 2. Replenishments due now, by thread number.
        for i in 0..s.n as usize {
            replenish_due(s, i, &mut told);
        }
    }
    elapse(s, time);
    told
}

/// 01 Passing 3 and 4: the elapsed ticks are added to the running thread's total
/// (or to idle), taken from the RR quantum, or moved from capacity to U. At low
/// priority nothing is charged. Gives the thread whose quantum or capacity it was.
fn elapse(s: &mut State, to: u64) -> Option<usize> {
    let ticks = to - s.now;
    let runs = running(s);
    s.now = to;
    if runs == NOBODY {
        s.idle += ticks;
        return None;
    }
    let t = &mut s.threads[runs as usize];
    t.total += ticks;
    if t.parameters.policy == RR {
        t.quantum -= ticks;
    } else if t.parameters.policy == SPORADIC && upper(t) {
        t.capacity -= ticks;
        t.used += ticks;
    } else {
        return None;
    }
    Some(runs as usize)
}

/// 01 Passing 6 and 7, of the thread that was charged. Limit reached (capacity 0):
/// the thread becomes the tail of its low list and U is scheduled. Or quantum 0:
/// the thread becomes the tail of its list with a full quantum.
fn limit(s: &mut State, i: usize, told: &mut Told) {
    let t = &s.threads[i];
    let p = t.parameters;
    if p.policy == SPORADIC && t.capacity == 0 {
        told[i].limits += 1;
        leave(s, i);
        join(s, i, p.low);
        schedule(s, i, told);
    } else if p.policy == RR && t.quantum == 0 {
        told[i].quanta += 1;
        leave(s, i);
        join(s, i, p.priority);
        refill(&mut s.threads[i]);
    }
}

/// 01 Passing 8: a thread's replenishments that are due now; since 02 E7 3 there may
/// be several, which come back in their order.
fn replenish_due(s: &mut State, i: usize, told: &mut Told) {
    while s.threads[i].pending > 0 && s.threads[i].dues[0] == s.now {
        let t = &mut s.threads[i];
        // Whether it was at low is judged with this replenishment still pending.
        let was_low = !upper(t);
        let amount = t.amounts[0];
        t.dues.rotate_left(1);
        t.amounts.rotate_left(1);
        t.dues[PENDING - 1] = 0;
        t.amounts[PENDING - 1] = 0;
        t.pending -= 1;
        replenish(s, i, amount, was_low, told);
    }
}

/// 01 Passing 9 to 11: amount = U, due = activation time + period, U becomes 0.
/// Amount 0 schedules nothing. Due at or before now: carried out at once and
/// never pending. 02 E7 3: pending ones stand in due order, after those of equal due.
fn schedule(s: &mut State, i: usize, told: &mut Told) {
    let t = &mut s.threads[i];
    let amount = t.used;
    let due = t.activation + t.parameters.period;
    t.used = 0;
    if amount == 0 {
        return;
    }
    if due <= s.now {
        let was_low = !upper(t);
        replenish(s, i, amount, was_low, told);
    } else {
        let count = t.pending as usize;
        let later = t.dues[..count].iter().position(|&other| other > due);
        let place = later.unwrap_or(count);
        t.dues[place..=count].rotate_right(1);
        t.amounts[place..=count].rotate_right(1);
        t.dues[place] = due;
        t.amounts[place] = amount;
        t.pending += 1;
    }
}

/// 01 Passing 13 to 15: capacity + amount, held at budget. A runnable thread that
/// was at low becomes the tail of its upper list and its activation time becomes
/// now. One already at its upper priority doesn't move and keeps its activation
/// time. What is told is the entry's amount, also where capacity is held at budget
/// (ours).
fn replenish(s: &mut State, i: usize, amount: u64, was_low: bool, told: &mut Told) {
    told[i].replenishments += 1;
    told[i].amounts += amount;
    let t = &mut s.threads[i];
    t.capacity = (t.capacity + amount).min(t.parameters.budget);
    if t.runnable() && was_low {
        t.activation = s.now;
        let own = t.parameters.priority;
        leave(s, i);
        join(s, i, own);
    }
}

// ------------------------------------------------------------ what is read

/// 01 State 4 and 18: the running thread is the head of the highest list, which is
/// found from the word's leading zeros; 255 for none. For sound states.
pub fn running(s: &State) -> u8 {
    match 32 - s.word.leading_zeros() {
        0 => NOBODY,
        p => s.lists[p as usize - 1].members[0],
    }
}

/// The next moment; 0 for none. For sound states.
pub fn next_moment(s: &State) -> u64 {
    moments(s).min().unwrap_or(0)
}

// ------------------------------------------------------------------- lists

/// Thread `i` becomes the tail of list `p`.
fn join(s: &mut State, i: usize, p: u8) {
    let list = &mut s.lists[p as usize - 1];
    list.members[list.length as usize] = i as u8;
    list.length += 1;
    s.word |= 1 << (p - 1);
}

/// Thread `i` leaves the list in which it stands; those behind it move up.
fn leave(s: &mut State, i: usize) {
    for (k, list) in s.lists.iter_mut().enumerate() {
        let members = &mut list.members[..list.length as usize];
        let Some(at) = members.iter().position(|&m| m as usize == i) else {
            continue;
        };
        members[at..].rotate_left(1);
        list.length -= 1;
        list.members[list.length as usize] = 0;
        if list.length == 0 {
            s.word &= !(1 << k);
        }
    }
}
