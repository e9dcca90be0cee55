//! Random inputs for tests: a splitmix generator, and from it parameters,
//! tables, events and made-up states, with numbers kept small and instants
//! often shared so that limits, quanta and dues collide.

use crate::event::{next_moment, pass, running, Event};
use crate::state::{assigned, Parameters, State, Thread};
use crate::{BLOCK, CLOCK, FARTHEST_DUE, FIFO, MAX_STEP, MAX_TICKS, MAX_TIME, NOBODY, PENDING};
use crate::{RR, SET, SPORADIC, THREADS, WAKE, YIELD};

/// What the events of a case aim at.
#[derive(Clone, Copy, Debug, PartialEq, Eq)]
pub enum Aim {
    /// All kinds, at all sorts of times.
    Any,
    /// More blocks than wakes, so that often nothing runs.
    Idle,
    /// Short runs that end in a block, so that replenishments pile up.
    Pending,
    /// Times at which something happens.
    Instants,
    /// Sets of sporadic threads, so that accounts are carried over with what they hold.
    Carry,
}

/// Splitmix64.
#[derive(Clone, Debug)]
pub struct Random {
    pub seed: u64,
}

impl Random {
    pub fn new(seed: u64) -> Random {
        Random { seed }
    }

    pub fn bits(&mut self) -> u64 {
        self.seed = self.seed.wrapping_add(0x9e37_79b9_7f4a_7c15);
        let mut z = self.seed;
        z = (z ^ (z >> 30)).wrapping_mul(0xbf58_476d_1ce4_e5b9);
        z = (z ^ (z >> 27)).wrapping_mul(0x94d0_49bb_1331_11eb);
        z ^ (z >> 31)
    }

    /// A number below `n`, `n` not 0.
    pub fn below(&mut self, n: u64) -> u64 {
        self.bits() % n
    }

    /// A number from `a` to `b`, both included.
    pub fn between(&mut self, a: u64, b: u64) -> u64 {
        a + self.below(b - a + 1)
    }

    /// True once in `n` times.
    pub fn one_in(&mut self, n: u64) -> bool {
        self.below(n) == 0
    }

    pub fn pick(&mut self, from: &[u64]) -> u64 {
        from[self.below(from.len() as u64) as usize]
    }

    /// A value that no rule expects in particular.
    pub fn odd(&mut self) -> u64 {
        let any = self.bits();
        let near = self.below(70);
        self.pick(&[
            0,
            1,
            2,
            near,
            near,
            MAX_TICKS,
            MAX_TICKS + 1,
            MAX_TIME,
            MAX_TIME + 1,
            u64::MAX,
            any,
            u64::MAX - near,
            1 << 32,
            1 << 63,
        ])
    }

    /// A number of ticks from 1 on, small for the most part.
    fn ticks(&mut self) -> u64 {
        match self.below(8) {
            0..=4 => self.between(1, 12),
            5 | 6 => self.between(1, 60),
            _ => 10u64.pow(self.between(3, 9) as u32) - self.below(2),
        }
    }

    /// Parameters in range, flag 0.
    pub fn parameters(&mut self) -> Parameters {
        let policy = self.pick(&[0, 1, 2, 2]) as u8;
        let priority = match self.below(4) {
            0 => self.between(1, 32),
            _ => self.pick(&[1, 2, 3, 32]),
        };
        let mut p = Parameters {
            policy,
            priority: priority as u8,
            ..Parameters::default()
        };
        match policy {
            FIFO => {}
            RR => p.budget = self.ticks(),
            _ => {
                p.priority = p.priority.max(2);
                p.low = self.between(1, p.priority as u64 - 1) as u8;
                if self.one_in(2) {
                    p.low = 1;
                }
                p.max_repl = self.pick(&[1, 1, 2, 2, 3, 4, 5, 6, 7, 8]) as u8;
                p.budget = self.ticks();
                let rest = if self.one_in(6) { 0 } else { self.ticks() };
                p.period = (p.budget + rest).min(MAX_TICKS);
            }
        }
        p
    }

    /// A number of threads, the small ones a little more often.
    pub fn threads(&mut self) -> u32 {
        let most = self.pick(&[5, 32, 32, 32]);
        self.between(1, most) as u32
    }

    /// A table whose first `n` places are in range, flags 0 or 1.
    pub fn table(&mut self, n: u32) -> [Parameters; THREADS] {
        let mut table = [Parameters::default(); THREADS];
        for p in &mut table[..n as usize] {
            *p = self.parameters();
            p.flag = self.pick(&[0, 1, 1]) as u32;
        }
        table
    }

    /// A start time, often such that time soon passes 2^32 or a power of ten.
    pub fn start(&mut self) -> u64 {
        let near = self.below(200);
        let power = 10u64.pow(self.between(3, 15) as u32);
        self.pick(&[0, 0, near, (1 << 32) - near, power - near, power - 5 * near])
    }

    /// An aim; idle more often, since many threads are rarely all blocked.
    pub fn aim(&mut self) -> Aim {
        match self.below(6) {
            0 => Aim::Any,
            1 => Aim::Pending,
            2 => Aim::Instants,
            3 => Aim::Carry,
            _ => Aim::Idle,
        }
    }

    /// An event that suits the state for the most part; `damage` in a hundred
    /// have a field that is refused, or may be.
    pub fn event(&mut self, s: &State, damage: u64) -> Event {
        self.aimed_event(s, Aim::Any, damage)
    }

    /// An event as above, with an aim.
    pub fn aimed_event(&mut self, s: &State, aim: Aim, damage: u64) -> Event {
        let mut e = Event {
            time: self.time(s, aim),
            kind: self.kind(s, aim),
            ..Event::default()
        };
        match e.kind {
            WAKE => e.thread = self.sleeper(s, aim),
            SET => self.set(s, aim, &mut e),
            _ => {}
        }
        if self.below(100) < damage {
            self.damage_event(&mut e, s);
        }
        e
    }

    /// A set: to any parameters, to those that the thread has, or such as an account is
    /// carried over with.
    fn set(&mut self, s: &State, aim: Aim, e: &mut Event) {
        let threads = in_use(s);
        let any = self.below(threads.len() as u64) as usize;
        let sporadic = |&i: &usize| {
            let t = threads.get(i);
            t.is_some_and(|t| t.parameters.policy == SPORADIC)
        };
        let mut after = (any..threads.len()).chain(0..any).filter(sporadic);
        let found = match self.below(3) {
            _ if aim != Aim::Carry => None,
            0 => after.next(),
            1 => after.max_by_key(|&i| threads[i].pending),
            _ => Some(running(s) as usize).filter(sporadic),
        };
        let i = found.unwrap_or(any);
        e.thread = i as u8;
        e.parameters = match self.below(if aim == Aim::Carry { 12 } else { 4 }) {
            0 => threads[i].parameters,
            1 => self.parameters(),
            _ if sporadic(&i) => self.carrying(s, i, e.time),
            _ => self.parameters(),
        };
    }

    /// Parameters for a thread that is sporadic and stays so, one or two of them changed:
    /// at the bounds of what is carried over at that time, or such that the next entry
    /// stands before others or beside one.
    pub fn carrying(&mut self, s: &State, i: usize, time: u64) -> Parameters {
        let mut s = *s;
        let mut p = s.threads[i].parameters;
        if !crate::sound(&s) || time > s.now + MAX_STEP {
            return p;
        }
        pass(&mut s, time);
        let t = s.threads[i];
        for _ in 0..self.between(1, 2) {
            // entries that are far away would fill the account for good
            let ticks = if self.one_in(20) {
                self.ticks()
            } else {
                self.between(1, 40)
            };
            match self.below(14) {
                0..=2 => p.budget += ticks,
                3 => p.budget = p.budget.saturating_sub(t.capacity.saturating_sub(1)),
                4 => p.budget = p.budget.saturating_sub(t.capacity),
                5 => p.budget = self.between(1, p.budget.max(1)),
                6 => p.max_repl = (t.pending + self.below(3) as u8).saturating_sub(1),
                7 | 8 => p.max_repl = self.between(1, PENDING as u64) as u8,
                9..=11 if t.pending > 0 => p.period = self.period_to_a_due(&s, &t),
                9..=12 => p.period = p.budget + 2 * ticks,
                _ => {
                    p.priority = self.between(2, 32) as u8;
                    p.low = self.between(1, p.priority as u64 - 1) as u8;
                }
            }
        }
        p.max_repl = p.max_repl.clamp(1, PENDING as u8);
        p.budget = p.budget.clamp(1, MAX_TICKS);
        p.period = p.period.clamp(p.budget, MAX_TICKS);
        p
    }

    /// A period after which what the thread runs comes back together with an entry of its
    /// own or of another thread, or a tick before or after it.
    fn period_to_a_due(&mut self, s: &State, t: &Thread) -> u64 {
        let own = t.dues[self.below(t.pending as u64) as usize];
        let other = s.threads[self.below(in_use(s).len() as u64) as usize].dues[0];
        let due = match self.one_in(4) {
            true if other > s.now => other,
            _ => own,
        };
        due + self.pick(&[0, 1, 1, 1, 2]) - (t.activation + 1)
    }

    /// A time from now on; now and then one that is too far.
    fn time(&mut self, s: &State, aim: Aim) -> u64 {
        let now = s.now.min(MAX_TIME);
        // Made-up unsound states have no moments worth asking for.
        let (next, back) = if crate::sound(s) {
            (next_moment(s), comes_back(s))
        } else {
            (now, now)
        };
        let next = next.clamp(now, now + MAX_STEP);
        let back = back.clamp(now, now + MAX_STEP);
        // A long step past many moments takes its time, so there are few of them.
        if self.one_in(if next == now { 12 } else { 1_200 }) {
            return now + self.pick(&[1_000, 70_000, MAX_STEP - 1, MAX_STEP]);
        }
        let beside = (next + self.below(3)).max(now + 1) - 1;
        let short = now + self.between(1, 3);
        let near = now + self.between(1, 10);
        let wide = now + self.below(60);
        let time = match aim {
            Aim::Any => self.pick(&[now, now, next, next, beside, short, near, near, near, wide]),
            Aim::Idle => self.pick(&[now, next, near, near, near, near, wide]),
            Aim::Pending => self.pick(&[now, short, short, short]),
            Aim::Instants => self.pick(&[now, now, next, next, next, beside, back]),
            Aim::Carry => self.pick(&[now, short, short, short, near, next, beside, back, wide]),
        };
        if time > MAX_TIME && !self.one_in(8) {
            return MAX_TIME;
        }
        time
    }

    /// A kind that the state accepts, for the most part.
    fn kind(&mut self, s: &State, aim: Aim) -> u8 {
        let kind = match aim {
            Aim::Any | Aim::Instants => self.pick(&[0, 0, 1, 1, 2, 3, 3, 3, 4]),
            Aim::Idle => self.pick(&[0, 0, 1, 1, 2, 3, 4]),
            Aim::Pending => self.pick(&[0, 1, 1, 1, 2, 3, 3, 3]),
            Aim::Carry => self.pick(&[0, 1, 1, 1, 2, 3, 3, 3, 4, 4]),
        } as u8;
        let blocked = in_use(s).iter().any(|t| !t.runnable());
        match kind {
            _ if self.one_in(4) => kind,
            BLOCK | YIELD if s.word == 0 => CLOCK,
            WAKE if !blocked => BLOCK,
            _ => kind,
        }
    }

    /// A thread to wake, blocked where one is; the one with most pending where
    /// they are to pile up.
    fn sleeper(&mut self, s: &State, aim: Aim) -> u8 {
        let n = in_use(s).len();
        let first = self.below(n as u64) as usize;
        let mut after = (first..n).chain(0..first);
        let blocked = |&i: &usize| !s.threads[i].runnable();
        let found = if aim == Aim::Pending || aim == Aim::Carry {
            after.filter(blocked).max_by_key(|&i| s.threads[i].pending)
        } else {
            after.find(blocked)
        };
        found.unwrap_or(first) as u8
    }

    /// Changes one or two fields of an event.
    fn damage_event(&mut self, e: &mut Event, s: &State) {
        let now = s.now.min(MAX_TIME);
        loop {
            let odd = self.odd();
            match self.below(12) {
                0 => e.time = odd,
                1 => e.time = self.pick(&[now.wrapping_sub(1), now + MAX_STEP + 1]),
                2 => e.kind = self.pick(&[0, 1, 2, 3, 4, 5, 255]) as u8,
                3 => e.thread = odd as u8,
                4 => e.thread = s.n as u8,
                _ => self.damage_parameters(&mut e.parameters),
            }
            if !self.one_in(3) {
                return;
            }
        }
    }

    /// Changes one field of some parameters.
    pub fn damage_parameters(&mut self, p: &mut Parameters) {
        let odd = self.odd();
        match self.below(9) {
            0 => p.policy = self.pick(&[0, 1, 2, 3, 255]) as u8,
            1 => p.priority = odd as u8,
            2 => p.low = odd as u8,
            3 => p.low = p.priority,
            4 => p.max_repl = self.pick(&[0, 1, 8, 9, 255]) as u8,
            5 => p.flag = odd as u32,
            6 => p.budget = odd,
            7 => p.budget = p.period.wrapping_add(1),
            _ => p.period = odd,
        }
    }

    /// A made-up sound state, whether opening and events lead to it or not.
    pub fn sound_state(&mut self) -> State {
        let n = self.threads();
        let start = self.start();
        let elapsed = match self.below(6) {
            0 => 0,
            1 => self.below(1_000),
            2 => self.below(50),
            _ => self.below(MAX_TIME - start + 1),
        };
        let now = (start + elapsed).min(MAX_TIME);
        let mut s = State {
            n,
            start,
            now,
            ..State::default()
        };
        // Run times + idle = now - start.
        let mut left = now - start;
        s.idle = self.part(left);
        left -= s.idle;
        let mut order: Vec<usize> = (0..n as usize).collect();
        let runnable = self.pick(&[0, 1, 3, 3]);
        for i in 0..n as usize {
            let total = self.part(left);
            left -= total;
            s.threads[i].total = total;
            s.threads[i].blocked = (self.below(4) >= runnable) as u8;
            s.threads[i].parameters = self.parameters();
            let p = s.threads[i].parameters;
            match p.policy {
                RR => s.threads[i].quantum = self.between(1, p.budget),
                SPORADIC => self.account(&mut s, i),
                _ => {}
            }
            order.swap(i, self.below(i as u64 + 1) as usize);
        }
        if self.one_in(2) {
            s.idle += left;
        } else {
            s.threads[n as usize - 1].total += left;
        }
        for i in order {
            if s.threads[i].runnable() {
                let k = assigned(&s.threads[i]) as usize - 1;
                let list = &mut s.lists[k];
                list.members[list.length as usize] = i as u8;
                list.length += 1;
                s.word |= 1 << k;
            }
        }
        s
    }

    /// A part of a time: none or all of it, a little less than 2^32, or any.
    fn part(&mut self, whole: u64) -> u64 {
        let wide = (1 << 32) - self.below(12);
        let any = self.below(whole + 1);
        self.pick(&[0, whole, any, any, wide.min(whole)])
    }

    /// A sound account for sporadic thread `i`: first the dues, then the budget
    /// shared out among pending amounts, U and capacity.
    fn account(&mut self, s: &mut State, i: usize) {
        let (start, now) = (s.start, s.now);
        let p = s.threads[i].parameters;
        let blocked = !s.threads[i].runnable();
        let back = match self.below(3) {
            0 => self.below(now - start + 1),
            1 => 0,
            _ => self.below(p.period + 2),
        };
        let activation = now - back.min(now - start);
        let low = !blocked && self.one_in(3);
        let most = if blocked || low {
            (p.max_repl as u64).min(p.budget)
        } else {
            (p.max_repl as u64).min(p.budget) - 1
        };
        let want = if low && self.one_in(2) {
            most
        } else {
            self.below(most + 1)
        };
        let last = now + self.pick(&[p.period, p.period, FARTHEST_DUE]);
        let mut dues: Vec<u64> = Vec::new();
        for _ in 0..want {
            let any = self.between(now + 1, last);
            let near = self.between(now + 1, last.min(now + 20));
            let again = *dues.last().unwrap_or(&near);
            dues.push(self.pick(&[any, near, near, last, again]));
        }
        dues.sort();
        let count = dues.len() as u64;
        let t = &mut s.threads[i];
        t.activation = activation;
        t.capacity = p.budget;
        if low && count == 0 {
            return;
        }
        // What is left after one tick for each pending entry.
        let mut left = p.budget - count;
        let drained = low && count < p.max_repl as u64;
        let upper = !blocked && !low;
        for (k, due) in dues.iter().enumerate() {
            let more = if drained && k as u64 == count - 1 {
                left
            } else if upper {
                self.below(left) // leaves capacity; left >= 1 here
            } else {
                self.below(left + 1)
            };
            left -= more;
            t.dues[k] = *due;
            t.amounts[k] = 1 + more;
        }
        t.pending = count as u8;
        if upper {
            t.used = self.below(left).min(now - activation);
        }
        t.capacity = left - t.used;
    }

    /// Changes one field of a state, at a place in use or past it.
    pub fn damage_state(&mut self, s: &mut State) {
        let odd = self.odd();
        let (a, b) = (self.below(4), self.below(4));
        let nudge = |x: &mut u64| match a {
            0 => *x = odd,
            1 => *x = x.wrapping_add(1 + b),
            2 => *x = x.wrapping_sub(1 + b),
            _ => *x ^= 1 << (odd % 64),
        };
        let nudge8 = |x: &mut u8| match a {
            0 => *x = odd as u8,
            1 => *x = x.wrapping_add(1),
            2 => *x = x.wrapping_sub(1),
            _ => *x ^= 1 << (odd % 8),
        };
        let i = if self.one_in(4) {
            self.below(32)
        } else {
            self.below(s.n.clamp(1, 32) as u64)
        };
        let k = self.pick(&[0, 0, 1, 2, 3, 4, 5, 6, 7]) as usize % PENDING;
        let p = self.below(32) as usize;
        let used = (0..32).filter(|&k| s.lists[k].length > 0).nth(b as usize);
        let l = used.unwrap_or(p);
        let t = &mut s.threads[i as usize];
        match self.below(32) {
            0 => s.n = self.pick(&[0, 1, 32, 33, odd]) as u32,
            1 => nudge(&mut s.start),
            2 => nudge(&mut s.now),
            3 => nudge(&mut s.idle),
            4 => s.word ^= 1 << p,
            5 => s.word = odd as u32,
            6..=8 => self.damage_parameters(&mut t.parameters),
            9 => t.blocked ^= self.pick(&[1, 1, odd]) as u8,
            10 => nudge8(&mut t.pending),
            11 => nudge(&mut t.total),
            12 => nudge(&mut t.quantum),
            13 => nudge(&mut t.capacity),
            14 => nudge(&mut t.used),
            15 => nudge(&mut t.activation),
            16 | 17 => nudge(&mut t.dues[k]),
            18 | 19 => nudge(&mut t.amounts[k]),
            20 => nudge8(&mut s.lists[p].length),
            21 => nudge8(&mut s.lists[l].length),
            22 => nudge8(&mut s.lists[p].members[k * 4]),
            23 => nudge8(&mut s.lists[l].members[k % 3]),
            24 => {
                let past = (MAX_TIME + 1).wrapping_sub(s.now);
                s.now = s.now.wrapping_add(past);
                s.idle = s.idle.wrapping_add(past);
            }
            _ => self.strain(t, s.start, s.now),
        }
    }

    /// Brings an account or a quantum to a bound or just past it; the sum of an
    /// account stays.
    fn strain(&mut self, t: &mut Thread, start: u64, now: u64) {
        let p = t.parameters;
        let last = t.pending.clamp(1, PENDING as u8) as usize - 1;
        let since = self.pick(&[now, t.activation]);
        match self.below(8) {
            _ if p.policy == RR => t.quantum = self.pick(&[0, p.budget, p.budget.wrapping_add(1)]),
            0 | 1 => {
                let from = match t.capacity {
                    0 => &mut t.amounts[last],
                    _ => &mut t.capacity,
                };
                *from = from.wrapping_sub(1);
                t.used = t.used.wrapping_add(1);
            }
            2 => {
                t.capacity = t.capacity.wrapping_add(t.amounts[last]);
                t.amounts[last] = 0;
            }
            3 => t.dues[0] = now.wrapping_add(self.below(2)),
            4 => t.dues[0] = t.dues[1].wrapping_add(self.below(2)),
            5 => t.dues[last] = now.wrapping_add(FARTHEST_DUE + self.below(2)),
            6 => t.dues[last] = since.wrapping_add(p.period).wrapping_add(self.below(2)),
            _ => {
                t.activation = self.pick(&[start.wrapping_sub(1), start, now, now.wrapping_add(1)])
            }
        }
    }
}

/// The threads in use, whatever the state holds.
fn in_use(s: &State) -> &[Thread] {
    &s.threads[..s.n.clamp(1, 32) as usize]
}

/// When what the running thread uses would come back, if it is sporadic.
fn comes_back(s: &State) -> u64 {
    match running(s) {
        NOBODY => 0,
        i => {
            let t = &s.threads[i as usize];
            t.activation + t.parameters.period
        }
    }
}
