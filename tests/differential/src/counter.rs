//! Events at a reading of a counter of 32 bits (02 E10): beside the model's, beside a list of the
//! faults that each of them has, and beside the code's own event with the full time.

use crate::case::{cases, Case};
use crate::coverage::{answers, row, Coverage, Group, Tally};
use crate::events::{opening, same_answer, state};
use crate::told::{lent, same_told};
use differential as board;
use model::random::{Aim, Random};
use model::{in_range, open, sound, status, CounterEvent, Event, Parameters, State, Told, BLOCK};
use model::{FIFO, MAX_STEP, MAX_TIME, SET, SPORADIC, THREADS, WAKE, YIELD};

/// The counter has so many readings.
const LAP: u64 = 1 << 32;
/// 02 E10 3: a reading that went back by so much at most is refused.
const FURTHEST_BACK: u64 = 4_293_967_295;

/// 01 Status 15, without 1: refusals in the order in which they are judged; 15 comes after them.
const ORDER: [u8; 8] = [9, 4, 5, 6, 3, 2, 7, 8];

/// Which of these an event has a fault for, each judged alone; `step` is what its reading shows.
/// Passing time neither blocks nor wakes, so that 7 and 8 can be judged before it.
fn faults(s: &State, e: &CounterEvent, step: u64) -> [bool; ORDER.len()] {
    let threads = &s.threads[..(s.n as usize).min(THREADS)];
    let named = threads.get(e.thread as usize);
    let set = e.kind == SET;
    let wrong = !in_range(&e.parameters) || e.parameters.flag != 0;
    [
        !sound(s),
        e.kind > SET,
        e.thread as u32 >= s.n || e.kind <= YIELD && e.thread != 0,
        set && wrong || !set && e.parameters != Parameters::default(),
        u128::from(s.now) + u128::from(step) > u128::from(MAX_TIME),
        step > MAX_STEP,
        (e.kind == BLOCK || e.kind == YIELD) && threads.iter().all(|t| t.blocked == 1),
        e.kind == WAKE && named.is_some_and(|t| t.blocked == 0),
    ]
}

/// Where the board's clock went from a state's now, in ticks, and an event's other fields: its time
/// isn't looked at.
#[derive(Clone, Copy, Debug)]
struct Moved {
    ticks: i128,
    e: Event,
}

impl Moved {
    /// The step that the reading shows.
    fn step(&self) -> u64 {
        self.ticks.rem_euclid(i128::from(LAP)) as u64
    }

    fn reading(&self, now: u64) -> u32 {
        (i128::from(now) + self.ticks).rem_euclid(i128::from(LAP)) as u32
    }

    fn event(&self, now: u64) -> CounterEvent {
        CounterEvent {
            reading: self.reading(now),
            kind: self.e.kind,
            thread: self.e.thread,
            parameters: self.e.parameters,
        }
    }

    /// The event with the full time, where that is less than a lap on and has 64 bits.
    fn full(&self, now: u64) -> Option<Event> {
        let on = 0 <= self.ticks && self.ticks < i128::from(LAP);
        let time = u64::try_from(i128::from(now) + self.ticks).ok()?;
        on.then_some(Event { time, ..self.e })
    }
}

/// One reading on both states; its status.
fn both(case: &Case, s: &mut State, t: &mut board::State, m: &Moved, seen: &mut Seen) -> u8 {
    let (before, given) = (*s, *t);
    let e = m.event(before.now);
    let (a, told) = model::counter_event(s, &e);
    let mut numbers = lent(&m.e);
    let b = board::counter_event(t, &mut numbers, e.into());
    let input = || format!("{e:?} by {} ticks on {before:?}", m.ticks);
    same_answer(case, "a reading", input, (a, s), (b, t));
    same_told(case, "a reading", input, &board::told_of(&told), &numbers);
    let found = faults(&before, &e, m.step());
    let first = found.iter().position(|fault| *fault);
    // 15 hangs on the account at the event's time (02 E7 9): it is the model's to judge
    let refused = a.status == status::NOT_CARRIED && e.kind == SET;
    let otherwise = if refused { status::NOT_CARRIED } else { status::ACCEPTED };
    let expected = first.map_or(otherwise, |k| ORDER[k]);
    if b.status != expected {
        let detail = format!("expected {expected} of {found:?} code {b:?}\n{}", input());
        case.differ("the status of a reading", detail);
    }
    if let Some(full) = m.full(before.now) {
        let mut u = given;
        let mut alone = lent(&full);
        let c = board::event(&mut u, &mut alone, full.into());
        if c != b || u != *t || alone != numbers {
            let detail = format!("{c:?} with {full:?}\n{b:?} with {}", input());
            case.differ("a reading and the event with the full time", detail);
        }
    }
    let back = -m.ticks;
    let went_back = 1 <= back && back <= i128::from(FURTHEST_BACK);
    if went_back && b.status == status::ACCEPTED || b.status == status::EARLY {
        case.differ("a reading that went back", input());
    }
    seen.add(&before, m, (&found, b.status), &told);
    b.status
}

// -------------------------------------------------------------------- inputs

/// A start time: a little before a wrap, a long step or two before it, near the end, or any.
fn start(r: &mut Random) -> u64 {
    let wrap = LAP * r.between(1, MAX_TIME / LAP);
    let (near, far) = (r.below(120), r.below(2 * MAX_STEP));
    let any = r.below(MAX_TIME + 1);
    r.pick(&[
        wrap - near,
        wrap - near,
        wrap - far,
        wrap - far,
        LAP - near,
        MAX_TIME - near,
        MAX_TIME - far,
        MAX_TIME,
        near,
        any,
    ])
}

/// Budgets and quanta under which a long step has few moments.
fn lengthen(r: &mut Random, p: &mut Parameters) {
    if !in_range(p) || p.policy == FIFO {
        return;
    }
    p.budget = r.between(PATIENT, 400_000);
    if p.policy == SPORADIC {
        p.period = p.budget + r.pick(&[0, 1_000, 300_000, 700_000]);
    }
}

/// The least budget of such threads.
const PATIENT: u64 = 20_000;

/// Whether a long step has few moments: those of threads that run on short budgets are many.
fn patient(s: &State) -> bool {
    let mut threads = s.threads.iter().filter(|t| t.runnable());
    threads.all(|t| t.parameters.policy == FIFO || t.parameters.budget >= PATIENT)
}

/// Where the clock went: often to the time of the event given, else to a bound of what is accepted,
/// to the counter's ends, to the end of time, or back.
fn ticks(r: &mut Random, s: &State, time: u64) -> i128 {
    let aimed = i128::from(time) - i128::from(s.now);
    let to_wrap = LAP - s.now % LAP;
    let to_end = MAX_TIME.saturating_sub(s.now);
    let (few, more, any) = (r.below(60), r.below(MAX_STEP), r.below(LAP));
    let on = [
        0,
        1,
        few,
        MAX_STEP - 1,
        MAX_STEP,
        MAX_STEP + 1,
        MAX_STEP + 1 + more,
        any,
        LAP - 1,
        to_wrap - 1,
        to_wrap,
        to_wrap + few,
        to_end,
        to_end + 1,
        to_end + few,
    ];
    let back = [
        1,
        1 + few,
        1 + more,
        MAX_STEP + more,
        any,
        FURTHEST_BACK,
        FURTHEST_BACK + 1,
        LAP - 1 - more,
        LAP - 1 - few,
        LAP - 1,
        LAP,
    ];
    let ticks = match r.below(20) {
        0..=8 => aimed,
        9..=15 => r.pick(&on).into(),
        _ => -i128::from(r.pick(&back)),
    };
    let step = ticks.rem_euclid(LAP.into()) as u64;
    let long = 2_000 < step && step <= MAX_STEP;
    if long && !patient(s) && !r.one_in(100) {
        return few.into();
    }
    ticks
}

/// Gives an event a fault, or several.
fn spoil(r: &mut Random, s: &State, m: &mut Moved) {
    loop {
        let to_end = MAX_TIME.saturating_sub(s.now);
        match r.below(7) {
            0 => m.e.kind = r.pick(&[5, 6, 255]) as u8,
            1 => m.e.thread = r.pick(&[1, s.n.into(), u64::from(s.n) + 1, 255]) as u8,
            2 => r.damage_parameters(&mut m.e.parameters),
            3 => m.ticks = i128::from(to_end + 1 + r.below(40)),
            4 => m.ticks = i128::from(MAX_STEP + 1 + r.below(40)),
            5 => m.e.kind = r.pick(&[BLOCK.into(), YIELD.into()]) as u8,
            _ => {
                let runnable = s.threads.iter().position(|t| t.runnable());
                m.e.kind = WAKE;
                m.e.thread = runnable.unwrap_or(0) as u8;
            }
        }
        if !r.one_in(2) {
            return;
        }
    }
}

/// The next reading of a state.
fn next(r: &mut Random, s: &State, aim: Aim, long: bool) -> Moved {
    let mut e = r.aimed_event(s, aim, 6);
    if long && e.kind == SET {
        lengthen(r, &mut e.parameters);
    }
    let mut m = Moved {
        ticks: ticks(r, s, e.time),
        e,
    };
    if r.one_in(5) {
        spoil(r, s, &mut m);
    }
    m
}

/// An opened state, from which readings start.
fn opened(r: &mut Random, aim: Aim, start: u64, long: bool) -> State {
    let (_, n, mut table) = opening(r, aim, 0);
    for p in table[..n as usize].iter_mut().filter(|_| long) {
        lengthen(r, p);
    }
    let (a, s) = open(start, n, &table);
    assert_eq!(a.status, status::ACCEPTED);
    s
}

/// Moves a sound state in time, so that nothing but its times is out of range.
fn move_to(s: &mut State, now: u64) {
    let by = now.wrapping_sub(s.now);
    let mut times = vec![&mut s.start, &mut s.now];
    for t in s.threads.iter_mut() {
        if t.parameters.policy == SPORADIC {
            times.push(&mut t.activation);
            times.extend(t.dues.iter_mut().take(t.pending.into()));
        }
    }
    for time in times {
        *time = time.wrapping_add(by);
    }
}

// --------------------------------------------------------------------- cases

/// The request's readings: where now is, what the clock did, and the status.
const STATED: &[(u64, i128, u8)] = &[
    (3 * LAP - 600_000, 1_000_000, 0),
    (3 * LAP - 600_000, 1_000_001, 2),
    (LAP - 1, 1, 0),
    (LAP - 1, 1_000_000, 0),
    (LAP - 1, 1_000_001, 2),
    (LAP, 0, 0),
    (9 * LAP, -1, 2),
    (9 * LAP + 5, -4_293_967_295, 2),
    (9 * LAP + 5, -4_293_967_296, 0),
    (MAX_TIME, -1, 3),
    (MAX_TIME, 0, 0),
    (MAX_TIME, 1, 3),
    (u64::MAX, 0, 9),
    (u64::MAX, 1, 9),
    (u64::MAX, -1, 9),
];

fn stated(case: &Case, seen: &mut Seen) {
    for &(now, ticks, expected) in STATED {
        let mut table = [Parameters::default(); THREADS];
        table[0] = Parameters {
            priority: 1,
            flag: 1,
            ..Parameters::default()
        };
        let (_, mut s) = open(now.min(MAX_TIME), 1, &table);
        s.now = now;
        let mut t = board::State::from(&s);
        let m = Moved {
            ticks,
            e: Event::default(),
        };
        let status = both(case, &mut s, &mut t, &m, seen);
        if status != expected {
            let detail = format!("{status}, and not {expected}, at {now} by {ticks}");
            case.differ("a stated reading", detail);
        }
        seen.stated += 1;
    }
}

/// Readings after an opening; how many.
fn sequence(case: &Case, r: &mut Random, seen: &mut Seen) -> u64 {
    let mut aim = r.aim();
    let long = r.one_in(2);
    let start = start(r);
    let mut s = opened(r, aim, start, long);
    let mut t = board::State::from(&s);
    let length = r.pick(&[5, 20, 50, 100]);
    for _ in 0..length {
        if r.one_in(40) {
            aim = r.aim();
        }
        let m = next(r, &s, aim, long);
        both(case, &mut s, &mut t, &m, seen);
        seen.states[0] += 1;
    }
    length
}

/// Single readings of made-up states, sound and not; how many.
fn single(case: &Case, r: &mut Random, seen: &mut Seen) -> u64 {
    let aim = r.aim();
    let mut given = state(r, aim);
    let was_sound = sound(&given);
    let beyond = was_sound && r.one_in(4);
    if beyond {
        let few = r.below(60);
        let any = r.between(MAX_TIME + 1, u64::MAX);
        let lap = u64::MAX - r.below(2 * LAP);
        let now = r.pick(&[u64::MAX, u64::MAX - few, lap, MAX_TIME + 1 + few, any]);
        move_to(&mut given, now);
    } else if !was_sound && r.one_in(8) {
        given.now = r.pick(&[u64::MAX, u64::MAX - 1]);
    }
    const EACH: u64 = 3;
    for _ in 0..EACH {
        let mut s = given;
        let mut t = board::State::from(&s);
        let mut m = next(r, &s, aim, false);
        if s.now > MAX_TIME && r.one_in(2) {
            // around the last number of 64 bits
            let left = i128::from(u64::MAX - s.now);
            m.ticks = left + i128::from(r.below(3)) - 1;
        }
        both(case, &mut s, &mut t, &m, seen);
        let place = match (was_sound, beyond) {
            (true, false) => 1,
            (false, _) => 2,
            (true, true) => 3,
        };
        seen.states[place] += 1;
    }
    EACH
}

/// The counter goes round once and more, by steps of up to 1,000,000; the state's now follows the
/// clock through it. How many readings.
fn whole_lap(case: &Case, r: &mut Random, seen: &mut Seen) -> u64 {
    let start = LAP * r.between(1, 9) - r.below(LAP);
    let mut s = opened(r, Aim::Any, start, true);
    let mut t = board::State::from(&s);
    let (mut clock, mut done) = (start, 0);
    while clock <= start + LAP + 2 * MAX_STEP {
        let step = MAX_STEP - r.pick(&[0, 0, 1]) * r.below(100_000);
        let mut e = r.aimed_event(&s, Aim::Any, 0);
        if e.kind == SET {
            lengthen(r, &mut e.parameters);
        }
        clock += step;
        let m = Moved {
            ticks: step.into(),
            e,
        };
        done += 1;
        if both(case, &mut s, &mut t, &m, seen) != status::ACCEPTED {
            let e = Event::default();
            both(case, &mut s, &mut t, &Moved { e, ..m }, seen);
            done += 1;
        }
        if (s.now, t.core.now) != (clock, clock) {
            let (model, code) = (s.now, t.core.now);
            case.differ("a lap", format!("clock {clock} model {model} code {code}"));
        }
    }
    seen.laps += 1;
    done
}

/// The stated readings and a whole lap; then sequences and single readings. `count` is how many
/// readings there are of these at least.
pub fn readings(count: u64, seed: u64, covered: &mut Coverage) {
    let seen = &mut Seen::default();
    for case in cases("laps", seed).take(count.min(1) as usize) {
        stated(&case, seen);
        whole_lap(&case, &mut case.random(), seen);
    }
    let mut done = 0;
    for case in cases("laps", seed) {
        if done >= count {
            break;
        }
        let r = &mut case.random();
        done += match r.below(12) {
            0..=2 => sequence(&case, r, seen),
            _ => single(&case, r, seen),
        };
    }
    seen.answers.print("counter readings");
    covered.others.push(seen.group());
}

// ------------------------------------------------------------------ coverage

const KINDS: usize = 5;

/// What the readings covered. A wrap is a reading below the low bits of now.
#[derive(Default)]
struct Seen {
    answers: Tally,
    stated: u64,
    laps: u64,
    /// Accepted without a wrap and with one, by kind.
    accepted: [[u64; KINDS]; 2],
    /// Sets refused with 15, without a wrap and with one.
    not_carried: [u64; 2],
    /// Refused with a wrap, in 01's order.
    wraps_refused: [u64; ORDER.len()],
    /// A fault that is the only one; one that comes before another.
    alone: [u64; ORDER.len()],
    before: [[u64; ORDER.len()]; ORDER.len()],
    /// Steps at a bound, without a wrap and with one.
    steps: [[u64; 6]; 2],
    back: [u64; 8],
    /// At the end of time: to it, past it, back by 1.
    last: [u64; 3],
    /// Accepted from and to the counter's least and greatest reading.
    ends: [[u64; 2]; 2],
    /// Now 2^64 - 1; the time 2^64 - 1, 2^64 and above it.
    wide: [u64; 4],
    /// Opened, made up and sound, damaged, beyond the end of time.
    states: [u64; 4],
    /// States that are sound and unsound.
    sound: [u64; 2],
    /// What was told, without a wrap and with one.
    told: [[u64; board::TOLD]; 2],
    /// Beside the event with the full time: accepted, refused, for a longer step.
    full: [u64; 3],
}

impl Seen {
    fn add(
        &mut self,
        s: &State,
        m: &Moved,
        (found, given): (&[bool; ORDER.len()], u8),
        told: &Told,
    ) {
        let (step, reading) = (m.step(), m.reading(s.now));
        let low = s.now as u32;
        let wrap = (reading < low) as usize;
        let accepted = given == status::ACCEPTED;
        self.answers.add(given);
        self.sound[found[0] as usize] += 1;
        match found.iter().position(|fault| *fault) {
            None if given == status::NOT_CARRIED => self.not_carried[wrap] += 1,
            None => self.accepted[wrap][m.e.kind as usize] += 1,
            Some(first) => {
                self.wraps_refused[first] += wrap as u64;
                let others = || (first + 1..ORDER.len()).filter(|k| found[*k]);
                self.alone[first] += (others().count() == 0) as u64;
                others().for_each(|k| self.before[first][k] += 1);
            }
        }
        let bounds = [
            (0, status::ACCEPTED),
            (1, status::ACCEPTED),
            (MAX_STEP - 1, status::ACCEPTED),
            (MAX_STEP, status::ACCEPTED),
            (MAX_STEP + 1, status::FAR),
            (LAP - 1, status::FAR),
        ];
        for (k, bound) in bounds.into_iter().enumerate() {
            self.steps[wrap][k] += ((step, given) == bound) as u64;
        }
        self.went_back(m, given);
        if s.now <= MAX_TIME && u128::from(s.now) + u128::from(step) == MAX_TIME.into() {
            self.last[0] += (accepted && step > 0) as u64;
        }
        if s.now == MAX_TIME && given == status::TIME {
            self.last[1] += (m.ticks == 1) as u64;
            self.last[2] += (m.ticks == -1) as u64;
        }
        for (k, end) in [0, u32::MAX].into_iter().enumerate() {
            self.ends[0][k] += (accepted && low == end) as u64;
            self.ends[1][k] += (accepted && reading == end) as u64;
        }
        let time = u128::from(s.now) + u128::from(step);
        let top = u128::from(u64::MAX);
        let wide = [
            s.now == u64::MAX,
            time == top,
            time == top + 1,
            time > top + 1,
        ];
        for (n, here) in self.wide.iter_mut().zip(wide) {
            *n += here as u64;
        }
        let numbers = board::told_of(told);
        for k in 0..board::TOLD {
            let here = numbers.iter().skip(k).step_by(board::TOLD).any(|n| *n > 0);
            self.told[wrap][k] += here as u64;
        }
        if m.full(s.now).is_some() {
            let place = match (accepted, step > MAX_STEP) {
                (true, _) => 0,
                (_, false) => 1,
                _ => 2,
            };
            self.full[place] += 1;
        }
    }

    /// By 1, few, many and the most that is refused; by what looks like the longest step, a shorter
    /// one and the shortest; by a lap.
    fn went_back(&mut self, m: &Moved, given: u8) {
        const AS_LONGEST: u64 = FURTHEST_BACK + 1;
        const AS_SHORTEST: u64 = LAP - 1;
        let Ok(back) = u64::try_from(-m.ticks) else {
            return;
        };
        let (place, expected) = match back {
            1 => (0, status::FAR),
            2..=1_000 => (1, status::FAR),
            1_001..FURTHEST_BACK => (2, status::FAR),
            FURTHEST_BACK => (3, status::FAR),
            AS_LONGEST => (4, status::ACCEPTED),
            AS_SHORTEST => (6, status::ACCEPTED),
            LAP => (7, status::ACCEPTED),
            AS_LONGEST..LAP => (5, status::ACCEPTED),
            _ => return,
        };
        self.back[place] += (given == expected) as u64;
    }

    fn group(&self) -> Group {
        // 4 is of no kind that 7 and 8 are of, 5 of no thread that 8 is of, and 7 and 8 are of
        // different kinds
        let never = [(4, 7), (4, 8), (5, 8), (7, 8)];
        let pairs = (0..ORDER.len()).flat_map(|k| (k + 1..ORDER.len()).map(move |l| (k, l)));
        let pairs = pairs.filter(|&(k, l)| !never.contains(&(ORDER[k], ORDER[l])));
        // a step of 0 has no wrap; one of a lap less 1 has none from 0 alone
        let steps = self.steps[0][..5].iter().chain(&self.steps[1][1..]);
        Group {
            sorts: &["laps"],
            rows: vec![
                answers(
                    "counter readings, by status",
                    &[(&self.answers, &[0, 2, 3, 4, 5, 6, 7, 8, 9, 15])],
                ),
                row(
                    "sets at a reading that are refused with 15, without a wrap and with one",
                    &self.not_carried,
                ),
                row(
                    "readings accepted without a wrap and with one, by kind",
                    self.accepted.as_flattened(),
                ),
                row("readings refused with a wrap, by status", &self.wraps_refused),
                row("readings with one fault", &self.alone),
                row(
                    "readings with two faults, by both, in their order",
                    pairs.map(|(k, l)| &self.before[k][l]),
                ),
                row(
                    "steps 0, 1, 999,999, 1,000,000 and 1,000,001; but 0 with a wrap, and a lap less 1",
                    steps,
                ),
                row(
                    "back by 1, few, many, 4,293,967,295: refused; by more, up to a lap: accepted",
                    &self.back,
                ),
                row("to 10^15, 1 past it, back by 1 from it", &self.last),
                row(
                    "from readings 0 and 4,294,967,295, and to them",
                    self.ends.as_flattened(),
                ),
                row(
                    "now 2^64 - 1; the time 2^64 - 1, 2^64 and above",
                    &self.wide,
                ),
                row(
                    "states opened, made up, damaged, beyond 10^15; sound and unsound",
                    self.states.iter().chain(&self.sound),
                ),
                row(
                    "told at a reading, without a wrap and with one: limits, quanta, replenishments, amounts",
                    self.told.as_flattened(),
                ),
                row(
                    "beside the full time: accepted, refused, for a longer step",
                    &self.full,
                ),
                row("stated readings, whole laps", [&self.stated, &self.laps]),
            ],
        }
    }
}
