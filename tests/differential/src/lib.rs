//! The proved code's exported functions, declared again, with safe functions over them, and the
//! conversions between its state and the model's. Every field of one stands for a field of the
//! other, so two states are equal exactly when their conversions are.

use model::{MAX_EVENTS, PENDING, PRIORITIES, THREADS};

#[repr(C)]
#[derive(Clone, Copy, Debug, Default, PartialEq, Eq)]
pub struct Parameters {
    pub policy: u8,
    pub priority: u8,
    pub low: u8,
    pub max_repl: u8,
    pub flag: u32,
    pub budget: u64,
    pub period: u64,
}

#[repr(C)]
#[derive(Clone, Copy, Debug, PartialEq, Eq)]
pub struct Event {
    pub time: u64,
    pub kind: u8,
    pub thread: u8,
    pub parameters: Parameters,
}

/// An event with a reading of a counter in place of its time.
#[repr(C)]
#[derive(Clone, Copy, Debug, PartialEq, Eq)]
pub struct CounterEvent {
    pub reading: u32,
    pub kind: u8,
    pub thread: u8,
    pub parameters: Parameters,
}

#[repr(C)]
#[derive(Clone, Copy, Debug, Default, PartialEq, Eq)]
pub struct Header {
    pub n: u32,
    pub start: u64,
}

#[repr(C)]
#[derive(Clone, Copy, Debug, Default, PartialEq, Eq)]
pub struct Server {
    pub capacity: u64,
    pub used: u64,
    pub activation: u64,
}

#[repr(C)]
#[derive(Clone, Copy, Debug, Default, PartialEq, Eq)]
pub struct Thread {
    pub parameters: Parameters,
    pub blocked: u8,
    pub total: u64,
    pub left: u64,
    pub server: Server,
}

/// The bytes of one list: its length, then its places.
pub const ROW: usize = THREADS + 1;

/// The slots of all threads: their dues, or their amounts.
pub type Slots = [u64; THREADS * PENDING];

/// The numbers of one thread: limits, quanta, replenishments, amounts.
pub const TOLD: usize = 4;

/// What an event tells of all threads, one after another.
pub type Told = [u64; THREADS * TOLD];

pub const NOTHING_TOLD: Told = [0; THREADS * TOLD];

/// A state without its slots.
#[repr(C)]
#[derive(Clone, Copy, Debug, PartialEq, Eq)]
pub struct Core {
    pub header: Header,
    pub now: u64,
    pub idle: u64,
    pub word: u32,
    pub threads: [Thread; THREADS],
    pub counts: [u8; THREADS],
    pub lists: [u8; PRIORITIES * ROW],
}

#[derive(Clone, Copy, Debug, PartialEq, Eq)]
pub struct State {
    pub core: Core,
    pub dues: Slots,
    pub amounts: Slots,
}

#[repr(C)]
#[derive(Clone, Copy, Debug, PartialEq, Eq)]
pub struct Reply {
    pub status: u8,
    pub running: u8,
    pub next: u64,
}

/// What a search found: thread 32 for none.
#[repr(C)]
#[derive(Clone, Copy, Debug, PartialEq, Eq)]
pub struct NextDue {
    pub status: u8,
    pub thread: u8,
    pub due: u64,
}

/// The most that a sporadic thread takes at its upper priority; 0 ticks where it is refused.
#[repr(C)]
#[derive(Clone, Copy, Debug, PartialEq, Eq)]
pub struct Most {
    pub status: u8,
    pub ticks: u64,
}

/// A thread's share: form 0 a share, 1 no time has passed, 2 refused. What doesn't apply is 0.
#[repr(C)]
#[derive(Clone, Copy, Debug)]
pub struct Share {
    pub form: u8,
    pub status: u8,
    pub share: f64,
}

/// The largest and the smallest share, in the same forms.
#[repr(C)]
#[derive(Clone, Copy, Debug)]
pub struct ShareSummary {
    pub form: u8,
    pub status: u8,
    pub largest_thread: u8,
    pub smallest_thread: u8,
    pub largest: f64,
    pub smallest: f64,
}

/// The bytes that the lines of a trace's shares are written into.
pub const SHARE_LINES: usize = 4096;

/// An answer without the slots of its state, which are lent.
#[repr(C)]
#[derive(Clone, Copy)]
struct Answered {
    status: u8,
    running: u8,
    next: u64,
    core: Core,
}

#[derive(Clone, Copy, Debug)]
pub struct Answer {
    pub status: u8,
    pub running: u8,
    pub next: u64,
    pub state: State,
}

/// The answer of a function that is lent slots; what these hold before must not matter.
fn answered(call: impl FnOnce(&mut Slots, &mut Slots) -> Answered) -> Answer {
    let mut dues = [7; THREADS * PENDING];
    let mut amounts = [9; THREADS * PENDING];
    let a = call(&mut dues, &mut amounts);
    Answer {
        status: a.status,
        running: a.running,
        next: a.next,
        state: State {
            core: a.core,
            dues,
            amounts,
        },
    }
}

impl Answer {
    /// The answer without its state.
    pub fn reply(&self) -> Reply {
        Reply {
            status: self.status,
            running: self.running,
            next: self.next,
        }
    }
}

#[repr(C)]
#[derive(Clone, Copy)]
pub struct Table {
    pub threads: [Parameters; THREADS],
}

/// The events of a file to be written: an array on its own is not passed by value in C.
#[repr(C)]
#[derive(Clone, Copy)]
pub struct Events {
    pub events: [Event; MAX_EVENTS],
}

#[repr(C)]
#[derive(Clone, Copy, Debug, PartialEq, Eq)]
pub struct Found {
    pub status: u8,
    pub n: u32,
    pub start: u64,
    pub count: usize,
}

#[repr(C)]
#[derive(Clone, Copy, Debug, PartialEq, Eq)]
pub struct Written {
    pub status: u8,
    pub total: usize,
}

/// A file made of a text, or a text of a file: the status, the line of a refusal with 14 or 0, and
/// the bytes written.
#[repr(C)]
#[derive(Clone, Copy, Debug, PartialEq, Eq)]
pub struct Made {
    pub status: u8,
    pub line: usize,
    pub total: usize,
}

/// A verdict on a listing: 0 yes, 1 the line that differs, is missing or is surplus, 2 the trace's
/// refusal. What doesn't apply is 0.
#[repr(C)]
#[derive(Clone, Copy, Debug, PartialEq, Eq)]
pub struct Checked {
    pub verdict: u8,
    pub status: u8,
    pub line: usize,
}

#[repr(C)]
#[derive(Clone, Copy, Debug, PartialEq, Eq)]
pub struct Listed {
    pub status: u8,
    pub length: usize,
}

mod exported {
    use super::*;
    // A slice is a pointer and then a length.
    extern "C" {
        pub fn thawonlai_event(
            core: *mut Core,
            dues: *mut u64,
            amounts: *mut u64,
            told: *mut u64,
            e: Event,
        ) -> Reply;
        pub fn thawonlai_counter_event(
            core: *mut Core,
            dues: *mut u64,
            amounts: *mut u64,
            told: *mut u64,
            e: CounterEvent,
        ) -> Reply;
        pub fn thawonlai_open(
            header: Header,
            table: Table,
            dues: *mut u64,
            amounts: *mut u64,
        ) -> Answered;
        pub fn thawonlai_sound(core: *const Core, dues: *const u64, amounts: *const u64) -> u8;
        pub fn thawonlai_next_due(counts: *const u8, dues: *const u64, n: u32) -> NextDue;
        pub fn thawonlai_bound(p: Parameters, length: u64) -> Most;
        pub fn thawonlai_share(
            core: *const Core,
            dues: *const u64,
            amounts: *const u64,
            thread: u8,
        ) -> Share;
        pub fn thawonlai_share_summary(
            core: *const Core,
            dues: *const u64,
            amounts: *const u64,
        ) -> ShareSummary;
        pub fn thawonlai_share_listing(file: *const u8, length: usize, out: *mut u8) -> usize;
        pub fn thawonlai_read(file: *const u8, length: usize) -> Found;
        pub fn thawonlai_copy(file: *const u8, length: usize, out: *mut u8, room: usize)
            -> Written;
        pub fn thawonlai_write(
            header: Header,
            table: Table,
            events: Events,
            count: usize,
            out: *mut u8,
            room: usize,
        ) -> Written;
        pub fn thawonlai_from_text(
            text: *const u8,
            length: usize,
            out: *mut u8,
            room: usize,
        ) -> Made;
        pub fn thawonlai_to_text(file: *const u8, length: usize, out: *mut u8, room: usize)
            -> Made;
        pub fn thawonlai_check(
            file: *const u8,
            length: usize,
            theirs: *const u8,
            their_length: usize,
        ) -> Checked;
        pub fn thawonlai_replay(
            file: *const u8,
            length: usize,
            count: usize,
            dues: *mut u64,
            amounts: *mut u64,
        ) -> Answered;
        pub fn thawonlai_listing(
            file: *const u8,
            length: usize,
            out: *mut u8,
            room: usize,
        ) -> Listed;
    }
}

// None of the functions has a `requires`: any values may be handed in.

/// What `told` holds before doesn't matter.
pub fn event(state: &mut State, told: &mut Told, e: Event) -> Reply {
    let State {
        core,
        dues,
        amounts,
    } = state;
    let (dues, amounts) = (dues.as_mut_ptr(), amounts.as_mut_ptr());
    unsafe { exported::thawonlai_event(core, dues, amounts, told.as_mut_ptr(), e) }
}

/// The same, at a reading of a counter.
pub fn counter_event(state: &mut State, told: &mut Told, e: CounterEvent) -> Reply {
    let State {
        core,
        dues,
        amounts,
    } = state;
    let (dues, amounts) = (dues.as_mut_ptr(), amounts.as_mut_ptr());
    unsafe { exported::thawonlai_counter_event(core, dues, amounts, told.as_mut_ptr(), e) }
}

pub fn open(start: u64, n: u32, table: Table) -> Answer {
    let header = Header { n, start };
    answered(|dues, amounts| unsafe {
        exported::thawonlai_open(header, table, dues.as_mut_ptr(), amounts.as_mut_ptr())
    })
}

pub fn sound(s: &State) -> u8 {
    unsafe { exported::thawonlai_sound(&s.core, s.dues.as_ptr(), s.amounts.as_ptr()) }
}

/// A row of `PENDING` dues for each thread.
pub fn next_due(counts: &[u8; THREADS], dues: &[u64], n: u32) -> NextDue {
    assert_eq!(dues.len(), THREADS * PENDING);
    unsafe { exported::thawonlai_next_due(counts.as_ptr(), dues.as_ptr(), n) }
}

/// The most of `length` ticks.
pub fn bound(p: Parameters, length: u64) -> Most {
    unsafe { exported::thawonlai_bound(p, length) }
}

pub fn share(s: &State, thread: u8) -> Share {
    unsafe { exported::thawonlai_share(&s.core, s.dues.as_ptr(), s.amounts.as_ptr(), thread) }
}

pub fn share_summary(s: &State) -> ShareSummary {
    unsafe { exported::thawonlai_share_summary(&s.core, s.dues.as_ptr(), s.amounts.as_ptr()) }
}

/// The lines of a trace's shares; how many bytes they are.
pub fn share_listing(file: &[u8], out: &mut [u8; SHARE_LINES]) -> usize {
    unsafe { exported::thawonlai_share_listing(file.as_ptr(), file.len(), out.as_mut_ptr()) }
}

pub fn read(file: &[u8]) -> Found {
    unsafe { exported::thawonlai_read(file.as_ptr(), file.len()) }
}

pub fn copy(file: &[u8], out: &mut [u8]) -> Written {
    unsafe { exported::thawonlai_copy(file.as_ptr(), file.len(), out.as_mut_ptr(), out.len()) }
}

/// Writes the first `count` of the events.
pub fn write(
    header: Header,
    table: Table,
    events: Events,
    count: usize,
    out: &mut [u8],
) -> Written {
    unsafe { exported::thawonlai_write(header, table, events, count, out.as_mut_ptr(), out.len()) }
}

pub fn from_text(text: &[u8], out: &mut [u8]) -> Made {
    unsafe { exported::thawonlai_from_text(text.as_ptr(), text.len(), out.as_mut_ptr(), out.len()) }
}

pub fn to_text(file: &[u8], out: &mut [u8]) -> Made {
    unsafe { exported::thawonlai_to_text(file.as_ptr(), file.len(), out.as_mut_ptr(), out.len()) }
}

pub fn check(file: &[u8], theirs: &[u8]) -> Checked {
    unsafe { exported::thawonlai_check(file.as_ptr(), file.len(), theirs.as_ptr(), theirs.len()) }
}

/// The answer to the last of the file's first `count` events, with the state after it.
pub fn replay(file: &[u8], count: usize) -> Answer {
    answered(|dues, amounts| unsafe {
        exported::thawonlai_replay(
            file.as_ptr(),
            file.len(),
            count,
            dues.as_mut_ptr(),
            amounts.as_mut_ptr(),
        )
    })
}

pub fn listing(file: &[u8], out: &mut [u8]) -> Listed {
    unsafe { exported::thawonlai_listing(file.as_ptr(), file.len(), out.as_mut_ptr(), out.len()) }
}

// ------------------------------------------------------------- conversions

/// Parameters have the same fields on both sides, so one list of them serves both ways.
macro_rules! same_parameters {
    ($from:ty, $to:ty) => {
        impl From<$from> for $to {
            fn from(p: $from) -> $to {
                Self {
                    policy: p.policy,
                    priority: p.priority,
                    low: p.low,
                    max_repl: p.max_repl,
                    flag: p.flag,
                    budget: p.budget,
                    period: p.period,
                }
            }
        }
    };
}

same_parameters!(model::Parameters, Parameters);
same_parameters!(Parameters, model::Parameters);

impl From<model::Answer> for Reply {
    fn from(a: model::Answer) -> Reply {
        Reply {
            status: a.status,
            running: a.running,
            next: a.next,
        }
    }
}

impl From<model::Made> for Made {
    fn from(a: model::Made) -> Made {
        Made {
            status: a.status,
            line: a.line,
            total: a.total,
        }
    }
}

impl From<Result<Option<(usize, u64)>, u8>> for NextDue {
    fn from(a: Result<Option<(usize, u64)>, u8>) -> NextDue {
        let (thread, due) = a.ok().flatten().unwrap_or((THREADS, 0));
        NextDue {
            status: a.err().unwrap_or(0),
            thread: thread as u8,
            due,
        }
    }
}

impl From<Result<u64, u8>> for Most {
    fn from(a: Result<u64, u8>) -> Most {
        Most {
            status: a.err().unwrap_or(0),
            ticks: a.unwrap_or(0),
        }
    }
}

impl From<Result<Option<f64>, u8>> for Share {
    fn from(a: Result<Option<f64>, u8>) -> Share {
        let (form, status, share) = match a {
            Ok(Some(share)) => (0, 0, share),
            Ok(None) => (1, 0, 0.0),
            Err(status) => (2, status, 0.0),
        };
        Share {
            form,
            status,
            share,
        }
    }
}

impl From<Result<Option<model::Summary>, u8>> for ShareSummary {
    fn from(a: Result<Option<model::Summary>, u8>) -> ShareSummary {
        let nothing = ShareSummary {
            form: 0,
            status: 0,
            largest_thread: 0,
            smallest_thread: 0,
            largest: 0.0,
            smallest: 0.0,
        };
        match a {
            Ok(Some(sum)) => ShareSummary {
                largest_thread: sum.largest_thread,
                smallest_thread: sum.smallest_thread,
                largest: sum.largest,
                smallest: sum.smallest,
                ..nothing
            },
            Ok(None) => ShareSummary { form: 1, ..nothing },
            Err(status) => ShareSummary {
                form: 2,
                status,
                ..nothing
            },
        }
    }
}

/// Floats are the same where their bits are.
impl PartialEq for Share {
    fn eq(&self, other: &Share) -> bool {
        let parts = |a: &Share| (a.form, a.status, a.share.to_bits());
        parts(self) == parts(other)
    }
}

impl PartialEq for ShareSummary {
    fn eq(&self, other: &ShareSummary) -> bool {
        let numbers = |a: &ShareSummary| [a.form, a.status, a.largest_thread, a.smallest_thread];
        let floats = |a: &ShareSummary| [a.largest.to_bits(), a.smallest.to_bits()];
        numbers(self) == numbers(other) && floats(self) == floats(other)
    }
}

impl From<model::Verdict> for Checked {
    fn from(a: model::Verdict) -> Checked {
        let (verdict, status, line) = match a {
            model::Verdict::Yes => (0, 0, 0),
            model::Verdict::Line(line) => (1, 0, line),
            model::Verdict::Refused(status) => (2, status, 0),
        };
        Checked {
            verdict,
            status,
            line,
        }
    }
}

/// The model's numbers, where the code has them.
pub fn told_of(told: &model::Told) -> Told {
    let mut numbers = NOTHING_TOLD;
    for (to, of) in numbers.chunks_exact_mut(TOLD).zip(told) {
        to.copy_from_slice(&[of.limits, of.quanta, of.replenishments, of.amounts]);
    }
    numbers
}

/// The code's numbers, as the model has them.
pub fn counts_of(numbers: &Told) -> model::Told {
    let mut told = model::NOTHING_TOLD;
    for (to, of) in told.iter_mut().zip(numbers.chunks_exact(TOLD)) {
        *to = model::Counts {
            limits: of[0],
            quanta: of[1],
            replenishments: of[2],
            amounts: of[3],
        };
    }
    told
}

impl From<model::Event> for Event {
    fn from(e: model::Event) -> Event {
        Event {
            time: e.time,
            kind: e.kind,
            thread: e.thread,
            parameters: e.parameters.into(),
        }
    }
}

impl From<model::CounterEvent> for CounterEvent {
    fn from(e: model::CounterEvent) -> CounterEvent {
        CounterEvent {
            reading: e.reading,
            kind: e.kind,
            thread: e.thread,
            parameters: e.parameters.into(),
        }
    }
}

pub fn table_of(table: &[model::Parameters; THREADS]) -> Table {
    Table {
        threads: table.map(Parameters::from),
    }
}

/// As many events as there are places for, and zeros in the others.
pub fn events_of(events: &[model::Event]) -> Events {
    let zeros = Event::from(model::Event::default());
    let mut places = Events {
        events: [zeros; MAX_EVENTS],
    };
    for (to, e) in places.events.iter_mut().zip(events) {
        *to = (*e).into();
    }
    places
}

/// Zeros in every field.
impl Default for State {
    fn default() -> State {
        State {
            core: Core {
                header: Header::default(),
                now: 0,
                idle: 0,
                word: 0,
                threads: [Thread::default(); THREADS],
                counts: [0; THREADS],
                lists: [0; PRIORITIES * ROW],
            },
            dues: [0; THREADS * PENDING],
            amounts: [0; THREADS * PENDING],
        }
    }
}

impl From<&model::State> for State {
    fn from(s: &model::State) -> State {
        let mut r = State::default();
        r.core.header = Header {
            n: s.n,
            start: s.start,
        };
        r.core.now = s.now;
        r.core.idle = s.idle;
        r.core.word = s.word;
        for (i, t) in s.threads.iter().enumerate() {
            r.core.threads[i] = Thread {
                parameters: t.parameters.into(),
                blocked: t.blocked,
                total: t.total,
                left: t.quantum,
                server: Server {
                    capacity: t.capacity,
                    used: t.used,
                    activation: t.activation,
                },
            };
            r.core.counts[i] = t.pending;
            r.dues[i * PENDING..][..PENDING].copy_from_slice(&t.dues);
            r.amounts[i * PENDING..][..PENDING].copy_from_slice(&t.amounts);
        }
        for (k, list) in s.lists.iter().enumerate() {
            r.core.lists[k * ROW] = list.length;
            r.core.lists[k * ROW + 1..][..THREADS].copy_from_slice(&list.members);
        }
        r
    }
}

impl From<&State> for model::State {
    fn from(s: &State) -> model::State {
        let mut r = model::State {
            n: s.core.header.n,
            start: s.core.header.start,
            now: s.core.now,
            idle: s.core.idle,
            word: s.core.word,
            ..model::State::default()
        };
        for (i, t) in s.core.threads.iter().enumerate() {
            let to = &mut r.threads[i];
            to.parameters = t.parameters.into();
            to.blocked = t.blocked;
            to.pending = s.core.counts[i];
            to.total = t.total;
            to.quantum = t.left;
            to.capacity = t.server.capacity;
            to.used = t.server.used;
            to.activation = t.server.activation;
            to.dues.copy_from_slice(&s.dues[i * PENDING..][..PENDING]);
            to.amounts
                .copy_from_slice(&s.amounts[i * PENDING..][..PENDING]);
        }
        for (k, list) in r.lists.iter_mut().enumerate() {
            list.length = s.core.lists[k * ROW];
            list.members
                .copy_from_slice(&s.core.lists[k * ROW + 1..][..THREADS]);
        }
        r
    }
}
