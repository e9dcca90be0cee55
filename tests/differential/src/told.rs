//! What an event tells of the time that passed (02 E3): the code's numbers beside the model's, and
//! with extra clock readings beside its own; the stored cases.

use crate::case::Case;
use crate::coverage::{row, Row};
use crate::stored::{bytes, inputs};
use differential as board;
use model::random::Random;
use model::{status, Answer, Counts, Event, Told, BLOCK, MAX_STEP, RR, YIELD};

/// What is lent: numbers that an event never tells, and that are not the same everywhere.
pub fn lent(e: &Event) -> board::Told {
    std::array::from_fn(|k| ((k as u64 + 1) << 32) + e.time % MAX_STEP)
}

pub fn same_told(
    case: &Case,
    what: &str,
    input: impl Fn() -> String,
    expected: &board::Told,
    told: &board::Told,
) {
    if expected == told {
        return;
    }
    let mut detail = input();
    let of = |told: &board::Told| board::counts_of(told);
    for (i, (a, b)) in of(expected).iter().zip(of(told)).enumerate() {
        if *a != b {
            detail += &format!("\nthread {i} expected {a:?}\nthread {i} code {b:?}");
        }
    }
    case.differ(&format!("the numbers told of {what}"), detail);
}

// ------------------------------------------------------- extra clock readings

/// What the code made of an event: its reply, its numbers, and the state after it.
pub type Made<'a> = (board::Reply, &'a board::Told, &'a board::State);

/// The same event after extra clock readings: the code gives the same answer, and what it tells of
/// the readings and of the event adds up to what it told of the event alone (02 E3 4).
pub fn with_readings(
    case: &Case,
    r: &mut Random,
    given: &board::State,
    e: &Event,
    (reply, alone, after): Made,
    seen: &mut Seen,
) {
    let mut t = *given;
    let mut sums = board::NOTHING_TOLD;
    let mut parts = Vec::new();
    let input = || format!("{e:?} with readings on {:?}", model::State::from(given));
    for time in reading_times(r, t.core.now, e.time) {
        let reading = Event {
            time,
            ..Event::default()
        };
        let mut told = lent(&reading);
        let a = board::event(&mut t, &mut told, reading.into());
        if a.status != status::ACCEPTED {
            case.differ("an extra clock reading", format!("{a:?}\nof {}", input()));
        }
        add(&mut sums, &told);
        parts.push(told);
    }
    let mut told = lent(e);
    let a = board::event(&mut t, &mut told, (*e).into());
    if a != reply || t != *after {
        let detail = format!("{a:?}\nalone {reply:?}\nof {}", input());
        case.differ("an event after extra clock readings", detail);
    }
    add(&mut sums, &told);
    parts.push(told);
    same_told(
        case,
        "an event and its extra clock readings",
        input,
        alone,
        &sums,
    );
    seen.parts(&parts);
}

pub fn add(sums: &mut board::Told, told: &board::Told) {
    for (sum, number) in sums.iter_mut().zip(told) {
        *sum = sum.wrapping_add(*number);
    }
}

/// Times from now to the event's that don't fall; at times each tick.
fn reading_times(r: &mut Random, now: u64, to: u64) -> Vec<u64> {
    if to - now < 20 && r.one_in(4) {
        return (now..=to).collect();
    }
    let mut times: Vec<u64> = (0..r.between(1, 4)).map(|_| r.between(now, to)).collect();
    times.sort();
    times
}

// --------------------------------------------------------------- stored cases

/// The stored traces through the code, opened and stepped event by event.
pub fn stored(case: &Case, seen: &mut Seen) {
    for path in inputs("counts", "bin") {
        let text = counts(&bytes(&path));
        let said = bytes(&path.with_extension("counts"));
        if text.as_bytes() != said {
            let said = String::from_utf8_lossy(&said);
            let detail = format!("{}\nstored\n{said}\ncode\n{text}", path.display());
            case.differ("a stored case", detail);
        }
        seen.stored[text.starts_with("refused") as usize] += 1;
    }
}

/// A trace's numbers as text.
pub fn counts(file: &[u8]) -> String {
    let trace = match model::read(file) {
        Ok(trace) => trace,
        Err(status) => return format!("refused {status}\n"),
    };
    let mut opened = board::open(trace.start, trace.n, board::table_of(&trace.table()));
    if opened.status != status::ACCEPTED {
        return format!("refused {}\n", opened.status);
    }
    let answers: Vec<(u8, Told)> = trace
        .map(|e| {
            let mut told = lent(&e);
            let a = board::event(&mut opened.state, &mut told, e.into());
            (a.status, board::counts_of(&told))
        })
        .collect();
    model::counts_text(trace.n as usize, &answers)
}

// ------------------------------------------------------------------- coverage

/// Limits, quanta, replenishments.
const SORTS: usize = 3;

fn by_sort(n: &Counts) -> [u64; SORTS] {
    [n.limits, n.quanta, n.replenishments]
}

/// What was told, counted from the model's numbers.
#[derive(Default)]
pub struct Seen {
    /// By sort: one in an event, several of a thread, some of several threads.
    told: [[u64; 3]; SORTS],
    /// Several of every sort in one event.
    mixed: u64,
    /// U that is back at once: at a limit, at a block.
    at_once: [u64; 2],
    /// Yields of an RR thread, which tell nothing.
    rr_yields: u64,
    /// A refused event after one that told something.
    refused_after: u64,
    last_told: bool,
    /// By number: told in part of a reading, in part of another or of the event.
    split: [u64; board::TOLD],
    /// Stored traces, stored refusals.
    stored: [u64; 2],
}

impl Seen {
    /// A sequence begins.
    pub fn begin(&mut self) {
        self.last_told = false;
    }

    /// An event of a sequence.
    pub fn event(&mut self, a: &Answer, told: &Told) {
        let refused = a.status != status::ACCEPTED;
        self.refused_after += (refused && self.last_told) as u64;
        self.last_told = told.iter().any(|n| *n != Counts::default());
        let mut several = 0;
        for (k, seen) in self.told.iter_mut().enumerate() {
            let all = || told.iter().map(|n| by_sort(n)[k]);
            let sum: u64 = all().sum();
            seen[0] += (sum == 1) as u64;
            seen[1] += all().any(|n| n > 1) as u64;
            seen[2] += (all().filter(|n| *n > 0).count() > 1) as u64;
            several += (sum > 1) as usize;
        }
        self.mixed += (several == SORTS) as u64;
    }

    /// A limit of a thread at one moment, none of its entries being due then.
    pub fn limit(&mut self, n: &Counts) {
        self.at_once[0] += (n.limits == 1 && n.replenishments == 1) as u64;
    }

    /// An accepted event, its thread's policy, and whether its own effect told something.
    pub fn effect(&mut self, kind: u8, policy: u8, own: bool) {
        self.at_once[1] += (kind == BLOCK && own) as u64;
        self.rr_yields += (kind == YIELD && policy == RR && !own) as u64;
    }

    fn parts(&mut self, parts: &[board::Told]) {
        for k in 0..board::NOTHING_TOLD.len() {
            let told = parts.iter().filter(|told| told[k] > 0).count();
            self.split[k % board::TOLD] += (told > 1) as u64;
        }
    }

    pub fn rows(&self) -> Vec<Row> {
        let others = [&self.mixed, &self.rr_yields, &self.refused_after];
        vec![
            row(
                "told of an event: limits, quanta, replenishments; one, several, of several threads",
                self.told.as_flattened(),
            ),
            row(
                "told: U back at once at a limit, at a block; several of all; RR yields; a refusal next",
                self.at_once.iter().chain(others),
            ),
            row(
                "limits, quanta, replenishments, amounts split by extra readings",
                &self.split,
            ),
            row("stored numbers: traces, refusals", &self.stored),
        ]
    }
}
