//! Writing: any header, table and events into buffers of any length.

use crate::case::{buffer, cases, same_buffer};
use crate::coverage::{answers, row, Coverage, Group, Tally};
use differential as board;
use model::random::Random;
use model::{status, Event, Parameters, MAX_EVENTS, THREADS};

/// Any fields: the writer judges none of them.
fn parameters(r: &mut Random) -> Parameters {
    let mut p = r.parameters();
    for _ in 0..r.below(3) {
        r.damage_parameters(&mut p);
    }
    p
}

fn event(r: &mut Random) -> Event {
    Event {
        time: r.odd(),
        kind: r.odd() as u8,
        thread: r.odd() as u8,
        parameters: parameters(r),
    }
}

/// A number of threads or events: for the most part one from `from` to `to`, else one past them.
fn number(r: &mut Random, from: u64, to: u64, most: u64) -> u64 {
    let odd = r.odd().max(to + 1).min(most);
    match r.below(12) {
        0 => r.pick(&[from.saturating_sub(1), to + 1]),
        1 => odd,
        2 => r.pick(&[from, to]),
        3 => r.between(from, to),
        _ => r.between(from, to.min(12)),
    }
}

/// Writes by both. Places of the table past n and of the events past the count hold anything too.
pub fn writes(count: u64, seed: u64, seen: &mut Coverage) {
    let mut covered = Seen::default();
    for case in cases("writes", seed).take(count as usize) {
        let r = &mut case.random();
        let n = number(r, 1, THREADS as u64, u32::MAX as u64) as u32;
        let count = number(r, 0, MAX_EVENTS as u64, u64::MAX) as usize;
        let start = r.odd();
        let table: [Parameters; THREADS] = std::array::from_fn(|_| parameters(r));
        let given = count.saturating_add(3).min(MAX_EVENTS + 1);
        let events: Vec<Event> = (0..given).map(|_| event(r)).collect();
        let written = &events[..count.min(given)];
        let mut ours = buffer(r, model::total_bytes(n.min(33) as usize, written.len()));
        let mut theirs = ours.clone();
        let a = match model::write(start, n, &table, written, &mut ours) {
            Err(status) => board::Written { status, total: 0 },
            Ok(total) => board::Written { status: 0, total },
        };
        let header = board::Header { n, start };
        let places = board::events_of(&events);
        let b = board::write(header, board::table_of(&table), places, count, &mut theirs);
        let input = || format!("n {n} start {start} {count} events {table:?} {events:?}");
        same_buffer(&case, "writing", input, (a, &ours), (b, &theirs));
        covered.add(n, &table, count, ours.len(), a.status);
    }
    covered.writes.print("files written");
    seen.others.push(covered.group());
}

// ------------------------------------------------------------------ coverage

/// What the writes covered.
#[derive(Default)]
struct Seen {
    writes: Tally,
    bounds: [u64; 14],
}

impl Seen {
    /// A write of `count` events into a buffer of `room` bytes.
    fn add(
        &mut self,
        n: u32,
        table: &[Parameters; THREADS],
        count: usize,
        room: usize,
        answer: u8,
    ) {
        self.writes.add(answer);
        let (good_n, good_count) = (1 <= n && n as usize <= THREADS, count <= MAX_EVENTS);
        let total = model::total_bytes(n.min(33) as usize, count.min(MAX_EVENTS + 1));
        let past = || {
            table[n as usize..]
                .iter()
                .any(|p| *p != Parameters::default())
        };
        let here = [
            (n == 0, status::THREAD),
            (n as usize == THREADS + 1, status::THREAD),
            (n as usize > THREADS + 1, status::THREAD),
            (!good_n && !good_count, status::THREAD),
            (!good_n && good_count && room < total, status::THREAD),
            (good_n && count == MAX_EVENTS + 1, status::HEADER),
            (good_n && count > u32::MAX as usize, status::HEADER),
            (good_n && !good_count && room < total, status::HEADER),
            (good_n && good_count && room + 1 == total, status::BUFFER),
            (room == total && count > 0, status::ACCEPTED),
            (room > total, status::ACCEPTED),
            (
                n as usize == THREADS && count == MAX_EVENTS,
                status::ACCEPTED,
            ),
            (count == 0, status::ACCEPTED),
            (answer == status::ACCEPTED && past(), status::ACCEPTED),
        ];
        for (k, (here, status)) in here.into_iter().enumerate() {
            self.bounds[k] += (here && answer == status) as u64;
        }
    }

    fn group(&self) -> Group {
        Group {
            sorts: &["writes"],
            rows: vec![
                answers(
                    "files written, by status",
                    &[(&self.writes, &[0, 5, 11, 12])],
                ),
                row(
                    "writing at its bounds, one past them, and with several faults",
                    &self.bounds,
                ),
            ],
        }
    }
}
