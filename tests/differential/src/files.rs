//! Trace files: read, copied and listed.

use crate::case::{buffer, cases, same_buffer, Case};
use crate::coverage::Coverage;
use crate::events::table;
use differential as board;
use model::random::Random;
use model::{Event, Parameters, MAX_EVENTS, THREADS};

/// A file as the model writes it. Its records need not be in range.
pub fn file(r: &mut Random) -> Vec<u8> {
    let n = r.threads();
    let aim = r.aim();
    let mut table = table(r, n, aim);
    let start = if r.one_in(8) { r.odd() } else { r.start() };
    if r.one_in(60) {
        return leaps(r, start, n, &mut table);
    }
    if r.one_in(4) {
        let i = r.below(THREADS as u64) as usize;
        r.damage_parameters(&mut table[i]);
    }
    let count = match r.below(400) {
        0 => MAX_EVENTS as u64,
        1 => r.below(MAX_EVENTS as u64),
        2..=40 => 0,
        41..=80 => r.below(300),
        81..=240 => r.below(60),
        _ => r.below(12),
    };
    // the events follow each other's states, so that the listing shows more than a state just opened
    let (_, mut s) = model::open(start, n, &table);
    let damage = r.pick(&[0, 5, 30]);
    let events: Vec<Event> = (0..count)
        .map(|_| {
            let e = r.aimed_event(&s, aim, damage);
            model::event(&mut s, &e);
            e
        })
        .collect();
    written(start, n, &table, &events)
}

/// Clock readings, each the longest step after the one before: a run time or the idle time grows to
/// 1.5 * 10^9 ticks, the most that a file can show. The runnable threads are FIFO, without moments.
fn leaps(r: &mut Random, start: u64, n: u32, table: &mut [Parameters; THREADS]) -> Vec<u8> {
    let idle = r.one_in(3);
    for p in table.iter_mut().filter(|p| idle || p.policy != model::FIFO) {
        p.flag = 0;
    }
    let any = r.below(MAX_EVENTS as u64);
    let count = r.pick(&[any, any, MAX_EVENTS as u64]);
    let events: Vec<Event> = (1..=count)
        .map(|k| Event {
            time: start.wrapping_add(k * model::MAX_STEP),
            ..Event::default()
        })
        .collect();
    written(start, n, table, &events)
}

fn written(start: u64, n: u32, table: &[Parameters; THREADS], events: &[Event]) -> Vec<u8> {
    let mut out = vec![0; model::total_bytes(n as usize, events.len())];
    model::write(start, n, table, events, &mut out).expect("the buffer has the file's length");
    out
}

fn u32_at(file: &[u8], at: usize) -> u32 {
    u32::from_le_bytes(file[at..at + 4].try_into().expect("four bytes"))
}

fn put_u32(file: &mut [u8], at: usize, x: u32) {
    file[at..at + 4].copy_from_slice(&x.to_le_bytes());
}

/// Changes a file: bits, bytes, its end, its header, its size, a filler byte.
pub fn damage_file(r: &mut Random, file: &mut Vec<u8>) {
    let length = file.len() as u64;
    if length < 32 {
        return;
    }
    match r.below(10) {
        0 => file[r.below(length) as usize] ^= 1 << r.below(8),
        1 => file[r.below(32) as usize] ^= 1 << r.below(8),
        2 => file[r.below(length) as usize] = r.bits() as u8,
        3 => {
            let cut = if r.one_in(2) { 1 } else { r.below(length + 1) };
            file.truncate((length - cut) as usize);
        }
        4 => {
            let more = r.pick(&[1, 1, 24, 40, 100]);
            file.extend((0..more).map(|_| r.bits() as u8));
        }
        5 | 6 => damage_header(r, file),
        7 => resize(r, file),
        _ => damage_filler(r, file),
    }
}

fn damage_header(r: &mut Random, file: &mut [u8]) {
    let at = 4 * r.below(6) as usize;
    let x = u32_at(file, at);
    let odd = r.odd() as u32;
    let x = match r.below(8) {
        0 => x.wrapping_add(1),
        1 => x.wrapping_sub(1),
        2 => x.wrapping_add(r.pick(&[24, 40]) as u32),
        3 => x.wrapping_sub(r.pick(&[24, 40]) as u32),
        4 => x ^ (1 << r.below(32)),
        5 => r.pick(&[0, 1, 31, 32, 33, 1_499, 1_500, 1_501]) as u32,
        _ => odd,
    };
    put_u32(file, at, x);
}

/// Gives a file other numbers of threads and events and all else to match, so that a number past
/// its bound is the only fault.
fn resize(r: &mut Random, file: &mut Vec<u8>) {
    let (n, events) = (u32_at(file, 4).min(33), u32_at(file, 8).min(1_501));
    let n = r.pick(&[0, 1, 32, 33, n as u64]) as usize;
    let events = r.pick(&[0, 1_500, 1_501, events as u64]) as usize;
    let total = model::total_bytes(n, events);
    file.resize(total, 0);
    for (at, x) in [
        (4, n),
        (8, events),
        (16, model::total_bytes(n, 0)),
        (20, total),
    ] {
        put_u32(file, at, x as u32);
    }
}

/// A filler byte, where the header and the length are still right.
fn damage_filler(r: &mut Random, file: &mut [u8]) {
    let length = file.len() as u64;
    let first = 32 + 24 * u32_at(file, 4) as u64;
    if first < length {
        let k = r.below((length - first).div_ceil(40));
        let at = first + 40 * k + r.between(9, 16);
        if at < length {
            file[at as usize] ^= 1 << r.below(8);
        }
    }
}

/// Read and copy, by the model's reader and writer.
fn model_copy(file: &[u8], out: &mut [u8]) -> board::Written {
    let written = match model::read(file) {
        Err(status) => Err(status),
        Ok(trace) => {
            let events: Vec<Event> = trace.collect();
            model::write(trace.start, trace.n, &trace.table(), &events, out)
        }
    };
    match written {
        Err(status) => board::Written { status, total: 0 },
        Ok(total) => board::Written { status: 0, total },
    }
}

/// The model's listing put into a buffer, which keeps every byte where it is too short.
fn model_listing(text: &[u8], out: &mut [u8]) -> board::Listed {
    match out.get_mut(..text.len()) {
        None => board::Listed {
            status: model::status::BUFFER,
            length: 0,
        },
        Some(to) => {
            to.copy_from_slice(text);
            board::Listed {
                status: 0,
                length: text.len(),
            }
        }
    }
}

fn same_reading(case: &Case, file: &[u8], seen: &mut Coverage) {
    let a = match model::read(file) {
        Err(status) => board::Found {
            status,
            n: 0,
            start: 0,
            count: 0,
        },
        Ok(t) => board::Found {
            status: 0,
            n: t.n,
            start: t.start,
            count: t.events as usize,
        },
    };
    let b = board::read(file);
    if a != b {
        let detail = format!("model {a:?}\ncode {b:?}\nof {file:?}");
        case.differ("reading", detail);
    }
    seen.reads.add(a.status);
}

fn same_copy(case: &Case, file: &[u8], r: &mut Random, seen: &mut Coverage) {
    let mut ours = buffer(r, file.len());
    let mut theirs = ours.clone();
    let a = model_copy(file, &mut ours);
    let b = board::copy(file, &mut theirs);
    let input = || format!("{file:?}");
    same_buffer(case, "copying", input, (a, &ours), (b, &theirs));
    seen.copies.add(a.status);
}

fn same_listing(case: &Case, file: &[u8], r: &mut Random, seen: &mut Coverage) {
    let text = model::listing(file);
    let mut ours = buffer(r, text.len());
    let mut theirs = ours.clone();
    let a = model_listing(&text, &mut ours);
    let b = board::listing(file, &mut theirs);
    let input = || format!("{file:?}");
    same_buffer(case, "listing", input, (a, &ours), (b, &theirs));
    seen.listings.add(a.status);
    if a.status == model::status::ACCEPTED {
        seen.listing(&text);
    }
}

/// Files, damaged for the most part: read, copied and listed.
pub fn files(count: u64, seed: u64, seen: &mut Coverage) {
    for case in cases("files", seed).take(count as usize) {
        let r = &mut case.random();
        let mut file = file(r);
        for _ in 0..r.pick(&[0, 0, 1, 1, 1, 2, 3]) {
            damage_file(r, &mut file);
        }
        same_reading(&case, &file, seen);
        same_copy(&case, &file, r, seen);
        same_listing(&case, &file, r, seen);
    }
    seen.reads.print("files read");
    seen.copies.print("files copied");
    seen.listings.print("files listed");
}
