//! Replays the same events through the proved code and through the plain program beside this one
//! (`plain`), both in place and both with the test of soundness that an event begins with, and
//! prints nanoseconds and instructions for an event and for a moment. Then the same for the worst
//! that is known (`rows`), and for a text that is made a trace file, by the code, by plain Rust and
//! by the model.
//!
//! `bench`: times. `bench --once`: each measurement once, for callgrind, which counts inside
//! `bench_measured`. `bench --instructions FILE`: times, and the counts of that run, one to a line.

mod given;
mod rows;
mod script;
mod text;

use differential as board;
use plain::random::Random;
use plain::{Event, Parameters, State, BLOCK, CLOCK, THREADS, WAKE, YIELD};
use script::{accept, event, mixed, moments_until, opened, Setting};
use std::hint::black_box;
use std::time::Instant;

/// What is measured of a row.
#[derive(Clone, Copy, PartialEq)]
enum What {
    /// events of all kinds, a few ticks apart
    Events,
    /// clock readings with many moments between them
    Moments,
    /// clock readings at the time now: what an event costs when nothing happens
    Readings,
    /// the test of soundness alone
    Soundness,
    /// a whole trace file, opened and stepped; no column of its own
    Replay,
    /// the listing of one; no column of its own
    Listing,
    /// a text made a trace file; no column of its own
    Text,
}

const WHATS: [What; 4] = [What::Events, What::Moments, What::Readings, What::Soundness];

/// How many events of each are replayed in one measurement.
struct Size {
    events: usize,
    moments: usize,
    runs: usize,
}

const TIMED: Size = Size {
    events: 2_000,
    moments: 20,
    runs: 61,
};
const COUNTED: Size = Size {
    events: 300,
    moments: 4,
    runs: 1,
};

/// The ticks between the readings of a measurement of moments.
const STEP: u64 = 20_000;

/// The events of a measurement, each accepted, and the number of moments that fall into them.
fn script(s: &State, what: What, size: &Size) -> (Vec<Event>, u64) {
    let mut s = *s;
    let mut r = Random::new(7);
    let mut moments = 0;
    let count = if what == What::Moments {
        size.moments
    } else {
        size.events
    };
    let events = (0..count)
        .map(|_| {
            let e = match what {
                What::Moments => event(s.now + STEP, CLOCK, 0),
                What::Events => mixed(&s, &mut r),
                _ => event(s.now, CLOCK, 0),
            };
            moments += moments_until(&s, e.time);
            accept(&mut s, e)
        })
        .collect();
    (events, moments)
}

/// A text of 32 threads and as many events of all kinds as a file holds.
fn text() -> String {
    let mut text = "start 1000000\n".to_owned();
    for i in 0..THREADS {
        text += &format!(
            "thread 2 {} 5 {} 1 {} 4000\n",
            6 + i % 20,
            1 + i % 8,
            10 + i
        );
    }
    let mut r = Random::new(7);
    let mut time = 1_000_000;
    for k in 0..plain::MAX_EVENTS {
        time += r.below(2_000);
        let i = r.below(THREADS as u64);
        text += &match k as u8 % 5 {
            CLOCK => format!("clock {time}\n"),
            BLOCK => format!("block {time}\n"),
            YIELD => format!("yield {time}\n"),
            WAKE => format!("wake {time} {i}\n"),
            _ => format!("set {time} {i} 2 20 5 4 {} 4000\n", 10 + i),
        };
    }
    text
}

/// A measurement's input for both sides.
struct Case {
    what: What,
    state: State,
    given: board::State,
    events: Vec<Event>,
    records: Vec<board::Event>,
    moments: u64,
    /// the text, or the file that is replayed
    text: Vec<u8>,
}

/// Who does it. The model makes files of texts only.
#[repr(C)]
#[derive(Clone, Copy, PartialEq)]
enum Side {
    Code,
    Plain,
    Model,
}

const SIDES: [Side; 3] = [Side::Code, Side::Plain, Side::Model];

/// What a measurement changes: the state of each side, the numbers that the code tells of an event,
/// and the file or the listing that is written.
struct Lent {
    s: State,
    t: board::State,
    told: board::Told,
    out: Vec<u8>,
}

impl Case {
    fn text() -> Case {
        let (_, state) = plain::open(0, 0, &[Parameters::default(); THREADS]);
        Case {
            what: What::Text,
            state,
            given: given::state(&state),
            events: Vec::new(),
            records: Vec::new(),
            moments: 0,
            text: text().into_bytes(),
        }
    }

    fn lent(&self) -> Lent {
        let room = plain::total_bytes(THREADS, plain::MAX_EVENTS);
        Lent {
            s: self.state,
            t: self.given,
            told: board::NOTHING_TOLD,
            out: match self.what {
                What::Text | What::Listing => vec![0; room],
                _ => Vec::new(),
            },
        }
    }

    fn new(state: &State, what: What, size: &Size) -> Case {
        let (events, moments) = script(state, what, size);
        Case {
            what,
            state: *state,
            given: given::state(state),
            records: events.iter().map(given::event).collect(),
            events,
            moments,
            text: Vec::new(),
        }
    }
}

/// One replay by one side. Its own function, so that callgrind can count inside it.
#[inline(never)]
#[no_mangle]
extern "C" fn bench_measured(case: &Case, side: Side, lent: &mut Lent) {
    let Lent { s, t, told, out } = lent;
    match (case.what, side == Side::Code) {
        (What::Text, true) => {
            black_box(board::from_text(&case.text, out));
        }
        (What::Text, false) if side == Side::Model => {
            black_box(model::from_text(&case.text, out));
        }
        (What::Text, false) => {
            black_box(text::from_text(&case.text, out));
        }
        (What::Replay, true) => *t = board::replay(&case.text, plain::MAX_EVENTS).state,
        (What::Replay, false) => *s = rows::replayed(&case.text),
        (What::Listing, true) => {
            let listed = board::listing(&case.text, out);
            out.truncate(listed.length);
        }
        (What::Listing, false) => *out = plain::listing(&case.text),
        (What::Soundness, true) => {
            for _ in &case.records {
                black_box(board::sound(black_box(t)));
            }
        }
        (What::Soundness, false) => {
            for _ in &case.events {
                black_box(plain::sound(black_box(s)));
            }
        }
        (_, true) => {
            for e in &case.records {
                black_box(board::event(t, told, *e));
            }
        }
        (_, false) => {
            for e in &case.events {
                black_box(plain::event(s, e));
            }
        }
    }
}

/// Nanoseconds of one replay.
fn replay(case: &Case, side: Side) -> f64 {
    let mut lent = case.lent();
    let start = Instant::now();
    bench_measured(case, side, &mut lent);
    let ns = start.elapsed().as_nanos() as f64;
    black_box(lent);
    ns
}

/// Both ends must agree.
fn agree(case: &Case) {
    let mut lent = case.lent();
    bench_measured(case, Side::Plain, &mut lent);
    let file = std::mem::replace(&mut lent.out, case.lent().out);
    bench_measured(case, Side::Code, &mut lent);
    assert!(
        given::state(&lent.s) == lent.t,
        "the two ended in different states"
    );
    assert!(file == lent.out, "the two wrote different bytes");
    assert!(
        case.what != What::Text || plain::read(&file).is_ok(),
        "the text is refused"
    );
}

/// What a row shows: for an event of all kinds, for a moment, a reading and the test alone.
struct Costs {
    each: [f64; 4],
}

/// `totals` of the four measurements, made costs.
fn costs(totals: [f64; 4], cases: &[Case]) -> Costs {
    let reading = totals[2] / cases[2].events.len() as f64;
    let moment =
        (totals[1] - reading * cases[1].events.len() as f64).max(0.0) / cases[1].moments as f64;
    Costs {
        each: [
            totals[0] / cases[0].events.len() as f64,
            moment,
            reading,
            totals[3] / cases[3].events.len() as f64,
        ],
    }
}

fn settings() -> Vec<Setting> {
    let mut all = Vec::new();
    for n in [2, 32] {
        for many in [false, true] {
            for small in [true, false] {
                all.push(Setting { n, many, small });
            }
        }
    }
    all
}

fn cases(x: Setting, size: &Size) -> Vec<Case> {
    let (s, _) = opened(x);
    WHATS.map(|what| Case::new(&s, what, size)).into()
}

fn main() {
    let words: Vec<String> = std::env::args().skip(1).collect();
    let words: Vec<&str> = words.iter().map(String::as_str).collect();
    let counts: Option<Vec<f64>> = match words[..] {
        [] => None,
        ["--once"] => {
            for x in settings() {
                for case in &cases(x, &COUNTED) {
                    replay(case, Side::Code);
                    replay(case, Side::Plain);
                }
            }
            rows::worst(&COUNTED).iter().for_each(rows::Row::once);
            for side in SIDES {
                replay(&Case::text(), side);
            }
            return;
        }
        ["--instructions", file] => {
            let text = std::fs::read_to_string(file).expect("the counts can be read");
            Some(text.lines().map(|l| l.parse().expect("a number")).collect())
        }
        _ => {
            eprintln!("usage: bench [--once | --instructions FILE]");
            std::process::exit(2);
        }
    };
    // Rounds outermost, so that a busy spell of the machine falls on all measurements alike.
    let rows: Vec<Vec<Case>> = settings().into_iter().map(|x| cases(x, &TIMED)).collect();
    let mut worst = rows::worst(&TIMED);
    let text = Case::text();
    rows.iter().flatten().for_each(agree);
    worst.iter().for_each(rows::Row::agree);
    agree(&text);
    let mut text_times = [Vec::new(), Vec::new(), Vec::new()];
    let mut times: Vec<[[Vec<f64>; 4]; 2]> = rows.iter().map(|_| Default::default()).collect();
    for _ in 0..TIMED.runs {
        for (row, timed) in rows.iter().enumerate() {
            for (k, case) in timed.iter().enumerate() {
                for side in 0..2 {
                    times[row][side][k].push(replay(case, SIDES[side]));
                }
            }
        }
        worst.iter_mut().for_each(rows::Row::round);
        for (side, times) in text_times.iter_mut().enumerate() {
            times.push(replay(&text, SIDES[side]));
        }
    }
    let mut noise: f64 = 0.0;
    let mut tables = [Vec::new(), Vec::new()];
    for (row, x) in settings().into_iter().enumerate() {
        let timed = &rows[row];
        let mut best = [[0.0; 4]; 2];
        for side in 0..2 {
            for k in 0..4 {
                let all: &mut Vec<f64> = &mut times[row][side][k];
                all.sort_by(f64::total_cmp);
                best[side][k] = all[0];
                noise = noise.max(all[TIMED.runs / 2] / all[0] - 1.0);
            }
        }
        let name = format!(
            "{:>2}  {:<4}  {:<5}",
            x.n,
            if x.many { "many" } else { "few" },
            if x.small { "small" } else { "large" }
        );
        let mix = timed[0].moments as f64 / timed[0].events.len() as f64;
        tables[0].push((
            name.clone(),
            mix,
            costs(best[0], timed),
            costs(best[1], timed),
        ));
        if let Some(counts) = &counts {
            let counted = cases(x, &COUNTED);
            let side = |side: usize| {
                costs(
                    [0, 1, 2, 3].map(|k| counts[row * 8 + k * 2 + side]),
                    &counted,
                )
            };
            let mix = counted[0].moments as f64 / counted[0].events.len() as f64;
            tables[1].push((name, mix, side(0), side(1)));
        }
    }
    let of_worst = [
        worst.iter().map(rows::Row::timed).collect(),
        counts.as_ref().map_or(Vec::new(), |counts| {
            rows::counted(&counts[settings().len() * WHATS.len() * 2..])
        }),
    ];
    let best = |times: &Vec<f64>| times.iter().copied().fold(f64::INFINITY, f64::min);
    let of_text = [
        Some(text_times.each_ref().map(best)),
        counts.map(|counts| [3, 2, 1].map(|k| counts[counts.len() - k])),
    ];
    let units = ["nanoseconds", "instructions"];
    for (k, unit) in units.iter().enumerate() {
        let table = &tables[k];
        let Some([a, b, c]) = of_text[k] else {
            continue;
        };
        println!("{unit}, code / plain Rust = ratio");
        println!(
            " N  pend. quant. | {:^27} | {:^23} | {:^23} | {:^23}",
            "an event (moments in it)", "a moment", "a reading at now", "soundness alone"
        );
        for (name, mix, code, plain) in table {
            print!("{name} |");
            for k in 0..4 {
                let (a, b) = (code.each[k], plain.each[k]);
                print!(" {a:>7.0} / {b:>6.0} = {:>4.2}", a / b);
                print!(
                    "{}",
                    if k == 0 {
                        format!(" ({mix:.1})")
                    } else {
                        String::new()
                    }
                );
                print!("{}", if k == 3 { "\n" } else { " |" });
            }
        }
        for line in &of_worst[k] {
            println!("{line}");
        }
        println!(
            "a text of 1,500 events made a file: {a:.0} / {b:.0} = {:.2}; by the model {c:.0}, {:.2}",
            a / b,
            a / c
        );
        println!();
    }
    println!(
        "noise: the median of {} runs is at most {:.0} % above the fastest, which is shown",
        TIMED.runs,
        noise * 100.0
    );
}
