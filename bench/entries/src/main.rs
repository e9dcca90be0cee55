//! `entries FOLDER`: for a row of few and of many pending writes FOLDER/few/trace, a file of 1,500
//! events, FOLDER/few/listing, what plain Rust lists of it, and FOLDER/few/plain: the fastest
//! nanoseconds of its last 700 events by plain Rust, a sum of their answers, and the moments in them.

#[path = "../../src/script.rs"]
mod script;

use plain::random::Random;
use plain::{Event, State, MAX_EVENTS, THREADS};
use script::{accept, mixed, moments_until, opened, table, Setting};
use std::hint::black_box;
use std::time::Instant;

const ROUNDS: usize = 61;
/// These make the state that the others start from.
const FIRST: usize = 800;

fn run(s: &mut State, events: &[Event]) -> u64 {
    let mut sum = 0;
    for e in events {
        let a = black_box(plain::event(s, e));
        sum ^= a.next * 65536 + a.running as u64 * 256 + a.status as u64;
    }
    sum
}

fn main() {
    let folder = std::env::args().nth(1).expect("usage: entries FOLDER");
    for (name, many) in [("few", false), ("many", true)] {
        let x = Setting {
            n: THREADS as u32,
            many,
            small: false,
        };
        let (mut s, mut events) = opened(x);
        let mut r = Random::new(7);
        assert!(events.len() <= FIRST, "the state takes {}", events.len());
        while events.len() < FIRST {
            let e = mixed(&s, &mut r);
            events.push(accept(&mut s, e));
        }
        let start = s;
        let mut moments = 0;
        while events.len() < MAX_EVENTS {
            let e = mixed(&s, &mut r);
            moments += moments_until(&s, e.time);
            events.push(accept(&mut s, e));
        }
        let mut file = vec![0; plain::total_bytes(THREADS, MAX_EVENTS)];
        plain::write(0, x.n, &table(x), &events, &mut file).expect("a file");
        let (mut fastest, mut sum) = (u128::MAX, 0);
        for _ in 0..ROUNDS {
            let mut t = start;
            let from = Instant::now();
            sum = run(&mut t, &events[FIRST..]);
            fastest = fastest.min(from.elapsed().as_nanos());
            assert!(t == s, "a round ended elsewhere");
        }
        let put = |part, bytes: &[u8]| {
            std::fs::write(format!("{folder}/{name}/{part}"), bytes).expect("written");
        };
        put("trace", &file);
        put("listing", &plain::listing(&file));
        put("plain", format!("{fastest} {sum} {moments}\n").as_bytes());
    }
}
