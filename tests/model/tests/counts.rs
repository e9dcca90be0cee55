//! What happened while time passed (02 E3): the stored cases, and cases written out by hand.

use model::*;
use std::fs;
use std::path::Path;

#[test]
fn every_stored_trace() {
    let stored = Path::new(concat!(env!("CARGO_MANIFEST_DIR"), "/../vectors/counts"));
    let (mut traces, mut refused) = (0, 0);
    for entry in fs::read_dir(stored).expect("the folder of vectors") {
        let path = entry.expect("an entry").path();
        if path.extension().is_none_or(|x| x != "bin") {
            continue;
        }
        let said = fs::read_to_string(path.with_extension("counts")).expect("numbers");
        let file = fs::read(&path).expect("a trace");
        assert_eq!(counts(&file), said, "{}", path.display());
        traces += 1;
        refused += said.starts_with("refused") as u32;
    }
    assert_eq!((traces, refused), (48, 2));
}

// ------------------------------------------------------------------ by hand

fn fifo(priority: u8) -> Parameters {
    Parameters {
        policy: FIFO,
        priority,
        flag: 1,
        ..Parameters::default()
    }
}

fn rr(priority: u8, quantum: u64) -> Parameters {
    Parameters {
        policy: RR,
        budget: quantum,
        ..fifo(priority)
    }
}

fn sporadic(budget: u64, period: u64, max_repl: u8) -> Parameters {
    Parameters {
        policy: SPORADIC,
        low: 5,
        max_repl,
        budget,
        period,
        ..fifo(20)
    }
}

fn opened(threads: &[Parameters]) -> State {
    let mut table = [Parameters::default(); THREADS];
    table[..threads.len()].copy_from_slice(threads);
    let (answer, s) = open(0, threads.len() as u32, &table);
    assert_eq!(answer.status, 0);
    s
}

/// The status, and the numbers of thread 0; all others are told nothing.
fn give(s: &mut State, kind: u8, time: u64, thread: u8) -> (u8, [u64; 4]) {
    let e = Event {
        time,
        kind,
        thread,
        ..Event::default()
    };
    let (a, told) = event_told(s, &e);
    assert_eq!(told[1..], NOTHING_TOLD[1..]);
    let Counts {
        limits,
        quanta,
        replenishments,
        amounts,
    } = told[0];
    (a.status, [limits, quanta, replenishments, amounts])
}

#[test]
fn a_limit_and_its_replenishment_later() {
    let mut s = opened(&[sporadic(10, 40, 2)]);
    assert_eq!(give(&mut s, CLOCK, 9, 0), (0, [0, 0, 0, 0]));
    assert_eq!(give(&mut s, CLOCK, 10, 0), (0, [1, 0, 0, 0]));
    assert_eq!(give(&mut s, CLOCK, 39, 0), (0, [0, 0, 0, 0]));
    assert_eq!(give(&mut s, CLOCK, 40, 0), (0, [0, 0, 1, 10]));
    // limits at 50, 90 and 130, replenishments at 80 and 120
    assert_eq!(give(&mut s, CLOCK, 130, 0), (0, [3, 0, 2, 20]));
}

#[test]
fn a_limit_that_comes_back_at_once_is_a_limit_and_a_replenishment() {
    let mut s = opened(&[sporadic(10, 10, 1)]);
    assert_eq!(give(&mut s, CLOCK, 10, 0), (0, [1, 0, 1, 10]));
    assert_eq!(give(&mut s, CLOCK, 35, 0), (0, [2, 0, 2, 20]));
}

#[test]
fn a_block_tells_what_comes_back_at_once() {
    let high = Parameters {
        flag: 0,
        ..fifo(30)
    };
    let mut s = opened(&[sporadic(10, 12, 1), high]);
    assert_eq!(give(&mut s, WAKE, 4, 1), (0, [0, 0, 0, 0]));
    assert_eq!(give(&mut s, BLOCK, 20, 0), (0, [0, 0, 0, 0]));
    assert_eq!(give(&mut s, BLOCK, 22, 0), (0, [0, 0, 1, 6]));
    // a block whose U is not yet due tells nothing; it comes back while the thread is blocked
    assert_eq!(give(&mut s, WAKE, 30, 0), (0, [0, 0, 0, 0]));
    assert_eq!(give(&mut s, BLOCK, 33, 0), (0, [0, 0, 0, 0]));
    assert_eq!(give(&mut s, WAKE, 42, 0), (0, [0, 0, 1, 3]));
    // one without U neither
    assert_eq!(give(&mut s, BLOCK, 42, 0), (0, [0, 0, 0, 0]));
}

#[test]
fn quanta_end_by_time_alone() {
    let mut s = opened(&[rr(3, 5)]);
    assert_eq!(give(&mut s, CLOCK, 27, 0), (0, [0, 5, 0, 0]));
    assert_eq!(give(&mut s, YIELD, 28, 0), (0, [0, 0, 0, 0]));
    assert_eq!(give(&mut s, CLOCK, 27, 0), (1, [0, 0, 0, 0]));
    assert_eq!(give(&mut s, CLOCK, 32, 0), (0, [0, 0, 0, 0]));
    // the quantum ends at 33, and the block that comes then adds nothing
    assert_eq!(give(&mut s, BLOCK, 33, 0), (0, [0, 1, 0, 0]));
    assert_eq!(give(&mut s, WAKE, 34, 0), (0, [0, 0, 0, 0]));
    assert_eq!(give(&mut s, YIELD, 39, 0), (0, [0, 1, 0, 0]));
}

#[test]
fn a_refused_event_tells_zeros_of_the_way_to_it_too() {
    let mut s = opened(&[sporadic(10, 40, 2), fifo(1)]);
    assert_eq!(give(&mut s, WAKE, 30, 1), (8, [0, 0, 0, 0]));
    assert_eq!(give(&mut s, CLOCK, 30, 0), (0, [1, 0, 0, 0]));
    s.idle += 1;
    assert_eq!(give(&mut s, CLOCK, 40, 0), (9, [0, 0, 0, 0]));
}

/// The status of a set of thread 0, and its limits, replenishments and amounts.
fn set(s: &mut State, time: u64, p: Parameters) -> (u8, [u64; 3]) {
    let e = Event {
        time,
        kind: SET,
        thread: 0,
        parameters: Parameters { flag: 0, ..p },
    };
    let (a, told) = event_told(s, &e);
    let numbers = told[0];
    let told = [numbers.limits, numbers.replenishments, numbers.amounts];
    (a.status, told)
}

/// What a set throws away is told nowhere; what came before it is.
#[test]
fn a_set_tells_the_moments_before_it() {
    let mut s = opened(&[sporadic(10, 40, 2)]);
    assert_eq!(set(&mut s, 30, fifo(3)), (0, [1, 0, 0]));
    // the 10 that were due at 40 are gone
    assert_eq!(give(&mut s, CLOCK, 60, 0), (0, [0, 0, 0, 0]));
    assert_eq!(set(&mut s, 60, sporadic(10, 40, 2)), (0, [0, 0, 0]));
    assert_eq!(give(&mut s, CLOCK, 99, 0), (0, [1, 0, 0, 0]));
    assert_eq!(set(&mut s, 110, fifo(3)), (0, [1, 1, 10]));
    assert_eq!(set(&mut s, 110, fifo(3)), (0, [0, 0, 0]));
}

/// A set that carries the account over tells the moments before it too, and nothing of
/// its own; what was pending is told when it comes back (02 E7).
#[test]
fn a_carrying_set_tells_the_moments_before_it() {
    let mut s = opened(&[sporadic(10, 40, 2)]);
    assert_eq!(set(&mut s, 30, sporadic(12, 50, 3)), (0, [1, 0, 0]));
    // 2 more: the second limit is at 32, and 10 and 2 come back at 40 and at 30 + 50
    assert_eq!(give(&mut s, CLOCK, 39, 0), (0, [1, 0, 0, 0]));
    assert_eq!(set(&mut s, 40, sporadic(12, 50, 3)), (0, [0, 1, 10]));
    assert_eq!(set(&mut s, 85, sporadic(3, 50, 3)), (15, [0, 0, 0]));
    assert_eq!(give(&mut s, CLOCK, 85, 0), (0, [2, 0, 1, 2]));
}

#[test]
fn each_thread_has_its_own_numbers() {
    // 0 runs to its limit at 2, is back at 20 and runs to its limit at 22; else 1 and 2 take turns
    let mut s = opened(&[sporadic(2, 20, 1), rr(10, 3), rr(10, 3)]);
    let e = Event {
        time: 25,
        ..Event::default()
    };
    let (a, told) = event_told(&mut s, &e);
    assert_eq!(a.status, 0);
    let mut expected = NOTHING_TOLD;
    expected[0] = Counts {
        limits: 2,
        replenishments: 1,
        amounts: 2,
        ..Counts::default()
    };
    expected[1].quanta = 4; // at 5, 11, 17 and 25
    expected[2].quanta = 3; // at 8, 14 and 20
    assert_eq!(told, expected);
}
