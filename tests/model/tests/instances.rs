//! The worked replay and every further instance of 01.

use model::*;

fn fifo(priority: u8) -> Parameters {
    Parameters {
        policy: FIFO,
        priority,
        flag: 1,
        ..Parameters::default()
    }
}

fn rr(priority: u8, quantum: u64) -> Parameters {
    Parameters {
        policy: RR,
        priority,
        flag: 1,
        budget: quantum,
        ..Parameters::default()
    }
}

fn sporadic(priority: u8, low: u8, budget: u64, period: u64, max_repl: u8) -> Parameters {
    Parameters {
        policy: SPORADIC,
        priority,
        low,
        max_repl,
        flag: 1,
        budget,
        period,
    }
}

fn table(threads: &[Parameters]) -> [Parameters; THREADS] {
    let mut table = [Parameters::default(); THREADS];
    table[..threads.len()].copy_from_slice(threads);
    table
}

fn opened(start: u64, threads: &[Parameters]) -> State {
    let (answer, s) = open(start, threads.len() as u32, &table(threads));
    assert_eq!(answer.status, 0);
    assert!(sound(&s));
    s
}

fn ev(kind: u8, time: u64, thread: u8) -> Event {
    Event {
        time,
        kind,
        thread,
        ..Event::default()
    }
}

fn set(time: u64, thread: u8, parameters: Parameters) -> Event {
    let parameters = Parameters {
        flag: 0,
        ..parameters
    };
    Event {
        time,
        kind: SET,
        thread,
        parameters,
    }
}

/// Gives the event, checks that the state stays sound, and that a refusal
/// leaves it as it was.
fn give(s: &mut State, e: Event) -> (u8, u8, u64) {
    let before = *s;
    let a = event(s, &e);
    assert!(sound(s));
    if a.status != 0 {
        assert_eq!(*s, before);
    }
    (a.status, a.running, a.next)
}

fn pending(s: &State, i: usize) -> Vec<(u64, u64)> {
    let t = &s.threads[i];
    (0..t.pending as usize)
        .map(|k| (t.dues[k], t.amounts[k]))
        .collect()
}

// ------------------------------------------------------ one replay, whole

const REPLAY: &str = "\
event status running next
0 0 0 10
1 0 1 40
2 0 0 19
3 0 1 40
4 0 0 46
5 0 1 55
6 1 1 55
thread 0 0 2 16
thread 1 0 0 30
idle 0
";

fn replay_events() -> [Event; 7] {
    [
        ev(CLOCK, 4, 0),
        ev(BLOCK, 6, 0),
        ev(WAKE, 15, 0),
        ev(CLOCK, 25, 0),
        ev(CLOCK, 40, 0),
        ev(CLOCK, 46, 0),
        ev(CLOCK, 45, 0),
    ]
}

#[test]
fn the_replay_byte_for_byte() {
    let threads = table(&[sporadic(20, 5, 10, 40, 2), fifo(10)]);
    let mut file = [0; 360];
    assert_eq!(write(0, 2, &threads, &replay_events(), &mut file), Ok(360));
    assert_eq!(String::from_utf8(listing(&file)).unwrap(), REPLAY);
}

#[test]
fn the_replay_ends_with_these_pending() {
    let mut s = opened(0, &[sporadic(20, 5, 10, 40, 2), fifo(10)]);
    for e in replay_events() {
        give(&mut s, e);
    }
    assert_eq!(pending(&s, 0), [(55, 4), (80, 6)]);
    assert_eq!(s.now, 46);
}

// -------------------------------------------------------------- the P rows

#[test]
fn max_repl_one_pending_means_low() {
    let mut s = opened(0, &[sporadic(20, 5, 10, 40, 1)]);
    assert_eq!(give(&mut s, ev(BLOCK, 3, 0)), (0, 255, 40));
    assert_eq!(give(&mut s, ev(WAKE, 5, 0)), (0, 0, 40));
    assert_eq!(assigned(&s.threads[0]), 5);
    assert_eq!(s.threads[0].capacity, 7);
    assert_eq!(pending(&s, 0), [(40, 3)]);
    assert_eq!(give(&mut s, ev(CLOCK, 40, 0)), (0, 0, 50));
    assert_eq!(s.threads[0].capacity, 10);
    assert_eq!(assigned(&s.threads[0]), 20);
    assert_eq!(s.threads[0].activation, 40);
}

#[test]
fn budget_is_period() {
    let mut s = opened(0, &[sporadic(20, 5, 10, 10, 1)]);
    assert_eq!(give(&mut s, ev(CLOCK, 10, 0)), (0, 0, 20));
    assert_eq!(s.threads[0].capacity, 10);
    assert_eq!(s.threads[0].activation, 10);
    assert_eq!(s.threads[0].used, 0);
    assert_eq!(s.threads[0].pending, 0);
}

#[test]
fn preempted_past_its_due() {
    let high = Parameters {
        flag: 0,
        ..fifo(30)
    };
    let mut s = opened(0, &[sporadic(20, 5, 10, 12, 1), high]);
    assert_eq!(give(&mut s, ev(WAKE, 4, 1)), (0, 1, 0));
    assert_eq!(s.threads[0].activation, 0);
    assert_eq!(give(&mut s, ev(BLOCK, 20, 0)), (0, 0, 26));
    assert_eq!(s.threads[0].activation, 0);
    assert_eq!(give(&mut s, ev(CLOCK, 26, 0)), (0, 0, 36));
    assert_eq!(s.threads[0].activation, 26);
    assert_eq!(s.threads[0].capacity, 10);
    assert_eq!(s.threads[0].pending, 0);
}

#[test]
fn wake_and_block_at_one_time() {
    let blocked = Parameters {
        flag: 0,
        ..sporadic(20, 5, 10, 40, 2)
    };
    let mut s = opened(0, &[blocked]);
    assert_eq!(give(&mut s, ev(WAKE, 7, 0)), (0, 0, 17));
    assert_eq!(give(&mut s, ev(BLOCK, 7, 0)), (0, 255, 0));
    assert_eq!(s.threads[0].pending, 0);
    assert_eq!(s.threads[0].capacity, 10);
    assert_eq!(s.idle, 7);
}

#[test]
fn rr_alone() {
    let mut s = opened(0, &[rr(3, 5)]);
    assert_eq!(give(&mut s, ev(CLOCK, 5, 0)), (0, 0, 10));
    assert_eq!(s.threads[0].quantum, 5);
}

// ----------------------------------------------------------- the other rows

#[test]
fn times() {
    let mut s = opened(0, &[fifo(1)]);
    assert_eq!(give(&mut s, ev(CLOCK, 1_000_001, 0)).0, 2);
    assert_eq!(give(&mut s, ev(CLOCK, 1_000_000, 0)).0, 0);
    assert_eq!(give(&mut s, ev(CLOCK, 1_000_000, 0)).0, 0);
    assert_eq!(give(&mut s, ev(CLOCK, 999_999, 0)).0, 1);
    assert_eq!(give(&mut s, ev(CLOCK, 2_000_001, 0)).0, 2);
    let mut s = opened(MAX_TIME - 1, &[rr(1, 5)]);
    assert_eq!(give(&mut s, ev(CLOCK, MAX_TIME, 0)), (0, 0, MAX_TIME + 4));
    assert_eq!(give(&mut s, ev(CLOCK, MAX_TIME, 0)).0, 0);
    assert_eq!(give(&mut s, ev(CLOCK, MAX_TIME + 1, 0)).0, 3);
    assert_eq!(open(MAX_TIME, 1, &table(&[fifo(1)])).0.status, 0);
    assert_eq!(open(MAX_TIME + 1, 1, &table(&[fifo(1)])).0.status, 3);
}

#[test]
fn parameter_borders() {
    let good = sporadic(20, 5, 10, 40, 8);
    let cases = [
        (good, 0),
        (Parameters { low: 19, ..good }, 0),
        (Parameters { low: 20, ..good }, 6),
        (Parameters { low: 0, ..good }, 6),
        (
            Parameters {
                max_repl: 9,
                ..good
            },
            6,
        ),
        (
            Parameters {
                max_repl: 0,
                ..good
            },
            6,
        ),
        (Parameters { budget: 40, ..good }, 0),
        (Parameters { budget: 41, ..good }, 6),
        (Parameters { budget: 0, ..good }, 6),
        (
            Parameters {
                period: MAX_TICKS,
                budget: MAX_TICKS,
                ..good
            },
            0,
        ),
        (
            Parameters {
                period: MAX_TICKS + 1,
                ..good
            },
            6,
        ),
        (
            Parameters {
                priority: 32,
                ..good
            },
            0,
        ),
        (
            Parameters {
                priority: 33,
                ..good
            },
            6,
        ),
        (Parameters { policy: 3, ..good }, 6),
        (fifo(1), 0),
        (fifo(0), 6),
        (fifo(33), 6),
        (Parameters { low: 1, ..fifo(2) }, 6),
        (
            Parameters {
                max_repl: 1,
                ..fifo(2)
            },
            6,
        ),
        (
            Parameters {
                budget: 1,
                ..fifo(2)
            },
            6,
        ),
        (
            Parameters {
                period: 1,
                ..fifo(2)
            },
            6,
        ),
        (rr(32, 1), 0),
        (rr(32, MAX_TICKS), 0),
        (rr(32, 0), 6),
        (rr(32, MAX_TICKS + 1), 6),
        (Parameters { low: 1, ..rr(2, 5) }, 6),
        (
            Parameters {
                max_repl: 1,
                ..rr(2, 5)
            },
            6,
        ),
        (
            Parameters {
                period: 5,
                ..rr(2, 5)
            },
            6,
        ),
    ];
    for (p, status) in cases {
        assert_eq!(open(0, 1, &table(&[p])).0.status, status, "{p:?}");
        let mut s = opened(0, &[fifo(7)]);
        assert_eq!(give(&mut s, set(0, 0, p)).0, status, "{p:?}");
    }
}

#[test]
fn file_borders() {
    let mut file = [0; 57];
    assert_eq!(write(0, 1, &table(&[fifo(9)]), &[], &mut file), Ok(56));
    assert_eq!(
        String::from_utf8(listing(&file[..56])).unwrap(),
        "event status running next\nthread 0 0 0 0\nidle 0\n"
    );
    assert_eq!(listing(&file[..55]), b"refused 10\n");
    assert_eq!(listing(&file[..57]), b"refused 11\n");
}

// ------------------------------------------------------------------- slips

#[test]
fn limit_comes_before_the_replenishment_of_one_instant() {
    // Thread 0: 4 pending at 40, then its limit at 40 too; it goes behind 1.
    let mut s = opened(0, &[sporadic(20, 5, 10, 40, 3), fifo(20)]);
    assert_eq!(give(&mut s, ev(BLOCK, 4, 0)), (0, 1, 40));
    assert_eq!(give(&mut s, ev(WAKE, 20, 0)), (0, 1, 40));
    assert_eq!(give(&mut s, ev(YIELD, 34, 0)), (0, 0, 40));
    assert_eq!(give(&mut s, ev(CLOCK, 40, 0)), (0, 1, 60));
    assert_eq!(s.lists[19].members[..2], [1, 0]);
    assert_eq!(s.threads[0].activation, 40);
    assert_eq!(s.threads[0].capacity, 4);
    assert_eq!(pending(&s, 0), [(60, 6)]);
}

#[test]
fn a_limit_that_comes_back_at_once_goes_behind_its_peers() {
    let mut s = opened(0, &[sporadic(20, 5, 10, 10, 1), fifo(20)]);
    assert_eq!(give(&mut s, ev(CLOCK, 10, 0)), (0, 1, 0));
    assert_eq!(s.lists[19].members[..2], [1, 0]);
    assert_eq!((s.threads[0].activation, s.threads[0].capacity), (10, 10));
}

#[test]
fn replenishments_of_one_instant_go_by_thread_number() {
    // Both are due at 40; at 30 the low list is turned to 1, 0.
    let mut s = opened(0, &[sporadic(20, 5, 10, 40, 1), sporadic(20, 5, 10, 40, 1)]);
    assert_eq!(give(&mut s, ev(CLOCK, 20, 0)), (0, 0, 40));
    assert_eq!(give(&mut s, ev(YIELD, 30, 0)), (0, 1, 40));
    assert_eq!(s.lists[4].members[..2], [1, 0]);
    assert_eq!(give(&mut s, ev(CLOCK, 40, 0)), (0, 0, 50));
    assert_eq!(s.lists[19].members[..2], [0, 1]);
}

#[test]
fn a_replenishment_of_a_blocked_thread_keeps_its_activation_time() {
    let mut s = opened(0, &[sporadic(20, 5, 10, 40, 1)]);
    assert_eq!(give(&mut s, ev(BLOCK, 4, 0)), (0, 255, 40));
    assert_eq!(give(&mut s, ev(CLOCK, 41, 0)), (0, 255, 0));
    let t = &s.threads[0];
    assert_eq!((t.capacity, t.pending, t.activation), (10, 0, 0));
}

#[test]
fn one_replenished_at_its_upper_priority_stays_where_it_is() {
    // 2 come back at 40 while thread 0 runs at upper, activated at 35.
    let mut s = opened(0, &[sporadic(20, 5, 10, 40, 3), fifo(20)]);
    assert_eq!(give(&mut s, ev(BLOCK, 2, 0)), (0, 1, 40));
    assert_eq!(give(&mut s, ev(WAKE, 35, 0)), (0, 1, 40));
    assert_eq!(give(&mut s, ev(YIELD, 36, 0)), (0, 0, 40));
    assert_eq!(give(&mut s, ev(CLOCK, 40, 0)), (0, 0, 46));
    let t = &s.threads[0];
    assert_eq!((t.capacity, t.used, t.pending, t.activation), (6, 4, 0, 35));
    assert_eq!(s.lists[19].members[..2], [0, 1]);
}

#[test]
fn yield_keeps_the_activation_time() {
    let mut s = opened(0, &[sporadic(20, 5, 10, 40, 2)]);
    assert_eq!(give(&mut s, ev(YIELD, 3, 0)), (0, 0, 10));
    assert_eq!(s.threads[0].activation, 0);
    assert_eq!(s.threads[0].used, 3);
}

#[test]
fn nothing_is_charged_at_low() {
    let mut s = opened(0, &[sporadic(20, 5, 10, 40, 2)]);
    assert_eq!(give(&mut s, ev(CLOCK, 30, 0)), (0, 0, 40));
    assert_eq!(s.threads[0].total, 30);
    assert_eq!(pending(&s, 0), [(40, 10)]);
    assert_eq!(s.threads[0].capacity + s.threads[0].used, 0);
    // A block at low schedules nothing and leaves the activation time alone.
    assert_eq!(give(&mut s, ev(BLOCK, 35, 0)), (0, 255, 40));
    assert_eq!(pending(&s, 0), [(40, 10)]);
    assert_eq!(give(&mut s, ev(WAKE, 37, 0)), (0, 0, 40));
    assert_eq!(s.threads[0].activation, 0);
}

#[test]
fn a_block_past_its_due_comes_back_at_once() {
    // Activated at 0, run for 4, preempted to 50, blocked at 52: due 40 is past.
    let high = Parameters {
        flag: 0,
        ..fifo(30)
    };
    let mut s = opened(0, &[sporadic(20, 5, 10, 40, 1), high]);
    give(&mut s, ev(WAKE, 4, 1));
    give(&mut s, ev(BLOCK, 50, 0));
    assert_eq!(give(&mut s, ev(BLOCK, 52, 0)), (0, 255, 0));
    let t = &s.threads[0];
    assert_eq!((t.capacity, t.used, t.pending, t.activation), (10, 0, 0, 0));
}

#[test]
fn rr_quantum_at_block_yield_wake_and_preemption() {
    let high = Parameters {
        flag: 0,
        ..fifo(30)
    };
    let mut s = opened(0, &[rr(3, 10), rr(3, 10), high]);
    assert_eq!(give(&mut s, ev(WAKE, 4, 2)), (0, 2, 0));
    assert_eq!(give(&mut s, ev(BLOCK, 9, 0)), (0, 0, 15));
    assert_eq!(give(&mut s, ev(YIELD, 11, 0)), (0, 1, 21));
    assert_eq!(s.threads[0].quantum, 10);
    assert_eq!(give(&mut s, ev(BLOCK, 14, 0)), (0, 0, 24));
    assert_eq!(s.threads[1].quantum, 7);
    assert_eq!(give(&mut s, ev(WAKE, 14, 1)), (0, 0, 24));
    assert_eq!(s.threads[1].quantum, 10);
    // At the very end of a quantum a block blocks the thread that runs next.
    assert_eq!(give(&mut s, ev(BLOCK, 24, 0)), (0, 0, 34));
    assert_eq!(s.threads[1].blocked, 1);
}

#[test]
fn set_sends_to_the_tail_and_keeps_the_total() {
    let mut s = opened(0, &[fifo(9), fifo(9), sporadic(9, 1, 5, 50, 2)]);
    assert_eq!(give(&mut s, set(3, 0, fifo(9))), (0, 1, 0));
    assert_eq!(s.lists[8].members[..3], [1, 2, 0]);
    assert_eq!(s.threads[0].total, 3);
    assert_eq!(give(&mut s, set(4, 1, rr(2, 6))), (0, 2, 9));
    assert_eq!(give(&mut s, set(7, 2, fifo(9))), (0, 0, 0));
    assert_eq!(give(&mut s, set(7, 2, sporadic(9, 1, 5, 50, 2))), (0, 0, 0));
    let t = &s.threads[2];
    assert_eq!((t.capacity, t.used, t.activation, t.total), (5, 0, 7, 3));
    assert_eq!(give(&mut s, ev(BLOCK, 7, 0)), (0, 2, 12));
    assert_eq!(give(&mut s, set(8, 0, rr(30, 4))), (0, 2, 12));
    assert_eq!(s.threads[0].blocked, 1);
    assert_eq!(s.threads[0].quantum, 4);
}

// -------------------------------------------------------- order of refusals

#[test]
fn order_of_refusals_for_events() {
    let s = opened(1_000, &[fifo(9)]);
    let odd = Parameters {
        flag: 1,
        ..Parameters::default()
    };
    let far = MAX_TIME + 1;
    let cases = [
        (
            Event {
                time: far,
                kind: 5,
                thread: 9,
                parameters: odd,
            },
            4,
        ),
        (
            Event {
                time: far,
                kind: 4,
                thread: 1,
                parameters: odd,
            },
            5,
        ),
        (
            Event {
                time: far,
                kind: 0,
                thread: 1,
                parameters: odd,
            },
            5,
        ),
        (
            Event {
                time: far,
                kind: 3,
                thread: 0,
                parameters: odd,
            },
            6,
        ),
        (
            Event {
                time: far,
                kind: 0,
                thread: 0,
                parameters: odd,
            },
            6,
        ),
        (
            Event {
                time: far,
                kind: 4,
                thread: 0,
                parameters: fifo(2),
            },
            6,
        ),
        (ev(WAKE, far, 0), 3),
        (ev(WAKE, 999, 0), 1),
        (ev(WAKE, 1_001_001, 0), 2),
        (ev(WAKE, 1_001_000, 0), 8),
        (ev(YIELD, 1_000, 1), 5),
        (ev(BLOCK, 1_000, 1), 5),
        (ev(WAKE, 1_000, 1), 5),
    ];
    for (e, status) in cases {
        let mut t = s;
        assert_eq!(give(&mut t, e), (status, 0, 0), "{e:?}");
    }
    let mut t = s;
    assert_eq!(give(&mut t, ev(BLOCK, 1_000, 0)), (0, 255, 0));
    assert_eq!(give(&mut t, ev(BLOCK, 1_000, 0)), (7, 255, 0));
    assert_eq!(give(&mut t, ev(YIELD, 1_000, 0)), (7, 255, 0));
    assert_eq!(give(&mut t, ev(YIELD, 999, 0)), (1, 255, 0));
}

#[test]
fn a_refusal_passes_no_time() {
    // The moment at 10 lies before the refused event's time and isn't taken.
    let mut s = opened(0, &[sporadic(20, 5, 10, 40, 2), fifo(10)]);
    assert_eq!(give(&mut s, ev(WAKE, 30, 1)), (8, 0, 10));
    assert_eq!(s.now, 0);
}

#[test]
fn order_of_refusals_at_opening() {
    let bad = table(&[fifo(0)]);
    let none = (
        Answer {
            status: 5,
            running: 255,
            next: 0,
        },
        State::default(),
    );
    for n in [0, 33, u32::MAX] {
        assert_eq!(open(MAX_TIME + 1, n, &bad), none);
    }
    assert_eq!(open(MAX_TIME + 1, 1, &bad).0.status, 3);
    assert_eq!(open(MAX_TIME, 1, &bad).0.status, 6);
    assert_eq!(open(MAX_TIME, 1, &bad).1, State::default());
    assert_eq!(
        open(0, 1, &table(&[Parameters { flag: 2, ..fifo(1) }]))
            .0
            .status,
        6
    );
    // Places from N on aren't looked at.
    let (answer, s) = open(
        7,
        1,
        &table(&[
            fifo(1),
            Parameters {
                policy: 9,
                ..fifo(1)
            },
        ]),
    );
    assert_eq!(
        answer,
        Answer {
            status: 0,
            running: 0,
            next: 0
        }
    );
    assert!(sound(&s));
}
