//! Events at a reading of a counter of 32 bits (02 E10): the request's own numbers, and cases written
//! out by hand.

use model::{counter_event, counter_time, elapsed, event_told, open, Answer, CounterEvent, Event};
use model::{Counts, Parameters, State, BLOCK, MAX_TIME, NOTHING_TOLD, SPORADIC, THREADS, WAKE};

const LAP: u64 = 4_294_967_296;

/// A sporadic thread of budget 400,000 and period 1,000,000 above a FIFO one that is blocked, opened
/// at `now`.
fn opened(now: u64) -> State {
    let mut table = [Parameters::default(); THREADS];
    table[0] = Parameters {
        policy: SPORADIC,
        priority: 9,
        low: 3,
        max_repl: 2,
        flag: 1,
        budget: 400_000,
        period: 1_000_000,
    };
    table[1].priority = 5;
    let (a, s) = open(now, 2, &table);
    assert_eq!(a.status, 0);
    s
}

/// The answer to an event at a reading, which leaves a state at this time.
fn answer(now: u64, kind: u8, thread: u8, reading: u64, then: u64) -> Answer {
    let mut s = opened(now);
    let e = CounterEvent {
        reading: u32::try_from(reading).expect("a reading of 32 bits"),
        kind,
        thread,
        ..CounterEvent::default()
    };
    let (a, told) = counter_event(&mut s, &e);
    assert_eq!(s.now, then);
    if a.status != 0 {
        assert_eq!((s, told), (opened(now), NOTHING_TOLD));
    }
    a
}

/// The status of a clock reading that is refused.
fn refused(now: u64, reading: u64) -> u8 {
    answer(now, 0, 0, reading, now).status
}

/// The status of a clock reading that is accepted, and leaves the state at this time.
fn accepted(now: u64, reading: u64, then: u64) {
    assert_eq!(answer(now, 0, 0, reading, then).status, 0);
}

#[test]
fn by_the_difference_modulo_2_to_the_32() {
    // every pair of readings around the ends and the middle, beside the remainder of a signed number
    let ends = [
        0u32,
        1,
        2,
        77,
        1 << 31,
        (1 << 31) - 1,
        u32::MAX - 1,
        u32::MAX,
    ];
    for laps in [0, 1, 5, 232_830, (1 << 32) - 1] {
        for low in ends {
            for reading in ends {
                let now = laps * LAP + u64::from(low);
                let signed = (i128::from(reading) - i128::from(low)).rem_euclid(i128::from(LAP));
                assert_eq!(elapsed(now, reading), signed as u128, "{now} {reading}");
                assert_eq!(counter_time(now, reading) % u128::from(LAP), reading.into());
            }
        }
    }
}

/// A step of 1,000,000 across the wrap is accepted, 1,000,001 is refused with 2.
#[test]
fn the_longest_step_across_the_wrap() {
    let now = 3 * LAP - 600_000;
    accepted(now, 400_000, 3 * LAP + 400_000);
    assert_eq!(refused(now, 400_001), 2);
    accepted(LAP - 1, 0, LAP);
    accepted(LAP - 1, 999_999, LAP + 999_999);
    assert_eq!(refused(LAP - 1, 1_000_000), 2);
    accepted(LAP - 1_000_000, 0, LAP);
    assert_eq!(refused(LAP - 1_000_001, 0), 2);
}

/// What happened on the way is told across the wrap too: the limit 400,000 after the opening, and
/// the replenishment 1,000,000 after it.
#[test]
fn moments_on_the_way() {
    let now = 7 * LAP - 400_001;
    let mut s = opened(now);
    let e = CounterEvent {
        reading: 599_999,
        ..CounterEvent::default()
    };
    let (a, told) = counter_event(&mut s, &e);
    let next = now + 1_400_000;
    assert_eq!((a.status, a.running, a.next), (0, 0, next));
    let mut expected = NOTHING_TOLD;
    expected[0] = Counts {
        limits: 1,
        quanta: 0,
        replenishments: 1,
        amounts: 400_000,
    };
    assert_eq!(told, expected);
    assert_eq!((s.now, s.threads[0].total), (7 * LAP + 599_999, 1_000_000));
}

/// Back by 1 to 4,293,967,295 is refused; by more, it can't be told from a step forward.
#[test]
fn readings_that_went_back() {
    let now = 5 * LAP + 123;
    let back = |ticks: u64| (now - ticks) % LAP;
    for ticks in [1, 2, 122, 123, 124, 1_000_000, 1 << 31, 4_293_967_295] {
        assert_eq!(refused(now, back(ticks)), 2, "{ticks}");
    }
    accepted(now, back(4_293_967_296), now + 1_000_000);
    accepted(now, back(4_294_967_295), now + 1);
    accepted(now, back(LAP), now);
}

/// Back by 1 at 10^15 shows as a time above it: 3 comes before 2.
#[test]
fn at_the_last_time() {
    let last = MAX_TIME % LAP;
    assert_eq!(refused(MAX_TIME, last - 1), 3);
    assert_eq!(refused(MAX_TIME, last + 1), 3);
    accepted(MAX_TIME, last, MAX_TIME);
    accepted(MAX_TIME - 5, last, MAX_TIME);
    assert_eq!(refused(MAX_TIME - 5, last + 1), 3);
    // so far back that the time is still one of 01's
    let before = MAX_TIME - LAP + 1;
    assert_eq!(refused(before, before % LAP - 1), 2);
    assert_eq!(refused(before + 1, before % LAP), 3);
}

/// With now = 2^64 - 1 no state is sound: 9, whatever the reading and the event are.
#[test]
fn a_time_past_64_bits() {
    for now in [u64::MAX, u64::MAX - 1, u64::MAX - LAP, MAX_TIME + 1] {
        for reading in [0, 1, 5, u32::MAX - 1, u32::MAX] {
            for kind in [0, 3, 4, 5, 255] {
                let mut given = opened(0);
                given.now = now;
                let e = CounterEvent {
                    reading,
                    kind,
                    thread: 200,
                    ..CounterEvent::default()
                };
                let mut s = given;
                let (a, told) = counter_event(&mut s, &e);
                assert_eq!((a.status, a.running, a.next), (9, 255, 0));
                assert_eq!((s, told), (given, NOTHING_TOLD));
            }
        }
    }
}

/// The order 4, 5, 6, 3, 2, then 7 and 8: each event here has the fault of its row and all that come
/// later in this list.
#[test]
fn refusals_in_their_order() {
    let late = |kind, thread, reading| answer(MAX_TIME - 9, kind, thread, reading, MAX_TIME - 9);
    let far = (MAX_TIME + 2_000_000) % LAP;
    assert_eq!(late(5, 2, far).status, 4);
    assert_eq!(late(WAKE, 2, far).status, 5);
    assert_eq!(late(BLOCK, 1, far).status, 5);
    assert_eq!(late(WAKE, 0, far).status, 3);
    let now = 8 * LAP;
    let early = |kind, thread, reading| answer(now, kind, thread, reading, now).status;
    assert_eq!(early(WAKE, 0, 1_000_001), 2);
    assert_eq!(early(WAKE, 0, 1_000_000), 8);
    let mut s = opened(now);
    let e = CounterEvent {
        reading: 1_000_001,
        kind: WAKE,
        thread: 0,
        parameters: Parameters {
            period: 1,
            ..Parameters::default()
        },
    };
    assert_eq!(counter_event(&mut s, &e).0.status, 6);
}

/// 02 E10 2: equal to the event with the full time, for every kind and for steps of up to a lap.
#[test]
fn equal_to_the_event_with_the_full_time() {
    for now in [0, 17, LAP - 1, LAP, 11 * LAP - 350_000, MAX_TIME - 450_000] {
        for step in [0, 1, 350_000, 400_000, 1_000_000, 1_000_001, LAP - 1] {
            for (kind, thread) in [(0, 0), (1, 0), (2, 0), (3, 0), (3, 1), (3, 2), (5, 0)] {
                let full = Event {
                    time: now + step,
                    kind,
                    thread,
                    ..Event::default()
                };
                let reading = CounterEvent {
                    reading: ((now + step) % LAP) as u32,
                    kind,
                    thread,
                    ..CounterEvent::default()
                };
                let (mut one, mut other) = (opened(now), opened(now));
                let (a, b) = (
                    counter_event(&mut one, &reading),
                    event_told(&mut other, &full),
                );
                assert_eq!((a, one), (b, other), "{now} {step} {kind}");
                assert_ne!(a.0.status, 1);
            }
        }
    }
}
