//! Sets that carry an account over (02 E7): the stored cases, and cases written out by hand.

use model::*;
use std::fs;
use std::path::{Path, PathBuf};

// ------------------------------------------------------------- stored cases

fn stored() -> Vec<PathBuf> {
    let folder = Path::new(concat!(env!("CARGO_MANIFEST_DIR"), "/../vectors/carry"));
    let entries = fs::read_dir(folder).expect("the folder of vectors");
    let mut found: Vec<PathBuf> = entries.map(|e| e.expect("an entry").path()).collect();
    found.retain(|path| path.extension().is_some_and(|x| x == "bin"));
    found.sort();
    found
}

#[test]
fn every_stored_listing_and_its_counts() {
    let (mut traces, mut traps) = (0, 0);
    for path in stored() {
        let name = path.display();
        let file = fs::read(&path).expect("a trace");
        let said = fs::read_to_string(path.with_extension("txt")).expect("a listing");
        let ours = String::from_utf8(listing(&file)).expect("text");
        assert_eq!(ours, said, "{name}");
        let said = fs::read_to_string(path.with_extension("counts")).expect("numbers");
        assert_eq!(counts(&file), said, "{name}");
        traces += 1;
        traps += path
            .file_name()
            .is_some_and(|n| n.to_string_lossy().starts_with("trap-")) as u32;
    }
    assert_eq!((traces, traps), (108, 8));
}

/// The stored cases hold so many carrying sets that are accepted, so many of them with
/// entries pending, and so many that are refused with 15.
#[test]
fn what_the_stored_cases_hold() {
    let (mut carried, mut with_pending, mut refused) = (0, 0, 0);
    for path in stored() {
        let file = fs::read(&path).expect("a trace");
        let trace = read(&file).expect("a trace that reads");
        let (_, mut s) = open(trace.start, trace.n, &trace.table());
        for e in trace {
            let carries = e.kind == SET
                && s.threads
                    .get(e.thread as usize)
                    .is_some_and(|t| carries(t, &e.parameters));
            let a = event(&mut s, &e);
            assert!(carries || a.status != 15);
            if carries && a.status == 0 {
                carried += 1;
                with_pending += (s.threads[e.thread as usize].pending > 0) as u32;
            }
            refused += (a.status == 15) as u32;
        }
    }
    assert_eq!((carried, with_pending, refused), (2_046, 633, 241));
}

// ------------------------------------------------------------------ by hand

fn sporadic(budget: u64, period: u64, max_repl: u8) -> Parameters {
    Parameters {
        policy: SPORADIC,
        priority: 20,
        low: 5,
        max_repl,
        flag: 1,
        budget,
        period,
    }
}

fn fifo(priority: u8) -> Parameters {
    Parameters {
        policy: FIFO,
        priority,
        flag: 1,
        ..Parameters::default()
    }
}

fn rr(priority: u8, quantum: u64) -> Parameters {
    Parameters {
        policy: RR,
        budget: quantum,
        ..fifo(priority)
    }
}

fn opened(threads: &[Parameters]) -> State {
    let mut table = [Parameters::default(); THREADS];
    table[..threads.len()].copy_from_slice(threads);
    let (answer, s) = open(0, threads.len() as u32, &table);
    assert_eq!(answer.status, 0);
    s
}

/// Status, running thread and next moment; the state stays sound, and a refusal leaves it
/// as it was and tells zeros.
fn give(s: &mut State, e: Event) -> (u8, u8, u64) {
    let before = *s;
    let (a, told) = event_told(s, &e);
    assert!(sound(s), "{e:?} leaves {s:?}");
    if a.status != 0 {
        assert_eq!(*s, before);
        assert_eq!(told, NOTHING_TOLD);
    }
    (a.status, a.running, a.next)
}

fn ev(kind: u8, time: u64, thread: u8) -> Event {
    Event {
        time,
        kind,
        thread,
        ..Event::default()
    }
}

fn set(time: u64, thread: u8, p: Parameters) -> Event {
    Event {
        parameters: Parameters { flag: 0, ..p },
        ..ev(SET, time, thread)
    }
}

/// Capacity, U and activation time of thread 0.
fn server(s: &State) -> (u64, u64, u64) {
    let t = &s.threads[0];
    (t.capacity, t.used, t.activation)
}

/// The entries of thread 0.
fn pending(s: &State) -> Vec<(u64, u64)> {
    let t = &s.threads[0];
    let entries = t.dues.iter().copied().zip(t.amounts);
    entries.take(t.pending as usize).collect()
}

#[test]
fn one_that_sets_itself_each_tick_still_reaches_its_limit() {
    let mut s = opened(&[sporadic(10, 40, 2), fifo(10)]);
    for time in 1..10 {
        assert_eq!(
            give(&mut s, set(time, 0, sporadic(10, 40, 2))),
            (0, 0, 10),
            "{time}"
        );
        assert_eq!(server(&s), (10 - time, time, 0));
    }
    for time in 10..40 {
        let given = give(&mut s, set(time, 0, sporadic(10, 40, 2)));
        assert_eq!(given, (0, 1, 40), "{time}");
        assert_eq!(pending(&s), [(40, 10)]);
    }
    assert_eq!(give(&mut s, set(40, 0, sporadic(10, 40, 2))), (0, 0, 50));
    assert_eq!(server(&s), (10, 0, 40));
}

#[test]
fn budget_grows_and_shrinks_at_upper() {
    // 2 are pending, 3 are used, 5 are left
    let mut s = opened(&[sporadic(10, 40, 3)]);
    give(&mut s, ev(BLOCK, 2, 0));
    give(&mut s, ev(WAKE, 4, 0));
    assert_eq!(give(&mut s, ev(CLOCK, 7, 0)), (0, 0, 12));
    let given = s;
    assert_eq!(give(&mut s, set(7, 0, sporadic(16, 40, 3))), (0, 0, 18));
    assert_eq!((server(&s), pending(&s)), ((11, 3, 4), vec![(40, 2)]));
    s = given;
    assert_eq!(give(&mut s, set(7, 0, sporadic(6, 40, 3))), (0, 0, 8));
    assert_eq!((server(&s), pending(&s)), ((1, 3, 4), vec![(40, 2)]));
    // the limit comes after one more tick, and what was used comes back by the new period
    assert_eq!(give(&mut s, set(7, 0, sporadic(6, 6, 3))), (0, 0, 8));
    assert_eq!(give(&mut s, ev(CLOCK, 8, 0)), (0, 0, 10));
    assert_eq!(
        (server(&s), pending(&s)),
        ((0, 0, 4), vec![(10, 4), (40, 2)])
    );
    s = given;
    assert_eq!(give(&mut s, set(7, 0, sporadic(5, 40, 3))), (15, 0, 12));
    assert_eq!(give(&mut s, set(7, 0, sporadic(4, 40, 3))), (15, 0, 12));
    assert_eq!(give(&mut s, set(7, 0, sporadic(1, 40, 3))), (15, 0, 12));
}

/// A budget that isn't smaller is never too small, with a capacity of 0 too.
#[test]
fn no_capacity_and_the_same_budget() {
    let mut s = opened(&[sporadic(10, 40, 2)]);
    assert_eq!(give(&mut s, ev(CLOCK, 10, 0)), (0, 0, 40));
    assert_eq!(give(&mut s, set(10, 0, sporadic(9, 40, 2))), (15, 0, 40));
    assert_eq!(give(&mut s, set(10, 0, sporadic(10, 40, 2))), (0, 0, 40));
    assert_eq!((server(&s), pending(&s)), ((0, 0, 0), vec![(40, 10)]));
    assert_eq!(assigned(&s.threads[0]), 5);
    // the same of a blocked one
    assert_eq!(give(&mut s, ev(BLOCK, 11, 0)), (0, 255, 40));
    assert_eq!(give(&mut s, set(11, 0, sporadic(9, 40, 2))), (15, 255, 40));
    assert_eq!(give(&mut s, set(11, 0, sporadic(10, 40, 2))), (0, 255, 40));
    assert_eq!(give(&mut s, set(11, 0, sporadic(11, 40, 2))), (0, 255, 40));
    assert_eq!((server(&s), pending(&s)), ((1, 0, 0), vec![(40, 10)]));
}

#[test]
fn max_repl_by_the_pending_count() {
    let mut s = opened(&[sporadic(10, 40, 3)]);
    give(&mut s, ev(BLOCK, 1, 0));
    give(&mut s, ev(WAKE, 2, 0));
    give(&mut s, ev(BLOCK, 3, 0));
    assert_eq!(pending(&s), [(40, 1), (42, 1)]);
    // blocked: as many as are pending may stay
    let mut t = s;
    assert_eq!(give(&mut t, set(4, 0, sporadic(10, 40, 1))), (15, 255, 40));
    assert_eq!(give(&mut t, set(4, 0, sporadic(10, 40, 2))), (0, 255, 40));
    assert_eq!(pending(&t), [(40, 1), (42, 1)]);
    // runnable at low: the same, and with one more it goes to upper
    assert_eq!(give(&mut t, ev(WAKE, 5, 0)), (0, 0, 40));
    assert_eq!((assigned(&t.threads[0]), server(&t)), (5, (8, 0, 2)));
    assert_eq!(give(&mut t, set(6, 0, sporadic(10, 40, 1))), (15, 0, 40));
    assert_eq!(give(&mut t, set(6, 0, sporadic(10, 40, 2))), (0, 0, 40));
    assert_eq!((assigned(&t.threads[0]), server(&t)), (5, (8, 0, 2)));
    assert_eq!(give(&mut t, set(7, 0, sporadic(10, 40, 3))), (0, 0, 15));
    assert_eq!((assigned(&t.threads[0]), server(&t)), (20, (8, 0, 7)));
    // runnable at upper: one more is needed
    assert_eq!(give(&mut s, ev(WAKE, 5, 0)), (0, 0, 13));
    assert_eq!(give(&mut s, set(6, 0, sporadic(10, 40, 1))), (15, 0, 13));
    assert_eq!(give(&mut s, set(6, 0, sporadic(10, 40, 2))), (15, 0, 13));
    assert_eq!(give(&mut s, set(6, 0, sporadic(10, 40, 3))), (0, 0, 13));
    assert_eq!((assigned(&s.threads[0]), server(&s)), (20, (7, 1, 5)));
}

#[test]
fn activation_time_is_now_only_from_low_to_upper() {
    // blocked: a set that makes room doesn't activate; the wake does
    let mut s = opened(&[sporadic(10, 40, 1)]);
    give(&mut s, ev(BLOCK, 10, 0));
    assert_eq!(give(&mut s, set(12, 0, sporadic(12, 40, 2))), (0, 255, 40));
    assert_eq!(server(&s), (2, 0, 0));
    assert_eq!(give(&mut s, ev(WAKE, 13, 0)), (0, 0, 15));
    assert_eq!(server(&s), (2, 0, 13));
    // low, and low after the set
    assert_eq!(give(&mut s, ev(CLOCK, 16, 0)), (0, 0, 40));
    assert_eq!(give(&mut s, set(17, 0, sporadic(20, 40, 2))), (0, 0, 40));
    assert_eq!((assigned(&s.threads[0]), server(&s)), (5, (8, 0, 13)));
    assert_eq!(pending(&s), [(40, 10), (53, 2)]);
    // from low to upper
    assert_eq!(give(&mut s, set(18, 0, sporadic(20, 40, 3))), (0, 0, 26));
    assert_eq!((assigned(&s.threads[0]), server(&s)), (20, (8, 0, 18)));
    // upper before and after
    assert_eq!(give(&mut s, set(20, 0, sporadic(20, 40, 4))), (0, 0, 26));
    assert_eq!(server(&s), (6, 2, 18));
}

#[test]
fn a_set_sends_to_the_tail_of_the_assigned_list() {
    let own = sporadic(10, 40, 1);
    let mut s = opened(&[own, fifo(20), fifo(5), fifo(19), fifo(6)]);
    // at upper, with its own parameters
    assert_eq!(give(&mut s, set(3, 0, own)), (0, 1, 0));
    assert_eq!(s.lists[19].members[..2], [1, 0]);
    assert_eq!(server(&s), (7, 3, 0));
    let p = Parameters {
        priority: 19,
        low: 6,
        ..own
    };
    assert_eq!(give(&mut s, set(3, 0, p)), (0, 1, 0));
    assert_eq!(s.lists[18].members[..2], [3, 0]);
    // at low
    give(&mut s, ev(BLOCK, 3, 0));
    give(&mut s, ev(BLOCK, 3, 0));
    assert_eq!(give(&mut s, ev(CLOCK, 10, 0)), (0, 4, 40));
    assert_eq!(s.lists[5].members[..2], [4, 0]);
    assert_eq!(give(&mut s, set(11, 0, own)), (0, 4, 40));
    assert_eq!(s.lists[4].members[..2], [2, 0]);
    assert_eq!(s.lists[5].members[..2], [4, 0]);
    assert_eq!(s.lists[5].length, 1);
}

/// Later entries use the new period and stand before those that are due later.
#[test]
fn an_entry_comes_before_others() {
    let mut s = opened(&[sporadic(10, 100, 4)]);
    give(&mut s, ev(BLOCK, 1, 0));
    give(&mut s, ev(WAKE, 2, 0));
    give(&mut s, ev(BLOCK, 4, 0));
    assert_eq!(pending(&s), [(100, 1), (102, 2)]);
    assert_eq!(give(&mut s, set(4, 0, sporadic(10, 40, 4))), (0, 255, 100));
    assert_eq!(pending(&s), [(100, 1), (102, 2)]);
    give(&mut s, ev(WAKE, 5, 0));
    let given = s;
    assert_eq!(give(&mut s, ev(BLOCK, 8, 0)), (0, 255, 45));
    assert_eq!(pending(&s), [(45, 3), (100, 1), (102, 2)]);
    // in between, at a limit
    s = given;
    assert_eq!(give(&mut s, set(7, 0, sporadic(10, 96, 4))), (0, 0, 12));
    assert_eq!(give(&mut s, ev(CLOCK, 12, 0)), (0, 0, 100));
    assert_eq!(pending(&s), [(100, 1), (101, 7), (102, 2)]);
    // behind all others
    s = given;
    give(&mut s, set(7, 0, sporadic(10, 98, 4)));
    give(&mut s, ev(BLOCK, 9, 0));
    assert_eq!(pending(&s), [(100, 1), (102, 2), (103, 4)]);
}

/// One of equal due stands after those that were there; all come back at one instant, each
/// is told, and the first one brings the thread to upper.
#[test]
fn entries_of_equal_due() {
    let mut s = opened(&[sporadic(10, 100, 3), fifo(20)]);
    give(&mut s, ev(BLOCK, 1, 0));
    give(&mut s, ev(WAKE, 2, 0));
    give(&mut s, ev(BLOCK, 2, 0));
    give(&mut s, ev(BLOCK, 4, 0));
    assert_eq!(pending(&s), [(100, 1), (102, 2)]);
    give(&mut s, ev(WAKE, 10, 0));
    assert_eq!(give(&mut s, set(11, 0, sporadic(10, 90, 3))), (0, 0, 17));
    assert_eq!(give(&mut s, ev(CLOCK, 17, 0)), (0, 0, 100));
    assert_eq!(pending(&s), [(100, 1), (100, 7), (102, 2)]);
    give(&mut s, ev(WAKE, 20, 1));
    let (a, told) = event_told(&mut s, &ev(CLOCK, 100, 0));
    assert_eq!((a.status, a.running, a.next), (0, 1, 102));
    assert_eq!((told[0].replenishments, told[0].amounts), (2, 8));
    assert_eq!((server(&s), pending(&s)), ((8, 0, 100), vec![(102, 2)]));
    assert_eq!(s.lists[19].members[..2], [1, 0]);
}

/// A refusal is judged at the event's time, by what has happened until then.
#[test]
fn judged_at_the_time_of_the_event() {
    let less = sporadic(5, 40, 1);
    let mut s = opened(&[sporadic(10, 40, 1)]);
    assert_eq!(give(&mut s, set(5, 0, less)), (15, 0, 10));
    assert_eq!(give(&mut s, set(4, 0, less)), (0, 0, 5));
    // nothing is left from 5 on, and 5 are back at 40
    assert_eq!(give(&mut s, set(39, 0, sporadic(4, 40, 1))), (15, 0, 5));
    assert_eq!(give(&mut s, set(40, 0, sporadic(4, 40, 1))), (0, 0, 44));
    assert_eq!(server(&s), (4, 0, 40));
    // a pending count that falls on the way
    let mut s = opened(&[sporadic(10, 40, 3)]);
    give(&mut s, ev(BLOCK, 1, 0));
    give(&mut s, ev(WAKE, 2, 0));
    give(&mut s, ev(BLOCK, 3, 0));
    assert_eq!(give(&mut s, set(39, 0, sporadic(10, 40, 1))), (15, 255, 40));
    assert_eq!(give(&mut s, set(41, 0, sporadic(10, 40, 1))), (0, 255, 42));
}

/// 15 comes after every other refusal of a set.
#[test]
fn other_refusals_come_first() {
    let s = opened(&[sporadic(10, 40, 1)]);
    let bad = sporadic(1, 40, 1);
    let cases = [
        (set(10, 1, bad), 5),
        (set(10, 0, sporadic(0, 40, 1)), 6),
        (set(10, 0, sporadic(1, 40, 9)), 6),
        (set(MAX_TIME + 1, 0, bad), 3),
        (set(1_000_001, 0, bad), 2),
        (set(10, 0, bad), 15),
    ];
    for (e, status) in cases {
        assert_eq!(give(&mut s.clone(), e), (status, 0, 10), "{e:?}");
    }
    let mut late = s;
    give(&mut late, ev(CLOCK, 4, 0));
    assert_eq!(give(&mut late, set(3, 0, bad)), (1, 0, 10));
    late.idle += 1;
    assert_eq!(event(&mut late, &set(4, 0, bad)).status, 9);
}

/// Any other set stays as it was: a new account, or none.
#[test]
fn sets_that_carry_nothing_over() {
    for other in [fifo(7), rr(7, 5)] {
        let mut s = opened(&[sporadic(10, 40, 2)]);
        give(&mut s, ev(BLOCK, 4, 0));
        give(&mut s, ev(WAKE, 5, 0));
        assert_eq!(give(&mut s, set(7, 0, other)).0, 0);
        assert_eq!((server(&s), pending(&s)), ((0, 0, 0), vec![]));
        assert_eq!(give(&mut s, set(9, 0, sporadic(2, 40, 1))), (0, 0, 11));
        assert_eq!((server(&s), pending(&s)), ((2, 0, 9), vec![]));
    }
}

/// The farthest that a due can lie after now, from a set and from an event.
#[test]
fn the_farthest_due() {
    let mut s = opened(&[sporadic(2, 4, 2)]);
    let far = sporadic(2, MAX_TICKS, 2);
    assert_eq!(give(&mut s, set(1, 0, far)), (0, 0, 2));
    assert_eq!(give(&mut s, ev(CLOCK, 2, 0)), (0, 0, MAX_TICKS));
    assert_eq!(pending(&s), [(MAX_TICKS, 2)]);
    // a period that is shorter than what is still to come
    assert_eq!(give(&mut s, set(3, 0, sporadic(3, 4, 3))), (0, 0, 4));
    assert_eq!(give(&mut s, ev(CLOCK, 4, 0)), (0, 0, 7));
    assert_eq!(pending(&s), [(7, 1), (MAX_TICKS, 2)]);
}
