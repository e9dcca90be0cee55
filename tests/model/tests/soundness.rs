//! The soundness list of 01, line by line, with what 02 E7 4 asks of dues, and status 9.

use model::*;

/// Every kind of thread at once: 0 FIFO, 1 RR, 2 sporadic at upper with U and
/// one pending, 3 low for want of capacity, 4 low by max_repl, 5 blocked
/// sporadic, 6 blocked FIFO, 7 blocked RR.
fn base() -> State {
    let sporadic = |priority, low, max_repl| Parameters {
        policy: SPORADIC,
        priority,
        low,
        max_repl,
        flag: 0,
        budget: 10,
        period: 40,
    };
    let fifo = |priority| Parameters {
        policy: FIFO,
        priority,
        ..Parameters::default()
    };
    let rr = |priority| Parameters {
        policy: RR,
        priority,
        budget: 5,
        ..Parameters::default()
    };
    let mut s = State {
        n: 8,
        start: 100,
        now: 1_000,
        idle: 250,
        ..State::default()
    };
    s.threads[0] = Thread {
        parameters: fifo(10),
        total: 300,
        ..Thread::default()
    };
    s.threads[1] = Thread {
        parameters: rr(10),
        total: 200,
        quantum: 3,
        ..Thread::default()
    };
    let t = Thread {
        parameters: sporadic(20, 5, 3),
        total: 50,
        capacity: 4,
        used: 4,
        activation: 990,
        ..Thread::default()
    };
    s.threads[2] = with(t, &[(1_010, 2)]);
    let t = Thread {
        parameters: sporadic(20, 5, 2),
        total: 100,
        activation: 950,
        ..Thread::default()
    };
    s.threads[3] = with(t, &[(1_001, 3), (1_039, 7)]);
    let t = Thread {
        parameters: sporadic(21, 5, 1),
        capacity: 6,
        activation: 960,
        ..Thread::default()
    };
    s.threads[4] = with(t, &[(1_005, 4)]);
    let t = Thread {
        parameters: sporadic(22, 6, 8),
        blocked: 1,
        capacity: 9,
        activation: 100,
        ..Thread::default()
    };
    s.threads[5] = with(t, &[(1_039, 1)]);
    s.threads[6] = Thread {
        parameters: fifo(3),
        blocked: 1,
        ..Thread::default()
    };
    s.threads[7] = Thread {
        parameters: rr(32),
        blocked: 1,
        quantum: 5,
        ..Thread::default()
    };
    list(&mut s, 10, &[1, 0]);
    list(&mut s, 20, &[2]);
    list(&mut s, 5, &[4, 3]);
    s
}

fn with(mut t: Thread, pending: &[(u64, u64)]) -> Thread {
    for (k, (due, amount)) in pending.iter().enumerate() {
        t.dues[k] = *due;
        t.amounts[k] = *amount;
    }
    t.pending = pending.len() as u8;
    t
}

/// The list of priority `p` and its bit in the word.
fn list(s: &mut State, p: usize, members: &[u8]) {
    s.lists[p - 1] = List::default();
    s.lists[p - 1].members[..members.len()].copy_from_slice(members);
    s.lists[p - 1].length = members.len() as u8;
    s.word &= !(1 << (p - 1));
    s.word |= u32::from(!members.is_empty()) << (p - 1);
}

type Change = fn(&mut State);

#[test]
fn changes_that_stay_sound() {
    let changes: &[(&str, Change)] = &[
        ("none", |_| ()),
        ("list order", |s| list(s, 10, &[0, 1])),
        ("quantum 1", |s| s.threads[1].quantum = 1),
        ("quantum full", |s| s.threads[1].quantum = 5),
        ("U = now - activation", |s| s.threads[2].activation = 996),
        ("U over the total", |s| {
            s.threads[2].total = 0;
            s.idle += 50;
        }),
        ("due at activation + period - 1", |s| {
            s.threads[2].dues[0] = 1_029
        }),
        ("due at now + 1", |s| s.threads[2].dues[0] = 1_001),
        ("due at activation + period, upper", |s| {
            s.threads[2].dues[0] = 1_030
        }),
        ("due at now + period, upper", |s| {
            s.threads[2].dues[0] = 1_040
        }),
        ("due at now + period, low", |s| s.threads[3].dues[1] = 1_040),
        ("due at now + period, blocked", |s| {
            s.threads[5].dues[0] = 1_040
        }),
        ("due at now + 10^9", |s| {
            for (i, k) in [(2, 0), (3, 1), (4, 0), (5, 0)] {
                s.threads[i].dues[k] = 1_000 + 1_000_000_000;
            }
        }),
        ("dues equal", |s| s.threads[3].dues[1] = 1_001),
        ("all dues equal", |s| {
            s.threads[5].capacity = 2;
            s.threads[5].pending = 8;
            s.threads[5].dues = [1_000 + 1_000_000_000; 8];
            s.threads[5].amounts = [1; 8];
        }),
        ("activation at start, low", |s| {
            s.threads[3].activation = 100
        }),
        ("activation now, low", |s| s.threads[3].activation = 1_000),
        ("activation now, blocked", |s| {
            s.threads[5].activation = 1_000
        }),
        ("blocked without capacity", |s| {
            s.threads[5].capacity = 0;
            s.threads[5].amounts[0] = 10;
        }),
        ("nothing runnable", |s| {
            for i in 0..5 {
                s.threads[i].blocked = 1;
            }
            s.threads[2].capacity += 4;
            s.threads[2].used = 0;
            for p in [5, 10, 20] {
                list(s, p, &[]);
            }
        }),
    ];
    for (name, change) in changes {
        let mut s = base();
        change(&mut s);
        assert!(sound(&s), "{name}");
        let clock = Event {
            time: s.now,
            ..Event::default()
        };
        let before = s;
        assert_eq!(event(&mut s, &clock).status, 0, "{name}");
        assert_eq!(s, before, "{name}");
    }
}

#[test]
fn changes_that_make_it_unsound() {
    let changes: &[(&str, Change)] = &[
        // N and parameters.
        ("N 0", |s| s.n = 0),
        ("N 33", |s| s.n = 33),
        ("N max", |s| s.n = u32::MAX),
        ("N one less", |s| s.n = 7),
        ("N one more", |s| s.n = 9),
        ("policy 3", |s| s.threads[0].parameters.policy = 3),
        ("policy changed", |s| s.threads[0].parameters.policy = RR),
        ("priority 0", |s| s.threads[6].parameters.priority = 0),
        ("priority 33", |s| s.threads[6].parameters.priority = 33),
        ("low = priority", |s| s.threads[2].parameters.low = 20),
        ("low 0", |s| s.threads[2].parameters.low = 0),
        ("low of FIFO", |s| s.threads[0].parameters.low = 1),
        ("max_repl 9", |s| s.threads[5].parameters.max_repl = 9),
        ("max_repl 255", |s| s.threads[5].parameters.max_repl = 255),
        ("max_repl 0", |s| s.threads[2].parameters.max_repl = 0),
        ("max_repl of RR", |s| s.threads[1].parameters.max_repl = 1),
        ("flag", |s| s.threads[0].parameters.flag = 1),
        ("budget over period", |s| {
            s.threads[2].parameters.budget = 41;
            s.threads[2].capacity = 35;
        }),
        ("period too long", |s| {
            s.threads[2].parameters.period = MAX_TICKS + 1
        }),
        ("period max", |s| s.threads[2].parameters.period = u64::MAX),
        ("period of RR", |s| s.threads[1].parameters.period = 1),
        ("budget of FIFO", |s| s.threads[0].parameters.budget = 1),
        // Times.
        ("now before start", |s| {
            s.start = 1_001;
        }),
        ("now over 10^15", |s| {
            s.now = MAX_TIME + 1;
            s.idle += MAX_TIME - 999;
        }),
        ("now max", |s| s.now = u64::MAX),
        // Lists and word.
        ("runnable in no list", |s| list(s, 10, &[1])),
        ("runnable twice in one list", |s| list(s, 10, &[1, 0, 1])),
        ("runnable in two lists", |s| list(s, 11, &[1])),
        ("twice and another not at all", |s| list(s, 10, &[1, 1])),
        ("wrong list", |s| {
            list(s, 10, &[1]);
            list(s, 9, &[0]);
        }),
        ("low one in the upper list", |s| {
            list(s, 5, &[4]);
            list(s, 20, &[2, 3]);
        }),
        ("upper one in the low list", |s| {
            list(s, 5, &[4, 3, 2]);
            list(s, 20, &[]);
        }),
        ("blocked in a list", |s| list(s, 3, &[6])),
        ("blocked by flag only", |s| s.threads[0].blocked = 1),
        ("runnable by flag only", |s| s.threads[6].blocked = 0),
        ("runnable, blocked 2", |s| s.threads[0].blocked = 2),
        ("blocked, blocked 3", |s| s.threads[6].blocked = 3),
        ("blocked 255", |s| s.threads[6].blocked = 255),
        ("member at N", |s| list(s, 10, &[1, 0, 8])),
        ("member 255", |s| list(s, 10, &[1, 0, 255])),
        ("length 33", |s| s.lists[9].length = 33),
        ("length 255", |s| s.lists[9].length = 255),
        ("length one more", |s| s.lists[9].length = 3),
        ("place past a length", |s| s.lists[9].members[2] = 1),
        ("last place past a length", |s| s.lists[31].members[31] = 1),
        ("word bit missing", |s| s.word &= !(1 << 9)),
        ("word bit extra", |s| s.word |= 1 << 31),
        ("word 0", |s| s.word = 0),
        // Capacity, U, pending amounts.
        ("sum one over", |s| s.threads[2].capacity += 1),
        ("sum one under", |s| s.threads[2].capacity -= 1),
        ("sum wraps", |s| {
            s.threads[2].capacity = u64::MAX - 1;
            s.threads[2].used = 10;
        }),
        ("amount wraps", |s| {
            s.threads[2].amounts[0] = u64::MAX;
            s.threads[2].capacity = 7;
        }),
        ("U of a blocked thread", |s| {
            s.threads[5].used = 1;
            s.threads[5].capacity -= 1;
        }),
        ("U of a low thread", |s| {
            s.threads[4].used = 1;
            s.threads[4].capacity -= 1;
        }),
        ("U over now - activation", |s| s.threads[2].activation = 997),
        // Pending.
        ("pending over max_repl", |s| {
            s.threads[4].pending = 2;
            s.threads[4].dues[1] = 1_006;
            s.threads[4].amounts[1] = 1;
            s.threads[4].capacity -= 1;
        }),
        ("pending 9", |s| s.threads[5].pending = 9),
        ("pending 255", |s| s.threads[5].pending = 255),
        ("amount 0", |s| {
            s.threads[2].amounts[0] = 0;
            s.threads[2].capacity += 2;
        }),
        ("place past the count, due", |s| {
            s.threads[2].dues[1] = 1_020
        }),
        ("place past the count, amount", |s| {
            s.threads[2].amounts[7] = 1;
            s.threads[2].capacity -= 1;
        }),
        ("dues fall", |s| {
            s.threads[3].dues = [1_039, 1_001, 0, 0, 0, 0, 0, 0]
        }),
        ("dues fall by one", |s| s.threads[3].dues[0] = 1_040),
        ("last due falls", |s| {
            s.threads[5].capacity = 7;
            s.threads[5].pending = 3;
            s.threads[5].dues = [1_039, 1_040, 1_039, 0, 0, 0, 0, 0];
            s.threads[5].amounts = [1, 1, 1, 0, 0, 0, 0, 0];
        }),
        ("due now", |s| s.threads[2].dues[0] = 1_000),
        ("due before now", |s| s.threads[3].dues[0] = 999),
        ("due after now + 10^9, upper", |s| {
            s.threads[2].dues[0] = 1_001 + 1_000_000_000
        }),
        ("due after now + 10^9, low", |s| {
            s.threads[3].dues[1] = 1_001 + 1_000_000_000
        }),
        ("due after now + 10^9, blocked", |s| {
            s.threads[5].dues[0] = 1_001 + 1_000_000_000
        }),
        ("due max", |s| s.threads[5].dues[0] = u64::MAX),
        // Activation time.
        ("activation before start", |s| s.threads[5].activation = 99),
        ("activation before start, low", |s| {
            s.threads[3].activation = 99
        }),
        ("activation after now", |s| s.threads[5].activation = 1_001),
        ("activation max", |s| s.threads[5].activation = u64::MAX),
        // RR.
        ("quantum 0", |s| s.threads[1].quantum = 0),
        ("quantum over", |s| s.threads[1].quantum = 6),
        ("quantum 0, blocked", |s| s.threads[7].quantum = 0),
        // Run times.
        ("idle one over", |s| s.idle += 1),
        ("idle one under", |s| s.idle -= 1),
        ("total one over", |s| s.threads[6].total = 1),
        ("totals wrap", |s| {
            s.threads[6].total = u64::MAX;
            s.idle += 1;
        }),
        ("start moved", |s| s.start = 99),
        // Fields that don't apply.
        ("quantum of FIFO", |s| s.threads[0].quantum = 1),
        ("quantum of sporadic", |s| s.threads[2].quantum = 1),
        ("capacity of FIFO", |s| s.threads[0].capacity = 1),
        ("capacity of RR", |s| s.threads[1].capacity = 1),
        ("U of RR", |s| s.threads[1].used = 1),
        ("activation of FIFO", |s| s.threads[0].activation = 100),
        ("activation of RR", |s| s.threads[1].activation = 1_000),
        ("pending of FIFO", |s| {
            s.threads[0].pending = 1;
            s.threads[0].dues[0] = 1_001;
            s.threads[0].amounts[0] = 1;
        }),
        ("due of RR", |s| s.threads[1].dues[7] = 1),
        ("amount of RR", |s| s.threads[1].amounts[0] = 1),
        ("thread past N", |s| s.threads[8].parameters.priority = 1),
        ("blocked past N", |s| s.threads[31].blocked = 1),
        ("blocked 2 past N", |s| s.threads[31].blocked = 2),
        ("total past N", |s| {
            s.threads[31].total = 1;
            s.idle -= 1;
        }),
        ("no threads at all", |s| *s = State::default()),
    ];
    let events = [
        Event {
            time: 1_000,
            ..Event::default()
        },
        Event {
            time: 0,
            kind: 200,
            thread: 200,
            ..Event::default()
        },
        Event {
            time: 1_005,
            kind: WAKE,
            thread: 6,
            ..Event::default()
        },
        Event {
            time: 1_050,
            kind: BLOCK,
            ..Event::default()
        },
    ];
    for (name, change) in changes {
        let mut s = base();
        change(&mut s);
        assert!(!sound(&s), "{name}");
        let before = s;
        for e in &events {
            let answer = event(&mut s, e);
            assert_eq!(
                answer,
                Answer {
                    status: 9,
                    running: 255,
                    next: 0
                },
                "{name}"
            );
            assert_eq!(s, before, "{name}");
        }
    }
    println!("{} unsound states refused with 9", changes.len());
}
