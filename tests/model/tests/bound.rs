//! The most that a sporadic thread takes at its upper priority (G1): cases written out by hand.

use model::{bound, Parameters, FIFO, RR, SPORADIC};

fn worker(budget: u64, period: u64) -> Parameters {
    Parameters {
        policy: SPORADIC,
        priority: 20,
        low: 5,
        max_repl: 2,
        flag: 0,
        budget,
        period,
    }
}

#[test]
fn two_budgets_for_each_begun_stretch() {
    let p = worker(10, 40);
    for (length, most) in [
        (0, 0),
        (1, 1),
        (19, 19),
        (20, 20),
        (21, 20),
        (49, 20),
        (50, 20),
        (51, 40),
        (100, 40),
        (101, 60),
    ] {
        assert_eq!(bound(&p, length), Ok(most), "{length}");
    }
}

#[test]
fn never_more_than_the_length() {
    let p = worker(12, 12);
    for length in 0..100 {
        assert_eq!(bound(&p, length), Ok(length));
    }
    // the last stretch has only just begun
    assert_eq!(bound(&worker(10, 11), 22), Ok(22));
    assert_eq!(bound(&worker(10, 11), 43), Ok(43));
}

/// Counted on from tick to tick: one that begins a stretch brings two budgets.
#[test]
fn counted_by_ticks() {
    for period in 1..=12 {
        for budget in 1..=period {
            let (mut in_stretch, mut allowed) = (0, 0);
            for length in 1..200 {
                if in_stretch == 0 {
                    allowed += 2 * budget;
                }
                in_stretch = (in_stretch + 1) % (period + budget);
                let most = allowed.min(length);
                assert_eq!(bound(&worker(budget, period), length), Ok(most));
            }
        }
    }
}

#[test]
fn the_longest_length() {
    let most = 1_000_000_000;
    // 2^64 - 1 = 18,446,744,073,709,551,615: begins 9,223,372,037 stretches of 2,000,000,000
    assert_eq!(bound(&worker(most, most), u64::MAX), Ok(u64::MAX));
    // of 1,000,000,001: begins 18,446,744,056 of them
    assert_eq!(bound(&worker(1, most), u64::MAX), Ok(36_893_488_112));
    assert_eq!(bound(&worker(1, 1), u64::MAX), Ok(u64::MAX));
    // of 3: 6,148,914,691,236,517,205 of them, none of which is left over
    assert_eq!(
        bound(&worker(1, 2), u64::MAX),
        Ok(12_297_829_382_473_034_410)
    );
}

#[test]
fn no_sporadic_ones_in_range() {
    let p = worker(10, 40);
    let refused = |p: Parameters| assert_eq!(bound(&p, 5), Err(6), "{p:?}");
    for policy in [FIFO, RR, 3, 255] {
        refused(Parameters { policy, ..p });
    }
    for priority in [0, 5, 33, 255] {
        refused(Parameters { priority, ..p });
    }
    for low in [0, 20, 21, 255] {
        refused(Parameters { low, ..p });
    }
    for max_repl in [0, 9, 255] {
        refused(Parameters { max_repl, ..p });
    }
    for (budget, period) in [
        (0, 40),
        (41, 40),
        (0, 0),
        (1, 1_000_000_001),
        (1_000_000_001, 1_000_000_001),
        (u64::MAX, u64::MAX),
    ] {
        refused(worker(budget, period));
    }
    refused(Parameters {
        policy: FIFO,
        priority: 3,
        ..Parameters::default()
    });
    refused(Parameters {
        policy: RR,
        priority: 3,
        budget: 5,
        ..Parameters::default()
    });
    for flag in [2, u32::MAX] {
        refused(Parameters { flag, ..p });
    }
    assert_eq!(bound(&Parameters { flag: 1, ..p }, 51), Ok(40));
}
