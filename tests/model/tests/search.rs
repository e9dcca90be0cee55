//! The search for the next due (02 E2): cases written out by hand.

use model::{next_due, Dues, PENDING, THREADS};

/// Each thread given with its count and its first two dues; the others have nothing.
fn dues(given: &[(usize, u8, u64, u64)]) -> Dues {
    let mut all = Dues {
        counts: [0; THREADS],
        rows: [[0; PENDING]; THREADS],
    };
    for &(thread, count, first, second) in given {
        all.counts[thread] = count;
        all.rows[thread][..2].copy_from_slice(&[first, second]);
    }
    all
}

#[test]
fn none_is_no_due_of_0() {
    assert_eq!(next_due(&dues(&[]), 32), Ok(None));
    assert_eq!(next_due(&dues(&[(4, 0, 7, 8)]), 32), Ok(None));
    assert_eq!(next_due(&dues(&[(4, 1, 0, 8)]), 32), Ok(Some((4, 0))));
}

#[test]
fn least_first_due_of_the_lowest_thread() {
    let all = dues(&[
        (3, 2, 40, 10),
        (6, 255, 30, 5),
        (9, 1, 30, 0),
        (12, 0, 1, 1),
    ]);
    assert_eq!(next_due(&all, 32), Ok(Some((6, 30))));
    assert_eq!(next_due(&all, 6), Ok(Some((3, 40))));
    assert_eq!(next_due(&all, 3), Ok(None));
}

#[test]
fn n_out_of_range() {
    for n in [0, 33, u32::MAX] {
        assert_eq!(next_due(&dues(&[(0, 1, 1, 1)]), n), Err(5));
    }
    assert_eq!(next_due(&dues(&[(0, 1, 9, 1)]), 1), Ok(Some((0, 9))));
}
