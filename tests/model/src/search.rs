//! The search for the next due (02 E2).

use crate::{status, PENDING, THREADS};

/// The threads' pending counts, and the dues of their entries, a row for each thread.
#[derive(Clone, Debug, PartialEq, Eq)]
pub struct Dues {
    pub counts: [u8; THREADS],
    pub rows: [[u64; PENDING]; THREADS],
}

/// 02 E2 3: the least first due of the threads whose pending count isn't 0, or none where there is
/// no such thread. With it the lowest thread that has it. N out of range is refused (01 Status 6).
pub fn next_due(all: &Dues, n: u32) -> Result<Option<(usize, u64)>, u8> {
    if n < 1 || n > THREADS as u32 {
        return Err(status::THREAD);
    }
    let mut firsts = Vec::new();
    for thread in 0..n as usize {
        let entries = all.rows[thread];
        let first = entries[0];
        if all.counts[thread] != 0 {
            firsts.push((thread, first));
        }
    }
    let Some(least) = firsts.iter().map(|(_, due)| *due).min() else {
        return Ok(None);
    };
    Ok(firsts.into_iter().find(|(_, due)| *due == least))
}
