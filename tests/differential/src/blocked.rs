//! Sound states in which each place in turn holds each byte as `blocked`: a thread is blocked (1) or
//! runnable (0), and a place past N holds 0.

use crate::case::cases;
use crate::coverage::{row, Coverage, Group};
use crate::events::{both, same_soundness};
use differential as board;
use model::{status, Event, THREADS};

/// How often each byte had the answer that it has to have: past N, of a runnable thread, of a
/// blocked one.
type Seen = [[u64; 256]; 3];

pub fn blocked(count: u64, seed: u64, seen: &mut Coverage) {
    let mut bytes: Seen = [[0; 256]; 3];
    for case in cases("blocked", seed).take(count as usize) {
        let given = case.random().sound_state();
        let e = Event {
            time: given.now,
            ..Event::default()
        };
        for i in 0..THREADS {
            let was = given.threads[i].blocked;
            let place = if i < given.n as usize {
                1 + was as usize
            } else {
                0
            };
            for byte in 0..=u8::MAX {
                let mut s = given;
                s.threads[i].blocked = byte;
                let mut t = board::State::from(&s);
                same_soundness(&case, &s, &t);
                let (a, _) = both(&case, "a byte as blocked", &mut s, &mut t, &e, seen);
                let expected = if byte == was {
                    status::ACCEPTED
                } else {
                    status::UNSOUND
                };
                bytes[place][byte as usize] += (a.status == expected) as u64;
            }
        }
    }
    seen.others.push(Group {
        sorts: &["blocked"],
        rows: vec![row(
            "each byte as blocked: past N, of a runnable thread, of a blocked one",
            bytes.as_flattened(),
        )],
    });
}
