//! What the proved code is given: the plain program's state and events in its own layout. Every
//! field has its place there, so two states are equal exactly when their layouts are.

use differential as board;
use plain::PENDING;

fn parameters(p: &plain::Parameters) -> board::Parameters {
    board::Parameters {
        policy: p.policy,
        priority: p.priority,
        low: p.low,
        max_repl: p.max_repl,
        flag: p.flag,
        budget: p.budget,
        period: p.period,
    }
}

pub fn event(e: &plain::Event) -> board::Event {
    board::Event {
        time: e.time,
        kind: e.kind,
        thread: e.thread,
        parameters: parameters(&e.parameters),
    }
}

pub fn state(s: &plain::State) -> board::State {
    let mut given = board::State::default();
    given.core.header = board::Header {
        n: s.n,
        start: s.start,
    };
    given.core.now = s.now;
    given.core.idle = s.idle;
    given.core.word = s.word;
    for (i, t) in s.threads.iter().enumerate() {
        given.core.threads[i] = board::Thread {
            parameters: parameters(&t.parameters),
            blocked: t.blocked as u8,
            total: t.total,
            left: t.quantum,
            server: board::Server {
                capacity: t.capacity,
                used: t.used,
                activation: t.activation,
            },
        };
        given.core.counts[i] = t.pending;
        given.dues[i * PENDING..][..PENDING].copy_from_slice(&t.dues);
        given.amounts[i * PENDING..][..PENDING].copy_from_slice(&t.amounts);
    }
    for (list, row) in s
        .lists
        .iter()
        .zip(given.core.lists.chunks_exact_mut(board::ROW))
    {
        row[0] = list.length;
        row[1..].copy_from_slice(&list.members);
    }
    given
}
