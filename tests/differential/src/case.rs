//! Cases, each with its own seed, and what all comparisons share.

use model::random::Random;
use std::fmt::Debug;
use std::iter::successors;
use std::process::exit;
use std::thread::panicking;

/// A case: the option that counts cases of its sort, and its seed.
pub struct Case {
    option: &'static str,
    seed: u64,
}

/// The cases of a run. The first has the run's own seed, so that each can be repeated alone.
pub fn cases(option: &'static str, first: u64) -> impl Iterator<Item = Case> {
    let seeds = successors(Some(first), |seed| Some(Random::new(*seed).bits()));
    seeds.map(move |seed| Case { option, seed })
}

impl Case {
    /// The case's generator: a stream of its own for each first letter of an option.
    pub fn random(&self) -> Random {
        let sort = self.option.as_bytes()[0] as u64;
        let mut mixed = Random::new(self.seed ^ (sort << 56));
        Random::new(mixed.bits())
    }

    fn command(&self) -> String {
        format!("--{} 1 --seed {}", self.option, self.seed)
    }

    pub fn differ(&self, what: &str, detail: String) -> ! {
        println!("DIFFERENCE in {what}: repeat with {}", self.command());
        println!("{detail}");
        exit(1)
    }
}

impl Drop for Case {
    /// Names the case in which the model panics.
    fn drop(&mut self) {
        if panicking() {
            println!("PANIC: repeat with {}", self.command());
        }
    }
}

/// A buffer for `length` bytes, with contents of its own: too short, just long enough or longer.
pub fn buffer(r: &mut Random, length: usize) -> Vec<u8> {
    let room = match r.below(6) {
        0 => length.saturating_sub(1),
        1 => r.below(length as u64 + 1) as usize,
        2 | 3 => length,
        _ => length + r.below(50) as usize,
    };
    (0..room).map(|_| r.bits() as u8).collect()
}

/// The same answer, and the same bytes in the whole buffer.
pub fn same_buffer<A: PartialEq + Debug>(
    case: &Case,
    what: &str,
    input: impl Fn() -> String,
    (a, ours): (A, &[u8]),
    (b, theirs): (A, &[u8]),
) {
    if a != b || ours != theirs {
        let detail = format!(
            "model {a:?} {ours:?}\ncode {b:?} {theirs:?}\nof {}",
            input()
        );
        case.differ(what, detail);
    }
}
