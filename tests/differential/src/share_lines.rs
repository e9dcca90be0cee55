//! The lines of shares at the end of a replay (02 E13): the bytes beside the model's, and the numbers
//! in them read back and compared with the code's own state, bit for bit.

use crate::case::{cases, Case};
use crate::coverage::{answers, row, Coverage, Group, Tally};
use crate::files::{damage_file, file};
use differential as board;
use model::random::Random;
use model::{status, Event, Parameters, BLOCK, MAX_EVENTS, MAX_STEP, MAX_TIME, SIGNIFICANT};
use model::{THREADS, WAKE};

// -------------------------------------------------------------------- inputs

/// The elapsed times of files with few events are below this.
const SHORT: u64 = 100_000_000;
/// The longest elapsed time of the files made here: each of 32 threads may need two events more.
const LONG: u64 = 1_400_000_000;

/// An elapsed time, and the total of one thread.
fn ticks(r: &mut Random) -> (u64, u64) {
    let long = r.one_in(8);
    let bound = if long { LONG } else { SHORT };
    let power = |x: u64| 10u64.pow(x as u32);
    match r.below(8) {
        0 => (0, 0),
        // exactly 18 significant digits, of which the last is 5: an odd number over 2^twos, as many
        // digits behind the point as there are twos, of which the first twos - 18 are zeros
        1 | 2 => {
            let twos = r.between(18, 25);
            let (least, beyond) = (
                (1 << twos) / power(twos - 17),
                (1 << twos) / power(twos - 18),
            );
            (1 << twos, r.between(least + 1, beyond - 1) | 1)
        }
        3 => {
            let wide = r.between(0, if long { 9 } else { 7 });
            (power(wide), power(r.between(0, wide)))
        }
        4 => (r.between(bound / 2, bound), r.between(1, 9)),
        5 => {
            let elapsed = r.between(1, 10_000);
            (elapsed, elapsed - r.below(2))
        }
        6 => {
            let elapsed = r.between(1, 200);
            (elapsed, r.below(elapsed + 1))
        }
        _ if long => {
            let elapsed = r.between(bound / 4 * 3, bound);
            (elapsed, elapsed - r.below(elapsed / 4))
        }
        _ => {
            let elapsed = r.between(1, bound);
            (elapsed, r.below(elapsed + 1))
        }
    }
}

/// Clock readings up to a time, each at most the longest step after the one before; the last event,
/// at that time, is of this kind.
fn up_to(events: &mut Vec<Event>, mut now: u64, time: u64, kind: u8) {
    while time - now > MAX_STEP {
        now += MAX_STEP;
        events.push(Event {
            time: now,
            ..Event::default()
        });
    }
    events.push(Event {
        time,
        kind,
        ..Event::default()
    });
}

/// The last of the ways in which the other threads share what is left.
const EVEN: u64 = 4;

/// A file in which FIFO threads run one after another, each for the total that it gets; the rest is
/// idle time. Now and then the last event is refused.
fn dealt(r: &mut Random) -> Vec<u8> {
    // one of many threads stands apart from the others: it has the smallest share, or the largest
    let apart = r.one_in(3);
    let n = if apart { THREADS } else { r.threads() as usize };
    let (elapsed, total) = if apart {
        let elapsed = r.between(1_000, 1_000_000);
        (elapsed, r.pick(&[0, 1, elapsed / 2]))
    } else {
        ticks(r)
    };
    let mut left = elapsed - total;
    let mut totals = vec![total];
    let even = left / (n as u64 - 1).max(1);
    let sort = if apart { EVEN } else { r.below(EVEN + 1) };
    for _ in 1..n {
        let other = match sort {
            0 => 0,
            1 => total,
            2 => r.below(3),
            3 => r.below(left + 1),
            _ => even,
        };
        totals.push(other.min(left));
        left -= other.min(left);
    }
    let mut table = [Parameters::default(); THREADS];
    for p in &mut table[..n] {
        p.priority = r.between(1, 32) as u8;
    }
    let start = r.start().min(MAX_TIME - elapsed);
    // whose total is the one above, and who runs first
    let first = r.below(n as u64) as usize;
    let mut events = Vec::new();
    let mut now = start;
    for (k, ticks) in totals.into_iter().enumerate() {
        let thread = ((first + k) % n) as u8;
        if ticks > 0 || r.one_in(8) {
            events.push(Event {
                time: now,
                kind: WAKE,
                thread,
                ..Event::default()
            });
            up_to(&mut events, now, now + ticks, BLOCK);
            now += ticks;
        }
    }
    up_to(&mut events, now, start + elapsed, 0);
    if r.one_in(4) {
        let late = start + elapsed + MAX_STEP + 1;
        events.push(Event {
            time: r.pick(&[late, start + elapsed + 1, MAX_TIME + 1]),
            kind: r.pick(&[0, BLOCK.into()]) as u8,
            thread: 0,
            ..Event::default()
        });
    }
    assert!(events.len() <= MAX_EVENTS);
    let mut out = vec![0; model::total_bytes(n, events.len())];
    model::write(start, n as u32, &table, &events, &mut out)
        .expect("a buffer of the file's length");
    out
}

// --------------------------------------------------------------------- cases

/// The lines of one file, by both; those of the code.
fn same_lines(case: &Case, r: &mut Random, file: &[u8]) -> String {
    let ours = model::share_listing(file);
    let mut out: [u8; board::SHARE_LINES] = std::array::from_fn(|_| r.bits() as u8);
    let length = board::share_listing(file, &mut out);
    let mut expected = [0; board::SHARE_LINES];
    expected[..ours.len()].copy_from_slice(ours.as_bytes());
    if length != ours.len() || out != expected {
        let theirs = String::from_utf8_lossy(&out);
        let detail = format!("model\n{ours}\ncode {length}\n{theirs}\nof {file:?}");
        case.differ("lines of shares", detail);
    }
    ours
}

/// A share as the lines have it: a plain decimal number with 17 significant digits, or 0.
fn parsed(text: &str) -> Option<f64> {
    let (whole, behind) = text.split_once('.').unwrap_or((text, ""));
    let digits = format!("{whole}{behind}");
    let plain = digits.bytes().all(|b| b.is_ascii_digit()) && ["0", "1"].contains(&whole);
    let significant = digits.trim_start_matches('0').len();
    let enough = significant == SIGNIFICANT || text == "0";
    (plain && enough).then(|| text.parse().ok()).flatten()
}

/// The lines say what the state at the end of the code's own replay says.
fn read_back(case: &Case, file: &[u8], text: &str, seen: &mut Seen) {
    let differ = |line: &str| -> ! {
        case.differ("a line of shares", format!("{line}\nof\n{text}\n{file:?}"))
    };
    let replayed = board::replay(file, usize::MAX);
    let core = &replayed.state.core;
    let threads = &core.threads[..core.header.n as usize];
    let totals: Vec<u64> = threads.iter().map(|t| t.total).collect();
    let elapsed = core.now - core.header.start;
    let same = |word: &str, thread: usize| {
        let share = totals[thread] as f64 / elapsed as f64;
        parsed(word).is_some_and(|x| x.to_bits() == share.to_bits())
    };
    let (most, least) = (totals.iter().max(), totals.iter().min());
    let of = |bound: Option<&u64>| totals.iter().position(|total| Some(total) == bound);
    let mut lines = text.lines();
    for (i, total) in totals.iter().enumerate() {
        let line = lines.next().unwrap_or_else(|| differ("(missing)"));
        let start = format!("share {i} {total} {elapsed} ");
        match line.strip_prefix(&start) {
            Some("none") if elapsed == 0 => {}
            Some(word) if elapsed > 0 && same(word, i) => seen.share(word, *total, elapsed),
            _ => differ(line),
        }
    }
    if elapsed > 0 {
        for (name, thread) in [("largest", of(most)), ("smallest", of(least))] {
            let thread = thread.expect("a thread has it");
            let line = lines.next().unwrap_or_else(|| differ("(missing)"));
            match line.strip_prefix(&format!("{name} {thread} ")) {
                Some(word) if same(word, thread) => {}
                _ => differ(line),
            }
        }
    }
    if lines.next().is_some() || !text.ends_with('\n') {
        differ("(the end)");
    }
    seen.replay(replayed.status, &totals, elapsed);
}

/// Files, some of them damaged.
pub fn share_lines(count: u64, seed: u64, covered: &mut Coverage) {
    let seen = &mut Seen::default();
    for case in cases("lines", seed).take(count as usize) {
        // another stream than that of the readings, whose option has the same first letter
        let r = &mut Random::new(!case.random().seed);
        let mut file = if r.one_in(3) { file(r) } else { dealt(r) };
        if r.one_in(6) {
            damage_file(r, &mut file);
        }
        let text = same_lines(&case, r, &file);
        match text.strip_prefix("refused ") {
            Some(line) => {
                let number = line.trim_end().parse().expect("a status");
                if board::replay(&file, 0).status != number {
                    case.differ("a refusal in the lines of shares", text);
                }
                seen.files.add(number);
            }
            None => {
                seen.files.add(status::ACCEPTED);
                read_back(&case, &file, &text, seen);
            }
        }
    }
    seen.files.print("files with lines of shares");
    covered.others.push(seen.group());
}

// ------------------------------------------------------------------ coverage

/// Zeros behind the point: up to nine, since a file is at most 1,500,000,000 ticks long.
const ZEROS: usize = 10;
/// The digits of an elapsed time.
const DIGITS: usize = 10;

#[derive(Default)]
struct Seen {
    files: Tally,
    by_n: [u64; THREADS],
    /// No time has passed; the last event was refused.
    still: u64,
    last_refused: u64,
    /// 0, 1.
    ends: [u64; 2],
    zeros: [u64; ZEROS],
    /// 17 digits are all there are; the rest is dropped, or rounds up; a half is dropped, or rounds up.
    rounded: [u64; 5],
    /// Digits of totals, of elapsed times.
    digits: [[u64; DIGITS]; 2],
    /// The largest, the smallest, by thread; ties of each.
    threads: [[u64; THREADS]; 2],
    ties: [u64; 2],
}

impl Seen {
    fn replay(&mut self, last: u8, totals: &[u64], elapsed: u64) {
        self.by_n[totals.len() - 1] += 1;
        self.last_refused += (last != status::ACCEPTED) as u64;
        self.still += (elapsed == 0) as u64;
        if elapsed == 0 {
            return;
        }
        for (k, bound) in [totals.iter().max(), totals.iter().min()]
            .iter()
            .enumerate()
        {
            let mut have = (0..totals.len()).filter(|i| Some(&totals[*i]) == *bound);
            self.threads[k][have.next().expect("a thread has it")] += 1;
            self.ties[k] += have.next().is_some() as u64;
        }
        self.digits[1][elapsed.to_string().len() - 1] += 1;
    }

    /// A share in decimal, which is that of a total.
    fn share(&mut self, word: &str, total: u64, elapsed: u64) {
        self.digits[0][total.to_string().len() - 1] += 1;
        let share = total as f64 / elapsed as f64;
        if total == 0 {
            self.ends[0] += 1;
            return;
        }
        self.ends[1] += (total == elapsed) as u64;
        if let Some(behind) = word.strip_prefix("0.") {
            let digits = behind.trim_start_matches('0');
            self.zeros[behind.len() - digits.len()] += 1;
        }
        // Rust's own digits, more than any of these floats has
        let all = format!("{share:.120e}");
        let digits: Vec<u8> = all.bytes().filter(|b| b.is_ascii_digit()).collect();
        let (kept, rest) = digits[..121].split_at(SIGNIFICANT);
        let more = rest[1..].iter().any(|d| *d != b'0');
        let place = match rest[0] {
            b'0' if !more => 0,
            b'5' if !more => 3 + (kept[SIGNIFICANT - 1] % 2) as usize,
            first => 1 + (first >= b'5') as usize,
        };
        self.rounded[place] += 1;
    }

    fn group(&self) -> Group {
        Group {
            sorts: &["lines"],
            rows: vec![
                answers(
                    "files with lines of shares, by refusal",
                    &[(&self.files, &[0, 3, 6, 10, 11, 13])],
                ),
                row("lines of shares by N", &self.by_n),
                row(
                    "no time has passed; the last event was refused",
                    [&self.still, &self.last_refused],
                ),
                row(
                    "shares of 0, of 1, and with up to 9 zeros behind the point",
                    self.ends.iter().chain(&self.zeros),
                ),
                row(
                    "shares of 17 digits; rounded down, up; from a half down, up",
                    &self.rounded,
                ),
                row(
                    "totals and elapsed times of 1 to 10 digits",
                    self.digits.as_flattened(),
                ),
                row(
                    "the largest and the smallest in the lines, by thread; on a tie",
                    self.threads.as_flattened().iter().chain(&self.ties),
                ),
            ],
        }
    }
}
