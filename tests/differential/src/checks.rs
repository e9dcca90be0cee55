//! The check of another kernel's listing (02 E11): our own listing, changed in one place, has to be
//! answered with the line of that place.

use crate::case::{cases, Case};
use crate::coverage::{answers, row, Coverage, Group, Tally};
use crate::files::{damage_file, file};
use crate::stored::{bytes, inputs};
use differential as board;
use model::random::Random;
use model::Verdict;

/// One change of a listing.
#[derive(Clone, Copy, Debug)]
enum Change {
    Byte,
    Newline,
    ByteMadeNewline,
    CutInLine,
    CutAfterLine,
    LineDoubled,
    LineAdded,
    LineLeftOut,
    ByteAdded,
    ByteLeftOut,
}
use Change::*;

const CHANGES: [Change; 10] = [
    Byte,
    Newline,
    ByteMadeNewline,
    CutInLine,
    CutAfterLine,
    LineDoubled,
    LineAdded,
    LineLeftOut,
    ByteAdded,
    ByteLeftOut,
];

/// The lines of a listing by what they say; the last stands for a line past its end.
const PLACES: usize = 5;
const PAST: usize = 4;

fn place(line: Option<&&[u8]>) -> usize {
    match line {
        None => PAST,
        Some(line) if line.starts_with(b"event") => 0,
        Some(line) if line.starts_with(b"thread") => 2,
        Some(line) if line.starts_with(b"idle") => 3,
        Some(_) => 1,
    }
}

fn lines(text: &[u8]) -> Vec<&[u8]> {
    text.split_inclusive(|&b| b == b'\n').collect()
}

/// Another byte than this one.
fn other(r: &mut Random, byte: Option<&u8>) -> u8 {
    let any = r.bits();
    let to = r.pick(&[
        b'0' as u64,
        b'1' as u64,
        b' ' as u64,
        b'\r' as u64,
        b'\n' as u64,
        any,
    ]) as u8;
    if Some(&to) == byte {
        to ^ 1
    } else {
        to
    }
}

/// A line that is none of the listing's.
fn strange(r: &mut Random) -> Vec<u8> {
    let at = 1_500 + r.below(9);
    let lines = [
        "\n".to_owned(),
        "idle\n".to_owned(),
        format!("{at} 0 255 0\n"),
        format!("thread {at} 0 0 0\n"),
    ];
    lines[r.below(4) as usize].clone().into_bytes()
}

/// Changes a listing at a byte or at its line; the listing after it, and the line that has to be
/// named. All its lines differ from each other, and none is empty.
fn changed(r: &mut Random, ours: &[u8], change: Change, at: usize) -> (Vec<u8>, usize) {
    let all = lines(ours);
    let k = ours[..at].iter().filter(|&&b| b == b'\n').count();
    let begin: usize = all[..k].iter().map(|line| line.len()).sum();
    let end = begin + all[k].len();
    let inside = at.min(end - 2);
    let mut theirs = ours.to_vec();
    let line = match change {
        Byte => {
            theirs[at] = other(r, ours.get(at));
            k + 1
        }
        Newline => {
            theirs[end - 1] = other(r, Some(&b'\n'));
            k + 1
        }
        ByteMadeNewline => {
            theirs[inside] = b'\n';
            k + 1
        }
        CutInLine => {
            theirs.truncate(inside + 1);
            k + 1
        }
        CutAfterLine => {
            theirs.truncate(begin);
            k + 1
        }
        LineDoubled => {
            theirs.splice(end..end, all[k].to_vec());
            k + 2
        }
        LineAdded => {
            let (at, line) = r.pick_end((begin, k + 1), (ours.len(), all.len() + 1));
            theirs.splice(at..at, strange(r));
            line
        }
        LineLeftOut => {
            theirs.drain(begin..end);
            k + 1
        }
        ByteAdded => {
            let (at, line) = r.pick_end((at, k + 1), (ours.len(), all.len() + 1));
            theirs.insert(at, other(r, ours.get(at)));
            line
        }
        ByteLeftOut => {
            theirs.remove(at);
            k + 1
        }
    };
    (theirs, line)
}

trait PickEnd {
    /// A place in the listing, or now and then its end.
    fn pick_end(&mut self, inside: (usize, usize), end: (usize, usize)) -> (usize, usize);
}

impl PickEnd for Random {
    fn pick_end(&mut self, inside: (usize, usize), end: (usize, usize)) -> (usize, usize) {
        if self.one_in(8) {
            end
        } else {
            inside
        }
    }
}

/// Both answer this verdict.
fn same_verdict(case: &Case, file: &[u8], theirs: &[u8], expected: Verdict) {
    let a = model::verdict(file, theirs);
    let b = board::check(file, theirs);
    if a != expected || board::Checked::from(a) != b {
        let theirs = String::from_utf8_lossy(theirs);
        let detail = format!("expected {expected:?} model {a:?} code {b:?}\n{theirs}\nof {file:?}");
        case.differ("a verdict", detail);
    }
}

/// Which changes a listing gets, and where: now and then every change at every byte, else some.
fn changes(r: &mut Random, ours: &[u8]) -> Vec<(Change, usize)> {
    if ours.len() < 200 && r.one_in(8) {
        let everywhere = 0..ours.len();
        return everywhere
            .flat_map(|at| CHANGES.map(|change| (change, at)))
            .collect();
    }
    let all = lines(ours);
    let some = (0..EACH).map(|_| {
        let k = r.below(all.len() as u64) as usize;
        let begin: usize = all[..k].iter().map(|line| line.len()).sum();
        let at = begin + r.below(all[k].len() as u64) as usize;
        (CHANGES[r.below(CHANGES.len() as u64) as usize], at)
    });
    some.collect()
}

/// How many changes those are.
const EACH: usize = 40;

/// A small file for the most part: each change replays it.
fn small(r: &mut Random) -> Vec<u8> {
    loop {
        let file = file(r);
        if file.len() < 1_200 || r.one_in(100) {
            return file;
        }
    }
}

/// The stored verdicts; then listings as they are and changed. `count` is how many verdicts there are
/// of these at least.
pub fn checks(count: u64, seed: u64, covered: &mut Coverage) {
    let seen = &mut Seen::default();
    for case in cases("checks", seed).take(count.min(1) as usize) {
        stored(&case, &mut seen.stored);
    }
    let mut done = 0;
    for case in cases("checks", seed) {
        if done >= count {
            break;
        }
        let r = &mut case.random();
        let mut file = small(r);
        if r.one_in(3) {
            damage_file(r, &mut file);
        }
        let ours = model::listing(&file);
        if let Some(status) = refusal(&ours) {
            done += refused(&case, &file, &ours, status, r);
            seen.refused.add(status);
            continue;
        }
        same_verdict(&case, &file, &ours, Verdict::Yes);
        let changes = changes(r, &ours);
        for (change, at) in &changes {
            let (theirs, line) = changed(r, &ours, *change, *at);
            same_verdict(&case, &file, &theirs, Verdict::Line(line));
            seen.named[*change as usize][place(lines(&ours).get(line - 1))] += 1;
        }
        seen.whole += 1;
        seen.every += (changes.len() > EACH) as u64;
        done += 1 + changes.len() as u64;
    }
    if done > 0 {
        println!("verdicts: {done}");
    }
    covered.others.push(seen.group());
}

/// The status of a listing that is the line `refused n`.
fn refusal(listing: &[u8]) -> Option<u8> {
    let text = std::str::from_utf8(listing).expect("a listing is text");
    let status = text.strip_prefix("refused ")?.strip_suffix('\n')?;
    Some(status.parse().expect("a status"))
}

/// A trace that can't be replayed is answered with its refusal, whatever is handed in with it, that
/// very line included; how many verdicts.
fn refused(case: &Case, file: &[u8], ours: &[u8], status: u8, r: &mut Random) -> u64 {
    let strange = strange(r);
    for theirs in [ours, b"", &strange] {
        same_verdict(case, file, theirs, Verdict::Refused(status));
    }
    3
}

// --------------------------------------------------------------- stored cases

/// A verdict, as the line `yes`, `line 7` or `refused 11` says it, and its place among the counts.
fn verdict(line: &[u8]) -> (usize, Verdict) {
    let line = std::str::from_utf8(line).expect("a verdict is text");
    let words: Vec<&str> = line.split_whitespace().collect();
    match words[..] {
        ["yes"] => (0, Verdict::Yes),
        ["line", n] => (1, Verdict::Line(n.parse().expect("a line number"))),
        ["refused", n] => (2, Verdict::Refused(n.parse().expect("a status"))),
        _ => panic!("{line} is no verdict"),
    }
}

fn stored(case: &Case, counts: &mut [u64; 3]) {
    for path in inputs("check", "bin") {
        let (sort, expected) = verdict(&bytes(&path.with_extension("verdict")));
        let theirs = bytes(&path.with_extension("listing"));
        same_verdict(case, &bytes(&path), &theirs, expected);
        counts[sort] += 1;
    }
}

// ------------------------------------------------------------------ coverage

/// What the checks covered.
#[derive(Default)]
struct Seen {
    whole: u64,
    /// Listings with every change at every byte.
    every: u64,
    /// By change and by what the line named says.
    named: [[u64; PLACES]; CHANGES.len()],
    refused: Tally,
    /// Stored verdicts: yes, a line, a refusal.
    stored: [u64; 3],
}

impl Seen {
    fn group(&self) -> Group {
        let named = CHANGES.iter().flat_map(|&change| {
            let places: &[usize] = match change {
                LineDoubled => &[1, 2, 3, PAST],
                LineAdded | ByteAdded => &[0, 1, 2, 3, PAST],
                _ => &[0, 1, 2, 3],
            };
            places.iter().map(move |&k| &self.named[change as usize][k])
        });
        Group {
            sorts: &["checks"],
            rows: vec![
                row(
                    "listings that agree, and some with every change at every byte",
                    [&self.whole, &self.every],
                ),
                row(
                    "changes that name their line, by change and by what the line says",
                    named,
                ),
                answers(
                    "refused verdicts, by status",
                    &[(&self.refused, &[3, 6, 10, 11, 13])],
                ),
                row("stored verdicts: yes, a line, a refusal", &self.stored),
            ],
        }
    }
}
