//! Traces as text (02 E1): made-up and damaged texts made files, and files written out as text.
//!
//! A draft is a text by lines and words. One fault alone is put at a known line, which both have to
//! name; with several faults, or with bytes changed anywhere, they have to agree.

use crate::case::{buffer, cases, same_buffer, Case};
use crate::coverage::{answers, row, Coverage, Group, Tally};
use crate::files::damage_file;
use crate::stored;
use differential as board;
use model::random::Random;
use model::{status, Event, Parameters, MAX_EVENTS, THREADS};

const KEYWORDS: [&str; 7] = ["start", "thread", "clock", "block", "yield", "wake", "set"];
const START: usize = 0;
const THREAD: usize = 1;
const FIRST_EVENT: usize = 2;

const TIME: u64 = u64::MAX;
const TICKS: u64 = u64::MAX;
const BYTE: u64 = u8::MAX as u64;
const FLAG: u64 = u32::MAX as u64;

/// The largest number of each field, by keyword.
const MOST: [&[u64]; 7] = [
    &[TIME],
    &[BYTE, BYTE, BYTE, BYTE, FLAG, TICKS, TICKS],
    &[TIME],
    &[TIME],
    &[TIME],
    &[TIME, BYTE],
    &[TIME, BYTE, BYTE, BYTE, BYTE, BYTE, TICKS, TICKS],
];
const FIELDS: usize = 21;

/// A line: which keyword, and its words, the keyword first.
#[derive(Clone)]
struct Line {
    sort: usize,
    words: Vec<Vec<u8>>,
}

impl Line {
    fn bytes(&self) -> Vec<u8> {
        self.words.join(&b' ')
    }
}

// ------------------------------------------------------------- made-up texts

/// A number that a field with this largest one holds.
fn value(r: &mut Random, most: u64) -> u64 {
    let any = r.bits();
    let power = 10u64.pow(r.below(20) as u32);
    let x = r.pick(&[0, 0, 1, any, any, power, power - 1, most - 1, most, most]);
    let small = r.below(40);
    if r.one_in(3) {
        small
    } else {
        x.min(most)
    }
}

fn line(r: &mut Random, sort: usize) -> Line {
    let numbers = MOST[sort].iter().map(|most| value(r, *most).to_string());
    let words = std::iter::once(KEYWORDS[sort].to_owned()).chain(numbers);
    Line {
        sort,
        words: words.map(String::into_bytes).collect(),
    }
}

/// A start line, threads and events; their numbers may be past their bounds.
fn draft(r: &mut Random) -> Vec<Line> {
    let few = r.between(1, 3);
    let any = r.below(40);
    let mut threads = r.pick(&[few, few, few, few, few, few, 0, any, 1, 32, 33]);
    let few = r.below(6);
    let events = match r.below(60) {
        0 => r.pick(&[
            300,
            MAX_EVENTS as u64,
            MAX_EVENTS as u64,
            MAX_EVENTS as u64 + 1,
        ]),
        1 => r.below(100),
        _ => few,
    };
    if events > MAX_EVENTS as u64 {
        threads = r.pick(&[0, 1, 32, 33]);
    }
    let mut lines = vec![line(r, START)];
    lines.extend((0..threads).map(|_| line(r, THREAD)));
    lines.extend((0..events).map(|_| {
        let sort = r.between(FIRST_EVENT as u64, 6) as usize;
        line(r, sort)
    }));
    lines
}

fn text_of(lines: &[Line]) -> Vec<u8> {
    let mut text = Vec::new();
    for line in lines {
        text.extend(line.bytes());
        text.push(b'\n');
    }
    text
}

// -------------------------------------------------------------------- faults

/// A fault within a line, or at its end.
#[derive(Clone, Copy, Debug, PartialEq)]
enum Fault {
    OnePast,
    FarPast,
    LeadingZero,
    Sign,
    NoDigit,
    NoNumber,
    NumberLess,
    NumberMore,
    SpaceAfter,
    SpaceBefore,
    Tab,
    CarriageReturn,
    OtherByteAfter,
    Keyword,
    KeywordLonger,
    KeywordWithoutSpace,
    NoKeyword,
    BlankLineBefore,
    NoNewline,
}
use Fault::*;

const FAULTS: [Fault; 19] = [
    OnePast,
    FarPast,
    LeadingZero,
    Sign,
    NoDigit,
    NoNumber,
    NumberLess,
    NumberMore,
    SpaceAfter,
    SpaceBefore,
    Tab,
    CarriageReturn,
    OtherByteAfter,
    Keyword,
    KeywordLonger,
    KeywordWithoutSpace,
    NoKeyword,
    BlankLineBefore,
    NoNewline,
];

/// Puts a fault into the line `at`, of one of its numbers where it is one; the text and which number.
fn with_fault(r: &mut Random, lines: &[Line], at: usize, fault: Fault) -> (Vec<u8>, usize) {
    let mut lines = lines.to_vec();
    let k = 1 + r.below(MOST[lines[at].sort].len() as u64) as usize;
    let most = MOST[lines[at].sort][k - 1] as u128;
    let odd = r.pick(&[
        b'/' as u64,
        b':' as u64,
        b'x' as u64,
        b'.' as u64,
        0,
        0xff,
        0xb2,
    ]) as u8;
    let words = &mut lines[at].words;
    match fault {
        OnePast => words[k] = (most + 1).to_string().into_bytes(),
        FarPast => {
            let digits = r.between(21, 60);
            words[k] = (0..digits)
                .map(|_| r.between(b'1' as u64, b'9' as u64) as u8)
                .collect();
        }
        LeadingZero => words[k].insert(0, b'0'),
        Sign => words[k].insert(0, r.pick(&[b'+' as u64, b'-' as u64]) as u8),
        NoDigit => {
            let place = r.below(words[k].len() as u64) as usize;
            words[k][place] = odd;
        }
        NoNumber => words[k].clear(),
        NumberLess => drop(words.remove(k)),
        NumberMore => words.insert(k, b"0".to_vec()),
        SpaceAfter => words.push(Vec::new()),
        SpaceBefore => words.insert(0, Vec::new()),
        Tab => {
            let number = words.remove(k);
            words[k - 1].push(b'\t');
            words[k - 1].extend(number);
        }
        CarriageReturn => words.push_to_last(b'\r'),
        OtherByteAfter => words.push_to_last(odd),
        Keyword => {
            let place = r.below(words[0].len() as u64) as usize;
            let other = [words[0][place].to_ascii_uppercase(), b'_', b' ', 0, b'\n'];
            words[0][place] = other[r.below(5) as usize];
        }
        KeywordLonger => words[0].push(r.pick(&[b's' as u64, b'x' as u64, 0]) as u8),
        KeywordWithoutSpace => {
            let number = words.remove(1);
            words[0].extend(number);
        }
        NoKeyword => drop(words.remove(0)),
        BlankLineBefore => words[0].insert(0, b'\n'),
        NoNewline => lines.truncate(at + 1),
    }
    let mut text = text_of(&lines);
    if fault == NoNewline {
        text.pop();
    }
    (text, k - 1)
}

trait PushToLast {
    fn push_to_last(&mut self, byte: u8);
}

impl PushToLast for Vec<Vec<u8>> {
    fn push_to_last(&mut self, byte: u8) {
        self.last_mut().expect("a line has words").push(byte);
    }
}

/// Lines out of order: what is done, the text, and the wrong line.
fn out_of_order(r: &mut Random, lines: &[Line]) -> (usize, Vec<u8>, usize) {
    let mut lines = lines.to_vec();
    let threads = lines.iter().filter(|line| line.sort == THREAD).count();
    let (first, last) = (1 + threads, lines.len());
    let sort = r.below(7) as usize;
    let at = match sort {
        // a second start: after the first, after the threads, anywhere
        0..=2 => {
            let anywhere = r.between(1, last as u64) as usize;
            let at = [1, first, anywhere][sort];
            let again = if r.one_in(2) {
                lines[0].clone()
            } else {
                line(r, START)
            };
            lines.insert(at, again);
            at
        }
        // a thread after an event
        3 => {
            if first == last {
                lines.push(line(r, FIRST_EVENT));
            }
            let at = r.between(first as u64 + 1, lines.len() as u64) as usize;
            lines.insert(at, line(r, THREAD));
            at
        }
        // no start
        4 => {
            lines.remove(0);
            0
        }
        // the start after a thread, after an event
        _ => {
            let sort = if sort == 5 { THREAD } else { FIRST_EVENT };
            let before = line(r, sort);
            lines.insert(0, before);
            0
        }
    };
    (sort, text_of(&lines), at + 1)
}

/// Bytes changed anywhere, left out or put in, or the end cut off.
fn damage(r: &mut Random, text: &mut Vec<u8>) {
    let length = text.len() as u64;
    let any = r.bits();
    let byte = r.pick(&[
        b'0' as u64,
        b'9' as u64,
        b' ' as u64,
        b'\n' as u64,
        b'\r' as u64,
        any,
    ]) as u8;
    let at = r.below(length + 1) as usize;
    match r.below(6) {
        0 => text.insert(at, byte),
        1 => text.truncate(at),
        2 => text.extend((0..r.below(9)).map(|_| byte)),
        _ if at == text.len() => {}
        3 => drop(text.remove(at)),
        4 => text[at] = byte,
        _ => text[at] ^= 1 << r.below(8),
    }
}

// --------------------------------------------------------------- comparisons

fn same_from_text(case: &Case, text: &[u8], r: &mut Random) -> (board::Made, Vec<u8>) {
    let mut whole = vec![0; model::total_bytes(THREADS, MAX_EVENTS)];
    let total = model::from_text(text, &mut whole).total;
    let mut ours = buffer(r, total);
    let mut theirs = ours.clone();
    let a = board::Made::from(model::from_text(text, &mut ours));
    let b = board::from_text(text, &mut theirs);
    let input = || format!("{:?}", String::from_utf8_lossy(text));
    same_buffer(case, "text made a file", input, (a, &ours), (b, &theirs));
    whole.truncate(total);
    (a, whole)
}

fn same_to_text(case: &Case, file: &[u8], r: &mut Random) -> (board::Made, Vec<u8>) {
    let mut whole = vec![0; LONGEST];
    let total = model::to_text(file, &mut whole).total;
    let mut ours = buffer(r, total);
    let mut theirs = ours.clone();
    let a = board::Made::from(model::to_text(file, &mut ours));
    let b = board::to_text(file, &mut theirs);
    let input = || format!("{file:?}");
    same_buffer(case, "a file's text", input, (a, &ours), (b, &theirs));
    whole.truncate(total);
    (a, whole)
}

/// Longer than the longest text of a file.
const LONGEST: usize = 140_000;

/// Both answer 14 with this line.
fn named(case: &Case, text: &[u8], line: usize, r: &mut Random) {
    let (a, _) = same_from_text(case, text, r);
    if (a.status, a.line) != (status::TEXT, line) {
        let text = String::from_utf8_lossy(text);
        case.differ(
            "the line of a fault",
            format!("line {line}, both {a:?} of {text:?}"),
        );
    }
}

/// The stored cases; then texts made files, and back where they are accepted, and files written out.
pub fn texts(count: u64, seed: u64, covered: &mut Coverage) {
    let seen = &mut Seen::default();
    for case in cases("texts", seed).take(count.min(1) as usize) {
        let [texts, files] = &mut seen.stored;
        stored::made(&case, "text", ("text", "trace"), board::from_text, texts);
        stored::made(&case, "totext", ("bin", "text"), board::to_text, files);
    }
    for case in cases("texts", seed).take(count as usize) {
        let r = &mut case.random();
        let lines = draft(r);
        match r.below(8) {
            0..=2 => {
                let any = FAULTS[r.below(FAULTS.len() as u64) as usize];
                let fault = if r.one_in(4) { OnePast } else { any };
                let at = r.below(lines.len() as u64) as usize;
                let (text, k) = with_fault(r, &lines, at, fault);
                named(&case, &text, at + 1, r);
                seen.fault(&lines, at, fault, k);
            }
            3 => {
                let (sort, text, line) = out_of_order(r, &lines);
                named(&case, &text, line, r);
                seen.from.add(status::TEXT);
                seen.order[sort] += 1;
            }
            sort => {
                let mut text = text_of(&lines);
                for _ in 0..r.pick(&[0, 1, 1, 2]) * (sort == 4) as u64 {
                    damage(r, &mut text);
                }
                let (a, file) = same_from_text(&case, &text, r);
                seen.text(&lines, &text, &a);
                if !file.is_empty() {
                    let (b, again) = same_to_text(&case, &file, r);
                    seen.back(&b, again == text);
                }
            }
        }
        if r.one_in(4) {
            one_file(&case, r, seen);
        }
    }
    seen.from.print("texts made files");
    seen.to.print("files written as text");
    covered.others.push(seen.group());
}

/// A file whose events need not fit the text, now and then damaged; back where it is written out.
fn one_file(case: &Case, r: &mut Random, seen: &mut Seen) {
    let n = r.threads();
    let mut table = r.table(n);
    for p in &mut table {
        for _ in 0..r.below(2) {
            r.damage_parameters(p);
        }
    }
    let events = match r.below(300) {
        0 => MAX_EVENTS as u64,
        _ => r.below(8),
    };
    let mut events: Vec<Event> = (0..events).map(|_| event(r)).collect();
    let misfit = if events.is_empty() || r.one_in(2) {
        None
    } else {
        Some(misfit(r, &mut events))
    };
    let mut file = vec![0; model::total_bytes(n as usize, events.len())];
    model::write(r.odd(), n, &table, &events, &mut file).expect("the buffer has the file's length");
    let whole = !r.one_in(4);
    if !whole {
        damage_file(r, &mut file);
    }
    let (a, text) = same_to_text(case, &file, r);
    seen.to.add(a.status);
    if let Some((kind, field)) = misfit.filter(|_| whole && a.status == status::TEXT) {
        seen.misfits[kind][field] += 1;
    }
    if !text.is_empty() {
        let (b, again) = same_from_text(case, &text, r);
        seen.back(&b, again == file);
    }
}

/// An event that fits the text.
fn event(r: &mut Random) -> Event {
    let kind = r.below(5) as u8;
    let mut e = Event {
        time: r.odd(),
        kind,
        ..Event::default()
    };
    if kind >= model::WAKE {
        e.thread = r.odd() as u8;
    }
    if kind == model::SET {
        e.parameters = r.parameters();
        for _ in 0..r.below(2) {
            r.damage_parameters(&mut e.parameters);
        }
        e.parameters.flag = 0;
    }
    e
}

/// Makes one field of one event one that doesn't fit; the kind and the field.
fn misfit(r: &mut Random, events: &mut [Event]) -> (usize, usize) {
    let e = &mut events[r.below(events.len() as u64) as usize];
    let p = &mut e.parameters;
    let (x, any) = (r.pick(&[1, 2, 255]) as u8, r.odd().max(1));
    let field = match e.kind {
        model::SET => 4,
        model::WAKE => r.below(7),
        _ => r.below(8),
    };
    match field {
        0 => p.policy = x,
        1 => p.priority = x,
        2 => p.low = x,
        3 => p.max_repl = x,
        4 => p.flag = r.pick(&[1, 2, 1 << 31]) as u32,
        5 => p.budget = any,
        6 => p.period = any,
        _ => e.thread = x,
    }
    if r.one_in(6) {
        let kind = e.kind;
        *e = Event {
            time: e.time,
            kind: r.pick(&[5, 6, 255]) as u8,
            thread: 0,
            parameters: Parameters::default(),
        };
        return (kind as usize, 8);
    }
    (e.kind as usize, field as usize)
}

// ------------------------------------------------------------------ coverage

/// What the texts covered.
#[derive(Default)]
struct Seen {
    from: Tally,
    to: Tally,
    /// A fault alone, by the keyword of its line.
    faults: [[u64; 7]; FAULTS.len()],
    /// A fault in a text with too many threads, with too many events.
    first: [u64; 2],
    order: [u64; 7],
    /// An accepted number: 0, the largest; one past it, refused.
    fields: [[u64; FIELDS]; 3],
    counts: [u64; 9],
    /// By kind: a field that doesn't fit, the last for another kind in its place.
    misfits: [[u64; 9]; 5],
    /// There and back with the same bytes; back but for a buffer too short.
    same: [u64; 2],
    /// Stored texts and files, made and refused.
    stored: [[u64; 2]; 2],
}

/// The place of a field among all.
fn field(sort: usize, k: usize) -> usize {
    MOST[..sort].iter().map(|most| most.len()).sum::<usize>() + k
}

impl Seen {
    fn fault(&mut self, lines: &[Line], at: usize, fault: Fault, k: usize) {
        self.from.add(status::TEXT);
        let sort = lines[at].sort;
        self.faults[fault as usize][sort] += 1;
        let threads = lines.iter().filter(|line| line.sort == THREAD).count();
        let events = lines.len() - 1 - threads;
        if fault != NoNewline {
            self.first[0] += (threads > THREADS) as u64;
            self.first[1] += (events > MAX_EVENTS) as u64;
        }
        if fault == OnePast {
            self.fields[2][field(sort, k)] += 1;
        }
    }

    /// A text, undamaged where it is what the lines say.
    fn text(&mut self, lines: &[Line], text: &[u8], a: &board::Made) {
        self.from.add(a.status);
        if text != text_of(lines) {
            return;
        }
        let threads = lines.iter().filter(|line| line.sort == THREAD).count();
        let events = lines.len() - 1 - threads;
        let here = [
            (threads == 0, status::THREAD),
            (threads == THREADS + 1, status::THREAD),
            (threads == 0 && events > MAX_EVENTS, status::THREAD),
            (events == MAX_EVENTS + 1, status::HEADER),
            (threads == 1, status::ACCEPTED),
            (threads == THREADS, status::ACCEPTED),
            (events == 0, status::ACCEPTED),
            (events == MAX_EVENTS, status::ACCEPTED),
            (events == MAX_EVENTS, status::BUFFER),
        ];
        for (k, (here, status)) in here.into_iter().enumerate() {
            self.counts[k] += (here && a.status == status) as u64;
        }
        if a.status == status::ACCEPTED {
            lines.iter().for_each(|line| self.numbers(line));
        }
    }

    fn numbers(&mut self, line: &Line) {
        for (k, most) in MOST[line.sort].iter().enumerate() {
            let word = &line.words[k + 1];
            let at = field(line.sort, k);
            self.fields[0][at] += (word == b"0") as u64;
            self.fields[1][at] += (*word == most.to_string().into_bytes()) as u64;
        }
    }

    fn back(&mut self, a: &board::Made, same: bool) {
        assert!(same, "there and back gives other bytes in the model");
        self.same[(a.status == status::BUFFER) as usize] += 1;
    }

    fn group(&self) -> Group {
        let misfits = self.misfits.iter().enumerate().flat_map(|(kind, of)| {
            let fields: &[usize] = match kind as u8 {
                model::SET => &[4, 8],
                model::WAKE => &[0, 1, 2, 3, 4, 5, 6, 8],
                _ => &[0, 1, 2, 3, 4, 5, 6, 7, 8],
            };
            fields.iter().map(|&k| &of[k])
        });
        Group {
            sorts: &["texts"],
            rows: vec![
                answers(
                    "texts made files and files written as text, by status",
                    &[
                        (&self.from, &[0, 5, 11, 12, 14]),
                        (&self.to, &[0, 10, 11, 12, 13, 14]),
                    ],
                ),
                row(
                    "faults that name their line, by fault and keyword",
                    self.faults.as_flattened(),
                ),
                row(
                    "the same with too many threads, with too many events",
                    &self.first,
                ),
                row("lines out of order", &self.order),
                row(
                    "each field at 0, at its largest number, one past it",
                    self.fields.as_flattened(),
                ),
                row(
                    "thread and event counts at a bound, or one past it",
                    &self.counts,
                ),
                row("events that don't fit the text, by kind and field", misfits),
                row(
                    "there and back, and back into a buffer too short",
                    &self.same,
                ),
                row(
                    "stored texts and files, made and refused",
                    self.stored.as_flattened(),
                ),
            ],
        }
    }
}
