//! The check of another kernel's listing (02 E11): the stored cases, and the worked replay changed
//! by hand.

use model::{listing, verdict, Verdict};
use std::fs;
use std::path::Path;

fn stored() -> &'static Path {
    Path::new(concat!(env!("CARGO_MANIFEST_DIR"), "/../vectors/check"))
}

#[test]
fn every_stored_listing() {
    let mut by_sort = [0; 3];
    for entry in fs::read_dir(stored()).expect("the folder of vectors") {
        let path = entry.expect("an entry").path();
        if path.extension().is_none_or(|x| x != "bin") {
            continue;
        }
        let file = fs::read(&path).expect("a trace");
        let theirs = fs::read(path.with_extension("listing")).expect("a listing");
        let said = fs::read_to_string(path.with_extension("verdict")).expect("a verdict");
        let answer = verdict(&file, &theirs);
        let (sort, line) = match answer {
            Verdict::Yes => (0, "yes\n".to_owned()),
            Verdict::Line(n) => (1, format!("line {n}\n")),
            Verdict::Refused(n) => (2, format!("refused {n}\n")),
        };
        assert_eq!(line, said, "{}", path.display());
        by_sort[sort] += 1;
    }
    assert_eq!(by_sort, [5, 35, 19]);
}

fn worked() -> Vec<u8> {
    let path = concat!(env!("CARGO_MANIFEST_DIR"), "/../../examples/worked.trace");
    fs::read(path).expect("the worked replay")
}

fn of(theirs: &[u8]) -> Verdict {
    verdict(&worked(), theirs)
}

#[test]
fn lines_of_the_worked_replay() {
    let ours = listing(&worked());
    let lines = ours.iter().filter(|&&b| b == b'\n').count();
    assert_eq!(lines, 11);
    assert_eq!(of(&ours), Verdict::Yes);
    assert_eq!(of(b""), Verdict::Line(1));
    assert_eq!(of(b"\n"), Verdict::Line(1));
    // A lost last newline is a difference in the last line; one too many is a surplus line.
    assert_eq!(of(&ours[..ours.len() - 1]), Verdict::Line(11));
    assert_eq!(of(&[&ours[..], b"\n"].concat()), Verdict::Line(12));
    assert_eq!(of(&[&ours[..], b"x"].concat()), Verdict::Line(12));
    // Every byte, changed or cut before, names its line.
    for at in 0..ours.len() {
        let line = 1 + ours[..at].iter().filter(|&&b| b == b'\n').count();
        assert_eq!(of(&ours[..at]), Verdict::Line(line), "cut at {at}");
        let mut changed = ours.clone();
        changed[at] ^= 1;
        assert_eq!(of(&changed), Verdict::Line(line), "changed at {at}");
    }
}

/// A refused trace answers its refusal, even where the customer's listing is that very line.
#[test]
fn refusals_come_first() {
    let short = &worked()[..31];
    assert_eq!(listing(short), b"refused 10\n");
    assert_eq!(verdict(short, b"refused 10\n"), Verdict::Refused(10));
    assert_eq!(verdict(short, b""), Verdict::Refused(10));
    let mut late = worked();
    late[24..32].fill(0xff);
    assert_eq!(verdict(&late, b"refused 3\n"), Verdict::Refused(3));
}
