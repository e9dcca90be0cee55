//! Traces as text (02 E1): the stored cases, and the borders of the form.

use model::{from_text, read, to_text, Made};
use std::fs;
use std::path::{Path, PathBuf};

const FILL: u8 = 0xa5;

/// The stored inputs of a folder, by name.
fn stored(folder: &str, extension: &str) -> Vec<PathBuf> {
    let vectors = Path::new(concat!(env!("CARGO_MANIFEST_DIR"), "/../vectors"));
    let entries = fs::read_dir(vectors.join(folder)).expect("the folder of vectors");
    let paths = entries.map(|entry| entry.expect("an entry").path());
    let mut found: Vec<PathBuf> = paths
        .filter(|path| path.extension().is_some_and(|x| x == extension))
        .collect();
    found.sort();
    found
}

/// A refusal, as the line `refused 14 line 3` says it.
fn refusal(line: &str) -> Made {
    let words: Vec<&str> = line.split_whitespace().collect();
    let ["refused", status, "line", line] = words[..] else {
        panic!("{line} is no refusal")
    };
    Made {
        status: status.parse().expect("a status"),
        line: line.parse().expect("a line number"),
        total: 0,
    }
}

/// Each case gives the stored bytes and nothing after them, or the stored refusal and
/// an unchanged buffer; how many of each.
fn every_case(
    folder: &str,
    (from, to): (&str, &str),
    make: fn(&[u8], &mut [u8]) -> Made,
) -> (usize, usize) {
    let (mut made, mut refused) = (0, 0);
    for path in stored(folder, from) {
        let name = path.display();
        let input = fs::read(&path).expect("an input");
        let mut out = vec![FILL; 200_000];
        let answer = make(&input, &mut out);
        if let Ok(expected) = fs::read(path.with_extension(to)) {
            let total = expected.len();
            let done = Made {
                status: 0,
                line: 0,
                total,
            };
            assert_eq!(answer, done, "{name}");
            assert!(out[..total] == expected, "{name}");
            assert!(out[total..].iter().all(|&b| b == FILL), "{name}");
            // One byte less is too short, just enough is enough.
            let mut short = vec![FILL; total - 1];
            assert_eq!(make(&input, &mut short).status, 12, "{name}");
            assert!(short.iter().all(|&b| b == FILL), "{name}");
            let mut exact = vec![FILL; total];
            assert_eq!(make(&input, &mut exact), done, "{name}");
            made += 1;
        } else {
            let line = fs::read_to_string(path.with_extension("refused")).expect("a refusal");
            assert_eq!(answer, refusal(&line), "{name}");
            assert!(out.iter().all(|&b| b == FILL), "{name}");
            refused += 1;
        }
    }
    println!("{folder}: {made} made, {refused} refused");
    (made, refused)
}

#[test]
fn every_stored_text() {
    assert_eq!(every_case("text", ("text", "trace"), from_text), (33, 87));
}

#[test]
fn every_stored_file() {
    assert_eq!(every_case("totext", ("bin", "text"), to_text), (24, 33));
}

/// There and back: text to file to text, and file to text to file.
#[test]
fn there_and_back() {
    let mut texts = 0;
    let made = stored("text", "trace");
    for path in made.iter().chain(&stored("totext", "text")) {
        let text = fs::read(path.with_extension("text")).expect("a text");
        let mut file = vec![FILL; 70_000];
        let answer = from_text(&text, &mut file);
        assert_eq!(answer.status, 0, "{}", path.display());
        let file = &file[..answer.total];
        assert!(read(file).is_ok(), "{}", path.display());
        let mut again = vec![FILL; 200_000];
        let answer = to_text(file, &mut again);
        assert_eq!(again[..answer.total], text[..], "{}", path.display());
        texts += 1;
    }
    assert_eq!(texts, 57);
}

const HEAD: &str = "start 5\nthread 2 20 5 2 1 10 40\n";

fn status_and_line(text: &str) -> (u8, usize) {
    let mut out = vec![FILL; 70_000];
    let answer = from_text(text.as_bytes(), &mut out);
    assert_eq!(
        answer.status == 0,
        out.iter().any(|&b| b != FILL),
        "{text:?}"
    );
    (answer.status, answer.line)
}

/// 02 E1 6, by hand: each line of no such form is named, and the counts come after.
#[test]
fn lines_that_are_refused() {
    for line in [
        "",
        " ",
        "clock",
        "clock ",
        "clock  4",
        " clock 4",
        "clock 4 ",
        "clock 4 0",
        "clock\t4",
        "clock 4\r",
        "clock +4",
        "clock -4",
        "clock 04",
        "clock 00",
        "clock 4.0",
        "clock 0x4",
        "Clock 4",
        "clocks 4",
        "clock4",
        "cloc 4",
        "tick 4",
        "4",
        "clock 18446744073709551616",
        "clock 99999999999999999999999999999999999999999",
        "block",
        "block 4 0",
        "yield",
        "yield 4 0",
        "wake 4",
        "wake 4 256",
        "wake 4 0 0",
        "wake 4 00",
        "set 4",
        "set 4 0 0 1 0 0 0",
        "set 4 0 0 1 0 0 1 0 0",
        "set 4 256 0 1 0 0 0 0",
        "set 4 0 256 1 0 0 0 0",
        "set 4 0 0 256 0 0 0 0",
        "set 4 0 0 1 256 0 0 0",
        "set 4 0 0 1 0 256 0 0",
        "set 4 0 0 1 0 0 18446744073709551616 0",
        "set 4 0 0 1 0 0 0 18446744073709551616",
        "start 5",
        "thread 0 1 0 0 1 0 0\nstart 5",
    ] {
        let number = 3 + line.matches('\n').count();
        assert_eq!(
            status_and_line(&format!("{HEAD}{line}\n")),
            (14, number),
            "{line:?}"
        );
        // The first wrong line, whatever follows it.
        assert_eq!(
            status_and_line(&format!("{HEAD}{line}\n\n")),
            (14, number),
            "{line:?}"
        );
    }
    for line in [
        "thread 0 1 0 0 1 0",
        "thread 0 1 0 0 1 0 0 0",
        "thread 256 1 0 0 1 0 0",
        "thread 0 256 0 0 1 0 0",
        "thread 0 1 256 0 1 0 0",
        "thread 0 1 0 256 1 0 0",
        "thread 0 1 0 0 4294967296 0 0",
        "thread 0 1 0 0 1 18446744073709551616 0",
        "thread 0 1 0 0 1 0 18446744073709551616",
    ] {
        assert_eq!(
            status_and_line(&format!("{HEAD}{line}\n")),
            (14, 3),
            "{line:?}"
        );
    }
    assert_eq!(status_and_line(""), (14, 1));
    assert_eq!(status_and_line("start 5"), (14, 1));
    assert_eq!(status_and_line("thread 0 1 0 0 1 0 0\n"), (14, 1));
    assert_eq!(status_and_line("clock 0\n"), (14, 1));
    assert_eq!(status_and_line(&format!("{HEAD}clock 4")), (14, 3));
    assert_eq!(
        status_and_line(&format!("{HEAD}clock 4\nthread 0 1 0 0 1 0 0\n")),
        (14, 4)
    );
}

#[test]
fn lines_that_are_taken() {
    for line in [
        "clock 0",
        "clock 18446744073709551615",
        "block 10",
        "yield 7",
        "wake 4 0",
        "wake 4 255",
        "set 0 255 255 255 255 255 18446744073709551615 18446744073709551615",
        "thread 255 255 255 255 4294967295 18446744073709551615 18446744073709551615",
    ] {
        assert_eq!(
            status_and_line(&format!("{HEAD}{line}\n")),
            (0, 0),
            "{line:?}"
        );
    }
    assert_eq!(status_and_line(HEAD), (0, 0));
}

/// 5 for the thread count, then 11 for the event count; 14 over the whole text first.
#[test]
fn counts_come_after_the_lines() {
    let thread = "thread 0 1 0 0 1 0 0\n";
    let threads = |n| "start 0\n".to_owned() + &thread.repeat(n);
    let events = |n| "clock 0\n".repeat(n);
    assert_eq!(status_and_line(&threads(0)), (5, 0));
    assert_eq!(status_and_line(&threads(32)), (0, 0));
    assert_eq!(status_and_line(&threads(33)), (5, 0));
    assert_eq!(status_and_line(&(threads(0) + &events(1_501))), (5, 0));
    assert_eq!(status_and_line(&(threads(32) + &events(1_500))), (0, 0));
    assert_eq!(status_and_line(&(threads(32) + &events(1_501))), (11, 0));
    assert_eq!(
        status_and_line(&(threads(33) + &events(1_501) + "x\n")),
        (14, 1_536)
    );
    assert_eq!(from_text(threads(33).as_bytes(), &mut []).status, 5);
    assert_eq!(
        from_text((threads(1) + &events(1_501)).as_bytes(), &mut []).status,
        11
    );
    assert_eq!(from_text(threads(1).as_bytes(), &mut [0; 55]).status, 12);
    assert_eq!(from_text(threads(1).as_bytes(), &mut [0; 56]).status, 0);
}
