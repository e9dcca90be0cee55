//! The stored cases (tests/vectors), made from 01 and 02 apart from the code and the model, through
//! the code.

use crate::case::{same_buffer, Case};
use differential as board;
use std::fs;
use std::path::{Path, PathBuf};

/// Longer than any stored result, and what the buffers hold before.
const ROOM: usize = 200_000;
const FILL: u8 = 0xa5;

/// The stored inputs of a folder.
pub fn inputs(folder: &str, extension: &str) -> Vec<PathBuf> {
    let vectors = Path::new(concat!(env!("CARGO_MANIFEST_DIR"), "/../vectors"));
    let entries = fs::read_dir(vectors.join(folder)).expect("the folder of stored cases");
    let mut found: Vec<PathBuf> = entries
        .map(|entry| entry.expect("an entry").path())
        .collect();
    found.retain(|path| path.extension().is_some_and(|x| x == extension));
    found.sort();
    found
}

pub fn bytes(path: &Path) -> Vec<u8> {
    fs::read(path).unwrap_or_else(|e| panic!("{}: {e}", path.display()))
}

/// A refusal, as the line `refused 14 line 3` says it.
fn refusal(line: &[u8]) -> board::Made {
    let line = std::str::from_utf8(line).expect("a refusal is text");
    let words: Vec<&str> = line.split_whitespace().collect();
    let ["refused", status, "line", line] = words[..] else {
        panic!("{line} is no refusal")
    };
    board::Made {
        status: status.parse().expect("a status"),
        line: line.parse().expect("a line number"),
        total: 0,
    }
}

/// Texts made files and files written as text: the stored bytes and nothing after them, or the
/// stored refusal and an unchanged buffer. Counts those made and those refused.
pub fn made(
    case: &Case,
    folder: &str,
    (from, to): (&str, &str),
    make: fn(&[u8], &mut [u8]) -> board::Made,
    counts: &mut [u64],
) {
    for path in inputs(folder, from) {
        let mut expected = vec![FILL; ROOM];
        let stored = path.with_extension(to);
        let answer = if stored.exists() {
            let result = bytes(&stored);
            expected[..result.len()].copy_from_slice(&result);
            counts[0] += 1;
            board::Made {
                status: 0,
                line: 0,
                total: result.len(),
            }
        } else {
            counts[1] += 1;
            refusal(&bytes(&path.with_extension("refused")))
        };
        let mut out = vec![FILL; ROOM];
        let b = make(&bytes(&path), &mut out);
        let input = || path.display().to_string();
        same_buffer(case, "a stored case", input, (answer, &expected), (b, &out));
    }
}
