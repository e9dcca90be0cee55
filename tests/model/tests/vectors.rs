//! Every stored trace gives its listing, byte for byte. Traces and listings are those of the crate `replay_vectors`: a file
//! `data/NN` for each, and in `stdout` its name, the status of reading and writing it again, what that left, and its listing.

use model::{listing, read, write};
use std::fs;
use std::path::PathBuf;

fn stored(name: &str) -> Vec<u8> {
    let folder = concat!(env!("CARGO_MANIFEST_DIR"), "/../../crates/replay_vectors");
    let path: PathBuf = [folder, name].iter().collect();
    fs::read(&path).unwrap_or_else(|e| panic!("{}: {e}", path.display()))
}

struct Vector {
    name: String,
    status: u8,
    trace: Vec<u8>,
    listing: String,
}

/// A line with a name and a status, then `same` or `unchanged`, start a vector; the lines up to the next one are its listing.
fn vectors() -> Vec<Vector> {
    let text = String::from_utf8(stored("stdout")).expect("text");
    let lines: Vec<&str> = text.split_inclusive('\n').collect();
    let starts = |i: usize| matches!(lines.get(i + 1), Some(&"same\n" | &"unchanged\n"));
    let mut found: Vec<Vector> = Vec::new();
    let mut i = 0;
    while i < lines.len() {
        if starts(i) {
            let (name, status) = lines[i]
                .trim_end()
                .split_once(' ')
                .expect("a name and a status");
            found.push(Vector {
                name: name.to_string(),
                status: status.parse().expect("a status"),
                trace: stored(&format!("data/{name}")),
                listing: String::new(),
            });
            i += 2;
        } else {
            found
                .last_mut()
                .expect("a first name")
                .listing
                .push_str(lines[i]);
            i += 1;
        }
    }
    found
}

#[test]
fn every_vector_matches() {
    let all = vectors();
    let mut wrong = Vec::new();
    for v in &all {
        let ours = String::from_utf8(listing(&v.trace)).expect("text");
        if ours != v.listing {
            let first = ours.lines().zip(v.listing.lines()).find(|(x, y)| x != y);
            println!("{}: first difference (model, vector): {first:?}", v.name);
            wrong.push(&v.name);
        }
    }
    println!("{} of {} vectors match", all.len() - wrong.len(), all.len());
    assert!(wrong.is_empty(), "vectors that differ: {wrong:?}");
    assert_eq!(all.len(), 92);
}

#[test]
fn reading_then_writing_gives_the_file_again() {
    let mut written = 0;
    for Vector {
        name,
        status,
        trace: file,
        ..
    } in vectors()
    {
        let trace = match read(&file) {
            Ok(trace) => trace,
            Err(refusal) => {
                assert_eq!(refusal, status, "{name}");
                continue;
            }
        };
        assert_eq!(status, 0, "{name}");
        let events: Vec<_> = trace.collect();
        let mut out = vec![0xa5; file.len() + 3];
        let total = write(trace.start, trace.n, &trace.table(), &events, &mut out);
        assert_eq!(total, Ok(file.len()), "{name}");
        assert_eq!(out[..file.len()], file[..], "{name}");
        assert_eq!(out[file.len()..], [0xa5; 3], "{name}");
        written += 1;
    }
    println!("{written} files written again");
    assert!(written > 0);
}
