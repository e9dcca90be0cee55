//! Reading and writing: the borders and the order of refusals.

use model::*;

fn table() -> [Parameters; THREADS] {
    let p = Parameters {
        policy: FIFO,
        priority: 3,
        flag: 1,
        ..Parameters::default()
    };
    [p; THREADS]
}

fn clock(time: u64) -> Event {
    Event {
        time,
        ..Event::default()
    }
}

fn file() -> Vec<u8> {
    let mut out = vec![0; total_bytes(2, 3)];
    let events = [clock(1), clock(2), clock(3)];
    assert_eq!(write(9, 2, &table(), &events, &mut out), Ok(200));
    out
}

fn put(file: &mut [u8], at: usize, x: u32) {
    file[at..at + 4].copy_from_slice(&x.to_le_bytes());
}

#[test]
fn what_is_read_is_what_was_written() {
    let file = file();
    let trace = read(&file).unwrap();
    assert_eq!(
        (trace.n, trace.events, trace.start, trace.place),
        (2, 3, 9, 0)
    );
    assert_eq!(trace.table()[..2], table()[..2]);
    assert_eq!(trace.table()[2], Parameters::default());
    assert_eq!(trace.collect::<Vec<_>>(), [clock(1), clock(2), clock(3)]);
    assert_eq!(trace.event(3), None);
    assert_eq!(trace.event(u32::MAX), None);
}

#[test]
fn refusals_of_reading() {
    let good = file();
    for length in 0..32 {
        assert_eq!(read(&good[..length]), Err(10));
    }
    for length in 32..200 {
        assert_eq!(read(&good[..length]), Err(10));
    }
    let mut long = good.clone();
    long.push(0);
    assert_eq!(read(&long), Err(11));
    // Any header word but the start time.
    for at in (0..24).step_by(4) {
        for x in [0, 2, 3, 33, 1_501, u32::MAX] {
            let mut file = good.clone();
            put(&mut file, at, x);
            if file != good {
                assert_eq!(read(&file), Err(11), "{x} at {at}");
                assert_eq!(read(&file[..32]), Err(11), "{x} at {at}");
            }
        }
    }
    // Filler comes last; the other bytes of a record aren't judged.
    for at in 80..200 {
        let mut file = good.clone();
        file[at] ^= 1;
        let filler = (10..16).contains(&((at - 80) % 40));
        assert_eq!(read(&file).err(), filler.then_some(13), "{at}");
        if filler {
            assert_eq!(read(&file[..199]), Err(10));
            file.push(0);
            assert_eq!(read(&file), Err(11));
        }
    }
}

#[test]
fn numbers_of_threads_and_events() {
    for (n, e, result) in [
        (0, 0, Err(11)),
        (1, 0, Ok(())),
        (32, 1_500, Ok(())),
        (33, 0, Err(11)),
        (1, 1_501, Err(11)),
    ] {
        let total = 32 + 24 * n + 40 * e;
        let mut file = vec![0; total as usize];
        for (k, x) in [1, n, e, 32, 32 + 24 * n, total].into_iter().enumerate() {
            put(&mut file, 4 * k, x);
        }
        assert_eq!(read(&file).map(|_| ()), result, "{n} {e}");
    }
}

#[test]
fn refusals_of_writing() {
    let many = vec![clock(0); 1_501];
    let mut out = vec![0xa5; 62_000];
    for n in [0, 33, u32::MAX] {
        assert_eq!(write(0, n, &table(), &many, &mut out), Err(5));
        assert_eq!(write(0, n, &table(), &many, &mut []), Err(5));
    }
    assert_eq!(write(0, 1, &table(), &many, &mut []), Err(11));
    assert_eq!(write(0, 1, &table(), &many, &mut out), Err(11));
    assert_eq!(write(0, 1, &table(), &many[..1], &mut out[..95]), Err(12));
    assert_eq!(write(0, 1, &table(), &many[..1], &mut []), Err(12));
    assert!(out.iter().all(|&b| b == 0xa5));
    assert_eq!(write(0, 32, &table(), &many[..1_500], &mut out), Ok(60_800));
    assert!(out[60_800..].iter().all(|&b| b == 0xa5));
    assert!(read(&out[..60_800]).is_ok());
}

#[test]
fn the_listing_of_a_refused_opening() {
    let mut out = [0; 56];
    write(MAX_TIME + 1, 1, &table(), &[], &mut out).unwrap();
    assert_eq!(listing(&out), b"refused 3\n");
    let mut bad = table();
    bad[0].priority = 0;
    write(0, 1, &bad, &[], &mut out).unwrap();
    assert_eq!(listing(&out), b"refused 6\n");
    assert_eq!(listing(b""), b"refused 10\n");
}
