//! Random self-checks. MODEL_SEED sets the seed, MODEL_RUNS the amount.

use model::random::Random;
use model::*;

fn number(name: &str, otherwise: u64) -> u64 {
    std::env::var(name)
        .ok()
        .and_then(|x| x.parse().ok())
        .unwrap_or(otherwise)
}

fn seed(salt: u64) -> u64 {
    let seed = number("MODEL_SEED", 1);
    println!("seed {seed}");
    seed.wrapping_mul(0x1000).wrapping_add(salt)
}

fn runs(otherwise: u64) -> u64 {
    number("MODEL_RUNS", otherwise)
}

/// From opening, or made up and perhaps never reached.
fn first_state(r: &mut Random) -> State {
    if r.one_in(2) {
        return r.sound_state();
    }
    let (start, n) = (r.start(), r.threads());
    let table = r.table(n);
    let (answer, s) = open(start, n, &table);
    assert_eq!(answer.status, 0);
    s
}

fn run_times(s: &State) -> u64 {
    s.threads.iter().map(|t| t.total).sum::<u64>() + s.idle
}

/// Demand 3, and with it: soundness after each event, run times + idle = now -
/// start, a refused event changes nothing and tells zeros, and the numbers of the
/// extra readings and of their event add up to what it had alone (02 E3 4).
#[test]
fn extra_clock_readings_change_no_answer() {
    let mut r = Random::new(seed(1));
    let (mut events, mut accepted, mut extra, mut split) = (0u64, 0u64, 0u64, 0u64);
    let mut by_status = [0u64; 16];
    for run in 0..runs(3_000) {
        let mut first = first_state(&mut r);
        let mut second = first;
        let aim = r.aim();
        assert!(sound(&first), "run {run}: first state {first:?}");
        for _ in 0..r.between(1, 60) {
            let e = r.aimed_event(&first, aim, 8);
            let before = first;
            let (a, alone) = event_told(&mut first, &e);
            let mut sums = NOTHING_TOLD;
            let mut add = |told: Told| {
                for (sum, numbers) in sums.iter_mut().zip(told) {
                    *sum += numbers;
                }
            };
            events += 1;
            by_status[a.status as usize] += 1;
            assert!(sound(&first), "run {run}: {e:?} leaves {first:?}");
            assert_eq!(run_times(&first), first.now - first.start);
            assert_eq!((a.running, a.next), (running(&first), next_moment(&first)));
            if a.status == 0 {
                accepted += 1;
                assert_eq!(first.now, e.time);
                let mut time = second.now;
                let every_tick = e.time - time < 30 && r.one_in(2);
                let readings = if every_tick {
                    e.time - time + 1
                } else {
                    r.below(4)
                };
                for _ in 0..readings {
                    let clock = Event {
                        time,
                        ..Event::default()
                    };
                    let (reading, told) = event_told(&mut second, &clock);
                    assert_eq!(reading.status, 0);
                    add(told);
                    extra += 1;
                    time = if every_tick {
                        time + 1
                    } else {
                        r.between(time, e.time)
                    };
                }
            } else {
                assert_eq!(first, before, "run {run}: refused {e:?}");
                assert_eq!(alone, NOTHING_TOLD, "run {run}: refused {e:?}");
            }
            let (again, told) = event_told(&mut second, &e);
            assert_eq!(again, a, "run {run}: {e:?} from {before:?}");
            add(told);
            assert_eq!(sums, alone, "run {run}: {e:?} from {before:?}");
            split += (told != alone) as u64;
            assert_eq!(second, first, "run {run}: {e:?} from {before:?}");
        }
    }
    println!("{events} events, {accepted} accepted, {extra} extra clock readings");
    println!("{split} events whose numbers the readings took a part of");
    assert!(split > 0);
    println!("by status {by_status:?}");
    assert!(by_status[15] > 0);
}

/// Soundness decides on damaged states and on pure garbage without a panic; a
/// state that it refuses is left alone with 9, one that it takes stays sound.
#[test]
fn damaged_states() {
    let mut r = Random::new(seed(2));
    let (mut taken, mut refused) = (0u64, 0u64);
    for run in 0..runs(60_000) {
        let mut s = r.sound_state();
        assert!(sound(&s), "run {run}: {s:?}");
        for _ in 0..r.between(1, 3) {
            r.damage_state(&mut s);
        }
        let is_sound = sound(&s);
        let e = r.event(&s, 5);
        let before = s;
        let a = event(&mut s, &e);
        if is_sound {
            taken += 1;
            assert_ne!(a.status, 9);
            assert!(sound(&s), "run {run}: {e:?} from {before:?}");
        } else {
            refused += 1;
            assert_eq!(
                a,
                Answer {
                    status: 9,
                    running: 255,
                    next: 0
                }
            );
            assert_eq!(s, before);
        }
    }
    println!("{taken} damaged states still sound, {refused} refused with 9");
}

#[test]
fn garbage_states() {
    let mut r = Random::new(seed(3));
    for _ in 0..runs(3_000) {
        let mut s = State {
            n: r.odd() as u32,
            start: r.odd(),
            now: r.odd(),
            idle: r.odd(),
            word: r.odd() as u32,
            ..State::default()
        };
        for t in &mut s.threads {
            if r.one_in(2) {
                t.parameters = r.parameters();
            } else {
                r.damage_parameters(&mut t.parameters);
            }
            t.blocked = r.odd() as u8;
            t.pending = r.odd() as u8;
            for x in [
                &mut t.total,
                &mut t.quantum,
                &mut t.capacity,
                &mut t.used,
                &mut t.activation,
            ] {
                *x = r.odd();
            }
            for x in t.dues.iter_mut().chain(&mut t.amounts) {
                *x = r.odd();
            }
        }
        for l in &mut s.lists {
            l.length = r.odd() as u8;
            for m in &mut l.members {
                *m = r.odd() as u8;
            }
        }
        let before = s;
        assert!(!sound(&s));
        assert_eq!(event(&mut s, &Event::default()).status, 9);
        assert_eq!(s, before);
    }
}

/// Files with damaged bytes or lengths are listed or refused, never a panic;
/// what reading takes, writing gives back.
#[test]
fn damaged_files() {
    let mut r = Random::new(seed(4));
    let mut by_status = [0u64; 16];
    for _ in 0..runs(3_000) {
        let n = r.threads();
        let table = r.table(n);
        let start = r.start();
        let (_, mut s) = open(start, n, &table);
        let events: Vec<Event> = (0..r.below(30))
            .map(|_| {
                let e = r.event(&s, 10);
                event(&mut s, &e);
                e
            })
            .collect();
        let total = total_bytes(n as usize, events.len());
        let mut file = vec![0xa5; total];
        assert_eq!(write(start, n, &table, &events, &mut file), Ok(total));
        for _ in 0..r.below(3) {
            let most = if r.one_in(2) { 32 } else { total as u64 };
            let at = r.below(most) as usize;
            file[at] = r.odd() as u8;
        }
        match r.below(8) {
            0 => file.truncate(r.below(total as u64 + 1) as usize),
            1 => file.push(0),
            _ => {}
        }
        let text = listing(&file);
        match read(&file) {
            Err(status) => {
                by_status[status as usize] += 1;
                assert_eq!(text, format!("refused {status}\n").as_bytes());
            }
            Ok(trace) => {
                by_status[0] += 1;
                let events: Vec<Event> = trace.collect();
                let mut again = vec![0; file.len()];
                let written = write(trace.start, trace.n, &trace.table(), &events, &mut again);
                assert_eq!(written, Ok(file.len()));
                assert_eq!(again, file);
            }
        }
    }
    println!("read by status {by_status:?}");
}
