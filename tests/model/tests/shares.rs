//! Shares for the plot (02 E13): cases written out by hand, the quotient beside whole-number
//! arithmetic, and the digits beside Rust's own.

use model::random::Random;
use model::{decimal, open, share, share_listing, significant, summary, total_bytes, write};
use model::{Event, Parameters, State, Summary, MAX_TIME, SIGNIFICANT, THREADS};

/// A sound state of blocked FIFO threads with these totals, opened at `start`.
fn state(start: u64, totals: &[u64], idle: u64) -> State {
    let mut table = [Parameters::default(); THREADS];
    for p in &mut table[..totals.len()] {
        p.priority = 4;
    }
    let (a, mut s) = open(start, totals.len() as u32, &table);
    assert_eq!(a.status, 0);
    for (t, total) in s.threads.iter_mut().zip(totals) {
        t.total = *total;
    }
    s.idle = idle;
    s.now = start + totals.iter().sum::<u64>() + idle;
    assert!(model::sound(&s));
    s
}

#[test]
fn of_the_time_since_the_start() {
    // 10 ticks, and a start time that would make another quotient
    let s = state(90, &[1, 5, 0], 4);
    assert_eq!(share(&s, 0), Ok(Some(0.1)));
    assert_eq!(share(&s, 1), Ok(Some(0.5)));
    assert_eq!(share(&s, 2), Ok(Some(0.0)));
    let alone = state(MAX_TIME - 3, &[3], 0);
    assert_eq!(share(&alone, 0), Ok(Some(1.0)));
}

#[test]
fn no_time_holds_no_number() {
    let s = state(90, &[0, 0], 0);
    assert_eq!(share(&s, 0), Ok(None));
    assert_eq!(share(&s, 1), Ok(None));
    assert_eq!(summary(&s), Ok(None));
    // 5 comes before the look at the time
    assert_eq!(share(&s, 2), Err(5));
}

#[test]
fn first_9_then_5() {
    for n in [1, 2, 31, 32] {
        let totals = vec![7; n];
        let mut s = state(0, &totals, 0);
        assert_eq!(share(&s, n as u8 - 1), Ok(Some(1.0 / n as f64)));
        for thread in n..256 {
            assert_eq!(share(&s, thread as u8), Err(5));
        }
        s.idle = 1;
        for thread in 0..256 {
            assert_eq!(share(&s, thread as u8), Err(9));
        }
        assert_eq!(summary(&s), Err(9));
    }
}

#[test]
fn the_lowest_number_on_a_tie() {
    let of = |totals: &[u64]| {
        let sum = summary(&state(5, totals, 1)).expect("a sound state");
        let Summary {
            largest_thread,
            largest,
            smallest_thread,
            smallest,
        } = sum.expect("time has passed");
        let elapsed = 1.0 + totals.iter().sum::<u64>() as f64;
        assert_eq!(largest, totals[largest_thread as usize] as f64 / elapsed);
        assert_eq!(smallest, totals[smallest_thread as usize] as f64 / elapsed);
        (largest_thread, smallest_thread)
    };
    assert_eq!(of(&[4]), (0, 0));
    assert_eq!(of(&[4, 4, 4]), (0, 0));
    assert_eq!(of(&[2, 9, 1, 9, 1, 2]), (1, 2));
    assert_eq!(of(&[0, 0, 3]), (2, 0));
    assert_eq!(of(&[3, 0, 0]), (0, 1));
    // totals of one tick's difference, as near as shares can come
    let near = MAX_TIME / 3 - 5;
    assert_eq!(of(&[near - 1, near, near - 1]), (1, 0));
}

// ------------------------------------------------------------- the quotient

/// The f64 nearest to a / b, of two equally near the even one, by whole numbers alone; a from 1 to b,
/// b below 2^53.
fn nearest(a: u64, b: u64) -> f64 {
    // a * 2^shift / b, with 53 bits before the point
    let (mut shift, wide, b) = (0, u128::from(a), u128::from(b));
    while (wide << shift) / b < 1 << 52 {
        shift += 1;
    }
    let (mut mantissa, rest) = ((wide << shift) / b, (wide << shift) % b);
    if 2 * rest > b || 2 * rest == b && mantissa % 2 == 1 {
        mantissa += 1;
    }
    if mantissa == 1 << 53 {
        mantissa = 1 << 52;
        shift -= 1;
    }
    // mantissa * 2^-shift
    let field = 1075 - shift as u64;
    f64::from_bits((field << 52) + (mantissa as u64 - (1 << 52)))
}

#[test]
fn the_division_gives_the_nearest_float() {
    let r = &mut Random::new(13);
    let near = |a: u64, b: u64| {
        let s = state(0, &[a], b - a);
        let share = share(&s, 0).expect("sound").expect("time has passed");
        assert_eq!(share.to_bits(), nearest(a, b).to_bits(), "{a} / {b}");
    };
    near(1, MAX_TIME);
    near(MAX_TIME - 1, MAX_TIME);
    for _ in 0..200_000 {
        let width = r.between(1, 49);
        let b = r.between(1, (1 << width).min(MAX_TIME));
        let narrow = r.between(1, width);
        let a = r.between(1, (1 << narrow).min(b));
        near(a, b);
    }
}

// --------------------------------------------------------------- the digits

/// Rust's own 17 digits, and the power of ten of the first.
fn rusts(x: f64) -> ([u8; SIGNIFICANT], i32) {
    let text = format!("{x:.16e}");
    let (digits, power) = text.split_once('e').expect("an exponent");
    let digits: Vec<u8> = digits.bytes().filter(|b| *b != b'.').collect();
    let digits = <[u8; SIGNIFICANT]>::try_from(digits).expect("17 digits");
    (digits.map(|b| b - b'0'), power.parse().expect("a power"))
}

#[test]
fn digits_of_any_float() {
    let r = &mut Random::new(17);
    let far = [f64::MIN_POSITIVE, f64::MAX, 5e-324, 1.0, 0.1, 1e22, 1e23];
    let any = std::iter::from_fn(|| Some(f64::from_bits(r.bits() >> 1)));
    for x in far
        .into_iter()
        .chain(any.filter(|x| x.is_finite()).take(1_500))
    {
        assert_eq!(significant(x), rusts(x), "{x:e}");
    }
}

#[test]
fn shares_read_back() {
    let r = &mut Random::new(31);
    let check = |a: u64, b: u64| {
        let x = a as f64 / b as f64;
        let text = decimal(x);
        let back: f64 = text.parse().expect("a float");
        assert_eq!(back.to_bits(), x.to_bits(), "{a} / {b} {text}");
        assert_eq!(significant(x), rusts(x), "{a} / {b}");
    };
    check(1, MAX_TIME);
    for _ in 0..20_000 {
        let (wide, narrow) = (r.between(1, 15) as u32, r.between(0, 15) as u32);
        let b = r.between(1, 10u64.pow(wide));
        check(r.between(1, 10u64.pow(narrow).min(b)), b);
    }
    for power in 0..=15 {
        check(1, 10u64.pow(power));
    }
}

#[test]
fn plain_decimal() {
    assert_eq!(decimal(0.0), "0");
    assert_eq!(decimal(1.0), "1.0000000000000000");
    assert_eq!(decimal(0.5), "0.50000000000000000");
    assert_eq!(decimal(0.1), "0.10000000000000001");
    assert_eq!(decimal(1e-6), "0.00000099999999999999995");
    assert_eq!(decimal(1e-15), "0.0000000000000010000000000000001");
    // the largest f64 below 1 is 1 - 2^-53, which is 0.999999999999999888977..
    assert_eq!(decimal(1.0 - f64::EPSILON / 2.0), "0.99999999999999989");
    // 18 digits, of which the last is 5: to the even one, downwards and upwards
    assert_eq!(decimal(131_073.0 / 262_144.0), "0.50000381469726562");
    assert_eq!(decimal(131_075.0 / 262_144.0), "0.50001144409179688");
}

// ---------------------------------------------------------------- the lines

/// The worked replay (01, One replay, whole) ends at 46 with totals 16 and 30.
#[test]
fn the_worked_replay() {
    let file = include_bytes!("../../../examples/worked.trace");
    assert_eq!(
        share_listing(file),
        "share 0 16 46 0.34782608695652173\n\
         share 1 30 46 0.65217391304347827\n\
         largest 1 0.65217391304347827\n\
         smallest 0 0.34782608695652173\n"
    );
    assert_eq!(share_listing(&file[..31]), "refused 10\n");
    assert_eq!(share_listing(&[&file[..], b"x"].concat()), "refused 11\n");
}

#[test]
fn lines_without_time() {
    let mut table = [Parameters::default(); THREADS];
    for p in &mut table[..2] {
        p.priority = 1;
        p.flag = 1;
    }
    let listed = |time: u64, flag: u32| {
        let mut table = table;
        table[0].flag = flag;
        let e = Event {
            time,
            ..Event::default()
        };
        let mut file = vec![0; total_bytes(2, 1)];
        write(7, 2, &table, &[e], &mut file).expect("a buffer of the file's length");
        share_listing(&file)
    };
    let none = "share 0 0 0 none\nshare 1 0 0 none\n";
    assert_eq!(listed(7, 1), none);
    // a refused event brings no time
    assert_eq!(listed(6, 1), none);
    assert_eq!(listed(1_000_008, 1), none);
    assert_eq!(listed(8, 2), "refused 6\n");
    let whole = "share 0 3 3 1.0000000000000000\nshare 1 0 3 0\n\
                 largest 0 1.0000000000000000\nsmallest 1 0\n";
    assert_eq!(listed(10, 1), whole);
}
