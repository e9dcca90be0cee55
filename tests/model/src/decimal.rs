//! A float in decimal: its exact expansion, digit by digit as on paper, and what is left of it when
//! 17 significant digits are kept. So many always read back to the same f64.

pub const SIGNIFICANT: usize = 17;

/// The exact decimal expansion of a float that is finite and not negative: all digits, highest first,
/// and how many of them stand behind the point.
fn expansion(x: f64) -> (Vec<u8>, usize) {
    assert!(x.is_finite() && !x.is_sign_negative());
    let bits = x.to_bits();
    let (field, fraction) = (bits >> 52, bits & ((1 << 52) - 1));
    // the float is mantissa * 2^exponent
    let (mantissa, exponent) = match field {
        0 => (fraction, -1074),
        _ => (fraction + (1 << 52), field as i32 - 1075),
    };
    let mut digits: Vec<u8> = mantissa.to_string().bytes().map(|b| b - b'0').collect();
    // half of a number is 5 times it, with the point one digit further to the left
    let (factor, places) = if exponent < 0 { (5, -exponent) } else { (2, 0) };
    for _ in 0..exponent.abs() {
        times(&mut digits, factor);
    }
    (digits, places as usize)
}

/// A whole number in decimal times one digit, as on paper.
fn times(digits: &mut Vec<u8>, factor: u8) {
    let mut carry = 0;
    for digit in digits.iter_mut().rev() {
        let product = *digit * factor + carry;
        *digit = product % 10;
        carry = product / 10;
    }
    if carry > 0 {
        digits.insert(0, carry);
    }
}

/// The 17 significant digits nearest to a float above 0, of two equally near the even one, and the
/// power of ten that its first digit counts: 0 for units, -1 for tenths.
pub fn significant(x: f64) -> ([u8; SIGNIFICANT], i32) {
    let (digits, places) = expansion(x);
    let first = digits
        .iter()
        .position(|d| *d != 0)
        .expect("a float above 0 has a digit that isn't 0");
    let mut power = (digits.len() - first) as i32 - places as i32 - 1;
    let digits = &digits[first..];
    let mut kept = [0; SIGNIFICANT];
    for (to, digit) in kept.iter_mut().zip(digits) {
        *to = *digit;
    }
    let rest = digits.get(SIGNIFICANT..).unwrap_or(&[]);
    let more = rest.iter().skip(1).any(|d| *d != 0);
    let up = match rest.first() {
        None | Some(0..=4) => false,
        Some(5) => more || kept[SIGNIFICANT - 1] % 2 == 1,
        Some(_) => true,
    };
    if up {
        let nines = kept.iter().rev().take_while(|d| **d == 9).count();
        let (head, tail) = kept.split_at_mut(SIGNIFICANT - nines);
        tail.fill(0);
        match head.last_mut() {
            Some(digit) => *digit += 1,
            None => {
                kept[0] = 1;
                power += 1;
            }
        }
    }
    (kept, power)
}

/// A share, which is from 0 to 1, in plain decimal with its 17 significant digits; 0 has none, and is
/// the digit 0 (ours).
pub fn decimal(share: f64) -> String {
    assert!((0.0..=1.0).contains(&share));
    if share == 0.0 {
        return "0".to_owned();
    }
    let (digits, power) = significant(share);
    let text: String = digits.iter().map(|d| char::from(b'0' + d)).collect();
    match power {
        0 => format!("{}.{}", &text[..1], &text[1..]),
        _ => format!("0.{}{text}", "0".repeat((-power - 1) as usize)),
    }
}
