//! Numbers as decimals of any length, and times (document 01, "Numbers and times").

/// Why a number of the right shape is no time.
#[derive(Clone, Copy, Debug, PartialEq, Eq)]
pub enum NoTime {
    /// Refusal 6.
    NotWhole,
    /// Refusal 7: "whole, but beyond 10^15".
    TooFar,
}

impl NoTime {
    pub fn number(self) -> u8 {
        match self {
            NoTime::NotWhole => 6,
            NoTime::TooFar => 7,
        }
    }
}

/// "at most 10^15 either way"
pub const LIMIT: i64 = 1_000_000_000_000_000;

/// Exponents are cut off here: no text has as many digits, so a larger one tells nothing more.
const EXPONENT_LIMIT: i64 = 1_000_000_000_000;

/// A number exactly: its digits (most significant first, neither the first nor the last of them
/// 0; none for zero) times a power of ten.
#[derive(Clone, Debug, PartialEq, Eq)]
pub struct Decimal {
    negative: bool,
    digits: Vec<u8>,
    power: i64,
}

/// "A number is digits, optionally `.` and digits, optionally `e`, a sign or none, and digits.
/// Only a signed place also takes a leading `+` or `-`." None if the shape is another one.
pub fn decimal(word: &[u8], signed: bool) -> Option<Decimal> {
    let (negative, rest) = if signed { sign(word) } else { (false, word) };
    let (mantissa, exponent) = split_once(rest, b'e');
    let (whole, fraction) = split_once(mantissa, b'.');
    let power = match exponent {
        Some(exponent) => exponent_value(exponent)?,
        None => 0,
    };
    if !are_digits(whole) || !fraction.is_none_or(are_digits) {
        return None;
    }
    let fraction = fraction.unwrap_or(b"");
    let digits = [whole, fraction].concat();
    Some(shortened(negative, digits, power - fraction.len() as i64))
}

/// "A time is the exact product in femtoseconds: whole, and at most 10^15 either way." The time
/// scale is ten to the `scale` femtoseconds.
pub fn time(number: &Decimal, scale: u32) -> Result<i64, NoTime> {
    if number.digits.is_empty() {
        return Ok(0);
    }
    // The last digit isn't 0, so a power of ten below none leaves a fraction.
    let power = number.power + i64::from(scale);
    if power < 0 {
        return Err(NoTime::NotWhole);
    }
    // 10^15 has 16 digits.
    if number.digits.len() as i64 + power > 16 {
        return Err(NoTime::TooFar);
    }
    let digits = number.digits.iter().fold(0, |sum, digit| 10 * sum + i64::from(digit - b'0'));
    let size = (0..power).fold(digits, |size, _| 10 * size);
    if size > LIMIT {
        return Err(NoTime::TooFar);
    }
    Ok(if number.negative { -size } else { size })
}

/// Takes the zeros off both ends.
fn shortened(negative: bool, mut digits: Vec<u8>, mut power: i64) -> Decimal {
    while digits.last() == Some(&b'0') {
        digits.pop();
        power += 1;
    }
    let zeros = digits.iter().take_while(|&&digit| digit == b'0').count();
    digits.drain(..zeros);
    Decimal { negative, digits, power }
}

/// "a sign or none, and digits"
fn exponent_value(word: &[u8]) -> Option<i64> {
    let (negative, digits) = sign(word);
    if !are_digits(digits) {
        return None;
    }
    let size = digits.iter().fold(0, |sum, digit| (10 * sum + i64::from(digit - b'0')).min(EXPONENT_LIMIT));
    Some(if negative { -size } else { size })
}

fn sign(word: &[u8]) -> (bool, &[u8]) {
    match word {
        [b'-', rest @ ..] => (true, rest),
        [b'+', rest @ ..] => (false, rest),
        _ => (false, word),
    }
}

fn are_digits(word: &[u8]) -> bool {
    !word.is_empty() && word.iter().all(u8::is_ascii_digit)
}

/// What stands before the first such byte, and what stands behind it if there is one.
fn split_once(word: &[u8], mark: u8) -> (&[u8], Option<&[u8]>) {
    match word.iter().position(|&byte| byte == mark) {
        Some(place) => (&word[..place], Some(&word[place + 1..])),
        None => (word, None),
    }
}
