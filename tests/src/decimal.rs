//! Numerals as exact decimals, worked out on their digits as text.

/// The number m times ten to the e. Zero is (0, 0); otherwise m is no multiple of ten.
#[derive(Clone, Copy, Debug, PartialEq, Eq)]
pub struct Pair {
    pub m: i64,
    pub e: i16,
}

/// The greatest count of digits in m: its absolute value is below 10^15 (rule 13).
const MANTISSA_DIGITS: usize = 15;

/// The greatest absolute value of e (rule 13).
const EXPONENT_LIMIT: i128 = 22;

/// The greatest count of digits of a written exponent or integer that is read exactly.
/// No text is long enough for its digits to bring a longer exponent back into range.
const EXACT_DIGITS: usize = 30;

/// The parts of a JSON numeral: sign, digits before and after the point, written exponent.
struct Numeral<'a> {
    negative: bool,
    whole: &'a str,
    fraction: Option<&'a str>,
    exponent: Option<&'a str>,
}

impl<'a> Numeral<'a> {
    fn split(numeral: &'a str) -> Numeral<'a> {
        let (significand, exponent) = match numeral.split_once(['e', 'E']) {
            Some((significand, exponent)) => (significand, Some(exponent)),
            None => (numeral, None),
        };
        let (whole, fraction) = match significand.split_once('.') {
            Some((whole, fraction)) => (whole, Some(fraction)),
            None => (significand, None),
        };
        Numeral {
            negative: whole.starts_with('-'),
            whole: whole.trim_start_matches('-'),
            fraction,
            exponent,
        }
    }
}

/// Whether a JSON numeral is an integer: no fraction and no exponent part (rule 12).
pub fn is_integer(numeral: &str) -> bool {
    let parts = Numeral::split(numeral);
    parts.fraction.is_none() && parts.exponent.is_none()
}

/// The value of an integer numeral; none if it is no integer or beyond 30 digits.
pub fn integer(numeral: &str) -> Option<i128> {
    if !is_integer(numeral) {
        return None;
    }
    signed(
        Numeral::split(numeral).negative,
        numeral.trim_start_matches('-'),
    )
}

/// The pair that a JSON numeral stands for, or none if it is out of range (rule 13).
pub fn pair(numeral: &str) -> Option<Pair> {
    let parts = Numeral::split(numeral);
    let fraction = parts.fraction.unwrap_or("");
    let written = format!("{}{}", parts.whole, fraction);
    let digits = written.trim_start_matches('0').trim_end_matches('0');
    if digits.is_empty() {
        return Some(Pair { m: 0, e: 0 });
    }
    if digits.len() > MANTISSA_DIGITS {
        return None;
    }
    let removed = written.len() - written.trim_end_matches('0').len();
    let e = exponent(parts.exponent.unwrap_or("0"))? - fraction.len() as i128 + removed as i128;
    if e.abs() > EXPONENT_LIMIT {
        return None;
    }
    let m = signed(parts.negative, digits)?;
    Some(Pair {
        m: i64::try_from(m).ok()?,
        e: i16::try_from(e).ok()?,
    })
}

/// The value of a written exponent; none if it has more than 30 digits.
fn exponent(written: &str) -> Option<i128> {
    signed(
        written.starts_with('-'),
        written.trim_start_matches(['+', '-']),
    )
}

/// The value of a sign and digits; none if there are more than 30 after leading zeros.
fn signed(negative: bool, digits: &str) -> Option<i128> {
    let digits = digits.trim_start_matches('0');
    if digits.len() > EXACT_DIGITS {
        return None;
    }
    let value: i128 = if digits.is_empty() {
        0
    } else {
        digits.parse().ok()?
    };
    Some(if negative { -value } else { value })
}
