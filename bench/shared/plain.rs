// Reading in plain Rust: control record, rows, repeats, exact numbers and their products.

/// The value digits * 10 ^ exp, with its sign.
#[repr(C)]
#[derive(Clone, Copy, PartialEq, Eq, Debug)]
pub struct Number {
    pub digits: u64,
    pub exp: i16,
    pub neg: bool,
}

const LIMIT: u64 = 10u64.pow(18);
const ZERO: Number = Number {
    digits: 0,
    exp: 0,
    neg: false,
};

fn tested(neg: bool, digits: u64, exp: i64) -> Option<Number> {
    if digits == 0 {
        return Some(ZERO);
    }
    let fits = digits < LIMIT && (-40..=40).contains(&exp);
    fits.then_some(Number {
        digits,
        exp: exp as i16,
        neg,
    })
}

/// None where it has another form, more than 18 digits or an exponent out of range.
pub fn number(word: &[u8]) -> Option<Number> {
    if word.len() > 64 {
        return None;
    }
    let (neg, body) = match word {
        [b'-', body @ ..] => (true, body),
        [b'+', body @ ..] => (false, body),
        _ => (false, word),
    };
    let mark = body
        .iter()
        .position(|c| matches!(c, b'E' | b'e' | b'D' | b'd'));
    let (mantissa, exp) = match mark {
        None => (body, 0),
        Some(at) => (&body[..at], exponent(&body[at + 1..])?),
    };
    let mut digits = 0u64;
    let mut zeros = 0u32;
    let mut count = 0;
    let mut behind = None;
    for &c in mantissa {
        match c {
            b'.' if behind.is_none() => behind = Some(0),
            b'0'..=b'9' => {
                count += 1;
                behind = behind.map(|n| n + 1);
                if c == b'0' && digits != 0 {
                    zeros += 1;
                } else if c != b'0' {
                    digits = digits
                        .checked_mul(10u64.checked_pow(zeros + 1)?)?
                        .checked_add((c - b'0') as u64)
                        .filter(|&n| n < LIMIT)?;
                    zeros = 0;
                }
            }
            _ => return None,
        }
    }
    if count == 0 {
        return None;
    }
    tested(neg, digits, exp + zeros as i64 - behind.unwrap_or(0))
}

fn exponent(text: &[u8]) -> Option<i64> {
    let (neg, body) = match text {
        [b'-', body @ ..] => (true, body),
        [b'+', body @ ..] => (false, body),
        _ => (false, text),
    };
    if body.is_empty() {
        return None;
    }
    let mut size = 0i64;
    for &c in body {
        if !c.is_ascii_digit() {
            return None;
        }
        size = (size * 10 + (c - b'0') as i64).min(10000);
    }
    Some(if neg { -size } else { size })
}

fn scaled(value: Number, by: Number) -> Option<Number> {
    if by.digits == 0 {
        return Some(value);
    }
    let mut exp = value.exp as i64 + by.exp as i64;
    let mut wide = value.digits as u128 * by.digits as u128;
    while wide > u64::MAX as u128 {
        if wide % 10 != 0 {
            return None;
        }
        wide /= 10;
        exp += 1;
    }
    let mut digits = wide as u64;
    while digits != 0 && digits % 10 == 0 {
        digits /= 10;
        exp += 1;
    }
    tested(value.neg != by.neg, digits, exp)
}

fn is_separator(c: &u8) -> bool {
    matches!(c, b' ' | b'\t' | b',' | b'\r')
}

/// The words of a line.
pub struct Words<'a>(pub &'a [u8]);

impl<'a> Iterator for Words<'a> {
    type Item = &'a [u8];

    fn next(&mut self) -> Option<&'a [u8]> {
        let begin = self.0.iter().position(|c| !is_separator(c))?;
        let rest = &self.0[begin..];
        let end = rest.iter().position(is_separator).unwrap_or(rest.len());
        let (word, rest) = rest.split_at(end);
        self.0 = rest;
        Some(word)
    }
}

fn repeated(word: &[u8]) -> Option<(usize, &[u8])> {
    let Some(at) = word.iter().position(|&c| c == b'*') else {
        return Some((1, word));
    };
    let (count, value) = (&word[..at], &word[at + 1..]);
    if count.is_empty() || count.len() > 9 || value.is_empty() {
        return None;
    }
    let mut times = 0;
    for &c in count {
        if !c.is_ascii_digit() {
            return None;
        }
        times = times * 10 + (c - b'0') as usize;
    }
    (times > 0).then_some((times, value))
}

/// The lines of a text that have a word.
pub fn lines_of(text: &[u8]) -> impl Iterator<Item = &[u8]> {
    text.split(|&c| c == b'\n')
        .filter(|line| !line.iter().all(is_separator))
}

/// The values of the layer that stands in the next lines.
#[inline(never)]
pub fn layer<'a>(
    lines: &mut impl Iterator<Item = &'a [u8]>,
    rows: usize,
    cols: usize,
) -> Option<Vec<Number>> {
    let mut record = Words(lines.next()?);
    let by = match record.next()? {
        word if word.eq_ignore_ascii_case(b"CONSTANT") => {
            return Some(vec![number(record.next()?)?; rows * cols]);
        }
        word if word.eq_ignore_ascii_case(b"INTERNAL") => number(record.next()?)?,
        _ => return None,
    };
    if !record.next()?.eq_ignore_ascii_case(b"(FREE)") {
        return None;
    }
    let mut values = Vec::new();
    for row in 1..=rows {
        while values.len() < row * cols {
            for word in Words(lines.next()?) {
                let (times, value) = repeated(word)?;
                let value = scaled(number(value)?, by)?;
                let times = times.min(row * cols - values.len());
                values.extend(std::iter::repeat_n(value, times));
                if values.len() == row * cols {
                    break;
                }
            }
        }
    }
    Some(values)
}
