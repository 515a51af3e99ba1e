// Decimals of 18 digits.
use crate::numbers::push_wholes;
use crate::question::Words;
use scaled_decimal::decimal::ZERO;
use scaled_decimal::{
    Sd, add_dn, add_up, ceil_units, div_dn, div_up, floor_units, mul_dn, mul_up, of_dec,
    of_units_dn, of_units_up,
};
use test_lines::Page;

// A decimal has 18 digits.
const LEAST: u64 = 100_000_000_000_000_000;

const LIMIT: u64 = 1_000_000_000_000_000_000;

// The decimal that a word gives, whose exponent is from -10000 to 10000.
fn decimal(word: &str) -> Option<Sd> {
    let (digits, exponent) = word.split_once('e')?;
    let m = digits.parse::<u64>().ok()?;
    let e = exponent.parse::<i16>().ok()?;
    if m == 0 {
        return Some(ZERO);
    }
    if m < LEAST || LIMIT <= m || e < -10000 || 10000 < e {
        return None;
    }
    Some(Sd { m, e })
}

fn push_decimal(page: &mut Page, x: Sd) {
    page.line(format_args!("{}e{}", x.m, x.e));
}

// What lies below and above.
fn push_decimals(page: &mut Page, below: Sd, above: Sd) {
    page.value(format_args!("{}e{} ", below.m, below.e));
    push_decimal(page, above);
}

/// The product, the quotient or the sum, rounded down and up.
pub fn push_rounded(page: &mut Page, operation: &str, words: &mut Words<'_>) -> Option<()> {
    let (a, b) = (decimal(words.next())?, decimal(words.next())?);
    match operation {
        "mul" => push_decimals(page, mul_dn(a, b), mul_up(a, b)),
        "div" if b.m > 0 => push_decimals(page, div_dn(a, b), div_up(a, b)),
        "add" => push_decimals(page, add_dn(a, b), add_up(a, b)),
        _ => return None,
    }
    Some(())
}

/// The decimal of a number that isn't negative.
pub fn push_decimal_of(page: &mut Page, words: &mut Words<'_>) -> Option<()> {
    push_decimal(page, of_dec(words.not_negative()?));
    Some(())
}

pub fn push_decimals_of_units(page: &mut Page, words: &mut Words<'_>) -> Option<()> {
    let units = words.next().parse::<u128>().ok()?;
    let places = words.next().parse::<u16>().ok()?;
    if places > 10000 {
        return None;
    }
    push_decimals(page, of_units_dn(units, places), of_units_up(units, places));
    Some(())
}

/// The greatest whole number of units not above, and the least not below.
pub fn push_whole(page: &mut Page, words: &mut Words<'_>) -> Option<()> {
    let (x, places) = (decimal(words.next())?, words.count()?);
    push_wholes(page, floor_units(x, places), ceil_units(x, places));
    Some(())
}
