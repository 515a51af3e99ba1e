// Numbers of the input, and numbers as text.
use crate::question::Words;
use decimal_input::dec::{Dec, NumFault};
use decimal_input::product::times;
use decimal_input::read::read_dec;
use decimal_input::units::{ceil_at, floor_at};
use decimal_input::word::read_int;
use fixed_text::{push_fixed, push_number as push_number_text};
use std::alloc::{AllocError, Global};
use std::fmt;
use test_lines::Page;

/// A number, or why there is none.
pub fn push_number(page: &mut Page, number: Result<Dec, NumFault>) {
    match number {
        Ok(number) => {
            let sign = if number.neg { "-" } else { "" };
            page.line(format_args!("{sign}{}e{}", number.digits, number.exp));
        }
        Err(fault) => page.line(format_args!("{fault:?}")),
    }
}

pub fn number(words: &mut Words<'_>) -> Result<Dec, NumFault> {
    read_dec(words.next().as_bytes())
}

pub fn product(words: &mut Words<'_>) -> Result<Dec, NumFault> {
    times(number(words)?, number(words)?)
}

pub fn push_integer(page: &mut Page, words: &mut Words<'_>) {
    match read_int(words.next().as_bytes()) {
        Some(integer) => page.line(integer),
        None => page.line("none"),
    }
}

fn push_some(page: &mut Page, bound: Option<impl fmt::Display + Drop>) {
    match bound {
        Some(bound) => page.value(bound),
        None => page.text("none"),
    }
}

/// Whole numbers below and above, where there are any.
pub fn push_wholes(
    page: &mut Page,
    below: Option<impl fmt::Display + Drop>,
    above: Option<impl fmt::Display + Drop>,
) {
    push_some(page, below);
    page.text(" ");
    push_some(page, above);
    page.end();
}

/// The greatest whole number of units not above, and the least not below.
pub fn push_units(page: &mut Page, words: &mut Words<'_>) -> Option<()> {
    let (number, places) = (words.decimal()?, words.count()?);
    push_wholes(page, floor_at(number, places), ceil_at(number, places));
    Some(())
}

fn fixed_text(alloc: Global, places: u32, units: i128) -> Result<Vec<u8>, AllocError> {
    let mut text = Vec::new(alloc);
    push_fixed(&mut text, places, units)?;
    Ok(text)
}

fn number_text(alloc: Global, number: u128) -> Result<Vec<u8>, AllocError> {
    let mut text = Vec::from_slice(alloc, b"of ")?;
    push_number_text(&mut text, number)?;
    Ok(text)
}

/// A number of units with PLACES digits after the point, from 1 to 27.
pub fn push_fixed_text(page: &mut Page, words: &mut Words<'_>) -> Option<()> {
    let (places, units) = (words.count()?, words.next().parse::<i128>().ok()?);
    if places < 1 || places > 27 {
        return None;
    }
    page.bytes(fixed_text(page.alloc(), places, units));
    Some(())
}

/// A number after a text.
pub fn push_digits(page: &mut Page, words: &mut Words<'_>) -> Option<()> {
    page.bytes(number_text(page.alloc(), words.next().parse::<u128>().ok()?));
    Some(())
}
