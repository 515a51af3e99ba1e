// The words of a line, as the numbers that calls take.
use conductance_bounds::{Span, thickness};
use decimal_input::dec::Dec;
use decimal_input::read::read_dec;
use number_limits::{is_head, is_positive, is_thick};
use test_lines::first_word;

/// The words that are still to be read. Each number is the next word's, if it is one of its kind.
#[derive(Drop)]
pub struct Words<'a>(pub &'a str);

impl<'a> Words<'a> {
    /// The next word; empty after the last one.
    pub fn next(&mut self) -> &'a str {
        let (word, rest) = first_word(self.0);
        self.0 = rest;
        word
    }

    pub fn decimal(&mut self) -> Option<Dec> {
        read_dec(self.next().as_bytes()).ok()
    }

    pub fn positive(&mut self) -> Option<Dec> {
        let number = self.decimal()?;
        if is_positive(number) {
            Some(number)
        } else {
            None
        }
    }

    pub fn not_negative(&mut self) -> Option<Dec> {
        let number = self.decimal()?;
        if number.neg { None } else { Some(number) }
    }

    pub fn head(&mut self) -> Option<Dec> {
        let number = self.decimal()?;
        if is_head(number) { Some(number) } else { None }
    }

    /// The thickness between a top and a bottom.
    pub fn thickness(&mut self) -> Option<Span> {
        let (top, bottom) = (self.decimal()?, self.decimal()?);
        if is_thick(top, bottom) {
            Some(thickness(top, bottom))
        } else {
            None
        }
    }

    // A number of at most `most`.
    fn at_most(&mut self, most: u64) -> Option<u64> {
        let number = self.next().parse::<u64>().ok()?;
        if number <= most { Some(number) } else { None }
    }

    pub fn count(&mut self) -> Option<u32> {
        self.next().parse::<u32>().ok()
    }

    /// The number of digits of a conductance.
    pub fn digits(&mut self) -> Option<u32> {
        let digits = self.at_most(18)?;
        Some(digits as u32)
    }

    /// A part of a stress period, in units of 10^-18.
    pub fn part(&mut self) -> Option<u64> {
        self.at_most(1_000_000_000_000_000_000)
    }
}
