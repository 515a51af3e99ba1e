// The words and the numbers of a line.
use std::alloc::{AllocError, Global};
use step_problem::Bound;

/// The first word, and the text after its blank.
pub fn first_word(text: &str) -> (&str, &str) {
    text.split_once(' ').unwrap_or((text, ""))
}

/// The number of a word, or 0 if it isn't one.
pub fn number_of(word: &str) -> u64 {
    word.parse::<u64>().unwrap_or(0)
}

/// The same of a number below 2^32.
pub fn count_of(word: &str) -> u32 {
    word.parse::<u32>().unwrap_or(0)
}

/// The numbers among the words of a line.
pub fn numbers_of(alloc: Global, line: &str) -> Result<Vec<i128>, AllocError> {
    line.split(' ')
        .filter_map(|word| word.parse::<i128>().ok())
        .collect(alloc)
}

/// A number by its place from 0; 0 where there is none.
pub fn wide_at(numbers: &[i128], place: usize) -> i128 {
    numbers.get(place).copied().unwrap_or(0)
}

/// The same; 0 where it is no conductance.
pub fn conductance_at(numbers: &[i128], place: usize) -> u64 {
    u64::try_from(wide_at(numbers, place)).unwrap_or(0)
}

/// The same; 0 where it is no head.
pub fn head_at(numbers: &[i128], place: usize) -> i64 {
    i64::try_from(wide_at(numbers, place)).unwrap_or(0)
}

/// The same; 0 where it does not count.
pub fn number_at(numbers: &[i128], place: usize) -> u32 {
    u32::try_from(wide_at(numbers, place)).unwrap_or(0)
}

/// Bounds, of which each two numbers are one.
pub fn bounds_of(alloc: Global, numbers: &[i128]) -> Result<Vec<Bound>, AllocError> {
    let bound = |pair: &[i128]| Bound {
        low: head_at(pair, 0),
        high: head_at(pair, 1),
    };
    numbers.chunks(2).map(bound).collect(alloc)
}

fn plain_char(shown: char) -> char {
    match shown {
        '␊' => '\n',
        '␍' => '\r',
        '␉' => '\t',
        '␠' => ' ',
        '␡' => '\u{7f}',
        other => other,
    }
}

/// The text that one means which has pictures in place of control characters and of blanks at an end.
pub fn plain_text(alloc: Global, shown: &str) -> Result<String, AllocError> {
    shown.chars().map(plain_char).collect(alloc)
}
