// A text that is read, and calls on its lines and on the words of a line.
use crate::faults::{made_value, push_made};
use crate::lists::{push_array, push_next_value, push_reals};
use array_reader::{
    Control, control_record, integer, name_of, next_line, number, short_integer, value_item,
};
use decimal_input::dec::Dec;
use outside::{MemFolder, TextFault};
use record_lines::{Free, FreeFault, Line, Lines, Words, begins_with, is_word};
use std::str;
use test_lines::{Page, count_of, first_word};

/// A call's word, the text after it, the counts that it begins with, and its multiplier.
#[derive(Drop)]
pub struct Call<'a> {
    pub word: &'a str,
    pub rest: &'a str,
    pub counts: [u32; 3],
    pub by: Option<i64>,
}

impl<'a> Call<'a> {
    pub fn of(written: &'a str) -> Call<'a> {
        let (front, by) = written.split_once(" by ").unwrap_or((written, ""));
        let (word, rest) = first_word(front);
        let (first, more) = first_word(rest);
        let (second, third) = first_word(more);
        Call {
            word,
            rest,
            counts: [count_of(first), count_of(second), count_of(third)],
            by: by.parse::<i64>().ok(),
        }
    }
}

/// A text that is read, and a call on it: the lines to come, a free list among them, and the remaining words of the line
/// that `items` went to.
#[derive(Drop)]
pub struct Reader<'a> {
    pub file: &'a str,
    pub text: &'a [u8],
    pub call: Call<'a>,
    pub lines: Lines<'a>,
    pub free: Free<'a>,
    line: Line<'a>,
    words: Words<'a>,
}

// The next word as a number.
fn push_number(page: &mut Page, read: Result<Dec, TextFault>) -> Option<()> {
    let number = made_value(page, read)?;
    Some(page.number(number))
}

fn push_short(page: &mut Page, word: &[u8]) {
    match short_integer(word) {
        Some(value) => page.word(value),
        None => page.word("none"),
    }
}

impl<'a> Reader<'a> {
    pub fn new(file: &'a str, text: &'a [u8]) -> Reader<'a> {
        let line = Line {
            number: 0,
            bytes: &[],
        };
        Reader {
            file,
            text,
            call: Call::of(""),
            lines: Lines::new(text),
            free: Free::begin(),
            line,
            words: Words::of(&line),
        }
    }

    // The next line's number, or the number of the line after the last.
    fn push_next_number(&mut self, page: &mut Page) {
        match self.lines.next_line() {
            Ok(line) => page.word(format_args!("then {}", line.number)),
            Err(end) => page.word(format_args!("end {}", end.line)),
        }
    }

    // The next line's number and its first five words, each a dash where there is none.
    fn push_next_words(&mut self, page: &mut Page) {
        let line = match self.lines.next_line() {
            Ok(line) => line,
            Err(end) => return page.word(format_args!("end {}", end.line)),
        };
        page.word(format_args!("{}:", line.number));
        let mut words = Words::of(&line);
        for _ in 0..5 {
            page.word(str::from_utf8(words.next().unwrap_or(b"-")).unwrap_or("?"));
        }
    }

    // `count` words of the free list, each with its line, or its fault in place of the word.
    fn push_free_words(&mut self, page: &mut Page, count: u32) {
        for _ in 0..count {
            let (word, line) = match self.free.next(&mut self.lines) {
                Ok((word, line)) => (str::from_utf8(word).unwrap_or("?"), line),
                Err(FreeFault::EndOfFile(line)) => ("end", line),
                Err(FreeFault::BadNumber(line)) => ("bad", line),
            };
            page.word(format_args!("{word}:{line}"));
        }
    }

    // Goes to the next line.
    fn push_next_line(&mut self, page: &mut Page) -> Option<()> {
        let next = next_line(page.alloc(), &mut self.lines, self.file);
        self.line = made_value(page, next)?;
        self.words = Words::of(&self.line);
        Some(page.word(format_args!("line {}", self.line.number)))
    }

    // The kind of the control record, or the file's name, and the value or the multiplier.
    fn push_control(&mut self, page: &mut Page) -> Option<()> {
        let record = control_record(page.alloc(), &mut self.words, self.file, self.line.number);
        let (kind, by): (&str, i64) = match made_value(page, record)? {
            Control::Constant(value) => ("constant", value),
            Control::Internal(by) => ("internal", by),
            Control::Named(name, by) => (name, by),
        };
        Some(page.word(format_args!("{kind} {by}")))
    }

    /// The next word of the line, as a number or as a text.
    pub fn push_of_word(&mut self, page: &mut Page) -> Option<()> {
        let (alloc, asked) = (page.alloc(), self.call.rest.as_bytes());
        let (words, file, line) = (&mut self.words, self.file, self.line.number);
        match self.call.word {
            "integer" => push_made(page, integer(alloc, words, file, line)),
            "number" => push_number(page, number(alloc, words, file, line)),
            "whole" => push_made(page, value_item::<i64>(alloc, words, file, line)),
            "real" => push_number(page, value_item::<Dec>(alloc, words, file, line)),
            "begins" => Some(page.test(begins_with(asked, &self.line))),
            "is" => Some(page.test(is_word(asked, words.next().unwrap_or(b"")))),
            "name" => push_made(
                page,
                name_of(alloc, words.next().unwrap_or(b""), file, line),
            ),
            "short" => Some(push_short(page, words.next().unwrap_or(b""))),
            _ => Some(page.word("no call")),
        }
    }

    /// Puts the answer of the call, each of its words after a blank, or why it is refused.
    pub fn push_answer(&mut self, page: &mut Page, folder: &mut MemFolder) -> Option<()> {
        match self.call.word {
            "line" => Some(self.push_next_words(page)),
            "after" => Some(self.push_next_number(page)),
            "free" => Some(self.push_free_words(page, self.call.counts[0])),
            "items" => self.push_next_line(page),
            "control" => self.push_control(page),
            "next" => push_next_value(page, self),
            "array" => push_array(page, self, folder),
            _ => push_reals(page, self, folder),
        }
    }
}
