// Faults, refusals as calls make them, and their codes.
use array_reader::{free_refused, number_refused};
use decimal_input::dec::NumFault;
use outside::{Code, InputFault, Refusal, TextFault, file_refusal, text_fault};
use record_lines::FreeFault;
use std::fmt::Display;
use test_lines::{Answered, Page};

fn push_refusal(page: &mut Page, refusal: &Refusal) {
    page.word(refusal.code.word());
    page.word(refusal.file.as_str());
    page.word(refusal.line);
    if refusal.at.is_some() {
        page.text(" and a cell");
    }
}

fn push_fault(page: &mut Page, fault: InputFault) {
    match &fault {
        InputFault::Refused(refusal) => push_refusal(page, refusal),
        InputFault::ReadFault => page.word("ReadFault"),
        InputFault::Memory => page.word("Memory"),
    }
    drop(fault);
}

/// What a call made, or nothing after the fault is put.
pub fn made_value<T, F: Into<InputFault>>(page: &mut Page, made: Result<T, F>) -> Option<T> {
    match made {
        Ok(made) => Some(made),
        Err(fault) => {
            push_fault(page, fault.into());
            None
        }
    }
}

/// A value that a call made, after a blank.
pub fn push_made<F: Into<InputFault>>(
    page: &mut Page,
    value: Result<impl Display + Drop, F>,
) -> Option<()> {
    let value = made_value(page, value)?;
    Some(page.word(value))
}

fn push_refused(page: &mut Page, fault: TextFault) {
    page.text("refused");
    push_fault(page, InputFault::from(fault));
    page.end();
}

/// A line, a number, a list and a whole file that are refused, and lack of memory.
pub fn push_refusals(page: &mut Page) -> Answered {
    let alloc = page.alloc();
    push_refused(page, text_fault(alloc, Code::BadGrid, "a.dis", 3));
    push_refused(page, number_refused(alloc, NumFault::BadNumber, "a.dis", 4));
    push_refused(
        page,
        number_refused(alloc, NumFault::TooManyDigits, "a.dis", 5),
    );
    push_refused(page, free_refused(alloc, FreeFault::EndOfFile(7), "a.lpf"));
    push_refused(page, free_refused(alloc, FreeFault::BadNumber(8), "a.lpf"));
    let file = file_refusal(alloc, Code::TooLong, "a.dis")?;
    push_refused(page, TextFault::Refused(file));
    push_refused(page, TextFault::Memory);
    Ok(())
}

/// The number and the word of the code of each number from 0 to 28.
pub fn push_codes(page: &mut Page) {
    for number in 0..29 {
        match Code::of_number(number) {
            Some(code) => page.line(format_args!("code {} {}", code.number(), code.word())),
            None => page.line(format_args!("no code {number}")),
        }
    }
}
