//! Reads decks with convertible layers from standard input by the calls of `convertible_reader`, and prints what they give, or the problems of their
//! steps at given heads by those of `gentle_problem`.
//!
//! `@deck -` begins a deck without files. A line `@file NAME` begins a file, whose lines follow it, and replaces an
//! earlier file of that name. `@read_fault N` makes the folder's read of this number fail. `@convertible NAME` reads the model of
//! a name file, and prints LAYTYP by layer, HK, SS, SY and VKCB by cell, and whether SS is a storage coefficient; or the
//! refusal, with its file, its line and its cell. A number is printed as digits and exponent.
//! `@problem NAME DIGITS LOW HIGH ..` reads the model, too, and prints for each time step the problem at all heads within these bounds, in units of
//! 10^-9, two numbers for each cell of the grid: entry for entry, or its first refusal.
//!
//! A line `@ ..` says what is shown, and is printed.
mod problems;

use convertible_reader::read_named_convertible_model;
use decimal_input::dec::Dec;
use model_types::{FlowModel, Limits};
use outside::{InputFault, Refusal, good_name};
use problems::push_problems;
use std::io;
use test_lines::{Answered, Deck, Page, answer_lines, first_word, take_line};
use water_table::ConvertibleLayers;

fn push_numbers(page: &mut Page, name: &str, numbers: &[Dec]) {
    page.text(name);
    for number in numbers {
        let sign = if number.neg { "-" } else { "" };
        page.word(format_args!("{sign}{}e{}", number.digits, number.exp));
    }
    page.end();
}

fn push_model(page: &mut Page, model: &FlowModel, layers: &ConvertibleLayers) {
    page.text("LAYTYP");
    for laytyp in layers.laytyp.as_slice() {
        page.word(*laytyp);
    }
    page.end();
    push_numbers(page, "HK", model.hk.as_slice());
    push_numbers(page, "SS", model.ss.as_slice());
    push_numbers(page, "SY", layers.sy.as_slice());
    push_numbers(page, "VKCB", model.vkcb.as_slice());
    page.text("coefficient");
    page.test(model.coefficient);
    page.end();
}

fn push_refusal(page: &mut Page, refusal: &Refusal) {
    page.value(format_args!(
        "REFUSED {} {} {}",
        refusal.code.word(),
        refusal.file.as_str(),
        refusal.line
    ));
    if let Some(cell) = refusal.at {
        for place in cell {
            page.word(place);
        }
    }
    page.end();
}

fn push_answer(page: &mut Page, deck: &mut Deck, question: &str, rest: &str) -> Answered {
    deck.end_file(page.alloc())?;
    let (name, given) = first_word(rest);
    let Some(name) = good_name(name.as_bytes()) else {
        return Ok(page.line("no name"));
    };
    match read_named_convertible_model(page.alloc(), Limits::Plain, name, &mut deck.folder) {
        Ok((model, layers)) => {
            if question == "@problem" {
                return push_problems(page, &model, &layers, given);
            }
            push_model(page, &model, &layers);
        }
        Err(InputFault::Refused(refusal)) => push_refusal(page, &refusal),
        Err(InputFault::ReadFault) => page.line("READ FAULT"),
        Err(InputFault::Memory) => page.line("MEMORY"),
    }
    Ok(())
}

fn main(rt: HostRuntime) -> io::Result<()> {
    let mut deck = Deck::new(rt.alloc());
    answer_lines(&rt, rt.alloc(), |page, line| {
        let (word, rest) = first_word(line);
        if word == "@convertible" || word == "@problem" {
            page.line(line);
            push_answer(page, &mut deck, word, rest)?;
        } else {
            take_line(page, &mut deck, line)?;
        }
        Ok(())
    })
}
