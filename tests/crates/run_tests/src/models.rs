// The model of a name file, and what is asked of it.
use crate::plans::push_drawdowns;
use crate::steps::push_steps;
use deck_problems::Decks;
use model_reader::read_named_model;
use model_types::{FlowModel, Limits};
use model_writer::write_deck;
use outside::{Folder, Found, InputFault, MemFolder, TextFault, good_name};
use plan_wells::{read_plan, with_plan};
use std::alloc::{AllocError, Global};
use test_lines::{Answered, Deck, Page, count_of};

// The files of a deck that is written.
const WRITTEN: [&str; 11] = [
    "p.nam", "p.dis", "p.bas", "p.lpf", "p.wel", "p.riv", "p.drn", "p.ghb", "p.rch", "p.chd",
    "p.evt",
];

fn push_files(page: &mut Page, folder: &mut MemFolder, names: &[&str]) {
    for name in names {
        page.line(format_args!("@file {name}"));
        match folder.read_file(page.alloc(), name) {
            Ok(Found::Bytes(bytes)) => page.file(bytes.as_slice()),
            _ => page.line("no file"),
        }
    }
}

// The files of the text of a deck, each after its line FILE.
fn files_of(page: &Page, text: &[u8]) -> Result<Deck, AllocError> {
    let mut deck = Deck::new(page.alloc());
    for line in text.split(|byte| *byte == b'\n') {
        let line = str::from_utf8(line).unwrap_or("");
        match line.strip_prefix("FILE ") {
            Some(name) => deck.begin_file(page.alloc(), name)?,
            None if line == "END" => break,
            None => deck.push_line(line)?,
        }
    }
    Ok(deck)
}

// Writes a model as a deck, and puts its files, which are the folder's from now on.
fn push_written(page: &mut Page, folder: &mut MemFolder, model: &FlowModel) -> Answered {
    let text = write_deck(page.alloc(), model)?;
    let mut deck = files_of(page, text.as_slice())?;
    deck.end_file(page.alloc())?;
    *folder = deck.folder;
    push_files(page, folder, &WRITTEN);
    Ok(())
}

/// The model of a name file.
pub fn read_model(
    alloc: Global,
    folder: &mut MemFolder,
    name: &str,
) -> Result<FlowModel, InputFault> {
    match good_name(name.as_bytes()) {
        Some(name) => read_named_model(alloc, Limits::Plain, name, folder),
        None => Err(InputFault::Memory),
    }
}

// The model with the wells of a plan's file.
fn planned(
    alloc: Global,
    model: FlowModel,
    file: &str,
    bytes: &[u8],
) -> Result<FlowModel, TextFault> {
    let (plan, model) = read_plan(alloc, Limits::Plain, file, bytes, model)?;
    with_plan(alloc, model, &plan, file)
}

// Puts the file of wells of the model with those of a plan, or why there is none.
fn push_planned(page: &mut Page, folder: &mut MemFolder, model: FlowModel, file: &str) -> Answered {
    let Ok(Found::Bytes(bytes)) = folder.read_file(page.alloc(), file) else {
        drop(model);
        return Ok(page.line("no file"));
    };
    match planned(page.alloc(), model, file, bytes.as_slice()) {
        Ok(model) => {
            let text = write_deck(page.alloc(), &model)?;
            drop(model);
            let mut deck = files_of(page, text.as_slice())?;
            deck.end_file(page.alloc())?;
            push_files(page, &mut deck.folder, &["p.wel"]);
            Ok(())
        }
        Err(TextFault::Refused(refusal)) => {
            page.line(format_args!(
                "REFUSED {} {} {}",
                refusal.code.word(),
                refusal.file.as_str(),
                refusal.line
            ));
            drop(refusal);
            Ok(())
        }
        Err(TextFault::Memory) => Ok(page.line("MEMORY")),
    }
}

/// The answer to a question about the model of a name file, or that there is no model.
pub fn push_model_answer(
    page: &mut Page,
    folder: &mut MemFolder,
    question: &str,
    name: &str,
    digits: &str,
) -> Answered {
    let Ok(first) = read_model(page.alloc(), folder, name) else {
        return Ok(page.line("no model"));
    };
    if question == "@write" {
        let answer = push_written(page, folder, &first);
        drop(first);
        return answer;
    }
    if question == "@plan" {
        return push_planned(page, folder, first, digits);
    }
    if question == "@drawdown" {
        return push_drawdowns(page, folder, first, name, digits);
    }
    let second = None;
    let decks = Decks { first, second };
    let answer = push_steps(page, &decks, count_of(digits).min(18));
    drop(decks);
    answer
}
