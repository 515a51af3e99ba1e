//! Checks listings of decks with convertible layers by the calls of `gentle_run`, and prints the verdicts.
//!
//! `@deck -` begins a deck without files. A line `@file NAME` begins a file, whose lines follow it, and replaces an
//! earlier file of that name. `@check NAME LISTING DIGITS` reads the model of a name file and a listing of it, with this
//! number of digits of conductances, and prints the line of its verdict; with the name of a zone file at its end the listing
//! has flows between zones. Of files that are refused the refusal's word is printed, its file and its line.
//!
//! A line `@ ..` says what is shown, and is printed.
use convertible_reader::read_named_convertible_model;
use gentle_run::{GentleVerdict, check_listing};
use listing_io::{
    read_convertible_listing, write_no_bound, write_not_certified, write_not_gentle,
};
use model_types::{FlowModel, Grid, Limits};
use outside::{InputFault, MemFolder, good_name, read_input};
use std::alloc::Global;
use std::io;
use test_lines::{Answered, Deck, Page, answer_lines, first_word, number_of, take_line};
use zone_file::{read_zones, zone_numbers};

/// What a line `@check` names.
#[derive(Drop)]
struct Asked<'a> {
    name: &'a str,
    listing: &'a str,
    digits: u32,
    zones: &'a str,
}

fn asked_in(line: &str) -> Asked<'_> {
    let (name, rest) = first_word(line);
    let (listing, rest) = first_word(rest);
    let (digits, zones) = first_word(rest);
    Asked {
        name,
        listing,
        digits: number_of(digits) as u32,
        zones,
    }
}

fn zones_in(
    alloc: Global,
    model: &FlowModel,
    folder: &mut MemFolder,
    name: &str,
) -> Result<Option<Vec<u32>>, InputFault> {
    if name.is_empty() {
        return Ok(None);
    }
    let zones = read_zones(alloc, model, name, folder)?;
    Ok(Some(zone_numbers(alloc, zones.as_slice())?))
}

fn verdict_on(
    alloc: Global,
    folder: &mut MemFolder,
    asked: &Asked,
) -> Result<(Grid, GentleVerdict), InputFault> {
    let name = good_name(asked.name.as_bytes()).unwrap_or("m.nam");
    let (model, layers) = read_named_convertible_model(alloc, Limits::Plain, name, folder)?;
    let zones = zones_in(alloc, &model, folder, asked.zones)?;
    let zones = zones.as_deref();
    let file = good_name(asked.listing.as_bytes()).unwrap_or("m.heads");
    let bytes = read_input(alloc, folder, file)?;
    let digits = asked.digits;
    let listing = read_convertible_listing(alloc, &model, file, bytes.as_slice(), digits, zones)?;
    let verdict = check_listing(alloc, &model, &layers, &listing, digits, zones)?;
    Ok((model.grid, verdict))
}

fn push_verdict(page: &mut Page, grid: Grid, verdict: GentleVerdict) -> Answered {
    let alloc = page.alloc();
    let text = match verdict {
        GentleVerdict::Certified => return Ok(page.line("CERTIFIED")),
        GentleVerdict::Steep(at, cell) => write_not_gentle(alloc, &grid, at, cell)?,
        GentleVerdict::Fails(at, place) => write_not_certified(alloc, &grid, at, place)?,
        GentleVerdict::Refused(at, refusal) => write_no_bound(alloc, &grid, at, refusal)?,
    };
    Ok(page.file(text.as_slice()))
}

fn push_answer(page: &mut Page, deck: &mut Deck, line: &str) -> Answered {
    deck.end_file(page.alloc())?;
    match verdict_on(page.alloc(), &mut deck.folder, &asked_in(line)) {
        Ok((grid, verdict)) => push_verdict(page, grid, verdict)?,
        Err(InputFault::Refused(refusal)) => page.line(format_args!(
            "REFUSED {} {} {}",
            refusal.code.word(),
            refusal.file.as_str(),
            refusal.line
        )),
        Err(InputFault::ReadFault) => page.line("READ FAULT"),
        Err(InputFault::Memory) => page.line("MEMORY"),
    }
    Ok(())
}

fn main(rt: HostRuntime) -> io::Result<()> {
    let mut deck = Deck::new(rt.alloc());
    answer_lines(&rt, rt.alloc(), |page, line| {
        let (word, rest) = first_word(line);
        if word == "@check" {
            page.line(line);
            push_answer(page, &mut deck, rest)?;
        } else {
            take_line(page, &mut deck, line)?;
        }
        Ok(())
    })
}
