// Calls on the whole text as a name file or as the list of a batch, on the folder, and on names of files.
use crate::faults::{made_value, push_made};
use crate::reader::{Call, Reader};
use batch_list::read_list;
use name_file::{Package, read_names};
use outside::{
    FILE_LIMIT, Folder, FolderError, Found, MemFolder, Name, folder_name, good_name, is_good_name,
    read_input,
};
use std::str;
use test_lines::{Page, first_word, number_of};

// The names of a batch's list, after their number.
fn push_models(page: &mut Page, reader: &Reader<'_>) -> Option<()> {
    let read = read_list(page.alloc(), reader.file, reader.text);
    let names = made_value(page, read)?;
    page.word(names.len());
    for name in &names {
        page.word(name.as_str());
    }
    Some(drop(names))
}

// The pairs of a name file in its order, of which there are at most ten, or the files of two of its packages.
fn push_packages(page: &mut Page, reader: &Reader<'_>) -> Option<()> {
    let read = read_names(page.alloc(), reader.file, reader.text);
    let names = made_value(page, read)?;
    if reader.call.word == "files" {
        page.word(names.file_of(Package::Bas).unwrap_or("none"));
        page.word(names.file_of(Package::Wel).unwrap_or("none"));
    } else {
        for place in 0..11 {
            if let Some((package, name)) = names.pair_at(place) {
                page.word(format_args!("{package:?} {name}"));
            }
        }
    }
    Some(drop(names))
}

/// A text after a blank, with its line feeds shown.
pub fn push_shown(page: &mut Page, bytes: &[u8]) {
    let text = str::from_utf8(bytes).unwrap_or("no text");
    for (place, line) in text.split('\n').enumerate() {
        page.text(if place == 0 { " " } else { "␊" });
        page.text(line);
    }
}

/// The text of a file, or why there is none.
pub fn push_found(page: &mut Page, found: Result<Found, FolderError>) {
    match found {
        Ok(Found::Bytes(bytes)) => push_shown(page, bytes.as_slice()),
        Ok(Found::Missing) => page.word("missing"),
        Ok(Found::TooLong) => page.word("too long"),
        Err(FolderError::Read) => page.word("read fault"),
        Err(FolderError::Memory) => page.word("memory"),
    }
}

// What a good name becomes.
fn push_named(page: &mut Page, name: &str) -> Option<()> {
    let Some(name) = good_name(name.as_bytes()) else {
        return Some(page.word("no name"));
    };
    let alloc = page.alloc();
    push_made(page, folder_name(alloc, name))?;
    let named = made_value(page, Name::new(alloc, name))?;
    Some(page.word(named.as_str()))
}

// A file of a model, if the name is a good one.
fn push_input(page: &mut Page, folder: &mut MemFolder, name: &str) -> Option<()> {
    let Some(name) = good_name(name.as_bytes()) else {
        return Some(page.word("no name"));
    };
    let read = read_input(page.alloc(), folder, name);
    let bytes = made_value(page, read)?;
    Some(push_shown(page, bytes.as_slice()))
}

// A file of the folder, which reads at most so many bytes of it.
fn push_file(page: &mut Page, folder: &mut MemFolder, call: &Call<'_>) -> Option<()> {
    let (name, limit) = first_word(call.rest);
    folder.set_limit(number_of(limit));
    let answer = if call.word == "input" {
        push_input(page, folder, name)
    } else {
        let found = folder.read_file(page.alloc(), name);
        Some(push_found(page, found))
    };
    folder.set_limit(FILE_LIMIT);
    answer
}

/// Calls on the folder, on names, on the whole text, and others on the next word.
pub fn push_of_folder(
    page: &mut Page,
    reader: &mut Reader<'_>,
    folder: &mut MemFolder,
) -> Option<()> {
    let name = reader.call.rest;
    match reader.call.word {
        "found" | "input" => push_file(page, folder, &reader.call),
        "named" => push_named(page, name),
        "taken" => Some(page.test(is_good_name(name.as_bytes()))),
        "packages" | "files" => push_packages(page, reader),
        "models" => push_models(page, reader),
        _ => reader.push_of_word(page),
    }
}
