// The lines that make a deck.
use crate::deck::Deck;
use crate::page::Page;
use crate::words::{first_word, number_of};
use std::alloc::AllocError;

/// Takes a line of a deck. `@deck -` begins a deck without files. A line `@file NAME` begins a file, whose lines follow
/// it, and replaces an earlier file of that name. `@read_fault N` makes the folder's read of this number fail. A line
/// `@ ..` is put on the page.
pub fn take_line(page: &mut Page, deck: &mut Deck, line: &str) -> Result<(), AllocError> {
    let (word, rest) = first_word(line);
    match word {
        "@" => Ok(page.line(line)),
        "@deck" => Ok(*deck = Deck::new(page.alloc())),
        "@file" => deck.begin_file(page.alloc(), rest),
        "@read_fault" => deck.folder.fail_at(number_of(rest)),
        _ => deck.push_line(line),
    }
}
