//! The lines of programs of tests: their words and numbers, the files of decks that they give, and the page of the answers.
mod deck;
mod gates;
mod lines;
mod page;
mod problem;
mod values;
mod words;

pub use deck::Deck;
pub use gates::Count;
pub use lines::take_line;
pub use page::{Answered, Page, answer_lines};
pub use words::{
    bounds_of, conductance_at, count_of, first_word, head_at, number_at, number_of, numbers_of,
    plain_text, wide_at,
};
