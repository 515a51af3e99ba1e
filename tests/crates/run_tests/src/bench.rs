// A deck, and the sinks of the next run.
use outside::MemSink;
use std::alloc::{AllocError, Global};
use std::str;
use test_lines::Deck;

/// The files of a deck, and the sinks of the next run.
#[derive(Drop)]
pub struct Bench {
    pub deck: Deck,
    pub out: MemSink,
    pub side: MemSink,
}

/// The words of a line, separated by blanks.
pub fn words_of(alloc: Global, line: &str) -> Result<Vec<&str>, AllocError> {
    line.split(' ').collect(alloc)
}

/// The text of bytes.
pub fn text_of(bytes: &[u8]) -> &str {
    str::from_utf8(bytes).unwrap_or("not a text")
}

impl Bench {
    pub fn new(alloc: Global) -> Bench {
        Bench {
            deck: Deck::new(alloc),
            out: MemSink::new(alloc),
            side: MemSink::new(alloc),
        }
    }

    /// Begins sinks without bytes and faults.
    pub fn begin_sinks(&mut self, alloc: Global) {
        self.out = MemSink::new(alloc);
        self.side = MemSink::new(alloc);
    }
}
