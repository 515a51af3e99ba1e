// The files of a deck, given as lines of a text.
use outside::{FILE_LIMIT, MemFolder};
use std::alloc::{AllocError, Global};

/// Files in memory, and the current file, which has no name between files.
#[derive(Drop)]
pub struct Deck {
    pub folder: MemFolder,
    pub name: String,
    pub text: String,
}

impl Deck {
    /// A deck without files.
    pub fn new(alloc: Global) -> Deck {
        Deck {
            folder: MemFolder::new(alloc, FILE_LIMIT),
            name: String::new(alloc),
            text: String::new(alloc),
        }
    }

    /// Adds a line to the file.
    pub fn push_line(&mut self, line: &str) -> Result<(), AllocError> {
        self.text.push_str(line)?;
        self.text.push_str("\n")
    }

    /// Ends the file, and begins one of this name, which replaces an earlier one.
    pub fn begin_file(&mut self, alloc: Global, name: &str) -> Result<(), AllocError> {
        self.end_file(alloc)?;
        self.name = String::from_str(alloc, name)?;
        Ok(())
    }

    /// Ends the file.
    pub fn end_file(&mut self, alloc: Global) -> Result<(), AllocError> {
        self.folder
            .add(self.name.as_str(), self.text.as_str().as_bytes())?;
        self.name = String::new(alloc);
        self.text = String::new(alloc);
        Ok(())
    }
}
