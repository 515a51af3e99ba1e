// The page of a line's answers.
use std::alloc::{AllocError, Global};
use std::{fmt, io, str};

/// The end of what answers a question: out of memory, or nothing to say.
pub type Answered = Result<(), AllocError>;

/// Text that is to be printed. Once memory has ended it isn't whole, and is never printed.
#[derive(Drop)]
pub struct Page {
    alloc: Global,
    text: String,
    is_whole: bool,
}

impl Page {
    pub fn new(alloc: Global) -> Page {
        Page {
            alloc,
            text: String::new(alloc),
            is_whole: true,
        }
    }

    pub fn alloc(&self) -> Global {
        self.alloc
    }

    pub fn text(&mut self, text: &str) {
        self.is_whole &= self.text.push_str(text).is_ok();
    }

    pub fn value(&mut self, value: impl fmt::Display + Drop) {
        match format!(in self.alloc; "{value}") {
            Ok(text) => self.text(text.as_str()),
            Err(_) => self.is_whole = false,
        }
    }

    /// A blank and a value.
    pub fn word(&mut self, value: impl fmt::Display + Drop) {
        self.text(" ");
        self.value(value);
    }

    /// Whether something holds.
    pub fn test(&mut self, holds: bool) {
        self.word(if holds { "yes" } else { "no" });
    }

    /// A value, which ends the line.
    pub fn line(&mut self, value: impl fmt::Display + Drop) {
        self.value(value);
        self.end();
    }

    /// Ends the line.
    pub fn end(&mut self) {
        self.text("\n");
    }

    /// A line of these bytes.
    pub fn bytes(&mut self, text: Result<Vec<u8>, AllocError>) {
        match text {
            Ok(text) => self.line(str::from_utf8(text.as_slice()).unwrap_or("no text")),
            Err(AllocError) => self.is_whole = false,
        }
    }

    /// A file's text, with a mark after it if its last line isn't ended.
    pub fn file(&mut self, bytes: &[u8]) {
        let text = str::from_utf8(bytes).unwrap_or("not a text");
        self.text(text);
        if !text.is_empty() && !text.ends_with('\n') {
            self.text("<cut>\n");
        }
    }

    /// Prints the page, or ends the program where it isn't whole.
    pub fn print(self, rt: &impl Print) -> io::Result<()> {
        if !self.is_whole {
            return Err(io::Error::from(io::ErrorKind::OutOfMemory));
        }
        rt.print(self.text)
    }
}

/// Prints the page of each line of standard input, in order.
pub fn answer_lines<F: FnMut(&mut Page, &str) -> io::Result<()>>(
    rt: &(impl Input + Print),
    alloc: Global,
    mut answer: F,
) -> io::Result<()> {
    for line in rt.lines(alloc) {
        let line = line?;
        let mut page = Page::new(alloc);
        answer(&mut page, line.as_str())?;
        page.print(rt)?;
    }
    Ok(())
}
