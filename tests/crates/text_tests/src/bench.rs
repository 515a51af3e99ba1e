// The text that is read, and the files that it names.
use crate::reader::{Call, Reader};
use outside::{FILE_LIMIT, MemFolder};
use std::alloc::Global;
use test_lines::{Answered, Page, plain_text};

/// A text with its name for refusals, and a folder in memory.
#[derive(Drop)]
pub struct Bench {
    pub folder: MemFolder,
    file: String,
    text: String,
}

// Puts the answer of one call and a semicolon, and says whether it was refused.
fn push_call<'a>(
    page: &mut Page,
    reader: &mut Reader<'a>,
    folder: &mut MemFolder,
    call: &'a str,
) -> bool {
    if call == "comments" {
        reader.lines.skip_comments();
        return false;
    }
    reader.call = Call::of(call);
    let answer = reader.push_answer(page, folder);
    page.text(";");
    answer.is_none()
}

// Puts in one line the answers of the calls on a text in turn, up to the first refusal or beyond.
fn push_calls<'a>(
    page: &mut Page,
    mut reader: Reader<'a>,
    folder: &mut MemFolder,
    calls: &'a str,
    goes_on: bool,
) {
    for call in calls.split("; ") {
        let refused = push_call(page, &mut reader, folder, call);
        if refused && !goes_on {
            break;
        }
    }
    page.end();
}

impl Bench {
    pub fn new(alloc: Global) -> Bench {
        Bench {
            folder: MemFolder::new(alloc, FILE_LIMIT),
            file: String::new(alloc),
            text: String::new(alloc),
        }
    }

    pub fn take_text(&mut self, alloc: Global, file: &str, shown: &str) -> Answered {
        self.file = String::from_str(alloc, file)?;
        self.text = plain_text(alloc, shown)?;
        Ok(())
    }

    pub fn add_file(&mut self, alloc: Global, name: &str, shown: &str) -> Answered {
        let text = plain_text(alloc, shown)?;
        self.folder.add(name, text.as_str().as_bytes())
    }

    /// The calls in order, also after a refusal.
    pub fn push_read(&mut self, page: &mut Page, calls: &str) {
        let reader = Reader::new(self.file.as_str(), self.text.as_str().as_bytes());
        page.text("read");
        push_calls(page, reader, &mut self.folder, calls, true);
    }

    /// The calls on the text cut before each line feed and after it.
    pub fn push_cuts(&mut self, page: &mut Page, calls: &str) {
        let text = self.text.as_str().as_bytes();
        for (place, byte) in text.iter().enumerate() {
            if *byte == b'\n' {
                for end in [place, place.saturating_add(1)] {
                    let reader = Reader::new(self.file.as_str(), text.get(..end).unwrap_or(&[]));
                    page.text("cut");
                    push_calls(page, reader, &mut self.folder, calls, false);
                }
            }
        }
    }
}
