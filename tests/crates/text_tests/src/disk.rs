// The real folder, and a reader that fails.
use crate::files::push_found;
use crate::given::given_name;
use outside::{Folder, RealFolder, folder_name, read_whole};
use std::rt::Files;
use std::{fs, io};
use test_lines::{Answered, Page, first_word, plain_text};

// What a folder has under one of the names that were given to it. It is asked for no other.
fn push_asked<F: Folder>(page: &mut Page, folder: &mut F, names: &[&str], name: &str) -> Answered {
    match given_name(names, name) {
        None => page.word("not given"),
        Some(given) => {
            let asked = folder_name(page.alloc(), given)?;
            let found = folder.read_file(page.alloc(), asked.as_str());
            push_found(page, found);
        }
    }
    Ok(())
}

// Makes a file or a folder, or puts what the folder has under a name.
fn disk_call<R: Files, F: Folder>(
    rt: &R,
    page: &mut Page,
    folder: &mut F,
    names: &[&str],
    call: &str,
) -> io::Result<()> {
    let (word, rest) = first_word(call);
    let (name, more) = first_word(rest);
    match word {
        "write" => fs::write(rt, name, plain_text(page.alloc(), more)?.as_str()),
        "make" => fs::create_dir(rt, name),
        _ => {
            push_asked(page, folder, names, name)?;
            Ok(page.text(";"))
        }
    }
}

// Makes files and folders, and puts the answers of a folder that these names and this limit were given to.
fn push_calls<R: Files>(
    rt: &R,
    page: &mut Page,
    names: &[&str],
    limit: u64,
    calls: &str,
) -> io::Result<()> {
    let mut folder = RealFolder::new(rt, page.alloc(), names, limit);
    page.text("disk");
    for call in calls.split("; ") {
        disk_call(rt, page, &mut folder, names, call)?;
    }
    Ok(page.end())
}

/// Makes files and folders, and puts the answers of a folder with this limit.
pub fn push_disk<R: Files>(rt: &R, page: &mut Page, limit: u64, calls: &str) -> io::Result<()> {
    let names = [
        "three.txt",
        "four.txt",
        "folder.txt",
        "three.txt/a.txt",
        "model.txt",
        "later.txt",
        "long.txt",
    ];
    push_calls(rt, page, &names, limit, calls)
}

// Gives two bytes at each of two reads, between which a signal interrupts one, and then fails.
#[derive(Drop)]
struct FailsInMidStream(u32);

impl io::Read for FailsInMidStream {
    fn read(&mut self, buf: &mut [u8]) -> io::Result<usize> {
        self.0 = self.0.saturating_add(1);
        match self.0 {
            1 | 3 if buf.len() >= 2 => Ok(2),
            2 => Err(io::Error::from(io::ErrorKind::Interrupted)),
            _ => Err(io::Error::from(io::ErrorKind::TimedOut)),
        }
    }
}

/// An interrupted read is made again. Past the limit no further read is made.
pub fn push_reader(page: &mut Page, limit: u64) {
    let found = read_whole(page.alloc(), &mut FailsInMidStream(0), limit);
    page.text("reader");
    push_found(page, found);
    page.end();
}
