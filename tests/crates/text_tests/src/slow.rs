// A reader and a writer that never fail: they take a byte at a time, and a signal interrupts each call the first time.
use crate::files::{push_found, push_shown};
use crate::sinks::push_puts;
use outside::{RealSink, read_whole};
use std::io;
use test_lines::{Answered, Page, plain_text};

// The second of each two calls is made; the first is interrupted.
#[derive(Drop)]
struct Turns(bool);

impl Turns {
    fn take(&mut self) -> io::Result<()> {
        self.0 = !self.0;
        if self.0 {
            return Err(io::Error::from(io::ErrorKind::Interrupted));
        }
        Ok(())
    }
}

#[derive(Drop)]
struct SlowReader<'a> {
    rest: &'a [u8],
    turns: Turns,
}

impl io::Read for SlowReader<'_> {
    fn read(&mut self, buf: &mut [u8]) -> io::Result<usize> {
        self.turns.take()?;
        if self.rest.is_empty() || buf.is_empty() {
            return Ok(0);
        }
        buf[0] = self.rest[0];
        self.rest = &self.rest[1..];
        Ok(1)
    }
}

#[derive(Drop)]
struct SlowWriter<'a> {
    taken: &'a mut Vec<u8>,
    turns: Turns,
}

impl io::Write for SlowWriter<'_> {
    fn write(&mut self, buf: &[u8]) -> io::Result<usize> {
        self.turns.take()?;
        if buf.is_empty() {
            return Ok(0);
        }
        self.taken.push(buf[0])?;
        Ok(1)
    }

    fn flush(&mut self) -> io::Result<()> {
        Ok(())
    }
}

/// What is read of a text.
pub fn push_slow_reader(page: &mut Page, limit: u64, text: &str) -> Answered {
    let text = plain_text(page.alloc(), text)?;
    let mut reader = SlowReader {
        rest: text.as_str().as_bytes(),
        turns: Turns(false),
    };
    let found = read_whole(page.alloc(), &mut reader, limit);
    page.text("slow_reader");
    push_found(page, found);
    Ok(page.end())
}

/// Whether each piece was kept, and all that was written.
pub fn push_slow_sink(page: &mut Page, calls: &str) -> Answered {
    let mut taken = Vec::new(page.alloc());
    let mut sink = RealSink::new(SlowWriter {
        taken: &mut taken,
        turns: Turns(false),
    });
    page.text("slow_sink");
    let answer = push_puts(page, &mut sink, calls);
    drop(sink);
    push_shown(page, taken.as_slice());
    page.end();
    answer
}
