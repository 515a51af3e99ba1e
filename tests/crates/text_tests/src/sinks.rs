// Sinks in memory, in a file, and over a writer that takes one byte.
use crate::files::push_shown;
use outside::{FreeGate, Gate, MemSink, RealSink, Sink, SinkError};
use std::{fs, io};
use test_lines::{Answered, Page, first_word, number_of, plain_text};

const WRITTEN: &str = "written.txt";

// Whether a piece was kept.
fn push_kept(page: &mut Page, kept: Result<(), SinkError>) {
    page.word(match kept {
        Ok(()) => "Ok(());",
        Err(SinkError::Write) => "Err(Write);",
        Err(SinkError::Memory) => "Err(Memory);",
    });
}

/// Puts the pieces, and whether each was kept.
pub fn push_puts<S: Sink>(page: &mut Page, sink: &mut S, calls: &str) -> Answered {
    for call in calls.split("; ") {
        if let ("put", piece) = first_word(call) {
            let piece = plain_text(page.alloc(), piece)?;
            let kept = sink.put(piece.as_str().as_bytes());
            drop(piece);
            push_kept(page, kept);
        }
    }
    Ok(())
}

/// A sink in memory, and its bytes afterwards. A gate that does nothing is passed first.
pub fn push_sink(page: &mut Page, calls: &str) -> Answered {
    let mut sink = MemSink::new(page.alloc());
    for call in calls.split("; ") {
        if let ("fail", rest) = first_word(call) {
            let (call, kept) = first_word(rest);
            sink.fail_at(number_of(call), number_of(kept))?;
        }
    }
    FreeGate.pass(1, 0);
    page.text("sink");
    push_puts(page, &mut sink, calls)?;
    push_shown(page, sink.bytes());
    Ok(page.end())
}

/// A sink in a file, and the bytes of the file afterwards.
pub fn push_disk_sink(rt: &HostRuntime, page: &mut Page, calls: &str) -> io::Result<()> {
    let mut sink = RealSink::new(fs::create(rt, WRITTEN)?);
    page.text("disk_sink");
    push_puts(page, &mut sink, calls)?;
    let text = fs::read_to_string(rt, WRITTEN)?;
    push_shown(page, text.as_str().as_bytes());
    Ok(page.end())
}

// Takes one byte, after a write that a signal interrupts, and then nothing: the number counts how often it was called.
#[derive(Drop)]
struct TakesOneByte(u32);

impl io::Write for TakesOneByte {
    fn write(&mut self, buf: &[u8]) -> io::Result<usize> {
        self.0 = self.0.saturating_add(1);
        match self.0 {
            1 => Err(io::Error::from(io::ErrorKind::Interrupted)),
            2 => Ok(buf.len().min(1)),
            _ => Ok(0),
        }
    }

    fn flush(&mut self) -> io::Result<()> {
        Ok(())
    }
}

pub fn push_full_sink(page: &mut Page, calls: &str) -> Answered {
    let mut sink = RealSink::new(TakesOneByte(0));
    page.text("full_sink");
    push_puts(page, &mut sink, calls)?;
    Ok(page.end())
}
