// Runs, and what they put.
use crate::bench::{Bench, text_of};
use crate::gates::{Meeting, MeetingSink};
use crate::views::{head_of, heads_of};
use crate::watching::push_shown;
use engine::{files_asked, serve};
use outside::{MemFolder, MemSink};
use std::alloc::{AllocError, Global};
use std::process::ExitCode;
use std::sync::Wait;
use std::thread::Threads;
use test_lines::{Answered, Page, number_of};

/// A question about a run, the words that it is given, and the question's first word, which says which put, how many views
/// or passes, or which head.
#[derive(Drop)]
pub struct Asked<'a, R: Threads + Wait + Sync> {
    pub rt: &'a R,
    pub question: &'a str,
    pub words: &'a [&'a str],
    pub first: &'a str,
}

// The number of an exit status of the program.
fn status_number(code: ExitCode) -> u8 {
    for number in 0..9u8 {
        if ExitCode::from(number) == code {
            return number;
        }
    }
    u8::MAX
}

fn push_failures(page: &mut Page, meeting: &Meeting) {
    page.line(format_args!("waits in vain {}", meeting.failures.get()));
}

// On which side of a head each pair of heads of the first view lies.
fn push_sides(page: &mut Page, shown: &str, head: &str) {
    let (Some(middle), Some(view)) = (head_of(head), shown.split("WATCH ").nth(1)) else {
        return;
    };
    for heads in view.lines().filter_map(heads_of) {
        let side = if heads.high <= middle {
            "not above"
        } else if heads.low >= middle {
            "not below"
        } else {
            "around"
        };
        page.line(format_args!("first view: {} {side} {head}", heads.place));
    }
}

fn push_passes(page: &mut Page, passes: u64, most: u64) {
    if passes <= most {
        page.line(format_args!("passes at most {most}"));
    } else {
        page.line(format_args!("passes {passes}"));
    }
}

// How many bytes of a file the words let be read.
fn limit_asked(alloc: Global, words: &[&str]) -> Result<u64, AllocError> {
    let asked = files_asked(alloc, words)?;
    let limit = asked.limit;
    drop(asked);
    Ok(limit)
}

impl<R: Threads + Wait + Sync> Asked<'_, R> {
    // The put that lacks memory, if this is the question; else 0.
    fn lacking(&self, question: &str) -> u64 {
        if self.question == question {
            number_of(self.first)
        } else {
            0
        }
    }

    // A run as the program makes it, over the files of a folder: its status.
    fn status<'s>(
        &self,
        alloc: Global,
        folder: &mut MemFolder,
        out: &'s mut MemSink,
        side: &'s mut MemSink,
        meeting: &'s Meeting,
    ) -> Result<u8, AllocError> {
        folder.set_limit(limit_asked(alloc, self.words)?);
        let mut kept = MeetingSink::new(out, meeting, self.lacking("@shake_hands"));
        let mut shown = MeetingSink::new(side, meeting, self.lacking("@lack"));
        let code = serve(
            self.rt, alloc, self.words, folder, &mut kept, &mut shown, meeting,
        );
        drop(kept);
        drop(shown);
        Ok(status_number(code))
    }

    // The status of a run over the files of a deck, and what it puts.
    fn push_run(&self, page: &mut Page, bench: &mut Bench, meeting: &Meeting) -> Answered {
        let Bench { deck, out, side } = bench;
        let status = self.status(page.alloc(), &mut deck.folder, out, side, meeting)?;
        page.line(format_args!("status {status}"));
        page.file(bench.out.bytes());
        Ok(())
    }

    // What else is asked of a run: of what it put, also to its side, or of its workers.
    fn push_rest(&self, page: &mut Page, listing: &[u8], side: &[u8], meeting: &Meeting) {
        let (number, shown) = (number_of(self.first), text_of(side));
        match self.question {
            "@watch" => push_shown(page, number, shown, text_of(listing)),
            "@lack" => {
                let views = shown.split("WATCH ").skip(1).count();
                page.line(format_args!("views put {views}"));
            }
            "@await" => {
                push_failures(page, meeting);
                push_sides(page, shown, self.first);
            }
            "@meet" => {
                push_failures(page, meeting);
                page.line(format_args!("passes {}", meeting.comparison()));
            }
            "@shake_hands" => push_failures(page, meeting),
            "@passes" => {
                page.file(side);
                push_passes(page, meeting.one.get(), number);
            }
            _ => page.file(side),
        }
    }

    /// The answer to the question.
    pub fn push_answer(&self, page: &mut Page, bench: &mut Bench) -> Answered {
        let meeting = Meeting::new(self.question);
        self.push_run(page, bench, &meeting)?;
        self.push_rest(page, bench.out.bytes(), bench.side.bytes(), &meeting);
        Ok(())
    }
}
