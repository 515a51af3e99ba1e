// Batches of jobs, which several workers run.
use batch_book::{Jobs, run_batch};
use std::alloc::{AllocError, Global};
use std::sync::Wait;
use std::thread::Threads;
use test_lines::{Count, Page, number_at};

/// Jobs, each of whose ends is the square of the job's number. The first calls have no memory.
#[derive(Drop)]
struct Squares {
    count: u32,
    without_memory: u64,
    calls: Count,
}

impl Jobs for Squares {
    type End = u64;

    ghost number = { λ s. s.count };

    ghost is_end = { λ s job e. e ≡ job * job };

    fn count(&self) -> u32 {
        self.count
    }

    fn end_of(&self, _alloc: Global, job: u32) -> Result<u64, AllocError> {
        if self.calls.add() < self.without_memory {
            return Err(AllocError);
        }
        Ok(u64::from(job) * u64::from(job))
    }
}

fn push_ends(page: &mut Page, answer: &Result<Vec<u64>, AllocError>) {
    match answer {
        Err(AllocError) => page.text("memory"),
        Ok(ends) => {
            page.text("ends");
            for end in ends {
                page.word(*end);
            }
        }
    }
}

/// A batch of squares: the numbers are those of jobs, workers and calls without memory.
pub fn push_batch<R: Threads + Wait + Sync>(rt: &R, page: &mut Page, numbers: &[i128]) {
    let workers = number_at(numbers, 1);
    if workers == 0 || workers > 64 {
        return page.line("no batch");
    }
    let jobs = Squares {
        count: number_at(numbers, 0),
        without_memory: u64::from(number_at(numbers, 2)),
        calls: Count::default(),
    };
    let gate = Count::default();
    push_ends(page, &run_batch(rt, page.alloc(), &jobs, workers, &gate));
    page.line(format_args!(" passes {}", gate.get()));
}
