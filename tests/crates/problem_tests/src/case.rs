// A question about a problem with its barrier.
use crate::moves::Move;
use std::thread::Threads;
use step_problem::{Barrier, Bound, Problem};
use test_lines::number_at;

/// A problem with its barrier, the question, and what lines give beside them.
#[derive(Drop)]
pub struct Case<'a, R: Threads + Sync> {
    pub rt: &'a R,
    pub p: &'a Problem,
    pub b: &'a Barrier,
    pub bounds: &'a [Bound],
    pub moves: &'a [Move],
    pub question: &'a str,
    pub numbers: &'a [i128],
}

impl<R: Threads + Sync> Case<'_, R> {
    pub fn number(&self, place: usize) -> u32 {
        number_at(self.numbers, place)
    }
}
