// Guessed heads, pairs that are certificates by tested guesses, and guesses that may be wrong.
use crate::answers::push_settled;
use crate::case::Case;
use certified_pair::{BalancedGuesser, PairGuesser, QuickPairs, certified_pair};
use head_guess::{Failed, Guess, Kept, guess_heads, guess_in_two_threads};
use near_settler::Guesser;
use settle_driver::PlainSettler;
use std::alloc::{AllocError, Global};
use std::cell::Cell;
use std::thread::Threads;
use step_problem::{Barrier, Bound, Problem, Settler};
use test_lines::{Answered, Page};

/// Guesses these bounds, with an order that names no cell, and counts its guesses.
#[derive(Drop)]
pub struct Spoilt<'a> {
    bounds: &'a [Bound],
    guesses: &'a Cell<u32>,
}

impl<'a> Spoilt<'a> {
    pub fn new(bounds: &'a [Bound], guesses: &'a Cell<u32>) -> Spoilt<'a> {
        Spoilt { bounds, guesses }
    }
}

impl Guesser for Spoilt<'_> {
    fn guess(
        &self,
        alloc: Global,
        _p: &Problem,
        _b: &Barrier,
        _kept: &mut Kept,
    ) -> Result<Guess, AllocError> {
        self.guesses.set(self.guesses.get().wrapping_add(1));
        Ok(Guess {
            bounds: Vec::from_slice(alloc, self.bounds)?,
            order: Vec::from_slice(alloc, &[u32::MAX])?,
        })
    }
}

// Pairs are these bounds, and then bounds that are a unit wider.
impl PairGuesser for Spoilt<'_> {
    fn guess(
        &self,
        alloc: Global,
        _p: &Problem,
        _b: &Barrier,
        failed: Option<Failed>,
        _kept: &mut Kept,
    ) -> Result<Vec<Bound>, AllocError> {
        let Some(failed) = failed else {
            return Vec::from_slice(alloc, self.bounds);
        };
        let wider = |bound: &Bound| Bound {
            low: bound.low.saturating_sub(1),
            high: bound.high.saturating_add(1),
        };
        failed.pair.iter().map(wider).collect(alloc)
    }
}

impl<R: Threads + Sync> Case<'_, R> {
    // The last of some guesses, each of which begins with what the one before kept: on one thread, or in two.
    fn last_guess(
        &self,
        alloc: Global,
        is_beside: bool,
        kept: &mut Kept,
    ) -> Result<Vec<Bound>, AllocError> {
        let mut bounds = Vec::new(alloc);
        for _ in 0..self.number(0).max(1) {
            let guess = if is_beside {
                guess_in_two_threads(self.rt, alloc, self.p, self.b, kept)?
            } else {
                guess_heads(alloc, self.p, self.b, kept)?
            };
            bounds = guess.bounds;
        }
        Ok(bounds)
    }

    /// The last of some guesses on one thread, and in two.
    pub fn push_guesses(&self, page: &mut Page) -> Answered {
        for (word, is_beside) in [("guessed", false), ("beside", true)] {
            let mut kept = Kept::new();
            let bounds = self.last_guess(page.alloc(), is_beside, &mut kept);
            drop(kept);
            page.bounds(word, bounds?.as_slice());
        }
        Ok(())
    }

    // The pair by these guesses, if one passes.
    fn push_certified<G: PairGuesser>(&self, page: &mut Page, guesser: &G) -> Answered {
        let mut kept = Kept::new();
        let found = certified_pair(guesser, page.alloc(), self.p, self.b, &mut kept);
        drop(kept);
        match found? {
            Some(pair) => page.bounds("pair", pair.as_slice()),
            None => page.line("no pair"),
        }
        Ok(())
    }

    // The pair by these guesses, and then the pair of a step that settles by sweeps where none passes.
    fn push_by<G: PairGuesser>(&self, page: &mut Page, guesser: G) -> Answered {
        self.push_certified(page, &guesser)?;
        let mut pairs = QuickPairs::with_guesser(PlainSettler::new(self.number(0)), guesser);
        let answer = pairs.settle(page.alloc(), self.p, self.b);
        drop(pairs);
        match answer {
            Ok(bounds) => page.bounds("step", bounds.as_slice()),
            fault => push_settled(page, fault),
        }
        Ok(())
    }

    /// The pair of a problem by balanced heads, or by the given bounds, and the pair of a step.
    pub fn push_pair(&self, page: &mut Page) -> Answered {
        if self.question == "pair" {
            return self.push_by(page, BalancedGuesser);
        }
        self.push_by(page, Spoilt::new(self.bounds, &Cell::new(0)))
    }
}
