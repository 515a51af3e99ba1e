// Moves as single events on shared heads.
use crate::case::Case;
use crate::moves::Act;
use head_table::edge_words;
use relax_core::{State, apply};
use std::thread::Threads;
use step_problem::Problem;
use test_lines::{Answered, Page};

// Whether the move is an event; if so, it is made.
fn make(p: &Problem, state: &mut State, act: Act) -> bool {
    match act {
        Act::Event(event) if state.is_in_range(p) && state.names(p, event) => {
            apply(p, state, event);
            true
        }
        _ => false,
    }
}

impl<R: Threads + Sync> Case<'_, R> {
    /// Makes the moves from the barrier's heads, and puts the heads after each.
    pub fn push_events(&self, page: &mut Page) -> Answered {
        let words = edge_words(page.alloc(), self.p, self.b)?;
        let mut state = State::start(page.alloc(), words, 2)?;
        for next in self.moves {
            if make(self.p, &mut state, next.act) {
                page.bounds("heads", state.words.as_slice());
            } else {
                page.line("no event");
            }
        }
        Ok(drop(state))
    }
}
