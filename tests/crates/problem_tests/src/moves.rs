// The moves of two actors on shared heads, one after the other.
use relax_core::Event;
use step_problem::Side;
use test_lines::{first_word, number_at};

/// What an actor does: an event, a watch, nothing but to show what it has seen, or turns of a worker.
#[derive(Clone, Copy)]
pub enum Act {
    Event(Event),
    Watch,
    Seen,
    Turn { ticket: u32 },
    Work { worker: u32, turns: u32 },
    Own { worker: u32, workers: u32 },
}

#[derive(Clone, Copy)]
pub struct Move {
    pub is_first: bool,
    pub act: Act,
}

fn act_of(word: &str, actor: u32, side: Side, numbers: &[i128]) -> Option<Act> {
    let (cell, second) = (number_at(numbers, 0), number_at(numbers, 1));
    let act = match word {
        "look" => Act::Event(Event::See { actor, cell, side }),
        "raise" => Act::Event(Event::Raise { actor, cell }),
        "sink" => Act::Event(Event::Sink { actor, cell }),
        "claim" => Act::Event(Event::Claim { actor }),
        "watch" => Act::Watch,
        "seen" => Act::Seen,
        "turn" => Act::Turn { ticket: cell },
        "work" => Act::Work {
            worker: cell,
            turns: second,
        },
        "own" => Act::Own {
            worker: cell,
            workers: second,
        },
        _ => return None,
    };
    Some(act)
}

impl Move {
    /// The move of a line.
    pub fn of(line: &str, numbers: &[i128]) -> Option<Move> {
        let (word, rest) = first_word(line);
        let actor = match first_word(rest).0 {
            "first" => 0,
            "second" => 1,
            _ => return None,
        };
        let side = if line.ends_with(" HIGH") {
            Side::High
        } else {
            Side::Low
        };
        let act = act_of(word, actor, side, numbers)?;
        let is_first = actor == 0;
        Some(Move { is_first, act })
    }
}
