// Two seats at a table of a problem's heads: what one raises or sinks the other sees by a load, and not before.
use crate::case::Case;
use crate::exchanges::{claim, look, relax, watch};
use crate::moves::{Act, Move};
use head_table::{HeadSeat, HeadTable, edge_words};
use outside::FreeGate;
use relax_core::Event;
use relax_worker::{own_turns, turn, work};
use std::thread::Threads;
use step_problem::{Bound, Side};
use test_lines::{Answered, Page};

// A seat, and what it has seen.
#[derive(Drop)]
struct Actor {
    seat: HeadSeat,
    shown: Vec<Bound>,
}

// The turns of a worker at a problem with a cell. The workers are numbered from 1 to 64.
fn take_turns(table: &HeadTable, seat: &mut HeadSeat, act: Act) {
    match act {
        Act::Turn { ticket } => turn(table, seat, ticket as u64),
        Act::Work { worker, turns } => work(table, seat, worker, turns, &FreeGate),
        Act::Own { worker, workers } if 1 <= worker && worker <= workers && workers <= 64 => {
            own_turns(table, seat, worker, workers);
        }
        _ => {}
    }
}

// What an event at a cell finds, if there is the cell.
fn found_at(
    table: &HeadTable,
    seat: &mut HeadSeat,
    shown: &mut [Bound],
    event: Event,
) -> Option<i64> {
    let cells = table.problem().len();
    match event {
        Event::See { cell, side, .. } if (cell as usize) < cells => {
            Some(look(table, seat, cell as usize, side, shown))
        }
        Event::Raise { cell, .. } if (cell as usize) < cells => {
            Some(relax(table, seat, cell as usize, Side::Low, shown))
        }
        Event::Sink { cell, .. } if (cell as usize) < cells => {
            Some(relax(table, seat, cell as usize, Side::High, shown))
        }
        _ => None,
    }
}

// Makes a move, and puts what it finds; after turns the seat watches.
fn make_move(
    page: &mut Page,
    table: &HeadTable,
    seat: &mut HeadSeat,
    shown: &mut [Bound],
    act: Act,
) {
    match act {
        Act::Event(Event::Claim { .. }) => {
            let ticket = claim(table, seat, shown);
            page.line(format_args!("ticket {ticket}"));
        }
        Act::Event(event) => match found_at(table, seat, shown, event) {
            Some(found) => page.line(format_args!("found {found}")),
            None => page.line("no cell"),
        },
        Act::Seen => page.bounds("seen", shown),
        _ => {
            if !table.problem().is_empty() {
                take_turns(table, seat, act);
            }
            watch(table, seat, shown);
            page.bounds("seen", shown);
        }
    }
}

impl Actor {
    fn make(&mut self, page: &mut Page, table: &HeadTable, act: Act) {
        make_move(page, table, &mut self.seat, self.shown.as_mut_slice(), act);
    }
}

fn play(page: &mut Page, table: &HeadTable, first: &mut Actor, second: &mut Actor, moves: &[Move]) {
    for next in moves {
        if next.is_first {
            first.make(page, table, next.act);
        } else {
            second.make(page, table, next.act);
        }
    }
}

impl<R: Threads + Sync> Case<'_, R> {
    /// Makes the moves at a table that begins with the barrier's heads, and puts what each finds and the heads at the end.
    pub fn push_seats(&self, page: &mut Page) -> Answered {
        let alloc = page.alloc();
        let words = edge_words(alloc, self.p, self.b)?;
        let shown = Vec::from_slice(alloc, words.as_slice())?;
        let (table, mut seat) = HeadTable::new(alloc, self.p, self.b, &words)?;
        let mut second = Actor {
            seat: table.split(&mut seat),
            shown,
        };
        let mut first = Actor { seat, shown: words };
        watch(&table, &mut first.seat, first.shown.as_mut_slice());
        watch(&table, &mut second.seat, second.shown.as_mut_slice());
        play(page, &table, &mut first, &mut second, self.moves);
        table.join(&mut first.seat, second.seat);
        let closed = table.close(first.seat);
        drop(first.shown);
        drop(second.shown);
        page.bounds("closed", closed?.as_slice());
        Ok(())
    }
}
