// The moves of a seat at a table, after which `shown` is what the seat has seen.
use cell_relax::{relax_in, tighter_of};
use head_table::{HeadSeat, HeadTable};
use step_problem::{Bound, Side};

fn show(shown: &mut [Bound], cell: usize, side: Side, head: i64) {
    match side {
        Side::Low => shown[cell].low = head,
        Side::High => shown[cell].high = head,
    }
}

/// Loads the head of a cell on a side.
pub fn look(
    table: &HeadTable,
    seat: &mut HeadSeat,
    cell: usize,
    side: Side,
    shown: &mut [Bound],
) -> i64 {
    let head = table.load(seat, side, cell);
    show(shown, cell, side, head);
    head
}

/// Raises or sinks a cell from what the seat has seen, and returns the head before.
pub fn relax(
    table: &HeadTable,
    seat: &mut HeadSeat,
    cell: usize,
    side: Side,
    shown: &mut [Bound],
) -> i64 {
    let problem = table.problem();
    problem.recall_conditions();
    let to = relax_in(problem, shown, cell, side);
    let found = table.exchange(seat, side, cell, to);
    show(shown, cell, side, tighter_of(side, found, to));
    found
}

/// Claims a ticket.
pub fn claim(table: &HeadTable, seat: &mut HeadSeat, shown: &[Bound]) -> u64 {
    table.claim(seat)
}

/// Loads both heads of each cell.
pub fn watch(table: &HeadTable, seat: &mut HeadSeat, shown: &mut [Bound]) {
    table.watch(seat, shown);
}
