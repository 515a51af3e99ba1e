//! Answers questions about problems in standard input, on their barriers, heads, certificates and budgets, and prints the
//! answers.
//!
//! `problem` begins a problem, and `cell ID` a cell of it, whose entries follow, each bound from below and above:
//! `link INDEX C C`, `storage C C HEAD HEAD` (or `general`; `constant` with its cell number first), `well FLOW FLOW` (or
//! `recharge`), `river C C STAGE STAGE BOTTOM BOTTOM`, `drain C C ELEVATION ELEVATION`, `evaporation C C EXTINCTION
//! EXTINCTION SURFACE SURFACE`. `row COUNT` gives cells in a row, each beside a general head of its own, from 0 to 9 in
//! turn. `planned` makes what was given that of a base plan, and the other plan follows; `differences OLD OLD ..` makes the problem of the
//! differences of the two plans' heads of them, with the old differences by cell number.
//!
//! Asked are `fits` (how many cells the problem has, where it is one), `raised INDEX HEAD HEAD ..` and `sunk` (the raise and
//! sink values of a cell at its own head and those of its links), `barrier`, `guess`, `sweeps ROUNDS`, `workers WORKERS TURNS
//! ROUNDS`, `phases WORKERS TURNS ROUNDS` and `run WORKERS TURNS ROUNDS` (these with the passes of a gate), `whole_phases
//! WORKERS TURNS ROUNDS PASSES` (these alone, by those of a phase), and `listed SWEEPS INDEX ..`. `spoilt WORKERS TURNS ROUNDS` settles as a run does and on one thread, where the bounds of `heads` are the
//! guess; `twice WORKERS TURNS ROUNDS` settles two steps of the same problem, with the passes of the gate and the guesses at
//! each. `heads LOW HIGH ..` are bounds of the cells, of which `check`, `budget` and `near TRIALS SWEEPS` (from the bounds,
//! then by one round) are asked. `pair ROUNDS` gives the pair by a tested guess of balanced heads, and the pair of a step that
//! settles by `ROUNDS` sweeps where no guess passes; `spoilt_pair ROUNDS` the same, where the bounds of `heads` are the guess,
//! and then bounds a unit wider.
//!
//! `moves` begins moves of two actors, `first` and `second`, on shared heads that begin at the barrier: `look ACTOR INDEX
//! SIDE`, `raise ACTOR INDEX`, `sink ACTOR INDEX`, `claim ACTOR`, `watch ACTOR`, `seen ACTOR` (what it has seen last),
//! `turn ACTOR TICKET`, `work ACTOR WORKER TURNS` and `own ACTOR WORKER WORKERS`. `events` makes them as events and prints
//! the heads after each, `seats` makes them at a table and prints what each found.
//!
//! `system COUNT` solves a system whose solution is known; `products HALF` takes inner products of twice HALF unknowns and
//! residuals at their limits, and of a unit of each. `network MOST COUNT GROUND .. FLOW .. [NODE NODE WEIGHT] ..` finds the
//! heads of COUNT nodes by elimination, if that takes at most MOST operations, and `fit COUNT GROUND .. FLOW .. [NODE NODE
//! WEIGHT] ..` says whether the pattern of nodes without links fits these. `batch COUNT WORKERS CALLS` runs jobs whose ends are
//! the squares of their numbers, with the passes of a gate; this many first calls have no memory. A line `@ ..` says what is
//! shown, and is printed.
mod answers;
mod batches;
mod case;
mod entries;
mod events;
mod exchanges;
mod given;
mod guesses;
mod moves;
mod networks;
mod questions;
mod seats;
mod settling;
mod solvers;

use given::Given;
use questions::push_answer;
use std::io;
use test_lines::answer_lines;

fn main(rt: HostRuntime) -> io::Result<()> {
    let mut given = Given::new(rt.alloc());
    answer_lines(&rt, rt.alloc(), |page, line| {
        push_answer(&rt, page, &mut given, line)?;
        Ok(())
    })
}
