// The data of the lines so far.
use crate::entries::{cell_of_row, empty_cell, push_entry};
use crate::moves::Move;
use plan_step::difference_problem;
use std::alloc::{AllocError, Global};
use std::mem;
use step_problem::{Bound, Cell, Problem, fits};
use test_lines::{bounds_of, number_at};

/// The cells so far of a problem that isn't finished, a problem, bounds of its heads, and moves on them; and the problem and heads of
/// a base plan, where the others are those of another plan.
#[derive(Drop)]
pub struct Given {
    cells: Vec<Cell>,
    pub problem: Option<Problem>,
    pub bounds: Vec<Bound>,
    pub moves: Vec<Move>,
    base: Option<Problem>,
    base_bounds: Vec<Bound>,
}

impl Given {
    pub fn new(alloc: Global) -> Given {
        Given {
            cells: Vec::new(alloc),
            problem: None,
            bounds: Vec::new(alloc),
            moves: Vec::new(alloc),
            base: None,
            base_bounds: Vec::new(alloc),
        }
    }

    // What was given becomes that of the base plan.
    fn begin_plan(&mut self, alloc: Global) {
        self.finish(alloc);
        let base = mem::replace(self, Given::new(alloc));
        self.base = base.problem;
        self.base_bounds = base.bounds;
    }

    // The problem of the differences of the two plans' heads in place of what was given.
    fn take_differences(&mut self, alloc: Global, old: &[Bound]) -> Result<(), AllocError> {
        self.finish(alloc);
        let (Some(base), Some(planned)) = (&self.base, &self.problem) else {
            return Ok(());
        };
        let next = difference_problem(
            alloc,
            base,
            planned,
            self.base_bounds.as_slice(),
            self.bounds.as_slice(),
            old,
        )?;
        *self = Given::new(alloc);
        self.problem = Some(next);
        Ok(())
    }

    // Whether a line is a part of the problem.
    fn take_entry(
        &mut self,
        alloc: Global,
        word: &str,
        numbers: &[i128],
    ) -> Result<bool, AllocError> {
        let count = number_at(numbers, 0);
        match word {
            "cell" => self.cells.push(empty_cell(alloc, count))?,
            "row" => {
                for index in 0..count {
                    self.cells.push(cell_of_row(alloc, index, count)?)?;
                }
            }
            _ => {
                return match self.cells.last_mut() {
                    Some(cell) => push_entry(cell, word, numbers),
                    None => Ok(false),
                };
            }
        }
        Ok(true)
    }

    /// Whether a line gives data; if so, they are taken.
    pub fn take(
        &mut self,
        alloc: Global,
        word: &str,
        line: &str,
        numbers: &[i128],
    ) -> Result<bool, AllocError> {
        match word {
            "problem" => drop(mem::replace(self, Given::new(alloc))),
            "heads" => self.bounds = bounds_of(alloc, numbers)?,
            "moves" => self.moves = Vec::new(alloc),
            "planned" => self.begin_plan(alloc),
            "differences" => self.take_differences(alloc, &bounds_of(alloc, numbers)?)?,
            _ => {
                let Some(next) = Move::of(line, numbers) else {
                    return self.take_entry(alloc, word, numbers);
                };
                self.moves.push(next)?;
            }
        }
        Ok(true)
    }

    /// Makes the problem of the cells so far, if they make one.
    pub fn finish(&mut self, alloc: Global) {
        if self.problem.is_none() && fits(self.cells.as_slice()) {
            let cells = mem::replace(&mut self.cells, Vec::new(alloc));
            self.problem = Some(Problem::new(cells));
        }
    }
}
