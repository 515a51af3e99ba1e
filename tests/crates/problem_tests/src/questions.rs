// Questions about a problem.
use crate::answers::{push_barrier, push_budget, push_fault, push_verdict};
use crate::batches::push_batch;
use crate::case::Case;
use crate::given::Given;
use crate::networks::push_network;
use crate::solvers::{push_products, push_system};
use barrier_vector::barrier;
use budget_bounds::budget;
use cell_relax::{are_words, raise_to, sink_to};
use certificate_check::check_step;
use std::sync::Wait;
use std::thread::Threads;
use step_problem::{BoundFault, Problem, are_heads, is_head};
use test_lines::{Answered, Page, first_word, head_at, number_at, numbers_of};

// The raise or the sink value of a cell, at its own head and those of its links.
fn push_relaxed_of(page: &mut Page, p: &Problem, question: &str, numbers: &[i128], values: &[i64]) {
    let (cell, own) = (number_at(numbers, 0) as usize, head_at(numbers, 1));
    if cell >= p.len() || !is_head(own) || !are_heads(values) {
        return page.line("no heads");
    }
    if p.cell(cell).links.len() != values.len() {
        return page.line("no heads of this cell");
    }
    let head = match question {
        "raised" => raise_to(p, cell, own, values),
        _ => sink_to(p, cell, own, values),
    };
    page.line(format_args!("{question} {head}"));
}

// The same, by the heads of the links after the cell and its own head.
fn push_relaxed(page: &mut Page, p: &Problem, question: &str, numbers: &[i128]) -> Answered {
    let mut values = Vec::new(page.alloc());
    for place in 2..numbers.len() {
        values.push(head_at(numbers, place))?;
    }
    push_relaxed_of(page, p, question, numbers, values.as_slice());
    Ok(drop(values))
}

impl<R: Threads + Sync> Case<'_, R> {
    // The certificate or the budget of the bounds.
    fn push_of_bounds(&self, page: &mut Page) {
        if !are_words(self.p, self.bounds) {
            return page.line("no bounds of this problem");
        }
        if self.question == "check" {
            push_verdict(page, check_step(self.p, self.b, self.bounds));
        } else {
            push_budget(page, budget(self.p, self.bounds));
        }
    }

    fn push_answer(&self, page: &mut Page) -> Answered {
        match self.question {
            "barrier" => push_barrier(page, self.b),
            "check" | "budget" => self.push_of_bounds(page),
            "events" => return self.push_events(page),
            "seats" => return self.push_seats(page),
            "guess" => return self.push_guesses(page),
            "pair" | "spoilt_pair" => return self.push_pair(page),
            "sweeps" => self.push_sweeps(page),
            "listed" => return self.push_listed(page),
            "near" => return self.push_near(page),
            "whole_phases" => return self.push_whole_phases(page),
            _ => self.push_by_plan(page),
        }
        Ok(())
    }
}

// The answer to a question about a problem, most often with its barrier, or why there is no barrier.
fn push_of_problem<R: Threads + Sync>(
    rt: &R,
    page: &mut Page,
    p: &Problem,
    given: &Given,
    question: &str,
    numbers: &[i128],
) -> Answered {
    match question {
        "fits" => return Ok(page.line(format_args!("cells {}", p.len()))),
        "raised" | "sunk" => return push_relaxed(page, p, question, numbers),
        _ => {}
    }
    let b = match barrier(page.alloc(), p) {
        Ok(b) => b,
        Err(BoundFault::NoBound(fault)) => return Ok(push_fault(page, fault)),
        Err(BoundFault::Memory) => return Ok(page.line("memory")),
    };
    let case = Case {
        rt,
        p,
        b: &b,
        bounds: given.bounds.as_slice(),
        moves: given.moves.as_slice(),
        question,
        numbers,
    };
    let answer = case.push_answer(page);
    drop(b);
    answer
}

// Takes what a line gives, or puts the answer to its question.
fn push_line<R: Threads + Wait + Sync>(
    rt: &R,
    page: &mut Page,
    given: &mut Given,
    line: &str,
    numbers: &[i128],
) -> Answered {
    let (word, _) = first_word(line);
    if given.take(page.alloc(), word, line, numbers)? {
        return Ok(());
    }
    match word {
        "@" => Ok(page.line(line)),
        "system" => push_system(page, number_at(numbers, 0)),
        "products" => push_products(page, number_at(numbers, 0)),
        "network" | "fit" => push_network(page, numbers, word == "fit"),
        "batch" => Ok(push_batch(rt, page, numbers)),
        _ => {
            given.finish(page.alloc());
            match &given.problem {
                Some(p) => push_of_problem(rt, page, p, given, word, numbers),
                None => Ok(page.line("no problem")),
            }
        }
    }
}

/// The same, by the numbers of the line.
pub fn push_answer<R: Threads + Wait + Sync>(
    rt: &R,
    page: &mut Page,
    given: &mut Given,
    line: &str,
) -> Answered {
    let numbers = numbers_of(page.alloc(), line)?;
    let answer = push_line(rt, page, given, line, numbers.as_slice());
    drop(numbers);
    answer
}
