// The steps of a model.
use deck_problems::{Decks, start_heads_for};
use model_types::{FlowModel, Limits, Listed, TimeStep, times};
use problem_builder::build;
use settle_driver::PlainSettler;
use step_chain::{StepFault, next_step};
use step_problem::{Bound, BoundFault, NoBound, Place, Side};
use test_lines::{Answered, Page};

const ROUNDS: u32 = 1_000_000;

/// The refusal of a step.
pub fn push_refusal(page: &mut Page, refusal: NoBound) {
    let code = refusal.code;
    match refusal.place {
        Place::Cell(id, Side::Low) => page.line(format_args!("refused {code} {id} LOW")),
        Place::Cell(id, Side::High) => page.line(format_args!("refused {code} {id} HIGH")),
        _ => page.line(format_args!("refused {code}")),
    }
}

// The step's problem, from the heads before it.
fn push_problem(page: &mut Page, model: &FlowModel, at: TimeStep, old: &[Bound], s: u32) {
    match build(page.alloc(), model, at, old, s) {
        Ok(problem) => page.problem(&problem),
        Err(BoundFault::NoBound(refusal)) => push_refusal(page, refusal),
        Err(BoundFault::Memory) => page.line("memory"),
    }
}

// The heads after a step.
fn next_heads(
    page: &mut Page,
    decks: &Decks,
    at: TimeStep,
    old: &[Bound],
    s: u32,
) -> Option<Listed<Bound>> {
    let mut settler = PlainSettler::new(ROUNDS);
    match next_step(page.alloc(), Limits::Plain, decks, at, old, s, &mut settler) {
        Ok(solved) => {
            page.bounds("settled", solved.bounds.as_slice());
            return Some(solved.heads);
        }
        Err(StepFault::NoBound(refusal)) => push_refusal(page, refusal),
        Err(StepFault::Unfinished(_)) => page.line("unfinished"),
        Err(StepFault::Memory) => page.line("memory"),
    }
    None
}

/// The steps, until one has no heads.
pub fn push_steps(page: &mut Page, decks: &Decks, s: u32) -> Answered {
    let mut old = start_heads_for(page.alloc(), decks)?;
    page.bounds("start", old.as_slice());
    let steps = times(page.alloc(), &decks.first)?;
    for at in steps.as_slice() {
        page.line(format_args!("step {} {}", at.period, at.step));
        push_problem(page, &decks.first, *at, old.as_slice(), s);
        match next_heads(page, decks, *at, old.as_slice(), s) {
            Some(heads) => old = heads,
            None => return Ok(()),
        }
    }
    Ok(())
}
