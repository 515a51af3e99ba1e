// The problems of a model's steps at given heads.
use gentle_problem::problem_at;
use model_types::{FlowModel, TimeStep, times};
use problem_builder::{PeriodTables, StepTables, Tables};
use step_problem::{Bound, BoundFault, Place};
use test_lines::{Answered, Page, bounds_of, number_at, numbers_of};
use water_table::ConvertibleLayers;

fn push_problem(
    page: &mut Page,
    model: &FlowModel,
    layers: &ConvertibleLayers,
    tables: &Tables,
    at: TimeStep,
    heads: &[Bound],
) -> Answered {
    let period = PeriodTables::at(page.alloc(), model, tables, at.period)?;
    let step = StepTables::new(page.alloc(), model, &period, at)?;
    match problem_at(page.alloc(), model, layers, tables, &period, &step, at, heads) {
        Ok(problem) => page.problem(&problem),
        Err(BoundFault::NoBound(refusal)) => match refusal.place {
            Place::Cell(id, _) => page.line(format_args!("refused {} {id}", refusal.code)),
            _ => page.line(format_args!("refused {}", refusal.code)),
        },
        Err(BoundFault::Memory) => page.line("memory"),
    }
    Ok(())
}

/// The problem of each time step at the heads that are given.
pub fn push_problems(
    page: &mut Page,
    model: &FlowModel,
    layers: &ConvertibleLayers,
    given: &str,
) -> Answered {
    let numbers = numbers_of(page.alloc(), given)?;
    let heads = bounds_of(page.alloc(), numbers.get(1..).unwrap_or_default())?;
    if heads.len() as u32 != model.grid.cell_count() {
        return Ok(page.line("no heads of these cells"));
    }
    let tables = Tables::new(page.alloc(), model, number_at(&numbers, 0).min(18))?;
    let steps = times(page.alloc(), model)?;
    for at in steps.as_slice() {
        page.line(format_args!("step {} {}", at.period, at.step));
        push_problem(page, model, layers, &tables, *at, heads.as_slice())?;
    }
    Ok(())
}
