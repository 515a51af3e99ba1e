// What a plan's wells do to the heads of a model, or of all models between two.
use crate::models::read_model;
use crate::steps::push_refusal;
use deck_problems::Decks;
use model_types::{FlowModel, Limits};
use outside::{Folder, Found, MemFolder};
use plan_chain::{PlanEnd, PlanHeads, PlanPart, PlanStop, PlanTask, PlanWalk};
use plan_wells::{Plan, read_plan, with_plan};
use settle_driver::PlainSettler;
use std::alloc::{AllocError, Global};
use test_lines::{Answered, Page, count_of, first_word};

const ROUNDS: u32 = 1_000_000;

fn word_of(part: PlanPart) -> &'static str {
    match part {
        PlanPart::Base => "BASE",
        PlanPart::Planned => "PLAN",
        PlanPart::Differences => "DRAWDOWN",
    }
}

// The model of a name file with the wells of a plan, and the plan, if there are such.
fn planned(
    alloc: Global,
    folder: &mut MemFolder,
    name: &str,
    file: &str,
) -> Option<(FlowModel, Plan)> {
    let Ok(Found::Bytes(bytes)) = folder.read_file(alloc, file) else {
        return None;
    };
    let model = read_model(alloc, folder, name).ok()?;
    let (plan, model) = read_plan(alloc, Limits::Plain, file, bytes.as_slice(), model).ok()?;
    match with_plan(alloc, model, &plan, file) {
        Ok(model) => Some((model, plan)),
        Err(fault) => {
            drop(plan);
            drop(fault);
            None
        }
    }
}

fn push_heads(page: &mut Page, heads: &PlanHeads) {
    page.bounds("base", heads.base.as_slice());
    page.bounds("plan", heads.planned.as_slice());
    page.bounds("drawdown", heads.differences.as_slice());
}

// The steps of a task, until one has no heads.
fn push_steps(page: &mut Page, task: &PlanTask) -> Result<(), AllocError> {
    let mut settler = PlainSettler::new(ROUNDS);
    let mut walk = PlanWalk::new(page.alloc(), task)?;
    loop {
        match walk.solve(page.alloc(), task, &mut settler) {
            Ok(solved) => {
                walk.advance(solved);
                push_heads(page, walk.heads());
            }
            Err(PlanStop::End(PlanEnd::Whole)) => break,
            Err(PlanStop::End(PlanEnd::NoBound(_, part, refusal))) => {
                push_refusal(page, refusal);
                page.line(word_of(part));
                break;
            }
            Err(PlanStop::End(PlanEnd::Unfinished(_, part))) => {
                page.line(format_args!("unfinished {}", word_of(part)));
                break;
            }
            Err(PlanStop::Memory) => return Err(AllocError),
        }
    }
    drop(walk);
    Ok(())
}

/// The heads without a plan's wells, with them, and the drawdown, of each step: `WELLS DIGITS`, and with a second name file those between both decks.
pub fn push_drawdowns(
    page: &mut Page,
    folder: &mut MemFolder,
    first: FlowModel,
    name: &str,
    words: &str,
) -> Answered {
    let alloc = page.alloc();
    let (wells, more) = first_word(words);
    let (digits, to) = first_word(more);
    let Some((planned_first, plan)) = planned(alloc, folder, name, wells) else {
        drop(first);
        return Ok(page.line("no plan"));
    };
    let (second, planned_second) = match to {
        "" => (None, None),
        to => match planned(alloc, folder, to, wells) {
            Some((model, again)) => {
                drop(again);
                (read_model(alloc, folder, to).ok(), Some(model))
            }
            None => (None, None),
        },
    };
    let task = PlanTask {
        limits: Limits::Plain,
        base: Decks { first, second },
        planned: Decks {
            first: planned_first,
            second: planned_second,
        },
        plan,
        digits: count_of(digits).min(18),
        zones: None,
        rounds: ROUNDS,
        quick: false,
    };
    let answer = push_steps(page, &task);
    drop(task);
    Ok(answer?)
}
