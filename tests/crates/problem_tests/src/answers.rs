// Answers as lines.
use budget_bounds::{Budget, TermPair};
use certificate_check::Verdict;
use step_problem::{Barrier, Bound, NoBound, Place, SettleFault};
use test_lines::Page;

// The terms of a budget, in the order of the listing.
const TERM_NAMES: [&str; 8] = [
    "STORAGE",
    "CONSTANT HEAD",
    "WELLS",
    "DRAINS",
    "RIVER LEAKAGE",
    "HEAD DEP BOUNDS",
    "RECHARGE",
    "ET",
];

pub fn push_barrier(page: &mut Page, b: &Barrier) {
    page.text("barrier");
    for (floor, ceiling) in b.floor.iter().zip(b.ceiling.iter()) {
        page.word(*floor);
        page.word(*ceiling);
    }
    page.end();
}

/// The settled heads, or the first cell that is left open.
pub fn push_settled(page: &mut Page, answer: Result<Vec<Bound>, SettleFault>) {
    match &answer {
        Ok(bounds) => page.bounds("settled", bounds.as_slice()),
        Err(SettleFault::Unfinished(open)) => {
            page.value(format_args!("open {} {}", open.cell, open.side));
            page.bounds("", open.words.as_slice());
        }
        Err(SettleFault::Memory) => page.line("memory"),
    }
    drop(answer);
}

pub fn push_fault(page: &mut Page, fault: NoBound) {
    page.value(format_args!("refused {}", fault.code));
    match fault.place {
        Place::Cell(id, side) => page.line(format_args!(" cell {id} {side}")),
        Place::Term(dir, term) => page.line(format_args!(" {dir} {term}")),
        Place::Zone(from, to) => page.line(format_args!(" zones {from} {to}")),
    }
}

pub fn push_verdict(page: &mut Page, verdict: Verdict) {
    match verdict {
        Verdict::Yes => page.line("yes"),
        Verdict::No { cell, side } => page.line(format_args!("no {cell} {side}")),
    }
}

// The terms that aren't 0.
fn push_terms(page: &mut Page, direction: &str, terms: &[TermPair]) {
    for (term, pair) in TERM_NAMES.iter().zip(terms.iter()) {
        let (lo, hi) = (pair.lo, pair.hi);
        if lo != 0 || hi != 0 {
            page.line(format_args!("{direction} {lo} {hi} {term}"));
        }
    }
}

pub fn push_budget(page: &mut Page, budget: Result<Budget, NoBound>) {
    match budget {
        Ok(budget) => {
            page.line("budget");
            push_terms(page, "IN", budget.into.as_slice());
            push_terms(page, "OUT", budget.out.as_slice());
        }
        Err(fault) => push_fault(page, fault),
    }
}
