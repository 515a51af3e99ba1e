// A problem's cells with their entries, one in a line.
use crate::page::Page;
use step_problem::{Cell, Fixed, FixedKind, Flow, FlowKind, Problem};

fn push_flow(page: &mut Page, flow: Flow) {
    let kind = match flow.kind {
        FlowKind::Wells => "well",
        FlowKind::Recharge => "recharge",
    };
    page.line(format_args!("{kind} {} {}", flow.lo, flow.hi));
}

// The bounds of a conductance and of heads.
fn push_branch(page: &mut Page, kind: &str, lo: u64, hi: u64, heads: &[i64]) {
    page.value(format_args!("{kind} {lo} {hi}"));
    page.integers(heads);
    page.end();
}

fn push_fixed(page: &mut Page, x: Fixed) {
    page.text(match x.kind {
        FixedKind::Storage => "storage ",
        FixedKind::Constant => "constant ",
        FixedKind::General => "general ",
    });
    page.value(x.source);
    push_branch(page, "", x.lo, x.hi, &[x.head_lo, x.head_hi]);
}

fn push_cell(page: &mut Page, cell: &Cell) {
    page.line(format_args!("cell {}", cell.id));
    for x in &cell.flows {
        push_flow(page, *x);
    }
    for x in &cell.links {
        page.line(format_args!("link {} {} {}", x.cell, x.lo, x.hi));
    }
    for x in &cell.fixed {
        push_fixed(page, *x);
    }
    for x in &cell.rivers {
        let heads = [x.stage_lo, x.stage_hi, x.bottom_lo, x.bottom_hi];
        push_branch(page, "river", x.lo, x.hi, &heads);
    }
    for x in &cell.drains {
        push_branch(page, "drain", x.lo, x.hi, &[x.elev_lo, x.elev_hi]);
    }
    for x in &cell.evaps {
        let heads = [x.ext_lo, x.ext_hi, x.surf_lo, x.surf_hi];
        push_branch(page, "evaporation", x.lo, x.hi, &heads);
    }
}

impl Page {
    /// Each cell of a problem with its entries. The source of a storage or of a general head is the cell's own number.
    pub fn problem(&mut self, problem: &Problem) {
        for index in 0..problem.len() {
            push_cell(self, problem.cell(index));
        }
    }
}
