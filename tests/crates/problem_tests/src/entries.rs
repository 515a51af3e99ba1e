// The entries of a cell, as lines give them.
use multigrid::numbers::filled_value;
use std::alloc::{AllocError, Global};
use step_problem::{Cell, Drain, Evap, Fixed, FixedKind, Flow, FlowKind, Link, River};
use test_lines::{Answered, conductance_at, head_at, number_at, wide_at};

pub fn empty_cell(alloc: Global, id: u32) -> Cell {
    Cell {
        id,
        flows: Vec::new(alloc),
        links: Vec::new(alloc),
        fixed: Vec::new(alloc),
        rivers: Vec::new(alloc),
        drains: Vec::new(alloc),
        evaps: Vec::new(alloc),
    }
}

fn flow(kind: FlowKind, n: &[i128]) -> Flow {
    Flow {
        kind,
        lo: wide_at(n, 0),
        hi: wide_at(n, 1),
    }
}

fn fixed_entry(kind: FixedKind, source: u32, n: &[i128]) -> Fixed {
    Fixed {
        kind,
        source,
        lo: conductance_at(n, 0),
        hi: conductance_at(n, 1),
        head_lo: head_at(n, 2),
        head_hi: head_at(n, 3),
    }
}

fn link(n: &[i128]) -> Link {
    Link {
        cell: number_at(n, 0),
        lo: conductance_at(n, 1),
        hi: conductance_at(n, 2),
    }
}

fn river(n: &[i128]) -> River {
    River {
        lo: conductance_at(n, 0),
        hi: conductance_at(n, 1),
        stage_lo: head_at(n, 2),
        stage_hi: head_at(n, 3),
        bottom_lo: head_at(n, 4),
        bottom_hi: head_at(n, 5),
    }
}

fn drain(n: &[i128]) -> Drain {
    Drain {
        lo: conductance_at(n, 0),
        hi: conductance_at(n, 1),
        elev_lo: head_at(n, 2),
        elev_hi: head_at(n, 3),
    }
}

fn evaporation(n: &[i128]) -> Evap {
    Evap {
        lo: conductance_at(n, 0),
        hi: conductance_at(n, 1),
        ext_lo: head_at(n, 2),
        ext_hi: head_at(n, 3),
        surf_lo: head_at(n, 4),
        surf_hi: head_at(n, 5),
    }
}

/// Whether a line is an entry of the cell; if so, the cell gets it.
pub fn push_entry(cell: &mut Cell, word: &str, n: &[i128]) -> Result<bool, AllocError> {
    match word {
        "link" => cell.links.push(link(n))?,
        "storage" => cell
            .fixed
            .push(fixed_entry(FixedKind::Storage, cell.id, n))?,
        "general" => cell
            .fixed
            .push(fixed_entry(FixedKind::General, cell.id, n))?,
        "constant" => {
            let rest = n.get(1..).unwrap_or(&[]);
            cell.fixed
                .push(fixed_entry(FixedKind::Constant, number_at(n, 0), rest))?;
        }
        "well" => cell.flows.push(flow(FlowKind::Wells, n))?,
        "recharge" => cell.flows.push(flow(FlowKind::Recharge, n))?,
        "river" => cell.rivers.push(river(n))?,
        "drain" => cell.drains.push(drain(n))?,
        "evaporation" => cell.evaps.push(evaporation(n))?,
        _ => return Ok(false),
    }
    Ok(true)
}

const ONE: i128 = 1_000_000_000_000;

const METRE: i128 = 1_000_000_000;

// The links of a cell of a row of `count` cells, and its general head, from 0 to 9 in turn.
fn push_row_entries(cell: &mut Cell, index: u32, count: u32) -> Answered {
    for other in [index.wrapping_sub(1), index.wrapping_add(1)] {
        if other < count {
            cell.links.push(link(&[i128::from(other), ONE, ONE]))?;
        }
    }
    let level = i128::from(index % 10) * METRE;
    let general = fixed_entry(FixedKind::General, cell.id, &[ONE, ONE, level, level]);
    cell.fixed.push(general)?;
    Ok(())
}

/// A cell of a row of `count` cells, each beside a general head of its own.
pub fn cell_of_row(alloc: Global, index: u32, count: u32) -> Result<Cell, AllocError> {
    let mut cell = empty_cell(alloc, index.wrapping_add(1));
    let filled = push_row_entries(&mut cell, index, count);
    filled_value(cell, filled)
}
