// Conductances of branches between neighbouring cells, and of evaporation.
use crate::question::Words;
use crate::times::storage;
use conductance_bounds::{
    Bed, ColHalf, Half, Pair, Span, VertHalf, col_branch, evap_branch, row_branch, thickness,
    vert_branch,
};
use number_limits::is_thick;
use scaled_decimal::decimal::ZERO;

fn row_half(words: &mut Words<'_>) -> Option<Half> {
    let (along, hk, thick) = (words.positive()?, words.positive()?, words.thickness()?);
    Some(Half {
        along,
        hk,
        thick_lo: thick.lo,
        thick_hi: thick.hi,
    })
}

fn column_half(words: &mut Words<'_>) -> Option<ColHalf> {
    let (along, hk, hani) = (words.positive()?, words.positive()?, words.positive()?);
    let thick = words.thickness()?;
    Some(ColHalf {
        along,
        hk,
        hani,
        thick_lo: thick.lo,
        thick_hi: thick.hi,
    })
}

fn vertical_half(words: &mut Words<'_>) -> Option<VertHalf> {
    let ratio = words.count()? != 0;
    let (hk, vka, thick) = (words.positive()?, words.positive()?, words.thickness()?);
    Some(VertHalf {
        hk,
        vka,
        ratio,
        thick_lo: thick.lo,
        thick_hi: thick.hi,
    })
}

// No bed if both elevations are the same.
fn bed(words: &mut Words<'_>) -> Option<Bed> {
    let (top, bottom, vkcb) = (words.decimal()?, words.decimal()?, words.positive()?);
    let (thick_lo, thick_hi) = if top == bottom {
        (ZERO, ZERO)
    } else if is_thick(top, bottom) {
        let Span { lo, hi } = thickness(top, bottom);
        (lo, hi)
    } else {
        return None;
    };
    Some(Bed {
        thick_lo,
        thick_hi,
        vkcb,
    })
}

fn row(words: &mut Words<'_>) -> Option<Option<Pair>> {
    let (first, second) = (row_half(words)?, row_half(words)?);
    Some(row_branch(&first, &second, words.positive()?, words.digits()?))
}

fn column(words: &mut Words<'_>) -> Option<Option<Pair>> {
    let (first, second) = (column_half(words)?, column_half(words)?);
    Some(col_branch(&first, &second, words.positive()?, words.digits()?))
}

fn vertical(words: &mut Words<'_>) -> Option<Option<Pair>> {
    let (upper, lower, bed) = (vertical_half(words)?, vertical_half(words)?, bed(words)?);
    let (delr, delc, digits) = (words.positive()?, words.positive()?, words.digits()?);
    Some(vert_branch(&upper, &lower, &bed, delr, delc, digits))
}

fn evaporation(words: &mut Words<'_>) -> Option<Option<Pair>> {
    let (evtr, exdp) = (words.not_negative()?, words.positive()?);
    let (delr, delc, digits) = (words.positive()?, words.positive()?, words.digits()?);
    Some(evap_branch(evtr, exdp, delr, delc, digits))
}

/// The conductance that a line asks for, if it is below the limit.
pub fn conductance(question: &str, words: &mut Words<'_>) -> Option<Option<Pair>> {
    match question {
        "row" => row(words),
        "column" => column(words),
        "vertical" => vertical(words),
        "evaporation" => evaporation(words),
        "storage" => storage(words),
        _ => None,
    }
}
