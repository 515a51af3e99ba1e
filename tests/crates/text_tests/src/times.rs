// Time steps, storage, given heads and recharge.
use crate::question::Words;
use conductance_bounds::{
    Factors, FlowPair, HeadPair, Pair, Part, given_head, recharge_flow, step_factors,
    storage_branch,
};
use decimal_input::dec::Dec;
use number_limits::{is_at_least, is_at_most, is_one};

// Whether TSMULT is 1, or from 0.001 to 1000 for at most a thousand steps.
fn is_multiplier(tsmult: Dec, nstp: u32) -> bool {
    is_one(tsmult) || (nstp <= 1000 && is_at_least(3, tsmult) && is_at_most(1000, tsmult))
}

/// The factors of a step.
pub fn step(words: &mut Words<'_>) -> Option<Factors> {
    let (tsmult, nstp, step) = (words.positive()?, words.count()?, words.count()?);
    if nstp > 100_000 || step < 1 || step > nstp || !is_multiplier(tsmult, nstp) {
        return None;
    }
    Some(step_factors(tsmult, nstp, step))
}

pub fn storage(words: &mut Words<'_>) -> Option<Option<Pair>> {
    let (ss, thick) = (words.not_negative()?, words.thickness()?);
    let thick = Some((thick.lo, thick.hi));
    let (delr, delc, factors) = (words.positive()?, words.positive()?, step(words)?);
    let (perlen, s) = (words.positive()?, words.digits()?);
    Some(storage_branch(ss, thick, delr, delc, &factors, perlen, s))
}

pub fn head(words: &mut Words<'_>) -> Option<HeadPair> {
    let (shead, ehead) = (words.head()?, words.head()?);
    let (lo, hi) = (words.part()?, words.part()?);
    Some(given_head(shead, ehead, Part { lo, hi }))
}

pub fn recharge(words: &mut Words<'_>) -> Option<Option<FlowPair>> {
    let (rech, delr, delc) = (words.decimal()?, words.positive()?, words.positive()?);
    Some(recharge_flow(rech, delr, delc, words.digits()?))
}
