// Calculations with numbers, each by a line.
use crate::branches::conductance;
use crate::decimals::{push_decimal_of, push_decimals_of_units, push_rounded, push_whole};
use crate::numbers::{
    number, product, push_digits, push_fixed_text, push_integer, push_number, push_units,
};
use crate::question::Words;
use crate::times::{head, recharge, step};
use conductance_bounds::Factors;
use std::fmt;
use test_lines::Page;

// Bounds after a word, or that there are none below the limit.
fn push_bounds(
    page: &mut Page,
    word: &str,
    bounds: Option<(impl fmt::Display + Drop, impl fmt::Display + Drop)>,
) {
    match bounds {
        Some((lo, hi)) => page.line(format_args!("{word} {lo} {hi}")),
        None => page.line("too large"),
    }
}

fn push_factors(page: &mut Page, factors: Factors) {
    page.text("factors");
    let Factors {
        sum_lo,
        sum_hi,
        power_lo,
        power_hi,
    } = factors;
    for x in [sum_lo, sum_hi, power_lo, power_hi] {
        page.word(format_args!("{}e{}", x.m, x.e));
    }
    page.end();
}

// The answer to a question about a time step, a given head, or flow.
fn push_of_model(page: &mut Page, question: &str, words: &mut Words<'_>) -> Option<()> {
    match question {
        "factors" => push_factors(page, step(words)?),
        "head" => {
            let head = head(words)?;
            push_bounds(page, "head", Some((head.lo, head.hi)));
        }
        "recharge" => push_bounds(
            page,
            "flow",
            recharge(words)?.map(|flow| (flow.lo, flow.hi)),
        ),
        _ => {
            let bounds = conductance(question, words)?;
            push_bounds(page, "conductance", bounds.map(|pair| (pair.lo, pair.hi)));
        }
    }
    Some(())
}

// The same, or to one about decimals.
fn push_of_decimals(page: &mut Page, question: &str, words: &mut Words<'_>) -> Option<()> {
    match question {
        "decimal" => push_decimal_of(page, words),
        "of_units" => push_decimals_of_units(page, words),
        "whole" => push_whole(page, words),
        "mul" | "div" | "add" => push_rounded(page, question, words),
        _ => push_of_model(page, question, words),
    }
}

/// The answer to a question, if it is one.
pub fn push_answer(page: &mut Page, line: &str) -> Option<()> {
    let words = &mut Words(line);
    match words.next() {
        "word" => Some(push_number(page, number(words))),
        "times" => Some(push_number(page, product(words))),
        "integer" => Some(push_integer(page, words)),
        "units" => push_units(page, words),
        "fixed" => push_fixed_text(page, words),
        "digits" => push_digits(page, words),
        question => push_of_decimals(page, question, words),
    }
}
