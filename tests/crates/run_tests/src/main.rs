//! Reads decks from standard input, runs the program's commands over their files, and prints the steps of their models and the
//! decks that they are written as.
//!
//! `@deck -` begins a deck without files. A line `@file NAME` begins a file, whose lines follow it, and replaces an
//! earlier file of that name. `@read_fault N` makes the folder's read of this number fail, and `@put_fault N KEPT` a put of
//! the next run, which keeps KEPT bytes; `@side_fault N KEPT` a put to its side. A line `@ ..` says what is shown, and is
//! printed, as each question is.
//!
//! `@run WORDS` runs the program with these words, and prints its status and all that it put. `@meet WORDS` runs with a gate
//! at which two workers wait for each other, and `@shake_hands N WORDS` with a gate and a sink that wait for each other,
//! whose put of number N lacks memory (0: none).
//!
//! `@watch N WORDS` prints what `@run` does, but of the side, for each step, by how many its views exceed a multiple of N,
//! how many heads each has, how many of these are wider than in the view before, and how many are not around the listed
//! ones.
//! `@passes N WORDS` prints what `@run` does, and whether the workers passed a gate at most N times.
//! `@await HEAD WORDS` runs with a gate at which the watching seat waits for two turns of a worker, and prints on which side
//! of HEAD the heads of its first view lie. `@lack N WORDS` runs with a side whose put of number N lacks memory.
//!
//! `@plan NAME WELLS` prints the file of wells of a model with those of a plan's file, or the refusal of that file.
//!
//! `@drawdown NAME WELLS DIGITS HIGH` prints, step by step, the heads of all cells without a plan's wells, with them, and the drawdown, of the model, or
//! with the name file HIGH of all models between both.
//!
//! `@write NAME` writes the model of a name file, and prints its files, which are the deck's from now on. `@steps NAME
//! DIGITS` prints the steps of a model one after the other, each from the heads of the one before it: the problem, entry
//! for entry, and the heads that settle it.
mod bench;
mod gates;
mod models;
mod plans;
mod runs;
mod steps;
mod views;
mod watching;

use bench::{Bench, words_of};
use models::push_model_answer;
use runs::Asked;
use std::io;
use std::sync::Wait;
use std::thread::Threads;
use test_lines::{Answered, Page, answer_lines, first_word, number_of, take_line};

// Puts the question and its answer on the page. The words of `@run` and `@meet` follow the question at once.
fn answer<R: Threads + Wait + Sync>(
    rt: &R,
    page: &mut Page,
    bench: &mut Bench,
    line: &str,
) -> Answered {
    page.line(line);
    bench.deck.end_file(page.alloc())?;
    let (question, rest) = first_word(line);
    let (first, more) = first_word(rest);
    if matches!(question, "@write" | "@steps" | "@plan" | "@drawdown") {
        return push_model_answer(page, &mut bench.deck.folder, question, first, more);
    }
    let is_plain = question == "@run" || question == "@meet";
    let words = words_of(page.alloc(), if is_plain { rest } else { more })?;
    let asked = Asked {
        rt,
        question,
        words: words.as_slice(),
        first,
    };
    let answer = asked.push_answer(page, bench);
    drop(words);
    bench.begin_sinks(page.alloc());
    answer
}

// Takes a line of a deck, or puts the answer to a question.
fn step<R: Threads + Wait + Sync>(
    rt: &R,
    page: &mut Page,
    bench: &mut Bench,
    line: &str,
) -> Answered {
    let (word, rest) = first_word(line);
    let (call, kept) = first_word(rest);
    match word {
        "@deck" => Ok(*bench = Bench::new(page.alloc())),
        "@put_fault" => bench.out.fail_at(number_of(call), number_of(kept)),
        "@side_fault" => bench.side.fail_at(number_of(call), number_of(kept)),
        "@run"
        | "@watch"
        | "@await"
        | "@lack"
        | "@meet"
        | "@shake_hands"
        | "@passes"
        | "@write"
        | "@plan"
        | "@drawdown"
        | "@steps" => answer(rt, page, bench, line),
        _ => take_line(page, &mut bench.deck, line),
    }
}

fn main(rt: HostRuntime) -> io::Result<()> {
    let mut bench = Bench::new(rt.alloc());
    answer_lines(&rt, rt.alloc(), |page, line| {
        step(&rt, page, &mut bench, line)?;
        Ok(())
    })
}
