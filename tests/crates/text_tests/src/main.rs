//! Reads texts from standard input by calls on their lines, words, lists and arrays, calls folders and sinks, reads words as
//! numbers, calculates with decimals of 18 digits, writes numbers as text, and computes bounds of conductances, flows, factors
//! of time steps and given heads, and prints the answers.
//!
//! `@text FILE TEXT` is the text that is read, and the name that refusals give it. `@read CALL; CALL; ..` does the
//! calls in order from the beginning of the text, and continues after a refusal. `@cut CALL; ..` does them on the text cut
//! after each of its lines, without and with the last line feed, up to the first refusal. The calls are
//! - on the text's lines: `comments` skips comments; `line` gives the next line's number and its first five
//!   words; `after` says whether there is one, and its number; `free N` gives words of a free list, with their lines;
//! - on the words of a line: `items` goes to the next line; `integer`, `whole`, `number` and `real` read its next word
//!   as an integer or a number, `short` as an integer or nothing, `name` as a file's name, and `control` as a control
//!   record with those that follow; `is WORD` and `begins WORD` say whether the next word, or the line's first, is this
//!   keyword;
//! - on lists of integers, each times M if `by M` follows: `next` and `values N` of a free list in progress,
//!   `list N` and `rows ROWS COLUMNS` of new ones, `integers N`; `numbers N` is a list of numbers, and `constants N by M`
//!   one of N times M;
//! - on arrays after control records: `row N` and `layer ROWS COLUMNS` of numbers; `integer_layer ROWS COLUMNS`,
//!   `integer_layers LAYERS ROWS COLUMNS` and `array ROWS COLUMNS` of integers;
//! - on the whole text as a name file: `packages` gives its pairs, and `files` the files of two packages;
//! - on the whole text as the list of a batch: `models` gives the number of its names, and the names;
//! - on the folder in memory: `found NAME LIMIT` and `input NAME LIMIT` ask for a file, with this limit of bytes; `taken NAME`
//!   whether files may have this name, and `named NAME` what it becomes.
//!
//! `@folder` begins a folder in memory, `@file NAME TEXT` puts a file into it, and `@fail N` makes its call of this
//! number fail. `@disk LIMIT` does calls on the real folder, which is made anew in each line: `write NAME TEXT` and `make
//! NAME` make a file and a folder, and `found NAME` asks for a file. `@reader LIMIT` reads from a reader that is
//! interrupted after two bytes and fails after four. `@sink`, `@disk_sink` and `@full_sink` put pieces, `put PIECE; ..`,
//! into a sink in memory, whose put of number N fails and keeps some bytes by `fail N KEPT`, into a file, and into a
//! writer that is interrupted, takes one byte, and then nothing. `@slow_reader LIMIT TEXT` and `@slow_sink put PIECE; ..` have a
//! reader and a writer that move a byte at a time, are interrupted before each, and never fail.
//! `@refusals` and `@codes` print refusals as calls make them, and the codes that they have.
//!
//! A line without `@` is a calculation.
//! A number of the input is a word; `word WORD` gives it as digits and exponent, `integer WORD` as an integer, `times
//! WORD WORD` a product, and `units WORD PLACES` the whole units of 10 ^ -PLACES below it and above it. A decimal is given
//! as its 18 digits and its exponent, as in `250000000000000000e3`, or is `0e0`; `mul`, `div` and `add` of two of them give
//! the answer rounded down and up, and `whole DECIMAL PLACES` the units below it and above it. `decimal WORD` makes one of
//! a number, and `of_units UNITS PLACES` makes two, rounded down and up. `fixed PLACES UNITS` writes UNITS * 10 ^ -PLACES
//! with a point, and `digits N` a number after `of`.
//!
//! A cell's half of a branch is `LENGTH HK TOP BOTTOM` along a row, `LENGTH HK HANI TOP BOTTOM` along a column, and `LAYVKA
//! HK VKA TOP BOTTOM` to the layer above or below; a confining bed is `TOP BOTTOM VKCB`, where both elevations are the same
//! for none. `row HALF HALF WIDTH DIGITS`, `column HALF HALF WIDTH DIGITS`, `vertical HALF HALF BED DELR DELC DIGITS`,
//! `storage SS TOP BOTTOM DELR DELC TSMULT NSTP STEP PERLEN DIGITS` and `evaporation EVTR EXDP DELR DELC DIGITS` give a
//! conductance, `recharge RECH DELR DELC DIGITS` a flow, and `head SHEAD EHEAD LOW HIGH` a head, after the part of the
//! stress period that lies between LOW and HIGH in units of 10^-18. `factors TSMULT NSTP STEP` gives the sum of the steps'
//! lengths and the length of the step.
//!
//! A line `@ ..` says what is shown, and is printed. In texts `␊`, `␍`, `␉`, `␠` and `␡` stand for a line feed, a
//! carriage return, a tab, a blank at an end, and a delete. A number is printed as digits and exponent.
mod bench;
mod branches;
mod calculations;
mod decimals;
mod disk;
mod faults;
mod files;
mod given;
mod lists;
mod numbers;
mod question;
mod reader;
mod sinks;
mod slow;
mod times;

use bench::Bench;
use calculations::push_answer;
use disk::{push_disk, push_reader};
use faults::{push_codes, push_refusals};
use outside::{FILE_LIMIT, MemFolder};
use sinks::{push_disk_sink, push_full_sink, push_sink};
use slow::{push_slow_reader, push_slow_sink};
use std::io;
use test_lines::{Answered, Page, answer_lines, first_word, number_of};

// Does the command of a line that asks for no given text or folder.
fn push_line(page: &mut Page, line: &str) -> Answered {
    let (word, rest) = first_word(line);
    match word {
        "@" => page.line(line),
        "@reader" => push_reader(page, number_of(rest)),
        "@sink" => return push_sink(page, rest),
        "@full_sink" => return push_full_sink(page, rest),
        "@slow_sink" => return push_slow_sink(page, rest),
        "@refusals" => return push_refusals(page),
        "@codes" => push_codes(page),
        _ => {
            if push_answer(page, line).is_none() {
                page.line("no question");
            }
        }
    }
    Ok(())
}

// Does the command of a line.
fn step(rt: &HostRuntime, page: &mut Page, bench: &mut Bench, line: &str) -> io::Result<()> {
    let (word, rest) = first_word(line);
    let (name, text) = first_word(rest);
    match word {
        "@text" => bench.take_text(page.alloc(), name, text)?,
        "@read" => bench.push_read(page, rest),
        "@cut" => bench.push_cuts(page, rest),
        "@folder" => bench.folder = MemFolder::new(page.alloc(), FILE_LIMIT),
        "@file" => bench.add_file(page.alloc(), name, text)?,
        "@fail" => bench.folder.fail_at(number_of(rest))?,
        "@disk" => return push_disk(rt, page, number_of(name), text),
        "@slow_reader" => push_slow_reader(page, number_of(name), text)?,
        "@disk_sink" => return push_disk_sink(rt, page, rest),
        _ => push_line(page, line)?,
    }
    Ok(())
}

fn main(rt: HostRuntime) -> io::Result<()> {
    let mut bench = Bench::new(rt.alloc());
    answer_lines(
        &rt,
        rt.alloc(),
        |page, line| step(&rt, page, &mut bench, line),
    )
}
