// Calls on lists and arrays.
use crate::faults::made_value;
use crate::files::push_of_folder;
use crate::reader::Reader;
use array_reader::{
    constants, free_list, free_rows, next_value, plain_ints, plain_reals, read_array,
    read_int_layer, read_layer, read_layers, read_reals, values,
};
use decimal_input::dec::Dec;
use outside::{InputFault, MemFolder};
use test_lines::Page;

/// The next value of a free list.
pub fn push_next_value(page: &mut Page, reader: &mut Reader<'_>) -> Option<()> {
    let (free, lines, by) = (&mut reader.free, &mut reader.lines, reader.call.by);
    let read = next_value(page.alloc(), free, lines, reader.file, by);
    let (value, line) = made_value(page, read)?;
    Some(page.word(format_args!("{value} line {line}")))
}

/// An array of integers, and the line of its control record.
pub fn push_array(page: &mut Page, reader: &mut Reader<'_>, folder: &mut MemFolder) -> Option<()> {
    let [rows, columns, _] = reader.call.counts;
    let (alloc, lines, file) = (page.alloc(), &mut reader.lines, reader.file);
    let (values, line) = made_value(page, read_array(alloc, lines, file, folder, rows, columns))?;
    page.integers(&values);
    Some(page.word(format_args!("line {line}")))
}

fn push_list<F: Into<InputFault>>(page: &mut Page, made: Result<Vec<i64>, F>) -> Option<()> {
    let list = made_value(page, made)?;
    page.integers(&list);
    Some(drop(list))
}

// A list or an array of integers, or the answer of a call that has none.
fn push_ints(page: &mut Page, reader: &mut Reader<'_>, folder: &mut MemFolder) -> Option<()> {
    let (alloc, free, lines) = (page.alloc(), &mut reader.free, &mut reader.lines);
    let (file, by, [a, b, c]) = (reader.file, reader.call.by, reader.call.counts);
    match reader.call.word {
        "values" => push_list(page, values(alloc, free, lines, file, by, a)),
        "list" => push_list(page, free_list(alloc, lines, file, by, a)),
        "rows" => push_list(page, free_rows(alloc, lines, file, by, a, b)),
        "integers" => push_list(page, plain_ints(alloc, lines, file, a)),
        "integer_layer" => push_list(page, read_int_layer(alloc, lines, file, folder, a, b)),
        "integer_layers" => push_list(page, read_layers(alloc, lines, file, folder, a, b, c)),
        "constants" => push_list(page, constants(alloc, by.unwrap_or(0), a as usize)),
        _ => push_of_folder(page, reader, folder),
    }
}

fn push_numbers<F: Into<InputFault>>(page: &mut Page, made: Result<Vec<Dec>, F>) -> Option<()> {
    let list = made_value(page, made)?;
    page.numbers(&list);
    Some(drop(list))
}

/// A list or an array of numbers or of integers, or the answer of a call that has none.
pub fn push_reals(page: &mut Page, reader: &mut Reader<'_>, folder: &mut MemFolder) -> Option<()> {
    let (alloc, lines, file) = (page.alloc(), &mut reader.lines, reader.file);
    let [a, b, _] = reader.call.counts;
    match reader.call.word {
        "row" => push_numbers(page, read_reals(alloc, lines, file, folder, a)),
        "layer" => push_numbers(page, read_layer(alloc, lines, file, folder, a, b)),
        "numbers" => push_numbers(page, plain_reals(alloc, lines, file, a)),
        _ => push_ints(page, reader, folder),
    }
}
