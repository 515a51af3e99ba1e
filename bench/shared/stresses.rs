// Reading stresses in plain Rust: lists and arrays of each stress period, new or those of the period before.
use crate::plain::{Number, Words, layer, number};
use std::rc::Rc;

/// What a column of a list holds behind the cell.
#[derive(Clone, Copy, PartialEq)]
pub enum Columns {
    Any,
    Head,
    Conductance,
}

/// An entry of a list: its cell, and up to three numbers.
#[derive(Clone, Copy)]
pub struct Entry {
    pub cell: u32,
    pub values: [Number; 3],
}

pub type Lists = Vec<Rc<Vec<Entry>>>;
pub type Arrays = Vec<Rc<Vec<Number>>>;

/// The stresses of all periods, by package.
pub struct Stresses {
    pub wells: Lists,
    pub rivers: Lists,
    pub drains: Lists,
    pub generals: Lists,
    pub recharge: Arrays,
    pub given: Lists,
    pub evapotranspiration: [Arrays; 3],
}

const ZERO: Number = Number {
    digits: 0,
    exp: 0,
    neg: false,
};

/// At most 18 digits.
fn integer(word: &[u8]) -> Option<i64> {
    let (neg, digits) = match word {
        [b'-', digits @ ..] => (true, digits),
        [b'+', digits @ ..] => (false, digits),
        _ => (false, word),
    };
    if digits.is_empty() || digits.len() > 18 || !digits.iter().all(u8::is_ascii_digit) {
        return None;
    }
    let size = digits.iter().fold(0, |n, digit| n * 10 + (digit - b'0') as i64);
    Some(if neg { -size } else { size })
}

pub fn is_head(value: &Number) -> bool {
    let limit = 4_000_000_000u128;
    let digits = value.digits as u128;
    match value.exp {
        0.. => digits == 0 || digits * 10u128.pow(value.exp.min(19) as u32) <= limit,
        places => digits <= limit.saturating_mul(10u128.pow((-places).min(28) as u32)),
    }
}

fn fits(column: Columns, value: &Number) -> bool {
    match column {
        Columns::Any => true,
        Columns::Head => is_head(value),
        Columns::Conductance => !value.neg,
    }
}

// A cell's number, from its layer, row and column.
fn cell(words: &mut Words, [rows, cols]: [usize; 2]) -> Option<u32> {
    let mut next = || integer(words.next()?);
    let (layer, row, col) = (next()?, next()?, next()?);
    let is_within = layer == 1 && (1..=rows as i64).contains(&row) && (1..=cols as i64).contains(&col);
    is_within.then(|| ((row - 1) * cols as i64 + col - 1) as u32)
}

fn entry(line: &[u8], grid: [usize; 2], columns: &[Columns]) -> Option<Entry> {
    let mut words = Words(line);
    let cell = cell(&mut words, grid)?;
    let mut values = [ZERO; 3];
    for (value, column) in values.iter_mut().zip(columns) {
        *value = number(words.next()?).filter(|value| fits(*column, value))?;
    }
    Some(Entry { cell, values })
}

/// The lists of so many periods, which a file of WEL, RIV, DRN, GHB or CHD has. In a list of `once`, no cell may be named
/// twice.
#[inline(never)]
pub fn lists<'a>(
    mut lines: impl Iterator<Item = &'a [u8]>,
    grid: [usize; 2],
    periods: usize,
    columns: &[Columns],
    once: bool,
) -> Option<Lists> {
    integer(Words(lines.next()?).next()?)?;
    let mut all = Lists::new();
    let mut named_in = vec![0; if once { grid[0] * grid[1] } else { 0 }];
    for period in 1..=periods {
        let mut words = Words(lines.next()?);
        let count = integer(words.next()?).filter(|count| *count <= 65_536)?;
        if words.next().and_then(integer).is_some_and(|parameters| parameters > 0) {
            return None;
        }
        if count < 0 {
            all.push(all.last()?.clone());
            continue;
        }
        let mut list = Vec::with_capacity(count as usize);
        for _ in 0..count {
            let entry = entry(lines.next()?, grid, columns)?;
            if once && std::mem::replace(&mut named_in[entry.cell as usize], period) == period {
                return None;
            }
            list.push(entry);
        }
        all.push(Rc::new(list));
    }
    Some(all)
}

// An array that is read anew, or that of the period before.
fn array<'a>(
    lines: &mut impl Iterator<Item = &'a [u8]>,
    [rows, cols]: [usize; 2],
    flag: i64,
    before: Option<&Rc<Vec<Number>>>,
) -> Option<Rc<Vec<Number>>> {
    if flag < 0 {
        before.cloned()
    } else {
        layer(lines, rows, cols).map(Rc::new)
    }
}

/// Recharge to the highest layer.
#[inline(never)]
pub fn recharge<'a>(
    mut lines: impl Iterator<Item = &'a [u8]>,
    grid: [usize; 2],
    periods: usize,
) -> Option<Arrays> {
    integer(Words(lines.next()?).next()?).filter(|option| *option == 1)?;
    let mut all = Arrays::new();
    for _ in 0..periods {
        let flag = integer(Words(lines.next()?).next()?)?;
        all.push(array(&mut lines, grid, flag, all.last())?);
    }
    Some(all)
}

// In units of 10^-9, rounded down or up.
fn units(value: Number, up: bool) -> i128 {
    let places = value.exp as i32 + 9;
    let digits = if value.neg { -(value.digits as i128) } else { value.digits as i128 };
    if places >= 0 {
        return digits.saturating_mul(10i128.saturating_pow(places as u32));
    }
    let unit = 10i128.checked_pow(places.unsigned_abs()).unwrap_or(i128::MAX);
    digits.div_euclid(unit) + (up && digits.rem_euclid(unit) != 0) as i128
}

fn can_evaporate(surface: Number, rate: Number, depth: Number) -> bool {
    let is_deep = || units(surface, false) - units(depth, true) < -4_000_000_000_000_000_000;
    let fits = || !depth.neg && depth.digits > 0 && is_head(&surface) && !is_deep();
    !rate.neg && (rate.digits == 0 || fits())
}

/// Evapotranspiration from the highest layer: surface, rate and depth, with the checks at active cells.
#[inline(never)]
pub fn evapotranspiration<'a>(
    mut lines: impl Iterator<Item = &'a [u8]>,
    grid: [usize; 2],
    periods: usize,
    ibound: &[Number],
) -> Option<[Arrays; 3]> {
    let mut words = Words(lines.next()?);
    integer(words.next()?).filter(|option| *option == 1)?;
    integer(words.next()?)?;
    let mut all = [Arrays::new(), Arrays::new(), Arrays::new()];
    for period in 0..periods {
        let mut words = Words(lines.next()?);
        let mut flags = [0; 3];
        for flag in &mut flags {
            *flag = integer(words.next()?)?;
        }
        for (arrays, flag) in all.iter_mut().zip(flags) {
            arrays.push(array(&mut lines, grid, flag, arrays.last())?);
        }
        let [surface, rate, depth] = [0, 1, 2].map(|which| &all[which][period]);
        for cell in 0..ibound.len() {
            if ibound[cell].digits != 0 && !can_evaporate(surface[cell], rate[cell], depth[cell]) {
                return None;
            }
        }
    }
    Some(all)
}

// A number's digits, sign and exponent in one word.
fn packed(value: Number) -> u64 {
    let sign = if value.neg { 8 } else { 0 };
    let exponent = value.exp.unsigned_abs() as u64 & 7;
    value.digits.wrapping_mul(16).wrapping_add(sign | exponent)
}

fn of_list(list: &[Entry]) -> u64 {
    list.iter().fold(0, |sum: u64, entry| {
        let [first, second, third] = entry.values.map(packed);
        let values = second.wrapping_add(third.wrapping_mul(5)).wrapping_mul(3);
        sum.wrapping_add((entry.cell as u64).wrapping_add(first).wrapping_add(values))
    })
}

fn of_array(values: &[Number]) -> u64 {
    let add = |sum: u64, value: &Number| sum.wrapping_mul(3).wrapping_add(packed(*value));
    values.iter().fold(0, add)
}

impl Stresses {
    fn lists(&self) -> [&Lists; 5] {
        [&self.wells, &self.rivers, &self.drains, &self.generals, &self.given]
    }

    fn arrays(&self) -> [&Arrays; 4] {
        let [surface, rate, depth] = &self.evapotranspiration;
        [&self.recharge, surface, rate, depth]
    }

    /// A sum over all periods.
    pub fn sum(&self) -> u64 {
        (0..self.recharge.len()).fold(0, |sum: u64, period| {
            let lists = self.lists().map(|lists| of_list(&lists[period]));
            let arrays = self.arrays().map(|arrays| of_array(&arrays[period]));
            let of_period = lists.iter().chain(&arrays).fold(0, |sum: u64, part| sum.wrapping_add(*part));
            sum.wrapping_mul(7).wrapping_add(of_period)
        })
    }

    /// The bytes of all lists and arrays, each counted once.
    pub fn bytes(&self) -> usize {
        let lists = self.lists().map(|lists| bytes_of(lists));
        let arrays = self.arrays().map(|arrays| bytes_of(arrays));
        lists.iter().chain(&arrays).sum()
    }
}

fn bytes_of<T>(lists: &[Rc<Vec<T>>]) -> usize {
    let is_new = |at: &usize| *at == 0 || !Rc::ptr_eq(&lists[*at], &lists[*at - 1]);
    let lengths = (0..lists.len()).filter(is_new).map(|at| lists[at].len());
    lengths.sum::<usize>() * size_of::<T>()
}
