// Milliseconds and memory of reading models of 65,536 cells, with stresses in many periods and without: the proved readers
// beside plain Rust.
#[path = "../shared/heap.rs"]
mod heap;
#[path = "../shared/plain.rs"]
mod plain;
#[path = "../shared/processor.rs"]
mod processor;
#[path = "../shared/stresses.rs"]
mod stresses;

use heap::most_bytes;
use plain::{Number, Words, layer, lines_of, number};
use processor::processor_time;
use std::fmt::Write;
use std::hint::black_box;
use stresses::{Columns, Stresses, evapotranspiration, is_head, lists, recharge};

const ROWS: usize = 256;
const COLS: usize = 256;
const RUNS: usize = 5;

// A text as the proved readers take it.
#[repr(C)]
struct Text {
    bytes: *const u8,
    length: usize,
}

unsafe extern "C" {
    fn model_cells(
        names: Text,
        dis: Text,
        bas: Text,
        lpf: Text,
        wel: Text,
        riv: Text,
        drn: Text,
        ghb: Text,
        rch: Text,
        chd: Text,
        evt: Text,
        sum: *mut u64,
        room: usize,
    ) -> usize;
}

// The files of a model of one layer, and what plain Rust reads of them.
#[derive(Default)]
struct Deck {
    names: String,
    dis: String,
    bas: String,
    lpf: String,
    wel: String,
    riv: String,
    drn: String,
    ghb: String,
    rch: String,
    chd: String,
    evt: String,
    periods: usize,
}

impl Deck {
    fn texts(&self) -> [&String; 11] {
        [
            &self.names, &self.dis, &self.bas, &self.lpf, &self.wel, &self.riv, &self.drn, &self.ghb,
            &self.rch, &self.chd, &self.evt,
        ]
    }
}

struct Model {
    top: Vec<Number>,
    bottom: Vec<Number>,
    ibound: Vec<Number>,
    strt: Vec<Number>,
    properties: [Vec<Number>; 3],
    stresses: Option<Stresses>,
}

fn is_positive(value: &Number) -> bool {
    !value.neg && value.digits > 0
}

// A number in units of 10^-18, rounded down or up; None from 2^126 on.
fn units(value: Number, up: bool) -> Option<i128> {
    let places = value.exp as i32 + 18;
    let sign = if value.neg { -1 } else { 1 };
    let digits = value.digits as i128 * sign;
    let units = if places >= 0 {
        digits.checked_mul(10i128.checked_pow(places as u32)?)?
    } else {
        let unit = 10i128.checked_pow(places.unsigned_abs())?;
        let rest = (up && digits.rem_euclid(unit) != 0) as i128;
        digits.div_euclid(unit) + rest
    };
    (units.unsigned_abs() < 1 << 126).then_some(units)
}

fn is_thick(top: Number, bottom: Number) -> bool {
    match (units(top, false), units(bottom, true)) {
        (Some(top), Some(bottom)) => top - bottom >= 1_000_000,
        _ => false,
    }
}

fn skip<'a>(lines: &mut impl Iterator<Item = &'a [u8]>, count: usize) -> Option<()> {
    for _ in 0..count {
        Words(lines.next()?).try_for_each(|word| number(word).map(|_| ()))?;
    }
    Some(())
}

const GRID: [usize; 2] = [ROWS, COLS];

fn plain_stresses(deck: &Deck, ibound: &[Number]) -> Option<Stresses> {
    use Columns::{Any, Conductance, Head};
    let periods = deck.periods;
    let listed = |text: &String, columns: &[Columns], once: bool| {
        lists(lines_of(text.as_bytes()), GRID, periods, columns, once)
    };
    Some(Stresses {
        wells: listed(&deck.wel, &[Any], false)?,
        rivers: listed(&deck.riv, &[Head, Conductance, Head], false)?,
        drains: listed(&deck.drn, &[Head, Conductance], false)?,
        generals: listed(&deck.ghb, &[Head, Conductance], false)?,
        recharge: recharge(lines_of(deck.rch.as_bytes()), GRID, periods)?,
        given: listed(&deck.chd, &[Head, Head], true)?,
        evapotranspiration: evapotranspiration(lines_of(deck.evt.as_bytes()), GRID, periods, ibound)?,
    })
}

// The model of a deck, with the checks on its cells.
#[inline(never)]
fn plain_model(deck: &Deck) -> Option<Model> {
    let mut dis = lines_of(deck.dis.as_bytes());
    skip(&mut dis, 2)?;
    let widths = [layer(&mut dis, 1, COLS)?, layer(&mut dis, 1, ROWS)?];
    if !widths.iter().flatten().all(is_positive) {
        return None;
    }
    let top = layer(&mut dis, ROWS, COLS)?;
    let bottom = layer(&mut dis, ROWS, COLS)?;
    let mut bas = lines_of(deck.bas.as_bytes());
    bas.next()?;
    let ibound = layer(&mut bas, ROWS, COLS)?;
    skip(&mut bas, 1)?;
    let strt = layer(&mut bas, ROWS, COLS)?;
    let mut lpf = lines_of(deck.lpf.as_bytes());
    skip(&mut lpf, 6)?;
    let properties = [
        layer(&mut lpf, ROWS, COLS)?,
        layer(&mut lpf, ROWS, COLS)?,
        layer(&mut lpf, ROWS, COLS)?,
    ];
    for cell in 0..ROWS * COLS {
        let active = ibound[cell].digits != 0;
        let fits = is_thick(top[cell], bottom[cell])
            && is_head(&strt[cell])
            && is_positive(&properties[0][cell])
            && !properties[2][cell].neg;
        if active && !fits {
            return None;
        }
    }
    let stresses = if deck.wel.is_empty() {
        None
    } else {
        Some(plain_stresses(deck, &ibound)?)
    };
    Some(Model {
        top,
        bottom,
        ibound,
        strt,
        properties,
        stresses,
    })
}

fn proved_cells(deck: &Deck, sum: &mut [u64]) -> usize {
    let [names, dis, bas, lpf, wel, riv, drn, ghb, rch, chd, evt] = deck.texts().map(|text| Text {
        bytes: text.as_ptr(),
        length: text.len(),
    });
    unsafe {
        model_cells(
            names, dis, bas, lpf, wel, riv, drn, ghb, rch, chd, evt, sum.as_mut_ptr(), sum.len(),
        )
    }
}

// A fixed sequence of pseudo-random numbers.
struct Sequence(u64);

impl Sequence {
    fn below(&mut self, n: u64) -> u64 {
        self.0 ^= self.0 << 13;
        self.0 ^= self.0 >> 7;
        self.0 ^= self.0 << 17;
        self.0 % n
    }
}

// A layer of numbers from a whole number on, or one number where it isn't written out.
fn layer_text(random: &mut Sequence, written: bool, from: i64) -> String {
    if !written {
        return format!("CONSTANT {from}\n");
    }
    let mut text = String::from("INTERNAL 1 (FREE) -1\n");
    for _ in 0..ROWS {
        for place in 0..COLS {
            let part = random.below(10u64.pow(6));
            write!(text, "{from}.{part:06} ").unwrap();
            if place % 8 == 7 {
                text.push('\n');
            }
        }
    }
    text
}

fn integers_text(random: &mut Sequence, written: bool) -> String {
    if !written {
        return String::from("CONSTANT 1\n");
    }
    let mut text = String::from("INTERNAL 1 (FREE) -1\n");
    for _ in 0..ROWS {
        for _ in 0..COLS {
            write!(text, "{} ", random.below(4) as i64 - 1).unwrap();
        }
        text.push('\n');
    }
    text
}

const NAMES: &str = "DIS 11 a.dis\nBAS6 12 a.bas\nLPF 13 a.lpf\n";

// A deck whose arrays are written out in the files that are named.
fn deck_of(random: &mut Sequence, dis: bool, bas: bool, lpf: bool) -> Deck {
    let mut deck = Deck {
        names: String::from(NAMES),
        dis: format!("1 {ROWS} {COLS} 1 4 2\n0\nCONSTANT 10\nCONSTANT 10\n"),
        bas: String::from("FREE\n"),
        lpf: String::from("0 -1E+30 0\n0\n0\n1\n0\n0\n"),
        ..Deck::default()
    };
    deck.dis += &layer_text(random, dis, 20);
    deck.dis += &layer_text(random, dis, 10);
    deck.dis += "30 10 1.2 TR\n";
    deck.bas += &integers_text(random, bas);
    deck.bas += "-999.99\n";
    deck.bas += &layer_text(random, bas, 15);
    for _ in 0..3 {
        deck.lpf += &layer_text(random, lpf, 1);
    }
    deck
}

// A list of so many entries in cells that lie apart, with as many numbers as the package has.
fn list_text(random: &mut Sequence, entries: usize, columns: usize) -> String {
    let mut text = format!("{entries} 0\n");
    for at in 0..entries {
        let cell = at * (ROWS * COLS / entries);
        write!(text, "1 {} {}", cell / COLS + 1, cell % COLS + 1).unwrap();
        for _ in 0..columns {
            write!(text, " {}.{:04}", 1 + random.below(20), random.below(10_000)).unwrap();
        }
        text.push('\n');
    }
    text
}

// A file of lists, of which every so many periods have a new one.
fn lists_text(random: &mut Sequence, periods: usize, each: usize, entries: usize, columns: usize) -> String {
    let mut text = format!("{entries} 0\n");
    for period in 0..periods {
        if period % each == 0 {
            text += &list_text(random, entries, columns);
        } else {
            text += "-1 0\n";
        }
    }
    text
}

// A file of arrays, written in the same way behind a line of flags.
fn arrays_text(random: &mut Sequence, first: &str, periods: usize, each: usize, arrays: usize) -> String {
    let mut text = format!("{first}\n");
    for period in 0..periods {
        if period % each == 0 {
            text += &"0 ".repeat(arrays);
            text.push('\n');
            (0..arrays).for_each(|_| text += &layer_text(random, true, 0));
        } else {
            text += &"-1 ".repeat(arrays);
            text.push('\n');
        }
    }
    text
}

// A deck with seven packages of stresses: lists of so many entries every so many periods, and arrays as often.
fn stressed_deck(periods: usize, lists_each: usize, arrays_each: usize, entries: usize) -> Deck {
    let random = &mut Sequence(0x9e37_79b9_7f4a_7c15);
    let mut deck = deck_of(random, true, true, true);
    deck.names += "WEL 14 a.wel\nRIV 15 a.riv\nDRN 16 a.drn\nGHB 17 a.ghb\nRCH 18 a.rch\nCHD 19 a.chd\nEVT 20 a.evt\n";
    deck.dis = deck.dis.replacen(" 1 4 2\n", &format!(" {periods} 4 2\n"), 1);
    deck.dis += &"30 10 1.2 TR\n".repeat(periods - 1);
    deck.periods = periods;
    deck.wel = lists_text(random, periods, lists_each, entries, 1);
    deck.riv = lists_text(random, periods, lists_each, entries, 3);
    deck.drn = lists_text(random, periods, lists_each, entries, 2);
    deck.ghb = lists_text(random, periods, lists_each, entries, 2);
    deck.rch = arrays_text(random, "1 0", periods, arrays_each, 1);
    deck.chd = lists_text(random, periods, lists_each, entries, 2);
    deck.evt = arrays_text(random, "1 0", periods, arrays_each, 3);
    deck
}

fn milliseconds(work: impl FnOnce()) -> f64 {
    let start = processor_time();
    work();
    (processor_time() - start).as_secs_f64() * 1e3
}

fn report(name: &str, deck: &Deck) {
    let sum = &mut [0];
    assert_eq!(proved_cells(deck, sum), ROWS * COLS, "{name}");
    let model = plain_model(deck).expect(name);
    let lists = [&model.top, &model.bottom, &model.ibound, &model.strt];
    let held = lists.into_iter().chain(&model.properties).map(Vec::len);
    let mut result = held.sum::<usize>() * size_of::<Number>();
    if let Some(stresses) = &model.stresses {
        assert_eq!(sum[0], stresses.sum(), "{name}");
        result += stresses.bytes();
    }
    let (mut ours, mut theirs) = (f64::MAX, f64::MAX);
    for _ in 0..RUNS {
        ours = ours.min(milliseconds(|| {
            black_box(proved_cells(black_box(deck), &mut []));
        }));
        theirs = theirs.min(milliseconds(|| {
            black_box(plain_model(black_box(deck)));
        }));
    }
    let our_bytes = most_bytes(|| {
        black_box(proved_cells(deck, &mut []));
    });
    let their_bytes = most_bytes(|| {
        black_box(plain_model(deck));
    });
    let bytes: usize = deck.texts().iter().map(|text| text.len()).sum();
    let [bytes, result, ours_held, theirs_held] =
        [bytes, result, our_bytes, their_bytes].map(|bytes| bytes as f64 / 1e6);
    println!(
        "{name:28} {bytes:6.1} MB {ours:8.1} ms {theirs:8.1} ms   ratio {:5.2}   {result:6.1} MB of lists, {ours_held:6.1} MB {theirs_held:6.1} MB",
        ours / theirs,
    );
}

fn main() {
    println!(
        "{} cells; text, proved, plain Rust, and the lists and the most memory of either",
        ROWS * COLS
    );
    let plain_deck = |dis: bool, bas: bool, lpf: bool| {
        deck_of(&mut Sequence(0x9e37_79b9_7f4a_7c15), dis, bas, lpf)
    };
    report("arrays of one number", &plain_deck(false, false, false));
    report("the discretization's", &plain_deck(true, false, false));
    report("the basic package's", &plain_deck(false, true, false));
    report("the flow package's", &plain_deck(false, false, true));
    report("all arrays written out", &plain_deck(true, true, true));
    report("100 periods, new lists", &stressed_deck(100, 1, 100, 1024));
    report("100 periods, arrays too", &stressed_deck(100, 1, 10, 1024));
    report("lists of 65,536 entries", &stressed_deck(2, 1, 1, 65_536));
    report("1,000 periods, all reused", &stressed_deck(1_000, 1_000, 1_000, 1024));
}
