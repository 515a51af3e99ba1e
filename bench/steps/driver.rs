// Milliseconds of making the problem of a time step with 65,536 cells and 65,536 entries of lists: the proved calls beside
// plain Rust.
#[path = "../shared/builder.rs"]
mod builder;
#[allow(dead_code)]
#[path = "../shared/decimals.rs"]
mod decimals;
#[allow(dead_code)]
#[path = "../shared/plain.rs"]
mod plain;
#[path = "../shared/processor.rs"]
mod processor;
#[path = "../shared/spans.rs"]
mod spans;

use builder::{Entry, Evap, Fixed, Model, Problem, River, build, period, start_heads, tables};
use plain::Number;
use processor::processor_time;
use std::fmt::Write;
use std::hint::black_box;

const LAYERS: usize = 4;
const ROWS: usize = 128;
const COLS: usize = 128;
const ENTRIES: usize = 16_384;
const TIMES: usize = 10;
const RUNS: usize = 5;

// A text as the proved calls take it.
#[repr(C)]
struct Text {
    bytes: *const u8,
    length: usize,
}

unsafe extern "C" {
    fn step_problems(
        names: Text,
        dis: Text,
        bas: Text,
        lpf: Text,
        wel: Text,
        riv: Text,
        drn: Text,
        ghb: Text,
        rch: Text,
        evt: Text,
        run_times: u32,
        period_times: u32,
        sum: *mut u64,
        room: usize,
    ) -> bool;
}

// A fixed sequence of pseudo-random numbers.
struct Sequence(u64);

impl Sequence {
    fn below(&mut self, n: u64) -> u64 {
        self.0 ^= self.0 << 13;
        self.0 ^= self.0 >> 7;
        self.0 ^= self.0 << 17;
        self.0 % n
    }

    // From one number on, and below another one, in units of 10^exp.
    fn number(&mut self, from: u64, to: u64, exp: i16) -> Number {
        Number {
            digits: from + self.below(to - from),
            exp,
            neg: false,
        }
    }

    fn numbers(&mut self, count: usize, from: u64, to: u64, exp: i16) -> Vec<Number> {
        (0..count).map(|_| self.number(from, to, exp)).collect()
    }

    fn entries(&mut self, values: impl Fn(&mut Sequence) -> [Number; 3]) -> Vec<Entry> {
        let cells = (LAYERS * ROWS * COLS) as u64;
        (0..ENTRIES).map(|_| (self.below(cells) as usize, values(self))).collect()
    }
}

// Four layers, some 10 thick, with constant heads on the left edge of the highest one and some cells without flow.
fn model_of(random: &mut Sequence, steps: usize) -> Model {
    let (cells, layer) = (LAYERS * ROWS * COLS, ROWS * COLS);
    let none = Number { digits: 0, exp: 0, neg: false };
    let bottom = (0..cells).map(|cell| {
        let from = 3000 - 1000 * (cell / layer) as u64;
        random.number(from, from + 400, -2)
    });
    let bottom = bottom.collect();
    let ibound = (0..cells).map(|cell| match random.below(20) {
        0 => 0,
        _ if cell < layer && cell % COLS == 0 => -1,
        _ => 1,
    });
    let ibound = ibound.collect();
    Model {
        layers: LAYERS,
        rows: ROWS,
        cols: COLS,
        delr: random.numbers(COLS, 500, 1500, -1),
        delc: random.numbers(ROWS, 500, 1500, -1),
        top: random.numbers(layer, 4000, 4400, -2),
        bottom,
        ibound,
        strt: random.numbers(cells, 100_000, 400_000, -4),
        hk: random.numbers(cells, 10, 1_000_000, -4),
        vka: random.numbers(cells, 10, 100_000, -6),
        ss: random.numbers(cells, 1, 1000, -7),
        perlen: Number { digits: 365, exp: -1, neg: false },
        tsmult: Number { digits: 12, exp: -1, neg: false },
        steps,
        wells: random.entries(|random| {
            let rate = random.number(1, 10_000, -3);
            [Number { neg: true, ..rate }, none, none]
        }),
        rivers: random.entries(|random| {
            [random.number(3500, 4000, -2), random.number(1, 5000, -2), random.number(3000, 3400, -2)]
        }),
        drains: random.entries(|random| [random.number(3000, 4000, -2), random.number(1, 5000, -2), none]),
        generals: random.entries(|random| [random.number(1000, 4000, -2), random.number(1, 5000, -2), none]),
        recharge: random.numbers(layer, 1, 1000, -6),
        surface: random.numbers(layer, 3900, 4300, -2),
        rate: random.numbers(layer, 1, 1000, -6),
        depth: random.numbers(layer, 100, 400, -2),
    }
}

fn word(value: &Number) -> String {
    let sign = if value.neg { "-" } else { "" };
    format!("{sign}{}E{}", value.digits, value.exp)
}

fn array<T>(values: &[T], cols: usize, word: impl Fn(&T) -> String) -> String {
    let mut text = String::from("INTERNAL 1 (FREE) -1\n");
    for row in values.chunks(cols) {
        row.iter().for_each(|value| write!(text, "{} ", word(value)).unwrap());
        text.push('\n');
    }
    text
}

// The arrays of each layer, one behind another.
fn layers(values: &[&[Number]]) -> String {
    let layer = ROWS * COLS;
    let of = |at: usize| values.iter().map(move |values| array(&values[at * layer..][..layer], COLS, word));
    (0..values[0].len() / layer).flat_map(of).collect()
}

fn list(entries: &[Entry], columns: usize) -> String {
    let mut text = format!("{ENTRIES} 0\n{ENTRIES} 0\n");
    for (cell, values) in entries {
        let (layer, row, col) = (cell / (ROWS * COLS), cell / COLS % ROWS, cell % COLS);
        write!(text, "{} {} {}", layer + 1, row + 1, col + 1).unwrap();
        values[..columns].iter().for_each(|value| write!(text, " {}", word(value)).unwrap());
        text.push('\n');
    }
    text
}

// The files of a model, in the order of the proved call.
fn deck_of(model: &Model) -> [String; 10] {
    let names = "DIS 11 a.dis\nBAS6 12 a.bas\nLPF 13 a.lpf\nWEL 14 a.wel\nRIV 15 a.riv\nDRN 16 a.drn\nGHB 17 a.ghb\nRCH 18 a.rch\nEVT 19 a.evt\n";
    let elevations = layers(&[&model.top]) + &layers(&[&model.bottom]);
    let widths = array(&model.delr, COLS, word) + &array(&model.delc, ROWS, word);
    let times = format!("{} {} {} TR\n", word(&model.perlen), model.steps, word(&model.tsmult));
    let ibound = model.ibound.chunks(ROWS * COLS);
    let ibound: String = ibound.map(|layer| array(layer, COLS, i64::to_string)).collect();
    [
        names.into(),
        format!("{LAYERS} {ROWS} {COLS} 1 4 2\n0 0 0 0\n{widths}{elevations}{times}"),
        format!("FREE\n{ibound}-999.99\n{}", layers(&[&model.strt])),
        format!(
            "0 -1E+30 0\n0 0 0 0\n0 0 0 0\n1 1 1 1\n0 0 0 0\n0 0 0 0\n{}",
            layers(&[&model.hk, &model.vka, &model.ss])
        ),
        list(&model.wells, 1),
        list(&model.rivers, 3),
        list(&model.drains, 2),
        list(&model.generals, 2),
        format!("1 0\n0\n{}", layers(&[&model.recharge])),
        format!("1 0\n0 0 0\n{}", layers(&[&model.surface, &model.rate, &model.depth])),
    ]
}

fn proved(deck: &[String; 10], run_times: usize, period_times: usize, sum: &mut [u64]) {
    let [names, dis, bas, lpf, wel, riv, drn, ghb, rch, evt] = deck.each_ref().map(|text| Text {
        bytes: text.as_ptr(),
        length: text.len(),
    });
    let (run_times, period_times) = (run_times as u32, period_times as u32);
    let done = unsafe {
        step_problems(
            names, dis, bas, lpf, wel, riv, drn, ghb, rch, evt, run_times, period_times, sum.as_mut_ptr(), sum.len(),
        )
    };
    assert!(done, "a step has no problem");
}

// A sum over a problem, as the proved side makes it.
fn sum_of(p: &Problem) -> u64 {
    let mixed = |values: [u64; 6]| {
        values.iter().fold(0, |sum: u64, value| sum.wrapping_mul(1_000_003).wrapping_add(*value))
    };
    let of_fixed = |x: &Fixed| {
        mixed([x.source as u64, x.pair.lo, x.pair.hi, x.head.lo.unsigned_abs(), x.head.hi.unsigned_abs(), 1])
    };
    let of_river = |x: &River| {
        let stage = x.stage.lo.unsigned_abs().wrapping_add(x.stage.hi.unsigned_abs());
        mixed([x.pair.lo, x.pair.hi, stage, x.bottom.lo.unsigned_abs(), x.bottom.hi.unsigned_abs(), 2])
    };
    let of_evap = |x: &Evap| {
        let surface = x.surface.lo.unsigned_abs().wrapping_add(x.surface.hi.unsigned_abs());
        mixed([x.pair.lo, x.pair.hi, x.extinction.lo.unsigned_abs(), x.extinction.hi.unsigned_abs(), surface, 3])
    };
    (0..p.ids.len()).fold(0, |sum: u64, at| {
        let flows = p.flows.of(at).iter().map(|x| mixed([x.lo.unsigned_abs() as u64, x.hi.unsigned_abs() as u64, 0, 0, 0, 4]));
        let links = p.links.of(at).iter().map(|x| mixed([x.cell as u64, x.pair.lo, x.pair.hi, 0, 0, 5]));
        let drains = p.drains.of(at).iter().map(|x| {
            mixed([x.pair.lo, x.pair.hi, x.elevation.lo.unsigned_abs(), x.elevation.hi.unsigned_abs(), 0, 6])
        });
        let fixed = p.fixed.of(at).iter().map(of_fixed);
        let rivers = p.rivers.of(at).iter().map(of_river);
        let evaps = p.evaps.of(at).iter().map(of_evap);
        let entries = flows.chain(links).chain(fixed).chain(rivers).chain(drains).chain(evaps);
        let of_cell = entries.fold(p.ids[at] as u64, u64::wrapping_add);
        sum.wrapping_mul(3).wrapping_add(of_cell)
    })
}

fn milliseconds(work: impl FnOnce()) -> f64 {
    let start = processor_time();
    work();
    (processor_time() - start).as_secs_f64() * 1e3
}

fn least(times: impl Iterator<Item = f64>) -> f64 {
    times.fold(f64::MAX, f64::min)
}

fn main() {
    let make = |steps: usize| model_of(&mut Sequence(0x9e37_79b9_7f4a_7c15), steps);
    let (one, many) = (make(1), make(TIMES + 1));
    let (deck_of_one, deck_of_many) = (deck_of(&one), deck_of(&many));
    let old = start_heads(&many);

    let (run, of_period) = (tables(&many), period(&many));
    let plain_sum = sum_of(&build(&many, &run, &of_period, many.steps, &old).expect("a problem"));
    let sum = &mut [0];
    proved(&deck_of_many, 1, 1, sum);
    assert_eq!(sum[0], plain_sum, "two problems of the last step");

    // The proved calls with one more of each kind and without; plain Rust alone.
    let (mut proved_times, mut plain_times) = ([const { Vec::new() }; 4], [const { Vec::new() }; 3]);
    for _ in 0..RUNS {
        let deck = &deck_of_one;
        proved_times[0].push(milliseconds(|| proved(deck, 1, 1, &mut [])));
        proved_times[1].push(milliseconds(|| proved(deck, 1 + TIMES, 1, &mut [])));
        proved_times[2].push(milliseconds(|| proved(deck, 1, 1 + TIMES, &mut [])));
        proved_times[3].push(milliseconds(|| proved(&deck_of_many, 1, 1, &mut [])));
        plain_times[0].push(milliseconds(|| drop(black_box(tables(black_box(&many))))));
        plain_times[1].push(milliseconds(|| drop(black_box(period(black_box(&many))))));
        let step = || drop(black_box(build(&many, &run, &of_period, many.steps / 2, black_box(&old))));
        plain_times[2].push(milliseconds(step));
    }
    let base = least(proved_times[0].iter().copied());
    println!(
        "{} cells, {} entries of lists; proved, plain Rust",
        LAYERS * ROWS * COLS,
        4 * ENTRIES
    );
    for (at, name) in ["tables of a run", "tables of a period", "a step's problem"].iter().enumerate() {
        let ours = (least(proved_times[at + 1].iter().copied()) - base) / TIMES as f64;
        let theirs = least(plain_times[at].iter().copied());
        println!("{name:20} {ours:8.2} ms {theirs:8.2} ms   ratio {:.2}", ours / theirs);
    }
}
