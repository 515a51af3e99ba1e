// Making the problem of a time step in plain Rust: rounded branches, storage, recharge and evapotranspiration, and the
// entries of lists by cell.
use crate::decimals::of_wide_units;
use crate::plain::Number;
use crate::spans::{ONE, Span, Word, word};

const NO_SPAN: Span = Span {
    lo: crate::decimals::Number { m: 0, e: 0 },
    hi: crate::decimals::Number { m: 0, e: 0 },
};
const LIMIT: u128 = 1 << 60;
const DIGITS: u32 = 12;

/// An entry of a list: its cell, and up to three numbers.
pub type Entry = (usize, [Number; 3]);

/// A model of one stress period without confining beds. Arrays are by cell, and those of recharge and evapotranspiration
/// by the cells of the highest layer.
pub struct Model {
    pub layers: usize,
    pub rows: usize,
    pub cols: usize,
    pub delr: Vec<Number>,
    pub delc: Vec<Number>,
    pub top: Vec<Number>,
    pub bottom: Vec<Number>,
    pub ibound: Vec<i64>,
    pub strt: Vec<Number>,
    pub hk: Vec<Number>,
    pub vka: Vec<Number>,
    pub ss: Vec<Number>,
    pub perlen: Number,
    pub tsmult: Number,
    pub steps: usize,
    pub wells: Vec<Entry>,
    pub rivers: Vec<Entry>,
    pub drains: Vec<Entry>,
    pub generals: Vec<Entry>,
    pub recharge: Vec<Number>,
    pub surface: Vec<Number>,
    pub rate: Vec<Number>,
    pub depth: Vec<Number>,
}

#[derive(Clone, Copy, PartialEq)]
pub struct Pair {
    pub lo: u64,
    pub hi: u64,
}

// What stands where a bound reaches the limit: the cell is refused.
const CAPPED: Pair = Pair {
    lo: 0,
    hi: 1 << 60,
};

#[derive(Clone, Copy)]
pub struct Heads {
    pub lo: i64,
    pub hi: i64,
}

#[derive(Clone, Copy)]
pub struct Flow {
    pub lo: i128,
    pub hi: i128,
}

pub struct Link {
    pub cell: u32,
    pub pair: Pair,
}

pub struct Fixed {
    pub source: u32,
    pub pair: Pair,
    pub head: Heads,
}

pub struct River {
    pub pair: Pair,
    pub stage: Heads,
    pub bottom: Heads,
}

pub struct Drain {
    pub pair: Pair,
    pub elevation: Heads,
}

#[derive(Clone, Copy)]
pub struct Evap {
    pub pair: Pair,
    pub extinction: Heads,
    pub surface: Heads,
}

/// Items of all cells, those of each one behind another.
pub struct Rows<T> {
    start: Vec<u32>,
    items: Vec<T>,
}

impl<T> Rows<T> {
    fn new() -> Rows<T> {
        Rows {
            start: vec![0],
            items: Vec::new(),
        }
    }

    fn close(&mut self) {
        self.start.push(self.items.len() as u32);
    }

    pub fn of(&self, cell: usize) -> &[T] {
        &self.items[self.start[cell] as usize..self.start[cell + 1] as usize]
    }

    fn last(&self) -> &[T] {
        &self.items[self.start[self.start.len() - 1] as usize..]
    }
}

/// The variable cells of a step and what they hold.
pub struct Problem {
    pub ids: Vec<u32>,
    pub flows: Rows<Flow>,
    pub links: Rows<Link>,
    pub fixed: Rows<Fixed>,
    pub rivers: Rows<River>,
    pub drains: Rows<Drain>,
    pub evaps: Rows<Evap>,
}

fn positive(value: Number) -> Span {
    word(Word {
        digits: value.digits,
        exp: value.exp,
    })
}

// In units of 10^-places, rounded down or up.
fn units(value: Number, places: u32, up: bool) -> i128 {
    let places = value.exp as i32 + places as i32;
    let digits = if value.neg { -(value.digits as i128) } else { value.digits as i128 };
    if places >= 0 {
        return digits * 10i128.pow(places as u32);
    }
    let unit = 10i128.pow(places.unsigned_abs());
    digits.div_euclid(unit) + (up && digits.rem_euclid(unit) != 0) as i128
}

fn heads(value: Number) -> Heads {
    Heads {
        lo: units(value, 9, false) as i64,
        hi: units(value, 9, true) as i64,
    }
}

fn conductance(value: Number) -> Pair {
    let (lo, hi) = (units(value, DIGITS, false), units(value, DIGITS, true));
    if hi < LIMIT as i128 {
        Pair {
            lo: lo as u64,
            hi: hi as u64,
        }
    } else {
        CAPPED
    }
}

fn capped(span: Span) -> Pair {
    span.units_below(DIGITS, LIMIT).map_or(CAPPED, |(lo, hi)| Pair {
        lo: lo as u64,
        hi: hi as u64,
    })
}

fn thickness(top: Number, bottom: Number) -> Span {
    let lo = units(top, 18, false) - units(bottom, 18, true);
    let hi = units(top, 18, true) - units(bottom, 18, false);
    Span {
        lo: of_wide_units(lo as u128, 18, false),
        hi: of_wide_units(hi as u128, 18, true),
    }
}

impl Model {
    pub fn cells(&self) -> usize {
        self.layers * self.rows * self.cols
    }

    fn layer_cells(&self) -> usize {
        self.rows * self.cols
    }

    fn is_variable(&self, cell: usize) -> bool {
        self.ibound[cell] > 0
    }

    fn delr(&self, cell: usize) -> Number {
        self.delr[cell % self.cols]
    }

    fn delc(&self, cell: usize) -> Number {
        self.delc[cell / self.cols % self.rows]
    }

    fn area(&self, cell: usize) -> Span {
        positive(self.delr(cell)).times(positive(self.delc(cell)))
    }

    // Left, right, back, front, up and down.
    fn neighbours(&self, cell: usize) -> [Option<usize>; 6] {
        let (col, row, layer) = (cell % self.cols, cell / self.cols % self.rows, cell / self.layer_cells());
        [
            (col > 0).then(|| cell - 1),
            (col + 1 < self.cols).then(|| cell + 1),
            (row > 0).then(|| cell - self.cols),
            (row + 1 < self.rows).then(|| cell + self.cols),
            (layer > 0).then(|| cell - self.layer_cells()),
            (layer + 1 < self.layers).then(|| cell + self.layer_cells()),
        ]
    }
}

/// What all steps of a run have in common: the thickness of each active cell, and its branches to the right, to the front
/// and down.
pub struct Tables {
    thick: Vec<Span>,
    branches: [Vec<Pair>; 3],
}

fn half(along: Number, across: Number, hk: Number, thick: Span) -> Span {
    let across = positive(across);
    positive(along).over(across.plus(across).times(positive(hk).times(thick)))
}

fn vertical_half(vka: Number, thick: Span) -> Span {
    let vka = positive(vka);
    thick.over(vka.plus(vka))
}

#[inline(never)]
pub fn tables(model: &Model) -> Tables {
    let cells = model.cells();
    let mut thick = vec![NO_SPAN; cells];
    let mut halves = [vec![NO_SPAN; cells], vec![NO_SPAN; cells], vec![NO_SPAN; cells]];
    for cell in (0..cells).filter(|cell| model.ibound[*cell] != 0) {
        let above = cell.checked_sub(model.layer_cells());
        let top = above.map_or(model.top.get(cell), |above| model.bottom.get(above));
        thick[cell] = thickness(*top.expect("an elevation"), model.bottom[cell]);
        let (delr, delc) = (model.delr(cell), model.delc(cell));
        halves[0][cell] = half(delr, delc, model.hk[cell], thick[cell]);
        halves[1][cell] = half(delc, delr, model.hk[cell], thick[cell]);
        halves[2][cell] = vertical_half(model.vka[cell], thick[cell]);
    }
    let branch = |axis: usize, cell: usize| {
        let other = model.neighbours(cell)[2 * axis + 1].filter(|other| model.ibound[*other] != 0);
        let Some(other) = other.filter(|_| model.ibound[cell] != 0) else {
            return CAPPED;
        };
        let resistance = halves[axis][cell].plus(halves[axis][other]);
        let whole = if axis == 2 { model.area(cell) } else { word(ONE) };
        capped(whole.over(resistance))
    };
    let branches = [0, 1, 2].map(|axis| (0..cells).map(|cell| branch(axis, cell)).collect());
    Tables { thick, branches }
}

/// What all steps of the period have in common: the entries of each list by cell, recharge and evapotranspiration.
pub struct Period {
    lists: [Rows<u32>; 4],
    recharge: Vec<Option<Flow>>,
    evaps: Vec<Option<Evap>>,
}

fn by_cell(cells: usize, list: &[Entry]) -> Rows<u32> {
    let mut start = vec![0u32; cells + 1];
    for (cell, _) in list {
        start[cell + 1] += 1;
    }
    for cell in 0..cells {
        start[cell + 1] += start[cell];
    }
    let mut next = start.clone();
    let mut items = vec![0; list.len()];
    for (at, (cell, _)) in list.iter().enumerate() {
        items[next[*cell] as usize] = at as u32;
        next[*cell] += 1;
    }
    Rows { start, items }
}

fn recharge_of(model: &Model, cell: usize) -> Option<Flow> {
    let rate = model.recharge[cell];
    let flow = positive(rate).times(positive(model.delr(cell))).times(positive(model.delc(cell)));
    let (lo, hi) = flow.units_below(DIGITS + 9, 1 << 126)?;
    let (lo, hi) = (lo as i128, hi as i128);
    Some(if rate.neg { Flow { lo: -hi, hi: -lo } } else { Flow { lo, hi } })
}

fn evap_of(model: &Model, cell: usize) -> Evap {
    let (rate, depth) = (positive(model.rate[cell]), positive(model.depth[cell]));
    let surface = heads(model.surface[cell]);
    let depths = heads(model.depth[cell]);
    Evap {
        pair: capped(rate.times(model.area(cell)).over(depth)),
        extinction: Heads {
            lo: surface.lo - depths.hi,
            hi: surface.hi - depths.lo,
        },
        surface,
    }
}

#[inline(never)]
pub fn period(model: &Model) -> Period {
    let lists = [&model.wells, &model.rivers, &model.drains, &model.generals];
    let highest = || 0..model.layer_cells();
    Period {
        lists: lists.map(|list| by_cell(model.cells(), list)),
        recharge: highest().map(|cell| recharge_of(model, cell)).collect(),
        evaps: highest()
            .map(|cell| (model.rate[cell].digits > 0).then(|| evap_of(model, cell)))
            .collect(),
    }
}

pub fn start_heads(model: &Model) -> Vec<Heads> {
    model.strt.iter().map(|head| heads(*head)).collect()
}

// 1 + t + .. + t^(steps - 1), and t^(step - 1).
fn factors(tsmult: Number, steps: usize, step: usize) -> [Span; 2] {
    let (one, t) = (word(ONE), positive(tsmult));
    let sum = (1..steps).fold(one, |sum, _| sum.times(t).plus(one));
    [sum, (1..step).fold(one, |power, _| power.times(t))]
}

fn storages(model: &Model, tables: &Tables, step: usize) -> Vec<Pair> {
    let [sum, power] = factors(model.tsmult, model.steps, step);
    let length = positive(model.perlen).times(power);
    let storage = |cell: usize| {
        if model.ibound[cell] == 0 {
            return CAPPED;
        }
        let volume = positive(model.ss[cell]).times(tables.thick[cell]).times(model.area(cell));
        capped(volume.times(sum).over(length))
    };
    (0..model.cells()).map(storage).collect()
}

// A cell's greatest conductances and flows in all, which are limited.
#[derive(Default)]
struct Totals {
    conductance: u128,
    flow: u128,
}

impl Totals {
    fn conduct(&mut self, pair: Pair) -> Pair {
        self.conductance += pair.hi as u128;
        pair
    }

    fn flow(&mut self, flow: Flow) -> Flow {
        self.flow = self.flow.saturating_add(flow.lo.unsigned_abs().max(flow.hi.unsigned_abs()));
        flow
    }
}

fn deep_flow(river: &River) -> Flow {
    let low = (river.stage.lo - river.bottom.hi) as i128;
    let high = (river.stage.hi - river.bottom.lo) as i128;
    let (least, most) = (river.pair.lo as i128, river.pair.hi as i128);
    Flow {
        lo: low * if low >= 0 { least } else { most },
        hi: high * if high >= 0 { most } else { least },
    }
}

/// The problem of a step from the heads before it; none where a cell is refused.
#[inline(never)]
pub fn build(model: &Model, tables: &Tables, period: &Period, step: usize, old: &[Heads]) -> Option<Problem> {
    let storages = storages(model, tables, step);
    let mut index = vec![u32::MAX; model.cells()];
    let variable = (0..model.cells()).filter(|cell| model.is_variable(*cell));
    let ids: Vec<u32> = variable.map(|cell| cell as u32).collect();
    for (at, cell) in ids.iter().enumerate() {
        index[*cell as usize] = at as u32;
    }
    let mut p = Problem {
        ids: Vec::new(),
        flows: Rows::new(),
        links: Rows::new(),
        fixed: Rows::new(),
        rivers: Rows::new(),
        drains: Rows::new(),
        evaps: Rows::new(),
    };
    for cell in ids.iter().map(|cell| *cell as usize) {
        let mut totals = Totals::default();
        let source = cell as u32;
        for (way, other) in model.neighbours(cell).into_iter().enumerate() {
            let Some(other) = other.filter(|other| model.ibound[*other] != 0) else {
                continue;
            };
            let pair = totals.conduct(tables.branches[way / 2][cell.min(other)]);
            if pair.lo == 0 {
                return None;
            }
            if model.is_variable(other) {
                p.links.items.push(Link {
                    cell: index[other],
                    pair,
                });
            } else {
                p.fixed.items.push(Fixed {
                    source: other as u32,
                    pair,
                    head: heads(model.strt[other]),
                });
            }
        }
        p.fixed.items.push(Fixed {
            source,
            pair: totals.conduct(storages[cell]),
            head: old[cell],
        });
        let [wells, rivers, drains, generals] = &period.lists;
        for (_, [head, value, _]) in generals.of(cell).iter().map(|at| &model.generals[*at as usize]) {
            p.fixed.items.push(Fixed {
                source,
                pair: totals.conduct(conductance(*value)),
                head: heads(*head),
            });
        }
        for (_, [stage, value, bottom]) in rivers.of(cell).iter().map(|at| &model.rivers[*at as usize]) {
            p.rivers.items.push(River {
                pair: totals.conduct(conductance(*value)),
                stage: heads(*stage),
                bottom: heads(*bottom),
            });
        }
        for (_, [elevation, value, _]) in drains.of(cell).iter().map(|at| &model.drains[*at as usize]) {
            p.drains.items.push(Drain {
                pair: totals.conduct(conductance(*value)),
                elevation: heads(*elevation),
            });
        }
        if let Some(evap) = period.evaps.get(cell).copied().flatten() {
            totals.conduct(evap.pair);
            let most = evap.pair.hi as i128 * (evap.surface.hi - evap.extinction.lo) as i128;
            totals.flow(Flow { lo: 0, hi: most });
            p.evaps.items.push(evap);
        }
        for (_, [rate, _, _]) in wells.of(cell).iter().map(|at| &model.wells[*at as usize]) {
            let [lo, hi] = [false, true].map(|up| units(*rate, DIGITS + 9, up));
            p.flows.items.push(totals.flow(Flow { lo, hi }));
        }
        if cell < model.layer_cells() {
            p.flows.items.push(totals.flow(period.recharge[cell]?));
        }
        for river in p.rivers.last() {
            totals.flow(deep_flow(river));
        }
        if totals.conductance >= LIMIT || totals.flow >= 1 << 109 {
            return None;
        }
        p.flows.close();
        p.links.close();
        p.fixed.close();
        p.rivers.close();
        p.drains.close();
        p.evaps.close();
    }
    p.ids = ids;
    Some(p)
}
