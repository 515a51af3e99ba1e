// Milliseconds to find the barrier of a large problem: the proved call beside plain Rust of the same algorithm.
use std::hint::black_box;
use std::time::Instant;

#[repr(C)]
#[derive(Clone, Copy)]
pub struct LinkRow {
    cell: u32,
    other: u32,
    lo: u64,
    hi: u64,
}

#[repr(C)]
#[derive(Clone, Copy)]
pub struct HeadRow {
    cell: u32,
    lo: u64,
    hi: u64,
    head_lo: i64,
    head_hi: i64,
}

#[repr(C)]
#[derive(Clone, Copy)]
pub struct RiverRow {
    cell: u32,
    lo: u64,
    hi: u64,
    stage: i64,
    bottom: i64,
}

#[repr(C)]
#[derive(Clone, Copy)]
pub struct WellRow {
    cell: u32,
    flow: i64,
}

unsafe extern "C" {
    // Makes the problem of these rows, and then finds its barrier so many times.
    fn barrier_times(
        count: usize,
        links: *const LinkRow,
        links_len: usize,
        heads: *const HeadRow,
        heads_len: usize,
        rivers: *const RiverRow,
        rivers_len: usize,
        wells: *const WellRow,
        wells_len: usize,
        times: u32,
        floor: *mut i64,
        floor_len: usize,
        ceiling: *mut i64,
        ceiling_len: usize,
    ) -> bool;
}

#[derive(Default)]
struct Rows {
    count: usize,
    links: Vec<LinkRow>,
    heads: Vec<HeadRow>,
    rivers: Vec<RiverRow>,
    wells: Vec<WellRow>,
}

impl Rows {
    fn link(&mut self, a: usize, b: usize, lo: u64) {
        let (a, b) = (a as u32, b as u32);
        for (cell, other) in [(a, b), (b, a)] {
            self.links.push(LinkRow {
                cell,
                other,
                lo,
                hi: lo + 1,
            });
        }
    }
}

fn proved(rows: &Rows, times: u32) -> (Vec<i64>, Vec<i64>) {
    let mut floor = vec![0; rows.count];
    let mut ceiling = vec![0; rows.count];
    let found = unsafe {
        barrier_times(
            rows.count,
            rows.links.as_ptr(),
            rows.links.len(),
            rows.heads.as_ptr(),
            rows.heads.len(),
            rows.rivers.as_ptr(),
            rows.rivers.len(),
            rows.wells.as_ptr(),
            rows.wells.len(),
            times,
            floor.as_mut_ptr(),
            floor.len(),
            ceiling.as_mut_ptr(),
            ceiling.len(),
        )
    };
    assert!(found, "no barrier by the proved call");
    (floor, ceiling)
}

mod plain {
    use super::{HeadRow, LinkRow, RiverRow, Rows, WellRow};

    const HEAD_LIMIT: i64 = 4_000_000_000_000_000_000;

    #[derive(Default, Clone)]
    pub struct Cell {
        links: Vec<LinkRow>,
        heads: Vec<HeadRow>,
        rivers: Vec<RiverRow>,
        wells: Vec<WellRow>,
    }

    pub fn cells(rows: &Rows) -> Vec<Cell> {
        let mut cells = vec![Cell::default(); rows.count];
        for x in &rows.links {
            cells[x.cell as usize].links.push(*x);
        }
        for x in &rows.heads {
            cells[x.cell as usize].heads.push(*x);
        }
        for x in &rows.rivers {
            cells[x.cell as usize].rivers.push(*x);
        }
        for x in &rows.wells {
            cells[x.cell as usize].wells.push(*x);
        }
        cells
    }

    fn deep_flow(cell: &Cell) -> i128 {
        let wells: i128 = cell.wells.iter().map(|x| x.flow as i128).sum();
        let rivers: i128 = cell
            .rivers
            .iter()
            .map(|x| {
                let depth = (x.stage - x.bottom) as i128;
                depth * if depth >= 0 { x.lo } else { x.hi } as i128
            })
            .sum();
        wells + rivers
    }

    fn drop_over(flow: u128, lo: u64) -> i128 {
        flow.div_ceil(lo as u128) as i128
    }

    // The path of each cell to the roots, by levels, through the least neighbour one level nearer.
    fn paths(cells: &[Cell], own: &[Option<i128>], flow: u128) -> Vec<Option<i128>> {
        let mut levels: Vec<Option<u32>> = own.iter().map(|d| d.map(|_| 0)).collect();
        let mut paths = own.to_vec();
        let mut frontier: Vec<u32> = (0..cells.len() as u32)
            .filter(|c| own[*c as usize].is_some())
            .collect();
        let mut level = 0;
        while !frontier.is_empty() {
            let mut next = Vec::new();
            for &c in &frontier {
                for x in &cells[c as usize].links {
                    if levels[x.other as usize].is_none() {
                        levels[x.other as usize] = Some(level + 1);
                        next.push(x.other);
                    }
                }
            }
            for &c in &next {
                paths[c as usize] = cells[c as usize]
                    .links
                    .iter()
                    .filter(|x| levels[x.other as usize] == Some(level))
                    .min_by_key(|x| x.other)
                    .and_then(|x| Some(paths[x.other as usize]? + drop_over(flow, x.lo)));
            }
            frontier = next;
            level += 1;
        }
        paths
    }

    // The least cell of each cell's component.
    fn components(cells: &[Cell]) -> Vec<u32> {
        let mut labels = vec![u32::MAX; cells.len()];
        for first in 0..cells.len() {
            if labels[first] != u32::MAX {
                continue;
            }
            labels[first] = first as u32;
            let mut rest = vec![first];
            while let Some(c) = rest.pop() {
                for x in &cells[c].links {
                    if labels[x.other as usize] == u32::MAX {
                        labels[x.other as usize] = first as u32;
                        rest.push(x.other as usize);
                    }
                }
            }
        }
        labels
    }

    fn floors(cells: &[Cell]) -> Option<Vec<i64>> {
        let base = cells
            .iter()
            .flat_map(|c| {
                let heads = c.heads.iter().filter(|x| x.hi > 0).map(|x| x.head_lo);
                let bottoms = c.rivers.iter().filter(|x| x.hi > 0).map(|x| x.bottom);
                heads.chain(bottoms)
            })
            .min()
            .unwrap_or(0);
        let deep: Vec<i128> = cells.iter().map(deep_flow).collect();
        let lack = deep.iter().map(|d| (-d).max(0) as u128).sum();
        let own: Vec<Option<i128>> = cells
            .iter()
            .map(|c| {
                let lo = c.heads.iter().map(|x| x.lo).max().unwrap_or(0);
                (lo > 0).then(|| drop_over(lack, lo))
            })
            .collect();
        let anchored = paths(cells, &own, lack);
        let labels = components(cells);
        let least: Vec<Option<i128>> = (0..cells.len() as u32)
            .map(|c| (labels[c as usize] == c).then_some(0))
            .collect();
        let inner = paths(cells, &least, lack);
        let mut sums = vec![0i128; cells.len()];
        let mut longest = vec![0i128; cells.len()];
        for c in 0..cells.len() {
            let m = labels[c] as usize;
            sums[m] += deep[c];
            longest[m] = longest[m].max(inner[c]?);
        }
        (0..cells.len())
            .map(|c| {
                let m = labels[c] as usize;
                let path = match anchored[c] {
                    Some(path) => path,
                    None if sums[m] > 0 => inner[c]? + longest[m],
                    None => return None,
                };
                let floor = base as i128 - path;
                (floor >= -HEAD_LIMIT as i128).then_some(floor as i64)
            })
            .collect()
    }

    fn ceilings(cells: &[Cell]) -> Option<Vec<i64>> {
        let base = cells
            .iter()
            .flat_map(|c| {
                let heads = c.heads.iter().filter(|x| x.hi > 0).map(|x| x.head_hi);
                let rivers = c.rivers.iter().filter(|x| x.hi > 0);
                heads.chain(rivers.map(|x| x.stage.max(x.bottom)))
            })
            .max()
            .unwrap_or(0);
        let surplus = cells
            .iter()
            .map(|c| c.wells.iter().map(|x| x.flow as i128).sum::<i128>().max(0) as u128)
            .sum();
        let own: Vec<Option<i128>> = cells
            .iter()
            .map(|c| {
                let heads = c.heads.iter().map(|x| x.lo);
                let lo = heads
                    .chain(c.rivers.iter().map(|x| x.lo))
                    .max()
                    .unwrap_or(0);
                (lo > 0).then(|| drop_over(surplus, lo))
            })
            .collect();
        paths(cells, &own, surplus)
            .into_iter()
            .map(|path| {
                let ceiling = base as i128 + path?;
                (ceiling <= HEAD_LIMIT as i128).then_some(ceiling as i64)
            })
            .collect()
    }

    pub fn barrier(cells: &[Cell]) -> Option<(Vec<i64>, Vec<i64>)> {
        Some((floors(cells)?, ceilings(cells)?))
    }
}

const ONE: u64 = 1_000_000_000_000;

const METRE: i64 = 1_000_000_000;

// A fixed sequence of pseudo-random numbers.
struct Sequence(u64);

impl Sequence {
    fn below(&mut self, n: u64) -> u64 {
        self.0 ^= self.0 << 13;
        self.0 ^= self.0 >> 7;
        self.0 ^= self.0 << 17;
        self.0 % n
    }
}

const SIDE: usize = 256;

// A sheet with general heads along its west side, rivers and wells here and there.
fn sheet(random: &mut Sequence) -> Rows {
    let mut rows = Rows {
        count: SIDE * SIDE,
        ..Rows::default()
    };
    for r in 0..SIDE {
        for c in 0..SIDE {
            let cell = r * SIDE + c;
            if c + 1 < SIDE {
                rows.link(cell, cell + 1, ONE + random.below(ONE));
            }
            if r + 1 < SIDE {
                rows.link(cell, cell + SIDE, ONE + random.below(ONE));
            }
            if c == 0 {
                rows.heads.push(HeadRow {
                    cell: cell as u32,
                    lo: ONE,
                    hi: ONE + 1,
                    head_lo: 10 * METRE,
                    head_hi: 10 * METRE,
                });
            }
            if random.below(16) == 0 {
                rows.rivers.push(RiverRow {
                    cell: cell as u32,
                    lo: ONE,
                    hi: ONE + 1,
                    stage: 12 * METRE,
                    bottom: 11 * METRE,
                });
            }
            rows.wells.push(WellRow {
                cell: cell as u32,
                flow: random.below(2 << 40) as i64 - (1 << 40),
            });
        }
    }
    rows
}

// A chain that hangs on a general head at its first cell, and beside it one that a river carries.
fn chains(random: &mut Sequence) -> Rows {
    let half = SIDE * SIDE / 2;
    let mut rows = Rows {
        count: 2 * half,
        ..Rows::default()
    };
    for cell in 1..2 * half {
        if cell != half {
            rows.link(cell - 1, cell, ONE + random.below(ONE));
        }
    }
    rows.heads.push(HeadRow {
        cell: 0,
        lo: ONE,
        hi: ONE,
        head_lo: 0,
        head_hi: 0,
    });
    rows.rivers.push(RiverRow {
        cell: half as u32,
        lo: ONE,
        hi: ONE,
        stage: METRE,
        bottom: 0,
    });
    for cell in 0..2 * half as u32 {
        let flow = random.below(2 << 20) as i64 - (1 << 20);
        rows.wells.push(WellRow { cell, flow });
    }
    rows
}

const RUNS: usize = 7;
const TIMES: u32 = 5;

fn milliseconds(mut work: impl FnMut()) -> f64 {
    let start = Instant::now();
    work();
    start.elapsed().as_secs_f64() * 1000.0
}

// The least of several differences between six and one findings of the same problem.
fn proved_time(rows: &Rows) -> f64 {
    (0..RUNS)
        .map(|_| {
            let one = milliseconds(|| drop(black_box(proved(rows, 1))));
            let more = milliseconds(|| drop(black_box(proved(rows, 1 + TIMES))));
            (more - one) / TIMES as f64
        })
        .fold(f64::MAX, f64::min)
}

fn plain_time(cells: &[plain::Cell]) -> f64 {
    (0..RUNS)
        .map(|_| {
            let all = milliseconds(|| {
                for _ in 0..TIMES {
                    black_box(plain::barrier(black_box(cells)));
                }
            });
            all / TIMES as f64
        })
        .fold(f64::MAX, f64::min)
}

fn report(name: &str, rows: &Rows) {
    let cells = plain::cells(rows);
    assert_eq!(
        Some(proved(rows, 1)),
        plain::barrier(&cells),
        "the barriers of the {name} differ"
    );
    let ours = proved_time(rows);
    let theirs = plain_time(&cells);
    println!(
        "{name:8} {ours:8.1} ms {theirs:8.1} ms   ratio {:.2}",
        ours / theirs
    );
}

fn main() {
    let mut random = Sequence(0x9e37_79b9_7f4a_7c15);
    println!("{:8} {:>11} {:>11}", "problem", "proved", "plain Rust");
    report("sheet", &sheet(&mut random));
    report("chains", &chains(&mut random));
}
