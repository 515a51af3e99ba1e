// Milliseconds to find the flows between 999 zones in a sheet of 65,536 cells: the proved call beside plain Rust.
#[path = "../shared/processor.rs"]
mod processor;

use processor::processor_time;
use std::collections::BTreeMap;
use std::hint::black_box;

const SIDE: u32 = 256;
const CELLS: u32 = SIDE * SIDE;
const TIMES: u32 = 20;
const RUNS: usize = 9;
const CONDUCTANCE: u64 = 1_000_000_000_000;

#[repr(C)]
#[derive(Clone, Copy)]
struct LinkRow {
    cell: u32,
    other: u32,
    lo: u64,
    hi: u64,
}

/// A cell's bounds, in units of 10^-9.
#[repr(C)]
#[derive(Clone, Copy)]
struct Pair {
    low: i64,
    high: i64,
}

unsafe extern "C" {
    fn zone_sum(rows: *const LinkRow, count: usize, zones: *const u32, cells: usize, heads: *const Pair, ends: usize, times: u32) -> u64;
}

mod plain {
    use super::*;

    #[derive(Default)]
    struct Sum {
        lo: i128,
        hi: i128,
        magnitude_lo: i128,
        magnitude_hi: i128,
    }

    fn flow(difference: i64, down: u64, up: u64) -> i128 {
        difference as i128 * if difference < 0 { down } else { up } as i128
    }

    #[inline(never)]
    pub fn zone_sum(cells: &[Vec<LinkRow>], zones: &[u32], heads: &[Pair]) -> u64 {
        let mut sums: BTreeMap<(u32, u32), Sum> = BTreeMap::new();
        for (cell, links) in cells.iter().enumerate() {
            for x in links {
                let (from, to) = (zones[cell], zones[x.other as usize]);
                if 0 < from && from < to {
                    let (a, b) = (heads[cell], heads[x.other as usize]);
                    let (lo, hi) = (flow(a.low - b.high, x.hi, x.lo), flow(a.high - b.low, x.lo, x.hi));
                    let sum = sums.entry((from, to)).or_default();
                    sum.lo += lo;
                    sum.hi += hi;
                    sum.magnitude_lo += lo.abs();
                    sum.magnitude_hi += hi.abs();
                }
            }
        }
        let limit = 1 << 126;
        let mut mixed: u64 = 0;
        for ((from, to), sum) in sums {
            assert!(sum.magnitude_lo < limit && sum.magnitude_hi < limit);
            for number in [from as i128, to as i128, sum.lo, sum.hi] {
                mixed = mixed.wrapping_mul(1_000_003).wrapping_add(number.unsigned_abs() as u64);
            }
        }
        mixed
    }
}

fn least(mut work: impl FnMut()) -> f64 {
    let mut least = f64::MAX;
    for _ in 0..RUNS {
        let start = processor_time();
        work();
        least = least.min((processor_time() - start).as_secs_f64() * 1e3);
    }
    least
}

fn report(name: &str, cells: &[Vec<LinkRow>], zones: &[u32], heads: &[Pair]) {
    let rows: Vec<LinkRow> = cells.concat();
    let ours = |times: u32| unsafe { zone_sum(rows.as_ptr(), rows.len(), zones.as_ptr(), zones.len(), heads.as_ptr(), heads.len(), times) };
    assert_eq!(ours(1), plain::zone_sum(cells, zones, heads), "{name}");
    let made = least(|| {
        black_box(ours(0));
    });
    let all = least(|| {
        black_box(ours(TIMES));
    });
    let proved = (all - made) / TIMES as f64;
    let plain = least(|| {
        for _ in 0..TIMES {
            black_box(plain::zone_sum(black_box(cells), zones, heads));
        }
    }) / TIMES as f64;
    println!("{name:32} {proved:8.2} ms {plain:8.2} ms   ratio {:.2}", proved / plain);
}

fn main() {
    let row = |cell: u32, other: u32| LinkRow { cell, other, lo: CONDUCTANCE, hi: CONDUCTANCE + 1 };
    let links = |cell: u32| {
        let (at_row, at_col) = (cell / SIDE, cell % SIDE);
        let near = [(at_row > 0, cell.wrapping_sub(SIDE)), (at_col > 0, cell.wrapping_sub(1)), (at_col + 1 < SIDE, cell + 1), (at_row + 1 < SIDE, cell + SIDE)];
        near.into_iter().filter(|x| x.0).map(|x| row(cell, x.1)).collect::<Vec<_>>()
    };
    let cells: Vec<Vec<LinkRow>> = (0..CELLS).map(links).collect();
    let heads: Vec<Pair> = (0..CELLS as i64).map(|cell| cell * 7_919_000 % 100_000_000_007).map(|low| Pair { low, high: low + 1 }).collect();
    let blocks: Vec<u32> = (0..CELLS).map(|cell| (cell / SIDE / 8 * 32 + cell % SIDE / 8 + 1).min(999)).collect();
    let mut state: u64 = 0x9e37_79b9_7f4a_7c15;
    let scattered: Vec<u32> = (0..CELLS)
        .map(|_| {
            state ^= state << 13;
            state ^= state >> 7;
            state ^= state << 17;
            (state % 1000) as u32
        })
        .collect();
    println!("{CELLS} cells; proved, plain Rust");
    report("999 zones of 8 x 8 cells", &cells, &blocks, &heads);
    report("999 zones, cells at random", &cells, &scattered, &heads);
    report("no zones", &cells, &vec![0; CELLS as usize], &heads);
}
