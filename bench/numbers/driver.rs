// Nanoseconds of each operation on 18-digit decimals: the proved calls beside plain Rust over u128.
#[allow(dead_code)]
#[path = "../shared/decimals.rs"]
mod decimals;

use decimals::Number;
use std::hint::black_box;
use std::time::Instant;

unsafe extern "C" {
    fn number_mul_dn(m: u64, d: i16, n: u64, e: i16) -> Number;
    fn number_mul_up(m: u64, d: i16, n: u64, e: i16) -> Number;
    fn number_div_dn(m: u64, d: i16, n: u64, e: i16) -> Number;
    fn number_div_up(m: u64, d: i16, n: u64, e: i16) -> Number;
    fn number_add_dn(m: u64, d: i16, n: u64, e: i16) -> Number;
    fn number_add_up(m: u64, d: i16, n: u64, e: i16) -> Number;
    fn number_of_units_dn(units: u64, places: u16) -> Number;
    fn number_of_units_up(units: u64, places: u16) -> Number;
    fn number_floor_units(m: u64, e: i16, s: u32) -> u64;
    fn number_ceil_units(m: u64, e: i16, s: u32) -> u64;
}

const COUNT: usize = 4096;
const ROUNDS: usize = 200;
const RUNS: usize = 7;

// A fixed sequence of pseudo-random numbers.
struct Sequence(u64);

impl Sequence {
    fn next(&mut self) -> u64 {
        self.0 ^= self.0 << 13;
        self.0 ^= self.0 >> 7;
        self.0 ^= self.0 << 17;
        self.0
    }

    fn below(&mut self, n: u64) -> u64 {
        self.next() % n
    }
}

fn nanoseconds(mut work: impl FnMut() -> u64) -> f64 {
    let mut best = f64::MAX;
    for _ in 0..RUNS {
        let start = Instant::now();
        for _ in 0..ROUNDS {
            black_box(work());
        }
        best = best.min(start.elapsed().as_nanos() as f64 / (ROUNDS * COUNT) as f64);
    }
    best
}

fn report<T: Copy>(
    name: &str,
    operands: &[T],
    proved: impl Fn(T) -> Number,
    plain: impl Fn(T) -> Number,
) {
    for &x in operands {
        assert_eq!(proved(x), plain(x), "{name}");
    }
    let ours = nanoseconds(|| {
        operands
            .iter()
            .fold(0, |sum: u64, &x| sum.wrapping_add(proved(x).m))
    });
    let theirs = nanoseconds(|| {
        operands
            .iter()
            .fold(0, |sum: u64, &x| sum.wrapping_add(plain(x).m))
    });
    println!(
        "{name:12} {ours:8.1} ns {theirs:8.1} ns   ratio {:.2}",
        ours / theirs
    );
}

fn main() {
    let mut random = Sequence(0x9e37_79b9_7f4a_7c15);
    let pairs: Vec<(u64, i16, u64, i16)> = (0..COUNT)
        .map(|_| {
            let m = 10u64.pow(17) + random.below(9 * 10u64.pow(17));
            let n = 10u64.pow(17) + random.below(9 * 10u64.pow(17));
            let d = random.below(41) as i16 - 30;
            (m, d, n, d + random.below(25) as i16 - 12)
        })
        .collect();
    let units: Vec<(u64, u16)> = (0..COUNT)
        .map(|_| (random.next() >> random.below(40), random.below(19) as u16))
        .collect();
    println!("{:12} {:>11} {:>11}", "operation", "proved", "plain u128");
    macro_rules! pair {
        ($name:literal, $proved:ident, $plain:ident) => {
            report(
                $name,
                &pairs,
                |(m, d, n, e)| unsafe { $proved(m, d, n, e) },
                |(m, d, n, e)| decimals::$plain(m, d, n, e),
            )
        };
    }
    pair!("mul_dn", number_mul_dn, mul_dn);
    pair!("mul_up", number_mul_up, mul_up);
    pair!("div_dn", number_div_dn, div_dn);
    pair!("div_up", number_div_up, div_up);
    pair!("add_dn", number_add_dn, add_dn);
    pair!("add_up", number_add_up, add_up);
    report(
        "of_units_dn",
        &units,
        |(n, p)| unsafe { number_of_units_dn(n, p) },
        |(n, p)| decimals::of_units_dn(n, p),
    );
    report(
        "of_units_up",
        &units,
        |(n, p)| unsafe { number_of_units_up(n, p) },
        |(n, p)| decimals::of_units_up(n, p),
    );
    let whole = |m: u64| Number { m, e: 0 };
    report(
        "floor_units",
        &pairs,
        |(m, d, _, _)| whole(unsafe { number_floor_units(m, d, 9) }),
        |(m, d, _, _)| whole(decimals::floor_units(m, d, 9)),
    );
    report(
        "ceil_units",
        &pairs,
        |(m, d, _, _)| whole(unsafe { number_ceil_units(m, d, 9) }),
        |(m, d, _, _)| whole(decimals::ceil_units(m, d, 9)),
    );
}
