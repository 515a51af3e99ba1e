// Nanoseconds of each call that rounds a thickness, a conductance, a flow, a part of a period or a given head: the proved
// calls beside plain Rust.
#[allow(dead_code)]
#[path = "../shared/decimals.rs"]
mod decimals;
#[path = "../shared/processor.rs"]
mod processor;
#[path = "../shared/spans.rs"]
mod spans;

use decimals::{Number, of_units_dn, of_wide_units, wide_units};
use processor::processor_time;
use spans::Word;
use std::hint::black_box;

/// Two bounds, by their last 64 bits; 0 and 0 where there are none.
#[repr(C)]
#[derive(Clone, Copy, PartialEq, Eq, Debug)]
pub struct Both {
    lo: u64,
    hi: u64,
}

unsafe extern "C" {
    fn conductance_row(d: Word, w: Word, h: Word, k: Word, a: Word, t: Number, u: Number) -> Both;
    fn conductance_col(d: Word, w: Word, h: Word, k: Word, a: Word, t: Number, u: Number) -> Both;
    fn conductance_vert(d: Word, w: Word, h: Word, k: Word, a: Word, t: Number, u: Number) -> Both;
    fn conductance_storage(d: Word, w: Word, h: Word, k: Word, a: Word, t: Number, u: Number) -> Both;
    fn conductance_recharge(d: Word, w: Word, h: Word, k: Word, a: Word, t: Number, u: Number) -> Both;
    fn conductance_evaporation(d: Word, w: Word, h: Word, k: Word, a: Word, t: Number, u: Number) -> Both;
    fn conductance_head(d: Word, w: Word, h: Word, k: Word, a: Word, t: Number, u: Number) -> Both;
    fn conductance_factors(d: Word, w: Word, h: Word, k: Word, a: Word, t: Number, u: Number) -> Both;
    fn conductance_thickness(d: Word, w: Word, h: Word, k: Word, a: Word, t: Number, u: Number) -> Both;
    fn conductance_no_bed(d: Word, w: Word, h: Word, k: Word, a: Word, t: Number, u: Number) -> Both;
    fn conductance_parts(k: Word, a: Word, times: u32, parts: *mut Both, room: usize) -> bool;
}

type Call = unsafe extern "C" fn(Word, Word, Word, Word, Word, Number, Number) -> Both;

mod plain {
    use super::*;

    use spans::{ONE, Span, exactly, word};

    // 0 and 0 where the upper bound reaches the limit.
    fn pair_below(span: Span, s: u32, limit: u128) -> Both {
        let (lo, hi) = span.units_below(s, limit).unwrap_or((0, 0));
        Both {
            lo: lo as u64,
            hi: hi as u64,
        }
    }

    fn pair(span: Span, s: u32) -> Both {
        pair_below(span, s, 1 << 60)
    }

    fn half(along: Span, width: Span, k: Span, thick: Span) -> Span {
        along.over(width.plus(width).times(k.times(thick)))
    }

    #[inline(never)]
    pub extern "C" fn row(d: Word, w: Word, h: Word, k: Word, _: Word, t: Number, u: Number) -> Both {
        let first = half(word(d), word(w), word(h), exactly(t));
        let second = half(word(d), word(w), word(k), exactly(u));
        pair(word(ONE).over(first.plus(second)), 12)
    }

    #[inline(never)]
    pub extern "C" fn col(d: Word, w: Word, h: Word, k: Word, a: Word, t: Number, u: Number) -> Both {
        let first = half(word(w), word(d), word(h).times(word(a)), exactly(t));
        let second = half(word(w), word(d), word(k).times(word(a)), exactly(u));
        pair(word(ONE).over(first.plus(second)), 12)
    }

    #[inline(never)]
    pub extern "C" fn vert(d: Word, w: Word, h: Word, k: Word, a: Word, t: Number, u: Number) -> Both {
        let half = |h: Word, t: Number| {
            let vertical = word(h).over(word(a));
            exactly(t).over(vertical.plus(vertical))
        };
        let bed = exactly(t).over(word(h));
        let sum = half(h, t).plus(bed).plus(half(k, u));
        pair(word(d).times(word(w)).over(sum), 12)
    }

    #[inline(never)]
    pub extern "C" fn storage(d: Word, w: Word, h: Word, k: Word, _: Word, t: Number, _: Number) -> Both {
        let steps = exactly(of_units_dn(10, 0));
        let volume = word(h).times(exactly(t)).times(word(d).times(word(w)));
        pair(volume.times(steps).over(word(k).times(word(ONE))), 12)
    }

    #[inline(never)]
    pub extern "C" fn recharge(d: Word, w: Word, h: Word, _: Word, _: Word, _: Number, _: Number) -> Both {
        pair_below(word(h).times(word(d)).times(word(w)), 21, 1 << 126)
    }

    #[inline(never)]
    pub extern "C" fn evaporation(d: Word, w: Word, h: Word, k: Word, _: Word, _: Number, _: Number) -> Both {
        pair(word(h).times(word(d).times(word(w))).over(word(k)), 12)
    }

    // Heads of at most nine decimals, which are whole units.
    fn head_units(w: Word) -> i128 {
        w.digits as i128 * 10i128.pow((w.exp + 9) as u32)
    }

    const WHOLE: i128 = 1_000_000_000_000_000_000;

    #[inline(never)]
    pub extern "C" fn head(_: Word, _: Word, h: Word, k: Word, _: Word, _: Number, _: Number) -> Both {
        let (start, end) = (head_units(h), head_units(k));
        let parts = [333_333_333_333_333_333, 333_333_333_333_333_334];
        let blends = parts.map(|part| start * (WHOLE - part) + end * part);
        let lo = blends[0].min(blends[1]).div_euclid(WHOLE);
        let hi = -(-blends[0].max(blends[1])).div_euclid(WHOLE);
        Both {
            lo: lo as u64,
            hi: hi as u64,
        }
    }

    #[inline(never)]
    pub extern "C" fn factors(_: Word, _: Word, _: Word, _: Word, a: Word, _: Number, _: Number) -> Both {
        let (one, growth) = (word(ONE), word(a));
        let sum = (1..20).fold(one, |sum, _| sum.times(growth).plus(one));
        let power = (1..10).fold(one, |power, _| power.times(growth));
        Both {
            lo: packed(sum.lo),
            hi: packed(power.hi),
        }
    }

    // A decimal's last digits and those of its exponent, in one word.
    fn packed(number: Number) -> u64 {
        number.m * 16 + (number.e.unsigned_abs() as u64 & 15)
    }

    // The floor and the ceiling of an elevation in units of 10^-18.
    fn edges(w: Word) -> [i128; 2] {
        let places = w.exp as i32 + 18;
        if places >= 0 {
            return [w.digits as i128 * 10i128.pow(places as u32); 2];
        }
        let unit = 10i128.pow(places.unsigned_abs());
        let floor = w.digits as i128 / unit;
        [floor, floor + (w.digits as i128 % unit != 0) as i128]
    }

    #[inline(never)]
    pub extern "C" fn thickness(_: Word, _: Word, h: Word, k: Word, _: Word, _: Number, _: Number) -> Both {
        let (top, bottom) = (edges(h), edges(k));
        Both {
            lo: packed(of_wide_units((top[0] - bottom[1]) as u128, 18, false)),
            hi: packed(of_wide_units((top[1] - bottom[0]) as u128, 18, true)),
        }
    }

    #[inline(never)]
    pub extern "C" fn no_bed(d: Word, w: Word, _: Word, _: Word, a: Word, t: Number, u: Number) -> Both {
        let half = |t: Number| exactly(t).over(word(a).plus(word(a)));
        pair(word(d).times(word(w)).over(half(t).plus(half(u))), 12)
    }

    // 1 + t + .. + t^(n - 1)
    fn sum_of(t: Span, n: usize) -> Span {
        (1..n).fold(word(ONE), |sum, _| sum.times(t).plus(word(ONE)))
    }

    #[inline(never)]
    pub fn parts(a: Word, parts: &mut [Both]) {
        let steps = parts.len();
        for (at, to) in parts.iter_mut().enumerate() {
            if at + 1 == steps {
                *to = Both {
                    lo: WHOLE as u64,
                    hi: WHOLE as u64,
                };
                continue;
            }
            let part = sum_of(word(a), at + 1).over(sum_of(word(a), steps));
            let lo = wide_units(part.lo.m, part.lo.e, 18, false).unwrap_or(0);
            let hi = wide_units(part.hi.m, part.hi.e, 18, true).unwrap_or(u128::MAX);
            *to = Both {
                lo: lo as u64,
                hi: hi.min(WHOLE as u128) as u64,
            };
        }
    }
}

const COUNT: usize = 4096;
const ROUNDS: usize = 40;
const STEPS: usize = 20;
const RUNS: usize = 7;

#[derive(Clone, Copy)]
struct Case {
    d: Word,
    w: Word,
    h: Word,
    k: Word,
    a: Word,
    t: Number,
    u: Number,
}

// A fixed sequence of pseudo-random numbers.
struct Sequence(u64);

impl Sequence {
    fn below(&mut self, n: u64) -> u64 {
        self.0 ^= self.0 << 13;
        self.0 ^= self.0 >> 7;
        self.0 ^= self.0 << 17;
        self.0 % n
    }

    // A number of some digits, of which the last isn't 0.
    fn word(&mut self, digits: u64, exp: i16) -> Word {
        Word {
            digits: self.below(digits) * 10 + 1 + self.below(9),
            exp,
        }
    }

    fn thickness(&mut self) -> Number {
        Number {
            m: 100_000_000_000_000_000 + self.below(800_000_000_000_000_000),
            e: -16,
        }
    }

    fn case(&mut self) -> Case {
        Case {
            d: self.word(1000, -1),
            w: self.word(1000, -1),
            h: self.word(100_000, -4),
            k: self.word(100_000, -4),
            a: self.word(10, -1),
            t: self.thickness(),
            u: self.thickness(),
        }
    }
}

fn call(f: Call, c: &Case) -> Both {
    unsafe { f(c.d, c.w, c.h, c.k, c.a, c.t, c.u) }
}

// Of one call, the least of several runs.
fn nanoseconds(calls: usize, mut work: impl FnMut()) -> f64 {
    let start = processor_time();
    work();
    (processor_time() - start).as_nanos() as f64 / calls as f64
}

// Both sides by turns, and the least of each.
fn both_sides(calls: usize, mut ours: impl FnMut(), mut theirs: impl FnMut()) -> (f64, f64) {
    let mut least = (f64::MAX, f64::MAX);
    for _ in 0..RUNS {
        least.0 = least.0.min(nanoseconds(calls, &mut ours));
        least.1 = least.1.min(nanoseconds(calls, &mut theirs));
    }
    least
}

fn print_line(name: &str, (ours, theirs): (f64, f64)) {
    let ratio = ours / theirs;
    println!("{name:17} {ours:8.1} ns {theirs:8.1} ns   ratio {ratio:.2}");
}

fn report(name: &str, cases: &[Case], proved: Call, plain: Call) {
    for c in cases {
        assert_eq!(call(proved, c), call(plain, c), "{name}");
    }
    let all = |f: Call| {
        for _ in 0..ROUNDS {
            black_box(cases.iter().fold(0, |sum: u64, c| sum.wrapping_add(call(f, c).lo)));
        }
    };
    print_line(name, both_sides(ROUNDS * COUNT, || all(proved), || all(plain)));
}

// The same cases with the greater of their two elevations as the top.
fn thick_cases(cases: &[Case]) -> Vec<Case> {
    let mut cases = cases.to_vec();
    for c in &mut cases {
        if c.h.digits < c.k.digits {
            (c.h, c.k) = (c.k, c.h);
        }
        c.h.digits += 10;
    }
    cases
}

// The parts of a period of growing steps, each for all steps.
fn report_parts(name: &str, cases: &[Case]) {
    let mut room = [Both { lo: 0, hi: 0 }; STEPS];
    let mut other = room;
    let proved = |c: &Case, times: u32, room: &mut [Both]| {
        assert!(unsafe { conductance_parts(c.k, c.a, times, room.as_mut_ptr(), room.len()) });
    };
    for c in cases {
        proved(c, 1, &mut room);
        plain::parts(c.a, &mut other);
        assert_eq!(room, other, "{name}");
    }
    let times = both_sides(
        ROUNDS * COUNT * STEPS / 20,
        || cases.iter().for_each(|c| proved(c, ROUNDS as u32 / 20, &mut room)),
        || {
            for _ in 0..ROUNDS / 20 {
                cases.iter().for_each(|c| plain::parts(black_box(c.a), black_box(&mut other)));
            }
        },
    );
    print_line(name, times);
}

fn main() {
    let mut random = Sequence(0x9e37_79b9_7f4a_7c15);
    let cases: Vec<Case> = (0..COUNT).map(|_| random.case()).collect();
    println!("{:17} {:>11} {:>11}", "call", "proved", "plain u128");
    report("thickness", &thick_cases(&cases), conductance_thickness, plain::thickness);
    report("row", &cases, conductance_row, plain::row);
    report("column", &cases, conductance_col, plain::col);
    report("vertical, no bed", &cases, conductance_no_bed, plain::no_bed);
    report("vertical, bed", &cases, conductance_vert, plain::vert);
    report("storage", &cases, conductance_storage, plain::storage);
    report("recharge", &cases, conductance_recharge, plain::recharge);
    report("evaporation", &cases, conductance_evaporation, plain::evaporation);
    report("given head", &cases, conductance_head, plain::head);
    report("20 factors", &cases, conductance_factors, plain::factors);
    report_parts("part of 20 steps", &cases);
}
