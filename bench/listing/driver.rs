// Milliseconds of writing the listing of a step of 65,536 cells, and of reading it back: the proved calls beside plain Rust.
#[path = "../shared/processor.rs"]
mod processor;

use processor::processor_time;
use std::hint::black_box;

const SIDE: u32 = 256;
const CELLS: usize = 65_536;
const TIMES: u32 = 5;
const RUNS: usize = 9;
const HEAD_LIMIT: u128 = 4_000_000_000_000_000_000;

/// A cell's bounds, in units of 10^-9.
#[repr(C)]
#[derive(Clone, Copy, PartialEq, Eq, Debug)]
struct Pair {
    low: i64,
    high: i64,
}

const NO_PAIR: Pair = Pair { low: 0, high: 0 };

unsafe extern "C" {
    fn listing_write(heads: *const Pair, count: usize, times: u32, room: *mut u8, size: usize) -> usize;
    fn listing_read(text: *const u8, length: usize, times: u32, room: *mut Pair, size: usize) -> usize;
}

mod plain {
    use super::*;

    const NAMES: [&str; 7] =
        ["STORAGE", "CONSTANT HEAD", "WELLS", "DRAINS", "RIVER LEAKAGE", "HEAD DEP BOUNDS", "RECHARGE"];
    const TERM: [i128; 2] = [175_773_410_600_000_000_000_000, 175_773_566_400_000_000_000_000];

    // The digits of a number, at least so many.
    fn push_digits(text: &mut Vec<u8>, mut number: u128, least: usize) {
        let mut digits = [b'0'; 40];
        let mut start = digits.len();
        while number > 0 || digits.len() - start < least {
            start -= 1;
            digits[start] = b'0' + (number % 10) as u8;
            number /= 10;
        }
        text.extend_from_slice(&digits[start..]);
    }

    fn push_small(text: &mut Vec<u8>, mut number: u64, least: usize) {
        let mut digits = [b'0'; 20];
        let mut start = digits.len();
        while number > 0 || digits.len() - start < least {
            start -= 1;
            digits[start] = b'0' + (number % 10) as u8;
            number /= 10;
        }
        text.extend_from_slice(&digits[start..]);
    }

    fn push_head(text: &mut Vec<u8>, head: i64) {
        if head < 0 {
            text.push(b'-');
        }
        let size = head.unsigned_abs();
        push_small(text, size / 1_000_000_000, 1);
        text.push(b'.');
        push_small(text, size % 1_000_000_000, 9);
    }

    fn push_flow(text: &mut Vec<u8>, flow: i128) {
        let unit = 10u128.pow(21);
        if flow < 0 {
            text.push(b'-');
        }
        push_digits(text, flow.unsigned_abs() / unit, 1);
        text.push(b'.');
        push_digits(text, flow.unsigned_abs() % unit, 21);
    }

    fn push_front(text: &mut Vec<u8>, cell: u32) {
        text.extend_from_slice(b"HEAD 1 ");
        push_small(text, (cell / SIDE + 1) as u64, 1);
        text.push(b' ');
        push_small(text, (cell % SIDE + 1) as u64, 1);
        text.push(b' ');
    }

    #[inline(never)]
    pub fn step(heads: &[Pair]) -> Vec<u8> {
        let mut text = Vec::new();
        text.extend_from_slice(b"STEP 1 1\n");
        for (cell, pair) in heads.iter().enumerate() {
            push_front(&mut text, cell as u32);
            push_head(&mut text, pair.low);
            text.push(b' ');
            push_head(&mut text, pair.high);
            text.push(b'\n');
        }
        for front in ["IN ", "OUT "] {
            for name in NAMES {
                text.extend_from_slice(front.as_bytes());
                push_flow(&mut text, TERM[0]);
                text.push(b' ');
                push_flow(&mut text, TERM[1]);
                text.push(b' ');
                text.extend_from_slice(name.as_bytes());
                text.push(b'\n');
            }
        }
        text
    }

    // A number with so many decimals, in exactly the form that it is written in, of at most this magnitude.
    fn number(word: &[u8], places: usize, limit: u128) -> Option<i128> {
        let (neg, digits) = match word {
            [b'-', digits @ ..] => (true, digits),
            _ => (false, word),
        };
        let point = digits.len().checked_sub(places + 1).filter(|whole| *whole > 0)?;
        let (whole, rest) = digits.split_at(point);
        if rest[0] != b'.' || (whole[0] == b'0' && whole.len() > 1) {
            return None;
        }
        let mut size = 0u128;
        for digit in whole.iter().chain(&rest[1..]) {
            let digit = digit.wrapping_sub(b'0');
            size = size.checked_mul(10)?.checked_add(digit as u128)?;
            if digit > 9 {
                return None;
            }
        }
        if size > limit || (neg && size == 0) {
            return None;
        }
        Some(if neg { -(size as i128) } else { size as i128 })
    }

    // Two numbers behind this front, and what stands behind them.
    fn pair<'a>(line: &'a [u8], front: &[u8], places: usize, limit: u128) -> Option<([i128; 2], &'a [u8])> {
        let mut words = line.strip_prefix(front)?.splitn(3, |byte| *byte == b' ');
        let low = number(words.next()?, places, limit)?;
        let high = number(words.next()?, places, limit)?;
        Some(([low, high], words.next().unwrap_or(b"")))
    }

    fn head<'a>(line: &'a [u8], front: &[u8]) -> Option<Pair> {
        let ([low, high], rest) = pair(line, front, 9, HEAD_LIMIT)?;
        (rest.is_empty() && line.last() != Some(&b' ')).then_some(Pair {
            low: low as i64,
            high: high as i64,
        })
    }

    /// The heads and the terms of a listing that has exactly the lines due.
    #[inline(never)]
    pub fn read(text: &[u8]) -> Option<(Vec<Pair>, Vec<[i128; 2]>)> {
        let mut lines = text.split(|byte| *byte == b'\n');
        (lines.next()? == b"HEADS 2 DIGITS 12 UNIT 2").then_some(())?;
        (lines.next()? == b"STEP 1 1").then_some(())?;
        let (mut heads, mut terms, mut front) = (Vec::new(), Vec::new(), Vec::new());
        for cell in 0..CELLS as u32 {
            front.clear();
            push_front(&mut front, cell);
            heads.push(head(lines.next()?, &front)?);
        }
        for front in ["IN ", "OUT "] {
            for name in NAMES {
                let (term, rest) = pair(lines.next()?, front.as_bytes(), 21, (1 << 126) - 1)?;
                (rest == name.as_bytes()).then_some(())?;
                terms.push(term);
            }
        }
        (lines.next()? == b"END").then_some(())?;
        (lines.next() == Some(b"") && lines.next().is_none()).then_some((heads, terms))
    }
}

// A fixed sequence of pseudo-random numbers.
struct Sequence(u64);

impl Sequence {
    fn below(&mut self, n: u64) -> u64 {
        self.0 ^= self.0 << 13;
        self.0 ^= self.0 >> 7;
        self.0 ^= self.0 << 17;
        self.0 % n
    }

    // Bounds some units apart, from -limit to limit length units.
    fn pair(&mut self, limit: u64) -> Pair {
        let low = self.below(2 * limit * 1_000_000_000) as i64 - (limit * 1_000_000_000) as i64;
        Pair {
            low,
            high: low + self.below(1000) as i64,
        }
    }
}

// Of one of the times that a call makes, by turns, and the least of each side.
fn both_sides(mut ours: impl FnMut(), mut theirs: impl FnMut()) -> [f64; 2] {
    let mut least = [f64::MAX; 2];
    for _ in 0..RUNS {
        for (side, work) in [&mut ours as &mut dyn FnMut(), &mut theirs].into_iter().enumerate() {
            let start = processor_time();
            work();
            let each = (processor_time() - start).as_secs_f64() * 1e3 / TIMES as f64;
            least[side] = least[side].min(each);
        }
    }
    least
}

fn print_line(name: &str, [ours, theirs]: [f64; 2]) {
    let ratio = ours / theirs;
    println!("{name:32} {ours:8.2} ms {theirs:8.2} ms   ratio {ratio:.2}");
}

fn report(name: &str, heads: &[Pair]) {
    let write = |times: u32, room: &mut [u8]| unsafe {
        listing_write(heads.as_ptr(), heads.len(), times, room.as_mut_ptr(), room.len())
    };
    let mut text = vec![0; write(1, &mut [])];
    write(1, &mut text);
    let plain = [b"HEADS 2 DIGITS 12 UNIT 2\n".to_vec(), plain::step(heads), b"END\n".to_vec()].concat();
    assert!(text == plain, "{name}");
    let written = both_sides(
        || {
            black_box(write(TIMES, &mut []));
        },
        || (0..TIMES).for_each(|_| drop(black_box(plain::step(black_box(heads))))),
    );
    print_line(&format!("{name}, written"), written);

    let read = |times: u32, room: &mut [Pair]| unsafe {
        listing_read(text.as_ptr(), text.len(), times, room.as_mut_ptr(), room.len())
    };
    let mut room = vec![NO_PAIR; CELLS];
    assert_eq!(read(1, &mut room), 1, "{name}");
    assert_eq!(room, heads, "{name}");
    let (plain_heads, terms) = plain::read(&text).expect(name);
    assert!(plain_heads == heads && terms.len() == 14, "{name}");
    let read_back = both_sides(
        || {
            black_box(read(TIMES, &mut []));
        },
        || (0..TIMES).for_each(|_| drop(black_box(plain::read(black_box(&text))))),
    );
    print_line(&format!("{name}, read"), read_back);
}

fn main() {
    let mut random = Sequence(0x9e37_79b9_7f4a_7c15);
    let mut heads = |limit: u64| -> Vec<Pair> { (0..CELLS).map(|_| random.pair(limit)).collect() };
    println!("{CELLS} lines of heads; proved, plain Rust");
    report("heads below 100", &heads(100));
    report("heads below 4,000,000,000", &heads(4_000_000_000));
}
