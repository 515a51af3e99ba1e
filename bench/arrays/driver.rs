// Milliseconds and memory of reading a layer of numbers from a text: the proved reader beside plain Rust.
#[path = "../shared/heap.rs"]
mod heap;
#[path = "../shared/plain.rs"]
mod plain;

use heap::most_bytes;
use plain::Number;
use std::fmt::Write;
use std::hint::black_box;
use std::time::Instant;

const ROWS: usize = 256;
const COLS: usize = 256;
const RUNS: usize = 9;

unsafe extern "C" {
    fn array_layer(
        text: *const u8,
        length: usize,
        rows: u32,
        cols: u32,
        room: *mut Number,
        size: usize,
    ) -> usize;
}

// A fixed sequence of pseudo-random numbers.
struct Sequence(u64);

impl Sequence {
    fn below(&mut self, n: u64) -> u64 {
        self.0 ^= self.0 << 13;
        self.0 ^= self.0 >> 7;
        self.0 ^= self.0 << 17;
        self.0 % n
    }
}

// A layer with this multiplier, each word of which is so many values, and so many bytes wide.
fn text_of(by: &str, repeat: usize, width: usize) -> String {
    let mut random = Sequence(0x9e37_79b9_7f4a_7c15);
    let mut text = format!("INTERNAL {by} (FREE) -1\n");
    for _ in 0..ROWS {
        let mut left = COLS;
        while left > 0 {
            let whole = random.below(10u64.pow(8));
            let part = random.below(10u64.pow(9));
            let times = repeat.min(left);
            let word = if times > 1 {
                format!("{times}*{whole}.{part:09}E-02")
            } else {
                format!("{whole}.{part:09}E-02")
            };
            write!(text, "{word:>width$} ").unwrap();
            left -= times;
            if left % 8 == 0 {
                text.push('\n');
            }
        }
    }
    text
}

fn proved(text: &str, room: &mut [Number]) -> usize {
    unsafe {
        array_layer(
            text.as_ptr(),
            text.len(),
            ROWS as u32,
            COLS as u32,
            room.as_mut_ptr(),
            room.len(),
        )
    }
}

fn plain_layer(text: &str) -> Option<Vec<Number>> {
    plain::layer(&mut plain::lines_of(text.as_bytes()), ROWS, COLS)
}

fn milliseconds(mut work: impl FnMut()) -> f64 {
    let mut best = f64::MAX;
    for _ in 0..RUNS {
        let start = Instant::now();
        work();
        best = best.min(start.elapsed().as_secs_f64() * 1e3);
    }
    best
}

fn report(name: &str, text: &str) {
    let count = ROWS * COLS;
    let zero = Number {
        digits: 0,
        exp: 0,
        neg: false,
    };
    let mut room = vec![zero; count];
    assert_eq!(proved(text, &mut room), count, "{name}");
    assert_eq!(plain_layer(text), Some(room), "{name}");
    let ours = milliseconds(|| {
        black_box(proved(black_box(text), &mut []));
    });
    let theirs = milliseconds(|| {
        black_box(plain_layer(black_box(text)));
    });
    let our_bytes = most_bytes(|| {
        black_box(proved(text, &mut []));
    });
    let their_bytes = most_bytes(|| {
        black_box(plain_layer(text));
    });
    let result = (count * size_of::<Number>()) as f64;
    println!(
        "{name:24} {:6.2} MB {ours:8.2} ms {theirs:8.2} ms   ratio {:5.2}   {:5.2} {:5.2} times the values",
        text.len() as f64 / 1e6,
        ours / theirs,
        our_bytes as f64 / result,
        their_bytes as f64 / result,
    );
}

fn main() {
    println!(
        "{} values; text, proved, plain Rust, and the most memory of either",
        ROWS * COLS
    );
    report("a word for each value", &text_of("1", 1, 44));
    report("the same, times 0.5", &text_of("0.5", 1, 44));
    report("8 values of a word", &text_of("1", 8, 300));
    report("256 values of a word", &text_of("1", 256, 4000));
    report("one constant", "CONSTANT 12.5\n");
}
