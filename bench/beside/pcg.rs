// Conjugate gradients with a modified incomplete factor, as MODFLOW's PCG package has it (NPCOND 1, RELAX 0.99): the system is read
// from a file, and its solution written to another one. Prints the processor seconds of the factor and of the rounds, and the rounds.
#[path = "../shared/processor.rs"]
mod processor;

use processor::processor_time;
use std::fs;

const RELAX: f64 = 0.99;
// A round that changes no head by more, and leaves no larger residual, is the last one.
const CLOSE: f64 = 1e-5;
const MOST_ROUNDS: usize = 20_000;

// A symmetric matrix by rows, the columns of each in ascending order.
struct Matrix {
    starts: Vec<usize>,
    columns: Vec<usize>,
    values: Vec<f64>,
}

impl Matrix {
    fn entries(&self, row: usize) -> impl DoubleEndedIterator<Item = (usize, f64)> + '_ {
        (self.starts[row]..self.starts[row + 1]).map(|place| (self.columns[place], self.values[place]))
    }

    fn rows(&self) -> usize {
        self.starts.len() - 1
    }

    fn times(&self, x: &[f64], result: &mut [f64]) {
        for row in 0..self.rows() {
            result[row] = self.entries(row).map(|(column, value)| value * x[column]).sum();
        }
    }

    // The pivots of a factor without fill, whose rows have the matrix's sums but for the part that RELAX leaves out.
    fn pivots(&self) -> Vec<f64> {
        let mut pivots = vec![0.0; self.rows()];
        let mut later = vec![0.0; self.rows()];
        for row in 0..self.rows() {
            let mut pivot = 0.0;
            for (column, value) in self.entries(row) {
                if column == row {
                    pivot += value;
                } else if column < row {
                    let dropped = later[column] - value;
                    pivot -= value / pivots[column] * (value + RELAX * dropped);
                } else {
                    later[row] += value;
                }
            }
            pivots[row] = pivot;
        }
        pivots
    }

    // Solves with the factor.
    fn precondition(&self, pivots: &[f64], right: &[f64], result: &mut [f64]) {
        for row in 0..self.rows() {
            let before = self.entries(row).take_while(|(column, _)| *column < row);
            let sum: f64 = before.map(|(column, value)| value * result[column]).sum();
            result[row] = (right[row] - sum) / pivots[row];
        }
        for row in (0..self.rows()).rev() {
            let after = self.entries(row).rev().take_while(|(column, _)| *column > row);
            let sum: f64 = after.map(|(column, value)| value * result[column]).sum();
            result[row] -= sum / pivots[row];
        }
    }
}

fn product(x: &[f64], y: &[f64]) -> f64 {
    x.iter().zip(y).map(|(x, y)| x * y).sum()
}

fn greatest(x: &[f64]) -> f64 {
    x.iter().fold(0.0, |most, x| x.abs().max(most))
}

// The solution, and the number of rounds.
fn solve(matrix: &Matrix, right: &[f64]) -> (Vec<f64>, usize) {
    let count = matrix.rows();
    let pivots = matrix.pivots();
    let (mut x, mut rest) = (vec![0.0; count], right.to_vec());
    let (mut way, mut image, mut next) = (vec![0.0; count], vec![0.0; count], vec![0.0; count]);
    let mut last = 1.0;
    for round in 0..MOST_ROUNDS {
        matrix.precondition(&pivots, &rest, &mut next);
        let size = product(&rest, &next);
        let part = if round == 0 { 0.0 } else { size / last };
        for (way, next) in way.iter_mut().zip(&next) {
            *way = next + part * *way;
        }
        last = size;
        matrix.times(&way, &mut image);
        let share = size / product(&way, &image);
        for row in 0..count {
            x[row] += share * way[row];
            rest[row] -= share * image[row];
        }
        if share.abs() * greatest(&way) <= CLOSE && greatest(&rest) <= CLOSE {
            return (x, round + 1);
        }
    }
    (x, MOST_ROUNDS)
}

fn numbers<const N: usize, T>(bytes: &[u8], of: fn([u8; N]) -> T) -> Vec<T> {
    bytes.chunks_exact(N).map(|part| of(part.try_into().expect("whole numbers"))).collect()
}

fn main() {
    let words: Vec<String> = std::env::args().skip(1).collect();
    let [system, solution] = &words[..] else {
        panic!("the words are the file of a system and that of its solution");
    };
    let bytes = fs::read(system).expect("a system");
    let whole = numbers(&bytes[..16], u64::from_le_bytes);
    let (rows, entries) = (whole[0] as usize, whole[1] as usize);
    let (starts, bytes) = bytes[16..].split_at(8 * (rows + 1));
    let (columns, bytes) = bytes.split_at(8 * entries);
    let (values, right) = bytes.split_at(8 * entries);
    let places = |bytes| numbers(bytes, u64::from_le_bytes).into_iter().map(|place| place as usize).collect();
    let matrix = Matrix { starts: places(starts), columns: places(columns), values: numbers(values, f64::from_le_bytes) };
    let right = numbers(right, f64::from_le_bytes);
    let begun = processor_time();
    let (x, rounds) = solve(&matrix, &right);
    println!("{:.4} {rounds}", (processor_time() - begun).as_secs_f64());
    fs::write(solution, x.iter().flat_map(|x| x.to_le_bytes()).collect::<Vec<u8>>()).expect("a file of the solution");
}
