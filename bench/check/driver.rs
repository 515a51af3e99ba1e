// Seconds and memory of checking a listing of 65,536 cells: the program beside a plain one that takes the same words.
#[path = "../shared/decks.rs"]
mod decks;
#[path = "../shared/processes.rs"]
mod processes;

use decks::{Deck, Kind};
use processes::{Cost, least, run};
use std::path::Path;

const SIDE: usize = 256;
const RUNS: usize = 5;

fn check(program: &str, folder: &Path) -> Cost {
    let cost = run(program, &["check", "m.nam", "m.heads"], folder, "verdict");
    let verdict = std::fs::read_to_string(folder.join("verdict")).expect("a verdict");
    assert_eq!(verdict, "CERTIFIED\n");
    cost
}

fn report(folder: &Path, [program, plain]: [&str; 2], steps: Option<usize>) {
    let deck = Deck {
        kind: Kind::Sheet,
        side: SIDE,
        steps: steps.map(|steps| (steps, "0.01")),
    };
    deck.write(folder);
    let listed = run(program, &["run", "m.nam"], folder, "m.heads");
    let bytes = std::fs::metadata(folder.join("m.heads")).expect("a listing").len();
    // By turns.
    let pairs: Vec<[Cost; 2]> = (0..RUNS).map(|_| [check(program, folder), check(plain, folder)]).collect();
    let [ours, theirs] = [0, 1].map(|side| least(&pairs.iter().map(|pair| pair[side]).collect::<Vec<_>>()));
    let name = steps.map_or("one steady step".into(), |steps| format!("{steps} transient steps"));
    println!(
        "{name:20} {:6.1} MB {:7.1} s {:7.2} s {:7.2} s   ratio {:5.2}   {:6.0} MB {:6.0} MB",
        bytes as f64 / 1e6,
        listed.seconds,
        ours.seconds,
        theirs.seconds,
        ours.seconds / theirs.seconds,
        ours.megabytes,
        theirs.megabytes,
    );
}

fn main() {
    let words: Vec<String> = std::env::args().skip(1).collect();
    let [folder, program, plain] = &words[..] else {
        panic!("the words are a folder and two programs");
    };
    println!(
        "{} cells; the listing and what `run` took for it; time and memory of a check, and those of plain Rust",
        SIDE * SIDE
    );
    for steps in [None, Some(1), Some(5), Some(10), Some(20)] {
        report(Path::new(folder), [program, plain], steps);
    }
}
