// Seconds and memory of runs with the wide limits, quick and settled, and of the check of each listing.
#[path = "../shared/decks.rs"]
mod decks;
#[path = "../shared/processes.rs"]
mod processes;

use decks::{Deck, Kind};
use processes::{Cost, run};
use std::path::Path;

// A listing's file, and the words after the model's name that make it.
const LISTINGS: [(&str, &[&str]); 2] = [("quick", &["--wide", "--quick"]), ("settled", &["--wide"])];

fn check(program: &str, folder: &Path, listing: &str) -> Cost {
    let cost = run(program, &["check", "m.nam", listing, "--wide"], folder, "verdict");
    let verdict = std::fs::read_to_string(folder.join("verdict")).expect("a verdict");
    assert_eq!(verdict, "CERTIFIED\n");
    cost
}

fn report(name: &str, cells: usize, cost: Cost) {
    let bytes = cost.megabytes * 1_048_576.0 / cells as f64;
    println!("{name:24} {:8.2} s {:8.0} MB {bytes:8.0} bytes a cell", cost.seconds, cost.megabytes);
}

fn main() {
    let words: Vec<String> = std::env::args().skip(1).collect();
    let [folder, program, side, named @ ..] = &words[..] else {
        panic!("the words are a folder, a program, the rows of a sheet, and the listings to make");
    };
    let (folder, side) = (Path::new(folder), side.parse().expect("a number of rows"));
    let deck = Deck { kind: Kind::Sheet, side, steps: None };
    deck.write(folder);
    println!("a sheet of {side} x {side} cells, one worker");
    for (listing, options) in LISTINGS.iter().filter(|(listing, _)| named.iter().any(|name| name == listing)) {
        let run_words = [&["run", "m.nam", "--workers", "1"], *options].concat();
        report(&format!("run {}", options.join(" ")), side * side, run(program, &run_words, folder, listing));
        report("check --wide of it", side * side, check(program, folder, listing));
    }
}
