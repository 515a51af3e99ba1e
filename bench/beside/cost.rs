// What a program takes: the words are a folder, a file there for its output, the program, and its words. Prints processor seconds, seconds
// by the clock, and bytes of memory. A program that a Python script starts is charged with that script's memory.
#[allow(dead_code)]
#[path = "../shared/processes.rs"]
mod processes;

use processes::run;
use std::path::Path;

fn main() {
    let words: Vec<String> = std::env::args().skip(1).collect();
    let [folder, output, program, rest @ ..] = &words[..] else {
        panic!("the words are a folder, a file, a program and its words");
    };
    let rest: Vec<&str> = rest.iter().map(String::as_str).collect();
    let cost = run(program, &rest, Path::new(folder), output);
    println!("{:.3} {:.3} {:.0}", cost.seconds, cost.clock, cost.megabytes * 1_048_576.0);
}
