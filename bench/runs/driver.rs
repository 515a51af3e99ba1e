// Seconds and memory of whole runs, beside a plain program that settles by an earlier guess, and by plain sweeps where these end.
mod cases;
#[path = "../shared/decks.rs"]
mod decks;
#[path = "../shared/packages.rs"]
mod packages;
#[path = "../shared/processes.rs"]
mod processes;

use cases::{CASES, Model, Task, task_of};
use processes::{Cost, least, run};
use std::path::Path;

struct Bench<'a> {
    folder: &'a Path,
    examples: &'a Path,
    program: &'a str,
    plain: &'a str,
}

impl Bench<'_> {
    fn ours(&self, words: &[&str], to: &str) -> Cost {
        run(self.program, words, self.folder, to)
    }

    fn theirs(&self, settler: &str, words: &[&str], to: &str) -> Cost {
        run(self.plain, &[&["--settler", settler], words].concat(), self.folder, to)
    }

    fn agree(&self, case: &str, names: [&str; 2]) {
        let [ours, theirs] = names.map(|name| std::fs::read(self.folder.join(name)).expect("an answer"));
        assert!(ours == theirs, "{case}: two answers");
    }

    // The least costs of both programs, by turns.
    fn pair(&self, case: &str, repeats: usize, words: &[&str], alone: &[&str]) -> [Cost; 2] {
        let own = [words, alone].concat();
        let pairs: Vec<[Cost; 2]> =
            (0..repeats).map(|_| [self.ours(&own, "ours"), self.theirs("whole", words, "theirs")]).collect();
        self.agree(case, ["ours", "theirs"]);
        [0, 1].map(|side| least(&pairs.iter().map(|pair| pair[side]).collect::<Vec<_>>()))
    }

    fn run(&self, case: &str, model: &Model) -> ([Cost; 2], Option<Cost>) {
        model.write(self.examples, self.folder);
        let repeats = if model.side < 128 { 3 } else { 1 };
        let pair = self.pair(case, repeats, &["run", "m.nam"], &["--workers", "1"]);
        let swept = model.ends_by_sweeps.then(|| self.theirs("sweep", &["run", "m.nam"], "swept"));
        if swept.is_some() {
            self.agree(case, ["ours", "swept"]);
        }
        (pair, swept)
    }

    fn check(&self, case: &str, model: &Model) -> [Cost; 2] {
        model.write(self.examples, self.folder);
        self.ours(&["run", "m.nam"], "m.heads");
        self.pair(case, 3, &["check", "m.nam", "m.heads"], &[])
    }

    // The seconds by the clock and of all processors, with one, two and four workers.
    fn workers(&self, case: &str, model: &Model) {
        model.write(self.examples, self.folder);
        print!("{case:24}");
        for workers in ["1", "2", "4"] {
            let cost = self.ours(&["run", "m.nam", "--workers", workers], "ours");
            print!("   {workers}: {:6.2} s of {:6.2} s", cost.clock, cost.seconds);
        }
        println!();
    }

    fn report(&self, case: &str, wanted: Option<f64>) {
        let ([ours, theirs], swept) = match task_of(case) {
            Task::Run(model) => self.run(case, &model),
            Task::Check(model) => (self.check(case, &model), None),
            Task::Make(side) => (self.pair(case, 3, &["make", "7", &side], &[]), None),
            Task::Workers(model) => return self.workers(case, &model),
        };
        let ratio = ours.seconds / theirs.seconds;
        print!("{case:24} {:7.2} {:7.2} {ratio:7.2}", ours.seconds, theirs.seconds);
        match wanted {
            Some(wanted) => print!(" {wanted:7.2} {}", if ratio <= wanted { "met " } else { "over" }),
            None => print!("       -     "),
        }
        print!(" {:7.1} {:7.1}", ours.megabytes, theirs.megabytes);
        match swept {
            Some(swept) => println!(" {:8.2}", swept.seconds),
            None => println!("        -"),
        }
    }
}

fn main() {
    let words: Vec<String> = std::env::args().skip(1).collect();
    let [folder, examples, program, plain, cases @ ..] = &words[..] else {
        panic!("the words are a folder, that of the examples, two programs and cases");
    };
    let bench = Bench { folder: Path::new(folder), examples: Path::new(examples), program, plain };
    println!("seconds of processor time with one worker, those of plain Rust by an earlier guess, their ratio and the wanted one;");
    println!("the most memory of both in MB; seconds of plain Rust by plain sweeps. Cases of workers: by the clock, of all processors");
    for (case, wanted) in CASES {
        if cases.is_empty() || cases.iter().any(|named| named == case) {
            bench.report(case, wanted);
        }
    }
    for case in cases.iter().filter(|named| CASES.iter().all(|(case, _)| case != named)) {
        bench.report(case, None);
    }
}
