// The cases that are measured: a name, what is done, and the ratio to plain Rust that is wanted.
use crate::decks::{Deck, Kind};
use crate::packages::{Packages, Shape};
use std::fs;
use std::path::Path;

/// What is measured.
pub enum Task {
    /// A listing of a model.
    Run(Model),
    /// A check of a listing of a model.
    Check(Model),
    /// A model that the program makes by itself, with this many rows and columns.
    Make(String),
    /// A listing of a model by one, two and four workers, by the clock.
    Workers(Model),
}

/// A model, and its number of rows.
pub struct Model {
    files: Files,
    pub side: usize,
    /// Whether plain sweeps settle it in a few seconds.
    pub ends_by_sweeps: bool,
}

enum Files {
    Deck(Deck),
    Packages(Packages),
    Example(String),
}

impl Model {
    /// Writes the files of the model m.nam.
    pub fn write(&self, examples: &Path, folder: &Path) {
        match &self.files {
            Files::Deck(deck) => deck.write(folder),
            Files::Packages(deck) => deck.write(folder),
            Files::Example(name) => copy(&examples.join(name), folder),
        }
    }
}

fn copy(from: &Path, to: &Path) {
    for file in fs::read_dir(from).expect("an example") {
        let file = file.expect("a file");
        fs::copy(file.path(), to.join(file.file_name())).expect("a copy");
    }
}

fn deck(kind: Kind, side: usize, steps: Option<(usize, &'static str)>) -> Model {
    let ends_by_sweeps = side <= 64 && kind != Kind::Heterogeneous;
    Model { files: Files::Deck(Deck { kind, side, steps }), side, ends_by_sweeps }
}

fn packages(shape: Shape, side: usize, periods: usize, steps: usize, days: u32, growth: &'static str) -> Model {
    let deck = Packages { shape, side, periods, steps, days, growth };
    Model { files: Files::Packages(deck), side, ends_by_sweeps: false }
}

/// The task of a case, as sheet:256 or example:tide.
pub fn task_of(case: &str) -> Task {
    let (kind, rest) = case.split_once(':').expect("a kind, and a side or a name");
    if kind == "example" {
        return Task::Run(Model { files: Files::Example(rest.into()), side: 0, ends_by_sweeps: false });
    }
    let side = rest.parse().expect("a number of rows");
    match kind {
        "sheet" => Task::Run(deck(Kind::Sheet, side, None)),
        "contrasts" => Task::Run(deck(Kind::Heterogeneous, side, None)),
        "layers" => Task::Run(deck(Kind::Layers, side, None)),
        "rivers" => Task::Run(deck(Kind::RiverValley, side, None)),
        "steps" => Task::Run(deck(Kind::Sheet, side, Some((10, "0.00001")))),
        "packages" => Task::Run(packages(Shape::Sheet, side, 1, 100, 1000, "1.02")),
        "basin" => Task::Run(packages(Shape::Basin, side, 36, 1, 30, "1")),
        "check" => Task::Check(deck(Kind::Sheet, side, Some((10, "0.01")))),
        "make" => Task::Make(rest.into()),
        "workers" => Task::Workers(deck(Kind::Sheet, side, None)),
        _ => panic!("no case is {kind}"),
    }
}

/// The cases in their order, each with the ratio to plain Rust that is wanted, if one is.
pub const CASES: [(&str, Option<f64>); 23] = [
    ("sheet:24", Some(3.0)),
    ("sheet:32", Some(3.0)),
    ("steps:32", Some(2.9)),
    ("example:river_valley", Some(3.0)),
    ("example:three_aquifers", Some(3.0)),
    ("example:pumping_test", Some(3.0)),
    ("sheet:64", Some(1.0)),
    ("sheet:128", Some(1.0)),
    ("sheet:256", Some(1.0)),
    ("packages:64", Some(1.0)),
    ("basin:64", Some(1.05)),
    ("make:64", Some(1.0)),
    ("check:256", Some(0.8)),
    ("layers:32", None),
    ("rivers:64", None),
    ("rivers:128", None),
    ("steps:64", None),
    ("contrasts:32", None),
    ("contrasts:64", None),
    ("contrasts:128", None),
    ("workers:64", None),
    ("workers:128", None),
    ("workers:256", None),
];
