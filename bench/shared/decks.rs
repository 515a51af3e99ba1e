// Decks to measure on: sheets of square cells, 100 long and 10 thick, as those of settle/models.rattle. The first column of each
// layer is a constant head of 10, the last one of the first layer has a river of stage 9, and four wells pump 100 each out of
// the last layer.
use std::fmt::Write;
use std::path::Path;

#[derive(Clone, Copy, PartialEq)]
pub enum Kind {
    /// Transmissivities from 10 to 100.
    Sheet,
    /// Transmissivities over six orders of magnitude.
    Heterogeneous,
    /// Three layers, with a vertical conductance of 0.001 between two cells.
    Layers,
    /// Rivers and drains in two fifths of the cells, and much recharge.
    RiverValley,
}

/// So many rows and columns, in one steady step or in steps of one day with this specific storage.
#[derive(Clone, Copy)]
pub struct Deck {
    pub kind: Kind,
    pub side: usize,
    pub steps: Option<(usize, &'static str)>,
}

struct Draws(u64);

impl Draws {
    fn below(&mut self, bound: u64) -> u64 {
        self.0 = (self.0 * 1_103_515_245 + 12_345) % (1 << 31);
        self.0 / 65_536 % bound
    }

    // A head from 8 to 12, in tenths.
    fn tenths(&mut self) -> u64 {
        80 + self.below(40)
    }
}

fn conductivity(kind: Kind, draws: &mut Draws) -> String {
    if kind == Kind::Heterogeneous {
        let power = draws.below(7) as i64 - 3;
        return format!("{}E{power}", 1 + draws.below(9));
    }
    (1 + draws.below(10)).to_string()
}

// A head of so many tenths.
fn head(tenths: u64) -> String {
    format!("{}.{}", tenths / 10, tenths % 10)
}

fn list(entries: &[String]) -> String {
    let count = entries.len();
    format!("{count} 0\n{count} 0\n{}", entries.concat())
}

impl Deck {
    fn layers(&self) -> usize {
        if self.kind == Kind::Layers { 3 } else { 1 }
    }

    // So many times the same word.
    fn by_layer(&self, word: &str) -> String {
        vec![word; self.layers()].join(" ") + "\n"
    }

    fn rivers_and_drains(&self, draws: &mut Draws) -> [Vec<String>; 2] {
        let (mut rivers, mut drains) = (Vec::new(), Vec::new());
        for row in 1..=self.side {
            for column in 2..self.side {
                let draw = if self.kind == Kind::RiverValley { draws.below(5) } else { 2 };
                let tenths = if draw < 2 { draws.tenths() } else { 0 };
                let place = format!("1 {row} {column} {}", head(tenths));
                match draw {
                    0 => rivers.push(format!("{place} {} {}\n", 1 + draws.below(100), head(tenths - 10))),
                    1 => drains.push(format!("{place} {}\n", 1 + draws.below(100))),
                    _ => {}
                }
            }
            rivers.push(format!("1 {row} {} 9 50 8\n", self.side));
        }
        [rivers, drains]
    }

    fn wells(&self) -> Vec<String> {
        let (quarter, half) = (self.side / 4, self.side / 2);
        let places = [(quarter, half), (half, quarter), (half, half + quarter), (half + quarter, half)];
        let well = |(row, column)| format!("{} {row} {column} -100\n", self.layers());
        places.into_iter().map(well).collect()
    }

    fn discretization(&self) -> String {
        let times = match self.steps {
            Some((steps, _)) => format!("{steps} {steps} 1 TR"),
            None => String::from("1 1 1 SS"),
        };
        let (layers, side) = (self.layers(), self.side);
        let mut text = format!("{layers} {side} {side} 1 4 2\n{}", self.by_layer("0"));
        text += "CONSTANT 100\nCONSTANT 100\n";
        for layer in 0..=layers {
            writeln!(text, "CONSTANT {}", 10 * (layers - layer)).unwrap();
        }
        text + &times + "\n"
    }

    fn basics(&self) -> String {
        let rows = format!("-1 {}*1\n", self.side - 1).repeat(self.side);
        let ibound = format!("INTERNAL 1 (FREE) -1\n{rows}").repeat(self.layers());
        format!("FREE\n{ibound}-999.99\n{}", "CONSTANT 10\n".repeat(self.layers()))
    }

    fn flow_package(&self, draws: &mut Draws) -> String {
        let none = self.by_layer("0");
        let mut text = format!("0 -1E+30 0\n{none}{none}{}{none}{none}", self.by_layer("1"));
        let vka = if self.kind == Kind::Layers { "1E-6" } else { "1" };
        for _ in 0..self.layers() {
            text += "INTERNAL 1 (FREE) -1\n";
            for _ in 0..self.side {
                for _ in 0..self.side {
                    text += &conductivity(self.kind, draws);
                    text.push(' ');
                }
                text.push('\n');
            }
            writeln!(text, "CONSTANT {vka}").unwrap();
            if let Some((_, storage)) = self.steps {
                writeln!(text, "CONSTANT {storage}").unwrap();
            }
        }
        text
    }

    /// Writes the files of the model m.nam.
    pub fn write(&self, folder: &Path) {
        let draws = &mut Draws(7);
        let flow_package = self.flow_package(draws);
        let [rivers, drains] = self.rivers_and_drains(draws);
        let recharge = if self.kind == Kind::RiverValley { "0.0005" } else { "0.00002" };
        let names = "DIS 11 m.dis\nBAS6 12 m.bas\nLPF 13 m.lpf\nWEL 14 m.wel\nRIV 15 m.riv\nDRN 16 m.drn\nRCH 17 m.rch\n";
        let files = [
            ("m.nam", names.into()),
            ("m.dis", self.discretization()),
            ("m.bas", self.basics()),
            ("m.lpf", flow_package),
            ("m.wel", list(&self.wells())),
            ("m.riv", list(&rivers)),
            ("m.drn", list(&drains)),
            ("m.rch", format!("3 0\n0\nCONSTANT {recharge}\n")),
        ];
        for (name, text) in files {
            std::fs::write(folder.join(name), text).expect("a file");
        }
    }
}
