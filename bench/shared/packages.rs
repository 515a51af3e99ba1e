// Decks with wells, a river, drains, recharge and evapotranspiration, in steps with storage: one layer of square cells, 100 long and
// 20 thick. Conductivities vary smoothly by two orders of magnitude.
use std::fmt::Write;
use std::path::Path;

#[derive(Clone, Copy, PartialEq)]
pub enum Shape {
    /// Each cell is active; the first column has a constant head.
    Sheet,
    /// The cells of a basin with five lobes, and no constant head.
    Basin,
}

/// So many rows and columns, and stress periods of so many steps. Each period has other pumping rates and another recharge.
#[derive(Clone, Copy)]
pub struct Packages {
    pub shape: Shape,
    pub side: usize,
    pub periods: usize,
    pub steps: usize,
    pub days: u32,
    /// How much longer each step is than the last one.
    pub growth: &'static str,
}

struct Draws(u64);

impl Draws {
    fn below(&mut self, bound: usize) -> usize {
        self.0 = (self.0 * 1_103_515_245 + 12_345) % (1 << 31);
        (self.0 / 65_536) as usize % bound
    }

    // From 0 to 1.
    fn part(&mut self) -> f64 {
        self.below(10_000) as f64 / 10_000.0
    }
}

type Place = (usize, usize);

impl Packages {
    fn is_active(&self, (row, column): Place) -> bool {
        let middle = |index: usize| (index as f64 + 0.5) / self.side as f64 - 0.5;
        let (x, y) = (middle(column), middle(row));
        let radius = 0.46 + 0.04 * (5.0 * y.atan2(x)).sin();
        self.shape == Shape::Sheet || x * x + y * y < radius * radius
    }

    fn places(&self) -> impl Iterator<Item = Place> {
        let side = self.side;
        (0..side * side).map(move |index| (index / side, index % side))
    }

    // The variable cells.
    fn cells(&self) -> Vec<Place> {
        let is_constant = |place: &Place| self.shape == Shape::Sheet && place.1 == 0;
        self.places().filter(|place| self.is_active(*place) && !is_constant(place)).collect()
    }

    // The rows of a layer, a word for each cell.
    fn layer(&self, word: impl Fn(Place) -> String) -> String {
        let mut text = String::from("INTERNAL 1 (FREE) -1\n");
        for place in self.places() {
            text += &word(place);
            text.push(if place.1 + 1 == self.side { '\n' } else { ' ' });
        }
        text
    }

    fn discretization(&self) -> String {
        let Packages { side, periods, steps, days, growth, .. } = self;
        let mut text = format!("1 {side} {side} {periods} 4 2\n0\nCONSTANT 100\nCONSTANT 100\nCONSTANT 60\nCONSTANT 40\n");
        text += &format!("{days} {steps} {growth} TR\n").repeat(*periods);
        text
    }

    fn basics(&self) -> String {
        let ibound = self.layer(|place| {
            let constant = self.shape == Shape::Sheet && place.1 == 0;
            String::from(if constant { "-1" } else if self.is_active(place) { "1" } else { "0" })
        });
        format!("FREE\n{ibound}-999.99\nCONSTANT 50\n")
    }

    fn flow_package(&self, draws: &mut Draws) -> String {
        let waves: Vec<[f64; 4]> = (0..6)
            .map(|_| [0.5 + 2.5 * draws.part(), 0.5 + 2.5 * draws.part(), 6.0 * draws.part(), 6.0 * draws.part()])
            .collect();
        let part = |index: usize| 6.0 * index as f64 / self.side as f64;
        let conductivity = |(row, column): Place| {
            let wave = |[p, q, r, s]: &[f64; 4]| (p * part(row) + r).sin() * (q * part(column) + s).sin();
            format!("{:.3}", 10_f64.powf(0.3 * waves.iter().map(wave).sum::<f64>()).max(0.001))
        };
        format!("0 -1E+30 0\n0\n0\n1\n0\n0\n{}CONSTANT 0.01\nCONSTANT 1E-5\n", self.layer(conductivity))
    }

    // The head of a package's file, and the entries of each period, as those of the period before where there are none.
    fn lists(&self, count: usize, entries: impl Fn(usize) -> Option<String>) -> String {
        let mut text = format!("{count} 0\n");
        for period in 0..self.periods {
            match entries(period) {
                Some(entries) => write!(text, "{count} 0\n{entries}").unwrap(),
                None => text += "-1 0\n",
            }
        }
        text
    }

    fn wells(&self, draws: &mut Draws) -> String {
        let cells = self.cells();
        let places: Vec<Place> = (0..cells.len() / 200).map(|_| cells[draws.below(cells.len())]).collect();
        self.lists(places.len(), |period| {
            let rate = |well: usize| 20.0 + 30.0 * (1.0 + (0.5 * period as f64 + well as f64).sin());
            let entry = |(well, (row, column)): (usize, &Place)| format!("1 {} {} -{:.2}\n", row + 1, column + 1, rate(well));
            Some(places.iter().enumerate().map(entry).collect())
        })
    }

    // A river that winds through the rows.
    fn river(&self, draws: &mut Draws) -> String {
        let mut column = self.side / 2;
        let mut reaches = Vec::new();
        for row in 0..self.side {
            column = (column + draws.below(3)).clamp(2, self.side - 1) - 1;
            let stage = 52.0 - 4.0 * row as f64 / self.side as f64;
            if self.is_active((row, column)) {
                reaches.push(format!("1 {} {} {stage:.2} 200 {:.2}\n", row + 1, column + 1, stage - 3.0));
            }
        }
        self.lists(reaches.len(), |period| (period == 0).then(|| reaches.concat()))
    }

    fn drains(&self, draws: &mut Draws) -> String {
        let cells = self.cells();
        let mut entries = Vec::new();
        for _ in 0..cells.len() / 50 {
            let (row, column) = cells[draws.below(cells.len())];
            entries.push(format!("1 {} {} {:.2} 20\n", row + 1, column + 1, 49.0 + 3.0 * draws.part()));
        }
        self.lists(entries.len(), |period| (period == 0).then(|| entries.concat()))
    }

    fn recharge(&self) -> String {
        let rate = |period: usize| 0.0005 * (1.0 + 0.8 * (0.52 * period as f64).sin());
        let periods = (0..self.periods).map(|period| format!("0\nCONSTANT {:.6}\n", rate(period)));
        format!("3 0\n{}", periods.collect::<String>())
    }

    fn evapotranspiration(&self) -> String {
        let later = "-1 -1 -1\n".repeat(self.periods - 1);
        format!("3 0\n0 0 0\nCONSTANT 58\nCONSTANT 0.001\nCONSTANT 8\n{later}")
    }

    /// Writes the files of the model m.nam.
    pub fn write(&self, folder: &Path) {
        let draws = &mut Draws(5);
        let names = "DIS 11 m.dis\nBAS6 12 m.bas\nLPF 13 m.lpf\nWEL 14 m.wel\nRIV 15 m.riv\nDRN 16 m.drn\nRCH 17 m.rch\nEVT 18 m.evt\n";
        let files = [
            ("m.nam", names.into()),
            ("m.dis", self.discretization()),
            ("m.bas", self.basics()),
            ("m.lpf", self.flow_package(draws)),
            ("m.wel", self.wells(draws)),
            ("m.riv", self.river(draws)),
            ("m.drn", self.drains(draws)),
            ("m.rch", self.recharge()),
            ("m.evt", self.evapotranspiration()),
        ];
        for (name, text) in files {
            std::fs::write(folder.join(name), text).expect("a file");
        }
    }
}
